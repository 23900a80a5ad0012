//! Generated scripts that go at one thing many times: brightness pairs, publishes, the pauses of the
//! lint, commands where the lists are full, windows in which pixels vanish, pixel formats.

use crate::gen_scripts::{DOMAINS, Writer, bytes_text};
use crate::random::Random;
use crate::traffic::COMMANDS;

/// A lit panel with a few hundred pixels of any colour, looked at through many brightness pairs.
pub fn dimming_of(seed: u64) -> String {
    let random = &mut Random::new(seed);
    let mut writer = Writer::new(9);
    writer.line("power 1");
    writer.line("transfer 0 0 0 11292c");
    let bytes = random.bytes(960);
    writer.line(format!("transfer 0 1 1 {}", bytes_text(random, &bytes)));
    for _ in 0..600 {
        let (level, scale) = pair_of(random);
        writer.line(format!("brightness {level} {scale} 0"));
        let (x, y) = (random.below(240), random.below(2));
        writer.line(format!("pixel perceived {x} {y}"));
        if random.one_in(60) {
            writer.line(random.pick(&["view perceived", "switch 0", "switch 1"]));
        }
    }
    writer.text(random)
}

/// A brightness pair: small, at the largest numbers, near one another, or any; mostly brighter than
/// full.
fn pair_of(random: &mut Random) -> (u64, u64) {
    let most = u64::from(u32::MAX);
    let (a, b) = match random.below(4) {
        0 => (random.below(9), random.below(9)),
        1 => (most - random.below(3), random.below(70)),
        2 => {
            let near = random.within(1, most - 1);
            (near, near - 1 + random.below(3))
        }
        _ => (random.below(most + 1), random.below(most + 1)),
    };
    if random.one_in(4) {
        (a.min(b), a.max(b))
    } else {
        (a.max(b), a.min(b))
    }
}

/// A script of many publishes, each into a frame of one colour, with the frame's rows looked at
/// where the copied rows begin and end. The panel's rows are of any colours, and so are the first
/// and the last pixel of each.
pub fn publishing_of(seed: u64) -> String {
    let random = &mut Random::new(seed);
    let mut writer = Writer::new(9);
    writer.line("transfer 0 0 0 2c");
    for rows in [136, 136, 48] {
        let colour = |random: &mut Random| random.below(65_536);
        let row = |random: &mut Random| {
            let (first, middle, last) = (colour(random), colour(random), colour(random));
            format!("{first:04x},{middle:04x}*238,{last:04x}")
        };
        let rows: Vec<String> = (0..rows).map(|_| row(random)).collect();
        writer.line(format!("transfer 0 1 0 {}", rows.join(",")));
    }
    for _ in 0..320 {
        let (first, last) = span_of(random);
        writer.line(format!("set frame {:04x}", random.below(65_536)));
        writer.line(format!("set dirty {first} {last}"));
        writer.line("publish");
        let any = random.below(320);
        for row in [first.saturating_sub(1), first, last, last + 1, any] {
            writer.line(format!("row frame {row}"));
        }
    }
    writer.text(random)
}

/// A script of commands around the pauses of the lint, mostly under the strict profile, one in
/// three with the mode of Q-5 on: each alone or with others in a segment, before, at and after 5 ms since
/// the last SWRESET, or since some other command, and before it.
pub fn pauses_of(seed: u64) -> String {
    let random = &mut Random::new(seed);
    let mut writer = Writer::new(9);
    let strict = u8::from(!random.one_in(8));
    let mode = u8::from(random.one_in(3));
    writer.line(format!("fresh {} {strict} {mode}", random.below(2)));
    let mut time: u64 = random.pick(&[0, 0, 200_000_000, u64::MAX - 20_000_000]);
    let mut since = time;
    for _ in 0..500 {
        time = match random.below(10) {
            0 | 1 => time,
            2 => since.saturating_add(4_999_999),
            3 => since.saturating_add(5_000_000),
            4 => since.saturating_add(random.below(10_000_000)),
            5 => since.saturating_sub(random.pick(&[1, 2, 5_000_001, 90_000_000])),
            6 => time.saturating_add(random.below(8_000_000)),
            _ => time.saturating_add(random.below(800_000)),
        };
        let bytes = pause_commands(random);
        if bytes.contains(&0x01) || random.one_in(8) {
            since = time;
        }
        let name = if random.one_in(9) { "bare" } else { "transfer" };
        let release = u8::from(random.one_in(6));
        let bytes = bytes_text(random, &bytes);
        writer.line(format!("{name} {time} 0 {release} {bytes}"));
        match random.below(30) {
            0 | 1 => writer.line("take-warnings"),
            2 => {
                let colmod = random.pick(&["55", "66", "03", "07"]);
                writer.line(format!("set colmod {colmod}"));
            }
            3 if random.one_in(3) => writer.line(format!("reset {}", random.pick(&DOMAINS))),
            4 if random.one_in(4) => writer.any_call(random),
            5 => writer.line(format!("transfer {time} 1 0 f800")),
            _ => {}
        }
    }
    writer.text(random)
}

/// One command, or a few in a segment, SWRESET often.
fn pause_commands(random: &mut Random) -> Vec<u8> {
    let count = random.pick(&[1, 1, 1, 1, 1, 2, 3, 5]);
    let codes = [
        0x01, 0x01, 0x01, 0x00, 0x10, 0x11, 0x29, 0x2a, 0x2c, 0x3c, 0xb2,
    ];
    (0..count).map(|_| random.pick(&codes)).collect()
}

/// A script of segments of several commands where trace and warnings are full, under either
/// profile and in either mode, with no byte waiting, one or two, and data for the last command.
pub fn full_lists_of(seed: u64) -> String {
    let random = &mut Random::new(seed);
    let mut writer = Writer::new(9);
    let [switch, strict, mode] = [(); 3].map(|()| random.below(2));
    writer.line(format!("fresh {switch} {strict} {mode}"));
    fill_lists(&mut writer, random, 0);
    for time in 0..300 {
        if random.one_in(3) {
            writer.line(format!(
                "transfer {time} 0 0 {}",
                random.pick(&["2c", "3c"])
            ));
            let bytes = random.pick(&["f8", "f800", "f80007", "f80007e0", "-"]);
            writer.line(format!("transfer {time} 1 0 {bytes}"));
        }
        let count = random.within(2, 12);
        let plain = random.one_in(2);
        let code = |random: &mut Random| match plain {
            true => random.pick(&[0x00, 0x00, 0x2a, 0x36, 0x3c, 0xb2, 0xe0]),
            false => random.pick(&COMMANDS),
        };
        let commands: Vec<u8> = (0..count).map(|_| code(random)).collect();
        let name = if random.one_in(9) { "bare" } else { "transfer" };
        let release = u8::from(random.one_in(9));
        let bytes = bytes_text(random, &commands);
        writer.line(format!("{name} {time} 0 {release} {bytes}"));
        let length = random.pick(&[0, 1, 2, 3, 4, 4, 15]);
        let bytes = random.bytes(length);
        let bytes = bytes_text(random, &bytes);
        writer.line(format!("transfer {time} 1 0 {bytes}"));
        match random.below(30) {
            0..=5 => writer.line("publish"),
            6 => writer.line("dump"),
            7 => writer.line("boot"),
            8 if random.one_in(2) => {
                writer.line("take-warnings");
                fill_lists(&mut writer, random, time);
            }
            _ => {}
        }
    }
    writer.text(random)
}

/// Fills trace and warnings by rule 3, with a COLMOD that it warns of in either mode; then comes another.
fn fill_lists(writer: &mut Writer, random: &mut Random, time: u64) {
    writer.line("set colmod 00");
    writer.line(format!("transfer {time} 0 0 2c*130"));
    writer.line(format!(
        "set colmod {}",
        random.pick(&["66", "66", "03", "55", "00"])
    ));
}

/// A script of windows in which pixels vanish: inverted ones, and ones set under another MADCTL
/// than they are filled under. Each is filled by a few segments of any length, with their totals; one
/// script in three has the mode of Q-5 on.
pub fn vanishing_of(seed: u64) -> String {
    let random = &mut Random::new(seed);
    let mut writer = Writer::new(9);
    let mode = u8::from(random.one_in(3));
    writer.line(format!("fresh 1 0 {mode}"));
    for time in 0..160 {
        let madctl =
            |random: &mut Random| random.pick(&[0x00, 0x20, 0x40, 0x60, 0x80, 0xa0, 0xc0, 0xe0]);
        for command in ["2a", "2b"] {
            if random.one_in(2) {
                writer.send("36", &format!("{:02x}", madctl(random)));
            }
            let (first, last) = corners_of(random);
            writer.send(command, &format!("{first:04x}{last:04x}"));
        }
        if random.one_in(2) {
            writer.send("36", &format!("{:02x}", madctl(random)));
        }
        if random.one_in(8) {
            writer.format(random);
        }
        let run = random.pick(&["2c", "2c", "2c", "3c"]);
        writer.line(format!("transfer {time} 0 0 {run}"));
        for _ in 0..random.within(1, 4) {
            let length = match random.below(6) {
                0 => random.below(3),
                1 => random.within(7, 10),
                2 => random.within(470, 650),
                3 => random.below(5_000),
                _ => random.below(200),
            };
            let name = random.pick(&["totals", "totals", "totals", "transfer", "bare"]);
            let release = u8::from(random.one_in(9));
            let bytes = format!("{:02x}*{length}", random.byte());
            writer.line(format!("{name} {time} 1 {release} {bytes}"));
        }
        match random.below(40) {
            0 => writer.line(format!("reset {}", random.pick(&DOMAINS))),
            1 => writer.line("transfer 0 0 0 01"),
            2 => writer.line("dump"),
            3 | 4 => {
                let count = random.pick(&["lost_inverted", "lost_unmapped"]);
                writer.line(format!("set {count} {}", random.pick(&HIGH)));
                writer.line(format!("totals {time} 1 0 f8*{}", random.below(200)));
                writer.line(format!("totals {time} 1 0 f800"));
                writer.line("dump");
                writer.line(format!("set {count} 0"));
            }
            5 => writer.any_call(random),
            6 => writer.line(format!("fresh {} 0 {mode}", random.below(2))),
            _ => {}
        }
    }
    writer.text(random)
}

/// A script of runs in every pixel format, seven of eight times with the mode on: each in a format
/// and a place of its own or in those of the run before, cut anywhere, begun by 2C or gone on with by
/// 3C.
pub fn formats_of(seed: u64) -> String {
    let random = &mut Random::new(seed);
    let mut writer = Writer::new(9);
    let mode = u8::from(!random.one_in(8));
    let (switch, strict) = (random.below(2), random.below(2));
    writer.line(format!("fresh {switch} {strict} {mode}"));
    for time in 0..130 {
        if random.one_in(2) {
            writer.format(random);
        }
        if random.one_in(4) {
            new_place(&mut writer, random);
        }
        let run = random.pick(&["2c", "3c", "3c"]);
        writer.line(format!("transfer {time} 0 0 {run}"));
        for _ in 0..random.within(1, 8) {
            cut_data(&mut writer, random, time);
        }
        let row = random.below(320);
        writer.line(format!("row panel {}", random.pick(&[0, 0, 319, row])));
        between_runs(&mut writer, random, time, mode);
    }
    writer.text(random)
}

/// A MADCTL of any value, or a window: the whole, or one in which pixels may vanish.
fn new_place(writer: &mut Writer, random: &mut Random) {
    if random.one_in(2) {
        writer.send("36", &format!("{:02x}", random.byte()));
    }
    let whole = random.one_in(2);
    for (command, end) in [("2a", 239), ("2b", 319)] {
        let (first, last) = if whole { (0, end) } else { corners_of(random) };
        writer.send(command, &format!("{first:04x}{last:04x}"));
    }
}

/// Data of a run: mostly a few bytes, so that pixels are cut anywhere.
fn cut_data(writer: &mut Writer, random: &mut Random, time: u64) {
    let length = match random.below(12) {
        0 => 0,
        1..=8 => random.within(1, 5),
        _ => random.within(6, 40),
    };
    let bytes = random.bytes(length as usize);
    let bytes = match random.below(20) {
        0 if length > 0 => format!("{}*{}", hex_text(&bytes), random.below(90)),
        _ => bytes_text(random, &bytes),
    };
    let name = random.pick(&["transfer", "transfer", "totals", "totals", "bare"]);
    let release = u8::from(random.one_in(30));
    writer.line(format!("{name} {time} 1 {release} {bytes}"));
}

/// What comes between two runs: mostly nothing, else a reset, a look, a new panel, or bytes set to wait.
fn between_runs(writer: &mut Writer, random: &mut Random, time: u64, mode: u8) {
    match random.below(30) {
        0 => writer.line(format!("transfer {time} 0 0 01")),
        1 => writer.line(format!("reset {}", random.pick(&DOMAINS))),
        2 | 3 => writer.line("publish"),
        4 => writer.line("take-warnings"),
        5 => writer.line(format!("transfer {time} 0 1 -")),
        6 => writer.any_call(random),
        7 => writer.line(format!("switch {}", random.below(2))),
        8 if random.one_in(2) => writer.line(format!("fresh 1 {} {mode}", random.below(2))),
        9 | 10 => set_waiting(writer, random, time, mode),
        11 => change_colmod(writer, random, time),
        _ => {}
    }
}

/// One or two bytes set to wait in any mode and format, and calls that are refused then or not. After them
/// nothing waits, and the mode is the script's.
fn set_waiting(writer: &mut Writer, random: &mut Random, time: u64, mode: u8) {
    if random.one_in(2) {
        writer.line(format!("set formats {}", random.below(2)));
    }
    if random.one_in(2) {
        writer.line(format!("set colmod {:02x}", random.byte()));
    }
    let length = random.pick(&[1, 2, 2]);
    let bytes = random.bytes(length);
    writer.line(format!("set carry {}", hex_text(&bytes)));
    for _ in 0..random.within(1, 3) {
        let bytes = random.bytes(length);
        let bytes = hex_text(&bytes);
        writer.line(match random.below(8) {
            0 | 1 => "publish".to_string(),
            2 => format!("transfer {time} 0 0 3c"),
            3 => format!("bare {time} 1 0 {bytes}"),
            4 => format!("transfer {time} 0 1 -"),
            5 => format!("reset {}", random.pick(&["board_rail", "rtc"])),
            _ => format!("totals {time} 1 0 {bytes}"),
        });
    }
    writer.line("set carry none");
    writer.line(format!("set formats {mode}"));
}

/// Two bytes wait, the run is off and 3A is in force: its data may make the state a bad one.
fn change_colmod(writer: &mut Writer, random: &mut Random, time: u64) {
    writer.line("set colmod 66");
    writer.line("set carry f80f");
    writer.line("set run 0");
    writer.line("set cmd 3a");
    writer.line("set params -");
    writer.line("set applied 0");
    writer.line("set current none");
    let colmod = random.pick(&["55", "03", "06", "00", "ff"]);
    writer.line(format!("transfer {time} 1 0 {colmod}"));
    let after = random.pick(&["transfer 0 1 0 66", "publish", "bare 0 0 0 3c"]);
    writer.line(after);
    writer.line("set carry none");
}

fn hex_text(bytes: &[u8]) -> String {
    bytes.iter().map(|byte| format!("{byte:02x}")).collect()
}

/// Counts with which a transfer passes, and one with which it doesn't.
const HIGH: [u64; 4] = [(1 << 63) - 70_000, (1 << 63) - 1, 1 << 63, (1 << 63) + 1];

/// Two corners of a window: in order, the other way round, or past where the panel ends.
fn corners_of(random: &mut Random) -> (u64, u64) {
    let (a, b) = (random.below(320), random.below(320));
    match random.below(5) {
        0 => (a.max(b), a.min(b)),
        1 => (random.within(200, 260), 319),
        2 => (0, 319),
        3 => (a, a),
        _ => (a.min(b), a.max(b)),
    }
}

/// The first and the last row of a span: one row, all, from the top, to the bottom, or any.
fn span_of(random: &mut Random) -> (u64, u64) {
    let (a, b) = (random.below(320), random.below(320));
    match random.below(6) {
        0 => (a, a),
        1 => (0, 319),
        2 => (0, b),
        3 => (a, 319),
        _ => (a.min(b), a.max(b)),
    }
}
