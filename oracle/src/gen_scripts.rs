//! Generated scripts: traffic between the other calls, and states set at and around every limit.

use crate::log::Segment;
use crate::random::Random;
use crate::st7789::STORED_COMMANDS;
use crate::traffic::Traffic;

/// No line is added that would end past this many bytes (a comment or spaces may come on top).
const SCRIPT_LIMIT: usize = 65_000;

/// Lengths to lend, most of them wrong.
const LENGTHS: [u64; 6] = [0, 1, 240, 76_799, 76_800, 76_801];

/// Counts at and around 2^63.
const COUNTS: [u64; 7] = [
    0,
    (1 << 63) - 65_536,
    (1 << 63) - 1,
    1 << 63,
    (1 << 63) + 1,
    u64::MAX - 1,
    u64::MAX,
];

/// What is counted of the whole panel.
const TALLIES: [&str; 6] = [
    "commands",
    "ramwrs",
    "pixels",
    "dropped",
    "lost_inverted",
    "lost_unmapped",
];

/// COLMOD values: each of the low three bits that name a pixel format, with several upper ones, and
/// each of the others.
const COLMODS: [&str; 14] = [
    "55", "66", "53", "03", "05", "06", "fb", "fe", "5d", "00", "41", "62", "04", "07",
];

/// Coordinates at and around the limits.
const EDGES: [u64; 8] = [0, 1, 239, 240, 318, 319, 320, 65_535];

pub const DOMAINS: [&str; 7] = [
    "mcu_rail",
    "rtc",
    "board_rail",
    "battery",
    "card",
    "flash",
    "host",
];

const VIEWS: [&str; 3] = ["raw", "glass", "perceived"];

/// Lines that make no sense.
const BAD_LINES: [&str; 71] = [
    "transfer",
    "transfer 0 0 0",
    "transfer 0 0 0 2c 00",
    "transfer 0 2 0 2c",
    "transfer 0 0 2 2c",
    "transfer 0 0 00 2c",
    "transfer -1 0 0 2c",
    "transfer +1 0 0 2c",
    "transfer 1x 0 0 2c",
    "transfer 18446744073709551616 0 0 2c",
    "transfer 0 0 0 2C",
    "transfer 0 0 0 2",
    "transfer 0 0 0 2c,",
    "transfer 0 0 0 ,2c",
    "transfer 0 0 0 2c,,2c",
    "transfer 0 0 0 2c*",
    "transfer 0 0 0 *2",
    "transfer 0 0 0 2c*1*1",
    "transfer 0 0 0 --",
    "transfer 0 0 0 -,2c",
    "transfer 0 1 0 00*65538",
    "transfer 0 1 0 00*65537,00",
    "bare 0 0 0",
    "power 2",
    "power",
    "switch on",
    "brightness 1 2",
    "brightness 4294967296 1 0",
    "brightness 1 1 65536",
    "mark-all 1",
    "reset board",
    "reset",
    "fresh",
    "fresh 1 2",
    "fresh 2 1",
    "fresh 1 0 2",
    "fresh 1 1 1 1",
    "publish 1",
    "view all",
    "pixels",
    "pixels all",
    "pixels raw 0",
    "pixel raw 0",
    "pixel raw 65536 0",
    "row view 0",
    "row panel 65536",
    "lend memory 76802",
    "lend all 0",
    "set",
    "set none",
    "set win 0 0 0 0 0",
    "set stored 2c 00",
    "set stored none",
    "set warnings 0 2c 0",
    "set warnings 5 2c 0",
    "set strict 2",
    "set formats 2",
    "set carry f8000",
    "set carry f80007",
    "totals",
    "totals 0 1 0",
    "totals 0 1 0 f800 00",
    "totals 0 1 2 f800",
    "set lost 1",
    "set lost_inverted none",
    "set lost_unmapped 18446744073709551616",
    "set swreset",
    "set current 256",
    "set params 00*256",
    "set ramctrl 00",
    "\tpublish",
];

/// The script of a seed.
pub fn script(seed: u64) -> String {
    script_of(seed, 14)
}

/// The script of a seed with at most this many scenes.
pub fn script_of(seed: u64, most: u64) -> String {
    let random = &mut Random::new(seed);
    let mut writer = Writer::new(if most > 6 { 9 } else { 3 });
    if random.one_in(4) {
        writer.line(format!("fresh {} {} 1", random.below(2), random.below(2)));
    }
    if random.one_in(if most > 6 { 5 } else { 12 }) {
        writer.boot(random);
    }
    if random.one_in(2) {
        writer.lit(random);
    }
    if random.one_in(if most > 6 { 30 } else { 150 }) {
        writer.every_madctl(random);
    }
    let scenes = random.within(1, most);
    for _ in 0..scenes {
        match random.below(17) {
            0..=4 => writer.traffic(random, most.min(6)),
            5 => writer.views(random),
            6 => writer.lent_lengths(random),
            7 | 8 => writer.odd_state(random),
            9..=11 => writer.bad_state(random),
            12 if most > 6 || random.one_in(3) => writer.long_lists(random),
            13 => writer.call_then_go_on(random),
            14 | 15 => writer.formats(random),
            _ => writer.long_segments(random),
        }
        for _ in 0..random.below(3) {
            writer.any_call(random);
        }
    }
    if random.one_in(20) {
        writer.line(random.pick(&BAD_LINES));
    }
    writer.text(random)
}

/// The lines of a script.
pub struct Writer {
    lines: Vec<String>,
    /// Of so many whole views one is shown by its pixels: fewer in long scripts.
    pixels: u64,
}

impl Writer {
    pub fn new(pixels: u64) -> Writer {
        let lines = Vec::new();
        Writer { lines, pixels }
    }

    pub fn line(&mut self, line: impl Into<String>) {
        self.lines.push(line.into());
    }

    /// The lines with comments, empty lines and more spaces at times; the last newline may lack.
    pub fn text(self, random: &mut Random) -> String {
        let mut text = String::new();
        for line in self.lines {
            if text.len() + line.len() > SCRIPT_LIMIT {
                break;
            }
            match random.below(60) {
                0 => text.push_str("# a comment\n"),
                1 => text.push('\n'),
                2 => text.push_str("   \n"),
                3 => text.push_str("  "),
                _ => {}
            }
            text.push_str(&line);
            match random.below(60) {
                0 => text.push_str(" # a comment"),
                1 => text.push_str("#comment"),
                2 => text.push_str("  "),
                _ => {}
            }
            text.push('\n');
        }
        if random.one_in(8) {
            text.pop();
        }
        text
    }

    fn transfer(&mut self, random: &mut Random, segment: &Segment) {
        let name = match random.below(12) {
            0 => "bare",
            1..=4 => "totals",
            _ => "transfer",
        };
        self.line(format!(
            "{name} {} {} {} {}",
            segment.time,
            u8::from(segment.dc),
            u8::from(segment.release),
            bytes_text(random, &segment.bytes)
        ));
    }

    /// Powered, awake, on and at some brightness.
    fn lit(&mut self, random: &mut Random) {
        self.line("power 1");
        self.line("transfer 0 0 0 1129");
        if random.one_in(2) {
            self.line("transfer 10000000 0 1 21");
        }
        self.brightness(random);
    }

    fn brightness(&mut self, random: &mut Random) {
        let most = u64::from(u32::MAX);
        let numbers = [0, 1, 2, 3, 512, 1023, 1024, 65_536, 1 << 20, most - 1, most];
        let (level, scale) = match random.below(3) {
            0 => (random.below(1025), 1024),
            _ => (random.pick(&numbers), random.pick(&numbers)),
        };
        let duty = random.pick(&[0, 1, 16_384, 65_535]);
        self.line(format!("brightness {level} {scale} {duty}"));
    }

    /// Scenes of transfers with other calls between them.
    fn traffic(&mut self, random: &mut Random, most: u64) {
        let mut traffic = Traffic::new(random);
        for _ in 0..traffic.random.within(1, most) {
            traffic.scene();
        }
        for segment in traffic.take() {
            self.transfer(random, &segment);
            if random.one_in(12) {
                self.any_call(random);
            }
            if random.one_in(30) {
                self.format(random);
            }
        }
    }

    /// A command with its data.
    pub fn send(&mut self, command: &str, data: &str) {
        self.line(format!("transfer 0 0 0 {command}"));
        self.line(format!("transfer 0 1 0 {data}"));
    }

    /// A pixel format: COLMOD, and at times RAMCTRL with its ENDIAN bit either way.
    pub fn format(&mut self, random: &mut Random) {
        let colmod = match random.below(6) {
            0 => format!("{:02x}", random.byte()),
            _ => random.pick(&COLMODS).to_string(),
        };
        self.send("3a", &colmod);
        if random.one_in(2) {
            let ramctrl = match random.below(3) {
                0 => random.below(65_536),
                _ => random.pick(&[0x0000, 0x0008, 0x00f0, 0x00f8, 0x0800, 0x08f7]),
            };
            self.send("b0", &format!("{ramctrl:04x}"));
        }
    }

    /// A run in a pixel format, cut anywhere, and gone on with after a command or a release.
    fn formats(&mut self, random: &mut Random) {
        if !random.one_in(5) {
            self.line("set formats 1");
        }
        self.format(random);
        for _ in 0..random.within(1, 3) {
            let begin = random.pick(&["2c", "2c", "3c", "3c", "3c", "00", "01", "-"]);
            let release = u8::from(random.one_in(12));
            self.line(format!("transfer 4 0 {release} {begin}"));
            for _ in 0..random.within(1, 3) {
                let length = random.pick(&[1, 1, 2, 2, 3, 4, 5, 7]);
                let segment = Segment {
                    time: 4,
                    dc: true,
                    release: random.one_in(12),
                    bytes: random.bytes(length),
                };
                self.transfer(random, &segment);
            }
        }
        self.line(format!("row panel {}", random.pick(&[0, 0, 1, 319])));
    }

    /// Two bytes wait in a format that lets them.
    fn two_wait(&mut self, random: &mut Random) {
        self.line("set formats 1");
        self.line(format!(
            "set colmod {}",
            random.pick(&["66", "03", "53", "fe"])
        ));
        self.line(format!("set carry {:04x}", random.below(65_536)));
    }

    /// A run that leaves a byte waiting or not, one other call, then 3C or more data.
    fn call_then_go_on(&mut self, random: &mut Random) {
        for _ in 0..random.within(1, 3) {
            let begin = random.pick(&["2c", "2c", "3c", "363c", "002c"]);
            self.line(format!("transfer 3 0 0 {begin}"));
            let bytes = random.pick(&["f8", "f800", "f80007", "f80007e0", "-", "00*485"]);
            self.line(format!("transfer 3 1 0 {bytes}"));
            self.any_call(random);
            if !random.one_in(4) {
                self.line("transfer 3 0 0 3c");
            }
            let bytes = random.pick(&["1f", "001f", "07e000", "-"]);
            let release = random.below(2);
            self.line(format!("transfer 3 1 {release} {bytes}"));
            self.line("publish");
        }
    }

    /// A boot as firmware sends it, at times with one thing changed, and its comparison.
    fn boot(&mut self, random: &mut Random) {
        let mut traffic = Traffic::new(random);
        traffic.boot();
        for segment in traffic.take() {
            self.transfer(random, &segment);
        }
        self.line("boot");
    }

    fn every_madctl(&mut self, random: &mut Random) {
        let mut traffic = Traffic::new(random);
        traffic.every_madctl();
        for segment in traffic.take() {
            self.transfer(random, &segment);
        }
    }

    /// One call that is not a transfer.
    pub fn any_call(&mut self, random: &mut Random) {
        match random.below(24) {
            0..=4 => self.line("publish"),
            5 => self.line(format!("power {}", random.below(2))),
            6 => self.line(format!("switch {}", random.below(2))),
            7 => self.brightness(random),
            8 => self.line("mark-all"),
            9 => self.line("take-warnings"),
            10 => self.line(format!("reset {}", random.pick(&DOMAINS))),
            11 if random.one_in(3) => self.fresh(random),
            12 => self.view(random),
            13..=15 => self.pixel(random),
            16..=18 => self.row(random),
            19 | 20 => self.line("boot"),
            21 if random.one_in(4) => self.line("dump"),
            _ => self.line("transfer 0 1 0 -"),
        }
    }

    /// A panel made anew, with its profile and its mode named or left out.
    fn fresh(&mut self, random: &mut Random) {
        let chosen = random.pick(&["", "", " 0", " 1", " 1", " 0 1", " 0 1", " 1 1", " 1 0"]);
        self.line(format!("fresh {}{chosen}", random.below(2)));
    }

    /// A whole view by its digest, or at times by its pixels.
    fn view(&mut self, random: &mut Random) {
        let pixels = random.one_in(self.pixels);
        let call = if pixels { "pixels" } else { "view" };
        self.line(format!("{call} {}", random.pick(&VIEWS)));
    }

    fn pixel(&mut self, random: &mut Random) {
        let near = random.one_in(2);
        let (x, y) = if near {
            (random.below(6), random.below(3))
        } else {
            (random.pick(&EDGES), random.pick(&EDGES))
        };
        self.line(format!("pixel {} {x} {y}", random.pick(&VIEWS)));
    }

    fn row(&mut self, random: &mut Random) {
        let of = random.pick(&["panel", "frame"]);
        let row = match random.below(2) {
            0 => random.pick(&EDGES),
            _ => random.below(321),
        };
        self.line(format!("row {of} {row}"));
    }

    /// A few changes of what the views depend on, with the views after each.
    fn views(&mut self, random: &mut Random) {
        if random.one_in(2) {
            self.line(format!("set memory {:04x}", random.below(65_536)));
        }
        if random.one_in(2) {
            self.line("power 1");
            self.line("set sleeping 0");
            self.line("set on 1");
            self.brightness(random);
        }
        for _ in 0..random.within(1, 4) {
            match random.below(6) {
                0 => self.line(format!("power {}", random.below(2))),
                1 => self.line(format!("switch {}", random.below(2))),
                2 => self.line(format!("set inverted {}", random.below(2))),
                3 => self.line(format!("set sleeping {}", random.below(2))),
                4 => self.line(format!("set on {}", random.below(2))),
                _ => self.brightness(random),
            }
            self.view(random);
            self.pixel(random);
        }
    }

    /// Each kind of call once or more, so that every test of the state it makes is seen.
    fn probes(&mut self, random: &mut Random) {
        for _ in 0..random.within(2, 6) {
            match random.below(18) {
                0 => self.line("transfer 7 0 0 2c"),
                1 => self.line("transfer 7 1 0 f80007"),
                2 => self.line("transfer 7 1 0 -"),
                3 => self.line("transfer 7 0 0 -"),
                4 => self.line("transfer 7 0 1 -"),
                5 => self.line("bare 7 0 0 3c"),
                6 => self.line("bare 7 1 0 f800"),
                7 => self.line("publish"),
                8 => self.view(random),
                9 => self.pixel(random),
                10 => self.row(random),
                11 => self.line("boot"),
                12 => self.line(format!("reset {}", random.pick(&DOMAINS))),
                13 => self.line("transfer 7 1 0 00*65537"),
                14 => self.line("bare 7 1 0 00*65537"),
                15 => self.line("totals 7 1 0 f80007e000"),
                16 => self.line(random.pick(&["totals 7 1 0 00*65537", "totals 7 0 0 2c"])),
                _ => self.any_call(random),
            }
        }
    }

    /// Buffers lent with lengths around 76,800, probed, and mostly lent in full again.
    fn lent_lengths(&mut self, random: &mut Random) {
        for _ in 0..random.within(1, 2) {
            let of = random.pick(&["memory", "frame", "view"]);
            self.line(format!("lend {of} {}", random.pick(&LENGTHS)));
        }
        if random.one_in(3) {
            self.fresh(random);
        }
        if random.one_in(6) {
            self.line("transfer 0 1 0 00*65537");
        }
        self.probes(random);
        if random.one_in(8) {
            self.line(format!("set memory {:04x}", random.below(65_536)));
        }
        if !random.one_in(8) {
            for of in ["memory", "frame", "view"] {
                self.line(format!("lend {of} 76800"));
            }
        }
    }

    /// A state that the table lets pass though no call may reach it, then traffic on it.
    fn odd_state(&mut self, random: &mut Random) {
        for _ in 0..random.within(1, 6) {
            self.good_field(random);
        }
        if random.one_in(4) {
            self.count_within(random);
        }
        if !random.one_in(3) {
            self.good_context(random);
        }
        if random.one_in(4) {
            self.two_wait(random);
        }
        if random.one_in(2) {
            self.line("transfer 3 1 0 -");
        }
        if random.one_in(2) {
            let length = random.within(1, 20) as usize;
            let bytes = random.bytes(length);
            self.line(format!("transfer 3 1 0 {}", bytes_text(random, &bytes)));
        }
        self.probes(random);
        if random.one_in(2) {
            self.traffic(random, 2);
        }
        if random.one_in(3) {
            self.line("dump");
        }
    }

    /// One field at a value within the table.
    fn good_field(&mut self, random: &mut Random) {
        let line = match random.below(20) {
            0 => format!("set madctl {:02x}", random.byte()),
            1 => format!("set colmod {}", random.pick(&COLMODS)),
            2 => format!("set ramctrl {:04x}", random.below(65_536)),
            3 | 4 => {
                let [xs, xe, ys, ye, x, y] = [(); 6].map(|()| match random.below(3) {
                    0 => random.pick(&[0, 1, 238, 239, 240, 318, 319]),
                    _ => random.below(320),
                });
                format!("set win {xs} {xe} {ys} {ye} {x} {y}")
            }
            5 => {
                let (left, top) = (random.below(316), random.below(316));
                let (right, bottom) = (left + random.below(4), top + random.below(4));
                let (x, y) = (random.below(320), random.below(320));
                format!("set win {left} {right} {top} {bottom} {x} {y}")
            }
            6 => {
                let first = random.below(320);
                format!("set dirty {first} {}", random.within(first, 319))
            }
            7 => random
                .pick(&["set dirty none", "set dirty 319 319", "set dirty 0 319"])
                .into(),
            8 => format!(
                "set slpout {}",
                random.pick(&["none", "0", "1", "4999994", "5000007"])
            ),
            9 => format!("set slpin {}", random.pick(&[0, 1, 119_999_993, u64::MAX])),
            10 => {
                let c = random.pick(STORED_COMMANDS);
                let length = random.pick(&[0, 1, 13, 14]);
                let list = random.bytes(length);
                format!("set stored {c:02x} {}", bytes_text(random, &list))
            }
            11 => format!("set stored {:02x} none", random.pick(STORED_COMMANDS)),
            12 => format!("set memory {:04x}", random.below(65_536)),
            13 => format!("set frame {:04x}", random.below(65_536)),
            14 | 15 => format!("set strict {}", random.below(2)),
            16 => format!(
                "set swreset {}",
                random.pick(&["none", "0", "1", "3", "4999994", "18446744073709551615"])
            ),
            17 | 18 => format!("set formats {}", random.below(2)),
            _ => format!("set carry {}", random.pick(&["none", "00", "f8"])),
        };
        self.line(line);
    }

    /// A count at or below 2^63, used once, then small again: the next transfer may be refused.
    fn count_within(&mut self, random: &mut Random) {
        let count = random.pick(&TALLIES);
        self.line(format!("set {count} {}", random.pick(&COUNTS[..4])));
        let bytes = random.pick(&["2c", "2c2c", "00", "b2"]);
        self.line(format!("transfer 3 0 0 {bytes}"));
        self.line(format!(
            "transfer 3 1 0 {}",
            random.pick(&["f800", "00*16", "-"])
        ));
        self.line(format!(
            "transfer 3 1 0 {}",
            random.pick(&["f800", "00*16", "-"])
        ));
        self.line("dump");
        self.line(format!("set {count} {}", random.below(9)));
    }

    /// Command, parameters, run and current record that agree as the table asks, in odd company.
    fn good_context(&mut self, random: &mut Random) {
        let c = match random.below(2) {
            0 => random.pick(&["2a", "2b", "36", "3a", "b0"]),
            _ => random.pick(&["none", "2c", "3c", "b2", "e1", "01", "00", "10", "ff"]),
        };
        let length = random.pick(&[0, 1, 2, 3, 4, 5, 8, 13, 14]);
        let params = random.bytes(length);
        let params = bytes_text(random, &params);
        self.line(format!("set cmd {c}"));
        self.line(format!("set params {params}"));
        self.line(format!("set run {}", u8::from(random.one_in(4))));
        self.line(format!("set applied {}", random.below(2)));
        self.line(format!("set carry {}", random.pick(&["none", "00", "f8"])));
        if random.one_in(2) {
            self.line("set current none");
            return;
        }
        self.line("set trace none");
        let before = random.pick(&[0, 0, 0, 0, 0, 1, 1, 1, 2, 2, 126, 127]);
        for at in 0..before {
            let high = random.pick(&COUNTS);
            self.line(format!("set trace {:02x} {at} {high} -", random.byte()));
        }
        let pixel_bytes = random.pick(&[0, 1, (1u64 << 63) - 1, 1 << 63]);
        self.line(format!(
            "set trace {:02x} 5 {pixel_bytes} {params}",
            random.byte()
        ));
        self.line(format!("set current {before}"));
    }

    /// One thing at or past a limit of the table, probed, and mostly put right again.
    fn bad_state(&mut self, random: &mut Random) {
        let (set, right) = match random.below(14) {
            0 | 1 => {
                let mut win = [(); 6].map(|()| random.below(320));
                win[random.below(6) as usize] = random.pick(&EDGES[4..]);
                let [xs, xe, ys, ye, x, y] = win;
                (
                    format!("set win {xs} {xe} {ys} {ye} {x} {y}"),
                    "set win 0 239 0 319 0 0".to_string(),
                )
            }
            2 => {
                let length = random.pick(&[13, 14, 15, 16, 255]);
                self.line("set current none");
                (
                    format!("set params 5a*{length}"),
                    "set params -".to_string(),
                )
            }
            3 => {
                let c = random.pick(STORED_COMMANDS);
                let length = random.pick(&[13, 14, 15, 16, 255]);
                (
                    format!("set stored {c:02x} a5*{length}"),
                    format!("set stored {c:02x} none"),
                )
            }
            4 => {
                let length = random.pick(&[13, 14, 15, 16, 255]);
                self.line(format!("set trace {:02x} 0 0 01*{length}", random.byte()));
                let after = random.pick(&["-", "5a", "5a*14"]);
                (
                    format!("set trace {:02x} 1 0 {after}", random.byte()),
                    "set trace none".to_string(),
                )
            }
            5 => (
                random
                    .pick(&[
                        "set dirty 0 320",
                        "set dirty 320 320",
                        "set dirty 319 320",
                        "set dirty 5 4",
                        "set dirty 319 318",
                        "set dirty 319 319",
                        "set dirty 4 4",
                        "set dirty 65535 65535",
                        "set dirty 65535 0",
                    ])
                    .to_string(),
                "set dirty none".to_string(),
            ),
            6 | 7 => {
                let count = random.pick(&TALLIES);
                (
                    format!("set {count} {}", random.pick(&COUNTS[2..])),
                    format!("set {count} 3"),
                )
            }
            8 | 9 => {
                // A current record that is or isn't the last, with the same or other parameters.
                let lists = ["-", "-", "00", "01", "0001"];
                self.line("set trace none");
                let count = random.below(4);
                for _ in 0..count {
                    let pixel_bytes = random.pick(&[0, 0, 0, 1 << 63, u64::MAX]);
                    let list = random.pick(&lists);
                    self.line(format!("set trace 2c 0 {pixel_bytes} {list}"));
                }
                self.line(format!("set params {}", random.pick(&lists)));
                let index = match random.below(3) {
                    0 => random.pick(&[0, 1, 2, 3, 127, 128, 255]),
                    _ => count.saturating_sub(1),
                };
                (
                    format!("set current {index}"),
                    "set current none".to_string(),
                )
            }
            10 | 11 => {
                // Two bytes that wait, or one, in any mode and format.
                self.line(format!("set formats {}", random.below(2)));
                self.line(format!("set colmod {}", random.pick(&COLMODS)));
                let waiting = random.pick(&["f8", "f800", "f800", "0000", "07e0"]);
                (format!("set carry {waiting}"), "set carry none".to_string())
            }
            _ => {
                // A current record whose pixel bytes are at or past the limit.
                self.line("set trace none");
                self.line("set params -");
                self.line(format!("set trace 2c 0 {} -", random.pick(&COUNTS[2..])));
                ("set current 0".to_string(), "set trace none".to_string())
            }
        };
        let sets_trace = right.starts_with("set trace");
        self.line(set);
        // At times a wrong length as well: the order of the tests shows.
        let of = random.pick(&["memory", "frame", "view"]);
        let lends = random.one_in(3);
        if lends {
            self.line(format!("lend {of} {}", random.pick(&LENGTHS)));
        }
        self.probes(random);
        if lends {
            self.line(format!("lend {of} 76800"));
        }
        if random.one_in(4) {
            self.line("dump");
        }
        if !random.one_in(8) {
            self.line(right);
            if sets_trace {
                self.line("set current none");
            }
        }
    }

    /// Trace or warnings filled to a count around 128, or to 255, then used.
    fn long_lists(&mut self, random: &mut Random) {
        let count = random.pick(&[126, 127, 128, 129, 130, 255]);
        if random.one_in(2) {
            self.line("set current none");
            self.line("set trace none");
            for at in 0..count {
                self.line(format!("set trace {:02x} {at} 0 -", random.byte()));
            }
            if random.one_in(3) {
                let before = u64::from(random.one_in(2));
                self.line("set params -");
                self.line(format!("set current {}", count - before));
            }
        } else {
            self.line("set warnings none");
            for at in 0..count {
                let rule = random.within(1, 4);
                self.line(format!("set warnings {rule} {:02x} {at}", random.byte()));
            }
        }
        self.line("transfer 9 0 0 2c10113c");
        self.line("transfer 9 1 0 f80007");
        self.probes(random);
        if random.one_in(2) {
            self.line("take-warnings");
        }
        if random.one_in(2) {
            self.line("dump");
        }
        if !random.one_in(6) {
            self.line("set current none");
            self.line("set trace none");
            self.line("set warnings none");
        }
    }

    /// Segments around 65,536 bytes, as pixels, parameters or commands.
    fn long_segments(&mut self, random: &mut Random) {
        match random.below(4) {
            0 => {
                let c = random.pick(&["00", "2a", "b2", "e0", "3a"]);
                self.line(format!("transfer 0 0 0 {c}"));
            }
            1 => self.line("transfer 0 0 0 2a2c"),
            _ => self.line(format!("transfer 0 0 0 {}", random.pick(&["2c", "3c"]))),
        }
        let name = if random.one_in(6) { "bare" } else { "transfer" };
        let a = random.below(65_536);
        let b = random.below(65_536);
        let bytes = match random.below(6) {
            0 => format!("{a:04x}*32768"),
            1 => format!("{a:04x}*32768,07"),
            2 => format!("{a:04x}{b:04x}07*13107,e0"),
            3 => "07*65537".to_string(),
            4 => format!("{a:04x}*20000,{b:04x}*12767,ff"),
            _ => format!("{a:04x}*{},{b:04x}", random.below(30_000)),
        };
        if random.one_in(10) {
            // As commands: mostly fewer, since each takes far longer than a pixel.
            let most = if random.one_in(50) { 65_536 } else { 400 };
            self.line(format!("{name} 0 0 0 {:02x}*{most}", a % 256));
            self.line(format!("{name} 0 0 0 {:02x}*65537", a % 256));
        }
        self.line(format!("{name} 0 1 0 {bytes}"));
        if random.one_in(2) {
            self.line(format!("transfer 0 1 0 {a:04x}*32768"));
            self.line(format!("transfer 0 1 {} {b:04x}*20000", random.below(2)));
        }
    }
}

/// BYTES: hex, cut into pieces at times, with a count where all bytes are the same.
pub fn bytes_text(random: &mut Random, bytes: &[u8]) -> String {
    let Some(first) = bytes.first() else {
        return if random.one_in(30) { "00*0" } else { "-" }.to_string();
    };
    if bytes.len() > 2 && bytes.iter().all(|byte| byte == first) {
        return format!("{first:02x}*{}", bytes.len());
    }
    let cut = random.one_in(10);
    let mut text = String::new();
    for (at, byte) in bytes.iter().enumerate() {
        if cut && at > 0 && random.one_in(4) {
            text.push(',');
        }
        text.push_str(&format!("{byte:02x}"));
    }
    text
}
