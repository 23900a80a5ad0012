//! What is timed: tables of transfers, each with the part that brings the state about and the part that counts.

use crate::formats::Formats;
use crate::log::{Segment, record_bytes};
use crate::st7789::reach::fields;
use crate::st7789::{BOOT_SEQUENCE, PanelConfig, St7789p3};

pub const MADCTLS: [u8; 8] = [0x00, 0x40, 0x80, 0xC0, 0x20, 0x60, 0xA0, 0xE0];

/// Long after the boot, so that the lint has nothing to say of a late command.
const LATE: u64 = 1_000_000_000;

/// The bytes of a full flush.
const FLUSH: usize = 153_600;

pub struct Case {
    pub name: String,
    /// Run once a session, not counted.
    pub setup: Vec<Segment>,
    /// Run `repeat` times a session.
    pub body: Vec<Segment>,
    pub repeat: usize,
    /// Each session begins with a fresh panel.
    pub sessions: usize,
    /// What one run of the body holds, of what the times are given for.
    pub units: usize,
    pub aim: Option<f64>,
}

impl Case {
    fn new(name: String, setup: Vec<Segment>, body: Vec<Segment>, units: usize) -> Case {
        Case {
            name,
            setup,
            body,
            repeat: 1,
            sessions: 1,
            units,
            aim: None,
        }
    }

    fn aim(mut self, aim: f64) -> Case {
        self.aim = Some(aim);
        self
    }

    fn repeat(mut self, repeat: usize) -> Case {
        self.repeat = repeat;
        self
    }

    fn sessions(mut self, sessions: usize) -> Case {
        self.sessions = sessions;
        self
    }
}

fn segment(dc: bool, bytes: &[u8]) -> Segment {
    Segment {
        time: LATE,
        dc,
        release: false,
        bytes: bytes.to_vec(),
    }
}

fn command(code: u8) -> Segment {
    segment(false, &[code])
}

fn with_data(code: u8, bytes: &[u8]) -> Vec<Segment> {
    vec![command(code), segment(true, bytes)]
}

fn corners(code: u8, first: u16, last: u16) -> Vec<Segment> {
    let (a, b) = (first.to_be_bytes(), last.to_be_bytes());
    with_data(code, &[a[0], a[1], b[0], b[1]])
}

/// COLMOD 55, then this window under this MADCTL, and a RAMWR.
fn window(madctl: u8, columns: (u16, u16), rows: (u16, u16)) -> Vec<Segment> {
    [
        with_data(0x3A, &[0x55]),
        with_data(0x36, &[madctl]),
        corners(0x2A, columns.0, columns.1),
        corners(0x2B, rows.0, rows.1),
        vec![command(0x2C)],
    ]
    .concat()
}

fn full_window(madctl: u8) -> Vec<Segment> {
    let (columns, rows) = if madctl & 0x20 == 0 {
        (239, 319)
    } else {
        (319, 239)
    };
    window(madctl, (0, columns), (0, rows))
}

/// Pixel bytes without a pattern that a branch could learn.
fn pixels(length: usize) -> Vec<u8> {
    (0..length as u32)
        .map(|i| (i.wrapping_mul(2_654_435_761) >> 13) as u8)
        .collect()
}

fn cut(bytes: &[u8], length: usize) -> Vec<Segment> {
    bytes
        .chunks(length)
        .map(|part| segment(true, part))
        .collect()
}

/// Both lists full: RAMWR with COLMOD 66 is traced, and breaks rule 3.
fn full_lists() -> Vec<Segment> {
    vec![command(0x2C); 128]
}

pub fn flushes() -> Vec<Case> {
    let mut cases = Vec::new();
    for (name, length, aim) in [
        ("flush, 32768-byte segments", 32_768, Some(0.2)),
        ("flush, 64-byte segments", 64, None),
        ("flush, 63-byte segments", 63, None),
        ("flush, 32767-byte segments", 32_767, None),
    ] {
        for madctl in MADCTLS {
            let body = cut(&pixels(FLUSH), length);
            let name = format!("{name}, MADCTL {madctl:02X}");
            let mut case = Case::new(name, full_window(madctl), body, FLUSH / 2);
            case.aim = aim;
            cases.push(case);
        }
    }
    for (name, length) in [("32768-byte", 32_768), ("64-byte", 64)] {
        for madctl in [0x00, 0x20] {
            let setup = [full_window(madctl), vec![segment(true, &[0x5A])]].concat();
            let body = cut(&pixels(FLUSH), length);
            let name = format!("flush with a byte waiting, {name} segments, MADCTL {madctl:02X}");
            cases.push(Case::new(name, setup, body, FLUSH / 2));
        }
    }
    let body = cut(&pixels(4_096), 1);
    let name = "data of one byte, every second completes a pixel".to_string();
    cases.push(Case::new(name, full_window(0x00), body, 4_096));
    cases
}

/// One picture in two formats, for a panel whose mode is on.
pub struct Drawn {
    pub name: String,
    pub high_first: Case,
    pub other: Case,
    pub aim: Option<f64>,
}

/// COLMOD and RAMCTRL's second parameter, then such a window, which comes with a COLMOD of its own.
fn window_in(colmod: u8, ramctrl: u8, window: &[Segment]) -> Vec<Segment> {
    let registers = [
        with_data(0x3A, &[colmod]),
        with_data(0xB0, &[0x00, ramctrl]),
    ];
    [&registers.concat()[..], &window[2..]].concat()
}

/// The pixels of bytes in the format that these registers name, by the model of Q-5.
fn decoded(colmod: u8, ramctrl: u8, bytes: &[u8]) -> Vec<u16> {
    let mut panel = St7789p3::new(PanelConfig::default());
    let f = fields(&mut panel);
    (*f.colmod, *f.ramctrl) = (colmod, [0x00, ramctrl]);
    Formats::new(true).taken(&panel, bytes).0
}

/// In each of the other formats a flush, 16,384 pixels a segment, and small windows.
pub fn formats() -> Vec<Drawn> {
    let mut cases = Vec::new();
    for (name, colmod, ramctrl, bytes, aim) in [
        ("16 bits, low byte first", 0x55, 0x08, FLUSH, 1.1),
        ("18 bits", 0x66, 0x00, FLUSH / 2 * 3, 2.0),
        ("12 bits", 0x03, 0x00, FLUSH / 4 * 3, 3.0),
    ] {
        let data = pixels(bytes);
        let pairs: Vec<u8> = decoded(colmod, ramctrl, &data)
            .into_iter()
            .flat_map(u16::to_be_bytes)
            .collect();
        let mut draw = |what: &str, window: &[Segment], segment: usize, aim: Option<f64>| {
            let case = |setup: Vec<Segment>, data: &[u8]| {
                let body = cut(data, data.len() / (FLUSH / 2 / 128) * segment);
                Case::new(String::new(), setup, body, FLUSH / 2)
            };
            cases.push(Drawn {
                name: format!("{what} in {name}, MADCTL {:02X}", window[3].bytes[0]),
                high_first: case(window_in(0x55, 0x00, window), &pairs),
                other: case(window_in(colmod, ramctrl, window), &data),
                aim,
            });
        };
        for madctl in MADCTLS {
            draw("flush", &full_window(madctl), 128, Some(aim));
        }
        for madctl in [0x00, 0x20] {
            let glyph = window(madctl, (100, 107), (50, 65));
            draw("8x16 box", &glyph, 1, None);
        }
        let pixel = window(0x00, (100, 100), (50, 50));
        draw("one-pixel window", &pixel, 128, None);
    }
    cases
}

/// A box of 8 by 16 at one of 64 places: its window, RAMWR and 256 bytes.
fn glyph(place: u16, bytes: &[u8]) -> Vec<Segment> {
    let (x, y) = (place % 8 * 29, place / 8 * 27);
    [
        corners(0x2A, x, x + 7),
        corners(0x2B, y, y + 15),
        with_data(0x2C, bytes),
    ]
    .concat()
}

pub fn windows() -> Vec<Case> {
    let data = pixels(FLUSH);
    let mut cases = Vec::new();
    for madctl in [0x00, 0x40, 0x20, 0xE0] {
        let setup = window(madctl, (100, 107), (50, 65));
        let name = format!("8x16 box, pixel data alone, MADCTL {madctl:02X}");
        cases.push(Case::new(name, setup, cut(&data[..65_536], 256), 32_768).aim(0.7));
    }
    for madctl in [0x00, 0x20] {
        let setup = [window(madctl, (0, 7), (0, 15)), full_lists()].concat();
        let body = (0..64)
            .flat_map(|place| glyph(place, &data[..256]))
            .collect();
        let name = format!("8x16 box, all six segments, MADCTL {madctl:02X}, a box");
        cases.push(Case::new(name, setup, body, 64));
    }
    for madctl in [0x00, 0x20] {
        let setup = window(madctl, (100, 100), (50, 50));
        let name = format!("one-pixel window, 32768-byte segments, MADCTL {madctl:02X}");
        cases.push(Case::new(name, setup, cut(&data, 32_768), FLUSH / 2).aim(1.1));
    }
    let setup = [window(0x00, (0, 0), (0, 0)), full_lists()].concat();
    let one = |place: u16| {
        let (x, y) = (place * 3, place * 5);
        [
            corners(0x2A, x, x),
            corners(0x2B, y, y),
            with_data(0x2C, &data[..2]),
        ]
        .concat()
    };
    let body = (0..64).flat_map(one).collect();
    let name = "one-pixel window, all six segments, a window".to_string();
    cases.push(Case::new(name, setup, body, 64));
    // Columns past 239 can be set under MV only; MADCTL 00 then maps none of them.
    let setup = [
        window(0x20, (240, 319), (0, 239)),
        with_data(0x36, &[0x00]),
        vec![command(0x2C)],
    ]
    .concat();
    let name = "window that maps nowhere".to_string();
    cases.push(Case::new(name, setup, cut(&data, 32_768), FLUSH / 2).aim(1.1));
    let setup = window(0x00, (5, 4), (0, 319));
    let name = "inverted window".to_string();
    cases.push(Case::new(name, setup, cut(&data, 32_768), FLUSH / 2));
    cases
}

/// Three kinds of transfer with empty and with full lists. The times are for one transfer.
pub fn transfers() -> Vec<Case> {
    let full = full_lists();
    let ramwr = vec![command(0x2C)];
    let sixteen = vec![segment(true, &pixels(16)); 16];
    let pairs: Vec<Segment> = (0..4).flat_map(|_| corners(0x2A, 3, 77)).collect();
    let nops = vec![command(0x00); 8];
    let begun = [full_window(0x00), ramwr.clone()].concat();
    let late = [full.clone(), full_window(0x00)].concat();
    let case = |name: &str, setup: &[Segment], body: &[Segment]| {
        Case::new(name.to_string(), setup.to_vec(), body.to_vec(), body.len())
    };
    vec![
        case("one command, empty lists", &[], &nops).sessions(200),
        case("one command, full lists", &full, &nops).repeat(100),
        case("2A then 4 bytes, empty lists", &[], &pairs).sessions(200),
        case("2A then 4 bytes, full lists", &full, &pairs).repeat(100),
        case("16 pixel bytes, empty lists (6 records)", &begun, &sixteen).repeat(60),
        case("16 pixel bytes, full lists", &late, &sixteen).repeat(60),
    ]
}

/// A segment of 65,536 commands. The times are for one command.
pub fn long_segments() -> Vec<Case> {
    let codes = [
        0x00, 0x2C, 0x36, 0x3C, 0x2A, 0x2B, 0x21, 0x29, 0xB2, 0x20, 0x28, 0xE0, 0x3A, 0x10, 0x01,
        0xD0,
    ];
    let pick = |i: u32| codes[(i.wrapping_mul(2_654_435_761) >> 28) as usize];
    let mixed: Vec<u8> = (0..65_536).map(pick).collect();
    let with_wakes: Vec<u8> = (0..65_536)
        .map(|i| if i % 64 == 0 { 0x11 } else { pick(i) })
        .collect();
    let setup = [full_lists(), with_data(0x3A, &[0x55])].concat();
    let case = |name: &str, bytes: &[u8]| {
        let body = vec![segment(false, bytes)];
        Case::new(name.to_string(), setup.clone(), body, 65_536)
    };
    vec![
        case("65536 NOPs, a command", &vec![0x00; 65_536]).aim(2.0),
        case("65536 mixed codes, a command", &mixed).aim(2.0),
        case(
            "65536 mixed codes, all within 5 ms of a wake, a command",
            &with_wakes,
        )
        .aim(2.0),
    ]
}

/// Segments of the flush of four lengths.
pub fn flush_growth() -> Vec<Case> {
    [4_096, 16_384, 32_768, 65_536]
        .into_iter()
        .map(|length| {
            let body = cut(&pixels(length), length);
            Case::new(
                format!("segment of {length} bytes"),
                full_window(0x00),
                body,
                1,
            )
        })
        .collect()
}

/// A transfer of 16 pixel bytes with this many trace records used.
pub fn record_growth() -> Vec<Case> {
    [5, 46, 87, 128]
        .into_iter()
        .map(|used| {
            let setup = [full_window(0x00), vec![command(0x2C); used - 5]].concat();
            let body = vec![segment(true, &pixels(16)); 16];
            Case::new(format!("{used} records used"), setup, body, 16).repeat(60)
        })
        .collect()
}

/// A log of the boot rows and then boxes of 8 by 16, as many as fit in `length` bytes.
pub fn box_log(length: usize) -> Vec<u8> {
    let mut log = Vec::new();
    let mut time = 0;
    for step in BOOT_SEQUENCE {
        for mut part in with_data(step.cmd, step.params) {
            part.time = time;
            log.extend(record_bytes(&part));
        }
        time += 1_000_000 * u64::from(step.delay_ms_after);
    }
    let data = pixels(256);
    for place in 0.. {
        let box_bytes: Vec<u8> = glyph(place % 64, &data)
            .iter()
            .flat_map(record_bytes)
            .collect();
        if log.len() + box_bytes.len() > length {
            return log;
        }
        log.extend(box_bytes);
    }
    log
}

/// A log of records with one NOP each.
pub fn command_log(length: usize) -> Vec<u8> {
    let record = record_bytes(&command(0x00));
    record.repeat(length / record.len())
}
