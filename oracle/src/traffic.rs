//! Generated traffic: scenes of segments, plausible and hostile, for logs and scripts.

use crate::log::Segment;
use crate::random::Random;
use crate::st7789::{BOOT_SEQUENCE, STORED_COMMANDS};

const MS: u64 = 1_000_000;

/// Coordinates at and around the edges of both orientations.
const CORNERS: [u16; 24] = [
    0, 1, 2, 3, 5, 100, 119, 120, 237, 238, 239, 240, 241, 254, 255, 256, 300, 317, 318, 319, 320,
    321, 511, 65535,
];

/// Commands with a meaning, and a few without.
pub const COMMANDS: [u8; 24] = [
    0x00, 0x01, 0x10, 0x11, 0x20, 0x21, 0x28, 0x29, 0x2a, 0x2b, 0x2c, 0x2c, 0x3c, 0x3c, 0x36, 0x3a,
    0xb0, 0xb2, 0xd0, 0xe0, 0xe1, 0x2e, 0x33, 0xff,
];

/// Steps of the clock: 0, the thresholds of the lint to the nanosecond, and ordinary pauses.
const STEPS: [u64; 15] = [
    0,
    0,
    0,
    1,
    1000,
    MS,
    5 * MS - 1,
    5 * MS,
    5 * MS + 1,
    20 * MS,
    100 * MS,
    120 * MS - 1,
    120 * MS,
    120 * MS + 1,
    1000 * MS,
];

pub struct Traffic<'a> {
    pub random: &'a mut Random,
    pub time: u64,
    pub segments: Vec<Segment>,
}

impl Traffic<'_> {
    pub fn new(random: &mut Random) -> Traffic<'_> {
        let time = random.pick(&[0, 0, 0, 119 * MS, 200 * MS, 1 << 40]);
        Traffic {
            random,
            time,
            segments: Vec::new(),
        }
    }

    /// Takes the segments made so far.
    pub fn take(&mut self) -> Vec<Segment> {
        std::mem::take(&mut self.segments)
    }

    /// Moves the clock: mostly on, at times back, seldom to an end of its range.
    pub fn tick(&mut self) {
        match self.random.below(40) {
            0 => self.time = self.time.saturating_sub(1),
            1 => self.time = self.time.saturating_sub(self.random.pick(&STEPS)),
            2 if self.random.one_in(12) => self.time = u64::MAX - self.random.below(6 * MS),
            3 if self.random.one_in(6) => self.time = 0,
            _ => self.time = self.time.saturating_add(self.random.pick(&STEPS)),
        }
    }

    pub fn segment(&mut self, dc: bool, release: bool, bytes: Vec<u8>) {
        self.segments.push(Segment {
            time: self.time,
            dc,
            release,
            bytes,
        });
    }

    pub fn command(&mut self, c: u8) {
        self.segment(false, false, vec![c]);
    }

    /// Data in parts: whole, byte by byte, or cut at odd places with empty parts among them.
    pub fn data(&mut self, bytes: &[u8]) {
        let style = self.random.below(4);
        let mut rest = bytes;
        loop {
            if self.random.one_in(4) {
                self.tick();
            }
            let most = rest.len() as u64;
            let take = match style {
                0 | 1 => most,
                2 if most < 12 => most.min(1),
                _ => self.random.within(0, most.min(9)),
            };
            let (part, next) = rest.split_at(take as usize);
            self.segment(true, false, part.to_vec());
            rest = next;
            if rest.is_empty() {
                break;
            }
        }
    }

    /// A command with its data.
    pub fn send(&mut self, c: u8, bytes: &[u8]) {
        self.tick();
        self.command(c);
        if !bytes.is_empty() || self.random.one_in(4) {
            self.data(bytes);
        }
    }

    /// Releases CS with the last segment, or with an empty segment of its own.
    pub fn release(&mut self) {
        let dc = self.random.one_in(2);
        match self.segments.last_mut() {
            Some(last) if self.random.one_in(2) => last.release = true,
            _ => self.segment(dc, true, Vec::new()),
        }
    }

    /// One scene of any kind.
    pub fn scene(&mut self) {
        match self.random.below(20) {
            0 => self.boot(),
            1 | 2 => self.window(),
            3 => self.madctl(),
            4 => self.registers(),
            5..=7 => self.pixels(),
            8 | 9 => self.change_then_go_on(),
            10 | 11 => self.sleep_and_wake(),
            12 => self.stored(),
            13 => self.bursts(),
            14 => self.empty_segments(),
            15 => self.turned_window(),
            16 => self.cut_by_release(),
            17 => self.noise(),
            18 => self.one_box(),
            _ => self.plain_commands(),
        }
        if self.random.one_in(5) {
            self.release();
        }
    }

    /// The boot rows at their delays, at times with one thing changed.
    pub fn boot(&mut self) {
        let odd_row = self.random.below(BOOT_SEQUENCE.len() as u64) as usize;
        let oddity = self.random.below(12);
        if oddity < 6 && self.random.one_in(2) {
            self.time = 0;
        }
        for (at, step) in BOOT_SEQUENCE.iter().enumerate() {
            let odd = at == odd_row;
            let mut params = step.params.to_vec();
            let mut c = step.cmd;
            match oddity {
                6 if odd => continue,
                7 if odd => params.push(self.random.byte()),
                8 if odd => params = params[..params.len() / 2].to_vec(),
                9 if odd => c = self.random.pick(&COMMANDS),
                10 if odd => self.command(0x00),
                _ => {}
            }
            self.command(c);
            if !params.is_empty() {
                match self.random.below(4) {
                    0 => self.data(&params),
                    _ => self.segment(true, false, params),
                }
            }
            if self.random.one_in(3) {
                self.release();
            }
            let delay = u64::from(step.delay_ms_after) * MS;
            let delay = if oddity == 11 && odd {
                delay / 30
            } else {
                delay
            };
            self.time = self.time.saturating_add(delay);
        }
    }

    fn corner(&mut self) -> u16 {
        match self.random.below(3) {
            0 => self.random.below(330) as u16,
            _ => self.random.pick(&CORNERS),
        }
    }

    /// Four bytes of two corners: small, full, any, or inverted.
    fn corners(&mut self) -> Vec<u8> {
        let first = self.corner();
        let last = match self.random.below(8) {
            0..=3 => first.saturating_add(self.random.below(6) as u16),
            4 => first.saturating_sub(1),
            5 => self.random.pick(&[239, 319]),
            _ => self.corner(),
        };
        [first.to_be_bytes(), last.to_be_bytes()].concat()
    }

    /// CASET or RASET or both, at times with too few or too many bytes.
    fn window(&mut self) {
        for c in [0x2a, 0x2b] {
            if self.random.one_in(4) {
                continue;
            }
            let mut bytes = self.corners();
            match self.random.below(10) {
                0 => bytes.truncate(self.random.below(4) as usize),
                1 => bytes.extend(self.corners()),
                2 => {
                    let more = self.random.within(1, 16) as usize;
                    bytes.extend(self.random.bytes(more));
                }
                _ => {}
            }
            self.send(c, &bytes);
        }
    }

    /// The full window for the given orientation.
    fn full_window(&mut self, turned: bool) {
        let (right, bottom) = if turned { (319, 239) } else { (239, 319) };
        for (c, end) in [(0x2a, right), (0x2b, bottom)] {
            let [high, low] = u16::to_be_bytes(end);
            self.send(c, &[0, 0, high, low]);
        }
    }

    fn madctl(&mut self) {
        let value = match self.random.below(3) {
            0 => self.random.byte(),
            _ => self
                .random
                .pick(&[0x00, 0x20, 0x40, 0x60, 0x80, 0xa0, 0xc0, 0xe0]),
        };
        match self.random.below(6) {
            0 => self.send(0x36, &[]),
            1 => self.send(0x36, &[value, 0xe0]),
            _ => self.send(0x36, &[value]),
        }
    }

    /// Every MADCTL value once, from any one on, with a few pixels under each.
    pub fn every_madctl(&mut self) {
        let first = self.random.byte();
        if self.random.one_in(2) {
            self.window();
        }
        for step in 0..=255u8 {
            self.command(0x36);
            self.segment(true, false, vec![first.wrapping_add(step)]);
            let c = self.random.pick(&[0x2c, 0x3c, 0x3c]);
            self.command(c);
            let length = self.random.pick(&[2, 2, 3, 4, 8]);
            let bytes = self.random.bytes(length);
            self.segment(true, false, bytes);
        }
    }

    fn registers(&mut self) {
        let value = self.random.pick(&[0x55, 0x55, 0x55, 0x66, 0x05, 0x00]);
        self.send(0x3a, &[value]);
        if self.random.one_in(2) {
            let length = self.random.below(4) as usize;
            let bytes = self.random.bytes(length);
            self.send(0xb0, &bytes);
        }
    }

    /// Pixel bytes of a plausible or of an odd length.
    fn run_bytes(&mut self) -> Vec<u8> {
        let length = match self.random.below(8) {
            0 => 0,
            1 => 1,
            2 => 3,
            3 => self.random.within(100, 700),
            _ => self.random.within(2, 60),
        };
        self.random.bytes(length as usize)
    }

    /// A pixel run begun by 2C or 3C.
    fn pixels(&mut self) {
        let c = self.random.pick(&[0x2c, 0x2c, 0x2c, 0x3c]);
        let bytes = self.run_bytes();
        self.send(c, &bytes);
        if self.random.one_in(3) {
            let bytes = self.run_bytes();
            self.data(&bytes);
        }
    }

    /// A run, a change of some kind, then 3C: pointer and carry live on or do not.
    fn change_then_go_on(&mut self) {
        self.pixels();
        match self.random.below(12) {
            0 => self.window(),
            1 => self.madctl(),
            2 => self.send(0x01, &[]),
            3 => self.release(),
            4 => self.turned_window(),
            5 => self.segment(false, false, Vec::new()),
            6 => self.segment(true, false, Vec::new()),
            7 => self.stored(),
            8 => self.registers(),
            9 => self.plain_commands(),
            10 => self.command(0x3c),
            _ => {}
        }
        self.tick();
        self.command(0x3c);
        let bytes = self.run_bytes();
        self.data(&bytes);
    }

    /// 10, 11 and others near the thresholds of the lint.
    fn sleep_and_wake(&mut self) {
        let base = self.time;
        let first = self.random.pick(&[0x10, 0x11, 0x11, 0x01]);
        self.command(first);
        for _ in 0..self.random.within(1, 3) {
            let threshold = self.random.pick(&[5 * MS, 5 * MS, 120 * MS, 120 * MS, 0]);
            let near = base.saturating_add(threshold);
            self.time = match self.random.below(5) {
                0 => near.saturating_sub(1),
                1 => near,
                2 => near.saturating_add(1),
                3 => near.saturating_sub(self.random.below(8 * MS)),
                _ => base.saturating_sub(self.random.pick(&[1, MS, 200 * MS])),
            };
            let c = self
                .random
                .pick(&[0x10, 0x11, 0x00, 0x01, 0x2c, 0x3c, 0x29]);
            self.command(c);
        }
    }

    /// A stored command with none to many bytes, at times followed by more of them.
    fn stored(&mut self) {
        let c = self.random.pick(STORED_COMMANDS);
        self.tick();
        self.command(c);
        for _ in 0..self.random.below(4) {
            let length = self.random.pick(&[0, 0, 1, 2, 5, 12, 13, 14, 15, 16, 30]);
            let bytes = self.random.bytes(length);
            self.data(&bytes);
        }
    }

    /// Many commands at one time, in one segment or in one each.
    fn bursts(&mut self) {
        let count = self.random.pick(&[2, 5, 20, 127, 128, 129, 200]);
        let only = self.random.pick(&COMMANDS);
        let mixed = self.random.one_in(2);
        let mut bytes = Vec::new();
        for _ in 0..count {
            bytes.push(if mixed {
                self.random.pick(&COMMANDS)
            } else {
                only
            });
        }
        if self.random.one_in(2) {
            self.segment(false, false, bytes);
        } else {
            for c in bytes {
                self.command(c);
            }
        }
        if self.random.one_in(2) {
            let bytes = self.run_bytes();
            self.data(&bytes);
        }
    }

    fn empty_segments(&mut self) {
        for _ in 0..self.random.within(1, 4) {
            let dc = self.random.one_in(2);
            let release = self.random.one_in(4);
            self.segment(dc, release, Vec::new());
        }
    }

    /// A window set under MV and used without it, or the other way round, or MV set in between.
    fn turned_window(&mut self) {
        let mirrors = self.random.pick(&[0x00, 0x40, 0x80, 0xc0, 0x08]);
        let turned = self.random.one_in(2);
        let (before, after) = if turned { (0x20, 0x00) } else { (0x00, 0x20) };
        self.send(0x36, &[mirrors | before]);
        match self.random.below(3) {
            0 => self.full_window(turned),
            1 => self.window(),
            _ => {
                // The far corner of this orientation, which the other one cuts off.
                let (column, row) = if turned { (316u16, 236u16) } else { (236, 316) };
                for (c, first) in [(0x2a, column), (0x2b, row)] {
                    let [high, low] = first.to_be_bytes();
                    let [end_high, end_low] = (first + 3).to_be_bytes();
                    self.send(c, &[high, low, end_high, end_low]);
                }
            }
        }
        self.send(0x36, &[mirrors | after]);
        self.pixels();
    }

    /// A release in the middle of parameters or of a run.
    fn cut_by_release(&mut self) {
        match self.random.below(3) {
            0 => {
                let bytes = self.corners();
                self.send(0x2a, &bytes[..2]);
                self.release();
                self.data(&bytes[2..]);
            }
            1 => {
                self.send(0x2c, &[0xf8]);
                self.release();
                let c = self.random.pick(&[0x3c, 0x3c, 0x2c]);
                self.send(c, &[0x00, 0x07, 0xe0]);
            }
            _ => {
                self.pixels();
                self.release();
                let bytes = self.run_bytes();
                self.data(&bytes);
            }
        }
    }

    /// Segments of any bytes.
    fn noise(&mut self) {
        for _ in 0..self.random.within(1, 4) {
            self.tick();
            let dc = self.random.one_in(2);
            let release = self.random.one_in(4);
            let length = self.random.below(24) as usize;
            let bytes = self.random.bytes(length);
            self.segment(dc, release, bytes);
        }
    }

    /// A small upright box filled as firmware does it, with enough pixels to wrap at times.
    pub fn one_box(&mut self) {
        let (width, height) = (self.random.within(1, 12), self.random.within(1, 12));
        let left = self.random.within(0, 239 - width) as u16;
        let top = self.random.within(0, 319 - height) as u16;
        let columns = [left.to_be_bytes(), (left + width as u16 - 1).to_be_bytes()].concat();
        let rows = [top.to_be_bytes(), (top + height as u16 - 1).to_be_bytes()].concat();
        self.send(0x2a, &columns);
        self.send(0x2b, &rows);
        let extra = self.random.pick(&[0, 0, 0, 1, 2, 7, 24]);
        let bytes = self.random.bytes((width * height * 2) as usize + extra);
        self.send(0x2c, &bytes);
    }

    fn plain_commands(&mut self) {
        for _ in 0..self.random.within(1, 4) {
            let c = self.random.pick(&COMMANDS);
            let length = self.random.pick(&[0, 0, 0, 1, 2, 4, 14, 15, 16]);
            let bytes = self.random.bytes(length);
            self.send(c, &bytes);
        }
    }
}
