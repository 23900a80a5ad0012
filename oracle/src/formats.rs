//! The pixel formats of Q-5, written from its sentences beside the Rust, which decodes 16 bits, high byte
//! first, and no other. Where a pixel goes and where the pointer moves stays the Rust's own: it gets each
//! complete pixel as two bytes. With the mode off it gets every segment as it is.

use pemu_core::time::VTime;

use crate::log::Segment;
use crate::report::RULES;
use crate::st7789::reach::{fields, hidden};
use crate::st7789::{COLMOD_16BPP, St7789p3, TRACE_LIMIT, TimingWarning};

/// How bytes make pixels.
#[derive(Copy, Clone, Debug, PartialEq)]
pub enum Format {
    /// 12 bits.
    Twelve,
    /// 16 bits, the high byte first.
    HighFirst,
    /// 16 bits, the low byte first.
    LowFirst,
    /// 18 bits.
    Eighteen,
}

impl Format {
    /// The one in force: "read from COLMOD's low three bits: 3 is 12-bit, 5 is 16-bit, 6 is 18-bit, others
    /// as 16-bit." "In 16-bit, RAMCTRL's ENDIAN bit (08 of the second parameter) turns the byte order."
    pub fn of(panel: &St7789p3) -> Format {
        match panel.colmod() & 7 {
            3 => Format::Twelve,
            6 => Format::Eighteen,
            _ if panel.ramctrl()[1] & 0x08 != 0 => Format::LowFirst,
            _ => Format::HighFirst,
        }
    }

    /// "18-bit takes three bytes", "12-bit takes three bytes for two pixels": with so many nothing waits.
    fn bytes(self) -> usize {
        match self {
            Format::HighFirst | Format::LowFirst => 2,
            Format::Twelve => 3,
            Format::Eighteen => 3,
        }
    }

    /// The pixel that the last of these bytes completes, the first having come when nothing waited. Of two
    /// pixels in 12 bits each is "stored when its last bit arrives".
    fn completed(self, bytes: &[u8]) -> Option<u16> {
        match (self, bytes) {
            (Format::Twelve, [a, b]) => Some(widened(a >> 4, a & 15, b >> 4)),
            (Format::Twelve, [_, b, c]) => Some(widened(b & 15, c >> 4, c & 15)),
            (Format::HighFirst, [high, low]) => Some(u16::from_be_bytes([*high, *low])),
            (Format::LowFirst, [low, high]) => Some(u16::from_be_bytes([*high, *low])),
            (Format::Eighteen, [r, g, b]) => Some(narrowed(r >> 2, g >> 2, b >> 2)),
            _ => None,
        }
    }
}

/// A pixel of "the upper six bits of each; red and blue lose their lowest bit."
fn narrowed(red: u8, green: u8, blue: u8) -> u16 {
    joined(red / 2, green, blue / 2)
}

/// A pixel of four bits each, "widened by repeating top bits."
fn widened(red: u8, green: u8, blue: u8) -> u16 {
    let five = |v: u8| v * 2 + v / 8;
    let six = |v: u8| v * 4 + v / 4;
    joined(five(red), six(green), five(blue))
}

/// Five bits, six and five side by side.
fn joined(red: u8, green: u8, blue: u8) -> u16 {
    u16::from(red) << 11 | u16::from(green) << 5 | u16::from(blue)
}

/// What Q-5 adds to the state of a panel.
#[derive(Default)]
pub struct Formats {
    /// "a mode, chosen when the panel is made, kept by every reset and off by default"
    pub on: bool,
    /// "Carry holds up to two bytes." The first is the Rust's own carry, this is the second.
    second: Option<u8>,
}

impl Formats {
    /// A fresh panel's.
    pub fn new(on: bool) -> Formats {
        Formats { on, second: None }
    }

    /// "kept by every reset": a board-rail reset leaves nothing else of it.
    pub fn board_rail(&mut self) {
        *self = Formats::new(self.on);
    }

    /// The bytes that wait, the first first.
    pub fn waiting(&self, panel: &St7789p3) -> Vec<u8> {
        panel.carry().into_iter().chain(self.second).collect()
    }

    /// From here on these bytes wait, at most two.
    pub fn wait(&mut self, panel: &mut St7789p3, bytes: &[u8]) {
        *fields(panel).carry = bytes.first().copied();
        self.second = bytes.get(1).copied();
    }

    /// "BAD_STATE also for a carry of two bytes outside 12 and 18 bits or with the mode off."
    pub fn bad_carry(&self, panel: &St7789p3) -> bool {
        let three = [Format::Twelve, Format::Eighteen].contains(&Format::of(panel));
        self.second.is_some() && !(self.on && three)
    }

    /// The pixels that bytes of a run complete with the mode on, and what waits after them.
    pub fn taken(&self, panel: &St7789p3, bytes: &[u8]) -> (Vec<u16>, Vec<u8>) {
        let format = Format::of(panel);
        let mut waiting = self.waiting(panel);
        let mut pixels = Vec::new();
        for byte in bytes {
            waiting.push(*byte);
            pixels.extend(format.completed(&waiting));
            if waiting.len() >= format.bytes() {
                waiting.clear();
            }
        }
        (pixels, waiting)
    }

    /// The Rust's transfer in this mode.
    pub fn transfer(&mut self, panel: &mut St7789p3, segment: &Segment) {
        let (time, bytes) = (VTime(segment.time), &segment.bytes);
        // "with it off everything reads as now"
        if !self.on {
            panel.transfer(time, segment.dc, bytes, segment.release);
            return;
        }
        if !segment.dc {
            for c in bytes {
                begin(panel, time, *c);
            }
        } else if hidden(panel).in_pixels {
            self.draw(panel, time, bytes);
        } else {
            panel.transfer(time, true, bytes, false);
        }
        panel.transfer(time, false, &[], segment.release);
        // 2C, 3C, other commands and CS release do to both bytes what the Rust does to the first.
        if panel.carry().is_none() {
            self.second = None;
        }
    }

    /// Data in a run. The Rust gets the pixels with nothing waiting.
    fn draw(&mut self, panel: &mut St7789p3, time: VTime, bytes: &[u8]) {
        let (pixels, waiting) = self.taken(panel, bytes);
        let pairs: Vec<u8> = pixels.iter().flat_map(|p| p.to_be_bytes()).collect();
        self.wait(panel, &[]);
        panel.transfer(time, true, &pairs, false);
        self.wait(panel, &waiting);
        // "the current record's pixel bytes grow by the length", which is not that of the pairs.
        if let Some(at) = hidden(panel).trace_cur {
            let record = &mut fields(panel).trace[at];
            record.pixel_bytes -= pairs.len() as u64;
            record.pixel_bytes += bytes.len() as u64;
        }
    }
}

/// A command with the mode on: "lint rule 3 fires only for the others", behind rules 1 and 2.
fn begin(panel: &mut St7789p3, time: VTime, c: u8) {
    let colmod = panel.colmod();
    // The Rust's own rule 3 is silent at 55; beginning a command neither asks COLMOD for more nor sets it.
    *fields(panel).colmod = COLMOD_16BPP;
    panel.transfer(time, false, &[c], false);
    *fields(panel).colmod = colmod;
    let others = ![3, 5, 6].contains(&(colmod & 7));
    if [0x2c, 0x3c].contains(&c) && others && panel.warnings().len() < TRACE_LIMIT {
        let (lint, at) = (RULES[2], time);
        let warnings = fields(panel).warnings;
        warnings.push(TimingWarning { lint, cmd: c, at });
    }
}
