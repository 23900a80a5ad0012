//! The totals of Q-3, written from its sentences beside the Rust, which names no outcome. Where a pixel
//! goes and where the pointer moves stays the Rust's own.

use crate::formats::Formats;
use crate::log::Segment;
use crate::st7789::St7789p3;
use crate::st7789::reach::{advance, fields, hidden, is_mapped};

/// "Each pixel's outcome shall be named stored, inverted or unmapped"
#[derive(Copy, Clone, Default)]
pub struct Totals {
    pub stored: u64,
    pub inverted: u64,
    pub unmapped: u64,
}

impl Totals {
    /// "the run shall add them up, and a transfer shall answer its own three totals": those of a segment
    /// that the panel is about to take. The panel stays as it is.
    pub fn of(panel: &mut St7789p3, formats: &Formats, segment: &Segment) -> Totals {
        let (dc, bytes) = (segment.dc, &segment.bytes);
        let mut totals = Totals::default();
        // Commands have no pixels, nor has data outside a run.
        if !dc || !hidden(panel).in_pixels {
            return totals;
        }
        // "pairs form pixels"; a byte that waits is the first of a pair. With Q-5's mode on its format tells.
        let waiting = usize::from(panel.carry().is_some());
        let complete = match formats.on {
            false => (waiting + bytes.len()) / 2,
            true => formats.taken(panel, bytes).0.len(),
        };
        let (xs, xe, ys, ye) = panel.window();
        let pointer = panel.cursor();
        for _ in 0..complete {
            if xs > xe || ys > ye {
                totals.inverted += 1;
                continue;
            }
            if is_mapped(panel) {
                totals.stored += 1;
            } else {
                totals.unmapped += 1;
            }
            advance(panel);
        }
        let panel = fields(panel);
        (*panel.x, *panel.y) = pointer;
        totals
    }

    pub fn add(&mut self, other: Totals) {
        self.stored += other.stored;
        self.inverted += other.inverted;
        self.unmapped += other.unmapped;
    }
}

/// "Two new counts, inverted and unmapped, join the state."
#[derive(Default)]
pub struct Lost {
    pub inverted: u64,
    pub unmapped: u64,
}

impl Lost {
    /// A transfer was made. Past the table of refusals a count may run over.
    pub fn add(&mut self, totals: Totals) {
        self.inverted = self.inverted.wrapping_add(totals.inverted);
        self.unmapped = self.unmapped.wrapping_add(totals.unmapped);
    }

    /// A board-rail reset leaves a fresh panel.
    pub fn board_rail(&mut self) {
        *self = Lost::default();
    }

    /// "COUNT_HIGH also looks at both": which of them are above the limit, by name.
    pub fn high(&self, limit: u64) -> [(&'static str, bool); 2] {
        [
            ("lost_inverted", self.inverted > limit),
            ("lost_unmapped", self.unmapped > limit),
        ]
    }
}
