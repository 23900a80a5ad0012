//! The profiles of Q-14, written from its sentences beside the Rust, which knows no profile. Of a
//! transfer's warnings rules 1 to 3 stay as they come (rule 3 is Q-5's with its mode on, else all are the
//! Rust's own), and rule 4 is judged here.

use std::collections::BTreeSet;

use pemu_core::time::VTime;

use crate::formats::Formats;
use crate::log::Segment;
use crate::report::RULES;
use crate::st7789::reach::fields;
use crate::st7789::{St7789p3, TRACE_LIMIT, TimingWarning};

/// "the datasheet's 5 ms pause after SWRESET"
const PAUSE: u64 = 5_000_000;

/// What Q-14 adds to the state of a panel.
#[derive(Default)]
pub struct Profile {
    /// "A strict profile, chosen at the start": or the plain one.
    pub strict: bool,
    /// "The reset's time joins the state"
    pub swreset: Option<u64>,
    /// The places in the Rust's list of the warnings of rule 4, for which the Rust has no name.
    fours: BTreeSet<usize>,
}

impl Profile {
    /// A fresh panel's.
    pub fn new(strict: bool) -> Profile {
        Profile {
            strict,
            ..Profile::default()
        }
    }

    /// The transfer of Q-5's mode, which is the Rust's own with it off, under this profile. Under strict
    /// each command of a segment goes by itself, since rule 4 comes behind the other rules of each.
    pub fn transfer(&mut self, panel: &mut St7789p3, formats: &mut Formats, segment: &Segment) {
        let (time, dc, bytes) = (segment.time, segment.dc, &segment.bytes);
        if dc || !self.strict || bytes.is_empty() {
            formats.transfer(panel, segment);
            if !dc && bytes.contains(&0x01) {
                self.swreset = Some(time);
            }
            return;
        }
        for (at, c) in bytes.iter().enumerate() {
            let last = at + 1 == bytes.len();
            let alone = Segment {
                time,
                dc,
                release: segment.release && last,
                bytes: vec![*c],
            };
            formats.transfer(panel, &alone);
            self.judge(panel, *c, time);
        }
    }

    /// "any command less than 5 ms after a SWRESET, after the other rules in order."
    fn judge(&mut self, panel: &mut St7789p3, c: u8, time: u64) {
        // "Elapsed time is 0 if the clock went back."
        let soon = |reset: u64| time.saturating_sub(reset) < PAUSE;
        if self.swreset.is_some_and(soon) && panel.warnings().len() < TRACE_LIMIT {
            self.warn(panel, c, time);
        }
        if c == 0x01 {
            self.swreset = Some(time);
        }
    }

    /// One more warning of rule 4; in the Rust's list it stands as one of rule 3.
    pub fn warn(&mut self, panel: &mut St7789p3, c: u8, time: u64) {
        let (lint, at) = (RULES[2], VTime(time));
        let warnings = fields(panel).warnings;
        let place = warnings.len();
        warnings.insert(place, TimingWarning { lint, cmd: c, at });
        self.fours.insert(place);
    }

    /// "kept by every reset": of the board rail's nothing else is.
    pub fn board_rail(&mut self) {
        *self = Profile::new(self.strict);
    }

    /// The list of warnings is empty from here on; which of them were of rule 4.
    pub fn take_fours(&mut self) -> BTreeSet<usize> {
        std::mem::take(&mut self.fours)
    }

    /// Which of the warnings are of rule 4.
    pub fn fours(&self) -> &BTreeSet<usize> {
        &self.fours
    }
}
