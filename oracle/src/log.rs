//! Logs: the check that document 01 describes, and the replay on a fresh Rust panel.

use pemu_core::time::VTime;

use crate::coverage::Coverage;
use crate::formats::Formats;
use crate::profile::Profile;
use crate::refusals::{BAD_LOG, LOG_LIMIT, LOG_LONG};
use crate::report::replay_lines;
use crate::st7789::{PanelConfig, St7789p3};

/// One segment: time in nanoseconds, the dc level, the CS release, the bytes.
#[derive(Clone)]
pub struct Segment {
    pub time: u64,
    pub dc: bool,
    pub release: bool,
    pub bytes: Vec<u8>,
}

/// Tag, time and length.
pub const HEADER: usize = 11;

/// The records of a log, or the refusal's number and offset.
pub fn records(log: &[u8]) -> Result<Vec<Segment>, (u8, usize)> {
    if log.len() > LOG_LIMIT {
        return Err((LOG_LONG, 0));
    }
    let mut records = Vec::new();
    let mut at = 0;
    while at < log.len() {
        let rest = &log[at..];
        if rest[0] > 3 || rest.len() < HEADER {
            return Err((BAD_LOG, at));
        }
        let time = rest[1..9]
            .iter()
            .fold(0, |time, b| time << 8 | u64::from(*b));
        let length = usize::from(rest[9]) << 8 | usize::from(rest[10]);
        if rest.len() < HEADER + length {
            return Err((BAD_LOG, at));
        }
        records.push(Segment {
            time,
            dc: rest[0] & 1 != 0,
            release: rest[0] & 2 != 0,
            bytes: rest[HEADER..HEADER + length].to_vec(),
        });
        at += HEADER + length;
    }
    Ok(records)
}

/// A record as its bytes in a log.
pub fn record_bytes(segment: &Segment) -> Vec<u8> {
    let length = u16::try_from(segment.bytes.len()).expect("a record's length has 16 bits");
    let mut bytes = vec![u8::from(segment.dc) + 2 * u8::from(segment.release)];
    bytes.extend_from_slice(&segment.time.to_be_bytes());
    bytes.extend_from_slice(&length.to_be_bytes());
    bytes.extend_from_slice(&segment.bytes);
    bytes
}

/// What panel-replay prints of a log.
pub fn replay(log: &[u8]) -> String {
    replay_seen(log, None)
}

/// What panel-replay prints of a log; its transfers are counted in `seen`.
pub fn replay_seen(log: &[u8], mut seen: Option<&mut Coverage>) -> String {
    let records = match records(log) {
        Err((number, offset)) => {
            if let Some(seen) = seen {
                seen.refused("log", number);
            }
            return format!("refused {number} {offset}\n");
        }
        Ok(records) => records,
    };
    let mut panel = St7789p3::new(PanelConfig {
        invon_shows_ram: true,
    });
    // "chosen at the start", "chosen when the panel is made": in a log nothing is, so it goes by the plain
    // profile and with the mode off, as the Rust does.
    let (mut profile, mut formats) = (Profile::new(false), Formats::new(false));
    for r in &records {
        match &mut seen {
            None => panel.transfer(VTime(r.time), r.dc, &r.bytes, r.release),
            Some(seen) => {
                seen.call("record");
                seen.transfer(&mut panel, &mut profile, &mut formats, r);
            }
        }
    }
    let mut out = String::new();
    replay_lines(&panel, &profile, &mut out);
    out
}
