//! The two sides of each line: the same work done by the Rust and by ours, compared, then timed in turn.

use std::hint::black_box;
use std::time::Instant;

use pemu_core::hostio::FramePort;
use pemu_core::time::VTime;

use crate::cases::{Case, Drawn};
use crate::log::{self, Segment};
use crate::ours;
use crate::st7789::reach::fields;
use crate::st7789::{FrameView, PANEL_PIXELS, PanelConfig, St7789p3};

/// Nanoseconds a unit: the Rust's, ours.
#[derive(Clone, Copy)]
pub struct Times {
    pub rust: f64,
    pub ours: f64,
}

impl Times {
    pub fn ratio(self) -> f64 {
        self.ours / self.rust
    }
}

pub struct Timed {
    pub times: Times,
    pub refused: u64,
}

/// Nanoseconds a pixel: in 16 bits, high byte first, and in another format.
pub struct Drawing {
    pub high_first: f64,
    pub other: f64,
    pub refused: u64,
}

fn panel() -> St7789p3 {
    St7789p3::new(PanelConfig {
        invon_shows_ram: true,
    })
}

/// Everything as in a fresh panel but the memory, which stays as it is. Lists keep their room.
fn freshen(panel: &mut St7789p3) {
    let f = fields(panel);
    *f.sleeping = true;
    (*f.display_on, *f.inverted) = (false, false);
    (*f.madctl, *f.colmod, *f.ramctrl) = (0x00, 0x66, [0, 0]);
    (*f.xs, *f.xe, *f.ys, *f.ye, *f.x, *f.y) = (0, 239, 0, 319, 0, 0);
    (*f.carry, *f.in_pixels, *f.cmd, *f.applied) = (None, false, None, false);
    f.params.clear();
    f.stored.clear();
    f.trace.clear();
    f.warnings.clear();
    (*f.trace_cur, *f.dirty) = (None, None);
    (
        *f.commands,
        *f.ramwr_count,
        *f.pixels_written,
        *f.dropped_params,
    ) = (0, 0, 0, 0);
    (*f.last_slpout, *f.last_slpin) = (None, Some(VTime(0)));
}

/// The rows of a case as both sides get them: for ours four numbers a row, and all bytes in one.
struct Rows {
    segments: Vec<Segment>,
    table: Vec<u64>,
    bytes: Vec<u8>,
    first: usize,
}

fn rows(case: &Case) -> Rows {
    let segments = [&case.setup[..], &case.body[..]].concat();
    let (mut table, mut bytes) = (Vec::new(), Vec::new());
    for s in &segments {
        let start = bytes.len() as u64;
        bytes.extend_from_slice(&s.bytes);
        let flags = u64::from(s.dc) + 2 * u64::from(s.release);
        table.extend([s.time, flags, start, bytes.len() as u64]);
    }
    Rows {
        segments,
        table,
        bytes,
        first: case.setup.len(),
    }
}

/// The Rust's counterpart of the entry `timed_transfers`.
#[inline(never)]
fn rust_sessions(panel: &mut St7789p3, rows: &Rows, turns: usize, sessions: usize) {
    for _ in 0..sessions {
        freshen(panel);
        let mut row = 0;
        for _ in 0..turns {
            let s = &rows.segments[row];
            panel.transfer(VTime(s.time), s.dc, &s.bytes, s.release);
            row += 1;
            if row == rows.segments.len() {
                row = rows.first;
            }
        }
    }
}

/// What the Rust's panel counted, in the order in which ours tells it.
fn told(panel: &St7789p3) -> [u64; 7] {
    [
        0,
        panel.commands(),
        panel.ramwr_count(),
        panel.pixels_written(),
        panel.dropped_param_bytes(),
        panel.trace().len() as u64,
        panel.warnings().len() as u64,
    ]
}

/// The least nanoseconds of each of N works, done in turn.
fn least<const N: usize>(rounds: usize, mut work: impl FnMut(usize)) -> [f64; N] {
    let mut best = [f64::MAX; N];
    for _ in 0..rounds {
        for (n, best) in best.iter_mut().enumerate() {
            let start = Instant::now();
            work(n);
            *best = best.min(start.elapsed().as_nanos() as f64);
        }
    }
    best
}

/// Stops the run where the two sides did not do the same.
fn same<T: PartialEq>(name: &str, rust: &T, ours: &T) {
    assert!(rust == ours, "{name}: the two sides differ");
}

/// Times a case with its body and without, and gives the difference a unit.
pub fn transfers(case: &Case, rounds: usize) -> Timed {
    let rows = rows(case);
    let base = case.setup.len();
    let turns = base + case.body.len() * case.repeat;
    let mut panel = panel();
    let mut memory = vec![0u16; PANEL_PIXELS];
    let mut ours = |turns: usize| {
        let (table, bytes) = (black_box(&rows.table), black_box(&rows.bytes));
        let (first, sessions) = (rows.first, case.sessions);
        ours::transfers(table, bytes, first, turns, sessions, false, &mut memory)
    };
    let mut refused = 0;
    let best = least::<4>(rounds, |n| match n {
        0 => rust_sessions(&mut panel, black_box(&rows), turns, case.sessions),
        1 => refused += ours(turns)[0],
        2 => rust_sessions(&mut panel, black_box(&rows), base, case.sessions),
        _ => refused += ours(base)[0],
    });
    rust_sessions(&mut panel, &rows, turns, case.sessions);
    let mut answer = ours(turns);
    refused += std::mem::take(&mut answer[0]);
    same(&case.name, &told(&panel), &answer);
    same(&case.name, &panel.raw(), &&memory[..]);
    let units = (case.units * case.repeat * case.sessions) as f64;
    Timed {
        times: Times {
            rust: (best[0] - best[2]) / units,
            ours: (best[1] - best[3]) / units,
        },
        refused,
    }
}

/// One picture drawn by ours with Q-5's mode on, in 16 bits, high byte first, and in another format; the
/// times a pixel.
pub fn formats(drawn: &Drawn, rounds: usize) -> Drawing {
    let cases = [&drawn.high_first, &drawn.other];
    let sides = cases.map(rows);
    let mut memories = [vec![0u16; PANEL_PIXELS], vec![0u16; PANEL_PIXELS]];
    let mut refused = 0;
    let best = least::<4>(rounds, |n| {
        let (case, rows, memory) = (cases[n % 2], &sides[n % 2], &mut memories[n % 2]);
        let body = if n < 2 { case.body.len() } else { 0 };
        let turns = case.setup.len() + body;
        let (table, bytes) = (black_box(&rows.table), black_box(&rows.bytes));
        refused += ours::transfers(table, bytes, rows.first, turns, 1, true, memory)[0];
    });
    same(&drawn.name, &memories[0], &memories[1]);
    let units = drawn.other.units as f64;
    Drawing {
        high_first: (best[0] - best[2]) / units,
        other: (best[1] - best[3]) / units,
        refused,
    }
}

/// Publishing of so many rows, marked anew each time.
pub fn publish(rows: u16, rounds: usize) -> Timed {
    let turns = if rows > 100 { 10 } else { 100 };
    let mut panel = panel();
    for (number, at) in fields(&mut panel).ram.iter_mut().zip(0u32..) {
        *number = at as u16 ^ 0x5A5A;
    }
    let memory = panel.raw().to_vec();
    let mut frame = vec![0u16; PANEL_PIXELS];
    let mut port = FramePort::zeros(PANEL_PIXELS);
    let mut refused = 0;
    let best = least::<2>(rounds, |n| match n {
        0 => {
            for _ in 0..turns {
                *fields(&mut panel).dirty = Some((0, rows - 1));
                black_box(panel.publish(&mut port));
            }
        }
        _ => refused += ours::publish(0, rows - 1, turns, black_box(&memory), &mut frame),
    });
    same("publish", &port.pixels, &frame);
    timed(best, turns, refused)
}

fn timed(best: [f64; 2], turns: usize, refused: u64) -> Timed {
    Timed {
        times: Times {
            rust: best[0] / turns as f64,
            ours: best[1] / turns as f64,
        },
        refused,
    }
}

/// A whole view of a lit panel, inverted where memory is to be shown as it is.
pub fn view(number: u8, plain: bool, rounds: usize) -> Timed {
    let view = [FrameView::Raw, FrameView::Glass, FrameView::Perceived][usize::from(number)];
    let pair = (700, 1024);
    let mut panel = panel();
    let f = fields(&mut panel);
    (*f.powered, *f.sleeping, *f.display_on, *f.inverted) = (true, false, true, plain);
    *f.brightness = crate::backlight::reach::pair(pair.0, pair.1);
    for (number, at) in f.ram.iter_mut().zip(0u32..) {
        *number = (at.wrapping_mul(2_654_435_761) >> 13) as u16;
    }
    let memory = panel.raw().to_vec();
    let mut buffer = vec![0u16; PANEL_PIXELS];
    let mut refused = 0;
    let best = least::<2>(rounds, |n| match n {
        0 => {
            black_box(black_box(&panel).frame(view));
        }
        _ => refused += ours::view(number, pair, plain, 1, black_box(&memory), &mut buffer),
    });
    same("view", &panel.frame(view), &buffer);
    timed(best, 1, refused)
}

/// A log from its bytes to the report; on the Rust's side the check and the report are the oracle's.
pub fn replay(bytes: &[u8], rounds: usize) -> Times {
    let mut out = vec![0u8; 18_000];
    let best = least::<2>(rounds, |n| match n {
        0 => {
            black_box(log::replay(black_box(bytes)));
        }
        _ => {
            black_box(ours::replay(black_box(bytes), 1, &mut out));
        }
    });
    let length = ours::replay(bytes, 1, &mut out);
    same("replay", &log::replay(bytes).as_bytes(), &&out[..length]);
    Times {
        rust: best[0],
        ours: best[1],
    }
}
