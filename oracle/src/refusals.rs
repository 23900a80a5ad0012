//! The table of refusals of document 01, tested around the Rust, which refuses nothing itself.

use crate::formats::Formats;
use crate::st7789::reach::hidden;
use crate::st7789::{MAX_PARAMS, PANEL_HEIGHT, PANEL_PIXELS, St7789p3, TRACE_LIMIT};
use crate::totals::Lost;

pub const BAD_STATE: u8 = 1;
pub const BAD_MEMORY: u8 = 2;
pub const BAD_FRAME: u8 = 3;
pub const TOO_LONG: u8 = 4;
pub const COUNT_HIGH: u8 = 5;
pub const LOG_LONG: u8 = 6;
pub const BAD_LOG: u8 = 7;

/// The longest segment, and the longest log.
pub const SEGMENT_LIMIT: usize = 65_536;
pub const LOG_LIMIT: usize = 65_536;

/// The highest count that a transfer accepts.
const COUNT_LIMIT: u64 = 1 << 63;

/// The lengths with which memory, frame and view buffer are lent.
#[derive(Copy, Clone)]
pub struct Lent {
    pub memory: usize,
    pub frame: usize,
    pub view: usize,
}

impl Lent {
    pub const FULL: Lent = Lent {
        memory: PANEL_PIXELS,
        frame: PANEL_PIXELS,
        view: PANEL_PIXELS,
    };
}

/// What a transfer with memory refuses: 1, 2, 4, 5.
pub fn transfer(
    panel: &St7789p3,
    formats: &Formats,
    lost: &Lost,
    lent: Lent,
    length: usize,
) -> Result<(), u8> {
    state(panel, formats)?;
    memory(lent)?;
    segment(length)?;
    counts(panel, lost)
}

/// What a transfer without memory refuses: 1, 4, 5.
pub fn bare(panel: &St7789p3, formats: &Formats, lost: &Lost, length: usize) -> Result<(), u8> {
    state(panel, formats)?;
    segment(length)?;
    counts(panel, lost)
}

/// What publishing refuses: 1, 2, 3.
pub fn publish(panel: &St7789p3, formats: &Formats, lent: Lent) -> Result<(), u8> {
    state(panel, formats)?;
    memory(lent)?;
    frame(lent.frame)
}

/// What a whole view refuses: 2, 3.
pub fn view(lent: Lent) -> Result<(), u8> {
    memory(lent)?;
    frame(lent.view)
}

/// What a pixel, a reset and a new panel refuse: 2.
pub fn memory(lent: Lent) -> Result<(), u8> {
    test(lent.memory != PANEL_PIXELS, BAD_MEMORY)
}

fn frame(length: usize) -> Result<(), u8> {
    test(length != PANEL_PIXELS, BAD_FRAME)
}

fn segment(length: usize) -> Result<(), u8> {
    test(length > SEGMENT_LIMIT, TOO_LONG)
}

fn counts(panel: &St7789p3, lost: &Lost) -> Result<(), u8> {
    test(!high_counts(panel, lost).is_empty(), COUNT_HIGH)
}

/// The counts above 2^63, by name. Q-3: "COUNT_HIGH also looks at both."
pub fn high_counts(panel: &St7789p3, lost: &Lost) -> Vec<&'static str> {
    let current = hidden(panel).trace_cur.and_then(|at| panel.trace().get(at));
    let [inverted, unmapped] = lost.high(COUNT_LIMIT);
    named(&[
        ("commands", panel.commands() > COUNT_LIMIT),
        ("ramwrs", panel.ramwr_count() > COUNT_LIMIT),
        ("pixels", panel.pixels_written() > COUNT_LIMIT),
        ("dropped", panel.dropped_param_bytes() > COUNT_LIMIT),
        inverted,
        unmapped,
        (
            "pixel bytes",
            current.is_some_and(|record| record.pixel_bytes > COUNT_LIMIT),
        ),
    ])
}

fn state(panel: &St7789p3, formats: &Formats) -> Result<(), u8> {
    test(!bad_clauses(panel, formats).is_empty(), BAD_STATE)
}

/// The clauses of BAD_STATE that a state meets, by name; that of the carry is Q-5's.
pub fn bad_clauses(panel: &St7789p3, formats: &Formats) -> Vec<&'static str> {
    let inner = hidden(panel);
    let (xs, xe, ys, ye) = panel.window();
    let (x, y) = panel.cursor();
    let long = |list: &Vec<u8>| list.len() > MAX_PARAMS;
    let span = panel.dirty_rows();
    let current = inner.trace_cur.map(|at| (at, panel.trace().get(at)));
    let last = |at: usize| at + 1 == panel.trace().len();
    named(&[
        ("xs", xs >= PANEL_HEIGHT),
        ("xe", xe >= PANEL_HEIGHT),
        ("ys", ys >= PANEL_HEIGHT),
        ("ye", ye >= PANEL_HEIGHT),
        ("x", x >= PANEL_HEIGHT),
        ("y", y >= PANEL_HEIGHT),
        ("params", inner.params.len() > MAX_PARAMS),
        ("stored", inner.stored.iter().any(|(_, list)| long(list))),
        ("record", panel.trace().iter().any(|r| long(&r.params))),
        ("trace", panel.trace().len() > TRACE_LIMIT),
        ("warnings", panel.warnings().len() > TRACE_LIMIT),
        ("span order", span.is_some_and(|(first, last)| first > last)),
        (
            "span end",
            span.is_some_and(|(_, last)| last >= PANEL_HEIGHT),
        ),
        ("current", current.is_some_and(|(at, _)| !last(at))),
        (
            "current's params",
            current.is_some_and(|(_, r)| r.is_some_and(|r| r.params != inner.params)),
        ),
        ("carry", formats.bad_carry(panel)),
    ])
}

/// The names whose test is true.
fn named(tests: &[(&'static str, bool)]) -> Vec<&'static str> {
    let met = tests.iter().filter(|(_, met)| *met);
    met.map(|(name, _)| *name).collect()
}

fn test(refused: bool, number: u8) -> Result<(), u8> {
    if refused { Err(number) } else { Ok(()) }
}
