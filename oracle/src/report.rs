//! What is printed of a panel: the lines of panel-replay, the rest of the dump, and digests.

use std::collections::BTreeSet;
use std::fmt::Write;
use std::sync::atomic::{AtomicBool, Ordering};

use crate::backlight::reach::pair;
use crate::formats::Formats;
use crate::profile::Profile;
use crate::st7789::reach::{fields, hidden};
use crate::st7789::{FrameView, MAX_PARAMS, PANEL_WIDTH, St7789p3, TRACE_LIMIT};
use crate::st7789::{TimingLint, TimingWarning, TraceEntry};
use crate::totals::Lost;

pub const VIEWS: [(&str, FrameView); 3] = [
    ("raw", FrameView::Raw),
    ("glass", FrameView::Glass),
    ("perceived", FrameView::Perceived),
];

/// The rules 1 to 3 of the lint, by their numbers in document 01; rule 4 is Q-14's.
pub const RULES: [TimingLint; 3] = [
    TimingLint::CommandAfterSlpout,
    TimingLint::SleepCycleTooFast,
    TimingLint::RamwrWrongColmod,
];

/// The lines that panel-replay prints: regs, win, cnt, dirty, boot, w.., t..
pub fn replay_lines(panel: &St7789p3, profile: &Profile, out: &mut String) {
    let [r0, r1] = panel.ramctrl();
    line(
        out,
        format_args!(
            "regs {} {} {} {:02x} {:02x} {r0:02x} {r1:02x}",
            bit(panel.sleeping()),
            bit(panel.display_on()),
            bit(panel.inverted()),
            panel.madctl(),
            panel.colmod(),
        ),
    );
    let (xs, xe, ys, ye) = panel.window();
    let (x, y) = panel.cursor();
    line(out, format_args!("win {xs} {xe} {ys} {ye} {x} {y}"));
    line(
        out,
        format_args!(
            "cnt {} {} {} {} {}",
            panel.commands(),
            panel.ramwr_count(),
            panel.pixels_written(),
            panel.dropped_param_bytes(),
            panel.warnings().len(),
        ),
    );
    line(out, format_args!("dirty {}", span(panel.dirty_rows())));
    match panel.boot_mismatch() {
        None => line(out, format_args!("boot ok")),
        Some(found) => line(out, format_args!("boot {}", found.step)),
    }
    warning_lines(panel.warnings(), profile.fours(), out);
    for record in panel.trace().iter().take(TRACE_LIMIT) {
        line(out, format_args!("{}", record_text(record)));
    }
}

/// Set where the Rust is run as it is, without the table of refusals and without Q-1's limit.
pub static UNGUARDED: AtomicBool = AtomicBool::new(false);

/// True where Q-1 parts from the Rust: the level is above the scale, which is not 0.
pub fn above_full(panel: &St7789p3) -> bool {
    let given = panel.brightness();
    given.scale() != 0 && given.level() > given.scale()
}

/// A look at the panel as Q-1 has it dimmed: above full the Rust looks at scale over scale, and else at
/// the pair as it stands.
pub fn at_most_full<T>(panel: &mut St7789p3, look: impl FnOnce(&St7789p3) -> T) -> T {
    let given = panel.brightness();
    if above_full(panel) && !UNGUARDED.load(Ordering::Relaxed) {
        *fields(panel).brightness = pair(given.scale(), given.scale());
    }
    let seen = look(panel);
    *fields(panel).brightness = given;
    seen
}

/// The whole dump, with the digest of the frame's numbers.
pub fn dump(
    panel: &mut St7789p3,
    profile: &Profile,
    formats: &Formats,
    lost: &Lost,
    frame: &[u16],
    out: &mut String,
) {
    replay_lines(panel, profile, out);
    let inner = hidden(panel);
    line(
        out,
        format_args!(
            "ctl {} {} {} {} {} {} {}",
            bit(panel.powered()),
            bit(panel.config().invon_shows_ram),
            panel.brightness().level(),
            panel.brightness().scale(),
            inner.frame_duty,
            bit(profile.strict),
            bit(formats.on),
        ),
    );
    line(
        out,
        format_args!(
            "ctx {} {} {} {}{}",
            hex_or_none(inner.cmd),
            bit(inner.in_pixels),
            bit(inner.applied),
            waiting(&formats.waiting(panel)),
            list(inner.params),
        ),
    );
    line(
        out,
        format_args!(
            "at {} {} {} {}",
            number_or_none(inner.last_slpout),
            number_or_none(inner.last_slpin),
            number_or_none(profile.swreset),
            number_or_none(inner.trace_cur.map(|at| at as u64)),
        ),
    );
    line(
        out,
        format_args!("lost {} {}", lost.inverted, lost.unmapped),
    );
    for (c, bytes) in inner.stored {
        line(out, format_args!("s {c:02x}{}", list(bytes)));
    }
    line(out, format_args!("digest memory {}", digest(panel.raw())));
    line(out, format_args!("digest frame {}", digest(frame)));
    for (name, view) in VIEWS {
        let numbers = at_most_full(panel, |panel| panel.frame(view));
        line(out, format_args!("digest {name} {}", digest(&numbers)));
    }
}

/// The number of the rule of the warning at a place; `fours` has the places of rule 4.
pub fn rule_of(warnings: &[TimingWarning], at: usize, fours: &BTreeSet<usize>) -> usize {
    let rule = RULES.iter().position(|rule| *rule == warnings[at].lint);
    let rule = rule.expect("one of the three rules") + 1;
    if fours.contains(&at) { 4 } else { rule }
}

pub fn warning_lines(warnings: &[TimingWarning], fours: &BTreeSet<usize>, out: &mut String) {
    for (at, warning) in warnings.iter().take(TRACE_LIMIT).enumerate() {
        let rule = rule_of(warnings, at, fours);
        line(
            out,
            format_args!("w {rule} {:02x} {}", warning.cmd, warning.at.0),
        );
    }
}

/// A trace record as its `t` line, without the newline.
pub fn record_text(record: &TraceEntry) -> String {
    format!(
        "t {:02x} {} {}{}",
        record.cmd,
        record.at.0,
        record.pixel_bytes,
        list(&record.params)
    )
}

/// A span as `FIRST LAST`, or `none`.
pub fn span(span: Option<(u16, u16)>) -> String {
    match span {
        None => "none".to_string(),
        Some((first, last)) => format!("{first} {last}"),
    }
}

/// Two numbers of 8 hex digits, joined; the order of the numbers counts in both.
pub fn digest(numbers: &[u16]) -> String {
    let first = folded::<1_000_003, 4_294_967_291>(numbers);
    let second = folded::<998_244_353, 4_294_967_279>(numbers);
    format!("{first:08x}{second:08x}")
}

/// From 0 on, for each number v in order: h becomes (h x K + v + 1) mod M.
fn folded<const K: u64, const M: u64>(numbers: &[u16]) -> u64 {
    let step = |h, v: &u16| (h * K + u64::from(*v) + 1) % M;
    numbers.iter().fold(0, step)
}

/// For each row of a whole view that is not all 0 a line `p ROW` and its runs.
pub fn pixel_lines(numbers: &[u16], out: &mut String) {
    for (row, pixels) in numbers.chunks(usize::from(PANEL_WIDTH)).enumerate() {
        if pixels.iter().any(|pixel| *pixel != 0) {
            let runs = pixels.chunk_by(|a, b| a == b);
            let runs: String = runs.map(run_text).collect();
            line(out, format_args!("p {row}{runs}"));
        }
    }
}

/// A run of equal pixels after a space: `HHHH` for one, `HHHH*N` for more.
fn run_text(run: &[u16]) -> String {
    match run {
        [pixel] => format!(" {pixel:04x}"),
        _ => format!(" {:04x}*{}", run[0], run.len()),
    }
}

pub fn bit(value: bool) -> u8 {
    u8::from(value)
}

pub fn line(out: &mut String, text: std::fmt::Arguments<'_>) {
    out.write_fmt(text).expect("a String takes all");
    out.push('\n');
}

/// Each byte in hex after a space; of a list above 14 bytes only those that fit.
fn list(bytes: &[u8]) -> String {
    let kept = bytes.iter().take(MAX_PARAMS);
    kept.map(|byte| format!(" {byte:02x}")).collect()
}

fn hex_or_none(byte: Option<u8>) -> String {
    byte.map_or("none".to_string(), |byte| format!("{byte:02x}"))
}

/// Bytes that wait side by side, or `none`.
fn waiting(bytes: &[u8]) -> String {
    match bytes {
        [] => "none".to_string(),
        _ => bytes.iter().map(|byte| format!("{byte:02x}")).collect(),
    }
}

fn number_or_none(number: Option<u64>) -> String {
    number.map_or("none".to_string(), |number| number.to_string())
}
