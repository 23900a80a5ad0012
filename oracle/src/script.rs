//! Scripts of calls: each line is read, tested against the table of refusals, and run on the Rust.

use std::sync::atomic::Ordering;

use pemu_core::hostio::FramePort;
use pemu_core::time::VTime;

use crate::backlight::Brightness;
use crate::backlight::reach::pair;
use crate::coverage::Coverage;
use crate::formats::Formats;
use crate::log::Segment;
use crate::profile::Profile;
use crate::refusals::{self, Lent};
use crate::report::{self, RULES, UNGUARDED, VIEWS, at_most_full, bit, digest, line};
use crate::st7789::reach::fields;
use crate::st7789::{FrameView, PANEL_HEIGHT, PANEL_PIXELS, PANEL_WIDTH, PanelConfig, St7789p3};
use crate::st7789::{STORED_COMMANDS, TimingWarning, TraceEntry};
use crate::totals::{Lost, Totals};
use crate::traits::{BoardDomain, Chip};

/// The longest BYTES of a transfer: one more than the longest segment.
const BYTES_LIMIT: usize = refusals::SEGMENT_LIMIT + 1;

/// The longest length that can be lent: one more than the panel has pixels.
const LEND_LIMIT: u64 = PANEL_PIXELS as u64 + 1;

/// The highest count of a list that `set` makes.
const COUNT_LIMIT: usize = 255;

/// The panel with its memory inside, what add to it, the frame, the lengths with which
/// buffers are lent, and what was seen of the calls, where that is asked for.
struct Bench<'a> {
    panel: St7789p3,
    profile: Profile,
    formats: Formats,
    lost: Lost,
    port: FramePort,
    lent: Lent,
    seen: Option<&'a mut Coverage>,
}

/// What a script prints.
pub fn run(script: &[u8]) -> String {
    run_seen(script, None)
}

/// What a script prints where nothing is refused: the Rust as it is, without the table and Q-1's limit
/// around it.
pub fn run_unguarded(script: &[u8]) -> String {
    UNGUARDED.store(true, Ordering::Relaxed);
    run_seen(script, None)
}

/// What a script prints; its calls are counted in `seen`.
pub fn run_seen(script: &[u8], seen: Option<&mut Coverage>) -> String {
    let mut bench = Bench {
        panel: fresh(true),
        profile: Profile::new(false),
        formats: Formats::new(false),
        lost: Lost::default(),
        port: FramePort::zeros(PANEL_PIXELS),
        lent: Lent::FULL,
        seen,
    };
    let mut out = String::new();
    for (at, text) in script.split(|byte| *byte == b'\n').enumerate() {
        let text = text.split(|byte| *byte == b'#').next().unwrap_or_default();
        let words: Vec<&[u8]> = text
            .split(|byte| *byte == b' ')
            .filter(|word| !word.is_empty())
            .collect();
        if !words.is_empty() && bench.counted(&words, &mut out).is_none() {
            line(&mut out, format_args!("bad line {}", at + 1));
            return out;
        }
    }
    bench.dump(&mut out);
    out
}

fn fresh(switch: bool) -> St7789p3 {
    let mut panel = St7789p3::new(PanelConfig {
        invon_shows_ram: switch,
    });
    fresh_scale(&mut panel);
    panel
}

/// Gives the Rust's fresh pair, level 0 over 1024, the scale 1 of document 01.
fn fresh_scale(panel: &mut St7789p3) {
    if panel.brightness() == Brightness::OFF {
        *fields(panel).brightness = pair(0, 1);
    }
}

impl Bench<'_> {
    /// Runs one line and counts it; `None` when it makes no sense.
    fn counted(&mut self, words: &[&[u8]], out: &mut String) -> Option<()> {
        let Some(seen) = &mut self.seen else {
            return self.call(words, out);
        };
        seen.before(&self.panel, &self.formats, &self.lost, words);
        let start = out.len();
        let done = self.call(words, out);
        if let Some(seen) = &mut self.seen {
            seen.after(words, done.map(|()| &out[start..]));
        }
        done
    }

    /// The Rust's transfer, under the panel's profile and in its mode, and its totals.
    fn transfer(&mut self, segment: &Segment) -> Totals {
        let totals = Totals::of(&mut self.panel, &self.formats, segment);
        self.lost.add(totals);
        let (panel, profile, formats) = (&mut self.panel, &mut self.profile, &mut self.formats);
        match &mut self.seen {
            None => profile.transfer(panel, formats, segment),
            Some(seen) => seen.transfer(panel, profile, formats, segment),
        }
        totals
    }

    /// The table's tests of a transfer with memory.
    fn tested(&self, length: usize) -> Result<(), u8> {
        refusals::transfer(&self.panel, &self.formats, &self.lost, self.lent, length)
    }

    fn dump(&mut self, out: &mut String) {
        report::dump(
            &mut self.panel,
            &self.profile,
            &self.formats,
            &self.lost,
            &self.port.pixels,
            out,
        );
    }

    /// Runs one line; `None` when it makes no sense.
    fn call(&mut self, words: &[&[u8]], out: &mut String) -> Option<()> {
        match words {
            [b"transfer", words @ ..] => {
                let segment = segment(words)?;
                if accepted(self.tested(segment.bytes.len()), out) {
                    self.transfer(&segment);
                }
            }
            [b"totals", words @ ..] => {
                let segment = segment(words)?;
                if accepted(self.tested(segment.bytes.len()), out) {
                    let t = self.transfer(&segment);
                    line(
                        out,
                        format_args!("totals {} {} {}", t.stored, t.inverted, t.unmapped),
                    );
                }
            }
            [b"bare", words @ ..] => {
                let segment = segment(words)?;
                let length = segment.bytes.len();
                let tested = refusals::bare(&self.panel, &self.formats, &self.lost, length);
                if accepted(tested, out) {
                    // The Rust has no such call: it writes to a copy of its memory, which is dropped.
                    let memory = fields(&mut self.panel).ram.clone();
                    self.transfer(&segment);
                    *fields(&mut self.panel).ram = memory;
                }
            }
            [b"power", on] => self.panel.set_powered(flag(on)?),
            [b"switch", on] => self.panel.set_invon_shows_ram(flag(on)?),
            [b"brightness", level, scale, duty] => {
                let (level, scale) = (word32(level)?, word32(scale)?);
                let duty = word16(duty)?;
                let panel = fields(&mut self.panel);
                *panel.brightness = pair(level, scale);
                *panel.frame_duty = duty;
            }
            [b"mark-all"] => self.panel.mark_all_dirty(),
            [b"take-warnings"] => {
                let taken = self.panel.take_warnings();
                line(out, format_args!("taken {}", taken.len()));
                report::warning_lines(&taken, &self.profile.take_fours(), out);
            }
            [b"reset", domain] => {
                let domain = BoardDomain::ALL
                    .into_iter()
                    .find(|d| d.name().as_bytes() == *domain)?;
                if accepted(refusals::memory(self.lent), out) {
                    self.panel.reset(domain);
                    if domain == BoardDomain::BoardRail {
                        fresh_scale(&mut self.panel);
                        self.profile.board_rail();
                        self.formats.board_rail();
                        self.lost.board_rail();
                    }
                }
            }
            [b"fresh", switch, chosen @ ..] => {
                let (strict, formats) = match chosen {
                    [] => (false, false),
                    [strict] => (flag(strict)?, false),
                    [strict, formats] => (flag(strict)?, flag(formats)?),
                    _ => return None,
                };
                let mut panel = fresh(flag(switch)?);
                if !accepted(refusals::memory(self.lent), out) {
                    // No state came in, so a fresh one is given back; the memory stays.
                    std::mem::swap(fields(&mut panel).ram, fields(&mut self.panel).ram);
                }
                self.panel = panel;
                self.profile = Profile::new(strict);
                self.formats = Formats::new(formats);
                self.lost = Lost::default();
            }
            [b"publish"] => {
                let tested = refusals::publish(&self.panel, &self.formats, self.lent);
                if accepted(tested, out) {
                    self.publish(out);
                }
            }
            [b"view", name] => {
                let (name, view) = view_named(name)?;
                if accepted(refusals::view(self.lent), out) {
                    let numbers = at_most_full(&mut self.panel, |panel| panel.frame(view));
                    line(out, format_args!("view {name} {}", digest(&numbers)));
                }
            }
            [b"pixels", name] => {
                let (name, view) = view_named(name)?;
                if accepted(refusals::view(self.lent), out) {
                    let numbers = at_most_full(&mut self.panel, |panel| panel.frame(view));
                    line(out, format_args!("pixels {name}"));
                    report::pixel_lines(&numbers, out);
                }
            }
            [b"pixel", name, x, y] => {
                let (name, view) = view_named(name)?;
                let (x, y) = (word16(x)?, word16(y)?);
                if accepted(refusals::memory(self.lent), out) {
                    let pixel = at_most_full(&mut self.panel, |panel| panel.pixel(view, x, y));
                    line(out, format_args!("pixel {name} {x} {y} {pixel:04x}"));
                }
            }
            [b"row", b"panel", row] => {
                let row = word16(row)?;
                let text = self.row(self.panel.raw(), row);
                line(out, format_args!("row panel {row} {text}"));
            }
            [b"row", b"frame", row] => {
                let row = word16(row)?;
                let text = self.row(&self.port.pixels, row);
                line(out, format_args!("row frame {row} {text}"));
            }
            [b"boot"] => match self.panel.boot_mismatch() {
                None => line(out, format_args!("boot ok")),
                Some(differs) => {
                    let found = differs.found.as_ref().map(report::record_text);
                    let found = found.unwrap_or("none".to_string());
                    line(out, format_args!("boot {} {found}", differs.step));
                }
            },
            [b"lend", b"memory", length] => self.lent.memory = lendable(length)?,
            [b"lend", b"frame", length] => self.lent.frame = lendable(length)?,
            [b"lend", b"view", length] => self.lent.view = lendable(length)?,
            [b"dump"] => self.dump(out),
            [b"set", b"frame", pixel] => self.port.pixels.fill(hex(pixel, 4)?),
            [b"set", b"strict", on] => self.profile.strict = flag(on)?,
            [b"set", b"formats", on] => self.formats.on = flag(on)?,
            [b"set", b"carry", bytes] => self.formats.wait(&mut self.panel, &waiting(bytes)?),
            [b"set", b"swreset", b"none"] => self.profile.swreset = None,
            [b"set", b"swreset", time] => self.profile.swreset = Some(long(time)?),
            [b"set", b"lost_inverted", n] => self.lost.inverted = long(n)?,
            [b"set", b"lost_unmapped", n] => self.lost.unmapped = long(n)?,
            [b"set", b"warnings", values @ ..] => self.set_warnings(values)?,
            [b"set", field, values @ ..] => set(&mut self.panel, field, values)?,
            _ => return None,
        }
        Some(())
    }

    /// `set warnings`: one more, or none; `None` when the words make no sense.
    fn set_warnings(&mut self, values: &[&[u8]]) -> Option<()> {
        let panel = &mut self.panel;
        match values {
            [b"none"] => {
                fields(panel).warnings.clear();
                self.profile.take_fours();
            }
            [rule, c, time] => {
                let rule = decimal(rule, 4)? as usize;
                let (c, time) = (byte_word(c)?, long(time)?);
                if rule == 0 || panel.warnings().len() == COUNT_LIMIT {
                    return None;
                }
                match RULES.get(rule - 1) {
                    None => self.profile.warn(panel, c, time),
                    Some(lint) => fields(panel).warnings.push(TimingWarning {
                        lint: *lint,
                        cmd: c,
                        at: VTime(time),
                    }),
                }
            }
            _ => return None,
        }
        Some(())
    }

    fn publish(&mut self, out: &mut String) {
        self.port.marked = None;
        let span = self.panel.publish(&mut self.port);
        let port = &self.port;
        assert_eq!(span, port.marked, "the rows marked are the span answered");
        line(
            out,
            format_args!(
                "publish {} {} {} {} {} {} {}",
                report::span(span),
                bit(port.powered),
                bit(port.sleeping),
                bit(port.inverted),
                bit(port.display_on),
                bit(port.invon_shows_ram),
                port.backlight,
            ),
        );
    }

    /// A row's digest; the Rust has no such call, so document 01's rule is written here.
    fn row(&self, numbers: &[u16], row: u16) -> String {
        let full = self.lent.memory == PANEL_PIXELS && self.lent.frame == PANEL_PIXELS;
        if !full || row >= PANEL_HEIGHT {
            return "empty".to_string();
        }
        let width = usize::from(PANEL_WIDTH);
        let at = usize::from(row) * width;
        digest(&numbers[at..at + width])
    }
}

/// TIME DC CS BYTES of a transfer.
fn segment(words: &[&[u8]]) -> Option<Segment> {
    let [time, dc, release, bytes] = words else {
        return None;
    };
    Some(Segment {
        time: long(time)?,
        dc: flag(dc)?,
        release: flag(release)?,
        bytes: byte_list(bytes, BYTES_LIMIT)?,
    })
}

/// The bytes that wait: `none`, one or two.
fn waiting(word: &[u8]) -> Option<Vec<u8>> {
    match word {
        b"none" => Some(Vec::new()),
        [_, _] => Some(vec![byte_word(word)?]),
        _ => Some(hex(word, 4)?.to_be_bytes().to_vec()),
    }
}

/// Prints a refusal, if it is one.
fn accepted(tested: Result<(), u8>, out: &mut String) -> bool {
    if UNGUARDED.load(Ordering::Relaxed) {
        return true;
    }
    if let Err(number) = tested {
        line(out, format_args!("refused {number}"));
    }
    tested.is_ok()
}

/// Sets one field of the panel; `None` when the words make no sense.
fn set(panel: &mut St7789p3, field: &[u8], values: &[&[u8]]) -> Option<()> {
    let panel = fields(panel);
    match (field, values) {
        (b"sleeping", [on]) => *panel.sleeping = flag(on)?,
        (b"on", [on]) => *panel.display_on = flag(on)?,
        (b"inverted", [on]) => *panel.inverted = flag(on)?,
        (b"run", [on]) => *panel.in_pixels = flag(on)?,
        (b"applied", [on]) => *panel.applied = flag(on)?,
        (b"madctl", [byte]) => *panel.madctl = byte_word(byte)?,
        (b"colmod", [byte]) => *panel.colmod = byte_word(byte)?,
        (b"ramctrl", [bytes]) => *panel.ramctrl = hex(bytes, 4)?.to_be_bytes(),
        (b"win", [xs, xe, ys, ye, x, y]) => {
            let (left, right, top, bottom) = (word16(xs)?, word16(xe)?, word16(ys)?, word16(ye)?);
            let (column, row) = (word16(x)?, word16(y)?);
            (*panel.xs, *panel.xe, *panel.ys, *panel.ye) = (left, right, top, bottom);
            (*panel.x, *panel.y) = (column, row);
        }
        (b"cmd", [b"none"]) => *panel.cmd = None,
        (b"cmd", [byte]) => *panel.cmd = Some(byte_word(byte)?),
        (b"params", [bytes]) => *panel.params = byte_list(bytes, COUNT_LIMIT)?,
        (b"stored", [c, bytes]) => {
            let c = byte_word(c)?;
            if !STORED_COMMANDS.contains(&c) {
                return None;
            }
            let list = match *bytes {
                b"none" => None,
                bytes => Some(byte_list(bytes, COUNT_LIMIT)?),
            };
            // The Rust keeps its lists sorted by command.
            panel.stored.retain(|(key, _)| *key != c);
            if let Some(list) = list {
                let at = panel.stored.partition_point(|(key, _)| *key < c);
                panel.stored.insert(at, (c, list));
            }
        }
        (b"commands", [n]) => *panel.commands = long(n)?,
        (b"ramwrs", [n]) => *panel.ramwr_count = long(n)?,
        (b"pixels", [n]) => *panel.pixels_written = long(n)?,
        (b"dropped", [n]) => *panel.dropped_params = long(n)?,
        (b"dirty", [b"none"]) => *panel.dirty = None,
        (b"dirty", [first, last]) => *panel.dirty = Some((word16(first)?, word16(last)?)),
        (b"slpout", [b"none"]) => *panel.last_slpout = None,
        (b"slpout", [time]) => *panel.last_slpout = Some(VTime(long(time)?)),
        (b"slpin", [time]) => *panel.last_slpin = Some(VTime(long(time)?)),
        (b"trace", [b"none"]) => panel.trace.clear(),
        (b"trace", [c, time, pixel_bytes, bytes]) => {
            let record = TraceEntry {
                cmd: byte_word(c)?,
                params: byte_list(bytes, COUNT_LIMIT)?,
                pixel_bytes: long(pixel_bytes)?,
                at: VTime(long(time)?),
            };
            if panel.trace.len() == COUNT_LIMIT {
                return None;
            }
            panel.trace.push(record);
        }
        (b"current", [b"none"]) => *panel.trace_cur = None,
        (b"current", [index]) => *panel.trace_cur = Some(decimal(index, 255)? as usize),
        (b"memory", [pixel]) => panel.ram.fill(hex(pixel, 4)?),
        _ => return None,
    }
    Some(())
}

fn view_named(name: &[u8]) -> Option<(&'static str, FrameView)> {
    VIEWS
        .into_iter()
        .find(|(known, _)| known.as_bytes() == name)
}

fn lendable(word: &[u8]) -> Option<usize> {
    Some(decimal(word, LEND_LIMIT)? as usize)
}

fn flag(word: &[u8]) -> Option<bool> {
    match word {
        b"0" => Some(false),
        b"1" => Some(true),
        _ => None,
    }
}

fn word16(word: &[u8]) -> Option<u16> {
    Some(decimal(word, u64::from(u16::MAX))? as u16)
}

fn word32(word: &[u8]) -> Option<u32> {
    Some(decimal(word, u64::from(u32::MAX))? as u32)
}

fn long(word: &[u8]) -> Option<u64> {
    decimal(word, u64::MAX)
}

/// One or more decimal digits with a value of at most `most`.
fn decimal(word: &[u8], most: u64) -> Option<u64> {
    if word.is_empty() {
        return None;
    }
    let mut value = 0u64;
    for digit in word {
        if !digit.is_ascii_digit() {
            return None;
        }
        value = value
            .checked_mul(10)?
            .checked_add(u64::from(digit - b'0'))?;
    }
    (value <= most).then_some(value)
}

fn byte_word(word: &[u8]) -> Option<u8> {
    Some(hex(word, 2)? as u8)
}

/// Exactly this many lower-case hex digits, at most four.
fn hex(word: &[u8], digits: usize) -> Option<u16> {
    if word.len() != digits {
        return None;
    }
    word.iter().try_fold(0, |value, digit| {
        let digit = match digit {
            b'0'..=b'9' => digit - b'0',
            b'a'..=b'f' => digit - b'a' + 10,
            _ => return None,
        };
        Some(value << 4 | u16::from(digit))
    })
}

/// BYTES of at most `most` bytes.
fn byte_list(word: &[u8], most: usize) -> Option<Vec<u8>> {
    let mut bytes = Vec::new();
    if word == b"-" {
        return Some(bytes);
    }
    for piece in word.split(|byte| *byte == b',') {
        let mut halves = piece.splitn(2, |byte| *byte == b'*');
        let digits = halves.next()?;
        let count = halves.next().map_or(Some(1), long)?;
        if digits.is_empty() || digits.len() % 2 != 0 {
            return None;
        }
        let part: Option<Vec<u8>> = digits.chunks(2).map(byte_word).collect();
        let part = part?;
        let total = count.checked_mul(part.len() as u64)?;
        if total > (most - bytes.len()) as u64 {
            return None;
        }
        bytes.extend(part.repeat(count as usize));
    }
    Some(bytes)
}
