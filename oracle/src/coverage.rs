//! Counts what a run covered: calls, refusals, warnings, what became of the pixels.

use std::collections::{BTreeMap, BTreeSet};

use crate::formats::{Format, Formats};
use crate::log::Segment;
use crate::profile::Profile;
use crate::refusals::{bad_clauses, high_counts};
use crate::report::{above_full, bit, line, rule_of};
use crate::st7789::reach::hidden;
use crate::st7789::{MAX_PARAMS, STORED_COMMANDS, St7789p3, TRACE_LIMIT};
use crate::totals::{Lost, Totals};

/// Lines of a script that are no calls of the model.
const NO_CALLS: [&str; 3] = ["set", "lend", "dump"];

#[derive(Default)]
pub struct Coverage {
    pub logs: u64,
    pub scripts: u64,
    /// Calls by name (`record`: a transfer of a log), and lines that are no calls.
    calls: BTreeMap<String, u64>,
    others: BTreeMap<String, u64>,
    bad_lines: u64,
    /// Refusals by the call's name and their number.
    refusals: BTreeMap<(String, u8), u64>,
    /// Warnings kept, by rule.
    warnings: [u64; 4],
    /// Command segments under the strict profile: those within 5 ms of a SWRESET before them, and others.
    strict: [u64; 2],
    pixels: Totals,
    /// Transfers of a run by what became of their pixels: none lost, all inverted, all unmapped, some
    /// stored and some unmapped.
    outcomes: [u64; 4],
    /// Stored pixels under each MADCTL value.
    madctl: BTreeMap<u8, u64>,
    /// Commands begun, by their byte.
    codes: BTreeMap<u8, u64>,
    /// Segments of several commands that find trace and warnings full: with no byte waiting, and with one
    /// or two.
    together: [u64; 2],
    /// Data segments of a run with the mode off that leave a byte waiting, and those that find one waiting.
    left_waiting: u64,
    found_waiting: u64,
    /// Data segments of a run with the mode on: by format, and by how many bytes wait before them.
    formats: [u64; 4],
    waited: [u64; 3],
    /// MADCTL values under which such a segment stored a pixel.
    formats_madctl: BTreeSet<u8>,
    /// Looks at Perceived of a lit panel that were answered: not above full brightness, and above it.
    perceived: [u64; 2],
    /// Whether the line that runs is such a look, and above full.
    looks_above: Option<bool>,
    /// Publishes that copied one row, more, and all 320.
    published: [u64; 3],
    /// What of the model was met, by name; only where `names` is set, since it takes time.
    names: bool,
    pub met: BTreeSet<String>,
}

impl Coverage {
    /// One that also keeps what was met, by name.
    pub fn naming() -> Coverage {
        Coverage {
            names: true,
            ..Coverage::default()
        }
    }

    pub fn call(&mut self, name: &str) {
        *self.calls.entry(name.to_string()).or_default() += 1;
    }

    pub fn refused(&mut self, name: &str, number: u8) {
        *self.refusals.entry((name.to_string(), number)).or_default() += 1;
        self.meet(|| format!("{name} refused {number}"));
    }

    fn meet(&mut self, name: impl FnOnce() -> String) {
        if self.names {
            self.met.insert(name());
        }
    }

    /// Looks at the state before a line of a script.
    pub fn before(&mut self, panel: &St7789p3, formats: &Formats, lost: &Lost, words: &[&[u8]]) {
        let looks = match words {
            [b"view" | b"pixels" | b"pixel", b"perceived", ..] | [b"dump"] => panel.lit(),
            _ => false,
        };
        self.looks_above = looks.then_some(above_full(panel));
        if !self.names {
            return;
        }
        let call = text(words[0]);
        if ["transfer", "bare", "publish"].contains(&call.as_str()) {
            let clauses = bad_clauses(panel, formats);
            for clause in &clauses {
                self.met.insert(format!("{call} bad state: {clause}"));
            }
            let counts = high_counts(panel, lost);
            for count in counts.iter().filter(|_| clauses.is_empty()) {
                self.met.insert(format!("{call} high count: {count}"));
            }
            let (waiting, format) = (formats.waiting(panel).len(), Format::of(panel));
            let mode = formats.on;
            self.met
                .insert(format!("{call} with {waiting} waiting {mode} {format:?}"));
        }
        if ["view", "pixels", "pixel", "dump"].contains(&call.as_str()) {
            let (level, scale) = (panel.brightness().level(), panel.brightness().scale());
            let class = |n: u32| match n {
                0 => "0",
                1 => "1",
                u32::MAX => "most",
                _ => "other",
            };
            let lit = (panel.powered(), panel.sleeping(), panel.display_on());
            self.met.insert(format!("{call} lit {lit:?}"));
            if panel.lit() {
                let same = panel.inverted() == panel.config().invon_shows_ram;
                self.met.insert(format!("{call} shows memory {same}"));
                let above = level > scale;
                let (level, scale) = (class(level), class(scale));
                self.met
                    .insert(format!("{call} dims {level} {scale} {above}"));
            }
        }
    }

    /// Counts a line of a script and what it printed; nothing printed is `None` for a bad line.
    pub fn after(&mut self, words: &[&[u8]], printed: Option<&str>) {
        let name = text(words[0]);
        let answered = printed.is_some_and(|printed| !printed.starts_with("refused"));
        if let (Some(above), true) = (self.looks_above, answered) {
            self.perceived[usize::from(above)] += 1;
        }
        let Some(printed) = printed else {
            self.bad_lines += 1;
            let whole: Vec<String> = words.iter().map(|word| text(word)).collect();
            self.meet(|| format!("bad line {}", whole.join(" ")));
            return;
        };
        if NO_CALLS.contains(&name.as_str()) {
            let second = words.get(1).map(|word| text(word)).unwrap_or_default();
            self.meet(|| format!("{name} {second}"));
            *self.others.entry(name).or_default() += 1;
            return;
        }
        self.call(&name);
        if let Some(number) = printed.strip_prefix("refused ") {
            let number = number.trim_end().parse().expect("a refusal's number");
            self.refused(&name, number);
            return;
        }
        if name == "publish" {
            self.count_rows(printed);
        }
        if !self.names {
            return;
        }
        if name == "pixels" {
            self.name_pixels(printed);
            return;
        }
        let printed: Vec<&str> = printed.split_whitespace().collect();
        let detail = match name.as_str() {
            "reset" | "view" | "power" | "switch" => text(words[1]),
            "fresh" => text(&words[1..].concat()),
            "pixel" => format!("{} {}", printed[1], printed[4] == "0000"),
            "row" => format!("{} {}", printed[1], printed[3] == "empty"),
            "boot" if printed[1] == "ok" => "ok".to_string(),
            "boot" => format!("{} {}", printed[1], printed[2] == "none"),
            "take-warnings" => printed[1].to_string(),
            "totals" => printed[1..]
                .iter()
                .map(|n| bit(*n != "0").to_string())
                .collect(),
            _ => String::new(),
        };
        // Of a span only its kind counts, and of the flags each one alone.
        if name == "publish" {
            let flags = if printed[1] == "none" { 2 } else { 3 };
            let one_row = flags == 3 && printed[1] == printed[2];
            self.met.insert(format!("publish {flags} {one_row}"));
            for (at, flag) in printed[flags..].iter().enumerate() {
                let set = *flag != "0";
                self.met.insert(format!("publish flag {at} {set}"));
            }
        }
        self.met.insert(format!("{name} {detail}"));
    }

    /// Counts a publish by how many rows it copied.
    fn count_rows(&mut self, printed: &str) {
        let mut words = printed.split(' ').skip(1);
        let mut row = || words.next().and_then(|word| word.parse::<u64>().ok());
        if let (Some(first), Some(last)) = (row(), row()) {
            let of = match last + 1 - first {
                1 => 0,
                320 => 2,
                _ => 1,
            };
            self.published[of] += 1;
        }
    }

    /// What the answer of `pixels` shows: of which view, with how many rows, with which runs.
    fn name_pixels(&mut self, printed: &str) {
        let mut lines = printed.lines();
        let head = lines.next().unwrap_or_default();
        let rows = lines.clone().count();
        self.met.insert(format!("{head} {}", rows.min(2)));
        self.met.insert(format!("pixels all rows {}", rows == 320));
        for line in lines {
            let runs: Vec<&str> = line.split(' ').skip(2).collect();
            let whole = runs.len() == 1;
            for run in runs {
                let (black, one) = (run.starts_with("0000"), !run.contains('*'));
                self.met.insert(format!("pixels run {black} {one} {whole}"));
            }
        }
    }

    /// Runs the Rust's transfer under a profile and in a mode and counts what it did, and what became of
    /// its pixels.
    pub fn transfer(
        &mut self,
        panel: &mut St7789p3,
        profile: &mut Profile,
        formats: &mut Formats,
        segment: &Segment,
    ) {
        let totals = Totals::of(panel, formats, segment);
        if !segment.dc {
            self.count_commands(panel, profile, segment);
        } else if hidden(panel).in_pixels {
            self.count_run(panel, formats, segment, totals);
        }
        if self.names {
            self.name_transfer(panel, segment, totals);
            if formats.on {
                self.name_formats(panel, formats, segment, totals);
            }
        }
        let (written, kept) = (panel.pixels_written(), panel.warnings().len());
        profile.transfer(panel, formats, segment);
        let counted = panel.pixels_written() - written;
        assert_eq!(
            counted,
            totals.stored + totals.unmapped,
            "pixels are counted alike"
        );
        for at in kept..panel.warnings().len() {
            let warning = panel.warnings()[at];
            let rule = rule_of(panel.warnings(), at, profile.fours());
            self.warnings[rule - 1] += 1;
            self.meet(|| format!("rule {rule} on {:02x}", known(warning.cmd)));
        }
    }

    /// Counts a segment of commands.
    fn count_commands(&mut self, panel: &St7789p3, profile: &Profile, segment: &Segment) {
        let bytes = &segment.bytes;
        for code in bytes {
            *self.codes.entry(*code).or_default() += 1;
        }
        let waiting = panel.carry().is_some();
        let full = panel.trace().len().min(panel.warnings().len()) >= TRACE_LIMIT;
        self.together[usize::from(waiting)] += u64::from(full && bytes.len() > 1);
        let since = |reset: u64| segment.time.saturating_sub(reset);
        let soon = profile
            .swreset
            .is_some_and(|reset| since(reset) < 5_000_000);
        self.strict[usize::from(!soon)] += u64::from(profile.strict && !bytes.is_empty());
    }

    /// Counts a data segment of a run.
    fn count_run(
        &mut self,
        panel: &St7789p3,
        formats: &Formats,
        segment: &Segment,
        totals: Totals,
    ) {
        self.pixels.add(totals);
        self.count_outcomes(totals);
        *self.madctl.entry(panel.madctl()).or_default() += totals.stored;
        let waiting = formats.waiting(panel).len();
        if !formats.on {
            let length = segment.bytes.len() + waiting;
            self.left_waiting += u64::from(length % 2 == 1);
            self.found_waiting += u64::from(waiting > 0);
            return;
        }
        self.formats[Format::of(panel) as usize] += 1;
        self.waited[waiting] += 1;
        if totals.stored > 0 {
            self.formats_madctl.insert(panel.madctl());
        }
    }

    /// Counts a transfer by what became of its pixels.
    fn count_outcomes(&mut self, totals: Totals) {
        let of = match (totals.stored, totals.inverted, totals.unmapped) {
            (0, 0, 0) => return,
            (_, 0, 0) => 0,
            (0, _, 0) => 1,
            (0, 0, _) => 2,
            _ => 3,
        };
        self.outcomes[of] += 1;
    }

    /// What a transfer meets, by the state before it.
    fn name_transfer(&mut self, panel: &St7789p3, segment: &Segment, totals: Totals) {
        let (dc, release, bytes) = (segment.dc, segment.release, &segment.bytes);
        let met = &mut self.met;
        let inner = hidden(panel);
        let empty = bytes.is_empty();
        let turned = panel.madctl() & 0xe0;
        met.insert(format!(
            "release {release} {dc} {empty} {}",
            inner.in_pixels
        ));
        if !dc {
            for c in bytes {
                let c = known(*c);
                let full = panel.trace().len() >= TRACE_LIMIT;
                let warned = panel.warnings().len() >= TRACE_LIMIT;
                met.insert(format!("begins {c:02x} {full} {warned}"));
                if [0x01, 0x2c, 0x3c].contains(&c) {
                    let waiting = panel.carry().is_some();
                    met.insert(format!("begins {c:02x} {turned:02x} {waiting}"));
                }
            }
        } else if inner.in_pixels {
            let record = inner.trace_cur.is_some();
            let odd = bytes.len() % 2 == 1;
            let waiting = panel.carry().is_some();
            met.insert(format!("run {record} {odd} {empty} {waiting}"));
            met.insert(format!("run of {:02x?}", inner.cmd.map(known)));
            let (xs, xe, ys, ye) = panel.window();
            let (x, y) = panel.cursor();
            if totals.inverted > 0 {
                met.insert(format!("inverted {} {}", xs > xe, ys > ye));
            }
            if totals.stored > 0 {
                met.insert(format!(
                    "stored {turned:02x} {}",
                    panel.dirty_rows().is_some()
                ));
                let place = (x < xs, x < xe, x == xe, x > xe);
                met.insert(format!(
                    "advances {place:?} {:?}",
                    (y < ys, y < ye, y == ye, y > ye)
                ));
            }
            if totals.unmapped > 0 {
                met.insert(format!("unmapped {turned:02x} {} {}", x > 239, y > 239));
            }
        } else {
            let length = (inner.params.len() + bytes.len()).min(MAX_PARAMS + 1);
            let length = if length > 5 && length < MAX_PARAMS {
                5
            } else {
                length
            };
            let c = inner.cmd.map(known);
            let turned = turned & 0x20 != 0;
            met.insert(format!("data of {c:02x?} {length} {}", inner.applied));
            met.insert(format!("data of {c:02x?} {turned} {empty}"));
        }
    }

    /// What a transfer meets with the mode on, by the state before it.
    fn name_formats(
        &mut self,
        panel: &St7789p3,
        formats: &Formats,
        segment: &Segment,
        totals: Totals,
    ) {
        let met = &mut self.met;
        let waiting = formats.waiting(panel).len();
        let low = panel.colmod() & 7;
        if segment.release {
            met.insert(format!("releases {waiting} waiting"));
        }
        if !segment.dc {
            for c in &segment.bytes {
                let kind = if [0x01, 0x2c, 0x3c].contains(c) {
                    *c
                } else {
                    0xff
                };
                met.insert(format!("begins {kind:02x} in {low} {waiting}"));
            }
        } else if hidden(panel).in_pixels {
            let (format, length) = (Format::of(panel), segment.bytes.len().min(4));
            met.insert(format!("format {format:?} {waiting} {length}"));
            met.insert(format!("format {low} {:02x}", panel.ramctrl()[1] & 0x08));
            let some = [totals.stored, totals.inverted, totals.unmapped].map(|n| n > 0);
            met.insert(format!("format {format:?} {some:?}"));
        } else {
            met.insert(format!("parameters with {waiting} waiting"));
        }
    }

    /// Adds what another one counted.
    pub fn add(&mut self, other: Coverage) {
        self.logs += other.logs;
        self.scripts += other.scripts;
        self.bad_lines += other.bad_lines;
        self.left_waiting += other.left_waiting;
        self.found_waiting += other.found_waiting;
        for (of, count) in other.formats.iter().enumerate() {
            self.formats[of] += count;
        }
        for (of, count) in other.waited.iter().enumerate() {
            self.waited[of] += count;
        }
        self.formats_madctl.extend(other.formats_madctl);
        for (of, count) in other.together.iter().enumerate() {
            self.together[of] += count;
        }
        for (of, count) in other.perceived.iter().enumerate() {
            self.perceived[of] += count;
        }
        for (of, count) in other.published.iter().enumerate() {
            self.published[of] += count;
        }
        self.pixels.add(other.pixels);
        for (of, count) in other.outcomes.iter().enumerate() {
            self.outcomes[of] += count;
        }
        sum(&mut self.calls, other.calls);
        sum(&mut self.others, other.others);
        sum(&mut self.refusals, other.refusals);
        sum(&mut self.madctl, other.madctl);
        sum(&mut self.codes, other.codes);
        for (rule, count) in other.warnings.iter().enumerate() {
            self.warnings[rule] += count;
        }
        for (of, count) in other.strict.iter().enumerate() {
            self.strict[of] += count;
        }
        self.met.extend(other.met);
    }

    pub fn report(&self) -> String {
        let mut out = String::new();
        let cases = self.logs + self.scripts;
        let calls: u64 = self.calls.values().sum();
        let refused: u64 = self.refusals.values().sum();
        line(
            &mut out,
            format_args!(
                "cases {cases}: {} logs, {} scripts",
                self.logs, self.scripts
            ),
        );
        line(
            &mut out,
            format_args!("calls {calls}:{}", list(&self.calls)),
        );
        line(
            &mut out,
            format_args!(
                "other lines:{}, bad {}; a dump at the end of every other script",
                list(&self.others),
                self.bad_lines
            ),
        );
        line(&mut out, format_args!("refusals {refused}"));
        for number in 1..=7 {
            let of: BTreeMap<String, u64> = self
                .refusals
                .iter()
                .filter(|((_, n), _)| *n == number)
                .map(|((name, _), count)| (name.clone(), *count))
                .collect();
            let all: u64 = of.values().sum();
            line(&mut out, format_args!("  {number}: {all}:{}", list(&of)));
        }
        let [first, second, third, fourth] = self.warnings;
        line(
            &mut out,
            format_args!(
                "warnings kept: rule 1 {first}, rule 2 {second}, rule 3 {third}, rule 4 {fourth}"
            ),
        );
        let [soon, late] = self.strict;
        line(
            &mut out,
            format_args!(
                "command segments under strict (Q-14): {soon} less than 5 ms after a SWRESET, {late} others"
            ),
        );
        let p = self.pixels;
        line(
            &mut out,
            format_args!(
                "pixels: {} stored, {} dropped by an inverted window, {} unmapped",
                p.stored, p.inverted, p.unmapped
            ),
        );
        let [stored, inverted, unmapped, both] = self.outcomes;
        line(
            &mut out,
            format_args!(
                "transfers with pixels (Q-3): {stored} stored all, {inverted} in an inverted window, \
                 {unmapped} stored none, {both} stored some"
            ),
        );
        let values = self.madctl.values().filter(|count| **count > 0).count();
        line(
            &mut out,
            format_args!("MADCTL values under which a pixel was stored: {values} of 256"),
        );
        let commands: u64 = self.codes.values().sum();
        let codes = self.codes.len();
        line(
            &mut out,
            format_args!("commands begun {commands}, by {codes} of 256 bytes"),
        );
        let [free, waiting] = self.together;
        line(
            &mut out,
            format_args!(
                "segments of several commands with trace and warnings full: {free} with no byte waiting, \
                 {waiting} with one or two"
            ),
        );
        line(
            &mut out,
            format_args!(
                "pixel segments with the mode off that left a byte waiting {}, that found one waiting {}",
                self.left_waiting, self.found_waiting
            ),
        );
        let [twelve, high, low, eighteen] = self.formats;
        let [_, one, two] = self.waited;
        line(
            &mut out,
            format_args!(
                "data segments with the mode on (Q-5): by format 12-bit {twelve}, 16 high {high}, \
                 16 low {low}, 18-bit {eighteen}; {one} found one byte waiting, {two} found two; \
                 MADCTL values under which a pixel was stored: {} of 256",
                self.formats_madctl.len()
            ),
        );
        let [up_to, above] = self.perceived;
        line(
            &mut out,
            format_args!(
                "looks at Perceived, lit: {up_to} at the pair as it stands, {above} above full (Q-1: \
                 the Rust at scale over scale)"
            ),
        );
        let [one, more, all] = self.published;
        line(
            &mut out,
            format_args!(
                "publishes that copied: {one} one row, {more} 2 to 319 rows, {all} all 320"
            ),
        );
        out
    }
}

/// A command with a meaning stands for itself, FF for all others.
fn known(c: u8) -> u8 {
    let plain = [0x00, 0x01, 0x10, 0x11, 0x20, 0x21, 0x28, 0x29];
    let with_data = [0x2a, 0x2b, 0x2c, 0x36, 0x3a, 0x3c, 0xb0];
    let has = plain.contains(&c) || with_data.contains(&c) || STORED_COMMANDS.contains(&c);
    if has { c } else { 0xff }
}

fn sum<K: Ord>(into: &mut BTreeMap<K, u64>, from: BTreeMap<K, u64>) {
    for (key, count) in from {
        *into.entry(key).or_default() += count;
    }
}

fn list(counts: &BTreeMap<String, u64>) -> String {
    let items: Vec<String> = counts
        .iter()
        .map(|(name, count)| format!(" {name} {count}"))
        .collect();
    items.join(",")
}

fn text(word: &[u8]) -> String {
    String::from_utf8_lossy(word).into_owned()
}
