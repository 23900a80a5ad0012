//! Comparison at scale: generated cases through the Rust and through our programs.

use std::io::{self, Write};
use std::process::ExitCode;
use std::sync::Mutex;
use std::sync::atomic::{AtomicU64, Ordering};
use std::{fs, thread};

use crate::cases::{Case, Kind, Programs, folder, joined};
use crate::coverage::Coverage;
use crate::log;
use crate::report::{bit, line};

pub const USAGE: &str = "\
oracle compare SEED CASES [THREADS]
Makes CASES cases from SEED (every fifth a log, the others scripts, most of them with a dump after
every publish), runs each through the Rust and through panel_script or panel_replay, compares all
they write to standard output, and prints what was covered and the number of differences. Stops
handing out cases at the first difference: that case is cut down to what still differs, printed and
kept in target/compare. Some 30 scripts at a time go to panel_script in one run, with lines between
them that bring all back to the beginning; logs, and scripts with a bad line, go alone. PANEL_SCRIPT
and PANEL_REPLAY name other programs than those in target/bin, PANEL_RUN an emulator with its words.
THREADS: 2 if not given.
";

const COVER_USAGE: &str = "\
oracle cover SEED CASES
Runs the cases that compare makes of SEED through the Rust alone and prints what they cover.
";

const RECORD_USAGE: &str = "\
oracle record SEED CASES FILE
Writes the first CASES cases of SEED (those of compare) and the answers of our programs into FILE.
";

const AGAINST_USAGE: &str = "\
oracle against FILE
Runs the cases in FILE through the Rust until one is answered otherwise than recorded. Prints
`case N` and that line, or `no difference`.
";

/// Scripts of so many cases in a row go to our program in one run, since starting it takes longest.
const TOGETHER: u64 = 40;

/// `compare SEED CASES [THREADS]`.
pub fn compare(words: &[&str]) -> io::Result<ExitCode> {
    let (seed, cases, threads) = match words {
        [seed, cases] => (seed, cases, "2"),
        [seed, cases, threads] => (seed, cases, *threads),
        _ => return Ok(crate::usage(USAGE)),
    };
    let numbers = (seed.parse(), cases.parse(), threads.parse());
    let (Ok(seed), Ok(cases), Ok(threads)) = numbers else {
        return Ok(crate::usage(USAGE));
    };
    let run = &Run {
        seed,
        cases,
        next: AtomicU64::new(0),
        differs: Mutex::new(None),
    };
    let mut covered = Coverage::default();
    let parts: Vec<io::Result<Coverage>> = thread::scope(|scope| {
        let workers: Vec<_> = (0..threads)
            .map(|n| scope.spawn(move || run.work(n)))
            .collect();
        let done = workers.into_iter().map(|worker| worker.join());
        done.map(|part| part.expect("a worker that does not panic"))
            .collect()
    });
    for part in parts {
        covered.add(part?);
    }
    print!("seed {seed}\n{}", covered.report());
    let Some(number) = *run.differs.lock().expect("no worker panicked") else {
        println!("0 differences");
        return Ok(ExitCode::SUCCESS);
    };
    println!("case {number} differs");
    show(seed, number)?;
    Ok(ExitCode::FAILURE)
}

struct Run {
    seed: u64,
    cases: u64,
    next: AtomicU64,
    /// The lowest case that was seen to differ.
    differs: Mutex<Option<u64>>,
}

impl Run {
    fn work(&self, worker: usize) -> io::Result<Coverage> {
        let programs = Programs::find(worker)?;
        let mut seen = Coverage::default();
        loop {
            let first = self.next.fetch_add(TOGETHER, Ordering::Relaxed);
            if first >= self.cases {
                return Ok(seen);
            }
            let last = self.cases.min(first + TOGETHER);
            if let Some(number) = self.batch(&programs, first, last, &mut seen)? {
                let mut differs = self.differs.lock().expect("no worker panicked");
                *differs = Some(differs.map_or(number, |lowest: u64| lowest.min(number)));
                self.next.store(self.cases, Ordering::Relaxed);
                return Ok(seen);
            }
        }
    }

    /// Compares the cases from `first` to before `last`; the first that differs, if one does.
    fn batch(
        &self,
        programs: &Programs,
        first: u64,
        last: u64,
        seen: &mut Coverage,
    ) -> io::Result<Option<u64>> {
        let mut together = Vec::new();
        let mut differs = None;
        for number in first..last {
            let case = Case::of(self.seed, number);
            let answer = case.counted(seen);
            if case.kind == Kind::Script && !ends_badly(&answer) {
                together.push((number, case, answer));
            } else if differs.is_none() && programs.answer(&case)? != answer {
                differs = Some(number);
            }
        }
        let scripts: Vec<&Case> = together.iter().map(|(_, case, _)| case).collect();
        let answers: Vec<u8> = together.iter().flat_map(|(.., a)| a.clone()).collect();
        if together.is_empty() || programs.answer(&joined(&scripts))? == answers {
            return Ok(differs);
        }
        for (number, case, answer) in &together {
            if differs.is_some_and(|lower| lower < *number) {
                break;
            }
            if programs.answer(case)? != *answer {
                return Ok(Some(*number));
            }
        }
        if differs.is_some() {
            return Ok(differs);
        }
        let name = format!("{}-together-{first}.script", self.seed);
        fs::write(folder()?.join(&name), joined(&scripts).input)?;
        println!("only together, in target/compare/{name}, do these differ:");
        Ok(Some(first))
    }
}

/// True of an answer whose last line is `bad line N`.
fn ends_badly(answer: &[u8]) -> bool {
    let lines = answer.split(|byte| *byte == b'\n');
    lines
        .rev()
        .nth(1)
        .is_some_and(|last| last.starts_with(b"bad line"))
}

/// Cuts the differing case down, keeps it in a file and prints it with both answers.
fn show(seed: u64, number: u64) -> io::Result<()> {
    let programs = Programs::find(usize::MAX)?;
    let whole = Case::of(seed, number);
    let small = cut(&programs, &whole)?;
    let name = format!("{seed}-{number}.{}", whole.ending());
    let kept = folder()?.join(&name);
    fs::write(&kept, &small.input)?;
    fs::write(folder()?.join(format!("whole-{name}")), &whole.input)?;
    println!("cut down, in target/compare/{name} (as generated: whole-{name}):");
    let shown = match small.kind {
        Kind::Script => String::from_utf8_lossy(&small.input).into_owned(),
        // For xxd -r -p.
        Kind::Log => small.input.iter().map(|b| format!("{b:02x}")).collect(),
    };
    println!("{}", shown.trim_end());
    if small.kind == Kind::Log {
        print!("{}", as_script(&small.input));
    }
    let (rust, ours) = (small.rust(None), programs.answer(&small)?);
    let lines = |answer: &[u8]| -> Vec<String> {
        let text = String::from_utf8_lossy(answer).into_owned();
        text.lines().map(str::to_string).collect()
    };
    let (rust, ours) = (lines(&rust), lines(&ours));
    let at = (0..).find(|at| rust.get(*at) != ours.get(*at)).unwrap_or(0);
    let end = "(end)".to_string();
    println!("line {} of the answers", at + 1);
    println!("the Rust: {}", rust.get(at).unwrap_or(&end));
    println!("ours:     {}", ours.get(at).unwrap_or(&end));
    Ok(())
}

/// A good log's records as lines of a script; of a bad log nothing.
fn as_script(log: &[u8]) -> String {
    let mut text = String::new();
    for r in log::records(log).unwrap_or_default() {
        let bytes: String = r.bytes.iter().map(|b| format!("{b:02x}")).collect();
        let bytes = if bytes.is_empty() { "-" } else { &bytes };
        let (dc, release) = (bit(r.dc), bit(r.release));
        line(
            &mut text,
            format_args!("transfer {} {dc} {release} {bytes}", r.time),
        );
    }
    text
}

/// The shortest beginning that differs, with every line or record left out that need not be there.
fn cut(programs: &Programs, case: &Case) -> io::Result<Case> {
    let kind = case.kind;
    let of = |parts: &[Vec<u8>]| Case {
        kind,
        input: parts.concat(),
    };
    let differs = |parts: &[Vec<u8>]| -> io::Result<bool> {
        let case = of(parts);
        Ok(case.rust(None) != programs.answer(&case)?)
    };
    let mut parts = case.parts();
    for length in 0..parts.len() {
        if differs(&parts[..length])? {
            parts.truncate(length);
            break;
        }
    }
    for at in (0..parts.len()).rev() {
        let mut fewer = parts.clone();
        fewer.remove(at);
        if differs(&fewer)? {
            parts = fewer;
        }
    }
    Ok(of(&parts))
}

/// `cover SEED CASES`.
pub fn cover(words: &[&str]) -> io::Result<ExitCode> {
    let [seed, cases] = words else {
        return Ok(crate::usage(COVER_USAGE));
    };
    let (Ok(seed), Ok(cases)) = (seed.parse(), cases.parse::<u64>()) else {
        return Ok(crate::usage(COVER_USAGE));
    };
    let mut seen = Coverage::default();
    for number in 0..cases {
        Case::of(seed, number).counted(&mut seen);
    }
    print!("seed {seed}\n{}", seen.report());
    Ok(ExitCode::SUCCESS)
}

/// `record SEED CASES FILE`.
pub fn record(words: &[&str]) -> io::Result<ExitCode> {
    let [seed, cases, file] = words else {
        return Ok(crate::usage(RECORD_USAGE));
    };
    let (Ok(seed), Ok(cases)) = (seed.parse(), cases.parse::<u64>()) else {
        return Ok(crate::usage(RECORD_USAGE));
    };
    let programs = Programs::find(0)?;
    let mut out = io::BufWriter::new(fs::File::create(file)?);
    for number in 0..cases {
        let case = Case::of(seed, number);
        let answer = programs.answer(&case)?;
        out.write_all(&[u8::from(case.kind == Kind::Log)])?;
        for part in [&case.input, &answer] {
            out.write_all(&(part.len() as u32).to_le_bytes())?;
            out.write_all(part)?;
        }
    }
    out.flush()?;
    Ok(ExitCode::SUCCESS)
}

/// `against FILE`.
pub fn against(words: &[&str]) -> io::Result<ExitCode> {
    let [file] = words else {
        return Ok(crate::usage(AGAINST_USAGE));
    };
    let recorded = fs::read(file)?;
    let mut rest = &recorded[..];
    let mut number = 0;
    while let Some((kind, after)) = rest.split_first() {
        let (input, after) = sized(after);
        let (answer, after) = sized(after);
        rest = after;
        let kind = if *kind == 1 { Kind::Log } else { Kind::Script };
        let input = input.to_vec();
        if let Some(found) = otherwise(Case { kind, input }, answer) {
            println!("case {number} {found}");
            return Ok(ExitCode::SUCCESS);
        }
        number += 1;
    }
    println!("no difference");
    Ok(ExitCode::SUCCESS)
}

/// A part of a recorded file: its length in four bytes, then as many bytes.
pub fn sized(bytes: &[u8]) -> (&[u8], &[u8]) {
    let (length, rest) = bytes.split_first_chunk().expect("a length of four bytes");
    rest.split_at(u32::from_le_bytes(*length) as usize)
}

/// The first line of the Rust's answer that differs from the recorded one, or its panic.
pub fn otherwise(case: Case, recorded: &[u8]) -> Option<String> {
    let Ok(found) = std::panic::catch_unwind(|| case.rust(None)) else {
        return Some("panics".to_string());
    };
    if found == recorded {
        return None;
    }
    let text = String::from_utf8_lossy(&found).into_owned();
    let recorded = String::from_utf8_lossy(recorded).into_owned();
    let pair = text.lines().zip(recorded.lines()).find(|(a, b)| a != b);
    let (found, recorded) = pair.unwrap_or(("(length)", "(length)"));
    Some(format!("{found} for {recorded}"))
}
