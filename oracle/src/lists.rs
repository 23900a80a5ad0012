//! The fixed lists: logs and scripts with the Rust's answers, for programs that have no Rust at hand.

use std::collections::BTreeMap;
use std::fs;
use std::io;
use std::path::Path;
use std::process::ExitCode;

use crate::cases::{Case, Kind};
use crate::compare::{otherwise, sized};
use crate::coverage::Coverage;
use crate::random::case_seed;
use crate::{gen_logs, gen_scripts};

const USAGE: &str = "\
oracle make-lists DIR
Writes the fixed lists into the folder DIR: logs, logs.expected, scripts, scripts.expected. They hold
the cases in examples and lists/hand, then generated ones, chosen for what they meet that few cases
before them met, then those in lists/added. The same sources give the same bytes.
";

const CHECK_USAGE: &str = "\
oracle check-lists DIR
Runs the fixed lists in the folder DIR through the Rust. Prints the first case that is answered
otherwise than its list says, if any, then `N different` or `N same`.
";

const BRANCHES_USAGE: &str = "\
oracle branches DIR
In a build whose Rust copy has the marks of branches.txt: runs the fixed lists in the folder DIR and
prints which marks were not passed.
";

/// How many cases each list gets before those of lists/added, and the longest generated ones.
const LOGS: usize = 300;
const SCRIPTS: usize = 360;
const LOG_LIMIT: usize = 800;
const SCRIPT_LIMIT: usize = 1200;

/// How many generated cases they are chosen from.
const TRIED: u64 = 20_000;

/// What is met by fewer cases than this makes a case worth taking.
const WANTED: u32 = 3;

/// `make-lists DIR`.
pub fn make(words: &[&str]) -> io::Result<ExitCode> {
    let [folder] = words else {
        return Ok(crate::usage(USAGE));
    };
    let folder = Path::new(folder);
    fs::create_dir_all(folder)?;
    let (mut logs, logs_met) = chosen(Kind::Log)?;
    let (mut scripts, scripts_met) = chosen(Kind::Script)?;
    logs.extend(cases_in("lists/added", Kind::Log)?);
    scripts.extend(cases_in("lists/added", Kind::Script)?);
    let mut joined = Vec::new();
    let mut answers = Vec::new();
    for (at, case) in logs.iter().enumerate() {
        joined.extend_from_slice(&(case.input.len() as u32).to_le_bytes());
        joined.extend_from_slice(&case.input);
        answers.extend_from_slice(format!("log {}\n", at + 1).as_bytes());
        answers.extend(case.rust(None));
    }
    fs::write(folder.join("logs"), &joined)?;
    fs::write(folder.join("logs.expected"), &answers)?;
    println!(
        "{} logs, {} bytes, answers {}",
        logs.len(),
        joined.len(),
        answers.len()
    );
    println!("logs meet {logs_met} things");
    let mut joined = Vec::new();
    let mut answers = Vec::new();
    for (at, case) in scripts.iter().enumerate() {
        let head = format!("case {}\n", at + 1);
        joined.extend_from_slice(head.as_bytes());
        joined.extend_from_slice(&case.input);
        if joined.last() != Some(&b'\n') {
            joined.push(b'\n');
        }
        answers.extend_from_slice(head.as_bytes());
        answers.extend(case.rust(None));
    }
    fs::write(folder.join("scripts"), &joined)?;
    fs::write(folder.join("scripts.expected"), &answers)?;
    println!(
        "{} scripts, {} bytes, answers {}",
        scripts.len(),
        joined.len(),
        answers.len()
    );
    println!("scripts meet {scripts_met} things");
    Ok(ExitCode::SUCCESS)
}

/// The cases of one list, and how many things they meet.
fn chosen(kind: Kind) -> io::Result<(Vec<Case>, usize)> {
    let mut names = BTreeMap::new();
    let mut cases: Vec<Case> = Vec::new();
    let mut met: Vec<u32> = Vec::new();
    for folder in ["examples", "lists/hand"] {
        for case in cases_in(folder, kind)? {
            for thing in things(&case, &mut names).0 {
                count(&mut met, thing);
            }
            cases.push(case);
        }
    }
    let mut left = Vec::new();
    for number in 0..TRIED {
        let case = candidate(kind, number);
        if case.input.len() <= limit(kind) && fits(&case) {
            let (things, printed) = things(&case, &mut names);
            let cost = 100 + case.input.len() + printed;
            left.push((case, things, cost));
        }
    }
    // Always the case with the most that is still wanted for its cost, the first of equals.
    let mut wanted = 1;
    met.resize(names.len(), 0);
    while cases.len() < most(kind) && wanted <= WANTED {
        let worth = |(_, things, cost): &(Case, Vec<usize>, usize)| {
            let new = things.iter().filter(|thing| met[**thing] < wanted);
            new.count() * 100_000 / cost
        };
        let values = left.iter().map(worth).enumerate();
        let best = values.max_by_key(|(at, value)| (*value, std::cmp::Reverse(*at)));
        match best {
            Some((at, value)) if value > 0 => {
                let (case, things, _) = left.remove(at);
                for thing in things {
                    count(&mut met, thing);
                }
                cases.push(case);
            }
            _ => wanted += 1,
        }
    }
    let unmet = names.iter().filter(|(_, at)| met[**at] == 0);
    for (name, _) in unmet {
        println!("not met: {name}");
    }
    let meets = met.iter().filter(|count| **count > 0).count();
    Ok((cases, meets))
}

fn count(met: &mut Vec<u32>, thing: usize) {
    if met.len() <= thing {
        met.resize(thing + 1, 0);
    }
    met[thing] += 1;
}

fn most(kind: Kind) -> usize {
    match kind {
        Kind::Log => LOGS,
        Kind::Script => SCRIPTS,
    }
}

fn limit(kind: Kind) -> usize {
    match kind {
        Kind::Log => LOG_LIMIT,
        Kind::Script => SCRIPT_LIMIT,
    }
}

/// A generated case that may be taken.
fn candidate(kind: Kind, number: u64) -> Case {
    let own = case_seed(LIST_SEED, number);
    let input = match kind {
        Kind::Log => gen_logs::log_of(own, 6),
        Kind::Script => gen_scripts::script_of(own, 2).into_bytes(),
    };
    Case { kind, input }
}

/// The seed of the lists.
const LIST_SEED: u64 = 7789;

/// The calls of a script that take long.
const SLOW: [&str; 6] = [
    "dump",
    "view",
    "pixels",
    "publish",
    "fresh",
    "reset board_rail",
];

/// True of a log, and of a script with few calls that take long.
fn fits(case: &Case) -> bool {
    let text = String::from_utf8_lossy(&case.input).into_owned();
    let slow = text
        .lines()
        .filter(|line| SLOW.iter().any(|name| line.trim_start().starts_with(name)));
    let commands = text
        .lines()
        .any(|line| line.contains(" 0 0 ") && line.contains("*65536"));
    case.kind == Kind::Log || slow.count() <= 8 && text.matches('*').count() <= 6 && !commands
}

/// What a case meets, each thing by its number in `names`, and how long its answer is.
fn things(case: &Case, names: &mut BTreeMap<String, usize>) -> (Vec<usize>, usize) {
    let mut seen = Coverage::naming();
    let printed = case.rust(Some(&mut seen)).len();
    let mut things = Vec::new();
    for name in seen.met {
        let next = names.len();
        things.push(*names.entry(name).or_insert(next));
    }
    (things, printed)
}

/// The cases of a folder of the oracle, by name.
fn cases_in(folder: &str, kind: Kind) -> io::Result<Vec<Case>> {
    let package = Path::new(env!("CARGO_MANIFEST_DIR"));
    let ending = Case {
        kind,
        input: Vec::new(),
    }
    .ending();
    let mut names: Vec<_> = match fs::read_dir(package.join(folder)) {
        Ok(entries) => entries.flatten().map(|entry| entry.path()).collect(),
        Err(_) => Vec::new(),
    };
    names.retain(|name| name.extension().is_some_and(|found| found == ending));
    names.sort();
    let mut cases = Vec::new();
    for name in names {
        let input = fs::read(name)?;
        cases.push(Case { kind, input });
    }
    Ok(cases)
}

/// `check-lists DIR`.
pub fn check(words: &[&str]) -> io::Result<ExitCode> {
    let [folder] = words else {
        return Ok(crate::usage(CHECK_USAGE));
    };
    let folder = Path::new(folder);
    let mut cases = Vec::new();
    let logs = fs::read(folder.join("logs"))?;
    let answers = fs::read(folder.join("logs.expected"))?;
    let mut rest = &logs[..];
    let mut inputs = Vec::new();
    while !rest.is_empty() {
        let (input, after) = sized(rest);
        rest = after;
        inputs.push(input.to_vec());
    }
    for (input, answer) in paired(inputs, headed(&answers, "log"))? {
        cases.push(("log", Kind::Log, input, answer));
    }
    let scripts = fs::read(folder.join("scripts"))?;
    let answers = fs::read(folder.join("scripts.expected"))?;
    for (input, answer) in paired(headed(&scripts, "case"), headed(&answers, "case"))? {
        cases.push(("case", Kind::Script, input, answer));
    }
    let count = cases.len();
    let mut number = 0;
    let mut last = "";
    for (name, kind, input, answer) in cases {
        number = if name == last { number + 1 } else { 1 };
        last = name;
        if let Some(found) = otherwise(Case { kind, input }, &answer) {
            println!("lists: {name} {number} {found}");
            return Ok(ExitCode::FAILURE);
        }
    }
    println!("{count} same");
    Ok(ExitCode::SUCCESS)
}

/// `branches DIR`.
pub fn branches(words: &[&str]) -> io::Result<ExitCode> {
    let [folder] = words else {
        return Ok(crate::usage(BRANCHES_USAGE));
    };
    if env!("ORACLE_CHANGED") != "branches.txt" {
        return Err(io::Error::other("this build has no marks; run ./branches"));
    }
    let checked = check(&[folder])?;
    let (all, left) = crate::marks::left();
    for name in &left {
        println!("not passed: {name}");
    }
    println!("{} of {} marks passed", all.len() - left.len(), all.len());
    Ok(checked)
}

/// Each input with its answer; there must be as many of both.
fn paired(inputs: Vec<Vec<u8>>, answers: Vec<Vec<u8>>) -> io::Result<Vec<(Vec<u8>, Vec<u8>)>> {
    if inputs.len() != answers.len() {
        let (cases, found) = (inputs.len(), answers.len());
        return Err(io::Error::other(format!(
            "{cases} cases and {found} answers"
        )));
    }
    Ok(inputs.into_iter().zip(answers).collect())
}

/// The parts after each line `NAME N`, N from 1 on.
fn headed(text: &[u8], name: &str) -> Vec<Vec<u8>> {
    let mut parts: Vec<Vec<u8>> = Vec::new();
    for line in text.split_inclusive(|byte| *byte == b'\n') {
        let next = format!("{name} {}\n", parts.len() + 1);
        if line == next.as_bytes() {
            parts.push(Vec::new());
        } else if let Some(part) = parts.last_mut() {
            part.extend_from_slice(line);
        }
    }
    parts
}
