//! Runs the unchanged Rust model of the panel as the reference that another one is compared with.

use std::env;
use std::fs;
use std::io::{self, Read, Write};
use std::path::Path;
use std::process::ExitCode;

mod cases;
mod compare;
mod coverage;
mod gen_aimed;
mod gen_logs;
mod gen_scripts;
mod lists;
mod log;
mod marks;
mod random;
mod refusals;
mod report;
mod script;
mod traffic;

// The modules st7789, backlight, traits, formats, profile and totals, as the build script put them there.
include!(concat!(env!("OUT_DIR"), "/sources.rs"));

/// Stand-in for the module that traits.rs imports.
pub mod power {
    pub struct RailState;
}

/// Stand-in for the module that traits.rs imports.
pub mod usb_plug {
    pub struct UsbHostState;
}

const USAGE: &str = "\
oracle: runs the unchanged Rust model of the panel
  oracle replay < LOG                what panel-replay prints of a log
  oracle script < SCRIPT             what a script of calls prints
  oracle unguarded < SCRIPT          the same by the Rust as it is, with no call refused
  oracle gen-logs SEED N DIR         writes N generated logs into the folder DIR
  oracle gen-scripts SEED N DIR      writes N generated scripts into the folder DIR
  oracle compare SEED CASES          compares our programs with the Rust on generated cases
  oracle cover SEED CASES            what these cases cover, by the Rust alone
  oracle record SEED CASES FILE      writes cases and our programs' answers into FILE
  oracle against FILE                compares the Rust with the answers in FILE
  oracle make-lists DIR              writes the fixed lists into the folder DIR
  oracle check-lists DIR             compares the Rust with the answers of the fixed lists
  oracle branches DIR                which branches of the Rust the fixed lists pass
Each subcommand says more when run without arguments (replay and script: at a terminal, or with -h).
";

const REPLAY_USAGE: &str = "\
oracle replay < LOG
Checks the log on standard input, runs its records on a fresh panel with the switch true and prints
the panel's lines, or prints `refused N P`.
";

const SCRIPT_USAGE: &str = "\
oracle script < SCRIPT
Runs the script of calls on standard input, one call a line, and prints each call's answer and at
the end the dump, or stops with `bad line N`.
";

const UNGUARDED_USAGE: &str = "\
oracle unguarded < SCRIPT
Runs a script with no call refused and every brightness pair as it stands, as the Rust does by itself;
it may end in a panic. For showing what the Rust does where the table refuses or Q-1 dims otherwise;
nothing is compared with it.
";

const GEN_LOGS_USAGE: &str = "\
oracle gen-logs SEED N DIR
Writes N generated logs, 00000.log and so on, into the folder DIR, which is made if it is missing.
The same SEED gives the same logs; log K of a SEED does not depend on N.
";

const GEN_SCRIPTS_USAGE: &str = "\
oracle gen-scripts SEED N DIR
Writes N generated scripts, 00000.script and so on, into the folder DIR, which is made if it is
missing. The same SEED gives the same scripts; script K of a SEED does not depend on N.
";

fn main() -> ExitCode {
    let arguments: Vec<String> = env::args().skip(1).collect();
    let words: Vec<&str> = arguments.iter().map(String::as_str).collect();
    let done = match words[..] {
        ["replay"] => filter(REPLAY_USAGE, log::replay),
        ["script"] => filter(SCRIPT_USAGE, script::run),
        ["unguarded"] => filter(UNGUARDED_USAGE, script::run_unguarded),
        ["unguarded", ..] => return usage(UNGUARDED_USAGE),
        ["replay", ..] => return usage(REPLAY_USAGE),
        ["script", ..] => return usage(SCRIPT_USAGE),
        ["gen-logs", seed, n, folder] => {
            generate(seed, n, folder, "log", GEN_LOGS_USAGE, gen_logs::log)
        }
        ["gen-scripts", seed, n, folder] => {
            let write = |seed| gen_scripts::script(seed).into_bytes();
            generate(seed, n, folder, "script", GEN_SCRIPTS_USAGE, write)
        }
        ["compare", ref rest @ ..] => unchanged().and_then(|()| compare::compare(rest)),
        ["cover", ref rest @ ..] => compare::cover(rest),
        ["record", ref rest @ ..] => unchanged().and_then(|()| compare::record(rest)),
        ["against", ref rest @ ..] => compare::against(rest),
        ["make-lists", ref rest @ ..] => unchanged().and_then(|()| lists::make(rest)),
        ["check-lists", ref rest @ ..] => lists::check(rest),
        ["branches", ref rest @ ..] => lists::branches(rest),
        ["gen-logs", ..] => return usage(GEN_LOGS_USAGE),
        ["gen-scripts", ..] => return usage(GEN_SCRIPTS_USAGE),
        _ => return usage(USAGE),
    };
    match done {
        Ok(code) => code,
        Err(error) => {
            eprintln!("oracle: {error}");
            ExitCode::FAILURE
        }
    }
}

/// Stops what needs the unchanged Rust in a build whose copy was changed by PANEL_CHANGE.
fn unchanged() -> io::Result<()> {
    match env!("ORACLE_CHANGED") {
        "" => Ok(()),
        change => Err(io::Error::other(format!("this build holds {change}"))),
    }
}

fn usage(text: &str) -> ExitCode {
    print!("{text}");
    ExitCode::from(2)
}

/// Prints what `answer` makes of standard input; at a terminal, what the subcommand does.
fn filter(text: &str, answer: fn(&[u8]) -> String) -> io::Result<ExitCode> {
    if io::IsTerminal::is_terminal(&io::stdin()) {
        return Ok(usage(text));
    }
    let mut input = Vec::new();
    io::stdin().lock().read_to_end(&mut input)?;
    io::stdout().lock().write_all(answer(&input).as_bytes())?;
    Ok(ExitCode::SUCCESS)
}

/// Writes N cases; each case's own seed comes from SEED and its number.
fn generate(
    seed: &str,
    n: &str,
    folder: &str,
    ending: &str,
    text: &str,
    case: impl Fn(u64) -> Vec<u8>,
) -> io::Result<ExitCode> {
    let (Ok(seed), Ok(n)) = (seed.parse::<u64>(), n.parse::<u64>()) else {
        return Ok(usage(text));
    };
    fs::create_dir_all(folder)?;
    for k in 0..n {
        let path = Path::new(folder).join(format!("{k:05}.{ending}"));
        fs::write(path, case(random::case_seed(seed, k)))?;
    }
    Ok(ExitCode::SUCCESS)
}
