//! Times the unchanged Rust and the re-implementation in one interleaved run and prints the ratios.

use std::env;
use std::process::ExitCode;

#[path = "../coverage.rs"]
#[allow(dead_code)]
mod coverage;
#[path = "../log.rs"]
#[allow(dead_code)]
mod log;
#[path = "../refusals.rs"]
#[allow(dead_code)]
mod refusals;
#[path = "../report.rs"]
#[allow(dead_code)]
mod report;

mod cases;
mod ours;
mod sides;
mod tables;

// The modules st7789, backlight, traits, formats, profile and totals, as the build script put them there.
include!(concat!(env!("OUT_DIR"), "/sources.rs"));

/// Stand-in for the module that traits.rs imports.
pub mod power {
    pub struct RailState;
}

/// Stand-in for the module that traits.rs imports.
pub mod usb_plug {
    pub struct UsbHostState;
}

const USAGE: &str = "\
timing ROUNDS [WORD]
Times both sides in turn, ROUNDS times each line, takes the least of each and prints the tables of
ratios (ours / the Rust's). With WORD only the lines whose name holds it. 100 rounds are a good number.
";

fn main() -> ExitCode {
    let words: Vec<String> = env::args().skip(1).collect();
    let rounds = words.first().and_then(|word| word.parse::<usize>().ok());
    match rounds {
        Some(rounds) if rounds > 0 && words.len() <= 2 => {
            let only = words.get(1).map_or("", String::as_str);
            tables::print(rounds, only);
            ExitCode::SUCCESS
        }
        _ => {
            print!("{USAGE}");
            ExitCode::from(2)
        }
    }
}
