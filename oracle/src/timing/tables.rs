//! The tables: nanoseconds of both sides, the ratio, and the aim where there is one.

use crate::cases::{self, Case};
use crate::sides::{self, Timed, Times};

/// The Rust's flush, in nanoseconds a pixel, on the machine that the aim for one transfer is given for.
const RUST_FLUSH: f64 = 3.7;

struct Run<'a> {
    rounds: usize,
    only: &'a str,
    refused: u64,
}

impl Run<'_> {
    fn wants(&self, name: &str) -> bool {
        name.contains(self.only)
    }

    fn line(&mut self, name: &str, timed: &Timed, aim: Option<f64>) {
        self.refused += timed.refused;
        print_line(name, timed.times, aim);
    }

    /// The lines of these cases; the answer is the times of each line that was run.
    fn lines(&mut self, cases: &[Case]) -> Vec<Times> {
        let mut times = Vec::new();
        for case in cases {
            if self.wants(&case.name) {
                let timed = sides::transfers(case, self.rounds);
                self.line(&case.name, &timed, case.aim);
                times.push(timed.times);
            }
        }
        times
    }
}

fn print_line(name: &str, times: Times, aim: Option<f64>) {
    let ratio = times.ratio();
    let aim = match aim {
        None => String::new(),
        Some(aim) if ratio <= aim => format!("at most {aim}: met"),
        Some(aim) => format!("at most {aim}: not met"),
    };
    println!(
        "| {name} | {:.2} | {:.2} | {ratio:.2} | {aim} |",
        times.rust, times.ours
    );
}

fn heading(unit: &str) {
    println!("\n| {unit} | the Rust, ns | ours, ns | ratio | aim |");
    println!("|---|---|---|---|---|");
}

pub fn print(rounds: usize, only: &str) {
    let mut run = Run {
        rounds,
        only,
        refused: 0,
    };
    heading("a pixel (or what the line says)");
    let mut flush = run.lines(&cases::flushes());
    run.lines(&cases::windows());
    formats(&mut run);
    heading("one public transfer");
    let one = run.lines(&cases::transfers());
    heading("long command segments");
    run.lines(&cases::long_segments());
    whole(&mut run);
    growth(&mut run);
    println!();
    if let (Some(flush), Some(most)) = (flush.drain(..).next(), slowest(&one)) {
        let scaled = most * RUST_FLUSH / flush.rust;
        println!(
            "slowest public transfer above, scaled to a Rust flush of {RUST_FLUSH} ns a pixel: {scaled:.0} ns (aim: at most 200)"
        );
    }
    println!("refused calls: {}", run.refused);
}

fn slowest(times: &[Times]) -> Option<f64> {
    times.iter().map(|t| t.ours).reduce(f64::max)
}

/// Ours beside ours: a picture in another format, and the same in 16 bits, high byte first.
fn formats(run: &mut Run) {
    println!("\n| a pixel | high first, ns | so, ns | ratio | aim |");
    println!("|---|---|---|---|---|");
    for drawn in cases::formats() {
        if run.wants(&drawn.name) {
            let drawing = sides::formats(&drawn, run.rounds);
            run.refused += drawing.refused;
            let times = Times {
                rust: drawing.high_first,
                ours: drawing.other,
            };
            print_line(&drawn.name, times, drawn.aim);
        }
    }
}

/// Publishing, views and replays, each a whole call.
fn whole(run: &mut Run) {
    heading("a whole call");
    for rows in [1, 20, 320] {
        let name = format!("publish of {rows} rows");
        if run.wants(&name) {
            let timed = sides::publish(rows, run.rounds);
            run.line(&name, &timed, Some(1.0));
        }
    }
    for (name, number, plain) in [
        ("view Raw", 0, true),
        ("view Glass", 1, true),
        ("view Glass, complement", 1, false),
        ("view Perceived", 2, true),
    ] {
        if run.wants(name) {
            let timed = sides::view(number, plain, run.rounds);
            run.line(name, &timed, Some(1.0));
        }
    }
    for (name, log) in [
        (
            "replay, boot and boxes, 65536 bytes",
            cases::box_log(65_536),
        ),
        (
            "replay, one-command records, 65536 bytes",
            cases::command_log(65_536),
        ),
    ] {
        if run.wants(name) {
            print_line(name, sides::replay(&log, run.rounds), None);
        }
    }
}

/// How cost grows: a whole call of ours, and what it comes to a byte, a record, a byte of log.
fn growth(run: &mut Run) {
    if !run.wants("growth") {
        return;
    }
    println!("\n| growth | size | the Rust, ns | ours, ns | ours, ns by size |");
    println!("|---|---|---|---|---|");
    for (name, sizes, cases) in [
        (
            "flush against bytes",
            [4_096, 16_384, 32_768, 65_536],
            cases::flush_growth(),
        ),
        (
            "transfer against used trace records",
            [5, 46, 87, 128],
            cases::record_growth(),
        ),
    ] {
        for (size, case) in sizes.into_iter().zip(&cases) {
            let timed = sides::transfers(case, run.rounds);
            run.refused += timed.refused;
            growth_line(name, size, timed.times);
        }
    }
    for size in [8_192, 16_384, 32_768, 65_536] {
        let times = sides::replay(&cases::box_log(size), run.rounds);
        growth_line("replay against log length", size, times);
    }
}

fn growth_line(name: &str, size: usize, times: Times) {
    let by_size = times.ours / size as f64;
    println!(
        "| {name} | {size} | {:.1} | {:.1} | {by_size:.2} |",
        times.rust, times.ours
    );
}
