//! Cases of a seed: logs and scripts, what the Rust answers to them and what our programs answer.

use std::env;
use std::fs::{self, File};
use std::io;
use std::path::PathBuf;
use std::process::{Command, Stdio};

use crate::coverage::Coverage;
use crate::random::case_seed;
use crate::{gen_aimed, gen_logs, gen_scripts, log, script};

#[derive(Copy, Clone, PartialEq)]
pub enum Kind {
    Log,
    Script,
}

pub struct Case {
    pub kind: Kind,
    pub input: Vec<u8>,
}

impl Case {
    /// Case `number` of a seed: every fifth a log, else a script, most of them with a dump after every
    /// publish.
    pub fn of(seed: u64, number: u64) -> Case {
        let own = case_seed(seed, number);
        if number % 5 == 4 {
            return Case {
                kind: Kind::Log,
                input: gen_logs::log_of(own, 25),
            };
        }
        // Of 24 scripts one is long, one looks at many brightness pairs, one publishes many times, one
        // goes by the pauses of the lint, one begins commands where the lists are full, one has windows in
        // which pixels vanish, and one has runs in every pixel format.
        let input = match number % 24 {
            0 => with_dumps(&gen_scripts::script_of(own, 14)),
            3 => gen_aimed::vanishing_of(own).into_bytes(),
            6 => gen_aimed::publishing_of(own).into_bytes(),
            9 => with_dumps(&gen_aimed::formats_of(own)),
            12 => with_dumps(&gen_aimed::dimming_of(own)),
            18 => with_dumps(&gen_aimed::pauses_of(own)),
            21 => gen_aimed::full_lists_of(own).into_bytes(),
            _ => with_dumps(&gen_scripts::script_of(own, 2)),
        };
        Case {
            kind: Kind::Script,
            input,
        }
    }

    /// What the Rust answers, with what it covers counted.
    pub fn rust(&self, seen: Option<&mut Coverage>) -> Vec<u8> {
        let answer = match self.kind {
            Kind::Log => log::replay_seen(&self.input, seen),
            Kind::Script => script::run_seen(&self.input, seen),
        };
        answer.into_bytes()
    }

    /// What the Rust answers, with the case counted as well.
    pub fn counted(&self, seen: &mut Coverage) -> Vec<u8> {
        match self.kind {
            Kind::Log => seen.logs += 1,
            Kind::Script => seen.scripts += 1,
        }
        self.rust(Some(seen))
    }

    pub fn ending(&self) -> &'static str {
        match self.kind {
            Kind::Log => "log",
            Kind::Script => "script",
        }
    }

    /// The parts that can be left out: a script's lines, a good log's records.
    pub fn parts(&self) -> Vec<Vec<u8>> {
        match self.kind {
            Kind::Script => {
                let lines = self.input.split_inclusive(|byte| *byte == b'\n');
                lines.map(<[u8]>::to_vec).collect()
            }
            Kind::Log => match log::records(&self.input) {
                Ok(records) => records.iter().map(log::record_bytes).collect(),
                Err(_) => vec![self.input.clone()],
            },
        }
    }
}

/// A script with a dump after each line that is `publish`.
fn with_dumps(script: &str) -> Vec<u8> {
    let mut text = Vec::new();
    for line in script.as_bytes().split_inclusive(|byte| *byte == b'\n') {
        text.extend_from_slice(line);
        let words = line.split(|byte| *byte == b'#').next().unwrap_or_default();
        if words.trim_ascii() == b"publish" && !words.contains(&b'\t') {
            if !line.ends_with(b"\n") {
                text.push(b'\n');
            }
            text.extend_from_slice(b"dump\n");
        }
    }
    text
}

/// Lines that bring everything back to what a script begins with. They print nothing.
const ANEW: &[u8] =
    b"lend memory 76800\nlend frame 76800\nlend view 76800\nfresh 1\nset frame 0000\n";

/// One script of several that have no bad line: each from a new panel on, with its dump at its end.
pub fn joined(scripts: &[&Case]) -> Case {
    let mut input = Vec::new();
    for (at, script) in scripts.iter().enumerate() {
        if at > 0 {
            input.extend_from_slice(b"dump\n");
            input.extend_from_slice(ANEW);
        }
        input.extend_from_slice(&script.input);
        if input.last().is_some_and(|last| *last != b'\n') {
            input.push(b'\n');
        }
    }
    Case {
        kind: Kind::Script,
        input,
    }
}

/// Our two programs, run on cases that go through a file of their own.
pub struct Programs {
    /// What the programs are run by where the machine can't run them itself: an emulator's words.
    by: Vec<String>,
    script: PathBuf,
    replay: PathBuf,
    input: PathBuf,
}

impl Programs {
    /// The programs that PANEL_SCRIPT and PANEL_REPLAY name, else those built in the repository.
    pub fn find(worker: usize) -> io::Result<Programs> {
        let package = PathBuf::from(env!("CARGO_MANIFEST_DIR"));
        let built = package.join("../target/bin");
        let named =
            |name: &str, file: &str| env::var_os(name).map_or(built.join(file), PathBuf::from);
        let by = env::var("PANEL_RUN").unwrap_or_default();
        let programs = Programs {
            by: by.split_whitespace().map(str::to_string).collect(),
            script: named("PANEL_SCRIPT", "panel_script"),
            replay: named("PANEL_REPLAY", "panel_replay"),
            input: folder()?.join(format!("input-{}-{worker}", std::process::id())),
        };
        for program in [&programs.script, &programs.replay] {
            if !program.is_file() {
                let text = format!("{} is not built", program.display());
                return Err(io::Error::other(text));
            }
        }
        Ok(programs)
    }

    /// What our program writes to standard output, its standard error left out; one that ends badly
    /// answers with its end as the last line.
    pub fn answer(&self, case: &Case) -> io::Result<Vec<u8>> {
        fs::write(&self.input, &case.input)?;
        let program = match case.kind {
            Kind::Log => &self.replay,
            Kind::Script => &self.script,
        };
        let mut command = match self.by.split_first() {
            None => Command::new(program),
            Some((first, words)) => {
                let mut command = Command::new(first);
                command.args(words).arg(program);
                command
            }
        };
        let done = command
            .stdin(File::open(&self.input)?)
            .stderr(Stdio::null())
            .output()?;
        let mut answer = done.stdout;
        if !done.status.success() {
            answer.extend_from_slice(format!("ended with {}\n", done.status).as_bytes());
        }
        Ok(answer)
    }
}

impl Drop for Programs {
    fn drop(&mut self) {
        let _ = fs::remove_file(&self.input);
    }
}

/// Where differing cases are kept: target/compare in the oracle's folder.
pub fn folder() -> io::Result<PathBuf> {
    let folder = PathBuf::from(env!("CARGO_MANIFEST_DIR")).join("target/compare");
    fs::create_dir_all(&folder)?;
    Ok(folder)
}
