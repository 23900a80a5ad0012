//! Takes the three Rust sources unchanged, checks their SHA-256 and puts them where rustc finds them.
//! What a copy needs to let us at its private fields is appended after the unchanged bytes. A model of
//! our own goes with them, so that mutants can be made of it too.

use std::env;
use std::fs;
use std::path::{Path, PathBuf};
use std::process::exit;

/// A source: module name, SHA-256 of what is taken of it, and our module hung onto its end.
struct Source {
    module: &'static str,
    sha256: &'static str,
    reach: Option<&'static str>,
}

const SOURCES: [Source; 3] = [
    Source {
        module: "st7789",
        sha256: "e5da258b11aef77cd2a2d64411cb1851944d0452955c5fd785e6c46d0b71c318",
        reach: Some("reach_panel.rs"),
    },
    Source {
        module: "backlight",
        sha256: "91d6644709d7542f19cdd022ef5c691533d98c1dc32d5fb764263ee305d0febd",
        reach: Some("reach_backlight.rs"),
    },
    Source {
        module: "traits",
        sha256: "332310fd09ed38387a982233cfd9d9d362bd9a596bdcffeac62bd51501acae41",
        reach: None,
    },
];

/// The models beside the Rust, in src/: of what it does not have.
const MODELS: [&str; 3] = ["formats", "profile", "totals"];

fn main() {
    let package = PathBuf::from(env::var("CARGO_MANIFEST_DIR").expect("set by Cargo"));
    let out = PathBuf::from(env::var("OUT_DIR").expect("set by Cargo"));
    let repository = package.parent().expect("oracle/ stands in a repository");
    let named = env::var("PANEL_SRC").unwrap_or_default();
    let folder = if named.is_empty() {
        "../shared/docs/src"
    } else {
        &named
    };
    // An absolute PANEL_SRC stands as it is; a relative one counts from the repository's root.
    let folder = repository.join(folder);

    println!("cargo::rerun-if-env-changed=PANEL_SRC");
    let changes = changes(&package);
    println!("cargo::rerun-if-changed=build.rs");
    let mut modules = String::new();
    for source in &SOURCES {
        let copy = out.join(format!("{}.rs", source.module));
        take(&find(&folder, source), source, &package, &copy, &changes);
        modules.push_str(&module(&copy, source.module));
    }
    for model in MODELS {
        let from = package.join("src").join(format!("{model}.rs"));
        println!("cargo::rerun-if-changed={}", text(&from));
        let Ok(bytes) = fs::read(&from) else {
            refuse(&format!("cannot read {}", text(&from)));
        };
        let copy = out.join(format!("{model}.rs"));
        write(&copy, &change(&bytes, model, &changes));
        modules.push_str(&module(&copy, model));
    }
    write(&out.join("sources.rs"), modules.as_bytes());
}

/// A module of the crate that stands in this file.
fn module(file: &Path, name: &str) -> String {
    let file = text(file);
    format!("#[allow(dead_code)]\n#[path = {file:?}]\npub mod {name};\n")
}

/// A line of a copy that PANEL_CHANGE has replaced.
struct Change {
    module: String,
    number: usize,
    old: String,
    new: String,
}

/// The changes that PANEL_CHANGE asks for: `FILE` all those in FILE, `FILE:NAME` the one named so.
/// The scripts `mutants` and `branches` set it; without it every copy is unchanged.
fn changes(package: &Path) -> Vec<Change> {
    println!("cargo::rerun-if-env-changed=PANEL_CHANGE");
    let wanted = env::var("PANEL_CHANGE").unwrap_or_default();
    println!("cargo::rustc-env=ORACLE_CHANGED={wanted}");
    if wanted.is_empty() {
        return Vec::new();
    }
    let (file, name) = wanted.split_once(':').unwrap_or((&wanted, ""));
    let path = package.join(file);
    println!("cargo::rerun-if-changed={}", text(&path));
    let Ok(list) = fs::read_to_string(&path) else {
        refuse(&format!("cannot read {file}"));
    };
    let mut changes = Vec::new();
    for block in list.split("\n\n") {
        let field = |name: &str| {
            let found = block.lines().find_map(|line| line.strip_prefix(name));
            found.map(str::trim).map(str::to_string)
        };
        let Some(own) = field("name:") else { continue };
        if !name.is_empty() && own != name {
            continue;
        }
        let place = field("line:").unwrap_or_default();
        let (module, number) = place.split_once(' ').unwrap_or_default();
        changes.push(Change {
            module: module.to_string(),
            number: number.parse().unwrap_or(0),
            old: field("old:").unwrap_or_default(),
            new: field("new:").unwrap_or_default(),
        });
    }
    if changes.is_empty() {
        refuse(&format!("no change {wanted}"));
    }
    changes
}

/// Replaces the lines of one source that its changes name; the old text must stand there.
fn change(bytes: &[u8], module: &str, changes: &[Change]) -> Vec<u8> {
    let source = String::from_utf8(bytes.to_vec()).expect("a source in UTF-8");
    let mut lines: Vec<String> = source.lines().map(str::to_string).collect();
    for change in changes.iter().filter(|change| change.module == module) {
        match lines.get_mut(change.number.wrapping_sub(1)) {
            Some(line) if line.trim() == change.old => *line = change.new.clone(),
            _ => refuse(&format!(
                "line {} of {module} is not {}",
                change.number, change.old
            )),
        }
    }
    lines.join("\n").into_bytes()
}

/// Where a source stands: as a text beside the others, by its own name, or in a whole checkout.
fn find(folder: &Path, source: &Source) -> PathBuf {
    let module = source.module;
    let names = [
        format!("src--crates--pemu-board--src--{module}.rs.txt"),
        format!("{module}.rs"),
        format!("crates/pemu-board/src/{module}.rs"),
    ];
    let mut places = names.iter().map(|name| folder.join(name));
    let found = places.find(|place| place.is_file());
    found.unwrap_or_else(|| {
        refuse(&format!(
            "no {module}.rs in {}: set PANEL_SRC to a checkout of the Rust's repository \
             (NOTICE names it and its commit), or to the folder of the three texts {}",
            text(folder),
            names[0].replace(module, "*")
        ))
    })
}

/// The lines before the first that is `#[cfg(test)]`: a checkout may have its tests there.
fn without_tests(bytes: &[u8]) -> Vec<u8> {
    let lines = bytes.split_inclusive(|byte| *byte == b'\n');
    let before = lines.take_while(|line| line.trim_ascii_end() != b"#[cfg(test)]");
    before.flatten().copied().collect()
}

/// Checks one source and writes its copy: the unchanged bytes, then the line that hangs our module on.
fn take(from: &Path, source: &Source, package: &Path, to: &Path, changes: &[Change]) {
    println!("cargo::rerun-if-changed={}", text(from));
    let Ok(bytes) = fs::read(from) else {
        refuse(&format!("cannot read {}", text(from)));
    };
    let bytes = without_tests(&bytes);
    let found = sha256(&bytes);
    if found != source.sha256 {
        refuse(&format!(
            "{} has SHA-256 {found}, expected {}: not the recorded source",
            text(from),
            source.sha256
        ));
    }
    let mut copy = bytes;
    if !changes.is_empty() {
        copy = change(&copy, source.module, changes);
    }
    if let Some(reach) = source.reach {
        let reach = package.join("src").join(reach);
        println!("cargo::rerun-if-changed={}", text(&reach));
        copy.extend_from_slice(
            format!("\n#[path = {:?}]\npub mod reach;\n", text(&reach)).as_bytes(),
        );
    }
    write(to, &copy);
}

fn text(path: &Path) -> &str {
    path.to_str().expect("a path in UTF-8")
}

fn write(path: &Path, bytes: &[u8]) {
    if fs::write(path, bytes).is_err() {
        refuse(&format!("cannot write {}", text(path)));
    }
}

/// Ends the build: Cargo shows the message and goes no further.
fn refuse(message: &str) -> ! {
    println!("cargo::error={message}");
    exit(0);
}

/// SHA-256 (FIPS 180-4) in hex.
fn sha256(bytes: &[u8]) -> String {
    let mut message = bytes.to_vec();
    message.push(0x80);
    while message.len() % 64 != 56 {
        message.push(0);
    }
    message.extend_from_slice(&(bytes.len() as u64 * 8).to_be_bytes());

    let primes: Vec<u64> = (2u64..)
        .filter(|n| (2..*n).all(|d| n % d != 0))
        .take(64)
        .collect();
    // The first 32 bits of the fractional parts of cube and square roots of the first primes.
    let k: Vec<u32> = primes.iter().map(|&p| root_fraction(p, 3)).collect();
    let mut h: Vec<u32> = primes[..8].iter().map(|&p| root_fraction(p, 2)).collect();

    for block in message.chunks(64) {
        let mut w: Vec<u32> = block
            .chunks(4)
            .map(|b| u32::from_be_bytes([b[0], b[1], b[2], b[3]]))
            .collect();
        for i in 16..64 {
            let (a, b) = (w[i - 15], w[i - 2]);
            let s0 = a.rotate_right(7) ^ a.rotate_right(18) ^ (a >> 3);
            let s1 = b.rotate_right(17) ^ b.rotate_right(19) ^ (b >> 10);
            w.push(
                w[i - 16]
                    .wrapping_add(s0)
                    .wrapping_add(w[i - 7])
                    .wrapping_add(s1),
            );
        }
        let mut v = h.clone();
        for i in 0..64 {
            let s1 = v[4].rotate_right(6) ^ v[4].rotate_right(11) ^ v[4].rotate_right(25);
            let choice = (v[4] & v[5]) ^ (!v[4] & v[6]);
            let t1 = v[7]
                .wrapping_add(s1)
                .wrapping_add(choice)
                .wrapping_add(k[i])
                .wrapping_add(w[i]);
            let s0 = v[0].rotate_right(2) ^ v[0].rotate_right(13) ^ v[0].rotate_right(22);
            let majority = (v[0] & v[1]) ^ (v[0] & v[2]) ^ (v[1] & v[2]);
            let t2 = s0.wrapping_add(majority);
            v.rotate_right(1);
            v[4] = v[4].wrapping_add(t1);
            v[0] = t1.wrapping_add(t2);
        }
        for (sum, part) in h.iter_mut().zip(&v) {
            *sum = sum.wrapping_add(*part);
        }
    }
    h.iter().map(|word| format!("{word:08x}")).collect()
}

/// The first 32 bits after the point of the n-th root of p: the largest r with r^n <= p * 2^(32 n).
fn root_fraction(p: u64, n: u32) -> u32 {
    let mut r: u128 = 0;
    for bit in (0..36).rev() {
        let next = r | 1 << bit;
        if next.pow(n) <= u128::from(p) << (32 * n) {
            r = next;
        }
    }
    r as u32
}
