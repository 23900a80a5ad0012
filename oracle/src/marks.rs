//! The branches that a run of the marked Rust copy passes (see branches.txt).

use std::collections::BTreeSet;
use std::sync::Mutex;

static PASSED: Mutex<BTreeSet<&'static str>> = Mutex::new(BTreeSet::new());

/// Notes that a marked branch was passed; only a copy with marks calls it.
#[allow(dead_code)]
pub fn hit(name: &'static str) {
    PASSED.lock().expect("no thread panicked").insert(name);
}

/// The names of all marks, and those not passed so far.
pub fn left() -> (BTreeSet<&'static str>, Vec<&'static str>) {
    let marks = include_str!("../branches.txt").split("hit(\"").skip(1);
    let all: BTreeSet<&str> = marks.filter_map(|mark| mark.split('"').next()).collect();
    let passed = PASSED.lock().expect("no thread panicked");
    let left = all.iter().filter(|name| !passed.contains(*name));
    let left = left.copied().collect();
    (all, left)
}
