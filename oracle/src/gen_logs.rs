//! Generated logs: good traffic, and logs that are bad, cut or long.

use crate::log::{HEADER, Segment, record_bytes};
use crate::random::Random;
use crate::refusals::LOG_LIMIT;
use crate::traffic::Traffic;

/// The log of a seed.
pub fn log(seed: u64) -> Vec<u8> {
    log_of(seed, 40)
}

/// The log of a seed; most have at most this many scenes.
pub fn log_of(seed: u64, most: u64) -> Vec<u8> {
    let random = &mut Random::new(seed);
    match random.below(20) {
        0 => damaged(random),
        1 => damaged(random),
        2 => any_bytes(random),
        3 => at_the_limit(random),
        4 => boot_and_boxes(random),
        5 => many_records(random),
        6 => long_run(random),
        7 if random.one_in(most / 2) => every_madctl(random),
        _ => traffic(random, most).0,
    }
}

/// Scenes of traffic, with the offsets of the records.
fn traffic(random: &mut Random, most: u64) -> (Vec<u8>, Vec<usize>) {
    let scenes = random.within(0, most);
    let mut traffic = Traffic::new(random);
    for _ in 0..scenes {
        traffic.scene();
    }
    let mut log = Vec::new();
    let mut offsets = Vec::new();
    for segment in traffic.take() {
        let record = record_bytes(&segment);
        if log.len() + record.len() > LOG_LIMIT {
            break;
        }
        offsets.push(log.len());
        log.extend(record);
    }
    (log, offsets)
}

fn encoded(segments: &[Segment]) -> Vec<u8> {
    segments.iter().flat_map(record_bytes).collect()
}

/// A good log with one record's tag or length spoiled, a cut end, or bytes after its end.
fn damaged(random: &mut Random) -> Vec<u8> {
    let (mut log, offsets) = traffic(random, 12);
    if offsets.is_empty() {
        return vec![random.byte()];
    }
    let at = random.pick(&offsets);
    match random.below(5) {
        0 => log[at] = random.pick(&[4, 5, 7, 8, 0x80, 0xff]),
        1 => log.truncate(random.within(0, log.len() as u64) as usize),
        2 => log.truncate(at + random.within(0, HEADER as u64) as usize),
        3 => log[at + 9 + random.below(2) as usize] ^= 1 << random.below(8),
        _ => {
            let more = random.within(1, 14) as usize;
            log.extend(random.bytes(more));
        }
    }
    log
}

fn any_bytes(random: &mut Random) -> Vec<u8> {
    let length = random.pick(&[0, 1, 10, 11, 12, 22, 40]);
    let mut log = random.bytes(length);
    // Small numbers where tag and length stand make good records likelier.
    for (at, byte) in log.iter_mut().enumerate() {
        match at % HEADER {
            0 => *byte %= 5,
            9 => *byte = 0,
            10 => *byte %= 3,
            _ => {}
        }
    }
    log
}

/// A log of 65,535, 65,536, 65,537 or more bytes, at times with a bad record as well.
fn at_the_limit(random: &mut Random) -> Vec<u8> {
    let (mut log, _) = traffic(random, 12);
    let length = random.pick(&[
        LOG_LIMIT - 1,
        LOG_LIMIT,
        LOG_LIMIT,
        LOG_LIMIT + 1,
        LOG_LIMIT + 2,
        70_000,
    ]);
    let room = length.saturating_sub(log.len() + HEADER).min(65_535);
    let record = Segment {
        time: random.below(1 << 30),
        dc: !random.one_in(40),
        release: random.one_in(2),
        bytes: random.bytes(room),
    };
    log.extend(record_bytes(&record));
    log.resize(length, 0);
    if random.one_in(4) {
        log[0] = 4;
    }
    log
}

fn boot_and_boxes(random: &mut Random) -> Vec<u8> {
    let boxes = random.below(12);
    let mut traffic = Traffic::new(random);
    traffic.boot();
    for _ in 0..boxes {
        traffic.one_box();
    }
    encoded(&traffic.take())
}

/// More than 128 records, most with commands.
fn many_records(random: &mut Random) -> Vec<u8> {
    let count = random.pick(&[126, 127, 128, 129, 130, 300]);
    let mut traffic = Traffic::new(random);
    for _ in 0..count {
        traffic.tick();
        let c = traffic.random.pick(&[0x00, 0x10, 0x11, 0x2c, 0x3c, 0xb2]);
        traffic.command(c);
        if traffic.random.one_in(6) {
            let bytes = traffic.random.bytes(3);
            traffic.data(&bytes);
        }
    }
    encoded(&traffic.take())
}

fn every_madctl(random: &mut Random) -> Vec<u8> {
    let mut traffic = Traffic::new(random);
    traffic.every_madctl();
    encoded(&traffic.take())
}

/// One run of many pixels after some traffic.
fn long_run(random: &mut Random) -> Vec<u8> {
    let (mut log, _) = traffic(random, 6);
    let room = LOG_LIMIT.saturating_sub(log.len() + 2 * HEADER + 1);
    let length = random.within(0, room.min(65_000) as u64) as usize;
    let begin = Segment {
        time: random.below(1 << 30),
        dc: false,
        release: false,
        bytes: vec![random.pick(&[0x2c, 0x3c])],
    };
    let run = Segment {
        dc: true,
        bytes: random.bytes(length),
        ..begin.clone()
    };
    log.extend(record_bytes(&begin));
    log.extend(record_bytes(&run));
    log
}
