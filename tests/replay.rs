//! Compares the replay program with the model on random logs, each handed over
//! in random pieces; some end in a bad record or in the middle of one. One more
//! log has 100,000 records, and comes one byte a read.
//!
//!     rustc --edition 2024 -O -o target/tests/replay tests/replay.rs
//!     target/tests/replay PROGRAM [SEED [LOGS]]

#[allow(dead_code)] // tables that no replay can have
mod generate;
mod model;
mod rows;

use generate::Random;
use model::{Call, Memory, RECORD, SLOTS};
use rows::Coverage;
use std::io::{self, Read};
use std::os::fd::OwnedFd;
use std::os::unix::net::UnixDatagram;
use std::process::{Command, ExitCode, Stdio};
use std::thread;

const SEED: u64 = 1;
const LOGS: u64 = 2000;
const LONG_LOG: u64 = 100_000;

/// The program has room for 6,236 bytes, with up to 36 that it holds.
const LONGEST_PIECE: u64 = 6236 - 36;

/// Where the log of a difference is left.
const DIFFERENT: &str = "target/tests/different.trace";

/// Verdicts 1 and 6 are for tables that no replay can have.
const VERDICTS: [usize; 12] = [0, 2, 3, 4, 5, 7, 8, 9, 10, 11, 12, 13];

fn fresh() -> Memory {
    Memory {
        records: [0; SLOTS * RECORD],
        frames: vec![0; 256],
        map: vec![0; 8 * 64],
    }
}

/// The bytes of a record; `other` is the slot byte where it is ignored. A call
/// without a kind, as show, has none.
#[rustfmt::skip]
fn record(call: Call, other: u8) -> Vec<u8> {
    let (kind, slot, arguments): (u8, u8, &[u64]) = match call {
        Call::Create { legacy: false } => (1, other, &[]),
        Call::Donate { slot, frame, granule } => (2, slot_byte(slot), &[frame, granule]),
        Call::Run { slot } => (3, slot_byte(slot), &[]),
        Call::Hypercall { slot, ref registers } => (4, slot_byte(slot), registers),
        Call::Abort { slot, ipa } => (5, slot_byte(slot), &[ipa]),
        Call::Remove { slot } => (6, slot_byte(slot), &[]),
        Call::Cleared { frame } => (7, other, &[frame]),
        Call::Access { frame } => (8, other, &[frame]),
        Call::RegisterRead { slot, reg } => (9, slot_byte(slot), &[reg]),
        Call::RegisterWrite { slot, reg, value } => (10, slot_byte(slot), &[reg, value]),
        Call::Create { legacy: true } => (11, other, &[]),
        _ => return vec![],
    };
    let mut bytes = vec![0, 3 + 8 * arguments.len() as u8, 1, kind, slot];
    bytes.extend(arguments.iter().flat_map(|argument| argument.to_be_bytes()));
    bytes
}

/// A slot that no byte has becomes one with the top bit set.
fn slot_byte(slot: u64) -> u8 {
    u8::try_from(slot).unwrap_or(128 + (slot % 8) as u8)
}

/// Good records, with calls that fit what the earlier ones left.
fn good_log(random: &mut Random, records: u64) -> Vec<u8> {
    let mut memory = fresh();
    let mut log = vec![];
    let mut made = 0;
    while made < records {
        let bytes = record(generate::call(random, &memory), random.within(0, 255) as u8);
        if let Some((call, _)) = front(&bytes) {
            model::perform(&mut memory, call);
            made += 1;
        }
        log.extend(bytes);
    }
    log
}

/// Some logs end in thousands of the shortest records. Half of the logs stay good.
/// The others are cut short, end in some bytes of a good record or in one with
/// another header, or have a bit changed.
fn log(random: &mut Random) -> Vec<u8> {
    let records = random.pick(&[0, 1, 4, 30, 300, 300, 5000]);
    let mut log = good_log(random, records);
    if random.within(0, 15) == 0 {
        let legacy = random.within(0, 1) == 1;
        log.extend(record(Call::Create { legacy }, 0).repeat(14_000));
    }
    let place = random.within(0, log.len() as u64) as usize;
    match random.within(0, 7) {
        0 => log.truncate(place),
        1 => log.extend(&[0, 35, 1, 4, 0, 0][..place % 6]),
        2 => {
            log.extend(header(random));
            log.extend([0; 64]);
        }
        3 if place < log.len() => log[place] ^= 1 << random.within(0, 7),
        _ => {}
    }
    log
}

/// The first bytes of a record, any one of which may be wrong.
fn header(random: &mut Random) -> [u8; 5] {
    let high = random.pick(&[0, 0, 0, 0, 1]);
    let low = random.pick(&[3, 3, 11, 11, 19, 19, 35, 35, 27, 0]);
    let version = random.pick(&[1, 1, 1, 1, 0, 2]);
    let kind = random.pick(&[0, 0, 0, 12, 12, 12, 255, 1, 2, 3, 4, 5, 6, 7, 8, 9, 10, 11]);
    [high, low, version, kind, 0]
}

/// The call of the record at the front of some bytes, and its length; none if
/// the record is not good.
#[rustfmt::skip]
fn front(bytes: &[u8]) -> Option<(Call, usize)> {
    let (&[high, low, version, kind, slot], rest) = bytes.split_first_chunk()?;
    let arguments = [0, 2, 0, 4, 1, 0, 1, 1, 1, 2, 0].get(usize::from(kind).checked_sub(1)?)?;
    let size = 3 + 8 * arguments;
    if usize::from(high) * 256 + usize::from(low) != size || version != 1 {
        return None;
    }
    let words = rest.get(..8 * arguments)?.chunks(8);
    let mut words = words.map(|word| word.iter().fold(0, |number, &byte| number << 8 | u64::from(byte)));
    let slot = u64::from(slot);
    let mut next = || words.next().unwrap();
    let call = match kind {
        1 => Call::Create { legacy: false },
        2 => Call::Donate { slot, frame: next(), granule: next() },
        3 => Call::Run { slot },
        4 => Call::Hypercall { slot, registers: [next(), next(), next(), next()] },
        5 => Call::Abort { slot, ipa: next() },
        6 => Call::Remove { slot },
        7 => Call::Cleared { frame: next() },
        8 => Call::Access { frame: next() },
        9 => Call::RegisterRead { slot, reg: next() },
        10 => Call::RegisterWrite { slot, reg: next(), value: next() },
        _ => Call::Create { legacy: true },
    };
    Some((call, 2 + size))
}

/// How often verdicts came, and `bad`, and which rows.
#[derive(Default)]
struct Tally {
    verdicts: [u64; 14],
    bad: u64,
    coverage: Coverage,
}

impl Tally {
    /// Prints the verdicts and rows that did not come, and `bad`, and says how many.
    fn missing(&self) -> usize {
        let missing = VERDICTS
            .iter()
            .filter(|&&number| self.verdicts[number] == 0);
        let mut missing: Vec<String> = missing.map(|number| format!("verdict {number}")).collect();
        if self.bad == 0 {
            missing.push("bad".into());
        }
        for name in &missing {
            println!("{name} did not come");
        }
        missing.len() + self.coverage.missing(true)
    }
}

/// The text that document 01 has for a log.
fn text(mut log: &[u8], tally: &mut Tally) -> String {
    let mut memory = fresh();
    let mut text = String::from("monitor 1\n");
    let mut answered = 0;
    while !log.is_empty() {
        let Some((call, size)) = front(log) else {
            tally.bad += 1;
            text += "bad\n";
            break;
        };
        let before = memory.clone();
        let answer = model::perform(&mut memory, call).answer;
        tally.coverage.note(&before, call, answer);
        let [verdict, v0, v1, v2, v3] = answer;
        tally.verdicts[verdict as usize] += 1;
        text += &format!("{verdict} {v0} {v1} {v2} {v3}\n");
        answered += 1;
        log = &log[size..];
    }
    text + &format!("end {answered}\n")
}

/// The longest piece of a log.
fn longest(random: &mut Random, log: &[u8]) -> u64 {
    match log.len() {
        0..10_000 => random.pick(&[1, 3, 40, 700]),
        _ => random.pick(&[700, LONGEST_PIECE]),
    }
}

/// What the program writes for a log. A datagram is one read of the program, and
/// an empty one is the end of its input.
fn replay(program: &str, random: &mut Random, mut log: &[u8], longest: u64) -> io::Result<String> {
    let (to, from) = UnixDatagram::pair()?;
    let mut child = Command::new(program)
        .stdin(OwnedFd::from(from))
        .stdout(Stdio::piped())
        .spawn()?;
    let mut output = child.stdout.take().unwrap();
    let reader = thread::spawn(move || {
        let mut text = String::new();
        output.read_to_string(&mut text).map(|_| text)
    });
    while !log.is_empty() {
        let size = random.within(1, longest).min(log.len() as u64);
        let (piece, rest) = log.split_at(size as usize);
        to.send(piece)?;
        log = rest;
    }
    to.send(&[])?;
    child.wait()?;
    reader.join().unwrap()
}

/// Prints the first lines that differ.
fn print_difference(model: &str, program: &io::Result<String>) {
    let program = match program {
        Ok(text) => text,
        Err(error) => return println!("the program can't be run to the end of the log: {error}"),
    };
    let lines = model.split('\n').zip(program.split('\n'));
    let (number, (model, program)) = lines.enumerate().find(|(_, (m, p))| m != p).unwrap();
    println!(
        "line {}: model: {model:?}, program: {program:?}",
        number + 1
    );
}

/// Program, seed and number of logs.
fn arguments() -> Option<(String, u64, u64)> {
    let mut arguments = std::env::args().skip(1);
    let program = arguments.next()?;
    let mut number = |default| {
        arguments
            .next()
            .map_or(Some(default), |text| text.parse().ok())
    };
    Some((program, number(SEED)?, number(LOGS)?))
}

fn main() -> ExitCode {
    let Some((program, seed, logs)) = arguments() else {
        eprintln!("usage: replay PROGRAM [SEED [LOGS]]");
        return ExitCode::from(2);
    };
    println!("seed {seed}, {logs} logs, and one of {LONG_LOG} records");
    let mut random = Random::new(seed);
    let mut tally = Tally::default();
    for number in 0..=logs {
        let (log, longest) = if number < logs {
            let log = log(&mut random);
            let longest = longest(&mut random, &log);
            (log, longest)
        } else {
            (good_log(&mut random, LONG_LOG), 1)
        };
        let model = text(&log, &mut tally);
        let written = replay(&program, &mut random, &log, longest);
        if !written.as_ref().is_ok_and(|text| *text == model) {
            println!(
                "difference at log {} of seed {seed}, left in {DIFFERENT}",
                number + 1
            );
            print_difference(&model, &written);
            if let Err(error) = std::fs::write(DIFFERENT, &log) {
                println!("{DIFFERENT} can't be written: {error}");
            }
            println!("{number} passed, 1 failed");
            return ExitCode::FAILURE;
        }
    }
    println!("verdict 0 to 13: {:?}; bad: {}", tally.verdicts, tally.bad);
    tally.coverage.print();
    let missing = tally.missing();
    println!("{} passed, {missing} failed", logs + 1);
    if missing == 0 {
        ExitCode::SUCCESS
    } else {
        ExitCode::FAILURE
    }
}
