//! Times the library's longest calls against plain Rust on equal tables.

#[path = "../include/clundip.rs"]
mod clundip;
mod figures;
#[allow(dead_code)]
mod plain;

use figures::Times;
use std::hint::black_box;
use std::process::ExitCode;
use std::time::Instant;

const ROUNDS: usize = 4_001;
const FRAMES: u32 = 16_384;
const GRANULES: u32 = 4_096;
const SLOT: u64 = 5;
const AT_ONCE: u64 = 64;
const PASS: u64 = GRANULES as u64 / AT_ONCE;

// Function numbers.
const SHARE: u64 = 0xC600_0003;
const UNSHARE: u64 = 0xC600_0004;
const RANGE_GUARD_MAP: u64 = 0xC600_000A;
const RANGE_GUARD_UNMAP: u64 = 0xC600_000B;

/// What is lent to a call.
#[derive(Clone, Debug, PartialEq)]
struct Lent {
    records: clundip::Records,
    frames: Vec<u32>,
    map: Vec<u32>,
}

impl Lent {
    /// One live guest that was run and has enrolled, with this word in each place of its row.
    fn row_of(word: u32) -> Self {
        let mut lent = Self {
            records: [0; clundip::ALL_RECORDS_WORDS],
            frames: vec![0; FRAMES as usize],
            map: vec![0; 8 * GRANULES as usize],
        };
        let mut record = plain::FRESH;
        record[plain::RUN] = 1;
        record[plain::ENROLLED] = 1;
        lent.records[SLOT as usize * record.len()..][..record.len()].copy_from_slice(&record);
        lent.row().fill(word);
        lent
    }

    /// The same with a frame for each granule of its row.
    fn full_row(shared: fn(u32) -> bool) -> Self {
        let mut lent = Self::row_of(plain::VACANT);
        for granule in 0..GRANULES {
            // An odd factor gives each granule a frame of its own, far from its neighbour's.
            let frame = (granule * 10_007 + 331) % FRAMES;
            let shared = u32::from(shared(granule));
            lent.row()[granule as usize] = (0x4000_0000 << shared) + frame;
            lent.frames[frame as usize] = ((SLOT as u32 + 1) << 24) + (shared << 16) + granule;
        }
        lent
    }

    fn row(&mut self) -> &mut [u32] {
        &mut self.map[SLOT as usize * GRANULES as usize..][..GRANULES as usize]
    }

    /// As the calls take it.
    fn parts(&mut self) -> (&mut clundip::Records, &mut [u32], &mut [u32]) {
        (&mut self.records, &mut self.frames, &mut self.map)
    }

    fn fill(&mut self, from: &Self) {
        self.records = from.records;
        self.frames.copy_from_slice(&from.frames);
        self.map.copy_from_slice(&from.map);
    }
}

/// One call of a pass: the function number where it is a guest's, and which call of the pass.
type Call = fn(&mut Lent, u64, u64) -> [u64; 5];

#[inline(never)]
fn library_remove(lent: &mut Lent, _: u64, _: u64) -> [u64; 5] {
    let (records, frames, map) = lent.parts();
    let answer = clundip::remove(records, frames, map, black_box(SLOT));
    [answer.verdict, answer.v0, answer.v1, answer.v2, answer.v3]
}

#[inline(never)]
fn plain_remove(lent: &mut Lent, _: u64, _: u64) -> [u64; 5] {
    let (records, frames, map) = lent.parts();
    let answer = plain::remove(records, frames, map, black_box(SLOT));
    [answer.verdict, answer.v0, answer.v1, answer.v2, answer.v3]
}

#[inline(never)]
fn library_hypercall(lent: &mut Lent, function: u64, number: u64) -> [u64; 5] {
    let (records, frames, map) = lent.parts();
    let registers = black_box(range_registers(function, number));
    let answer = clundip::hypercall(records, frames, map, black_box(SLOT), registers);
    [answer.verdict, answer.v0, answer.v1, answer.v2, answer.v3]
}

#[inline(never)]
fn plain_hypercall(lent: &mut Lent, function: u64, number: u64) -> [u64; 5] {
    let (records, frames, map) = lent.parts();
    let registers = black_box(range_registers(function, number));
    let answer = plain::hypercall(records, frames, map, black_box(SLOT), registers);
    [answer.verdict, answer.v0, answer.v1, answer.v2, answer.v3]
}

fn range_registers(function: u64, number: u64) -> [u64; 4] {
    [function, 4096 * AT_ONCE * number, AT_ONCE, 0]
}

/// Half of the granules, in no order.
fn mixed(granule: u32) -> bool {
    let spread = granule.wrapping_mul(0x9E37_79B9);
    (spread ^ spread >> 15).wrapping_mul(0x85EB_CA6B) >> 31 == 1
}

/// One kind of work: the calls of a pass on each side, and what each call answers.
struct Work {
    name: &'static str,
    aim: f64,
    calls: u64,
    function: u64,
    before: Lent,
    answer: [u64; 5],
    library: Call,
    plain: Call,
}

impl Work {
    fn all() -> [Self; 5] {
        [
            Self {
                name: "remove, row of 4,096 granules",
                aim: 1.3,
                calls: 1,
                function: 0,
                before: Lent::full_row(mixed),
                answer: [0, GRANULES.into(), 0, 0, 0],
                library: library_remove,
                plain: plain_remove,
            },
            Self::range(
                "share of 64 granules",
                1.1,
                SHARE,
                Lent::full_row(|_| false),
            ),
            Self::range(
                "unshare of 64 granules",
                1.1,
                UNSHARE,
                Lent::full_row(|_| true),
            ),
            Self::range(
                "range guard map of 64",
                1.05,
                RANGE_GUARD_MAP,
                Lent::row_of(plain::VACANT),
            ),
            Self::range(
                "range guard unmap of 64",
                1.05,
                RANGE_GUARD_UNMAP,
                Lent::row_of(plain::GUARDED),
            ),
        ]
    }

    /// A whole row by calls on 64 granules.
    fn range(name: &'static str, aim: f64, function: u64, before: Lent) -> Self {
        Self {
            name,
            aim,
            calls: PASS,
            function,
            before,
            answer: [10, 0, AT_ONCE, 0, 0],
            library: library_hypercall,
            plain: plain_hypercall,
        }
    }

    /// Makes a pass once on each side, and compares answers and words.
    fn check(&self) -> Result<(), &'static str> {
        let [library, plain] = [self.library, self.plain].map(|call| {
            let mut lent = self.before.clone();
            let answers: Vec<_> = (0..self.calls)
                .map(|number| call(&mut lent, self.function, number))
                .collect();
            (answers, lent)
        });
        if library.0 != plain.0 {
            return Err("the library and plain Rust answer differently");
        }
        if library.1 != plain.1 {
            return Err("the library and plain Rust leave different words");
        }
        if plain.0.iter().any(|answer| *answer != self.answer) {
            return Err("a call is not done");
        }
        Ok(())
    }

    fn time(&self) -> Times {
        let mut lent = self.before.clone();
        let mut times = Times::default();
        for round in 0..ROUNDS {
            let library_first = round % 2 == 0;
            for library in [library_first, !library_first] {
                let (call, times) = match library {
                    true => (self.library, &mut times.proved),
                    false => (self.plain, &mut times.plain),
                };
                lent.fill(&self.before);
                times.push(self.pass(black_box(call), &mut lent));
            }
        }
        times
    }

    /// The time of one call in a pass, in ns.
    fn pass(&self, call: Call, lent: &mut Lent) -> f64 {
        let start = Instant::now();
        for number in 0..self.calls {
            black_box(call(black_box(lent), self.function, number));
        }
        start.elapsed().as_nanos() as f64 / self.calls as f64
    }
}

fn main() -> ExitCode {
    let works = Work::all();
    for work in &works {
        if let Err(difference) = work.check() {
            eprintln!("calls: {}: {difference}", work.name);
            return ExitCode::FAILURE;
        }
    }
    figures::print_heading("ns per call");
    for work in &works {
        figures::print_times(work.name, ["library", "plain Rust"], &work.time(), work.aim);
    }
    println!(
        "Tables filled again before each removal and each pass of 64 calls, outside the time;"
    );
    println!("both built for release. {ROUNDS} rounds, the order of the two changed each time.");
    ExitCode::SUCCESS
}
