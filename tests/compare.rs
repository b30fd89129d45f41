//! Compares the library with the model on random calls: answers, the part that
//! show hands back, and every word of records and tables after each call.
//!
//!     rustc --edition 2024 -O -L target/staticlib -o target/compare tests/compare.rs
//!     target/compare [SEED [CALLS]]

#[path = "../include/clundip.rs"]
mod clundip;
mod generate;
mod model;
mod rows;

use generate::{Random, SORTS, Sort};
use model::{Call, Memory, Outcome, RECORD};
use rows::Coverage;
use std::fmt::{LowerHex, Write};
use std::panic::{AssertUnwindSafe, catch_unwind};
use std::process::ExitCode;

const SEED: u64 = 1;
const CALLS: u64 = 400_000;

/// Words on either side of what is lent, which no call may write. The number is
/// odd, so that what is lent is aligned for its words and no better.
const MARGIN: usize = 3;
const MARGIN_WORD: u32 = 0xA5A5_A5A5;

/// The names of a record's words in the module. Whoever changes them changes the
/// layout, and raises its version.
const _: () = {
    use clundip::{ABI, RECORD_WORDS, record::*};
    let order = [LIVE, LEGACY, RUN, ENROLLED, STD, STD_HYP, VENDOR_HYP];
    assert!(ABI == 2 && RECORD_WORDS == RECORD && matches!(order, [0, 1, 2, 3, 4, 5, 6]));
};

/// A memory as it is lent to the library, with margins.
#[derive(PartialEq)]
struct Lent {
    records: Vec<u64>,
    frames: Vec<u32>,
    map: Vec<u32>,
}

impl Lent {
    fn of(memory: &Memory) -> Lent {
        Lent {
            records: with_margins(&memory.records, MARGIN_WORD.into()),
            frames: with_margins(&memory.frames, MARGIN_WORD),
            map: with_margins(&memory.map, MARGIN_WORD),
        }
    }
}

fn with_margins<T: Copy>(words: &[T], margin: T) -> Vec<T> {
    [&[margin; MARGIN], words, &[margin; MARGIN]].concat()
}

fn within_margins<T>(words: &mut [T]) -> &mut [T] {
    let end = words.len() - MARGIN;
    &mut words[MARGIN..end]
}

/// Makes a call of the library.
#[rustfmt::skip]
fn perform(lent: &mut Lent, call: Call) -> Outcome {
    let records: &mut clundip::Records = within_margins(&mut lent.records).try_into().unwrap();
    let frames = within_margins(&mut lent.frames);
    let map = within_margins(&mut lent.map);
    let mut part = [0, 0];
    let answer = match call {
        Call::Create { legacy: false } => clundip::create(records, frames, map),
        Call::Create { legacy: true } => clundip::create_legacy(records, frames, map),
        Call::Donate { slot, frame, granule } => {
            clundip::donate(records, frames, map, slot, frame, granule)
        }
        Call::Run { slot } => clundip::run(records, slot),
        Call::Remove { slot } => clundip::remove(records, frames, map, slot),
        Call::Cleared { frame } => clundip::cleared(frames, map, frame),
        Call::Access { frame } => clundip::access(frames, map, frame),
        Call::Show { slot } => {
            let (answer, row) = clundip::show(records, map, slot);
            let begin = row.as_ptr() as usize - map.as_ptr() as usize;
            part = [begin / size_of::<u32>(), row.len()].map(|words| words as u64);
            answer
        }
        Call::RegisterRead { slot, reg } => clundip::register_read(records, slot, reg),
        Call::RegisterWrite { slot, reg, value } => {
            clundip::register_write(records, slot, reg, value)
        }
        Call::Hypercall { slot, registers } => {
            clundip::hypercall(records, frames, map, slot, registers)
        }
        Call::Abort { slot, ipa } => clundip::abort(records, frames, map, slot, ipa),
    };
    let answer = [answer.verdict, answer.v0, answer.v1, answer.v2, answer.v3];
    Outcome { answer, part }
}

/// Where library and model differ.
struct Difference {
    sort: Sort,
    call: Call,
    before: Memory,
    /// None if the part of show is not within the map table.
    library: Option<Outcome>,
    model: Outcome,
    library_after: Lent,
    model_after: Lent,
}

/// How often verdicts came, by sort of memory, and R0 of verdict 10.
#[derive(Default)]
struct Tally {
    compared: u64,
    verdicts: [[u64; SORTS.len()]; 14],
    done: u64,
    not_supported: u64,
    invalid_parameter: u64,
    coverage: Coverage,
}

impl Tally {
    fn count(&mut self, sort: Sort, [verdict, v0, ..]: [u64; 5]) {
        self.compared += 1;
        self.verdicts[verdict as usize][sort as usize] += 1;
        if verdict == clundip::verdict::RETURN {
            match v0 as i64 {
                0 => self.done += 1,
                -1 => self.not_supported += 1,
                -3 => self.invalid_parameter += 1,
                _ => {}
            }
        }
    }

    fn print(&self) {
        println!("verdict   calls   sound  nearly damaged lengths");
        for (verdict, sorts) in self.verdicts.iter().enumerate() {
            print!("{verdict:7}{:8}", sorts.iter().sum::<u64>());
            for count in sorts {
                print!("{count:8}");
            }
            println!();
        }
        let returned = self.verdicts[clundip::verdict::RETURN as usize];
        let named = self.done + self.not_supported + self.invalid_parameter;
        println!("verdict 10 with R0 = 0: {}", self.done);
        println!("verdict 10 with R0 = -1: {}", self.not_supported);
        println!("verdict 10 with R0 = -3: {}", self.invalid_parameter);
        println!(
            "verdict 10 with another R0: {}",
            returned.iter().sum::<u64>() - named
        );
        self.coverage.print();
    }

    /// Prints the verdicts and rows that did not come, and says how many.
    fn missing(&self) -> usize {
        let missing = |verdict: &usize| self.verdicts[*verdict] == [0; SORTS.len()];
        let missing: Vec<usize> = (0..self.verdicts.len()).filter(missing).collect();
        for verdict in &missing {
            println!("verdict {verdict} did not come");
        }
        missing.len() + self.coverage.missing(false)
    }
}

/// Makes calls in turn, each by the library and by the model on its own copy.
fn compare(
    random: &mut Random,
    sort: Sort,
    mut memory: Memory,
    calls: u64,
    tally: &mut Tally,
) -> Result<(), Box<Difference>> {
    let mut lent = Lent::of(&memory);
    for _ in 0..calls {
        let call = generate::call(random, &memory);
        let before = memory.clone();
        let library = catch_unwind(AssertUnwindSafe(|| perform(&mut lent, call))).ok();
        let model = model::perform(&mut memory, call);
        let model_after = Lent::of(&memory);
        if library != Some(model) || lent != model_after {
            return Err(Box::new(Difference {
                sort,
                call,
                before,
                library,
                model,
                library_after: lent,
                model_after,
            }));
        }
        tally.count(sort, model.answer);
        tally.coverage.note(&before, call, model.answer);
    }
    Ok(())
}

impl Difference {
    #[rustfmt::skip]
    fn print(&self) {
        let Memory { records, frames, map } = &self.before;
        println!("tables: {:?}, F = {}, map words = {}", self.sort, frames.len(), map.len());
        println!("call: {:?}", self.call);
        println!("call in hex: {:x?}", self.call);
        match &self.library {
            Some(outcome) => println!("library: {outcome:?}"),
            None => println!("library: a part that is not within the map table"),
        }
        println!("model:   {:?}", self.model);
        println!("words that differ, in hex: before, library, model");
        let (library, model) = (&self.library_after, &self.model_after);
        print_differing("records", records, &library.records, &model.records);
        print_differing("frames", frames, &library.frames, &model.frames);
        print_differing("map", map, &library.map, &model.map);
        println!("words before the call that are not 0, in hex:");
        print_words("records", records, RECORD);
        print_words("frames", frames, 256);
        print_words("map", map, map.len() / 8);
    }
}

/// Prints the words that differ after the call, at most 100; an index out of the
/// table is one of a margin.
fn print_differing<T: LowerHex + Copy + PartialEq>(
    name: &str,
    before: &[T],
    library: &[T],
    model: &[T],
) {
    let words = library.iter().zip(model).enumerate();
    for (index, (library, model)) in words.filter(|(_, (l, m))| l != m).take(100) {
        let index = index as isize - MARGIN as isize;
        let before = before.get(index as usize).unwrap_or(model);
        println!("  {name}[{index}]: {before:x}, {library:x}, {model:x}");
    }
}

/// Prints the words that are not 0, a row a line, at most 100 of each row.
fn print_words<T: LowerHex + Default + PartialEq>(name: &str, words: &[T], row: usize) {
    let row = row.max(1);
    for (number, words) in words.chunks(row).enumerate() {
        let mut line = String::new();
        let words = words.iter().enumerate();
        for (index, word) in words.filter(|word| *word.1 != T::default()).take(100) {
            write!(line, " [{}] {word:x}", number * row + index).unwrap();
        }
        if !line.is_empty() {
            println!("  {name}{line}");
        }
    }
}

/// Seed and number of calls.
fn arguments() -> Option<(u64, u64)> {
    let mut arguments = std::env::args().skip(1);
    let mut number = |default| {
        arguments
            .next()
            .map_or(Some(default), |text| text.parse().ok())
    };
    Some((number(SEED)?, number(CALLS)?))
}

fn main() -> ExitCode {
    let Some((seed, calls)) = arguments() else {
        eprintln!("usage: compare [SEED [CALLS]]");
        return ExitCode::from(2);
    };
    println!("seed {seed}, {calls} calls");
    let mut random = Random::new(seed);
    let mut tally = Tally::default();
    while tally.compared < calls {
        let sort = random.pick(&SORTS);
        let memory = generate::memory(&mut random, sort);
        let turn = random.within(4, 24).min(calls - tally.compared);
        if let Err(difference) = compare(&mut random, sort, memory, turn, &mut tally) {
            println!("difference at call {} of seed {seed}", tally.compared + 1);
            difference.print();
            println!("{} passed, 1 failed", tally.compared);
            return ExitCode::FAILURE;
        }
    }
    tally.print();
    let missing = tally.missing();
    println!("{} passed, {missing} failed", tally.compared);
    if missing == 0 {
        ExitCode::SUCCESS
    } else {
        ExitCode::FAILURE
    }
}
