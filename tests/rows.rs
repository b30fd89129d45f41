//! Counts what guest calls and creations came: of each row of either kind's
//! table of guest calls that it was done, that each of its reasons by itself
//! refused it, and that what it doesn't look at did not.

use crate::model::{Answer, BITMAPS, Call, Memory, RECORD, SLOTS};
use Outcome::{Done, Passed, Refused, Verdict};
use Reason::*;
use std::collections::{BTreeMap, BTreeSet};

/// What may stand against a call.
#[derive(Clone, Copy, Debug, PartialEq, Eq, PartialOrd, Ord)]
enum Reason {
    NoSuchCall,
    LegacyGuest,
    VendorBitClear,
    BaseNotAligned,
    R1NotZero,
    R2NotZero,
    R2Zero,
    R3NotZero,
    NotEnrolled,
    BeyondTheRow,
    Damaged,
    OtherGranule,
}

#[derive(Clone, Copy, Debug, PartialEq, Eq, PartialOrd, Ord)]
enum Outcome {
    Done,
    /// Refused for this reason alone.
    Refused(Reason),
    /// Done although this is so.
    Passed(Reason),
    Verdict(u64),
}

/// A row: its number, the kind of granule that it needs (in the top two bits of
/// a map word), its error, what refuses it, and what doesn't.
struct Row {
    name: &'static str,
    number: u32,
    granule: Option<u32>,
    error: i64,
    reasons: &'static [Reason],
    passed: &'static [Reason],
}

#[rustfmt::skip]
const RANGED: [Row; 13] = [
    row("features", 0x8600_0000, None, -1, &[VendorBitClear], &[BaseNotAligned, R2NotZero, R3NotZero]),
    row("uid", 0x8600_FF01, None, -1, &[VendorBitClear], &[BaseNotAligned, R2NotZero, R3NotZero]),
    row("memory info", 0xC600_0002, None, -3, &[R1NotZero, R2NotZero, R3NotZero], &[VendorBitClear, NotEnrolled]),
    row("share", 0xC600_0003, Some(1), -3, SHARING, &[R2NotZero, R2Zero, VendorBitClear, NotEnrolled]),
    row("unshare", 0xC600_0004, Some(2), -3, SHARING, &[R2NotZero, R2Zero, VendorBitClear, NotEnrolled]),
    row("guard info", 0xC600_0005, None, -1, &[R1NotZero, R2NotZero, R3NotZero], &[VendorBitClear, NotEnrolled]),
    row("enroll", 0xC600_0006, None, -1, &[], &[BaseNotAligned, R2NotZero, R3NotZero, VendorBitClear, NotEnrolled]),
    row("guard map", 0xC600_0007, Some(0), -1, GUARD, &[R2NotZero, R3NotZero, VendorBitClear]),
    row("guard unmap", 0xC600_0008, Some(3), -1, GUARD, &[R2NotZero, R3NotZero, VendorBitClear]),
    row("relinquish", 0xC600_0009, Some(1), -3, ONE_GRANULE, &[VendorBitClear, NotEnrolled]),
    row("range guard map", 0xC600_000A, Some(0), -1, RANGE_GUARD, &[R3NotZero, VendorBitClear]),
    row("range guard unmap", 0xC600_000B, Some(3), -1, RANGE_GUARD, &[R3NotZero, VendorBitClear]),
    row("another number", 0, None, -1, &[NoSuchCall], &[]),
];

/// Where a legacy guest has no call of a number, it is met with registers that
/// a ranged guest's call would be done with.
#[rustfmt::skip]
const LEGACY: [Row; 13] = [
    row("features", 0x8600_0000, None, -1, &[VendorBitClear], &[BaseNotAligned, R2NotZero, R3NotZero, NotEnrolled]),
    row("uid", 0x8600_FF01, None, -1, &[VendorBitClear], &[BaseNotAligned, R2NotZero, R3NotZero, NotEnrolled]),
    row("memory info", 0xC600_0002, None, -3, &[R1NotZero, R2NotZero, R3NotZero], &[VendorBitClear, NotEnrolled]),
    row("share", 0xC600_0003, Some(1), -3, ONE_GRANULE, &[VendorBitClear, NotEnrolled]),
    row("unshare", 0xC600_0004, Some(2), -3, ONE_GRANULE, &[VendorBitClear, NotEnrolled]),
    row("guard info", 0xC600_0005, None, -1, &[LegacyGuest, R1NotZero, R2NotZero, R3NotZero], &[]),
    row("enroll", 0xC600_0006, None, -1, &[LegacyGuest], &[]),
    row("guard map", 0xC600_0007, Some(0), -3, ONE_GRANULE, &[VendorBitClear, NotEnrolled]),
    row("guard unmap", 0xC600_0008, Some(3), -1, LEGACY_GUARD, &[]),
    row("relinquish", 0xC600_0009, Some(1), -3, ONE_GRANULE, &[VendorBitClear, NotEnrolled]),
    row("range guard map", 0xC600_000A, Some(0), -1, LEGACY_RANGE_GUARD, &[]),
    row("range guard unmap", 0xC600_000B, Some(3), -1, LEGACY_RANGE_GUARD, &[]),
    row("another number", 0, None, -1, &[NoSuchCall], &[]),
];

#[rustfmt::skip]
const SHARING: &[Reason] = &[BaseNotAligned, R3NotZero, BeyondTheRow, Damaged, OtherGranule];
#[rustfmt::skip]
const ONE_GRANULE: &[Reason] = &[BaseNotAligned, R2NotZero, R3NotZero, BeyondTheRow, Damaged, OtherGranule];
#[rustfmt::skip]
const GUARD: &[Reason] = &[BaseNotAligned, NotEnrolled, BeyondTheRow, Damaged, OtherGranule];
#[rustfmt::skip]
const LEGACY_GUARD: &[Reason] = &[LegacyGuest, BaseNotAligned, NotEnrolled, BeyondTheRow, OtherGranule];
#[rustfmt::skip]
const RANGE_GUARD: &[Reason] = &[BaseNotAligned, R2Zero, NotEnrolled, BeyondTheRow, Damaged, OtherGranule];
#[rustfmt::skip]
const LEGACY_RANGE_GUARD: &[Reason] = &[LegacyGuest, BaseNotAligned, R2Zero, NotEnrolled, BeyondTheRow, OtherGranule];

const fn row(
    name: &'static str,
    number: u32,
    granule: Option<u32>,
    error: i64,
    reasons: &'static [Reason],
    passed: &'static [Reason],
) -> Row {
    Row {
        name,
        number,
        granule,
        error,
        reasons,
        passed,
    }
}

const KINDS: [(&str, &[Row]); 2] = [("ranged", &RANGED), ("legacy", &LEGACY)];

/// A row of a kind's table, or another call of that kind, and its outcome.
type Met = (&'static str, &'static str, Outcome);

/// Whether it can come where tables and records are those of a history: no word
/// is damaged then, each legacy guest is enrolled, and so is each guest with a
/// guarded granule.
fn in_histories(met: &Met) -> bool {
    !matches!(
        met,
        (_, _, Refused(Damaged) | Verdict(1) | Verdict(6))
            | ("legacy", _, Passed(NotEnrolled))
            | (_, "guard unmap" | "range guard unmap", Refused(NotEnrolled))
    )
}

#[derive(Default)]
pub struct Coverage {
    met: BTreeMap<Met, u64>,
    /// Live, legacy, run and enrolled in the records that hypercalls looked at,
    /// each as 0, 1, or 2 for any other word.
    flags: BTreeSet<[u64; BITMAPS]>,
    /// Answers that are not those of their row.
    wrong: Vec<String>,
}

impl Coverage {
    /// Notes a call with the memory before it and its answer.
    pub fn note(&mut self, memory: &Memory, call: Call, answer: Answer) {
        if let Call::Hypercall {
            slot: slot @ 0..8, ..
        } = call
        {
            let record = record(memory, slot);
            self.flags
                .insert(std::array::from_fn(|flag| record[flag].min(2)));
        }
        match call {
            Call::Create { legacy } => self.add(legacy, "create", Verdict(answer[0])),
            Call::Abort { slot, .. } if slot < SLOTS as u64 && answer[0] > 2 => {
                let legacy = record(memory, slot)[1] != 0;
                self.add(legacy, "abort", Verdict(answer[0]));
            }
            Call::Hypercall { slot, registers } if matches!(answer[0], 6 | 10) => {
                self.note_hypercall(memory, slot, registers, answer);
            }
            _ => {}
        }
    }

    fn add(&mut self, legacy: bool, name: &'static str, outcome: Outcome) {
        let met = (KINDS[usize::from(legacy)].0, name, outcome);
        *self.met.entry(met).or_default() += 1;
    }

    fn note_hypercall(&mut self, memory: &Memory, slot: u64, registers: [u64; 4], answer: Answer) {
        let legacy = record(memory, slot)[1] != 0;
        let rows = KINDS[usize::from(legacy)].1;
        let number = registers[0] as u32;
        let known = rows.iter().find(|row| row.number == number && number != 0);
        let row = known.unwrap_or(&rows[12]);
        let found = found(row, memory, slot, registers, answer);
        let against: Vec<Reason> = row
            .reasons
            .iter()
            .copied()
            .filter(|r| found.contains(r))
            .collect();
        let refused = answer[0] == 6 || matches!(answer[1] as i64, -1 | -3);
        let right = match against[..] {
            [] => !refused,
            [Damaged] => answer[0] == 6,
            _ => answer[..2] == [10, row.error as u64],
        };
        match against[..] {
            _ if !right => self.wrong.push(format!(
                "{}: {registers:x?}: {against:?}: {answer:?}",
                row.name
            )),
            [] => {
                self.add(legacy, row.name, Done);
                for reason in found {
                    self.add(legacy, row.name, Passed(reason));
                }
            }
            [reason] => self.add(legacy, row.name, Refused(reason)),
            _ => {}
        }
    }

    /// Prints what did not come, and answers that no row has, and says how many.
    pub fn missing(&self, histories: bool) -> usize {
        let needed = needed()
            .into_iter()
            .filter(|met| !histories || in_histories(met));
        let missing: Vec<Met> = needed.filter(|met| !self.met.contains_key(met)).collect();
        for (kind, name, outcome) in &missing {
            println!("{kind} {name}: {outcome:?} did not come");
        }
        // Three values of each of four flags.
        let flags = if histories { 0 } else { 81 - self.flags.len() };
        if flags > 0 {
            println!("{flags} of 81 combinations of a record's flags did not come");
        }
        for answer in self.wrong.iter().take(20) {
            println!("an answer that its row does not have: {answer}");
        }
        missing.len() + flags + self.wrong.len()
    }

    /// Prints how often each row of either kind was done and refused.
    pub fn print(&self) {
        println!("of guests of each kind, calls done, and refused for one reason alone:");
        for (kind, rows) in KINDS {
            for row in rows {
                let times = |outcome| {
                    self.met
                        .get(&(kind, row.name, outcome))
                        .copied()
                        .unwrap_or(0)
                };
                let refused: u64 = row
                    .reasons
                    .iter()
                    .map(|&reason| times(Refused(reason)))
                    .sum();
                println!("{kind:8}{:18}{:8}{refused:8}", row.name, times(Done));
            }
        }
    }
}

/// What every run has to meet.
fn needed() -> BTreeSet<Met> {
    let mut needed = BTreeSet::new();
    for (kind, rows) in KINDS {
        needed.extend([0, 1, 6, 7].map(|verdict| (kind, "create", Verdict(verdict))));
        needed.extend([3, 6, 11, 12, 13].map(|verdict| (kind, "abort", Verdict(verdict))));
        for row in rows {
            let always = [NoSuchCall, LegacyGuest]
                .iter()
                .any(|reason| row.reasons.contains(reason));
            if always {
                needed.insert((kind, row.name, Refused(row.reasons[0])));
            } else {
                needed.insert((kind, row.name, Done));
                needed.extend(
                    row.reasons
                        .iter()
                        .map(|&reason| (kind, row.name, Refused(reason))),
                );
            }
            needed.extend(
                row.passed
                    .iter()
                    .map(|&reason| (kind, row.name, Passed(reason))),
            );
        }
    }
    needed
}

fn record(memory: &Memory, slot: u64) -> &[u64] {
    &memory.records[slot as usize * RECORD..][..RECORD]
}

/// What may stand against a call and is so.
fn found(
    row: &Row,
    memory: &Memory,
    slot: u64,
    [_, r1, r2, r3]: [u64; 4],
    answer: Answer,
) -> Vec<Reason> {
    let record = record(memory, slot);
    let width = memory.map.len() / SLOTS;
    let granule = r1 / 4096;
    let damaged = answer[0] == 6;
    let beyond = granule >= width as u64;
    let other = row.granule.is_some_and(|kind| {
        !beyond && !damaged && memory.map[slot as usize * width + granule as usize] >> 30 != kind
    });
    let reasons = [
        (NoSuchCall, row.number == 0),
        (LegacyGuest, record[1] != 0),
        (VendorBitClear, record[BITMAPS + 2] & 1 == 0),
        (BaseNotAligned, r1 % 4096 != 0),
        (R1NotZero, r1 != 0),
        (R2NotZero, r2 != 0),
        (R2Zero, r2 == 0),
        (R3NotZero, r3 != 0),
        (NotEnrolled, record[3] == 0),
        (BeyondTheRow, row.granule.is_some() && beyond),
        (Damaged, damaged),
        (OtherGranule, other),
    ];
    reasons
        .into_iter()
        .filter(|reason| reason.1)
        .map(|reason| reason.0)
        .collect()
}
