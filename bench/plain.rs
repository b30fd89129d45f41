//! The calls of document 01 in ordinary Rust, for guests with ranges and legacy guests, on the same lent words as
//! the library.
//! The benchmarks time the proved calls against these.
//!
//! Of a record that changes, run, enroll and register write set the one word that they are about; the library
//! writes them all, with flags as 0 or 1. That shows only on flags that are neither.

/// The words of one slot: four flags, then the bitmaps STD, STD_HYP and VENDOR_HYP.
const RECORD: usize = 7;
type Record = [u64; RECORD];
const LIVE: usize = 0;
const LEGACY: usize = 1;
pub const RUN: usize = 2;
pub const ENROLLED: usize = 3;
const BITMAPS: usize = 4;
const VENDOR_HYP: usize = 6;
pub const FRESH: Record = {
    let mut record = [0; RECORD];
    record[LIVE] = 1;
    record[VENDOR_HYP] = 1;
    record
};
const FRESH_LEGACY: Record = {
    let mut record = FRESH;
    record[LEGACY] = 1;
    record[ENROLLED] = 1;
    record
};

pub const ALL_RECORDS_WORDS: usize = SLOTS * RECORD;
pub type Records = [u64; ALL_RECORDS_WORDS];

const BITMAP_LIMITS: [u64; 3] = [0, 0, 1];

const SLOTS: usize = 8;
const MAX_FRAMES: usize = 16_384;
const MAX_GRANULES: usize = 4_096;
const GRANULE_BYTES: u64 = 4_096;
const RANGE_LIMIT: u64 = 64;

// Map words. Private and shared have the frame in the low 16 bits.
pub const VACANT: u32 = 0;
const PRIVATE: u32 = 0x4000_0000;
const SHARED: u32 = 0x8000_0000;
pub const GUARDED: u32 = 0xC000_0000;

// Frame words. An owned frame has slot + 1, then 0 or 1 for shared, then the granule.
const HOST: u32 = 0;
const WAITING: u32 = 0xFF00_0000;
const SHARED_FLAG: u32 = 0x0001_0000;

// Verdicts.
const DONE: u64 = 0;
const BAD_LENGTH: u64 = 1;
const NO_GUEST: u64 = 2;
const NEVER_RUN: u64 = 3;
const OUT_OF_RANGE: u64 = 4;
const IN_USE: u64 = 5;
const DAMAGED: u64 = 6;
const NO_FREE_SLOT: u64 = 7;
const NOT_WAITING: u64 = 8;
const REGISTER_REFUSED: u64 = 9;
const RETURN: u64 = 10;
const MMIO_EXIT: u64 = 11;
const EXCEPTION: u64 = 12;
const RESUME: u64 = 13;

// Negative results as register bits.
const NOT_SUPPORTED: u64 = -1_i64 as u64;
const INVALID_PARAMETER: u64 = -3_i64 as u64;
const ENOENT: u64 = -2_i64 as u64;
const EINVAL: u64 = -22_i64 as u64;
const EBUSY: u64 = -16_i64 as u64;

const UID: [u64; 4] = [0xB66F_B428, 0xE911_C52E, 0x564B_CAA9, 0x743A_004D];

#[derive(Clone, Copy, Debug, PartialEq, Eq)]
pub struct Answer {
    pub verdict: u64,
    pub v0: u64,
    pub v1: u64,
    pub v2: u64,
    pub v3: u64,
}

impl Answer {
    fn new(verdict: u64, [v0, v1, v2, v3]: [u64; 4]) -> Self {
        Self {
            verdict,
            v0,
            v1,
            v2,
            v3,
        }
    }

    fn verdict(verdict: u64) -> Self {
        Self::new(verdict, [0; 4])
    }

    fn done(v0: u64) -> Self {
        Self::new(DONE, [v0, 0, 0, 0])
    }

    fn to_guest(r0: u64, r1: u64) -> Self {
        Self::new(RETURN, [r0, r1, 0, 0])
    }

    fn without_count(self) -> Self {
        Self { v1: 0, ..self }
    }
}

/// A word that is damaged, or not named back by the word that it names.
struct Damaged;

/// What a map word says of its granule.
#[derive(Clone, Copy, PartialEq, Eq)]
enum Granule {
    Vacant,
    Mapped { frame: usize, shared: bool },
    Guarded,
}

impl Granule {
    /// The frame of a mapped granule may still be out of range.
    fn from_word(word: u32) -> Option<Self> {
        match (word >> 30, word & 0x3FFF_FFFF) {
            (0, 0) => Some(Self::Vacant),
            (kind @ (1 | 2), frame) => Some(Self::Mapped {
                frame: frame as usize,
                shared: kind == 2,
            }),
            (3, 0) => Some(Self::Guarded),
            _ => None,
        }
    }

    /// What a sound word says: its frame, if it has one, names it back.
    fn look(word: u32, frames: &[u32], slot: usize, granule: usize) -> Result<Self, Damaged> {
        let state = Self::from_word(word).ok_or(Damaged)?;
        match state {
            Self::Mapped { frame, shared }
                if frames.get(frame) != Some(&owned(slot, shared, granule)) =>
            {
                Err(Damaged)
            }
            _ => Ok(state),
        }
    }
}

/// What a frame word says of its frame.
#[derive(Clone, Copy, PartialEq, Eq)]
enum Frame {
    Host,
    Waiting,
    Private,
    Shared,
}

impl Frame {
    /// What a sound word says: its granule, if it has one, names it back.
    fn look(word: u32, map: &[u32], width: usize, frame: usize) -> Result<Self, Damaged> {
        let [owner, flag, high, low] = word.to_be_bytes();
        let (state, kind) = match (owner, flag) {
            _ if word == HOST => return Ok(Self::Host),
            _ if word == WAITING => return Ok(Self::Waiting),
            (1..=8, 0) => (Self::Private, PRIVATE),
            (1..=8, 1) => (Self::Shared, SHARED),
            _ => return Err(Damaged),
        };
        let slot = usize::from(owner - 1);
        let granule = usize::from(u16::from_be_bytes([high, low]));
        if granule < width && map[slot * width + granule] == kind | frame as u32 {
            Ok(state)
        } else {
            Err(Damaged)
        }
    }
}

/// The word of a frame that a guest owns.
fn owned(slot: usize, shared: bool, granule: usize) -> u32 {
    (slot as u32 + 1) << 24 | u32::from(shared) << 16 | granule as u32
}

/// W, if both tables have a length within the bounds.
fn row_width(frames: &[u32], map: &[u32]) -> Option<usize> {
    let width = map.len() / SLOTS;
    let within = (1..=MAX_FRAMES).contains(&frames.len())
        && map.len().is_multiple_of(SLOTS)
        && (1..=MAX_GRANULES).contains(&width);
    within.then_some(width)
}

fn live_record(records: &Records, slot: u64) -> Option<&Record> {
    let (records, _) = records.as_chunks();
    records
        .get(slot as usize)
        .filter(|record| record[LIVE] != 0)
}

fn live_record_mut(records: &mut Records, slot: u64) -> Option<&mut Record> {
    let (records, _) = records.as_chunks_mut();
    records
        .get_mut(slot as usize)
        .filter(|record| record[LIVE] != 0)
}

fn row_mut(map: &mut [u32], width: usize, slot: usize) -> &mut [u32] {
    &mut map[slot * width..][..width]
}

pub fn create(records: &mut Records, frames: &[u32], map: &[u32]) -> Answer {
    create_as(FRESH, records, frames, map)
}

pub fn create_legacy(records: &mut Records, frames: &[u32], map: &[u32]) -> Answer {
    create_as(FRESH_LEGACY, records, frames, map)
}

fn create_as(record: Record, records: &mut Records, frames: &[u32], map: &[u32]) -> Answer {
    let Some(width) = row_width(frames, map) else {
        return Answer::verdict(BAD_LENGTH);
    };
    let (records, _) = records.as_chunks_mut::<RECORD>();
    let Some(slot) = records.iter().position(|record| record[LIVE] == 0) else {
        return Answer::verdict(NO_FREE_SLOT);
    };
    if map[slot * width..][..width]
        .iter()
        .any(|&word| word != VACANT)
    {
        return Answer::verdict(DAMAGED);
    }
    records[slot] = record;
    Answer::done(slot as u64)
}

pub fn donate(
    records: &mut Records,
    frames: &mut [u32],
    map: &mut [u32],
    slot: u64,
    frame: u64,
    granule: u64,
) -> Answer {
    let Some(width) = row_width(frames, map) else {
        return Answer::verdict(BAD_LENGTH);
    };
    if live_record(records, slot).is_none() {
        return Answer::verdict(NO_GUEST);
    }
    if frame >= frames.len() as u64 || granule >= width as u64 {
        return Answer::verdict(OUT_OF_RANGE);
    }
    let (slot, frame, granule) = (slot as usize, frame as usize, granule as usize);
    let place = slot * width + granule;
    let (Ok(granule_state), Ok(frame_state)) = (
        Granule::look(map[place], frames, slot, granule),
        Frame::look(frames[frame], map, width, frame),
    ) else {
        return Answer::verdict(DAMAGED);
    };
    if granule_state != Granule::Vacant || frame_state != Frame::Host {
        return Answer::verdict(IN_USE);
    }
    map[place] = PRIVATE | frame as u32;
    frames[frame] = owned(slot, false, granule);
    Answer::done(0)
}

pub fn run(records: &mut Records, slot: u64) -> Answer {
    let Some(record) = live_record_mut(records, slot) else {
        return Answer::verdict(NO_GUEST);
    };
    record[RUN] = 1;
    Answer::done(0)
}

pub fn remove(records: &mut Records, frames: &mut [u32], map: &mut [u32], slot: u64) -> Answer {
    let Some(width) = row_width(frames, map) else {
        return Answer::verdict(BAD_LENGTH);
    };
    let Some(record) = live_record_mut(records, slot) else {
        return Answer::verdict(NO_GUEST);
    };
    let slot = slot as usize;
    let row = row_mut(map, width, slot);
    let sound = row
        .iter()
        .enumerate()
        .all(|(granule, &word)| Granule::look(word, frames, slot, granule).is_ok());
    if !sound {
        return Answer::verdict(DAMAGED);
    }
    let mut count = 0;
    for word in &*row {
        if let Some(Granule::Mapped { frame, .. }) = Granule::from_word(*word) {
            frames[frame] = WAITING;
            count += 1;
        }
    }
    row.fill(VACANT);
    *record = [0; RECORD];
    Answer::done(count)
}

pub fn cleared(frames: &mut [u32], map: &[u32], frame: u64) -> Answer {
    match frame_state(frames, map, frame) {
        Ok(Frame::Waiting) => {
            frames[frame as usize] = HOST;
            Answer::done(0)
        }
        Ok(_) => Answer::verdict(NOT_WAITING),
        Err(verdict) => Answer::verdict(verdict),
    }
}

pub fn access(frames: &[u32], map: &[u32], frame: u64) -> Answer {
    match frame_state(frames, map, frame) {
        Ok(Frame::Host | Frame::Shared) => Answer::done(1),
        Ok(Frame::Waiting | Frame::Private) => Answer::done(0),
        Err(verdict) => Answer::verdict(verdict),
    }
}

fn frame_state(frames: &[u32], map: &[u32], frame: u64) -> Result<Frame, u64> {
    let width = row_width(frames, map).ok_or(BAD_LENGTH)?;
    let word = frames.get(frame as usize).ok_or(OUT_OF_RANGE)?;
    Frame::look(*word, map, width, frame as usize).map_err(|_| DAMAGED)
}

pub fn register_read(records: &Records, slot: u64, register: u64) -> Answer {
    let Some(record) = live_record(records, slot) else {
        return Answer::verdict(NO_GUEST);
    };
    match record[BITMAPS..].get(register as usize) {
        Some(&bitmap) => Answer::done(bitmap),
        None => Answer::new(REGISTER_REFUSED, [ENOENT, 0, 0, 0]),
    }
}

pub fn register_write(records: &mut Records, slot: u64, register: u64, value: u64) -> Answer {
    let Some(record) = live_record_mut(records, slot) else {
        return Answer::verdict(NO_GUEST);
    };
    let register = register as usize;
    let refusal = match BITMAP_LIMITS.get(register) {
        None => ENOENT,
        Some(limit) if value & !limit != 0 => EINVAL,
        Some(_) if record[RUN] != 0 => EBUSY,
        Some(_) => {
            record[BITMAPS + register] = value;
            return Answer::done(0);
        }
    };
    Answer::new(REGISTER_REFUSED, [refusal, 0, 0, 0])
}

pub fn abort(records: &Records, frames: &[u32], map: &[u32], slot: u64, ipa: u64) -> Answer {
    let Some(width) = row_width(frames, map) else {
        return Answer::verdict(BAD_LENGTH);
    };
    let Some(record) = live_record(records, slot) else {
        return Answer::verdict(NO_GUEST);
    };
    if record[RUN] == 0 {
        return Answer::verdict(NEVER_RUN);
    }
    let slot = slot as usize;
    let granule = (ipa / GRANULE_BYTES) as usize;
    let state = match map[slot * width..][..width].get(granule) {
        Some(&word) => Granule::look(word, frames, slot, granule),
        None => Ok(Granule::Vacant),
    };
    match state {
        Err(_) => Answer::verdict(DAMAGED),
        Ok(Granule::Mapped { .. }) => Answer::verdict(RESUME),
        Ok(Granule::Vacant) if record[ENROLLED] != 0 => Answer::verdict(EXCEPTION),
        Ok(Granule::Vacant | Granule::Guarded) => Answer::new(MMIO_EXIT, [ipa, 0, 0, 0]),
    }
}

pub fn hypercall(
    records: &mut Records,
    frames: &mut [u32],
    map: &mut [u32],
    slot: u64,
    registers: [u64; 4],
) -> Answer {
    let Some(width) = row_width(frames, map) else {
        return Answer::verdict(BAD_LENGTH);
    };
    let Some(record) = live_record_mut(records, slot) else {
        return Answer::verdict(NO_GUEST);
    };
    if record[RUN] == 0 {
        return Answer::verdict(NEVER_RUN);
    }
    let slot = slot as usize;
    let row = row_mut(map, width, slot);
    let mut guest = Guest {
        slot,
        record,
        row,
        frames,
    };
    match guest.record[LEGACY] {
        0 => guest.call(registers),
        _ => guest.legacy_call(registers),
    }
}

/// The guest that calls, with what its call may change.
struct Guest<'a> {
    slot: usize,
    record: &'a mut Record,
    row: &'a mut [u32],
    frames: &'a mut [u32],
}

impl Guest<'_> {
    fn call(&mut self, [r0, r1, r2, r3]: [u64; 4]) -> Answer {
        let vendor = self.record[VENDOR_HYP] & 1 != 0;
        let all_zero = r1 == 0 && r2 == 0 && r3 == 0;
        match r0 as u32 {
            0x8600_0000 if vendor => Answer::to_guest(0xFFD, 0),
            0x8600_FF01 if vendor => Answer::new(RETURN, UID),
            0xC600_0002 if all_zero => Answer::to_guest(GRANULE_BYTES, 1),
            0xC600_0002 => Answer::to_guest(INVALID_PARAMETER, 0),
            0xC600_0003 => self.change_sharing(r1, r2, r3, share),
            0xC600_0004 => self.change_sharing(r1, r2, r3, unshare),
            0xC600_0005 if all_zero => Answer::to_guest(GRANULE_BYTES, 1),
            0xC600_0006 => {
                self.record[ENROLLED] = 1;
                Answer::to_guest(0, 0)
            }
            0xC600_0007 => self.change_guard(r1, 1, guard_map).without_count(),
            0xC600_0008 => self.change_guard(r1, 1, guard_unmap).without_count(),
            0xC600_0009 => self.change_one(r1, r2, r3, relinquish),
            0xC600_000A => self.change_guard(r1, r2, guard_map),
            0xC600_000B => self.change_guard(r1, r2, guard_unmap),
            _ => Answer::to_guest(NOT_SUPPORTED, 0),
        }
    }

    /// The calls of a guest that knows no ranges.
    fn legacy_call(&mut self, [r0, r1, r2, r3]: [u64; 4]) -> Answer {
        let vendor = self.record[VENDOR_HYP] & 1 != 0;
        let all_zero = r1 == 0 && r2 == 0 && r3 == 0;
        match r0 as u32 {
            0x8600_0000 if vendor => Answer::to_guest(0x29D, 0),
            0x8600_FF01 if vendor => Answer::new(RETURN, UID),
            0xC600_0002 if all_zero => Answer::to_guest(GRANULE_BYTES, 0),
            0xC600_0002 => Answer::to_guest(INVALID_PARAMETER, 0),
            0xC600_0003 => self.change_one(r1, r2, r3, share),
            0xC600_0004 => self.change_one(r1, r2, r3, unshare),
            0xC600_0007 => self.change_one(r1, r2, r3, guard_map),
            0xC600_0009 => self.change_one(r1, r2, r3, relinquish),
            _ => Answer::to_guest(NOT_SUPPORTED, 0),
        }
    }

    fn change_sharing(&mut self, base: u64, count: u64, r3: u64, step: impl Step) -> Answer {
        if !base.is_multiple_of(GRANULE_BYTES) || r3 != 0 {
            return Answer::to_guest(INVALID_PARAMETER, 0);
        }
        self.change(base, count.max(1), INVALID_PARAMETER, step)
    }

    fn change_guard(&mut self, base: u64, count: u64, step: impl Step) -> Answer {
        if !base.is_multiple_of(GRANULE_BYTES) || count == 0 || self.record[ENROLLED] == 0 {
            return Answer::to_guest(NOT_SUPPORTED, 0);
        }
        self.change(base, count, NOT_SUPPORTED, step)
    }

    fn change_one(&mut self, base: u64, r2: u64, r3: u64, step: impl Step) -> Answer {
        if !base.is_multiple_of(GRANULE_BYTES) || r2 != 0 || r3 != 0 {
            return Answer::to_guest(INVALID_PARAMETER, 0);
        }
        self.change(base, 1, INVALID_PARAMETER, step)
            .without_count()
    }

    /// Takes the step for granules from the base on, as far as it can be taken.
    fn change(&mut self, base: u64, count: u64, error: u64, step: impl Step) -> Answer {
        let first = (base / GRANULE_BYTES) as usize;
        let limit = count.min(RANGE_LIMIT) as usize;
        let rest = self.row.get_mut(first..).unwrap_or_default();
        let mut done = 0;
        for (word, granule) in rest.iter_mut().take(limit).zip(first..) {
            match step(word, self.frames, self.slot, granule) {
                Ok(true) => done += 1,
                Err(Damaged) if done == 0 => return Answer::verdict(DAMAGED),
                Ok(false) | Err(Damaged) => break,
            }
        }
        match done {
            0 => Answer::to_guest(error, 0),
            _ => Answer::to_guest(0, done),
        }
    }
}

/// Changes a map word and its frame, given the frames, the slot and the granule.
/// False is a granule of another kind than the call needs.
trait Step: Fn(&mut u32, &mut [u32], usize, usize) -> Result<bool, Damaged> {}

impl<F: Fn(&mut u32, &mut [u32], usize, usize) -> Result<bool, Damaged>> Step for F {}

fn share(word: &mut u32, frames: &mut [u32], slot: usize, granule: usize) -> Result<bool, Damaged> {
    let Some(frame) = frame_of(PRIVATE, *word, frames, slot, granule) else {
        return Granule::look(*word, frames, slot, granule).map(|_| false);
    };
    *word ^= PRIVATE ^ SHARED;
    *frame |= SHARED_FLAG;
    Ok(true)
}

fn unshare(
    word: &mut u32,
    frames: &mut [u32],
    slot: usize,
    granule: usize,
) -> Result<bool, Damaged> {
    let Some(frame) = frame_of(SHARED, *word, frames, slot, granule) else {
        return Granule::look(*word, frames, slot, granule).map(|_| false);
    };
    *word ^= PRIVATE ^ SHARED;
    *frame &= !SHARED_FLAG;
    Ok(true)
}

fn relinquish(
    word: &mut u32,
    frames: &mut [u32],
    slot: usize,
    granule: usize,
) -> Result<bool, Damaged> {
    let Some(frame) = frame_of(PRIVATE, *word, frames, slot, granule) else {
        return Granule::look(*word, frames, slot, granule).map(|_| false);
    };
    *word = VACANT;
    *frame = WAITING;
    Ok(true)
}

fn guard_map(
    word: &mut u32,
    frames: &mut [u32],
    slot: usize,
    granule: usize,
) -> Result<bool, Damaged> {
    let vacant = Granule::look(*word, frames, slot, granule)? == Granule::Vacant;
    if vacant {
        *word = GUARDED;
    }
    Ok(vacant)
}

fn guard_unmap(
    word: &mut u32,
    frames: &mut [u32],
    slot: usize,
    granule: usize,
) -> Result<bool, Damaged> {
    let guarded = Granule::look(*word, frames, slot, granule)? == Granule::Guarded;
    if guarded {
        *word = VACANT;
    }
    Ok(guarded)
}

/// The frame's word, if the granule is of this kind and its frame names it back.
fn frame_of(
    kind: u32,
    word: u32,
    frames: &mut [u32],
    slot: usize,
    granule: usize,
) -> Option<&mut u32> {
    // A word of another kind keeps a high bit, so its frame is out of range.
    let frame = frames.get_mut((word ^ kind) as usize)?;
    (*frame == owned(slot, kind == SHARED, granule)).then_some(frame)
}
