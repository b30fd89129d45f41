//! A plain model of document 01, with legacy guests (Wish 1 of document 02),
//! over the words that the library is lent.
//!
//! It is written for obviousness: words become enums, the tests of a call stand
//! in the order of the verdict table, and granules change one at a time.

pub const SLOTS: usize = 8;
/// The words of a record, and the first of its bitmaps, behind the flags.
pub const RECORD: usize = 7;
pub const BITMAPS: usize = 4;
const GRANULE_BYTES: u64 = 4096;

/// The limits and first values of STD, STD_HYP and VENDOR_HYP.
const LIMITS: [u64; 3] = [0, 0, 1];

const NS: i64 = -1;
const IP: i64 = -3;
const ENOENT: i64 = -2;
const EBUSY: i64 = -16;
const EINVAL: i64 = -22;

const VACANT: u32 = 0;
const PRIVATE: u32 = 0x4000_0000;
const SHARED: u32 = 0x8000_0000;
const GUARDED: u32 = 0xC000_0000;

/// The answer with the published UID.
const UID: Answer = [10, 0xB66F_B428, 0xE911_C52E, 0x564B_CAA9, 0x743A_004D];

const HOST: u32 = 0;
const WAITING: u32 = 0xFF00_0000;

/// What a call is lent.
#[derive(Clone, Debug)]
pub struct Memory {
    pub records: [u64; SLOTS * RECORD],
    pub frames: Vec<u32>,
    pub map: Vec<u32>,
}

/// A call with its arguments, each as wide as it is passed.
#[rustfmt::skip]
#[derive(Clone, Copy, Debug)]
pub enum Call {
    Create { legacy: bool },
    Donate { slot: u64, frame: u64, granule: u64 },
    Run { slot: u64 },
    Remove { slot: u64 },
    Cleared { frame: u64 },
    Access { frame: u64 },
    Show { slot: u64 },
    RegisterRead { slot: u64, reg: u64 },
    RegisterWrite { slot: u64, reg: u64, value: u64 },
    Hypercall { slot: u64, registers: [u64; 4] },
    Abort { slot: u64, ipa: u64 },
}

/// The calls that take a slot and nothing else.
pub const SLOT_CALLS: [fn(u64) -> Call; 3] = [
    |slot| Call::Run { slot },
    |slot| Call::Remove { slot },
    |slot| Call::Show { slot },
];

/// Verdict and v0 to v3.
pub type Answer = [u64; 5];

/// An answer, and of show the part of the map table: the word where it begins
/// and how many words it has.
#[derive(Clone, Copy, Debug, PartialEq, Eq)]
pub struct Outcome {
    pub answer: Answer,
    pub part: [u64; 2],
}

/// What was asked for, or the answer of the first test that failed.
type Tested<T> = Result<T, Answer>;

fn test(holds: bool, refusal: Answer) -> Tested<()> {
    if holds { Ok(()) } else { Err(refusal) }
}

fn verdict(number: u64) -> Answer {
    [number, 0, 0, 0, 0]
}

fn done(v0: u64) -> Tested<Answer> {
    Ok([0, v0, 0, 0, 0])
}

fn register_refused(number: i64) -> Answer {
    [9, number as u64, 0, 0, 0]
}

fn guest_refused(r0: i64) -> Answer {
    [10, r0 as u64, 0, 0, 0]
}

/// A record taken as flags and bitmaps.
#[derive(Clone, Copy, PartialEq)]
struct Guest {
    live: bool,
    legacy: bool,
    run: bool,
    enrolled: bool,
    bitmaps: [u64; 3],
}

/// A granule by its map word; private and shared with the frame.
#[derive(Clone, Copy, PartialEq)]
enum Granule {
    Vacant,
    Private(usize),
    Shared(usize),
    Guarded,
    Damaged,
}

/// A frame by its frame word; private and shared with slot and granule.
#[derive(Clone, Copy, PartialEq)]
enum Frame {
    Host,
    Waiting,
    Private(usize, usize),
    Shared(usize, usize),
    Damaged,
}

/// A map word by itself.
fn decode_map_word(word: u32, frames: usize) -> Granule {
    let kind = word & 0xC000_0000;
    let frame = (word & 0xFFFF) as usize;
    match kind {
        VACANT if word == VACANT => Granule::Vacant,
        PRIVATE if word == PRIVATE + frame as u32 && frame < frames => Granule::Private(frame),
        SHARED if word == SHARED + frame as u32 && frame < frames => Granule::Shared(frame),
        GUARDED if word == GUARDED => Granule::Guarded,
        _ => Granule::Damaged,
    }
}

/// A frame word by itself.
fn decode_frame_word(word: u32, width: usize) -> Frame {
    let [owner, sharing, high, low] = word.to_be_bytes();
    let granule = u16::from_be_bytes([high, low]) as usize;
    match (word, owner, sharing) {
        (HOST, _, _) => Frame::Host,
        (WAITING, _, _) => Frame::Waiting,
        (_, 1..=8, 0) if granule < width => Frame::Private(owner as usize - 1, granule),
        (_, 1..=8, 1) if granule < width => Frame::Shared(owner as usize - 1, granule),
        _ => Frame::Damaged,
    }
}

fn owned(slot: usize, sharing: u32, granule: usize) -> u32 {
    ((slot as u32 + 1) << 24) + (sharing << 16) + granule as u32
}

/// What a guest's call does with one granule.
#[derive(Clone, Copy)]
enum Change {
    Share,
    Unshare,
    GuardMap,
    GuardUnmap,
    Relinquish,
}

/// Performs a call on the memory.
#[rustfmt::skip]
pub fn perform(memory: &mut Memory, call: Call) -> Outcome {
    let mut part = [0, 0];
    let (Ok(answer) | Err(answer)) = match call {
        Call::Create { legacy } => memory.create(legacy),
        Call::Donate { slot, frame, granule } => memory.donate(slot, frame, granule),
        Call::Run { slot } => memory.run(slot),
        Call::Remove { slot } => memory.remove(slot),
        Call::Cleared { frame } => memory.cleared(frame),
        Call::Access { frame } => memory.access(frame),
        Call::Show { slot } => memory.show(slot, &mut part),
        Call::RegisterRead { slot, reg } => memory.register_read(slot, reg),
        Call::RegisterWrite { slot, reg, value } => memory.register_write(slot, reg, value),
        Call::Hypercall { slot, registers } => memory.hypercall(slot, registers),
        Call::Abort { slot, ipa } => memory.abort(slot, ipa),
    };
    Outcome { answer, part }
}

/// The words.
impl Memory {
    /// W, the granules of each row.
    fn width(&self) -> usize {
        self.map.len() / SLOTS
    }

    fn guest(&self, slot: usize) -> Guest {
        let words = &self.records[slot * RECORD..][..RECORD];
        Guest {
            live: words[0] != 0,
            legacy: words[1] != 0,
            run: words[2] != 0,
            enrolled: words[3] != 0,
            bitmaps: [words[4], words[5], words[6]],
        }
    }

    /// Writes the seven words, but only if the flags or bitmaps change.
    fn set_guest(&mut self, slot: usize, guest: Guest) {
        if guest != self.guest(slot) {
            let flags = [guest.live, guest.legacy, guest.run, guest.enrolled];
            let words = &mut self.records[slot * RECORD..][..RECORD];
            words[..BITMAPS].copy_from_slice(&flags.map(u64::from));
            words[BITMAPS..].copy_from_slice(&guest.bitmaps);
        }
    }

    /// "A word that names a partner must be named back by it, with the same
    /// shared or private; else both are damaged."
    fn granule(&self, slot: usize, granule: usize) -> Granule {
        let word = self.map[slot * self.width() + granule];
        let found = decode_map_word(word, self.frames.len());
        let partner = |frame: usize| decode_frame_word(self.frames[frame], self.width());
        match found {
            Granule::Private(f) if partner(f) != Frame::Private(slot, granule) => Granule::Damaged,
            Granule::Shared(f) if partner(f) != Frame::Shared(slot, granule) => Granule::Damaged,
            _ => found,
        }
    }

    /// The same, from the frame's word.
    fn frame(&self, frame: usize) -> Frame {
        let found = decode_frame_word(self.frames[frame], self.width());
        let partner = |slot: usize, granule: usize| {
            decode_map_word(self.map[slot * self.width() + granule], self.frames.len())
        };
        match found {
            Frame::Private(s, g) if partner(s, g) != Granule::Private(frame) => Frame::Damaged,
            Frame::Shared(s, g) if partner(s, g) != Granule::Shared(frame) => Frame::Damaged,
            _ => found,
        }
    }
}

/// Tests that several calls have.
impl Memory {
    fn test_map(&self) -> Tested<()> {
        let rows = self.map.len() == SLOTS * self.width();
        test(rows && (1..=4096).contains(&self.width()), verdict(1))
    }

    fn test_tables(&self) -> Tested<()> {
        test((1..=16_384).contains(&self.frames.len()), verdict(1))?;
        self.test_map()
    }

    fn live_slot(&self, slot: u64) -> Tested<usize> {
        test(slot <= 7, verdict(2))?;
        test(self.guest(slot as usize).live, verdict(2))?;
        Ok(slot as usize)
    }

    fn run_slot(&self, slot: u64) -> Tested<usize> {
        let slot = self.live_slot(slot)?;
        test(self.guest(slot).run, verdict(3))?;
        Ok(slot)
    }

    fn frame_number(&self, frame: u64) -> Tested<usize> {
        test(frame < self.frames.len() as u64, verdict(4))?;
        Ok(frame as usize)
    }
}

/// Host calls.
impl Memory {
    /// A legacy guest "counts as enrolled from creation".
    fn create(&mut self, legacy: bool) -> Tested<Answer> {
        self.test_tables()?;
        let free = (0..SLOTS).find(|&slot| !self.guest(slot).live);
        // With all eight live there is no row to look at, so 6 can't be meant.
        let slot = free.ok_or(verdict(7))?;
        let row = &self.map[slot * self.width()..][..self.width()];
        test(row.iter().all(|&word| word == VACANT), verdict(6))?;
        let guest = Guest {
            live: true,
            legacy,
            run: false,
            enrolled: legacy,
            bitmaps: LIMITS,
        };
        self.set_guest(slot, guest);
        done(slot as u64)
    }

    fn donate(&mut self, slot: u64, frame: u64, granule: u64) -> Tested<Answer> {
        self.test_tables()?;
        let slot = self.live_slot(slot)?;
        let frame = self.frame_number(frame)?;
        test(granule < self.width() as u64, verdict(4))?;
        let granule = granule as usize;
        test(self.granule(slot, granule) != Granule::Damaged, verdict(6))?;
        test(self.frame(frame) != Frame::Damaged, verdict(6))?;
        test(self.frame(frame) == Frame::Host, verdict(5))?;
        test(self.granule(slot, granule) == Granule::Vacant, verdict(5))?;
        let word = slot * self.width() + granule;
        self.map[word] = PRIVATE + frame as u32;
        self.frames[frame] = owned(slot, 0, granule);
        done(0)
    }

    fn run(&mut self, slot: u64) -> Tested<Answer> {
        let slot = self.live_slot(slot)?;
        let guest = self.guest(slot);
        self.set_guest(slot, Guest { run: true, ..guest });
        done(0)
    }

    fn remove(&mut self, slot: u64) -> Tested<Answer> {
        self.test_tables()?;
        let slot = self.live_slot(slot)?;
        let row: Vec<Granule> = (0..self.width()).map(|g| self.granule(slot, g)).collect();
        test(!row.contains(&Granule::Damaged), verdict(6))?;
        let mut frames = 0;
        for granule in row {
            if let Granule::Private(frame) | Granule::Shared(frame) = granule {
                self.frames[frame] = WAITING;
                frames += 1;
            }
        }
        let width = self.width();
        self.map[slot * width..][..width].fill(VACANT);
        self.records[slot * RECORD..][..RECORD].fill(0);
        done(frames)
    }

    fn cleared(&mut self, frame: u64) -> Tested<Answer> {
        self.test_tables()?;
        let frame = self.frame_number(frame)?;
        test(self.frame(frame) != Frame::Damaged, verdict(6))?;
        test(self.frame(frame) == Frame::Waiting, verdict(8))?;
        self.frames[frame] = HOST;
        done(0)
    }

    fn access(&self, frame: u64) -> Tested<Answer> {
        self.test_tables()?;
        let frame = self.frame_number(frame)?;
        match self.frame(frame) {
            Frame::Damaged => Err(verdict(6)),
            Frame::Host | Frame::Shared(..) => done(1),
            Frame::Waiting | Frame::Private(..) => done(0),
        }
    }

    /// Takes the map table alone, and looks at no word of it.
    fn show(&self, slot: u64, part: &mut [u64; 2]) -> Tested<Answer> {
        self.test_map()?;
        let slot = self.live_slot(slot)?;
        *part = [slot * self.width(), self.width()].map(|words| words as u64);
        done(0)
    }

    fn register_read(&self, slot: u64, reg: u64) -> Tested<Answer> {
        let slot = self.live_slot(slot)?;
        test(reg <= 2, register_refused(ENOENT))?;
        done(self.guest(slot).bitmaps[reg as usize])
    }

    fn register_write(&mut self, slot: u64, reg: u64, value: u64) -> Tested<Answer> {
        let slot = self.live_slot(slot)?;
        let mut guest = self.guest(slot);
        test(reg <= 2, register_refused(ENOENT))?;
        let outside = value & !LIMITS[reg as usize];
        test(outside == 0, register_refused(EINVAL))?;
        test(!guest.run, register_refused(EBUSY))?;
        guest.bitmaps[reg as usize] = value;
        self.set_guest(slot, guest);
        done(0)
    }
}

/// Guest calls.
impl Memory {
    fn hypercall(&mut self, slot: u64, registers: [u64; 4]) -> Tested<Answer> {
        self.test_tables()?;
        let slot = self.run_slot(slot)?;
        match self.guest(slot).legacy {
            true => self.legacy_call(slot, registers),
            false => self.ranged_call(slot, registers),
        }
    }

    /// The table of document 01.
    fn ranged_call(&mut self, slot: usize, registers: [u64; 4]) -> Tested<Answer> {
        let guest = self.guest(slot);
        test_registers(guest, registers)?;
        let [r0, base, count, _] = registers;
        match r0 as u32 {
            0x8600_0000 => Ok([10, 0xFFD, 0, 0, 0]),
            0x8600_FF01 => Ok(UID),
            0xC600_0002 | 0xC600_0005 => Ok([10, 4096, 1, 0, 0]),
            // "Count 0 means 1 for share and unshare."
            0xC600_0003 => self.range(slot, Change::Share, base, count.max(1), IP),
            0xC600_0004 => self.range(slot, Change::Unshare, base, count.max(1), IP),
            0xC600_0006 => {
                let enrolled = true;
                self.set_guest(slot, Guest { enrolled, ..guest });
                Ok([10, 0, 0, 0, 0])
            }
            0xC600_0007 => self.single(slot, Change::GuardMap, base, NS),
            0xC600_0008 => self.single(slot, Change::GuardUnmap, base, NS),
            0xC600_0009 => self.single(slot, Change::Relinquish, base, IP),
            0xC600_000A => self.range(slot, Change::GuardMap, base, count, NS),
            0xC600_000B => self.range(slot, Change::GuardUnmap, base, count, NS),
            _ => Err(guest_refused(NS)),
        }
    }

    /// The table of a guest that knows no ranges. "Calls 5, 6, 8, 10 and 11
    /// answer −1; features answers 0x29D."
    fn legacy_call(&mut self, slot: usize, [r0, r1, r2, r3]: [u64; 4]) -> Tested<Answer> {
        let vendor = self.guest(slot).bitmaps[2] & 1 == 1;
        let all_zero = [r1, r2, r3] == [0, 0, 0];
        let one_granule = r1 % GRANULE_BYTES == 0 && [r2, r3] == [0, 0];
        match r0 as u32 {
            0x8600_0000 if vendor => Ok([10, 0x29D, 0, 0, 0]),
            0x8600_FF01 if vendor => Ok(UID),
            0xC600_0002 if all_zero => Ok([10, 4096, 0, 0, 0]),
            0xC600_0003 if one_granule => self.single(slot, Change::Share, r1, IP),
            0xC600_0004 if one_granule => self.single(slot, Change::Unshare, r1, IP),
            0xC600_0007 if one_granule => self.single(slot, Change::GuardMap, r1, IP),
            0xC600_0009 if one_granule => self.single(slot, Change::Relinquish, r1, IP),
            0xC600_0002..=0xC600_0004 | 0xC600_0007 | 0xC600_0009 => Err(guest_refused(IP)),
            _ => Err(guest_refused(NS)),
        }
    }

    /// "Each stops after 64 granules, at the count, or before the first granule
    /// that can't be done." R1 is the number of granules changed.
    fn range(
        &mut self,
        slot: usize,
        change: Change,
        base: u64,
        count: u64,
        error: i64,
    ) -> Tested<Answer> {
        let mut changed = 0;
        while changed < 64 && changed < count {
            match self.step(slot, change, base / GRANULE_BYTES + changed, error) {
                Ok(()) => changed += 1,
                Err(refusal) if changed == 0 => return Err(refusal),
                Err(_) => break,
            }
        }
        Ok([10, 0, changed, 0, 0])
    }

    /// A call of one granule, whose answer names no R1.
    fn single(&mut self, slot: usize, change: Change, base: u64, error: i64) -> Tested<Answer> {
        self.step(slot, change, base / GRANULE_BYTES, error)?;
        Ok([10, 0, 0, 0, 0])
    }

    /// One granule: it is below W, then not damaged, then of the kind needed.
    fn step(&mut self, slot: usize, change: Change, granule: u64, error: i64) -> Tested<()> {
        let cannot_be_done = guest_refused(error);
        test(granule < self.width() as u64, cannot_be_done)?;
        let granule = granule as usize;
        let word = slot * self.width() + granule;
        match (change, self.granule(slot, granule)) {
            (_, Granule::Damaged) => return Err(verdict(6)),
            (Change::Share, Granule::Private(frame)) => {
                self.map[word] = SHARED + frame as u32;
                self.frames[frame] = owned(slot, 1, granule);
            }
            (Change::Unshare, Granule::Shared(frame)) => {
                self.map[word] = PRIVATE + frame as u32;
                self.frames[frame] = owned(slot, 0, granule);
            }
            (Change::GuardMap, Granule::Vacant) => self.map[word] = GUARDED,
            (Change::GuardUnmap, Granule::Guarded) => self.map[word] = VACANT,
            (Change::Relinquish, Granule::Private(frame)) => {
                self.map[word] = VACANT;
                self.frames[frame] = WAITING;
            }
            _ => return Err(cannot_be_done),
        }
        Ok(())
    }

    fn abort(&self, slot: u64, ipa: u64) -> Tested<Answer> {
        self.test_tables()?;
        let slot = self.run_slot(slot)?;
        let granule = ipa / GRANULE_BYTES;
        let found = if granule < self.width() as u64 {
            self.granule(slot, granule as usize)
        } else {
            Granule::Vacant
        };
        match found {
            Granule::Damaged => Err(verdict(6)),
            Granule::Private(_) | Granule::Shared(_) => Ok(verdict(13)),
            Granule::Vacant if self.guest(slot).enrolled => Ok(verdict(12)),
            Granule::Vacant | Granule::Guarded => Ok([11, ipa, 0, 0, 0]),
        }
    }
}

/// "Registers, then enrolment, are tested before any granule." These are a
/// ranged guest's.
fn test_registers(guest: Guest, [r0, r1, r2, r3]: [u64; 4]) -> Tested<()> {
    let vendor = guest.bitmaps[2] & 1 == 1;
    let zero = r1 == 0 && r2 == 0 && r3 == 0;
    let aligned = r1 % GRANULE_BYTES == 0;
    match r0 as u32 {
        0x8600_0000 | 0x8600_FF01 => test(vendor, guest_refused(NS)),
        0xC600_0002 => test(zero, guest_refused(IP)),
        0xC600_0003 | 0xC600_0004 => test(aligned && r3 == 0, guest_refused(IP)),
        0xC600_0005 => test(zero, guest_refused(NS)),
        0xC600_0006 => Ok(()),
        0xC600_0007 | 0xC600_0008 => test(aligned && guest.enrolled, guest_refused(NS)),
        0xC600_0009 => test(aligned && r2 == 0 && r3 == 0, guest_refused(IP)),
        0xC600_000A | 0xC600_000B => {
            test(aligned && r2 != 0, guest_refused(NS))?;
            test(guest.enrolled, guest_refused(NS))
        }
        _ => Err(guest_refused(NS)),
    }
}
