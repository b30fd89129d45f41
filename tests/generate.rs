//! Random tables, records and calls, drawn so that every verdict comes often.

use crate::model::{BITMAPS, Call, Memory, RECORD, SLOT_CALLS, perform};

const SLOTS: u64 = 8;
const GRANULE_BYTES: u64 = 4096;

const SHARE: u64 = 0xC600_0003;
const ENROLL: u64 = 0xC600_0006;
const GUARD_MAP: u64 = 0xC600_0007;

/// The function numbers of document 01, those that change granules more often.
#[rustfmt::skip]
const FUNCTIONS: [u64; 19] = [
    0x8600_0000, 0x8600_FF01, 0xC600_0002, 0xC600_0005, 0xC600_0006, 0xC600_0007, 0xC600_0008,
    0xC600_0003, 0xC600_0003, 0xC600_0003, 0xC600_0004, 0xC600_0004, 0xC600_0004,
    0xC600_0009, 0xC600_0009, 0xC600_000A, 0xC600_000A, 0xC600_000B, 0xC600_000B,
];

/// Numbers that belong to no call.
#[rustfmt::skip]
const UNKNOWN: [u64; 14] = [
    0, 3, 0x4600_0003, 0x8000_0000, 0x8600_0001, 0x8600_0003, 0x8600_FF00, 0x8600_FF02,
    0x8600_FF03, 0xC600_0000, 0xC600_0001, 0xC600_000C, 0xC600_FF01, 0xC700_0003,
];

const ODD_FLAGS: [u64; 6] = [2, 7, 1 << 31, 1 << 32, 1 << 63, u64::MAX];
const BITMAP_VALUES: [u64; 8] = [0, 0, 1, 1, 2, 3, 1 << 32, u64::MAX];

/// A small generator of random numbers (splitmix64).
pub struct Random(u64);

impl Random {
    pub fn new(seed: u64) -> Random {
        Random(seed)
    }

    fn number(&mut self) -> u64 {
        self.0 = self.0.wrapping_add(0x9E37_79B9_7F4A_7C15);
        let mut z = self.0;
        z = (z ^ (z >> 30)).wrapping_mul(0xBF58_476D_1CE4_E5B9);
        z = (z ^ (z >> 27)).wrapping_mul(0x94D0_49BB_1331_11EB);
        z ^ (z >> 31)
    }

    /// 0 to `bound` - 1, and 0 if there is no such number.
    fn below(&mut self, bound: u64) -> u64 {
        self.number() % bound.max(1)
    }

    pub fn within(&mut self, low: u64, high: u64) -> u64 {
        low + self.below(high - low + 1)
    }

    fn one_in(&mut self, times: u64) -> bool {
        self.below(times) == 0
    }

    pub fn pick<T: Copy>(&mut self, items: &[T]) -> T {
        items[self.below(items.len() as u64) as usize]
    }

    /// From a random number below `bound` on, and round, the first wanted one.
    fn wanted(&mut self, bound: u64, wanted: impl Fn(usize) -> bool) -> u64 {
        let start = self.below(bound);
        let mut round = (start..bound).chain(0..start).take(200);
        let found = round.find(|&number| wanted(number as usize));
        found.unwrap_or(start)
    }
}

/// Sorts of memories.
#[derive(Clone, Copy, Debug)]
pub enum Sort {
    /// Made by a history of calls from fresh tables.
    Sound,
    /// Such a history, and then one to three words changed.
    NearlySound,
    /// Each word drawn from well-formed and ill-formed ones.
    Damaged,
    /// A table of a length out of bounds.
    WronglySized,
}

pub const SORTS: [Sort; 4] = [
    Sort::Sound,
    Sort::NearlySound,
    Sort::Damaged,
    Sort::WronglySized,
];

pub fn memory(random: &mut Random, sort: Sort) -> Memory {
    match sort {
        Sort::Sound => sound(random),
        Sort::NearlySound => nearly_sound(random),
        Sort::Damaged => damaged(random),
        Sort::WronglySized => wrongly_sized(random),
    }
}

/// F and W, mostly small; some have room for ranges of more than 64 granules.
fn sizes(random: &mut Random) -> (u64, u64) {
    let few = (random.within(1, 6), random.within(1, 6));
    let some = (random.within(1, 40), random.within(1, 80));
    match random.below(100) {
        0 => (16_384, 4096),
        1 => (16_384, some.1),
        2 => (some.0, 4096),
        3..=24 => (random.within(66, 160), random.within(65, 80)),
        25..=59 => few,
        _ => some,
    }
}

fn fresh(random: &mut Random) -> Memory {
    let (frames, width) = sizes(random);
    Memory {
        records: [0; SLOTS as usize * RECORD],
        frames: vec![0; frames as usize],
        map: vec![0; (SLOTS * width) as usize],
    }
}

fn row_width(memory: &Memory) -> u64 {
    memory.map.len() as u64 / SLOTS
}

fn sound(random: &mut Random) -> Memory {
    let mut memory = fresh(random);
    for slot in 0..random.pick(&[1, 1, 2, 3, 5, 8]) {
        let legacy = random.one_in(2);
        perform(&mut memory, Call::Create { legacy });
        if random.one_in(4) {
            let (reg, value) = (2, 0);
            perform(&mut memory, Call::RegisterWrite { slot, reg, value });
        }
        if !random.one_in(8) {
            perform(&mut memory, Call::Run { slot });
        }
        if !random.one_in(3) {
            guest_call(&mut memory, slot, ENROLL, 0);
        }
        if !random.one_in(6) {
            fill_row(random, &mut memory, slot);
        }
    }
    for _ in 0..random.pick(&[0, 0, 3, 10, 30]) {
        let call = call(random, &memory);
        perform(&mut memory, call);
    }
    memory
}

fn guest_call(memory: &mut Memory, slot: u64, function: u64, granule: u64) {
    let registers = [function, granule * GRANULE_BYTES, 0, 0];
    perform(memory, Call::Hypercall { slot, registers });
}

/// Stretches of vacant, private, shared and guarded granules, by calls.
fn fill_row(random: &mut Random, memory: &mut Memory, slot: u64) {
    let frames = memory.frames.len() as u64;
    let mut frame = random.below(frames);
    let mut granule = random.pick(&[0, 0, row_width(memory).saturating_sub(80)]);
    let lengths: &[u64] = random.pick(&[&[80], &[80], &[1, 2, 3, 10, 1, 2, 3, 40]]);
    for &length in lengths {
        let kind = random.within(u64::from(length == 80), 3);
        for _ in 0..length {
            if kind == 1 || kind == 2 {
                donate_and_share(memory, [slot, frame, granule], kind == 2);
                frame = (frame + 1) % frames;
            }
            if kind == 3 {
                guest_call(memory, slot, GUARD_MAP, granule);
            }
            granule += 1;
        }
    }
}

#[rustfmt::skip]
fn donate_and_share(memory: &mut Memory, [slot, frame, granule]: [u64; 3], share: bool) {
    perform(memory, Call::Donate { slot, frame, granule });
    if share {
        guest_call(memory, slot, SHARE, granule);
    }
}

fn nearly_sound(random: &mut Random) -> Memory {
    let mut memory = sound(random);
    let Memory { frames, map, .. } = &memory;
    let (f, w) = (frames.len() as u64, map.len() as u64 / SLOTS);
    for _ in 0..random.within(1, 3) {
        match random.below(8) {
            0..=2 => {
                let drawn = map_word(random, f);
                change_word(random, &mut memory.map, drawn);
            }
            3..=5 => {
                let drawn = frame_word(random, w);
                change_word(random, &mut memory.frames, drawn);
            }
            6 => change_flag(random, &mut memory),
            _ => {
                let record = random.below(SLOTS) as usize * RECORD;
                let bitmap = record + BITMAPS + random.below(3) as usize;
                memory.records[bitmap] = random.pick(&BITMAP_VALUES);
            }
        }
    }
    memory
}

/// Changes one word, preferably not zero: to one near it, by a swap, to that of
/// its neighbour, or to a drawn one.
fn change_word(random: &mut Random, words: &mut [u32], drawn: u32) {
    let length = words.len() as u64;
    let word = random.wanted(length, |word| words[word] != 0) as usize;
    let neighbour = (word + 1) % words.len();
    match random.below(8) {
        0..=3 => words[word] = near(random, words[word]),
        4 => words.swap(word, neighbour),
        5 => words.swap(word, random.below(length) as usize),
        6 => words[word] = words[neighbour],
        _ => words[word] = drawn,
    }
}

/// A word with another bit or byte.
fn near(random: &mut Random, word: u32) -> u32 {
    match random.below(3) {
        0 => word ^ 1 << random.below(32),
        1 => word ^ 1 << random.pick(&[0, 1, 16, 17, 24, 30, 31]),
        _ => {
            let shift = 8 * random.below(4);
            let byte: u32 = random.pick(&[0, 1, 2, 3, 8, 9, 0x40, 0xFF]);
            word & !(0xFF << shift) | byte << shift
        }
    }
}

/// A flag that is set becomes an odd word, or one that is clear is set.
fn change_flag(random: &mut Random, memory: &mut Memory) {
    let flag = random.below(SLOTS) as usize * RECORD + random.below(BITMAPS as u64) as usize;
    memory.records[flag] = random.pick(&ODD_FLAGS);
}

fn damaged(random: &mut Random) -> Memory {
    let mut memory = fresh(random);
    let frames = memory.frames.len() as u64;
    let width = row_width(&memory);
    for row in memory.map.chunks_mut(width as usize) {
        let drawn = random.pick(&[0, 0, 1, 4, 8]);
        for word in row {
            if random.below(8) < drawn {
                *word = map_word(random, frames);
            }
        }
    }
    let drawn = random.pick(&[0, 1, 4, 8]);
    for word in &mut memory.frames {
        if random.below(8) < drawn {
            *word = frame_word(random, width);
        }
    }
    for _ in 0..random.below(8) {
        write_pairs(random, &mut memory);
    }
    damage_records(random, &mut memory);
    memory
}

/// A stretch of granules and frames that name each other; sometimes one of the
/// words is changed.
fn write_pairs(random: &mut Random, memory: &mut Memory) {
    let frames = memory.frames.len() as u64;
    let width = row_width(memory);
    let slot = random.below(SLOTS);
    let first_granule = random.below(width);
    let first_frame = random.below(frames);
    let shared = random.below(2) as u32;
    let pairs = random.pick(&[1, 2, 5, 70]);
    for (granule, frame) in (first_granule..width).zip(first_frame..frames).take(pairs) {
        let map_word = &mut memory.map[(slot * width + granule) as usize];
        let frame_word = &mut memory.frames[frame as usize];
        *map_word = ((1 + shared) << 30) + frame as u32;
        *frame_word = owned(slot + 1, shared, granule);
        match random.below(24) {
            0 => *map_word = near(random, *map_word),
            1 => *frame_word = near(random, *frame_word),
            // The same place of the map table, but counted from the row before.
            2 => *frame_word = owned(slot, shared, granule + width),
            3 => *frame_word = owned(slot + 1, random.pick(&[2, 3, 0x81]), granule),
            _ => {}
        }
    }
}

fn owned(owner: u64, shared: u32, granule: u64) -> u32 {
    ((owner as u32) << 24) + (shared << 16) + granule as u32
}

/// A map word, well-formed or not.
fn map_word(random: &mut Random, frames: u64) -> u32 {
    let kind = (random.below(4) as u32) << 30;
    let frame = random.below(frames) as u32;
    match random.below(16) {
        0..=7 => ((random.within(1, 2) as u32) << 30) + frame,
        8 => 0xC000_0000,
        9 => 0,
        10 => kind + frames as u32 + random.below(3) as u32,
        11 => kind + frame + (1 << random.within(14, 29)),
        12 => frame + random.pick(&[0, 1, 0x1_0000]),
        13 => 0xC000_0000 + random.pick(&[1, 3, 0x1_0000, 0x2000_0000]),
        14 => kind + frame + 0x3FFF_0000,
        _ => random.number() as u32,
    }
}

/// A frame word, well-formed or not.
fn frame_word(random: &mut Random, width: u64) -> u32 {
    let owner = random.within(1, SLOTS);
    let granule = random.below(width);
    let shared = random.below(2) as u32;
    match random.below(16) {
        0..=6 => owned(owner, shared, granule),
        7 | 8 => 0xFF00_0000,
        9 => 0,
        10 => owned(owner, shared, width + random.below(3)),
        11 => owned(random.pick(&[0, 9, 16, 0x81, 0xFE]), shared, granule),
        12 => owned(owner, random.pick(&[2, 3, 0x81, 0xFF]), granule),
        13 => 0xFF00_0000 + random.pick(&[1, 0x1_0000, granule as u32]),
        14 => random.pick(&[1, 0x1_0000, 0x00FF_FFFF]),
        _ => random.number() as u32,
    }
}

/// Any flags and bitmaps; now and then all eight are live.
fn damage_records(random: &mut Random, memory: &mut Memory) {
    let all_live = random.one_in(6);
    for record in memory.records.chunks_mut(RECORD) {
        for flag in &mut record[..BITMAPS] {
            *flag = match random.below(3) {
                0 => 0,
                1 => 1,
                _ => random.pick(&ODD_FLAGS),
            };
        }
        for bitmap in &mut record[BITMAPS..] {
            *bitmap = random.pick(&BITMAP_VALUES);
        }
        if all_live && record[0] == 0 {
            record[0] = random.pick(&[1, 7]);
        }
    }
}

fn wrongly_sized(random: &mut Random) -> Memory {
    let mut memory = match random.below(2) {
        0 => sound(random),
        _ => damaged(random),
    };
    let Memory { frames, map, .. } = &mut memory;
    let which = random.below(5);
    if which <= 2 {
        let rows = map.len();
        let length = match random.below(6) {
            0 => random.pick(&[32_769, 32_775, 32_776, 32_784, 65_536]),
            _ => random.pick(&[0, 1, 4, 7, 9, rows - 1, rows + 1, rows + 4, rows + 7]),
        };
        map.resize(length, random.pick(&[0, 0xC000_0000]));
    }
    if which >= 2 {
        let length = match random.below(6) {
            0 => random.pick(&[16_385, 16_386, 32_768]),
            _ => 0,
        };
        frames.resize(length, 0);
    }
    memory
}

/// A call whose arguments fit the memory mostly.
pub fn call(random: &mut Random, memory: &Memory) -> Call {
    let slot = slot(random, |slot| is_live(memory, slot));
    let none_live = (0..SLOTS as usize).all(|slot| !is_live(memory, slot));
    let legacy = random.one_in(2);
    if none_live && random.one_in(2) {
        return Call::Create { legacy };
    }
    match random.below(100) {
        0..=6 => Call::Create { legacy },
        7..=17 => donate(random, memory, slot),
        18..=29 => random.pick(&SLOT_CALLS)(slot),
        30..=36 => {
            let frame = frame(random, memory, |word| word == 0xFF00_0000);
            Call::Cleared { frame }
        }
        37..=43 => {
            let frame = frame(random, memory, |word| word != 0);
            Call::Access { frame }
        }
        44..=47 => {
            let reg = register(random);
            Call::RegisterRead { slot, reg }
        }
        48..=53 => register_write(random, memory),
        54..=90 => hypercall(random, memory),
        _ => abort(random, memory),
    }
}

/// Mostly a wanted slot, sometimes one that does not exist.
fn slot(random: &mut Random, wanted: impl Fn(usize) -> bool) -> u64 {
    let low = random.below(SLOTS);
    match random.below(24) {
        0 => random.pick(&[8, 9, 255, 256 + low, (1 << 32) + low, 1 << 63, u64::MAX]),
        1 | 2 => low,
        _ => random.wanted(SLOTS, wanted),
    }
}

fn is_live(memory: &Memory, slot: usize) -> bool {
    memory.records[slot * RECORD] != 0
}

fn is_legacy(memory: &Memory, slot: usize) -> bool {
    memory.records[slot * RECORD + 1] != 0
}

fn is_run(memory: &Memory, slot: usize) -> bool {
    is_live(memory, slot) && memory.records[slot * RECORD + 2] != 0
}

/// Mostly the slot of a guest that was run, with a word of this kind in its
/// row if there is one.
fn run_slot(random: &mut Random, memory: &Memory, kind: u32) -> u64 {
    let width = row_width(memory) as usize;
    let fits = |slot: usize| {
        let row = &memory.map[slot * width..][..width];
        is_run(memory, slot) && row.iter().any(|word| word >> 30 == kind)
    };
    let any = (0..SLOTS as usize).any(fits);
    slot(random, |slot| fits(slot) || (!any && is_run(memory, slot)))
}

fn register_write(random: &mut Random, memory: &Memory) -> Call {
    let run = random.one_in(3);
    let slot = slot(random, |slot| {
        is_live(memory, slot) && is_run(memory, slot) == run
    });
    let reg = register(random);
    let value = random.pick(&BITMAP_VALUES);
    Call::RegisterWrite { slot, reg, value }
}

fn abort(random: &mut Random, memory: &Memory) -> Call {
    let kind = random.below(4) as u32;
    let slot = run_slot(random, memory, kind);
    let ipa = base(random, memory, slot, kind) + random.below(GRANULE_BYTES);
    Call::Abort { slot, ipa }
}

#[rustfmt::skip]
fn donate(random: &mut Random, memory: &Memory, slot: u64) -> Call {
    let frame = frame(random, memory, |word| word == 0);
    let granule = match random.below(24) {
        0 => random.pick(&[1 << 52, 1 << 63, u64::MAX]),
        _ => granule(random, memory, slot, |word| word == 0),
    };
    Call::Donate { slot, frame, granule }
}

/// A frame, mostly one with a wanted word, sometimes about the bounds.
fn frame(random: &mut Random, memory: &Memory, wanted: impl Fn(u32) -> bool) -> u64 {
    let frames = memory.frames.len() as u64;
    let low = random.below(frames);
    match random.below(16) {
        0 => frames + random.pick(&[0, 1, 1 << 16, 1 << 32]),
        1 => random.pick(&[low + (1 << 16), low + (1 << 32), u64::MAX]),
        2 => frames.saturating_sub(1),
        3 | 4 => low,
        _ => random.wanted(frames, |frame| wanted(memory.frames[frame])),
    }
}

/// A granule, mostly one with a wanted word, sometimes about the row's end.
fn granule(random: &mut Random, memory: &Memory, slot: u64, wanted: impl Fn(u32) -> bool) -> u64 {
    let width = row_width(memory);
    let row = (slot % SLOTS * width) as usize;
    let low = random.below(width);
    match random.below(20) {
        0 => low + random.pick(&[width, 1 << 16, 1 << 32, 1 << 51]),
        1 => random.pick(&[width, width + 1, (1 << 52) - 1, (1 << 52) - 2]),
        2 => width.saturating_sub(random.within(1, 3)),
        3..=5 => low,
        _ => random.wanted(width, |granule| wanted(memory.map[row + granule])),
    }
}

/// The address of a granule, mostly of this kind; sometimes that of the first
/// one of a stretch.
fn base(random: &mut Random, memory: &Memory, slot: u64, kind: u32) -> u64 {
    let width = row_width(memory);
    let row = slot % SLOTS * width;
    let mut granule = granule(random, memory, slot, |word| word >> 30 == kind);
    if granule < width && random.one_in(2) {
        let kind = |granule: u64| memory.map[(row + granule) as usize] >> 30;
        while granule > 0 && kind(granule - 1) == kind(granule) {
            granule -= 1;
        }
    }
    granule * GRANULE_BYTES
}

fn register(random: &mut Random) -> u64 {
    let low = random.below(3);
    match random.below(8) {
        0 => random.pick(&[3, 4, 256 + low, (1 << 32) + low, u64::MAX]),
        _ => low,
    }
}

fn hypercall(random: &mut Random, memory: &Memory) -> Call {
    let function = match random.below(16) {
        0 => random.pick(&UNKNOWN),
        1 => random.number() & 0xFFFF_FFFF,
        _ => random.pick(&FUNCTIONS),
    };
    let kind = kind_needed(function);
    let slot = run_slot(random, memory, kind);
    let mut base = base(random, memory, slot, kind);
    if random.one_in(16) {
        base += random.pick(&[1, 8, 0x800, 0xFFF]);
    }
    let count = count(random, row_width(memory));
    let upper = random.number() << 32;
    let upper = random.pick(&[0, 0, 1 << 32, upper]);
    let mut registers = [function + upper, base, count, 0];
    if !random.one_in(8) {
        let legacy = is_legacy(memory, (slot % SLOTS) as usize);
        registers[zero_from(function, legacy)..].fill(0);
    }
    if random.one_in(12) {
        registers[3] = random.pick(&[1, 1 << 32, u64::MAX]);
    }
    Call::Hypercall { slot, registers }
}

/// The kind that a granule must have, in the top two bits of its word.
fn kind_needed(function: u64) -> u32 {
    match function {
        0xC600_0003 | 0xC600_0009 => 1,
        0xC600_0004 => 2,
        0xC600_0008 | 0xC600_000B => 3,
        _ => 0,
    }
}

/// The first of the registers that must be zero.
fn zero_from(function: u64, legacy: bool) -> usize {
    match function {
        0xC600_0002 | 0xC600_0005 => 1,
        0xC600_0003 | 0xC600_0004 | 0xC600_0007 if legacy => 2,
        0xC600_0009 => 2,
        0xC600_0003 | 0xC600_0004 => 3,
        _ => 4,
    }
}

/// R2: counts, small and large.
fn count(random: &mut Random, width: u64) -> u64 {
    match random.below(8) {
        0 => 0,
        1 => 1,
        2 | 3 => random.within(2, 10),
        4 => random.pick(&[63, 64, 65, 66]),
        5 => width + random.below(3),
        6 => random.within(64, 100),
        _ => random.pick(&[1 << 16, 1 << 32, (1 << 32) + 1, 1 << 63, u64::MAX]),
    }
}
