//! Clundip's calls for Rust: the deciding part of a hypervisor for protected
//! guests, by the rules of document 01, as functions over slices.
//!
//! Use it with `#[path = "../include/clundip.rs"] mod clundip;` and name the
//! directory of `libembed.a` to rustc with `-L`.
//!
//! Records and tables are all zero at first. Any contents and any numbers are
//! answered, and a call that refuses changes no word.
//!
//! Units: a frame and a granule are numbers, counted from 0, of 4,096 bytes
//! each. An IPA is an address in the guest's address space, in bytes. A slot
//! is 0 to 7. The frame table has a word for each frame, 1 to 16,384; the map
//! table has eight rows of 1 to 4,096 words, a word for each granule of a slot.

#![allow(dead_code)]

/// Words of all records: eight of six words each, which are live, run,
/// enrolled (flags) and STD, STD_HYP, VENDOR_HYP (bitmaps).
pub const RECORD_WORDS: usize = 48;

/// The guest records, slot 0 first.
pub type Records = [u64; RECORD_WORDS];

/// What a call answers: a verdict, and values that the verdict gives a meaning.
/// Its five words in this order are what the library writes.
#[derive(Clone, Copy, Debug, PartialEq, Eq)]
#[repr(C)]
pub struct Answer {
    pub verdict: u64,
    pub v0: u64,
    pub v1: u64,
    pub v2: u64,
    pub v3: u64,
}

/// Verdicts. Values that are not named are zero.
pub mod verdict {
    /// A host call is done.
    pub const DONE: u64 = 0;
    /// A table's length is out of bounds.
    pub const BAD_LENGTH: u64 = 1;
    /// The slot is above 7, or no guest is live in it.
    pub const NO_GUEST: u64 = 2;
    /// A hypercall or an abort of a guest that was never run.
    pub const NEVER_RUN: u64 = 3;
    /// A frame is not in the frame table, or a donated granule not in the row.
    pub const OUT_OF_RANGE: u64 = 4;
    /// Donate: the frame is not the host's, or the granule is not vacant.
    pub const IN_USE: u64 = 5;
    /// A word that the call must look at is damaged.
    pub const DAMAGED: u64 = 6;
    /// Create: all eight slots are live.
    pub const NO_FREE_SLOT: u64 = 7;
    /// Cleared: the frame does not wait to be cleared.
    pub const NOT_WAITING: u64 = 8;
    /// A firmware register is refused; v0 is -2, -22 or -16 as 64 bits.
    pub const REGISTER_REFUSED: u64 = 9;
    /// Return to the guest; v0 to v3 are its registers R0 to R3.
    pub const RETURN: u64 = 10;
    /// The host is to emulate an access; v0 is the IPA in bytes.
    pub const MMIO_EXIT: u64 = 11;
    /// The guest gets an exception.
    pub const EXCEPTION: u64 = 12;
    /// The guest resumes.
    pub const RESUME: u64 = 13;
}

/// Guest function numbers: the low 32 bits of R0. A base is an IPA in bytes,
/// a count a number of granules.
pub mod function {
    pub const FEATURES: u64 = 0x8600_0000;
    pub const UID: u64 = 0x8600_FF01;
    pub const MEMORY_INFO: u64 = 0xC600_0002;
    /// R1 base, R2 count.
    pub const SHARE: u64 = 0xC600_0003;
    /// R1 base, R2 count.
    pub const UNSHARE: u64 = 0xC600_0004;
    pub const GUARD_INFO: u64 = 0xC600_0005;
    pub const ENROLL: u64 = 0xC600_0006;
    /// R1 base.
    pub const GUARD_MAP: u64 = 0xC600_0007;
    /// R1 base.
    pub const GUARD_UNMAP: u64 = 0xC600_0008;
    /// R1 base.
    pub const RELINQUISH: u64 = 0xC600_0009;
    /// R1 base, R2 count.
    pub const RANGE_GUARD_MAP: u64 = 0xC600_000A;
    /// R1 base, R2 count.
    pub const RANGE_GUARD_UNMAP: u64 = 0xC600_000B;
}

/// What lent words hold before a call that writes them all; one that it did
/// not write would show.
const UNWRITTEN: u64 = 0x5555_5555_5555_5555;

#[link(name = "embed", kind = "static")]
unsafe extern "C" {
    fn clundip_create(
        records: *mut Records,
        frames: *mut u32,
        frame_words: usize,
        map: *mut u32,
        map_words: usize,
        answer: *mut Answer,
    );
    fn clundip_donate(
        records: *mut Records,
        frames: *mut u32,
        frame_words: usize,
        map: *mut u32,
        map_words: usize,
        slot: u64,
        frame: u64,
        granule: u64,
        answer: *mut Answer,
    );
    fn clundip_run(records: *mut Records, slot: u64, answer: *mut Answer);
    fn clundip_remove(
        records: *mut Records,
        frames: *mut u32,
        frame_words: usize,
        map: *mut u32,
        map_words: usize,
        slot: u64,
        answer: *mut Answer,
    );
    fn clundip_cleared(
        frames: *mut u32,
        frame_words: usize,
        map: *const u32,
        map_words: usize,
        frame: u64,
        answer: *mut Answer,
    );
    fn clundip_access(
        frames: *const u32,
        frame_words: usize,
        map: *const u32,
        map_words: usize,
        frame: u64,
        answer: *mut Answer,
    );
    fn clundip_show(
        records: *const Records,
        map: *const u32,
        map_words: usize,
        slot: u64,
        part: *mut [u64; 2],
        answer: *mut Answer,
    );
    fn clundip_register_read(records: *const Records, slot: u64, reg: u64, answer: *mut Answer);
    fn clundip_register_write(
        records: *mut Records,
        slot: u64,
        reg: u64,
        value: u64,
        answer: *mut Answer,
    );
    fn clundip_hypercall(
        records: *mut Records,
        frames: *mut u32,
        frame_words: usize,
        map: *mut u32,
        map_words: usize,
        slot: u64,
        r0: u64,
        r1: u64,
        r2: u64,
        r3: u64,
        answer: *mut Answer,
    );
    fn clundip_abort(
        records: *const Records,
        frames: *const u32,
        frame_words: usize,
        map: *const u32,
        map_words: usize,
        slot: u64,
        ipa: u64,
        answer: *mut Answer,
    );
}

// SAFETY, for all calls below: each area is lent for one call, with the length
// that it has, and to write only where it is borrowed so.

/// Lends an answer to a call.
fn answered(call: impl FnOnce(&mut Answer)) -> Answer {
    let mut answer = Answer {
        verdict: UNWRITTEN,
        v0: UNWRITTEN,
        v1: UNWRITTEN,
        v2: UNWRITTEN,
        v3: UNWRITTEN,
    };
    call(&mut answer);
    answer
}

/// Makes a guest in the lowest slot that isn't live. v0 is the slot.
/// Verdicts 0, 1, 6, 7.
pub fn create(records: &mut Records, frames: &mut [u32], map: &mut [u32]) -> Answer {
    answered(|answer| unsafe {
        clundip_create(
            records,
            frames.as_mut_ptr(),
            frames.len(),
            map.as_mut_ptr(),
            map.len(),
            answer,
        )
    })
}

/// Gives a host's frame (a frame number) to a vacant granule (a granule
/// number) of the guest, as private. Verdicts 0, 1, 2, 4, 5, 6.
pub fn donate(
    records: &mut Records,
    frames: &mut [u32],
    map: &mut [u32],
    slot: u64,
    frame: u64,
    granule: u64,
) -> Answer {
    answered(|answer| unsafe {
        clundip_donate(
            records,
            frames.as_mut_ptr(),
            frames.len(),
            map.as_mut_ptr(),
            map.len(),
            slot,
            frame,
            granule,
            answer,
        )
    })
}

/// Marks the guest as run. Verdicts 0, 2.
pub fn run(records: &mut Records, slot: u64) -> Answer {
    answered(|answer| unsafe { clundip_run(records, slot, answer) })
}

/// Takes the guest away; its frames wait to be cleared. v0 is the number of
/// these frames. Verdicts 0, 1, 2, 6.
pub fn remove(records: &mut Records, frames: &mut [u32], map: &mut [u32], slot: u64) -> Answer {
    answered(|answer| unsafe {
        clundip_remove(
            records,
            frames.as_mut_ptr(),
            frames.len(),
            map.as_mut_ptr(),
            map.len(),
            slot,
            answer,
        )
    })
}

/// Makes a waiting frame (a frame number), whose memory is cleared now, the
/// host's. Verdicts 0, 1, 4, 6, 8.
pub fn cleared(frames: &mut [u32], map: &[u32], frame: u64) -> Answer {
    answered(|answer| unsafe {
        clundip_cleared(
            frames.as_mut_ptr(),
            frames.len(),
            map.as_ptr(),
            map.len(),
            frame,
            answer,
        )
    })
}

/// May the host access this frame (a frame number)? v0 is 1 if so, else 0.
/// Verdicts 0, 1, 4, 6.
pub fn access(frames: &[u32], map: &[u32], frame: u64) -> Answer {
    answered(|answer| unsafe {
        clundip_access(
            frames.as_ptr(),
            frames.len(),
            map.as_ptr(),
            map.len(),
            frame,
            answer,
        )
    })
}

/// Shows the guest's row, damaged or not: that part of the map table itself, a
/// word for each granule. It is empty if the call is refused. Verdicts 0, 1, 2.
pub fn show<'a>(records: &Records, map: &'a [u32], slot: u64) -> (Answer, &'a [u32]) {
    let mut part = [UNWRITTEN; 2];
    let answer = answered(|answer| unsafe {
        clundip_show(records, map.as_ptr(), map.len(), slot, &mut part, answer)
    });
    let [begin, length] = part.map(|words| words as usize);
    (answer, &map[begin..][..length])
}

/// Reads firmware register `reg` (0 STD, 1 STD_HYP, 2 VENDOR_HYP). v0 is the
/// bitmap. Verdicts 0, 2, 9.
pub fn register_read(records: &Records, slot: u64, reg: u64) -> Answer {
    answered(|answer| unsafe { clundip_register_read(records, slot, reg, answer) })
}

/// Writes firmware register `reg` (0 STD, 1 STD_HYP, 2 VENDOR_HYP) of a guest
/// that was never run. Verdicts 0, 2, 9.
pub fn register_write(records: &mut Records, slot: u64, reg: u64, value: u64) -> Answer {
    answered(|answer| unsafe { clundip_register_write(records, slot, reg, value, answer) })
}

/// A hypercall of the guest with its registers R0 to R3. Verdicts 1, 2, 3, 6, 10.
pub fn hypercall(
    records: &mut Records,
    frames: &mut [u32],
    map: &mut [u32],
    slot: u64,
    registers: [u64; 4],
) -> Answer {
    let [r0, r1, r2, r3] = registers;
    answered(|answer| unsafe {
        clundip_hypercall(
            records,
            frames.as_mut_ptr(),
            frames.len(),
            map.as_mut_ptr(),
            map.len(),
            slot,
            r0,
            r1,
            r2,
            r3,
            answer,
        )
    })
}

/// A stage 2 abort of the guest at any IPA, in bytes.
/// Verdicts 1, 2, 3, 6, 11, 12, 13.
pub fn abort(records: &Records, frames: &[u32], map: &[u32], slot: u64, ipa: u64) -> Answer {
    answered(|answer| unsafe {
        clundip_abort(
            records,
            frames.as_ptr(),
            frames.len(),
            map.as_ptr(),
            map.len(),
            slot,
            ipa,
            answer,
        )
    })
}
