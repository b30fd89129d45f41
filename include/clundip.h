/*
 * Clundip's calls for C and C++: the deciding part of a hypervisor for protected guests, by the rules of document 01.
 *
 * CLUNDIP_ABI is the version of the layout of what is lent: it is to be raised with every change of a layout. The
 * symbol of each call ends in _abi and this number, so a program that was compiled for another layout doesn't link; it
 * would overrun its records without a word.
 *
 * The archive is target/staticlib/libembed.a, for x86-64. `tools/staticlib` builds it, examples/link.c uses it, and
 * docs/LINKING.md says how to link it and what is proved.
 *
 * Memory. The caller owns all of it and lends it for one call. The library keeps nothing between calls, allocates
 * nothing, and calls nothing.
 *
 *   records   CLUNDIP_ALL_RECORDS_WORDS words of 64 bits: eight records, slot 0 first, of CLUNDIP_RECORD_WORDS words
 *             each (CLUNDIP_RECORD_...)
 *   frames    the frame table: frame_words words of 32 bits, F in document 01, 1 to 16384
 *   map       the map table: map_words words of 32 bits, 8 * W in document 01, W from 1 to 4096. Slot v's row starts
 *             at word v * W and covers granules 0 to W - 1 of its guest
 *   answer    five words that every call writes: the verdict, v0, v1, v2, v3
 *   part      two words that clundip_show writes
 *
 * Lengths are in words. A table of length 0 may be null, and is refused (verdict 1). No other pointer may be null;
 * each is aligned for its type and has all the words that its length says. The areas lent to one call must not
 * overlap. Calls must not run at the same time on the same records or tables.
 *
 * Records and tables are all zero at first. Any contents and any numbers are answered. A flag of a record (live,
 * legacy, run, enrolled) counts as set if it is not 0.
 *
 * A call that refuses (verdicts 1 to 9, and 10 with R0 = -1 or -3) leaves every word of the records and tables as
 * found. A call that is done and changes a guest's record writes all words of that record, flags as 0 or 1; every
 * other record stays word for word.
 *
 * Units. A frame and a granule are numbers, counted from 0, of 4096 bytes each. An IPA is an address in the guest's
 * address space, in bytes. A slot is 0 to 7. Granule g has the IPAs from g * CLUNDIP_GRANULE_SIZE on.
 */
#ifndef CLUNDIP_H
#define CLUNDIP_H

#include <stddef.h>
#include <stdint.h>

#ifdef __cplusplus
extern "C" {
#endif

/* The version of the layout. Layout 1 had no such name, records of six words, and symbols without a version. */
#define CLUNDIP_ABI 2

/* Bounds of the tables. */
#define CLUNDIP_SLOTS        UINT64_C(8)
#define CLUNDIP_GRANULE_SIZE UINT64_C(4096)  /* bytes */
#define CLUNDIP_MAX_FRAMES   UINT64_C(16384) /* most frames, F: frame_words is F */
#define CLUNDIP_MAX_GRANULES UINT64_C(4096)  /* most granules of a guest, W: map_words is CLUNDIP_SLOTS * W */

/* Words of the lent areas, 64 bits each. */
#define CLUNDIP_RECORD_WORDS      UINT64_C(7)
#define CLUNDIP_ALL_RECORDS_WORDS (CLUNDIP_SLOTS * CLUNDIP_RECORD_WORDS)
#define CLUNDIP_ANSWER_WORDS      UINT64_C(5)
#define CLUNDIP_PART_WORDS        UINT64_C(2)

/* Order in a record: slot v's begins at records[v * CLUNDIP_RECORD_WORDS]. */
#define CLUNDIP_RECORD_LIVE       UINT64_C(0) /* flag */
#define CLUNDIP_RECORD_LEGACY     UINT64_C(1) /* flag: a guest that knows no ranges */
#define CLUNDIP_RECORD_RUN        UINT64_C(2) /* flag */
#define CLUNDIP_RECORD_ENROLLED   UINT64_C(3) /* flag */
#define CLUNDIP_RECORD_STD        UINT64_C(4) /* bitmap */
#define CLUNDIP_RECORD_STD_HYP    UINT64_C(5) /* bitmap */
#define CLUNDIP_RECORD_VENDOR_HYP UINT64_C(6) /* bitmap */

/* Order in an answer. */
#define CLUNDIP_ANSWER_VERDICT UINT64_C(0)
#define CLUNDIP_ANSWER_V0      UINT64_C(1)
#define CLUNDIP_ANSWER_V1      UINT64_C(2)
#define CLUNDIP_ANSWER_V2      UINT64_C(3)
#define CLUNDIP_ANSWER_V3      UINT64_C(4)

/* Order in a part: the row is the words from map + part[0] on, part[1] of them. */
#define CLUNDIP_PART_BEGIN  UINT64_C(0) /* words before it in the map table */
#define CLUNDIP_PART_LENGTH UINT64_C(1) /* words */

/* Verdicts. Values that are not named are zero. */
#define CLUNDIP_VERDICT_DONE             UINT64_C(0)  /* host call done */
#define CLUNDIP_VERDICT_BAD_LENGTH       UINT64_C(1)  /* a table's length is out of bounds */
#define CLUNDIP_VERDICT_NO_GUEST         UINT64_C(2)  /* slot above 7, or not live */
#define CLUNDIP_VERDICT_NEVER_RUN        UINT64_C(3)  /* hypercall or abort of a guest that was never run */
#define CLUNDIP_VERDICT_OUT_OF_RANGE     UINT64_C(4)  /* frame not below F, or donated granule not below W */
#define CLUNDIP_VERDICT_IN_USE           UINT64_C(5)  /* donate: frame not the host's, or granule not vacant */
#define CLUNDIP_VERDICT_DAMAGED          UINT64_C(6)  /* a word that the call must look at is damaged */
#define CLUNDIP_VERDICT_NO_FREE_SLOT     UINT64_C(7)  /* create: all eight slots are live */
#define CLUNDIP_VERDICT_NOT_WAITING      UINT64_C(8)  /* cleared: the frame does not wait to be cleared */
#define CLUNDIP_VERDICT_REGISTER_REFUSED UINT64_C(9)  /* firmware register refused; v0 is -2, -22 or -16 */
#define CLUNDIP_VERDICT_RETURN           UINT64_C(10) /* return to the guest; v0 to v3 are its R0 to R3 */
#define CLUNDIP_VERDICT_MMIO_EXIT        UINT64_C(11) /* the host emulates an access; v0 is the IPA */
#define CLUNDIP_VERDICT_EXCEPTION        UINT64_C(12) /* the guest gets an exception */
#define CLUNDIP_VERDICT_RESUME           UINT64_C(13) /* the guest resumes */

/* v0 of verdict 9: negative numbers as 64 bits. */
#define CLUNDIP_ENOENT UINT64_C(0xFFFFFFFFFFFFFFFE) /* -2: no such register */
#define CLUNDIP_EINVAL UINT64_C(0xFFFFFFFFFFFFFFEA) /* -22: a bit outside the limit */
#define CLUNDIP_EBUSY  UINT64_C(0xFFFFFFFFFFFFFFF0) /* -16: the guest was run already */

/* R0 of verdict 10 where a guest's call is refused: negative numbers as 64 bits. */
#define CLUNDIP_NOT_SUPPORTED     UINT64_C(0xFFFFFFFFFFFFFFFF) /* -1 */
#define CLUNDIP_INVALID_PARAMETER UINT64_C(0xFFFFFFFFFFFFFFFD) /* -3 */

/* Firmware registers, each a bitmap. No bit outside the limit can be written; the limit is also the first value. */
#define CLUNDIP_REGISTER_STD        UINT64_C(0) /* limit 0 */
#define CLUNDIP_REGISTER_STD_HYP    UINT64_C(1) /* limit 0 */
#define CLUNDIP_REGISTER_VENDOR_HYP UINT64_C(2) /* limit 1 */

/*
 * Guest function numbers: the low 32 bits of R0. A base is an IPA in bytes, a count a number of granules. A legacy
 * guest has no count and sends 0 in its place; calls that are not a legacy guest's answer -1 to it.
 */
#define CLUNDIP_FUNCTION_FEATURES          UINT64_C(0x86000000)
#define CLUNDIP_FUNCTION_UID               UINT64_C(0x8600FF01)
#define CLUNDIP_FUNCTION_MEMORY_INFO       UINT64_C(0xC6000002)
#define CLUNDIP_FUNCTION_SHARE             UINT64_C(0xC6000003) /* R1 base, R2 count */
#define CLUNDIP_FUNCTION_UNSHARE           UINT64_C(0xC6000004) /* R1 base, R2 count */
#define CLUNDIP_FUNCTION_GUARD_INFO        UINT64_C(0xC6000005) /* not a legacy guest's */
#define CLUNDIP_FUNCTION_ENROLL            UINT64_C(0xC6000006) /* not a legacy guest's */
#define CLUNDIP_FUNCTION_GUARD_MAP         UINT64_C(0xC6000007) /* R1 base */
#define CLUNDIP_FUNCTION_GUARD_UNMAP       UINT64_C(0xC6000008) /* R1 base; not a legacy guest's */
#define CLUNDIP_FUNCTION_RELINQUISH        UINT64_C(0xC6000009) /* R1 base */
#define CLUNDIP_FUNCTION_RANGE_GUARD_MAP   UINT64_C(0xC600000A) /* R1 base, R2 count; not a legacy guest's */
#define CLUNDIP_FUNCTION_RANGE_GUARD_UNMAP UINT64_C(0xC600000B) /* R1 base, R2 count; not a legacy guest's */

/* What features answers in R0, a bit for each call, to a guest with ranges and to a legacy guest. */
#define CLUNDIP_FEATURES        UINT64_C(0xFFD)
#define CLUNDIP_FEATURES_LEGACY UINT64_C(0x29D)

/* Words of the map table: the top two bits are the kind, the low 16 bits the frame of a private or shared granule. */
#define CLUNDIP_MAP_VACANT  UINT32_C(0)
#define CLUNDIP_MAP_PRIVATE UINT32_C(0x40000000) /* + frame */
#define CLUNDIP_MAP_SHARED  UINT32_C(0x80000000) /* + frame */
#define CLUNDIP_MAP_GUARDED UINT32_C(0xC0000000) /* guarded MMIO */

/*
 * Words of the frame table. An owned frame has the owner's slot + 1 in the top byte, 0 for private or 1 for shared in
 * the next, and the granule in the low 16 bits.
 */
#define CLUNDIP_FRAME_HOST    UINT32_C(0)
#define CLUNDIP_FRAME_WAITING UINT32_C(0xFF000000) /* waiting to be cleared */

/* The symbol of each call, with the version of the layout at its end. */
#define CLUNDIP_PASTE(name, abi)     name##_abi##abi
#define CLUNDIP_VERSIONED(name, abi) CLUNDIP_PASTE(name, abi)
#define CLUNDIP_SYMBOL(name)         CLUNDIP_VERSIONED(name, CLUNDIP_ABI)

#define clundip_create         CLUNDIP_SYMBOL(clundip_create)
#define clundip_create_legacy  CLUNDIP_SYMBOL(clundip_create_legacy)
#define clundip_donate         CLUNDIP_SYMBOL(clundip_donate)
#define clundip_run            CLUNDIP_SYMBOL(clundip_run)
#define clundip_remove         CLUNDIP_SYMBOL(clundip_remove)
#define clundip_cleared        CLUNDIP_SYMBOL(clundip_cleared)
#define clundip_access         CLUNDIP_SYMBOL(clundip_access)
#define clundip_show           CLUNDIP_SYMBOL(clundip_show)
#define clundip_register_read  CLUNDIP_SYMBOL(clundip_register_read)
#define clundip_register_write CLUNDIP_SYMBOL(clundip_register_write)
#define clundip_hypercall      CLUNDIP_SYMBOL(clundip_hypercall)
#define clundip_abort          CLUNDIP_SYMBOL(clundip_abort)

/* Host calls. */

/* Makes a guest in the lowest slot that isn't live, one that knows ranges. v0 is the slot. Verdicts 0, 1, 6, 7. */
void clundip_create(uint64_t records[CLUNDIP_ALL_RECORDS_WORDS], uint32_t *frames, size_t frame_words, uint32_t *map,
                    size_t map_words, uint64_t answer[CLUNDIP_ANSWER_WORDS]);

/*
 * The same for a legacy guest, which knows no ranges and counts as enrolled from its creation. docs/LINKING.md says
 * which kind to make.
 */
void clundip_create_legacy(uint64_t records[CLUNDIP_ALL_RECORDS_WORDS], uint32_t *frames, size_t frame_words,
                           uint32_t *map, size_t map_words, uint64_t answer[CLUNDIP_ANSWER_WORDS]);

/*
 * Gives a host's frame (a frame number) to a vacant granule (a granule number) of the guest, as private.
 * Verdicts 0, 1, 2, 4, 5, 6.
 */
void clundip_donate(uint64_t records[CLUNDIP_ALL_RECORDS_WORDS], uint32_t *frames, size_t frame_words, uint32_t *map,
                    size_t map_words, uint64_t slot, uint64_t frame, uint64_t granule,
                    uint64_t answer[CLUNDIP_ANSWER_WORDS]);

/* Marks the guest as run. Verdicts 0, 2. */
void clundip_run(uint64_t records[CLUNDIP_ALL_RECORDS_WORDS], uint64_t slot, uint64_t answer[CLUNDIP_ANSWER_WORDS]);

/* Takes the guest away; its frames wait to be cleared. v0 is the number of these frames. Verdicts 0, 1, 2, 6. */
void clundip_remove(uint64_t records[CLUNDIP_ALL_RECORDS_WORDS], uint32_t *frames, size_t frame_words, uint32_t *map,
                    size_t map_words, uint64_t slot, uint64_t answer[CLUNDIP_ANSWER_WORDS]);

/* Makes a waiting frame (a frame number), whose memory is cleared now, the host's. Verdicts 0, 1, 4, 6, 8. */
void clundip_cleared(uint32_t *frames, size_t frame_words, const uint32_t *map, size_t map_words, uint64_t frame,
                     uint64_t answer[CLUNDIP_ANSWER_WORDS]);

/* May the host access this frame (a frame number)? v0 is 1 if so, else 0. Verdicts 0, 1, 4, 6. */
void clundip_access(const uint32_t *frames, size_t frame_words, const uint32_t *map, size_t map_words, uint64_t frame,
                    uint64_t answer[CLUNDIP_ANSWER_WORDS]);

/*
 * Shows the guest's row, damaged or not: part[0] is where it begins in the map table, in words, and part[1] how many
 * words it has; both are 0 if the call is refused. Verdicts 0, 1, 2.
 */
void clundip_show(const uint64_t records[CLUNDIP_ALL_RECORDS_WORDS], const uint32_t *map, size_t map_words,
                  uint64_t slot, uint64_t part[CLUNDIP_PART_WORDS], uint64_t answer[CLUNDIP_ANSWER_WORDS]);

/* Reads firmware register reg. v0 is the bitmap. Verdicts 0, 2, 9. */
void clundip_register_read(const uint64_t records[CLUNDIP_ALL_RECORDS_WORDS], uint64_t slot, uint64_t reg,
                           uint64_t answer[CLUNDIP_ANSWER_WORDS]);

/* Writes firmware register reg, of a guest that was never run. Verdicts 0, 2, 9. */
void clundip_register_write(uint64_t records[CLUNDIP_ALL_RECORDS_WORDS], uint64_t slot, uint64_t reg, uint64_t value,
                            uint64_t answer[CLUNDIP_ANSWER_WORDS]);

/* Guest calls: what a guest in this slot does, and how it goes on. */

/*
 * A hypercall with the guest's registers R0 to R3. Where share, unshare and the range guard calls are done, v1 is the
 * number of granules that this call changed, 1 to 64; a legacy guest's share and unshare change one, and v1 is 0.
 * Verdicts 1, 2, 3, 6, 10.
 */
void clundip_hypercall(uint64_t records[CLUNDIP_ALL_RECORDS_WORDS], uint32_t *frames, size_t frame_words, uint32_t *map,
                       size_t map_words, uint64_t slot, uint64_t r0, uint64_t r1, uint64_t r2, uint64_t r3,
                       uint64_t answer[CLUNDIP_ANSWER_WORDS]);

/* A stage 2 abort at any IPA, in bytes. Verdicts 1, 2, 3, 6, 11, 12, 13. */
void clundip_abort(const uint64_t records[CLUNDIP_ALL_RECORDS_WORDS], const uint32_t *frames, size_t frame_words,
                   const uint32_t *map, size_t map_words, uint64_t slot, uint64_t ipa,
                   uint64_t answer[CLUNDIP_ANSWER_WORDS]);

#ifdef __cplusplus
}
#endif

#endif
