/*
 * Memory to lend to the calls, a copy of it as it is expected to be, and a line of output for each case.
 *
 * A case says what words are to change (..._becomes, becomes_...), makes a call and says what it is to answer (EXPECT
 * and its short forms). Then the five numbers are compared, and every word of the memory: the words that were not
 * named, and the canary words around each lent area, must be as they were.
 */
#ifndef CHECK_H
#define CHECK_H

#include <inttypes.h>
#include <stdbool.h>
#include <stdio.h>
#include <string.h>

#include "clundip.h"

/* Document 01's names of a guest's errors, and other negative numbers as 64 bits. */
#define NS          UINT64_MAX
#define IP          (UINT64_MAX - 2)
#define NEGATIVE(n) (~UINT64_C(n) + 1)

#define BIT(n)       (UINT64_C(1) << (n))
#define COUNT(array) (sizeof(array) / sizeof(array)[0])

#define WAITING UINT32_C(0xFF000000)
#define GUARDED UINT32_C(0xC0000000)

enum {
    CANARIES = 16,
    FRAMES_AREA = 16384 + 1, /* room for tables that are too long, too */
    MAP_AREA = 8 * 4096 + 8,
};

/* What is lent, with canary words between. Words of the two tables beyond their lengths are canary words too. */
struct memory {
    uint64_t before_records[CANARIES];
    uint64_t records[CLUNDIP_ALL_RECORDS_WORDS];
    uint64_t before_answer[CANARIES];
    uint64_t answer[5];
    uint64_t before_part[CANARIES];
    uint64_t part[2];
    uint64_t after_part[CANARIES];
    uint32_t before_frames[CANARIES];
    uint32_t frames[FRAMES_AREA];
    uint32_t before_map[CANARIES];
    uint32_t map[MAP_AREA];
    uint32_t after_map[CANARIES];
};

extern struct memory lent, expected;
extern size_t frame_words, map_words;

/* check.c: cases. A case goes from its begin_case to the next one. What is before it may be null. */

extern bool case_failed;

void begin_case(void (*before)(void), const char *format, ...);
int end_of_cases(void); /* the status of the program */

/* check.c: expectations. */

void answers(uint64_t verdict, uint64_t v0, uint64_t v1, uint64_t v2, uint64_t v3);

#define EXPECT(call, verdict, v0) (call, answers(verdict, v0, 0, 0, 0))
#define DONE(call)                EXPECT(call, 0, 0)
#define REFUSED(call, verdict)    EXPECT(call, verdict, 0)
#define RETURNS(call, r0, r1)     (call, answers(10, r0, r1, 0, 0))

void number_is(const char *name, uint64_t found, uint64_t number);
void text_is(const char *text, const char *found);

void map_becomes(uint64_t slot, uint64_t granule, uint32_t word);
void frame_becomes(uint64_t frame, uint32_t word);
void record_becomes(uint64_t slot, uint64_t live, uint64_t run, uint64_t vendor_hyp); /* the other words become 0 */
void record_word_becomes(uint64_t slot, uint64_t word, uint64_t value);

/* check.c: words put into the lent memory by hand, for contents that no call leaves. */

void put_map(uint64_t slot, uint64_t granule, uint32_t word);
void put_frame(uint64_t frame, uint32_t word);
void put_record_word(uint64_t slot, uint64_t word, uint64_t value);

/* check.c: what is lent. */

void lend(size_t frames, size_t map); /* these lengths from the next call on, with the words that there are */
void lend_fresh(size_t f, size_t w);  /* fresh tables of F and 8 * W words, and fresh records */
void fresh(void);                     /* the same with F = 256 and W = 64 */

/* Before each call: answer and part hold what no call writes, and what is called is noted. */
void prepare(const char *call, size_t count, const uint64_t *numbers);

/* lent.c: the calls, with what is lent. */

void call_create(void);
void call_create_legacy(void);
void call_donate(uint64_t slot, uint64_t frame, uint64_t granule);
void call_run(uint64_t slot);
void call_remove(uint64_t slot);
void call_cleared(uint64_t frame);
void call_access(uint64_t frame);
void call_show(uint64_t slot, uint64_t begin, uint64_t length); /* with the part that it is to write */
void call_register_read(uint64_t slot, uint64_t reg);
void call_register_write(uint64_t slot, uint64_t reg, uint64_t value);
void call_hypercall(uint64_t slot, uint64_t r0, uint64_t r1, uint64_t r2, uint64_t r3);
void call_abort(uint64_t slot, uint64_t ipa);

/* lent.c: hypercalls of slot 0. */

void guest(uint64_t function, uint64_t r1, uint64_t r2, uint64_t r3);
void share(uint64_t base, uint64_t count);
void unshare(uint64_t base, uint64_t count);

/* setup.c: the words of a granule and of its frame. */

uint32_t private_word(uint64_t frame);
uint32_t shared_word(uint64_t frame);
uint32_t owner_word(uint64_t slot, uint32_t shared, uint64_t granule);
void becomes_private(uint64_t slot, uint64_t granule, uint64_t frame);
void becomes_shared(uint64_t slot, uint64_t granule, uint64_t frame);
void becomes_waiting(uint64_t slot, uint64_t granule, uint64_t frame); /* the granule becomes vacant */

/* setup.c: calls that are done, the way in which cases are set up. */

void create(uint64_t slot);
void create_legacy(uint64_t slot);
void create_all(void);
void donate(uint64_t slot, uint64_t frame, uint64_t granule);
void run(uint64_t slot);
void enroll(uint64_t slot);
void remove_guest(uint64_t slot, uint64_t frames); /* so many frames wait then */
void clear(uint64_t frame);
void share_granule_5(uint64_t count); /* of slot 0, with frame 3 */
void guard_granule(uint64_t granule); /* of slot 0 */

/* setup.c: the bench of document 01: slot 0, F = 256, W = 64, run, granule 5 private with frame 3, granule 6 vacant. */

void fresh_guest(void); /* its slot and lengths, and no more */
void bench_not_run(void);
void bench(void);
void bench_enrolled(void);
void bench_shared(void);
void legacy_not_run(void); /* the same bench with a legacy guest */
void legacy(void);

/* setup.c: every call, made for one slot, with numbers that the bench has; and what it needs. */

enum {
    FRAMES = 1, /* a frame table of a right length */
    MAP = 2,    /* a map table of a right length */
    SLOT = 4,   /* a live slot */
    RUN = 8,    /* a guest that was run */
    WORDS = 16, /* undamaged words */
};

enum { CALLS = 13 };

extern const struct call {
    const char *name;
    void (*make)(uint64_t slot);
    unsigned needs;
} calls[CALLS];

void calls_refuse(unsigned needing, uint64_t slot, uint64_t verdict); /* all calls that need this */

#endif
