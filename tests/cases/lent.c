/* Each call, with the memory that is lent to it. */
#include "check.h"

#define PREPARE(call, ...) prepare(call, COUNT(((uint64_t[]){__VA_ARGS__})), (uint64_t[]){__VA_ARGS__})

/* A table of length 0 is lent as null. */
static uint32_t *lent_frames(void)
{
    return frame_words ? lent.frames : NULL;
}

static uint32_t *lent_map(void)
{
    return map_words ? lent.map : NULL;
}

void call_create(void)
{
    prepare("create", 0, NULL);
    clundip_create(lent.records, lent_frames(), frame_words, lent_map(), map_words, lent.answer);
}

void call_create_legacy(void)
{
    prepare("create_legacy", 0, NULL);
    clundip_create_legacy(lent.records, lent_frames(), frame_words, lent_map(), map_words, lent.answer);
}

void call_donate(uint64_t slot, uint64_t frame, uint64_t granule)
{
    PREPARE("donate", slot, frame, granule);
    clundip_donate(lent.records, lent_frames(), frame_words, lent_map(), map_words, slot, frame, granule, lent.answer);
}

void call_run(uint64_t slot)
{
    PREPARE("run", slot);
    clundip_run(lent.records, slot, lent.answer);
}

void call_remove(uint64_t slot)
{
    PREPARE("remove", slot);
    clundip_remove(lent.records, lent_frames(), frame_words, lent_map(), map_words, slot, lent.answer);
}

void call_cleared(uint64_t frame)
{
    const uint32_t *map = lent_map();
    PREPARE("cleared", frame);
    clundip_cleared(lent_frames(), frame_words, map, map_words, frame, lent.answer);
}

void call_access(uint64_t frame)
{
    const uint32_t *frames = lent_frames(), *map = lent_map();
    PREPARE("access", frame);
    clundip_access(frames, frame_words, map, map_words, frame, lent.answer);
}

void call_show(uint64_t slot, uint64_t begin, uint64_t length)
{
    const uint64_t *records = lent.records;
    const uint32_t *map = lent_map();
    PREPARE("show", slot);
    expected.part[0] = begin;
    expected.part[1] = length;
    clundip_show(records, map, map_words, slot, lent.part, lent.answer);
}

void call_register_read(uint64_t slot, uint64_t reg)
{
    const uint64_t *records = lent.records;
    PREPARE("register_read", slot, reg);
    clundip_register_read(records, slot, reg, lent.answer);
}

void call_register_write(uint64_t slot, uint64_t reg, uint64_t value)
{
    PREPARE("register_write", slot, reg, value);
    clundip_register_write(lent.records, slot, reg, value, lent.answer);
}

void call_hypercall(uint64_t slot, uint64_t r0, uint64_t r1, uint64_t r2, uint64_t r3)
{
    PREPARE("hypercall", slot, r0, r1, r2, r3);
    clundip_hypercall(lent.records, lent_frames(), frame_words, lent_map(), map_words, slot, r0, r1, r2, r3,
                      lent.answer);
}

void call_abort(uint64_t slot, uint64_t ipa)
{
    const uint64_t *records = lent.records;
    const uint32_t *frames = lent_frames(), *map = lent_map();
    PREPARE("abort", slot, ipa);
    clundip_abort(records, frames, frame_words, map, map_words, slot, ipa, lent.answer);
}

/* Hypercalls of slot 0. */

void guest(uint64_t function, uint64_t r1, uint64_t r2, uint64_t r3)
{
    call_hypercall(0, function, r1, r2, r3);
}

void share(uint64_t base, uint64_t count)
{
    guest(CLUNDIP_FUNCTION_SHARE, base, count, 0);
}

void unshare(uint64_t base, uint64_t count)
{
    guest(CLUNDIP_FUNCTION_UNSHARE, base, count, 0);
}
