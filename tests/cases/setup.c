/* Calls that are done, the bench, and every call for a slot. */
#include "check.h"

/* The words of a granule and of its frame. */

uint32_t private_word(uint64_t frame)
{
    return UINT32_C(0x40000000) + (uint32_t)frame;
}

uint32_t shared_word(uint64_t frame)
{
    return UINT32_C(0x80000000) + (uint32_t)frame;
}

uint32_t owner_word(uint64_t slot, uint32_t shared, uint64_t granule)
{
    return (uint32_t)(slot + 1) * UINT32_C(0x1000000) + shared * UINT32_C(0x10000) + (uint32_t)granule;
}

void becomes_private(uint64_t slot, uint64_t granule, uint64_t frame)
{
    map_becomes(slot, granule, private_word(frame));
    frame_becomes(frame, owner_word(slot, 0, granule));
}

void becomes_shared(uint64_t slot, uint64_t granule, uint64_t frame)
{
    map_becomes(slot, granule, shared_word(frame));
    frame_becomes(frame, owner_word(slot, 1, granule));
}

void becomes_waiting(uint64_t slot, uint64_t granule, uint64_t frame)
{
    map_becomes(slot, granule, 0);
    frame_becomes(frame, WAITING);
}

/* Calls that are done. */

void create(uint64_t slot)
{
    record_becomes(slot, 1, 0, 1);
    EXPECT(call_create(), 0, slot);
}

void create_legacy(uint64_t slot)
{
    record_becomes(slot, 1, 0, 1);
    record_word_becomes(slot, CLUNDIP_RECORD_LEGACY, 1);
    record_word_becomes(slot, CLUNDIP_RECORD_ENROLLED, 1);
    EXPECT(call_create_legacy(), 0, slot);
}

void create_all(void)
{
    for (uint64_t slot = 0; slot < 8; slot++)
        create(slot);
}

void donate(uint64_t slot, uint64_t frame, uint64_t granule)
{
    becomes_private(slot, granule, frame);
    DONE(call_donate(slot, frame, granule));
}

void run(uint64_t slot)
{
    record_word_becomes(slot, CLUNDIP_RECORD_RUN, 1);
    DONE(call_run(slot));
}

void enroll(uint64_t slot)
{
    record_word_becomes(slot, CLUNDIP_RECORD_ENROLLED, 1);
    RETURNS(call_hypercall(slot, CLUNDIP_FUNCTION_ENROLL, 0, 0, 0), 0, 0);
}

void remove_guest(uint64_t slot, uint64_t frames)
{
    record_becomes(slot, 0, 0, 0);
    EXPECT(call_remove(slot), 0, frames);
}

void clear(uint64_t frame)
{
    frame_becomes(frame, 0);
    DONE(call_cleared(frame));
}

void share_granule_5(uint64_t count)
{
    becomes_shared(0, 5, 3);
    RETURNS(share(0x5000, count), 0, 1);
}

void guard_granule(uint64_t granule)
{
    map_becomes(0, granule, GUARDED);
    RETURNS(guest(CLUNDIP_FUNCTION_GUARD_MAP, 4096 * granule, 0, 0), 0, 0);
}

/* The bench. */

void fresh_guest(void)
{
    fresh();
    create(0);
}

void bench_not_run(void)
{
    fresh_guest();
    donate(0, 3, 5);
}

void bench(void)
{
    bench_not_run();
    run(0);
}

void bench_enrolled(void)
{
    bench();
    enroll(0);
}

void bench_shared(void)
{
    bench();
    share_granule_5(2);
}

void legacy_not_run(void)
{
    fresh();
    create_legacy(0);
    donate(0, 3, 5);
}

void legacy(void)
{
    legacy_not_run();
    run(0);
}

/* Every call. */

static void make_create(uint64_t slot)
{
    (void)slot;
    call_create();
}

static void make_create_legacy(uint64_t slot)
{
    (void)slot;
    call_create_legacy();
}

static void make_donate(uint64_t slot)
{
    call_donate(slot, 4, 6);
}

static void make_cleared(uint64_t slot)
{
    (void)slot;
    call_cleared(3);
}

static void make_access(uint64_t slot)
{
    (void)slot;
    call_access(3);
}

static void make_show(uint64_t slot)
{
    call_show(slot, 0, 0);
}

static void make_register_read(uint64_t slot)
{
    call_register_read(slot, CLUNDIP_REGISTER_VENDOR_HYP);
}

static void make_register_write(uint64_t slot)
{
    call_register_write(slot, CLUNDIP_REGISTER_VENDOR_HYP, 0);
}

static void make_hypercall(uint64_t slot)
{
    call_hypercall(slot, CLUNDIP_FUNCTION_SHARE, 0x5000, 1, 0);
}

static void make_features(uint64_t slot)
{
    call_hypercall(slot, CLUNDIP_FUNCTION_FEATURES, 0, 0, 0);
}

static void make_abort(uint64_t slot)
{
    call_abort(slot, 0x5000);
}

const struct call calls[CALLS] = {
    {"create", make_create, FRAMES | MAP | WORDS},
    {"create legacy", make_create_legacy, FRAMES | MAP | WORDS},
    {"donate", make_donate, FRAMES | MAP | SLOT | WORDS},
    {"run", call_run, SLOT},
    {"remove", call_remove, FRAMES | MAP | SLOT | WORDS},
    {"cleared", make_cleared, FRAMES | MAP | WORDS},
    {"access", make_access, FRAMES | MAP | WORDS},
    {"show", make_show, MAP | SLOT},
    {"register read", make_register_read, SLOT},
    {"register write", make_register_write, SLOT},
    {"hypercall", make_hypercall, FRAMES | MAP | SLOT | RUN | WORDS},
    {"hypercall that looks at no granule", make_features, FRAMES | MAP | SLOT | RUN},
    {"abort", make_abort, FRAMES | MAP | SLOT | RUN | WORDS},
};

void calls_refuse(unsigned needing, uint64_t slot, uint64_t verdict)
{
    for (size_t i = 0; i < CALLS; i++)
        if (calls[i].needs & needing)
            REFUSED(calls[i].make(slot), verdict);
}
