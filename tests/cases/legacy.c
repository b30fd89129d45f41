/* Legacy guests: each row of their table of calls, and what the kinds have in common. */
#include "cases.h"
#include "check.h"

static void no_granule(void)
{
    begin_case(legacy, "legacy: features and UID");
    RETURNS(guest(CLUNDIP_FUNCTION_FEATURES, 1, 2, 3), 0x29D, 0);
    guest(CLUNDIP_FUNCTION_UID, 1, 2, 3);
    answers(10, 0xB66FB428, 0xE911C52E, 0x564BCAA9, 0x743A004D);

    begin_case(legacy_not_run, "legacy: features and UID without VENDOR_HYP bit 0");
    record_word_becomes(0, CLUNDIP_RECORD_VENDOR_HYP, 0);
    DONE(call_register_write(0, CLUNDIP_REGISTER_VENDOR_HYP, 0));
    run(0);
    RETURNS(guest(CLUNDIP_FUNCTION_FEATURES, 0, 0, 0), NS, 0);
    RETURNS(guest(CLUNDIP_FUNCTION_UID, 0, 0, 0), NS, 0);

    begin_case(legacy, "legacy: memory info");
    RETURNS(guest(CLUNDIP_FUNCTION_MEMORY_INFO, 0, 0, 0), 4096, 0);
    RETURNS(guest(CLUNDIP_FUNCTION_MEMORY_INFO, 1, 0, 0), IP, 0);
    RETURNS(guest(CLUNDIP_FUNCTION_MEMORY_INFO, 0, BIT(32), 0), IP, 0);
    RETURNS(guest(CLUNDIP_FUNCTION_MEMORY_INFO, 0, 0, BIT(63)), IP, 0);
}

/* What refuses a call of one granule, whichever granules there are. */
static void registers_refused(uint64_t function, uint64_t base)
{
    RETURNS(guest(function, base, 1, 0), IP, 0);
    RETURNS(guest(function, base, BIT(32), 0), IP, 0);
    RETURNS(guest(function, base, 0, 1), IP, 0);
    RETURNS(guest(function, base, 0, BIT(63)), IP, 0);
    RETURNS(guest(function, base + 1, 0, 0), IP, 0);
    RETURNS(guest(function, 0x40000, 0, 0), IP, 0);
    RETURNS(guest(function, BIT(44) + base, 0, 0), IP, 0);
}

static void one_granule(void)
{
    /* Granule 6 is private too, and stays so. */
    begin_case(legacy, "legacy: share and unshare do one granule and tell 0");
    donate(0, 4, 6);
    registers_refused(CLUNDIP_FUNCTION_SHARE, 0x5000);
    RETURNS(share(0x7000, 0), IP, 0);
    RETURNS(unshare(0x5000, 0), IP, 0);
    EXPECT(call_access(3), 0, 0);
    becomes_shared(0, 5, 3);
    RETURNS(share(0x5000, 0), 0, 0);
    EXPECT(call_access(3), 0, 1);
    EXPECT(call_access(4), 0, 0);
    RETURNS(share(0x5000, 0), IP, 0);
    registers_refused(CLUNDIP_FUNCTION_UNSHARE, 0x5000);
    becomes_private(0, 5, 3);
    RETURNS(unshare(0x5000, 0), 0, 0);
    EXPECT(call_access(3), 0, 0);

    begin_case(legacy, "legacy: relinquish");
    registers_refused(CLUNDIP_FUNCTION_RELINQUISH, 0x5000);
    RETURNS(guest(CLUNDIP_FUNCTION_RELINQUISH, 0x6000, 0, 0), IP, 0);
    becomes_waiting(0, 5, 3);
    RETURNS(guest(CLUNDIP_FUNCTION_RELINQUISH, 0x5000, 0, 0), 0, 0);

    begin_case(legacy, "legacy: MMIO guard");
    registers_refused(CLUNDIP_FUNCTION_GUARD_MAP, 0x6000);
    RETURNS(guest(CLUNDIP_FUNCTION_GUARD_MAP, 0x5000, 0, 0), IP, 0);
    guard_granule(6);
    EXPECT(call_abort(0, 0x6008), 11, 0x6008);
    RETURNS(guest(CLUNDIP_FUNCTION_GUARD_MAP, 0x6000, 0, 0), IP, 0);
    RETURNS(guest(CLUNDIP_FUNCTION_GUARD_UNMAP, 0x6000, 0, 0), NS, 0);
    RETURNS(guest(CLUNDIP_FUNCTION_RANGE_GUARD_UNMAP, 0x6000, 1, 0), NS, 0);

    /* Lent records are taken as found. */
    begin_case(legacy, "legacy: the guard needs no enrolment");
    put_record_word(0, CLUNDIP_RECORD_ENROLLED, 0);
    guard_granule(6);
    EXPECT(call_abort(0, 0x7000), 11, 0x7000);
}

static void no_call(void)
{
    static const uint64_t functions[] = {
        CLUNDIP_FUNCTION_GUARD_INFO,
        CLUNDIP_FUNCTION_ENROLL,
        CLUNDIP_FUNCTION_GUARD_UNMAP,
        CLUNDIP_FUNCTION_RANGE_GUARD_MAP,
        CLUNDIP_FUNCTION_RANGE_GUARD_UNMAP,
        UINT64_C(0xC600000C),
        UINT64_C(0xC6000001),
    };
    begin_case(legacy, "legacy: calls that it doesn't have");
    guard_granule(8);
    for (size_t i = 0; i < COUNT(functions); i++) {
        RETURNS(guest(functions[i], 0, 0, 0), NS, 0);
        RETURNS(guest(functions[i], 0x6000, 1, 0), NS, 0);
        RETURNS(guest(functions[i], 0x8000, 0, 0), NS, 0);
        RETURNS(guest(functions[i], 0x8000, 1, 0), NS, 0);
        RETURNS(guest(functions[i], 0x5001, BIT(32), BIT(63)), NS, 0);
    }
}

static void aborts(void)
{
    begin_case(legacy_not_run, "legacy: abort before and after run");
    REFUSED(call_abort(0, 0x6000), 3);
    REFUSED(share(0x5000, 0), 3);
    REFUSED(guest(CLUNDIP_FUNCTION_ENROLL, 0, 0, 0), 3);
    run(0);
    EXPECT(call_abort(0, 0x6000), 12, 0);
    EXPECT(call_abort(0, 0x40000), 12, 0);
    EXPECT(call_abort(0, 0x5FFF), 13, 0);
}

/* Registers come before the granule, and a call that it doesn't have looks at none. */
static void damage(void)
{
    begin_case(legacy, "legacy: damaged words");
    put_map(0, 5, UINT32_C(0x40010003));
    REFUSED(share(0x5000, 0), 6);
    REFUSED(unshare(0x5000, 0), 6);
    REFUSED(guest(CLUNDIP_FUNCTION_GUARD_MAP, 0x5000, 0, 0), 6);
    REFUSED(guest(CLUNDIP_FUNCTION_RELINQUISH, 0x5000, 0, 0), 6);
    REFUSED(call_abort(0, 0x5000), 6);
    RETURNS(share(0x5000, 1), IP, 0);
    RETURNS(guest(CLUNDIP_FUNCTION_GUARD_UNMAP, 0x5000, 0, 0), NS, 0);
    RETURNS(guest(CLUNDIP_FUNCTION_RANGE_GUARD_MAP, 0x5000, 1, 0), NS, 0);
}

static void both_kinds(void)
{
    begin_case(legacy, "legacy: beside a guest with ranges");
    create(1);
    donate(1, 4, 5);
    donate(1, 9, 6);
    run(1);
    RETURNS(call_hypercall(1, CLUNDIP_FUNCTION_FEATURES, 0, 0, 0), 0xFFD, 0);
    RETURNS(guest(CLUNDIP_FUNCTION_FEATURES, 0, 0, 0), 0x29D, 0);
    EXPECT(call_abort(1, 0x7000), 11, 0x7000);
    EXPECT(call_abort(0, 0x7000), 12, 0);
    becomes_shared(1, 5, 4);
    becomes_shared(1, 6, 9);
    RETURNS(call_hypercall(1, CLUNDIP_FUNCTION_SHARE, 0x5000, 2, 0), 0, 2);
    RETURNS(share(0x5000, 2), IP, 0);
    becomes_shared(0, 5, 3);
    RETURNS(share(0x5000, 0), 0, 0);
    becomes_private(1, 5, 4);
    RETURNS(call_hypercall(1, CLUNDIP_FUNCTION_UNSHARE, 0x5000, 0, 0), 0, 1);
    RETURNS(call_hypercall(1, CLUNDIP_FUNCTION_GUARD_MAP, 0x7000, 0, 0), NS, 0);
    guard_granule(7);

    /* The next guest in a slot is of its own kind. */
    begin_case(legacy, "legacy: the kind goes with the guest");
    becomes_waiting(0, 5, 3);
    remove_guest(0, 1);
    create(0);
    run(0);
    RETURNS(guest(CLUNDIP_FUNCTION_GUARD_MAP, 0x6000, 0, 0), NS, 0);
    enroll(0);
    guard_granule(6);
    map_becomes(0, 6, 0);
    remove_guest(0, 0);
    create_legacy(0);
    RETURNS((run(0), guest(CLUNDIP_FUNCTION_ENROLL, 0, 0, 0)), NS, 0);

    begin_case(fresh, "legacy: create takes the lowest slot");
    for (uint64_t slot = 0; slot < 8; slot += 2) {
        create_legacy(slot);
        create(slot + 1);
    }
    REFUSED(call_create_legacy(), 7);
    REFUSED(call_create(), 7);
    remove_guest(3, 0);
    remove_guest(4, 0);
    create_legacy(3);
    create(4);
}

void legacy_cases(void)
{
    no_granule();
    one_granule();
    no_call();
    aborts();
    damage();
    both_kinds();
}
