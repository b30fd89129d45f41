/* The table of guest calls. */
#include "cases.h"
#include "check.h"

static void features(void)
{
    begin_case(bench, "features");
    RETURNS(guest(CLUNDIP_FUNCTION_FEATURES, 1, 2, 3), 0xFFD, 0);

    begin_case(fresh_guest, "features and UID without VENDOR_HYP bit 0");
    record_word_becomes(0, CLUNDIP_RECORD_VENDOR_HYP, 0);
    DONE(call_register_write(0, CLUNDIP_REGISTER_VENDOR_HYP, 0));
    run(0);
    RETURNS(guest(CLUNDIP_FUNCTION_FEATURES, 0, 0, 0), NS, 0);
    RETURNS(guest(CLUNDIP_FUNCTION_UID, 0, 0, 0), NS, 0);
    RETURNS(guest(CLUNDIP_FUNCTION_MEMORY_INFO, 0, 0, 0), 4096, 1);
}

/* 4096 and 1 where R1 to R3 are zero, else the error. */
static void info(const char *name, uint64_t function, uint64_t error)
{
    begin_case(bench, "%s", name);
    RETURNS(guest(function, 0, 0, 0), 4096, 1);
    RETURNS(guest(function, 1, 0, 0), error, 0);
    RETURNS(guest(function, 0, BIT(32), 0), error, 0);
    RETURNS(guest(function, 0, 0, BIT(63)), error, 0);
}

static void enroll_and_share(void)
{
    begin_case(bench_enrolled, "enroll twice");
    RETURNS(guest(CLUNDIP_FUNCTION_ENROLL, 1, 2, 3), 0, 0);

    begin_case(bench_shared, "share and unshare");
    RETURNS(guest(CLUNDIP_FUNCTION_UNSHARE, 0x5000, 1, BIT(32)), IP, 0);
    RETURNS(unshare(0x5800, 1), IP, 0);
    becomes_private(0, 5, 3);
    RETURNS(unshare(0x5000, 0), 0, 1);
    RETURNS(unshare(0x5000, 1), IP, 0);
}

static void guard_calls(void)
{
    begin_case(bench_enrolled, "guard map and unmap");
    RETURNS(guest(CLUNDIP_FUNCTION_GUARD_UNMAP, 0x6000, 0, 0), NS, 0);
    map_becomes(0, 6, GUARDED);
    RETURNS(guest(CLUNDIP_FUNCTION_GUARD_MAP, 0x6000, 9, 9), 0, 0);
    EXPECT(call_abort(0, 0x6008), 11, 0x6008);
    RETURNS(guest(CLUNDIP_FUNCTION_GUARD_MAP, 0x6000, 0, 0), NS, 0);
    RETURNS(guest(CLUNDIP_FUNCTION_GUARD_UNMAP, 0x6001, 0, 0), NS, 0);
    map_becomes(0, 6, 0);
    RETURNS(guest(CLUNDIP_FUNCTION_GUARD_UNMAP, 0x6000, 9, 9), 0, 0);

    begin_case(bench, "guard calls need enrolment");
    RETURNS(guest(CLUNDIP_FUNCTION_GUARD_MAP, 0x6000, 1, 0), NS, 0);
    RETURNS(guest(CLUNDIP_FUNCTION_GUARD_UNMAP, 0x6000, 1, 0), NS, 0);
    RETURNS(guest(CLUNDIP_FUNCTION_RANGE_GUARD_MAP, 0x6000, 1, 0), NS, 0);
    RETURNS(guest(CLUNDIP_FUNCTION_RANGE_GUARD_UNMAP, 0x6000, 1, 0), NS, 0);

    begin_case(bench_enrolled, "range guard map and unmap");
    map_becomes(0, 3, GUARDED);
    map_becomes(0, 4, GUARDED);
    RETURNS(guest(CLUNDIP_FUNCTION_RANGE_GUARD_MAP, 0x3000, 8, 9), 0, 2);
    map_becomes(0, 4, 0);
    RETURNS(guest(CLUNDIP_FUNCTION_RANGE_GUARD_UNMAP, 0x4000, 8, 9), 0, 1);
    RETURNS(guest(CLUNDIP_FUNCTION_RANGE_GUARD_UNMAP, 0x3000, 0, 0), NS, 0);
    RETURNS(guest(CLUNDIP_FUNCTION_RANGE_GUARD_UNMAP, 0x3004, 1, 0), NS, 0);
}

static void relinquish(void)
{
    begin_case(bench, "relinquish");
    RETURNS(guest(CLUNDIP_FUNCTION_RELINQUISH, 0x5000, 1, 0), IP, 0);
    RETURNS(guest(CLUNDIP_FUNCTION_RELINQUISH, 0x5000, 0, BIT(32)), IP, 0);
    becomes_waiting(0, 5, 3);
    RETURNS(guest(CLUNDIP_FUNCTION_RELINQUISH, 0x5000, 0, 0), 0, 0);
    EXPECT(call_access(3), 0, 0);
    REFUSED(call_donate(0, 3, 5), 5);

    begin_case(bench_shared, "relinquish of a shared granule");
    RETURNS(guest(CLUNDIP_FUNCTION_RELINQUISH, 0x5000, 0, 0), IP, 0);
}

/* The upper half of R0 isn't looked at. */
static void values_of_r0(void)
{
    static const uint64_t numbers[] = {0,          3,          0x46000003, 0x80000000, 0x86000001,
                                       0x86000003, 0x8600FF00, 0x8600FF02, 0x8600FF03, 0xC6000000,
                                       0xC6000001, 0xC600000C, 0xC600FF01, 0xC6010003, 0xFFFFFFFF};

    begin_case(bench_enrolled, "numbers of no call");
    for (size_t i = 0; i < COUNT(numbers); i++) {
        RETURNS(guest(numbers[i], 0x5000, 1, 0), NS, 0);
        RETURNS(guest(UINT64_C(0xC6000003) * BIT(32) + numbers[i], 0x5000, 1, 0), NS, 0);
    }

    begin_case(bench, "R0 with all upper bits");
    becomes_shared(0, 5, 3);
    RETURNS(guest(UINT64_C(0xFFFFFFFFC6000003), 0x5000, 1, 0), 0, 1);
}

static void ranges(void)
{
    /* Granules 5 to 7 are private, 8 vacant. */
    begin_case(bench, "R1 counts the granules done");
    donate(0, 4, 6);
    donate(0, 9, 7);
    becomes_shared(0, 5, 3);
    becomes_shared(0, 6, 4);
    becomes_shared(0, 7, 9);
    RETURNS(share(0x5000, 8), 0, 3);

    begin_case(NULL, "range guard calls stop after 64");
    lend_fresh(1, 128);
    create(0);
    run(0);
    enroll(0);
    for (uint64_t g = 2; g < 66; g++)
        map_becomes(0, g, GUARDED);
    RETURNS(guest(CLUNDIP_FUNCTION_RANGE_GUARD_MAP, 0x2000, 100, 0), 0, 64);
    for (uint64_t g = 2; g < 66; g++)
        map_becomes(0, g, 0);
    RETURNS(guest(CLUNDIP_FUNCTION_RANGE_GUARD_UNMAP, 0x2000, 100, 0), 0, 64);
}

void guest_call_cases(void)
{
    features();
    info("memory info", CLUNDIP_FUNCTION_MEMORY_INFO, IP);
    info("guard info", CLUNDIP_FUNCTION_GUARD_INFO, NS);
    enroll_and_share();
    guard_calls();
    relinquish();
    values_of_r0();
    ranges();
}
