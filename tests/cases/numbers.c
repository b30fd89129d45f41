/* Numbers of 64 bits. Each of these would be in range if bits were dropped, or if a product of it were cut off. */
#include "cases.h"
#include "check.h"

static void numbers_of_the_host(void)
{
    static const uint64_t frames[] = {256, 257, BIT(16) + 3, BIT(32), BIT(32) + 3, BIT(62) + 3, BIT(63), UINT64_MAX};
    static const uint64_t granules[] = {64, 65, 0x6000, BIT(16) + 6, BIT(32) + 6, BIT(62) + 6, BIT(63) + 6, UINT64_MAX};
    static const uint64_t registers[] = {3, 4, 256, BIT(32), BIT(32) + 1, BIT(32) + 2, BIT(63), UINT64_MAX};
    static const uint64_t values[] = {2, 3, 256, BIT(32), BIT(32) + 1, BIT(63), UINT64_MAX};

    begin_case(bench, "frames out of range");
    for (size_t i = 0; i < COUNT(frames); i++) {
        REFUSED(call_donate(0, frames[i], 6), 4);
        REFUSED(call_cleared(frames[i]), 4);
        REFUSED(call_access(frames[i]), 4);
    }

    begin_case(bench, "granules out of range");
    for (size_t i = 0; i < COUNT(granules); i++)
        REFUSED(call_donate(0, 4, granules[i]), 4);

    begin_case(bench, "no such register");
    for (size_t i = 0; i < COUNT(registers); i++) {
        EXPECT(call_register_read(0, registers[i]), 9, NEGATIVE(2));
        EXPECT(call_register_write(0, registers[i], UINT64_MAX), 9, NEGATIVE(2));
    }

    begin_case(fresh_guest, "bits outside the limit");
    for (size_t i = 0; i < COUNT(values); i++)
        for (uint64_t reg = 0; reg < 3; reg++)
            EXPECT(call_register_write(0, reg, values[i]), 9, NEGATIVE(22));
    EXPECT(call_register_write(0, CLUNDIP_REGISTER_STD, 1), 9, NEGATIVE(22));
    EXPECT(call_register_write(0, CLUNDIP_REGISTER_STD_HYP, 1), 9, NEGATIVE(22));
}

static void addresses(void)
{
    static const uint64_t far[] = {0x40000, BIT(32), BIT(32) + 0x5000, BIT(44) + 0x5000, BIT(63) + 0x5000, UINT64_MAX};
    static const uint64_t bases[] = {0x40000, BIT(32) + 0x5000, BIT(44) + 0x5000, BIT(63) + 0x5000};

    begin_case(bench, "aborts at any IPA");
    EXPECT(call_abort(0, 0x5FFF), 13, 0);
    EXPECT(call_abort(0, 0x6FFF), 11, 0x6FFF);
    for (size_t i = 0; i < COUNT(far); i++)
        EXPECT(call_abort(0, far[i]), 11, far[i]);
    enroll(0);
    for (size_t i = 0; i < COUNT(far); i++)
        EXPECT(call_abort(0, far[i]), 12, 0);

    begin_case(bench_enrolled, "bases beyond the row");
    for (size_t i = 0; i < COUNT(bases); i++) {
        RETURNS(share(bases[i], 1), IP, 0);
        RETURNS(guest(CLUNDIP_FUNCTION_RELINQUISH, bases[i], 0, 0), IP, 0);
        RETURNS(guest(CLUNDIP_FUNCTION_GUARD_MAP, bases[i] + 0x1000, 0, 0), NS, 0);
        RETURNS(guest(CLUNDIP_FUNCTION_RANGE_GUARD_MAP, bases[i] + 0x1000, 1, 0), NS, 0);
    }
}

/* A count whose low half is 0 is no count of 0, and one of 2^64 - 1 is no negative one. */
static void large_counts(void)
{
    begin_case(bench_enrolled, "large counts");
    share_granule_5(BIT(32));
    becomes_private(0, 5, 3);
    RETURNS(unshare(0x5000, UINT64_MAX), 0, 1);
    map_becomes(0, 62, GUARDED);
    map_becomes(0, 63, GUARDED);
    RETURNS(guest(CLUNDIP_FUNCTION_RANGE_GUARD_MAP, 0x3E000, BIT(32), 0), 0, 2);
    map_becomes(0, 62, 0);
    map_becomes(0, 63, 0);
    RETURNS(guest(CLUNDIP_FUNCTION_RANGE_GUARD_UNMAP, 0x3E000, UINT64_MAX, 0), 0, 2);
}

void number_cases(void)
{
    numbers_of_the_host();
    addresses();
    large_counts();
}

void slot_cases(void)
{
    static const uint64_t slots[] = {1,           8,           9,       255,     256,     BIT(16),   BIT(32),
                                     BIT(32) + 1, BIT(32) + 7, BIT(58), BIT(61), BIT(63), UINT64_MAX};
    for (const struct call *call = calls; call < calls + CALLS; call++) {
        if (!(call->needs & SLOT))
            continue;
        begin_case(bench, "slots above 7 or not live: %s", call->name);
        for (size_t i = 0; i < COUNT(slots); i++)
            REFUSED(call->make(slots[i]), 2);
    }
}
