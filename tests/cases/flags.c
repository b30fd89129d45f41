/* A flag of a record counts as set if it is not 0. */
#include "cases.h"
#include "check.h"

static void live_flag(uint64_t flag)
{
    put_record_word(0, CLUNDIP_RECORD_LIVE, flag);
    create(1);
    donate(0, 4, 6);
    share_granule_5(1);
    EXPECT(call_abort(0, 0x5000), 13, 0);
    DONE(call_show(0, 0, 64));
    EXPECT(call_register_read(0, CLUNDIP_REGISTER_VENDOR_HYP), 0, 1);
    EXPECT(call_register_write(0, CLUNDIP_REGISTER_VENDOR_HYP, 1), 9, NEGATIVE(16));
    DONE(call_run(0));
    becomes_waiting(0, 5, 3);
    becomes_waiting(0, 6, 4);
    remove_guest(0, 2);
}

static void run_flag(uint64_t flag)
{
    REFUSED(share(0x5000, 1), 3);
    put_record_word(0, CLUNDIP_RECORD_RUN, flag);
    share_granule_5(1);
    EXPECT(call_abort(0, 0x5000), 13, 0);
    EXPECT(call_register_write(0, CLUNDIP_REGISTER_VENDOR_HYP, 1), 9, NEGATIVE(16));
    DONE(call_run(0));
}

static void enrolled_flag(uint64_t flag)
{
    RETURNS(guest(CLUNDIP_FUNCTION_GUARD_MAP, 0x6000, 0, 0), NS, 0);
    put_record_word(0, CLUNDIP_RECORD_ENROLLED, flag);
    guard_granule(6);
    EXPECT(call_abort(0, 0x7000), 12, 0);
    RETURNS(guest(CLUNDIP_FUNCTION_ENROLL, 0, 0, 0), 0, 0);
}

static void legacy_flag(uint64_t flag)
{
    put_record_word(0, CLUNDIP_RECORD_LEGACY, flag);
    RETURNS(guest(CLUNDIP_FUNCTION_FEATURES, 0, 0, 0), 0x29D, 0);
    RETURNS(guest(CLUNDIP_FUNCTION_ENROLL, 0, 0, 0), NS, 0);
    RETURNS(share(0x5000, 1), IP, 0);
    becomes_shared(0, 5, 3);
    RETURNS(share(0x5000, 0), 0, 0);
    guard_granule(6);
    EXPECT(call_abort(0, 0x7000), 11, 0x7000); /* not enrolled as lent */
}

void flag_cases(void)
{
    static const struct {
        const char *name;
        void (*before)(void);
        void (*body)(uint64_t flag);
    } rows[] = {
        {"live", bench, live_flag},
        {"legacy", bench, legacy_flag},
        {"run", bench_not_run, run_flag},
        {"enrolled", bench, enrolled_flag},
    };
    static const uint64_t flags[] = {2, 256, BIT(32), BIT(63), UINT64_MAX};

    for (size_t i = 0; i < COUNT(rows); i++)
        for (size_t k = 0; k < COUNT(flags); k++) {
            begin_case(rows[i].before, "%s flag of 0x%" PRIx64 " counts as set", rows[i].name, flags[k]);
            rows[i].body(flags[k]);
        }
}
