/* The host's calls. */
#include "cases.h"
#include "check.h"

void show_cases(void)
{
    begin_case(fresh, "show: each row");
    for (uint64_t slot = 0; slot < 8; slot++) {
        create(slot);
        donate(slot, 10 + slot, 20 + slot);
    }
    for (uint64_t slot = 0; slot < 8; slot++) {
        DONE(call_show(slot, 64 * slot, 64));
        if (case_failed)
            break;
        number_is("a word of the row", lent.map[lent.part[0] + 20 + slot], private_word(10 + slot));
    }

    begin_case(NULL, "show: the longest row");
    lend_fresh(1, 4096);
    create_all();
    DONE(call_show(7, 7 * 4096, 4096));

    begin_case(bench, "show: refused");
    REFUSED(call_show(1, 0, 0), 2);
    REFUSED(call_show(8, 0, 0), 2);
    lend(256, 511);
    REFUSED(call_show(0, 0, 0), 1);
}

static void guests(void)
{
    begin_case(fresh, "create takes the lowest slot");
    create_all();
    REFUSED(call_create(), 7);
    REFUSED(call_create_legacy(), 7);
    remove_guest(3, 0);
    create(3);

    begin_case(bench_enrolled, "donate refused with 5");
    create(1);
    REFUSED(call_donate(1, 3, 5), 5);
    REFUSED(call_donate(0, 4, 5), 5);
    guard_granule(6);
    REFUSED(call_donate(0, 4, 6), 5);

    begin_case(bench_not_run, "a guest never run");
    REFUSED(share(0x5000, 1), 3);
    REFUSED(guest(UINT64_C(0xC600000C), 0, 0, 0), 3);
    REFUSED(call_abort(0, 0x5000), 3);

    begin_case(bench, "run twice");
    DONE(call_run(0));
}

static void frames(void)
{
    /* Frame 3 is shared when its guest is removed: the host may not access it before it is cleared. */
    begin_case(bench_shared, "a removed guest's shared frame");
    enroll(0);
    guard_granule(7);
    donate(0, 4, 6);
    becomes_waiting(0, 5, 3);
    becomes_waiting(0, 6, 4);
    map_becomes(0, 7, 0);
    remove_guest(0, 2);
    EXPECT(call_access(3), 0, 0);
    clear(3);
    EXPECT(call_access(3), 0, 1);

    begin_case(bench, "access of each kind");
    EXPECT(call_access(3), 0, 0);
    EXPECT(call_access(4), 0, 1);
    share_granule_5(1);
    EXPECT(call_access(3), 0, 1);

    begin_case(bench, "cleared refused with 8");
    REFUSED(call_cleared(3), 8);
    REFUSED(call_cleared(4), 8);
}

static void registers(void)
{
    static const uint64_t first[] = {0, 0, 1};

    begin_case(fresh_guest, "registers");
    for (uint64_t reg = 0; reg < 3; reg++) {
        EXPECT(call_register_read(0, reg), 0, first[reg]);
        DONE(call_register_write(0, reg, first[reg]));
    }
    record_word_becomes(0, CLUNDIP_RECORD_VENDOR_HYP, 0);
    DONE(call_register_write(0, CLUNDIP_REGISTER_VENDOR_HYP, 0));
    run(0);
    EXPECT(call_register_read(0, CLUNDIP_REGISTER_VENDOR_HYP), 0, 0);

    begin_case(bench, "registers after run");
    EXPECT(call_register_write(0, CLUNDIP_REGISTER_VENDOR_HYP, 1), 9, NEGATIVE(16));
    EXPECT(call_register_write(0, CLUNDIP_REGISTER_VENDOR_HYP, 2), 9, NEGATIVE(22));
}

static void calls_apart(void)
{
    /* Two with the same granules: each call changes its own row, frames and record. */
    begin_case(bench, "two guests");
    create(1);
    donate(1, 4, 5);
    run(1);
    enroll(1);
    becomes_shared(1, 5, 4);
    RETURNS(call_hypercall(1, CLUNDIP_FUNCTION_SHARE, 0x5000, 1, 0), 0, 1);
    EXPECT(call_abort(0, 0x6000), 11, 0x6000);
    becomes_waiting(1, 5, 4);
    remove_guest(1, 1);
    EXPECT(call_abort(0, 0x5000), 13, 0);

    /* On the same words, however often it is made: nothing is kept between calls. */
    begin_case(bench, "the same call has the same answer");
    for (int i = 0; i < 100; i++) {
        EXPECT(call_access(3), 0, 0);
        EXPECT(call_abort(0, 0x5000), 13, 0);
        DONE(call_show(0, 0, 64));
        EXPECT(call_register_read(0, CLUNDIP_REGISTER_VENDOR_HYP), 0, 1);
        RETURNS(share(0x6000, 1), IP, 0);
        DONE(call_run(0));
        REFUSED(call_cleared(3), 8);
    }
}

void host_call_cases(void)
{
    guests();
    frames();
    registers();
    calls_apart();
}
