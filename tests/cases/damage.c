/* Damaged words. */
#include "cases.h"
#include "check.h"

/* Granule 5 can't be looked at, and nothing is written. */
static void granule_5_damaged(void)
{
    REFUSED(share(0x5000, 1), 6);
    REFUSED(guest(CLUNDIP_FUNCTION_RELINQUISH, 0x5000, 0, 0), 6);
    REFUSED(guest(CLUNDIP_FUNCTION_GUARD_MAP, 0x5000, 0, 0), 6);
    REFUSED(call_abort(0, 0x5000), 6);
    REFUSED(call_remove(0), 6);
    REFUSED(call_donate(0, 4, 5), 6);
}

static void damaged_words(void)
{
    static const uint32_t of_map[] = {1,          5,          0x00010000, 0x3FFFFFFF, 0x40000004,
                                      0x40000100, 0x4000FFFF, 0x40010003, 0x60000003, 0x80000003,
                                      0x80010003, 0xC0000001, 0xC0000003, 0xFFFFFFFF};
    static const uint32_t of_frame[] = {0,          WAITING,    5,          0x00010005, 0x01000006,
                                        0x01000040, 0x01000045, 0x01010005, 0x01020005, 0x02000005,
                                        0x09000005, 0xFF000001, 0xFF000005, 0xFFFFFFFF};

    begin_case(bench_enrolled, "damaged map words");
    for (size_t i = 0; i < COUNT(of_map); i++) {
        put_map(0, 5, of_map[i]);
        granule_5_damaged();
    }

    begin_case(bench_enrolled, "damaged frame words");
    for (size_t i = 0; i < COUNT(of_frame); i++) {
        put_frame(3, of_frame[i]);
        granule_5_damaged();
        if (of_frame[i] == 0 || of_frame[i] == WAITING)
            continue;
        REFUSED(call_access(3), 6);
        REFUSED(call_cleared(3), 6);
        REFUSED(call_donate(0, 3, 6), 6);
    }
}

/* What stands beyond a table, or in another guest's row, names nothing back. */
static void named_back_from_outside(void)
{
    begin_case(bench_enrolled, "named back from outside");
    put_frame(256, owner_word(0, 0, 5)); /* beyond the frame table */
    put_map(0, 5, private_word(256));
    granule_5_damaged();
    put_frame(3, owner_word(0, 0, 64));
    put_map(1, 0, private_word(3)); /* where slot 0 would have granule 64 */
    REFUSED(call_access(3), 6);
    put_frame(3, owner_word(8, 0, 5));
    put_map(8, 5, private_word(3)); /* beyond the map table */
    REFUSED(call_access(3), 6);
    put_frame(3, 0x01020005); /* neither private nor shared */
    put_map(0, 5, shared_word(3));
    REFUSED(call_access(3), 6);
    granule_5_damaged();
}

static void damage_elsewhere(void)
{
    /* In the last word of a row: remove must not have begun. */
    begin_case(bench_enrolled, "damage refuses remove whole");
    donate(0, 4, 6);
    becomes_shared(0, 6, 4);
    RETURNS(share(0x6000, 1), 0, 1);
    guard_granule(2);
    put_map(0, 63, 1);
    REFUSED(call_remove(0), 6);

    /* A later granule that is damaged ends the call before it; the next call reaches it first. */
    begin_case(bench, "a damaged granule after one that is done");
    donate(0, 4, 6);
    put_map(0, 6, 0x40010004);
    share_granule_5(2);
    REFUSED(share(0x6000, 1), 6);

    /* Granule 6 is vacant, and frame 4 the host's. */
    begin_case(bench_enrolled, "what a third word names doesn't count");
    put_frame(9, owner_word(0, 0, 6));
    put_map(0, 9, private_word(4));
    donate(0, 4, 6);
    REFUSED(call_access(9), 6);
    REFUSED(call_abort(0, 0x9000), 6);
}

void damage_cases(void)
{
    damaged_words();
    named_back_from_outside();
    damage_elsewhere();
}
