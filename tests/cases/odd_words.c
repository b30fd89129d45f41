/* Odd words: what no call leaves in a record or a table. */
#include "cases.h"
#include "check.h"

/*
 * F = 256 and W = 64 with no word that a call could have left: even slots are live and odd ones dead, slot 2 has ranges
 * and the others are legacy, each record word is different, and every table word is damaged.
 */
static void odd_words(void)
{
    fresh();
    for (uint64_t slot = 0; slot < 8; slot++) {
        for (uint64_t word = 0; word < CLUNDIP_RECORD_WORDS; word++)
            put_record_word(slot, word, BIT(63) + BIT(32) + 256 * slot + 2 * word);
        if (slot % 2)
            put_record_word(slot, CLUNDIP_RECORD_LIVE, 0);
        if (slot == 2)
            put_record_word(slot, CLUNDIP_RECORD_LEGACY, 0);
        for (uint64_t granule = 0; granule < 64; granule++)
            put_map(slot, granule, (uint32_t)(0x00100000 + 256 * slot + granule));
    }
    for (uint64_t frame = 0; frame < 256; frame++)
        put_frame(frame, (uint32_t)(0x0A020000 + frame));
}

static void put_row_vacant(uint64_t slot)
{
    for (uint64_t granule = 0; granule < 64; granule++)
        put_map(slot, granule, 0);
}

static void refused_with_1_to_5(void)
{
    begin_case(odd_words, "odd words stay: refused with 1");
    lend(256, 511);
    calls_refuse(MAP, 0, 1);

    begin_case(odd_words, "odd words stay: refused with 2");
    calls_refuse(SLOT, 1, 2);
    calls_refuse(SLOT, 8, 2);

    begin_case(odd_words, "odd words stay: refused with 3");
    put_record_word(2, CLUNDIP_RECORD_RUN, 0);
    calls_refuse(RUN, 2, 3);

    begin_case(odd_words, "odd words stay: refused with 4");
    REFUSED(call_donate(2, 256, 6), 4);
    REFUSED(call_donate(2, 4, 64), 4);
    REFUSED(call_cleared(256), 4);
    REFUSED(call_access(256), 4);

    begin_case(odd_words, "odd words stay: refused with 5");
    put_frame(3, WAITING);
    put_frame(4, 0);
    put_map(2, 6, 0);
    put_map(2, 7, GUARDED);
    REFUSED(call_donate(2, 3, 6), 5);
    REFUSED(call_donate(2, 4, 7), 5);
}

static void refused_with_6_to_9(void)
{
    begin_case(odd_words, "odd words stay: refused with 6");
    calls_refuse(WORDS, 2, 6);

    begin_case(odd_words, "odd words stay: refused with 7");
    for (uint64_t slot = 0; slot < 8; slot++)
        put_record_word(slot, CLUNDIP_RECORD_LIVE, BIT(63) + slot);
    REFUSED(call_create(), 7);
    REFUSED(call_create_legacy(), 7);

    begin_case(odd_words, "odd words stay: refused with 8");
    put_frame(3, 0);
    REFUSED(call_cleared(3), 8);
    put_frame(3, owner_word(2, 1, 5));
    put_map(2, 5, shared_word(3));
    REFUSED(call_cleared(3), 8);

    begin_case(odd_words, "odd words stay: refused with 9");
    EXPECT(call_register_read(2, 3), 9, NEGATIVE(2));
    EXPECT(call_register_write(2, 3, 0), 9, NEGATIVE(2));
    EXPECT(call_register_write(2, CLUNDIP_REGISTER_STD, 1), 9, NEGATIVE(22));
    EXPECT(call_register_write(2, CLUNDIP_REGISTER_STD, 0), 9, NEGATIVE(16));
}

static void nothing_to_change(void)
{
    begin_case(odd_words, "odd words stay: refused to the guest");
    put_map(2, 6, 0);
    RETURNS(call_hypercall(2, CLUNDIP_FUNCTION_SHARE, 0x6000, 1, 0), IP, 0);
    RETURNS(call_hypercall(2, CLUNDIP_FUNCTION_SHARE, 0x5001, 1, 0), IP, 0);
    RETURNS(call_hypercall(2, CLUNDIP_FUNCTION_GUARD_UNMAP, 0x6000, 0, 0), NS, 0);
    RETURNS(call_hypercall(2, CLUNDIP_FUNCTION_RANGE_GUARD_MAP, 0x5000, 0, 0), NS, 0);
    RETURNS(call_hypercall(2, UINT64_C(0xC600000C), 0x5000, 1, 0), NS, 0);
    RETURNS(call_hypercall(4, CLUNDIP_FUNCTION_SHARE, 0x5000, 1, 0), IP, 0);
    RETURNS(call_hypercall(4, CLUNDIP_FUNCTION_ENROLL, 0, 0, 0), NS, 0);

    begin_case(odd_words, "odd words stay: calls that only look");
    DONE(call_show(6, 6 * 64, 64));
    for (uint64_t reg = 0; reg < 3; reg++)
        EXPECT(call_register_read(6, reg), 0, lent.records[6 * CLUNDIP_RECORD_WORDS + CLUNDIP_RECORD_STD + reg]);
    put_map(6, 6, 0);
    EXPECT(call_abort(6, 0x6000), 12, 0);
    put_frame(3, 0);
    EXPECT(call_access(3), 0, 1);
    RETURNS(call_hypercall(2, CLUNDIP_FUNCTION_MEMORY_INFO, 0, 0, 0), 4096, 1);
    RETURNS(call_hypercall(6, CLUNDIP_FUNCTION_MEMORY_INFO, 0, 0, 0), 4096, 0);

    begin_case(odd_words, "odd words stay: calls done again");
    DONE(call_run(2));
    RETURNS(call_hypercall(2, CLUNDIP_FUNCTION_ENROLL, 0, 0, 0), 0, 0);
    put_record_word(2, CLUNDIP_RECORD_RUN, 0);
    put_record_word(2, CLUNDIP_RECORD_VENDOR_HYP, 1);
    DONE(call_register_write(2, CLUNDIP_REGISTER_VENDOR_HYP, 1));
}

static void flags_become_1(uint64_t slot)
{
    for (uint64_t word = CLUNDIP_RECORD_LIVE; word <= CLUNDIP_RECORD_ENROLLED; word++)
        record_word_becomes(slot, word, 1);
    if (slot == 2)
        record_word_becomes(slot, CLUNDIP_RECORD_LEGACY, 0);
}

/* A call that is done and changes a record writes that record alone. Neighbours and tables hold odd words. */
static void one_record(void)
{
    begin_case(odd_words, "create writes one record");
    put_row_vacant(1);
    create(1);

    begin_case(odd_words, "create legacy writes one record");
    put_row_vacant(1);
    create_legacy(1);

    begin_case(odd_words, "run writes one record");
    put_record_word(2, CLUNDIP_RECORD_RUN, 0);
    flags_become_1(2);
    DONE(call_run(2));

    begin_case(odd_words, "run writes one record, of a legacy guest");
    put_record_word(4, CLUNDIP_RECORD_RUN, 0);
    flags_become_1(4);
    DONE(call_run(4));

    begin_case(odd_words, "enroll writes one record");
    put_record_word(2, CLUNDIP_RECORD_ENROLLED, 0);
    flags_become_1(2);
    RETURNS(call_hypercall(2, CLUNDIP_FUNCTION_ENROLL, 0, 0, 0), 0, 0);

    begin_case(NULL, "register write writes one record");
    for (uint64_t reg = 0; reg < 3; reg++) {
        odd_words();
        flags_become_1(2);
        put_record_word(2, CLUNDIP_RECORD_RUN, 0);
        record_word_becomes(2, CLUNDIP_RECORD_STD + reg, 0);
        DONE(call_register_write(2, reg, 0));
    }

    begin_case(odd_words, "remove writes one record");
    put_row_vacant(2);
    put_frame(3, 0);
    donate(2, 3, 5);
    becomes_waiting(2, 5, 3);
    remove_guest(2, 1);
}

static void one_granule(void)
{
    begin_case(odd_words, "calls of one granule write its two words");
    put_frame(3, 0);
    put_map(2, 5, 0);
    donate(2, 3, 5);
    becomes_shared(2, 5, 3);
    RETURNS(call_hypercall(2, CLUNDIP_FUNCTION_SHARE, 0x5000, 2, 0), 0, 1);
    becomes_private(2, 5, 3);
    RETURNS(call_hypercall(2, CLUNDIP_FUNCTION_UNSHARE, 0x5000, 2, 0), 0, 1);
    becomes_waiting(2, 5, 3);
    RETURNS(call_hypercall(2, CLUNDIP_FUNCTION_RELINQUISH, 0x5000, 0, 0), 0, 0);
    map_becomes(2, 5, GUARDED);
    RETURNS(call_hypercall(2, CLUNDIP_FUNCTION_RANGE_GUARD_MAP, 0x5000, 2, 0), 0, 1);
    clear(3);
}

static void odd_records(void)
{
    begin_case(bench, "a record that isn't live counts as dead");
    put_record_word(0, CLUNDIP_RECORD_LIVE, 0);
    for (uint64_t word = 1; word < CLUNDIP_RECORD_WORDS; word++)
        put_record_word(0, word, BIT(63) + word);
    calls_refuse(SLOT, 0, 2);
    REFUSED(call_create(), 6);
    REFUSED(call_create_legacy(), 6);
    put_map(0, 5, 0);
    create(0);

    begin_case(bench, "only bit 0 of VENDOR_HYP counts");
    put_record_word(0, CLUNDIP_RECORD_VENDOR_HYP, UINT64_MAX - 1);
    RETURNS(guest(CLUNDIP_FUNCTION_FEATURES, 0, 0, 0), NS, 0);
    RETURNS(guest(CLUNDIP_FUNCTION_UID, 0, 0, 0), NS, 0);
    put_record_word(0, CLUNDIP_RECORD_VENDOR_HYP, BIT(63) + 1);
    RETURNS(guest(CLUNDIP_FUNCTION_FEATURES, 0, 0, 0), 0xFFD, 0);
}

void odd_word_cases(void)
{
    refused_with_1_to_5();
    refused_with_6_to_9();
    nothing_to_change();
    one_record();
    one_granule();
    odd_records();
}
