/* Document 01's bench sheet, the published UID, and the trace example. */
#include "cases.h"
#include "check.h"

static void bench_granule_63(void)
{
    bench();
    donate(0, 4, 63);
}

/* The hypercalls of the sheet. */
static const struct row {
    const char *name;
    void (*before)(void);
    uint64_t r[4], r0, r1; /* R0 to R3 of the call, and R0 and R1 after it */
    uint64_t frame;        /* the one that becomes shared, if R0 is 0 */
} sheet[] = {
    {"share 0x5000 for 2", bench, {CLUNDIP_FUNCTION_SHARE, 0x5000, 2}, 0, 1, 3},
    {"share 0x5000 for 2, then 0x6000 for 1", bench_shared, {CLUNDIP_FUNCTION_SHARE, 0x6000, 1}, IP, 0, 0},
    {"share 0x5000 for 0", bench, {CLUNDIP_FUNCTION_SHARE, 0x5000, 0}, 0, 1, 3},
    {"share 0x5001", bench, {CLUNDIP_FUNCTION_SHARE, 0x5001, 0}, IP, 0, 0},
    {"share 0x5000 with R3 = 1", bench, {CLUNDIP_FUNCTION_SHARE, 0x5000, 0, 1}, IP, 0, 0},
    {"share 0xFFFFFFFFFFFFF000 for 2", bench, {CLUNDIP_FUNCTION_SHARE, 0xFFFFFFFFFFFFF000, 2}, IP, 0, 0},
    {"granule 63 private, share 0x3F000 for 2", bench_granule_63, {CLUNDIP_FUNCTION_SHARE, 0x3F000, 2}, 0, 1, 4},
    {"R0 = 0x1C6000003", bench, {0x1C6000003, 0x5000, 0}, 0, 1, 3},
    {"0xC600000C", bench, {0xC600000C}, NS, 0, 0},
    {"range guard map 0x7000 for 0, enrolled", bench_enrolled, {CLUNDIP_FUNCTION_RANGE_GUARD_MAP, 0x7000, 0}, NS, 0, 0},
    {"guard map 0x5000, enrolled", bench_enrolled, {CLUNDIP_FUNCTION_GUARD_MAP, 0x5000}, NS, 0, 0},
};

static void hypercalls_of_the_sheet(void)
{
    for (const struct row *row = sheet; row < sheet + COUNT(sheet); row++) {
        begin_case(row->before, "bench: %s", row->name);
        if (row->r0 == 0)
            becomes_shared(0, row->r[1] / 4096, row->frame);
        RETURNS(guest(row->r[0], row->r[1], row->r[2], row->r[3]), row->r0, row->r1);
    }
}

/* Granule g has frame g - 2, modulo 256, so that frame 3 is at granule 5 here too. */
static uint64_t frame_of(uint64_t granule)
{
    return (granule + 254) % 256;
}

static void share_65(void)
{
    lend_fresh(256, 128);
    create(0);
    for (uint64_t g = 0; g <= 64; g++)
        donate(0, frame_of(g), g);
    run(0);
    for (uint64_t g = 0; g < 64; g++)
        becomes_shared(0, g, frame_of(g));
    RETURNS(share(0, 65), 0, 64);
}

static void rest_of_the_sheet(void)
{
    begin_case(bench, "bench: abort at 0x6000");
    EXPECT(call_abort(0, 0x6000), 11, 0x6000);

    begin_case(bench_enrolled, "bench: abort at 0x6000, enrolled");
    EXPECT(call_abort(0, 0x6000), 12, 0);

    begin_case(share_65, "bench: W = 128, share 0 for 65");

    begin_case(share_65, "bench: W = 128, share 0 for 65, then 0x40000 for 1");
    becomes_shared(0, 64, frame_of(64));
    RETURNS(share(0x40000, 1), 0, 1);
}

/* Four words from a UID in text form, each of four bytes of the text, the first one lowest. */
static void read_uid(const char *text, uint64_t words[4])
{
    unsigned byte = 0;
    memset(words, 0, 4 * sizeof words[0]);
    for (size_t i = 0; i < 16; i++, text += 2) {
        text += *text == '-';
        sscanf(text, "%2x", &byte);
        words[i / 4] |= (uint64_t)byte << 8 * (i % 4);
    }
}

static void published_uid(void)
{
    uint64_t words[4];
    begin_case(bench, "published UID");
    read_uid("28b46fb6-2ec5-11e9-a9ca-4b564d003a74", words);
    guest(CLUNDIP_FUNCTION_UID, 0, 0, 0);
    answers(10, words[0], words[1], words[2], words[3]);
}

static void print_answer(char *text, size_t size)
{
    const uint64_t *a = lent.answer;
    const size_t end = strlen(text);
    snprintf(text + end, size - end, "%" PRIu64 " %" PRIu64 " %" PRIu64 " %" PRIu64 " %" PRIu64 "; ", a[0], a[1], a[2],
             a[3], a[4]);
}

static void trace_example(void)
{
    char text[200] = "";
    begin_case(fresh, "trace example");
    call_create();
    print_answer(text, sizeof text);
    call_donate(0, 3, 5);
    print_answer(text, sizeof text);
    call_run(0);
    print_answer(text, sizeof text);
    share(0x5000, 1);
    print_answer(text, sizeof text);
    text_is("0 0 0 0 0; 0 0 0 0 0; 0 0 0 0 0; 10 0 1 0 0; ", text);
    record_becomes(0, 1, 1, 1);
    becomes_shared(0, 5, 3);
    answers(10, 0, 1, 0, 0);
}

void document_cases(void)
{
    hypercalls_of_the_sheet();
    rest_of_the_sheet();
    published_uid();
    trace_example();
}
