/* The lent memory, the comparison of it, and the cases' lines. */
#include "check.h"

#include <stdarg.h>

enum {
    CANARY = 0xC5,    /* each byte of a canary word */
    UNWRITTEN = 0xA9, /* each byte of answer and part before a call */
};

struct memory lent, expected;
size_t frame_words, map_words;

/* Cases. */

static char case_name[120], last_call[160];
static unsigned passed, failed;
bool case_failed;

static void end_case(void)
{
    if (!case_name[0])
        return;
    if (!case_failed)
        printf("ok %s\n", case_name);
    passed += !case_failed;
    failed += case_failed;
}

void begin_case(void (*before)(void), const char *format, ...)
{
    va_list arguments;
    end_case();
    va_start(arguments, format);
    vsnprintf(case_name, sizeof case_name, format, arguments);
    va_end(arguments);
    last_call[0] = '\0';
    case_failed = false;
    if (before)
        before();
}

int end_of_cases(void)
{
    end_case();
    printf("%u passed, %u failed\n", passed, failed);
    return failed != 0;
}

static void fail(const char *format, ...)
{
    if (case_failed)
        return;
    case_failed = true;
    va_list arguments;
    va_start(arguments, format);
    printf("FAILED %s: ", case_name);
    vprintf(format, arguments);
    printf("%s%s\n", last_call[0] ? " after " : "", last_call);
    va_end(arguments);
}

/* Expectations. */

struct area {
    const char *name;
    size_t begin; /* all in bytes */
    size_t size;
    size_t word_size;
};

#define AREA(name) #name, offsetof(struct memory, name), sizeof lent.name, sizeof lent.name[0]

static const struct area areas[] = {
    {AREA(answer)},     {AREA(part)},           {AREA(records)},       {AREA(frames)},
    {AREA(map)},        {AREA(before_records)}, {AREA(before_answer)}, {AREA(before_part)},
    {AREA(after_part)}, {AREA(before_frames)},  {AREA(before_map)},    {AREA(after_map)},
};

static uint64_t word_at(const struct memory *memory, const struct area *area, size_t index)
{
    const char *place = (const char *)memory + area->begin + index * area->word_size;
    uint64_t word64;
    uint32_t word32;
    if (area->word_size == sizeof word64) {
        memcpy(&word64, place, sizeof word64);
        return word64;
    }
    memcpy(&word32, place, sizeof word32);
    return word32;
}

static void compare_area(const struct area *area)
{
    if (!memcmp((char *)&lent + area->begin, (char *)&expected + area->begin, area->size))
        return;
    size_t i = 0;
    while (word_at(&lent, area, i) == word_at(&expected, area, i))
        i++;
    fail("expected %s[%zu] 0x%" PRIx64 " found 0x%" PRIx64, area->name, i, word_at(&expected, area, i),
         word_at(&lent, area, i));
}

static void compare_answer(void)
{
    const uint64_t *e = expected.answer, *f = lent.answer;
    if (memcmp(e, f, sizeof lent.answer))
        fail("expected %" PRIu64 " %" PRIu64 " %" PRIu64 " %" PRIu64 " %" PRIu64 " found %" PRIu64 " %" PRIu64
             " %" PRIu64 " %" PRIu64 " %" PRIu64,
             e[0], e[1], e[2], e[3], e[4], f[0], f[1], f[2], f[3], f[4]);
}

void answers(uint64_t verdict, uint64_t v0, uint64_t v1, uint64_t v2, uint64_t v3)
{
    memcpy(expected.answer, (uint64_t[]){verdict, v0, v1, v2, v3}, sizeof expected.answer);
    compare_answer();
    for (size_t i = 0; i < COUNT(areas); i++)
        compare_area(&areas[i]);
}

void number_is(const char *name, uint64_t found, uint64_t number)
{
    if (found != number)
        fail("expected %s 0x%" PRIx64 " found 0x%" PRIx64, name, number, found);
}

void text_is(const char *text, const char *found)
{
    if (strcmp(text, found))
        fail("expected %s found %s", text, found);
}

static size_t map_index(uint64_t slot, uint64_t granule)
{
    return slot * (map_words / 8) + granule;
}

void map_becomes(uint64_t slot, uint64_t granule, uint32_t word)
{
    expected.map[map_index(slot, granule)] = word;
}

void frame_becomes(uint64_t frame, uint32_t word)
{
    expected.frames[frame] = word;
}

void record_becomes(uint64_t slot, uint64_t live, uint64_t run, uint64_t vendor_hyp)
{
    uint64_t *record = expected.records + CLUNDIP_RECORD_WORDS * slot;
    memset(record, 0, CLUNDIP_RECORD_WORDS * sizeof(uint64_t));
    record[CLUNDIP_RECORD_LIVE] = live;
    record[CLUNDIP_RECORD_RUN] = run;
    record[CLUNDIP_RECORD_VENDOR_HYP] = vendor_hyp;
}

void record_word_becomes(uint64_t slot, uint64_t word, uint64_t value)
{
    expected.records[CLUNDIP_RECORD_WORDS * slot + word] = value;
}

/* Words put in by hand. */

void put_map(uint64_t slot, uint64_t granule, uint32_t word)
{
    lent.map[map_index(slot, granule)] = word;
    map_becomes(slot, granule, word);
}

void put_frame(uint64_t frame, uint32_t word)
{
    lent.frames[frame] = word;
    frame_becomes(frame, word);
}

void put_record_word(uint64_t slot, uint64_t word, uint64_t value)
{
    lent.records[CLUNDIP_RECORD_WORDS * slot + word] = value;
    record_word_becomes(slot, word, value);
}

/* What is lent. */

void lend(size_t frames, size_t map)
{
    frame_words = frames;
    map_words = map;
}

void lend_fresh(size_t f, size_t w)
{
    memset(&lent, CANARY, sizeof lent);
    lend(f, 8 * w);
    memset(lent.records, 0, sizeof lent.records);
    memset(lent.frames, 0, f * sizeof lent.frames[0]);
    memset(lent.map, 0, 8 * w * sizeof lent.map[0]);
    expected = lent;
}

void fresh(void)
{
    lend_fresh(256, 64);
}

void prepare(const char *call, size_t count, const uint64_t *numbers)
{
    memset(lent.answer, UNWRITTEN, sizeof lent.answer);
    memset(lent.part, UNWRITTEN, sizeof lent.part);
    memcpy(expected.part, lent.part, sizeof lent.part);
    size_t end = (size_t)snprintf(last_call, sizeof last_call, "%s", call);
    for (size_t i = 0; i < count && end < sizeof last_call; i++)
        end += (size_t)snprintf(last_call + end, sizeof last_call - end, " 0x%" PRIx64, numbers[i]);
}
