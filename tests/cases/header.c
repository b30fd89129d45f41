/* The names of include/clundip.h and their numbers. */
#include "cases.h"
#include "check.h"

#if CLUNDIP_SLOTS != 8 || CLUNDIP_VERDICT_RESUME != 13 || CLUNDIP_FUNCTION_UID != 0x8600FF01 || CLUNDIP_MAP_VACANT != 0
#error "the constants can't be used in the preprocessor"
#endif

struct constant {
    const char *name;
    uint64_t found, number;
};

#define NAME(name) "CLUNDIP_" #name, CLUNDIP_##name

/* Whoever changes the words of an area or their order here changes the layout, and raises CLUNDIP_ABI. */
static const struct constant bounds_and_orders[] = {
    {NAME(ABI), 2},
    {NAME(SLOTS), 8},
    {NAME(GRANULE_SIZE), 4096},
    {NAME(MAX_FRAMES), 16384},
    {NAME(MAX_GRANULES), 4096},
    {NAME(RECORD_WORDS), 7},
    {NAME(ALL_RECORDS_WORDS), 56},
    {NAME(ANSWER_WORDS), 5},
    {NAME(PART_WORDS), 2},
    {NAME(RECORD_LIVE), 0},
    {NAME(RECORD_LEGACY), 1},
    {NAME(RECORD_RUN), 2},
    {NAME(RECORD_ENROLLED), 3},
    {NAME(RECORD_STD), 4},
    {NAME(RECORD_STD_HYP), 5},
    {NAME(RECORD_VENDOR_HYP), 6},
    {NAME(ANSWER_VERDICT), 0},
    {NAME(ANSWER_V0), 1},
    {NAME(ANSWER_V1), 2},
    {NAME(ANSWER_V2), 3},
    {NAME(ANSWER_V3), 4},
    {NAME(PART_BEGIN), 0},
    {NAME(PART_LENGTH), 1},
};

static const struct constant verdicts_and_errors[] = {
    {NAME(VERDICT_DONE), 0},
    {NAME(VERDICT_BAD_LENGTH), 1},
    {NAME(VERDICT_NO_GUEST), 2},
    {NAME(VERDICT_NEVER_RUN), 3},
    {NAME(VERDICT_OUT_OF_RANGE), 4},
    {NAME(VERDICT_IN_USE), 5},
    {NAME(VERDICT_DAMAGED), 6},
    {NAME(VERDICT_NO_FREE_SLOT), 7},
    {NAME(VERDICT_NOT_WAITING), 8},
    {NAME(VERDICT_REGISTER_REFUSED), 9},
    {NAME(VERDICT_RETURN), 10},
    {NAME(VERDICT_MMIO_EXIT), 11},
    {NAME(VERDICT_EXCEPTION), 12},
    {NAME(VERDICT_RESUME), 13},
    {NAME(ENOENT), NEGATIVE(2)},
    {NAME(EINVAL), NEGATIVE(22)},
    {NAME(EBUSY), NEGATIVE(16)},
    {NAME(NOT_SUPPORTED), NEGATIVE(1)},
    {NAME(INVALID_PARAMETER), NEGATIVE(3)},
};

static const struct constant functions_registers_words[] = {
    {NAME(FUNCTION_FEATURES), 0x86000000},
    {NAME(FUNCTION_UID), 0x8600FF01},
    {NAME(FUNCTION_MEMORY_INFO), 0xC6000002},
    {NAME(FUNCTION_SHARE), 0xC6000003},
    {NAME(FUNCTION_UNSHARE), 0xC6000004},
    {NAME(FUNCTION_GUARD_INFO), 0xC6000005},
    {NAME(FUNCTION_ENROLL), 0xC6000006},
    {NAME(FUNCTION_GUARD_MAP), 0xC6000007},
    {NAME(FUNCTION_GUARD_UNMAP), 0xC6000008},
    {NAME(FUNCTION_RELINQUISH), 0xC6000009},
    {NAME(FUNCTION_RANGE_GUARD_MAP), 0xC600000A},
    {NAME(FUNCTION_RANGE_GUARD_UNMAP), 0xC600000B},
    {NAME(FEATURES), 0xFFD},
    {NAME(FEATURES_LEGACY), 0x29D},
    {NAME(REGISTER_STD), 0},
    {NAME(REGISTER_STD_HYP), 1},
    {NAME(REGISTER_VENDOR_HYP), 2},
    {NAME(MAP_VACANT), 0},
    {NAME(MAP_PRIVATE), 0x40000000},
    {NAME(MAP_SHARED), 0x80000000},
    {NAME(MAP_GUARDED), 0xC0000000},
    {NAME(FRAME_HOST), 0},
    {NAME(FRAME_WAITING), 0xFF000000},
};

static void constants(const char *name, const struct constant *constant, size_t count)
{
    begin_case(NULL, "header: %s", name);
    for (; count > 0; count--, constant++)
        number_is(constant->name, constant->found, constant->number);
}

void header_cases(void)
{
    constants("bounds and orders", bounds_and_orders, COUNT(bounds_and_orders));
    constants("verdicts and errors", verdicts_and_errors, COUNT(verdicts_and_errors));
    constants("functions, registers, words", functions_registers_words, COUNT(functions_registers_words));
}
