/* Lengths out of bounds, null tables, and the least and greatest lengths. */
#include "cases.h"
#include "check.h"

struct lengths {
    size_t frames, map;
    unsigned wrong; /* the tables whose length is out of bounds */
};

/* A table of length 0 is lent as null. */
static const struct lengths null_tables[] = {{0, 512, FRAMES}, {256, 0, MAP}, {0, 0, MAP}};

static const struct lengths wrong_lengths[] = {
    {16385, 512, FRAMES}, {256, 1, MAP},   {256, 4, MAP},     {256, 7, MAP},     {256, 9, MAP},
    {256, 511, MAP},      {256, 513, MAP}, {256, 32767, MAP}, {256, 32776, MAP}, {16385, 32776, MAP},
};

/* Verdict 1 comes before verdict 2, so a slot that is not live makes no difference. */
static void refuses_lengths(const char *name, const struct call *call, const struct lengths *rows, size_t count)
{
    begin_case(bench, "%s: %s", name, call->name);
    for (size_t i = 0; i < count; i++) {
        if (!(call->needs & rows[i].wrong))
            continue;
        lend(rows[i].frames, rows[i].map);
        REFUSED(call->make(0), 1);
        REFUSED(call->make(9), 1);
    }
}

/* A guest in the last slot with the last frame at the last granule, from its donation to its removal. */
static void last_of_all(uint64_t f, uint64_t w)
{
    const uint64_t frame = f - 1, granule = w - 1, base = 4096 * granule;
    begin_case(NULL, "F = %" PRIu64 ", W = %" PRIu64, f, w);
    lend_fresh(f, w);
    create_all();
    donate(7, frame, granule);
    run(7);
    becomes_shared(7, granule, frame);
    RETURNS(call_hypercall(7, CLUNDIP_FUNCTION_SHARE, base, UINT64_MAX, 0), 0, 1);
    EXPECT(call_access(frame), 0, 1);
    EXPECT(call_abort(7, base + 4095), 13, 0);
    becomes_waiting(7, granule, frame);
    remove_guest(7, 1);
    clear(frame);
}

void length_cases(void)
{
    for (const struct call *call = calls; call < calls + CALLS; call++) {
        if (!(call->needs & MAP))
            continue;
        refuses_lengths("null tables", call, null_tables, COUNT(null_tables));
        refuses_lengths("lengths out of bounds", call, wrong_lengths, COUNT(wrong_lengths));
    }
    last_of_all(1, 1);
    last_of_all(1, 4096);
    last_of_all(16384, 1);
    last_of_all(16384, 4096);
}
