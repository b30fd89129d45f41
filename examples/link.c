/* Document 01's example: create, donate frame 3 at granule 5, run, share one granule there (docs/LINKING.md). */
#include <stdio.h>

#include "clundip.h"

int main(void)
{
    static uint64_t records[CLUNDIP_ALL_RECORDS_WORDS], answer[CLUNDIP_ANSWER_WORDS];
    static uint32_t frames[256], map[8 * 64];

    clundip_create(records, frames, 256, map, 512, answer);
    const uint64_t slot = answer[CLUNDIP_ANSWER_V0], base = 5 * CLUNDIP_GRANULE_SIZE;
    clundip_donate(records, frames, 256, map, 512, slot, 3, 5, answer);
    clundip_run(records, slot, answer);
    clundip_hypercall(records, frames, 256, map, 512, slot, CLUNDIP_FUNCTION_SHARE, base, 1, 0, answer);
    for (int i = 0; i < 5; i++)
        printf("%llu%c", (unsigned long long)answer[i], i < 4 ? ' ' : '\n');
    return 0;
}
