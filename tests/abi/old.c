/* A program of layout 1, with its header: it compiles, and doesn't link with an archive of another layout. */
#include "clundip_abi1.h"

int main(void)
{
    static uint64_t records[CLUNDIP_ALL_RECORDS_WORDS], answer[CLUNDIP_ANSWER_WORDS];
    static uint32_t frames[256], map[8 * 64];

    clundip_create(records, frames, 256, map, 512, answer);
    return (int)answer[CLUNDIP_ANSWER_VERDICT];
}
