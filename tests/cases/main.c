/* The calls of include/clundip.h, run and compared: document 01's own examples, and what only a caller in C can ask. */
#include "cases.h"
#include "check.h"

int main(void)
{
    setvbuf(stdout, NULL, _IOLBF, 0); /* lines are seen even if a call never returns */
    document_cases();
    header_cases();
    number_cases();
    odd_word_cases();
    show_cases();
    damage_cases();
    guest_call_cases();
    legacy_cases();
    host_call_cases();
    length_cases();
    slot_cases();
    flag_cases();
    return end_of_cases();
}
