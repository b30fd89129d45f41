/* The cases by topic, in the order in which they run. */
#ifndef CASES_H
#define CASES_H

void document_cases(void);
void header_cases(void);
void number_cases(void);
void odd_word_cases(void);
void show_cases(void);
void damage_cases(void);
void guest_call_cases(void);
void legacy_cases(void);
void host_call_cases(void);
void length_cases(void);
void slot_cases(void);
void flag_cases(void);

#endif
