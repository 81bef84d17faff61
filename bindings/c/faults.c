/* The words of faults: see faults.h. */
#include "faults.h"

#include <stdio.h>

void fault_place(const sfq_fault *fault, char place[FAULT_PLACE])
{
    int is_text = fault->letter == 'W';
    int has_second = !is_text && (fault->number == 4 || fault->number >= 6);
    int length = snprintf(place, FAULT_PLACE, "%c%u", fault->letter, fault->number);
    if (is_text && fault->number < 4) {
        snprintf(place + length, FAULT_PLACE - (size_t)length, " at %zu", fault->first);
    } else if (has_second) {
        snprintf(place + length, FAULT_PLACE - (size_t)length, " %zu %zu", fault->first, fault->second);
    } else if (!is_text) {
        snprintf(place + length, FAULT_PLACE - (size_t)length, " %zu", fault->first);
    }
}

const char *words_of(const struct meaning *known, size_t count, uint8_t letter, uint8_t number)
{
    for (size_t at = 0; at < count; at++) {
        if (known[at].letter == letter && known[at].number == number) {
            return known[at].words;
        }
    }
    return "an unknown fault";
}

const char *fault_meaning(const sfq_fault *fault)
{
    static const struct meaning known[] = {
#define FAULT(letter, number, words) { letter, number, words },
#define TABLE_FAULT(letter, number, words)
#include "../python/sfq/fault_words.h"
#undef FAULT
#undef TABLE_FAULT
    };
    return words_of(known, sizeof known / sizeof known[0], fault->letter, fault->number);
}
