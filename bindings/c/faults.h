/*
 * What the extensions of SQLite and PostgreSQL share: the words of a fault. Nothing here is proved. The fault that
 * comes in here is that of the library's calls, which is.
 */
#ifndef SFQ_FAULTS_H
#define SFQ_FAULTS_H

#include "sfq.h"

/* Room for a code with its places. */
#define FAULT_PLACE 64

/* Writes a code with its places, as the program sfq prints them: "W1 at 9", "V4 0 1". */
void fault_place(const sfq_fault *fault, char place[FAULT_PLACE]);

/* The code of a fault: what it means, and what to do. */
struct meaning {
    uint8_t letter;
    uint8_t number;
    const char *words;
};

/* The words of a code among these, and of any other that it is unknown. */
const char *words_of(const struct meaning *known, size_t count, uint8_t letter, uint8_t number);

/* What a fault means, and what to do. */
const char *fault_meaning(const sfq_fault *fault);

#endif
