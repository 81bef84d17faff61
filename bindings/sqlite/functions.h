/*
 * The functions of SQL, which turn what the library returns into SQLite's values and errors. Nothing here is proved.
 *
 * NULL in, NULL out. A text that is refused is an error with the fault, but for ST_IsValid and ST_IsValidReason.
 */
#ifndef SFQ_FUNCTIONS_H
#define SFQ_FUNCTIONS_H

#include <stddef.h>

#include "extension.h"

/* A function by its name and its number of arguments, with the relation of a predicate, or the place of a bound as sfq_envelope has it. */
struct named_function {
    const char *name;
    int count;
    void (*call)(sqlite3_context *, int, sqlite3_value **);
    int of;
};

extern const struct named_function FUNCTIONS[];
extern const size_t FUNCTION_COUNT;

/* The place of the relation with a name, in any ASCII case; FUNCTION_COUNT where it is none of two arguments. */
size_t relation_named(const char *name, int count);

/* The place of the relation with a number. */
size_t relation_numbered(int of);

#endif
