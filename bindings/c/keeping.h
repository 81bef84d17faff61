/*
 * The geometry that an argument of a function in SQL had at the last call: SQLite's and PostgreSQL's extensions keep one for each
 * argument, since neighbouring rows often share it. Nothing here is proved. A text is compared byte by byte before what was kept
 * for it is used.
 */
#ifndef SFQ_KEEPING_H
#define SFQ_KEEPING_H

#include "sfq.h"

/* A value as its bytes, and the geometry that it spells; null where none is kept. */
struct kept {
    char *bytes;
    size_t length;
    sfq_geometry geometry;
};

/* Frees what is kept. */
void forget(struct kept *kept);

/* Whether these bytes are those of the geometry that is kept. */
bool is_kept(const struct kept *kept, const char *bytes, size_t length);

/* Keeps a geometry that was read with this status under its bytes. */
int keep_under(struct kept *kept, const char *bytes, size_t size, int status);

/* Reads a text in place of what is kept, and keeps it under its bytes, which may be another form of the text. */
int keep(struct kept *kept, const char *bytes, size_t size, const char *text, size_t length, sfq_fault *fault);

/* The status of a call that took two texts, where this is that of reading the second. */
int of_second(int status);

#endif
