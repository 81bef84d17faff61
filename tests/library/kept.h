/* What calls.c, kept.c, whys.c, indexes.c, binaries.c, databases.c and rows.c share. */
#ifndef KEPT_H
#define KEPT_H

#include "sfq.h"

/* What is printed of a call. */
struct printed {
    char text[1000];
};

/* The most words of a call. */
#define WORDS 4

/* The status and the fault as they are printed. */
void print_fault(struct printed *out, int status, const sfq_fault *fault);

/* What is printed of a call over what is kept: what went wrong, if anything, else its own text, behind `3 ` where memory was refused. */
struct printed printed_of(const char *wrong, bool was_refused, const struct printed *out);

/* Whether the words are a call over geometries that are kept. */
bool is_kept_call(char *const words[WORDS]);

/* Makes such a call. */
struct printed run_kept(char *const words[WORDS]);

/* Whether the words are a call that says why. */
bool is_why_call(char *const words[WORDS]);

/* Makes such a call. */
struct printed run_why(char *const words[WORDS]);

/* Whether the words are a call over an index of envelopes. */
bool is_index_call(char *const words[WORDS]);

/* Makes such a call. */
struct printed run_index(char *const words[WORDS]);

/* Whether the words are a call over well-known binary, or a join. */
bool is_binary_call(char *const words[WORDS]);

/* Makes such a call. */
struct printed run_binary(char *const words[WORDS]);

/* Whether the words are a call over a database. */
bool is_database_call(char *const words[WORDS]);

/* Makes such a call. */
struct printed run_database(char *const words[WORDS]);

/* Whether the words are a call over the rows of statements. */
bool is_row_call(char *const words[WORDS]);

/* Makes such a call. */
struct printed run_row(char *const words[WORDS]);

/* Reads geometries in this thread, uses each in one of four others, and frees it here. Returns how many calls went wrong. */
int hand_over(void);

#endif
