/*
 * The calls of the library, for SQLite's arguments. The text of a geometry in a row of a virtual table has its geometry kept with it
 * (connections.h). Of other texts a function of a connection keeps the last geometry of each of its arguments.
 *
 * Of the calls of the crate sfq_c, over which the library is made, it is proved that the matrix is that of the sets of points of
 * both texts, and the fault the first one. Not proved are the library's own sfq.c, and what is here and in keeping.h: SQLite's
 * texts are there, with their lengths, until the function returns, and what is kept belongs to the same text.
 */
#ifndef SFQ_ASKING_H
#define SFQ_ASKING_H

#include "connections.h"

/* The status of a pattern that isn't one. */
#define NO_PATTERN SFQ_UNKNOWN

/* The geometry of an argument, which is a text: that of a table's row, else the one that is kept, which is read if it is another. */
int take_argument(struct function *function, int which, sqlite3_value *value, sfq_geometry **geometry, sfq_fault *fault);

/* Whether the argument is the text of a valid geometry. */
int ask_fault(sqlite3_value **values, sfq_fault *fault);

/* The matrix of the first two arguments. */
int ask_matrix(struct function *function, sqlite3_value **values, char matrix[10], sfq_fault *fault);

/* Whether the function's relation holds of the first two arguments: 1 or 0. */
int ask_relation(struct function *function, sqlite3_value **values, int64_t *number, sfq_fault *fault);

/* Whether the matrix of the first two arguments matches the third: 1 or 0. */
int ask_pattern(struct function *function, sqlite3_value **values, int64_t *number, sfq_fault *fault);

/* Whether the argument is the empty set of points: 1 or 0. */
int ask_empty(struct function *function, sqlite3_value **values, int64_t *number, sfq_fault *fault);

/* The dimension of the argument. */
int ask_dimension(struct function *function, sqlite3_value **values, int64_t *number, sfq_fault *fault);

/* One of the four bounds of the argument, the function's own; SFQ_NONE where it is empty. */
int ask_bound(struct function *function, sqlite3_value **values, int64_t *number, sfq_fault *fault);

/* Writes a text into a room of this size, by the protocol of sfq_text: one of write_why, write_canonical, write_blob and
 * write_text_of_blob. */
typedef int writing(struct function *, int, sqlite3_value **, char *, size_t, size_t *, sfq_fault *);

/* What shows each cell of the matrix of two arguments, or whether one is valid, and where not. */
int write_why(struct function *function, int count, sqlite3_value **values, char *room, size_t size, size_t *length,
              sfq_fault *fault);

/* The canonical text of the argument. */
int write_canonical(struct function *function, int count, sqlite3_value **values, char *room, size_t size, size_t *length,
                    sfq_fault *fault);

/* The well-known binary of the argument. */
int write_blob(struct function *function, int count, sqlite3_value **values, char *room, size_t size, size_t *length,
               sfq_fault *fault);

/* The canonical text of the argument, which is well-known binary. Its geometry is kept under its bytes. */
int write_text_of_blob(struct function *function, int count, sqlite3_value **values, char *room, size_t size, size_t *length,
                       sfq_fault *fault);

/* Has a text written, in memory that sqlite3_free frees, also where the status isn't SFQ_OK. */
int ask_text(struct function *function, int count, sqlite3_value **values, writing *write, char **text, size_t *length,
             sfq_fault *fault);

#endif
