/*
 * The calls of the library, for PostgreSQL's arguments. The last geometry of each argument is in fn_extra, and is freed with the
 * memory of the call's FmgrInfo. A process runs one call at a time, so a geometry serves one at a time, as the library demands.
 *
 * Of the calls of the crate sfq_c, over which the library is made, it is proved that the matrix is that of the sets of points of
 * both texts, and the fault the first one. Not proved are the library's own sfq.c, and what is here, in server_memory.h and in keeping.h: a text
 * is there, whole and with its length, until the function returns; what is kept belongs to the same value; and no call of the
 * library calls back into PostgreSQL but for memory, where nothing raises an error, so none leaves a call half way.
 */
#ifndef SFQ_ASKING_H
#define SFQ_ASKING_H

#include "postgresql.h"
#include "utils/memutils.h"

#include "keeping.h"

/* The status of a pattern that isn't one. */
#define NO_PATTERN SFQ_UNKNOWN

/* What is kept between the calls of one FmgrInfo. */
struct memory {
    struct kept kept[2];
    int32_t systems[2];
    MemoryContextCallback callback;
};

/* What is kept for the function's calls, made at the first. */
struct memory *memory_of(FunctionCallInfo fcinfo);

/* Reads both arguments from their binary form. False where one of them isn't taken, isn't valid, or they have different systems. */
bool take_both(FunctionCallInfo fcinfo, struct memory *memory);

/* Whether the argument is the text of a valid geometry. */
int ask_fault(FunctionCallInfo fcinfo, sfq_fault *fault);

/* The matrix of the first two arguments. */
int ask_matrix(FunctionCallInfo fcinfo, char matrix[10], sfq_fault *fault);

/* Whether a relation holds of the first two arguments. */
int ask_relation(FunctionCallInfo fcinfo, enum sfq_relation of, bool *answer, sfq_fault *fault);

/* Whether the matrix of the first two arguments matches the third. */
int ask_pattern(FunctionCallInfo fcinfo, bool *answer, sfq_fault *fault);

/* The dimension of the argument. */
int ask_dimension(FunctionCallInfo fcinfo, uint32_t *dimension, sfq_fault *fault);

/* Whether the argument is the empty set of points. */
int ask_empty(FunctionCallInfo fcinfo, bool *answer, sfq_fault *fault);

/* The bounds of the argument; SFQ_NONE where it is empty. */
int ask_bounds(FunctionCallInfo fcinfo, int32_t bounds[4], sfq_fault *fault);

/* Writes a text into a room of this size, by the protocol of sfq_text: one of write_why and write_canonical. */
typedef int writing(FunctionCallInfo, char *, size_t, size_t *, sfq_fault *);

/* What shows each cell of the matrix of two arguments, or whether one is valid, and where not. */
int write_why(FunctionCallInfo fcinfo, char *room, size_t size, size_t *length, sfq_fault *fault);

/* The canonical text of the argument. */
int write_canonical(FunctionCallInfo fcinfo, char *room, size_t size, size_t *length, sfq_fault *fault);

/* Has a text written in the memory of the call. */
int ask_text(FunctionCallInfo fcinfo, writing *write, char **written, size_t *length, sfq_fault *fault);

#endif
