/* How databases.c and rows.c make a call once more where memory was refused, and put together what is printed of a line. */
#ifndef ASKED_H
#define ASKED_H

#include "kept.h"

#include "sfq_tables.h"

#include <stdio.h>
#include <string.h>

/* Whether memory was refused in this line. */
static __thread bool ran_out;

/* Whether a call has to be made once more, since memory was refused. */
static bool again(int status)
{
    ran_out = ran_out || status == SFQ_OUT_OF_MEMORY;
    return status == SFQ_OUT_OF_MEMORY;
}

/* Adds words to a line, behind a blank. */
static void add(struct printed *out, const char *words)
{
    size_t length = strlen(out->text);
    snprintf(out->text + length, sizeof out->text - length, "%s%s", length > 0 ? " " : "", words);
}

#endif
