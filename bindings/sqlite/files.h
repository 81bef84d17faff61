/*
 * Loads a virtual table from its files, and says why it can't be loaded: in the words of `sfq check`, with what they mean. Nothing here
 * is proved. A file is read to its end before it is looked at, so that none that another program changes meanwhile ends the process.
 *
 * The paths may be of somebody who wrote the schema of a database file. So only a regular file is read, and no more of it than a bound:
 * no device without end, no pipe that nobody writes to.
 */
#ifndef SFQ_FILES_H
#define SFQ_FILES_H

#include "options.h"
#include "rows.h"

/* Sets an error that sqlite3_mprintf made. */
int failed(char **error, char *text);

/* Loads the rows that the options name, after their columns, which are there if the schema has them. Both are to be freed in any case. */
int load_rows(struct rows *rows, const struct options *options, char **error);

#endif
