/*
 * The words of CREATE VIRTUAL TABLE t USING sfq(name='value', ..): which table is meant, and the files of its schema and its rows.
 * Nothing here is proved.
 */
#ifndef SFQ_OPTIONS_H
#define SFQ_OPTIONS_H

/* The options by their places. */
enum { FOLDER, SCHEMA, CSV, TABLE, OPTIONS };

/* The values of the options; null where one isn't there. */
struct options {
    char *values[OPTIONS];
};

/* Frees the values. */
void free_options(struct options *options);

/* Reads the options, and puts the paths of a folder in the place of schema and csv. */
int read_options(struct options *options, int count, const char *const *words, char **error);

#endif
