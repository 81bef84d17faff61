/*
 * The rows of a table that is loaded: by libsfq_tables, which is proved, and then kept here as SQLite asks for them, by the order of
 * the key. Each geometry is read once by libsfq and kept beside its canonical text, and the column has an index of their envelopes.
 * Nothing here is proved. Loading takes memory for both, until the database of libsfq_tables is closed.
 */
#ifndef SFQ_ROWS_H
#define SFQ_ROWS_H

#include "sfq_tables.h"

/* The text of a field: where it is in the texts of the rows, and the geometry that it spells, in a column of geometries. */
struct text {
    size_t at, length;
    sfq_geometry geometry;
};

/* A field. Of an integer `value` is the number, else the number of its text. */
struct field {
    bool is_there;
    int64_t value;
};

struct column {
    char *name;
    uint32_t type;
    sfq_index index;
};

struct rows {
    size_t count, column_count, key;
    struct column *columns;
    /* All fields, row by row, and the room that there is for rows. */
    struct field *fields;
    size_t row_room;
    struct text *texts;
    size_t text_count, text_room;
    /* All texts. Before each is its number, by which a text is found from its address. */
    char *bytes;
    size_t byte_count, byte_room;
};

/* Frees all rows, and leaves none. */
void free_rows(struct rows *rows);

/* The field of a column in a row. */
static inline const struct field *field_of(const struct rows *rows, size_t row, size_t column)
{
    return &rows->fields[row * rows->column_count + column];
}

/* The key of a row. */
static inline int64_t key_of(const struct rows *rows, size_t row)
{
    return field_of(rows, row, rows->key)->value;
}

/* How many rows have a key that is less than this one, or is it, if that is wanted. */
size_t rows_below(const struct rows *rows, int64_t key, bool or_equal);

/* The text that begins at an address, with its geometry; null where none of these does. */
struct text *text_at(const struct rows *rows, const char *address);

/* Makes room for so many items more. */
bool has_room(void **items, size_t size, size_t count, size_t more, size_t *room);

/* Takes the names and types of a table's columns from an open database, and which of them is the key. */
int name_columns(struct rows *rows, sfq_database *database, size_t table);

/* Takes all rows from a database in which the table is loaded, and whose columns are named. They are to be freed in any case. */
int take_rows(struct rows *rows, sfq_database *database, size_t table);

#endif
