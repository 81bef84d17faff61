/* The rows of a table that is loaded: see rows.h. */
#include "rows.h"

#include <stdlib.h>
#include <string.h>

#include "extension.h"

/* The bytes before a text, which are its number. */
#define HEAD sizeof(size_t)

void free_rows(struct rows *rows)
{
    size_t at;
    for (at = 0; at < rows->column_count && rows->columns != NULL; at++) {
        free(rows->columns[at].name);
        sfq_index_free(&rows->columns[at].index);
    }
    for (at = 0; at < rows->text_count; at++) {
        sfq_free(&rows->texts[at].geometry);
    }
    free(rows->columns);
    free(rows->fields);
    free(rows->texts);
    free(rows->bytes);
    memset(rows, 0, sizeof *rows);
}

size_t rows_below(const struct rows *rows, int64_t key, bool or_equal)
{
    size_t least = 0, most = rows->count;
    while (least < most) {
        size_t middle = least + (most - least) / 2;
        int64_t found = key_of(rows, middle);
        if (found < key || (or_equal && found == key)) {
            least = middle + 1;
        } else {
            most = middle;
        }
    }
    return least;
}

struct text *text_at(const struct rows *rows, const char *address)
{
    uintptr_t at = (uintptr_t)address - (uintptr_t)rows->bytes;
    size_t number;
    if (rows->bytes == NULL || at < HEAD || at >= rows->byte_count) {
        return NULL;
    }
    memcpy(&number, rows->bytes + at - HEAD, HEAD);
    if (number >= rows->text_count || rows->texts[number].at != at || rows->texts[number].geometry.kept == NULL) {
        return NULL;
    }
    return &rows->texts[number];
}

/* ---- loading ---- */

bool has_room(void **items, size_t size, size_t count, size_t more, size_t *room)
{
    size_t wanted = *room;
    void *larger;
    if (more <= *room - count) {
        return true;
    }
    while (wanted - count < more) {
        if (wanted > SIZE_MAX / 2 / size) {
            return false;
        }
        wanted = wanted > 0 ? 2 * wanted : 64;
    }
    larger = realloc(*items, wanted * size);
    if (larger == NULL) {
        return false;
    }
    *items = larger;
    *room = wanted;
    return true;
}

/* Where rows are taken from: a table of a database, the statement over it, and the column that is read. */
struct asked {
    sfq_database *database;
    size_t statement, table, column;
};

/* Adds the text of a field, with its geometry where it has one. Its number is how many texts there were before. */
static int add_text(struct rows *rows, const struct asked *asked, bool is_geometry)
{
    struct text text = { 0, 0, SFQ_EMPTY };
    size_t number = rows->text_count, more = HEAD + 256;
    int status = SFQ_TOO_SMALL;
    while (status == SFQ_TOO_SMALL) {
        if (!has_room((void **)&rows->bytes, 1, rows->byte_count, more, &rows->byte_room) ||
            !has_room((void **)&rows->texts, sizeof text, rows->text_count, 1, &rows->text_room)) {
            return SFQ_OUT_OF_MEMORY;
        }
        text.at = rows->byte_count + HEAD;
        status = sfq_column_text(asked->database, asked->statement, asked->column, rows->bytes + text.at, rows->byte_room - text.at,
                                 &text.length);
        more = HEAD + text.length + 1;
    }
    if (status == SFQ_OK && is_geometry) {
        status = sfq_read(rows->bytes + text.at, text.length, &text.geometry, NULL);
    }
    if (status == SFQ_OK) {
        memcpy(rows->bytes + rows->byte_count, &number, HEAD);
        rows->byte_count = text.at + text.length;
        rows->texts[rows->text_count++] = text;
    }
    return status;
}

/* Adds the row that is there. */
static int add_row(struct rows *rows, struct asked *asked)
{
    struct field *field;
    int status;
    if (!has_room((void **)&rows->fields, rows->column_count * sizeof *field, rows->count, 1, &rows->row_room)) {
        return SFQ_OUT_OF_MEMORY;
    }
    field = &rows->fields[rows->count * rows->column_count];
    for (asked->column = 0; asked->column < rows->column_count; asked->column++, field++) {
        uint32_t type = rows->columns[asked->column].type;
        field->value = (int64_t)rows->text_count;
        status = type == SFQ_INTEGER ? sfq_column_integer(asked->database, asked->statement, asked->column, &field->value)
                                     : add_text(rows, asked, type == SFQ_GEOMETRY);
        field->is_there = status == SFQ_OK;
        if (status != SFQ_OK && status != SFQ_NONE) {
            return status;
        }
    }
    rows->count++;
    return SFQ_OK;
}

/* Gives back the room that no item needs. Where that fails the room stays. */
static void trim(void **items, size_t size)
{
    void *smaller = size > 0 ? realloc(*items, size) : NULL;
    *items = smaller != NULL ? smaller : *items;
}

/* Makes the index of a column of geometries. NULL is as an empty geometry there: no condition is true of it. */
static int index_column(struct rows *rows, size_t column)
{
    static const int32_t none[4] = SFQ_NO_BOUNDS;
    int32_t (*bounds)[4] = malloc(rows->count > 0 ? rows->count * sizeof *bounds : 1);
    int status = bounds == NULL ? SFQ_OUT_OF_MEMORY : SFQ_OK;
    size_t row;
    for (row = 0; row < rows->count && status == SFQ_OK; row++) {
        const struct field *field = field_of(rows, row, column);
        memcpy(bounds[row], none, sizeof none);
        if (field->is_there) {
            status = sfq_envelope(&rows->texts[field->value].geometry, bounds[row]);
            status = status == SFQ_NONE ? SFQ_OK : status;
        }
    }
    if (status == SFQ_OK) {
        status = sfq_index_build(bounds[0], rows->count, &rows->columns[column].index, NULL);
    }
    free(bounds);
    return status;
}

/* The name of a column with a 0 at its end, which the caller frees, and its type. */
static int name_column(struct asked *asked, struct column *column)
{
    size_t length = 0;
    int status = sfq_table_column(asked->database, asked->table, asked->column, NULL, 0, &length, &column->type);
    if (status != SFQ_OK && status != SFQ_TOO_SMALL) {
        return status;
    }
    column->name = calloc(1, length + 1);
    if (column->name == NULL) {
        return SFQ_OUT_OF_MEMORY;
    }
    return sfq_table_column(asked->database, asked->table, asked->column, column->name, length, &length, &column->type);
}

int name_columns(struct rows *rows, sfq_database *database, size_t table)
{
    struct asked asked = { database, 0, table, 0 };
    int status = sfq_table_columns(database, table, &rows->column_count);
    if (status == SFQ_OK) {
        rows->columns = calloc(rows->column_count, sizeof *rows->columns);
        status = rows->columns == NULL ? SFQ_OUT_OF_MEMORY : SFQ_OK;
    }
    for (; asked.column < rows->column_count && status == SFQ_OK; asked.column++) {
        sfq_form form = { 0, false, false };
        status = name_column(&asked, &rows->columns[asked.column]);
        status = status == SFQ_OK ? sfq_column_form(database, table, asked.column, &form) : status;
        rows->key = form.is_key ? asked.column : rows->key;
    }
    return status;
}

/* Opens a statement that has all rows of the table. */
static int open_statement(struct asked *asked)
{
    static const char all[] = "SELECT * FROM ";
    size_t length = 0;
    int status = sfq_table_name(asked->database, asked->table, NULL, 0, &length);
    char *query;
    if (status != SFQ_OK && status != SFQ_TOO_SMALL) {
        return status;
    }
    query = malloc(sizeof all + length);
    if (query == NULL) {
        return SFQ_OUT_OF_MEMORY;
    }
    memcpy(query, all, sizeof all);
    status = sfq_table_name(asked->database, asked->table, query + sizeof all - 1, length, &length);
    if (status == SFQ_OK) {
        status = sfq_prepare(asked->database, query, sizeof all - 1 + length, &asked->statement, NULL);
    }
    free(query);
    return status;
}

int take_rows(struct rows *rows, sfq_database *database, size_t table)
{
    struct asked asked = { database, 0, table, 0 };
    size_t column;
    int status = open_statement(&asked);
    if (status != SFQ_OK) {
        return status;
    }
    do {
        status = sfq_step(database, asked.statement, UINT64_MAX);
    } while (status == SFQ_OK && (status = add_row(rows, &asked)) == SFQ_OK);
    sfq_finalize(database, asked.statement);
    trim((void **)&rows->fields, rows->count * rows->column_count * sizeof *rows->fields);
    trim((void **)&rows->texts, rows->text_count * sizeof *rows->texts);
    trim((void **)&rows->bytes, rows->byte_count);
    for (column = 0; column < rows->column_count && status == SFQ_NONE; column++) {
        if (rows->columns[column].type == SFQ_GEOMETRY && index_column(rows, column) != SFQ_OK) {
            status = SFQ_OUT_OF_MEMORY;
        }
    }
    return status == SFQ_NONE ? SFQ_OK : status;
}
