/*
 * The border between C and the proved calls of the crate sfq_tables. Nothing here is proved: it hands in what those calls require. No
 * pointer is null, also with a length of 0; what is written to is a value of its type before; a database is handed to one call, which
 * puts it back into an empty slot.
 */
#define _POSIX_C_SOURCE 200809L

#include "sfq_tables.h"

/* A module of WebAssembly has no files. */
#ifndef __wasm__
#include <errno.h>
#include <fcntl.h>
#include <stdint.h>
#include <stdlib.h>
#include <sys/stat.h>
#include <unistd.h>
#endif

/* ---- the proved calls, as crates/sfq_tables/src declares them ---- */

/* A kept database, and a slot for one. */
struct kept {
    void *at;
};

uint32_t sfq_proved_open(const uint8_t *schema, size_t length, struct kept *slot, sfq_tables_fault *fault);
uint32_t sfq_proved_close(struct kept kept, struct kept *back);
uint32_t sfq_proved_load(struct kept kept, size_t table, const uint8_t *text, size_t length, sfq_tables_fault *fault,
                         struct kept *back);
void sfq_proved_table_count(struct kept kept, size_t *count, struct kept *back);
uint32_t sfq_proved_find_table(struct kept kept, const uint8_t *name, size_t length, size_t *table, struct kept *back);
uint32_t sfq_proved_table_name(struct kept kept, size_t table, uint8_t *room, size_t size, size_t *length, struct kept *back);
uint32_t sfq_proved_table_columns(struct kept kept, size_t table, size_t *count, struct kept *back);
uint32_t sfq_proved_table_column(struct kept kept, size_t table, size_t column, uint8_t *room, size_t size, size_t *length,
                                 uint32_t *type, struct kept *back);
uint32_t sfq_proved_is_loaded(struct kept kept, size_t table, bool *loaded, struct kept *back);
uint32_t sfq_proved_text_parts(const uint8_t *text, size_t length, sfq_text_part *parts, size_t size, size_t *count);
uint32_t sfq_proved_named_columns(const uint8_t *text, size_t length, sfq_named_column *columns, size_t size, size_t *count);
uint32_t sfq_proved_column_form(struct kept kept, size_t table, size_t column, sfq_form *form, struct kept *back);
uint32_t sfq_proved_reference(struct kept kept, size_t statement, size_t reference, uint8_t *room, size_t size, size_t *length,
                              size_t *table, struct kept *back);
uint32_t sfq_proved_column_origin(struct kept kept, size_t statement, size_t column, sfq_origin *origin, struct kept *back);
uint32_t sfq_proved_query(struct kept kept, size_t statement, sfq_query_form *form, struct kept *back);
uint32_t sfq_proved_conjunct(struct kept kept, size_t statement, size_t conjunct, sfq_conjunct_form *form, struct kept *back);
uint32_t sfq_proved_operands(struct kept kept, size_t statement, sfq_operand *operands, size_t size, size_t *count, struct kept *back);
uint32_t sfq_proved_prepare(struct kept kept, const uint8_t *text, size_t length, size_t *statement, sfq_tables_fault *fault,
                            struct kept *back);
uint32_t sfq_proved_step(struct kept kept, size_t statement, uint64_t most, struct kept *back);
uint32_t sfq_proved_reset(struct kept kept, size_t statement, struct kept *back);
uint32_t sfq_proved_work(struct kept kept, size_t statement, uint64_t *work, struct kept *back);
uint32_t sfq_proved_finalize(struct kept kept, size_t statement, struct kept *back);
uint32_t sfq_proved_columns(struct kept kept, size_t statement, size_t *count, struct kept *back);
uint32_t sfq_proved_column_name(struct kept kept, size_t statement, size_t column, uint8_t *room, size_t size, size_t *length,
                                struct kept *back);
uint32_t sfq_proved_column_type(struct kept kept, size_t statement, size_t column, uint32_t *type, struct kept *back);
uint32_t sfq_proved_header_text(struct kept kept, size_t statement, uint8_t *room, size_t size, size_t *length, struct kept *back);
uint32_t sfq_proved_column_integer(struct kept kept, size_t statement, size_t column, int64_t *value, struct kept *back);
uint32_t sfq_proved_column_text(struct kept kept, size_t statement, size_t column, uint8_t *room, size_t size, size_t *length,
                                struct kept *back);
uint32_t sfq_proved_row_text(struct kept kept, size_t statement, uint8_t *room, size_t size, size_t *length, struct kept *back);
uint32_t sfq_proved_plan_text(struct kept kept, size_t statement, uint8_t *room, size_t size, size_t *length, struct kept *back);
uint32_t sfq_proved_constants(struct kept kept, size_t statement, size_t *count, struct kept *back);
uint32_t sfq_proved_constant_type(struct kept kept, size_t statement, size_t constant, uint32_t *type, struct kept *back);
uint32_t sfq_proved_bind_integer(struct kept kept, size_t statement, size_t constant, int64_t value, struct kept *back);
uint32_t sfq_proved_bind_text(struct kept kept, size_t statement, size_t constant, const uint8_t *text, size_t length,
                              struct kept *back);
uint32_t sfq_proved_bind_geometry(struct kept kept, size_t statement, size_t constant, const uint8_t *text, size_t length,
                                  sfq_tables_fault *fault, struct kept *back);
uint32_t sfq_proved_bind_null(struct kept kept, size_t statement, size_t constant, struct kept *back);

/* ---- what they require ---- */

static const struct kept empty_slot = { NULL };

/* A text as a pointer that isn't null: a text that is null is empty, whatever its length. */
static const uint8_t *bytes_of(const char *text)
{
    return (const uint8_t *)(text != NULL ? text : "");
}

/* How many bytes there are behind a pointer: none behind null. */
static size_t count_of(const void *bytes, size_t count)
{
    return bytes != NULL ? count : 0;
}

/* A room as a pointer that isn't null. */
static uint8_t *room_of(char *room)
{
    static uint8_t nothing;
    return room != NULL ? (uint8_t *)room : &nothing;
}

static bool is_open(const sfq_database *database)
{
    return database != NULL && database->kept != NULL;
}

/* The database, for a call that puts it back. */
static struct kept taken(const sfq_database *database)
{
    struct kept kept = { database->kept };
    return kept;
}

/* The status of a call that has put a database back. */
static int with(sfq_database *database, struct kept back, uint32_t status)
{
    database->kept = back.at;
    return (int)status;
}

/* The caller's fault, or one to write to where the caller wants none. */
static sfq_tables_fault *written(sfq_tables_fault *fault, sfq_tables_fault *other)
{
    return fault != NULL ? fault : other;
}

static const sfq_tables_fault no_fault = { 0, 0, 0, { 0, 0, 0, 0 } };

/* ---- the calls of sfq_tables.h ---- */

/* What a call over an open database does: the proved call takes the database in `kept`, and puts it into `back`. */
#define OVER(database, call)                          \
    struct kept kept, back = empty_slot;              \
    uint32_t status;                                  \
    if (!is_open(database)) {                         \
        return SFQ_NO_GEOMETRY;                       \
    }                                                 \
    kept = taken(database);                           \
    status = (call);                                  \
    return with(database, back, status)

int sfq_text_parts(const char *text, size_t length, sfq_text_part *parts, size_t size, size_t *count)
{
    static sfq_text_part nothing;
    return (int)sfq_proved_text_parts(bytes_of(text), count_of(text, length), parts != NULL ? parts : &nothing, count_of(parts, size), count);
}

int sfq_named_columns(const char *text, size_t length, sfq_named_column *columns, size_t size, size_t *count)
{
    static sfq_named_column nothing;
    return (int)sfq_proved_named_columns(bytes_of(text), count_of(text, length), columns != NULL ? columns : &nothing, count_of(columns, size), count);
}

int sfq_open(const char *schema, size_t length, sfq_database *database, sfq_tables_fault *fault)
{
    struct kept slot = empty_slot;
    sfq_tables_fault other = no_fault;
    uint32_t status;
    if (database->kept != NULL) {
        return SFQ_NO_GEOMETRY;
    }
    status = sfq_proved_open(bytes_of(schema), count_of(schema, length), &slot, written(fault, &other));
    return with(database, slot, status);
}

int sfq_close(sfq_database *database)
{
    OVER(database, sfq_proved_close(kept, &back));
}

int sfq_table_count(sfq_database *database, size_t *count)
{
    OVER(database, (sfq_proved_table_count(kept, count, &back), SFQ_OK));
}

int sfq_find_table(sfq_database *database, const char *name, size_t length, size_t *table)
{
    OVER(database, sfq_proved_find_table(kept, bytes_of(name), count_of(name, length), table, &back));
}

int sfq_table_name(sfq_database *database, size_t table, char *room, size_t size, size_t *length)
{
    OVER(database, sfq_proved_table_name(kept, table, room_of(room), count_of(room, size), length, &back));
}

int sfq_table_columns(sfq_database *database, size_t table, size_t *count)
{
    OVER(database, sfq_proved_table_columns(kept, table, count, &back));
}

int sfq_table_column(sfq_database *database, size_t table, size_t column, char *room, size_t size, size_t *length, uint32_t *type)
{
    OVER(database, sfq_proved_table_column(kept, table, column, room_of(room), count_of(room, size), length, type, &back));
}

int sfq_is_loaded(sfq_database *database, size_t table, bool *loaded)
{
    OVER(database, sfq_proved_is_loaded(kept, table, loaded, &back));
}

int sfq_column_form(sfq_database *database, size_t table, size_t column, sfq_form *form)
{
    OVER(database, sfq_proved_column_form(kept, table, column, form, &back));
}

int sfq_reference(sfq_database *database, size_t statement, size_t reference, char *room, size_t size, size_t *length, size_t *table)
{
    OVER(database, sfq_proved_reference(kept, statement, reference, room_of(room), count_of(room, size), length, table, &back));
}

int sfq_column_origin(sfq_database *database, size_t statement, size_t column, sfq_origin *origin)
{
    OVER(database, sfq_proved_column_origin(kept, statement, column, origin, &back));
}

int sfq_query(sfq_database *database, size_t statement, sfq_query_form *form)
{
    OVER(database, sfq_proved_query(kept, statement, form, &back));
}

int sfq_conjunct(sfq_database *database, size_t statement, size_t conjunct, sfq_conjunct_form *form)
{
    OVER(database, sfq_proved_conjunct(kept, statement, conjunct, form, &back));
}

int sfq_operands(sfq_database *database, size_t statement, sfq_operand *operands, size_t size, size_t *count)
{
    static sfq_operand nothing;
    OVER(database, sfq_proved_operands(kept, statement, operands != NULL ? operands : &nothing, count_of(operands, size), count, &back));
}

int sfq_load(sfq_database *database, size_t table, const char *bytes, size_t length, sfq_tables_fault *fault)
{
    sfq_tables_fault other = no_fault;
    OVER(database, sfq_proved_load(kept, table, bytes_of(bytes), count_of(bytes, length), written(fault, &other), &back));
}

int sfq_prepare(sfq_database *database, const char *query, size_t length, size_t *statement, sfq_tables_fault *fault)
{
    sfq_tables_fault other = no_fault;
    OVER(database, sfq_proved_prepare(kept, bytes_of(query), count_of(query, length), statement, written(fault, &other), &back));
}

int sfq_step(sfq_database *database, size_t statement, uint64_t most)
{
    OVER(database, sfq_proved_step(kept, statement, most, &back));
}

int sfq_reset(sfq_database *database, size_t statement)
{
    OVER(database, sfq_proved_reset(kept, statement, &back));
}

int sfq_work(sfq_database *database, size_t statement, uint64_t *work)
{
    OVER(database, sfq_proved_work(kept, statement, work, &back));
}

int sfq_finalize(sfq_database *database, size_t statement)
{
    OVER(database, sfq_proved_finalize(kept, statement, &back));
}

int sfq_columns(sfq_database *database, size_t statement, size_t *count)
{
    OVER(database, sfq_proved_columns(kept, statement, count, &back));
}

int sfq_column_name(sfq_database *database, size_t statement, size_t column, char *room, size_t size, size_t *length)
{
    OVER(database, sfq_proved_column_name(kept, statement, column, room_of(room), count_of(room, size), length, &back));
}

int sfq_column_type(sfq_database *database, size_t statement, size_t column, uint32_t *type)
{
    OVER(database, sfq_proved_column_type(kept, statement, column, type, &back));
}

int sfq_header_text(sfq_database *database, size_t statement, char *room, size_t size, size_t *length)
{
    OVER(database, sfq_proved_header_text(kept, statement, room_of(room), count_of(room, size), length, &back));
}

int sfq_column_integer(sfq_database *database, size_t statement, size_t column, int64_t *value)
{
    OVER(database, sfq_proved_column_integer(kept, statement, column, value, &back));
}

int sfq_column_text(sfq_database *database, size_t statement, size_t column, char *room, size_t size, size_t *length)
{
    OVER(database, sfq_proved_column_text(kept, statement, column, room_of(room), count_of(room, size), length, &back));
}

int sfq_row_text(sfq_database *database, size_t statement, char *room, size_t size, size_t *length)
{
    OVER(database, sfq_proved_row_text(kept, statement, room_of(room), count_of(room, size), length, &back));
}

int sfq_plan_text(sfq_database *database, size_t statement, char *room, size_t size, size_t *length)
{
    OVER(database, sfq_proved_plan_text(kept, statement, room_of(room), count_of(room, size), length, &back));
}

int sfq_constants(sfq_database *database, size_t statement, size_t *count)
{
    OVER(database, sfq_proved_constants(kept, statement, count, &back));
}

int sfq_constant_type(sfq_database *database, size_t statement, size_t constant, uint32_t *type)
{
    OVER(database, sfq_proved_constant_type(kept, statement, constant, type, &back));
}

int sfq_bind_integer(sfq_database *database, size_t statement, size_t constant, int64_t value)
{
    OVER(database, sfq_proved_bind_integer(kept, statement, constant, value, &back));
}

int sfq_bind_text(sfq_database *database, size_t statement, size_t constant, const char *text, size_t length)
{
    OVER(database, sfq_proved_bind_text(kept, statement, constant, bytes_of(text), count_of(text, length), &back));
}

int sfq_bind_geometry(sfq_database *database, size_t statement, size_t constant, const char *text, size_t length,
                      sfq_tables_fault *fault)
{
    sfq_tables_fault other = no_fault;
    OVER(database, sfq_proved_bind_geometry(kept, statement, constant, bytes_of(text), count_of(text, length),
                                            written(fault, &other), &back));
}

int sfq_bind_null(sfq_database *database, size_t statement, size_t constant)
{
    OVER(database, sfq_proved_bind_null(kept, statement, constant, &back));
}

/* ---- files ---- */

#ifndef __wasm__

/*
 * Reads to the end of a file, with room for `first` bytes at first, which isn't 0. The caller frees the bytes. They are copied, and not
 * mapped: another program may change the file at any time.
 */
static int read_whole(int file, size_t first, char **bytes, size_t *length)
{
    size_t room = 0;
    for (;;) {
        ssize_t got;
        if (*length == room) {
            char *more;
            room = room > 0 ? 2 * room : first;
            more = room > *length ? realloc(*bytes, room) : NULL;
            if (more == NULL) {
                return SFQ_OUT_OF_MEMORY;
            }
            *bytes = more;
        }
        got = read(file, *bytes + *length, room - *length);
        if (got == 0) {
            return SFQ_OK;
        }
        if (got > 0) {
            *length += (size_t)got;
        } else if (errno != EINTR) {
            return SFQ_UNREADABLE;
        }
    }
}

/* Loads a table from a file that is open. */
static int load_open(sfq_database *database, size_t table, int file, sfq_tables_fault *fault)
{
    struct stat about;
    char *bytes = NULL;
    size_t length = 0, first = 65536;
    int status;
    if (fstat(file, &about) != 0) {
        return SFQ_UNREADABLE;
    }
    if (S_ISREG(about.st_mode) && about.st_size > 0 && (uintmax_t)about.st_size < SIZE_MAX) {
        /* One byte more than it has, so that its end is seen without more room. */
        first = (size_t)about.st_size + 1;
    }
    status = read_whole(file, first, &bytes, &length);
    if (status == SFQ_OK) {
        status = sfq_load(database, table, bytes, length, fault);
    }
    free(bytes);
    return status;
}

int sfq_load_file(sfq_database *database, size_t table, const char *path, sfq_tables_fault *fault)
{
    int file, status, reason;
    size_t count = 0;
    if (!is_open(database)) {
        return SFQ_NO_GEOMETRY;
    }
    sfq_table_count(database, &count);
    if (table >= count) {
        return SFQ_UNKNOWN;
    }
    do {
        file = open(path, O_RDONLY | O_CLOEXEC);
    } while (file < 0 && errno == EINTR);
    if (file < 0) {
        return SFQ_UNREADABLE;
    }
    status = load_open(database, table, file, fault);
    reason = errno;
    close(file);
    errno = reason;
    return status;
}

#endif
