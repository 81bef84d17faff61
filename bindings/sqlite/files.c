/* Loads a virtual table from its files: see files.h. */
#define _POSIX_C_SOURCE 200809L

#include "files.h"

#include <errno.h>
#include <fcntl.h>
#include <stdio.h>
#include <stdlib.h>
#include <string.h>
#include <sys/stat.h>
#include <unistd.h>

#include "extension.h"
#include "faults.h"

/* So many bytes of a schema are read at the least, if it has them: the library refuses one of more than 65,536. */
#define SCHEMA_BYTES 65537
/* The bytes of a table's file at most. A table of so many takes 64 times the memory. */
#define TABLE_BYTES ((size_t)1 << 30)

/* Why a file isn't read, beside the numbers of errors, which are above 0. */
enum { NOT_REGULAR = -1, TOO_LONG = -2 };

/* The bytes of a file. */
struct bytes {
    char *at;
    size_t count;
};

int failed(char **error, char *text)
{
    *error = text;
    return text == NULL ? SQLITE_NOMEM : SQLITE_ERROR;
}

/* An error that names a file and says why it can't be read. */
static int unreadable(const char *path, int reason, char **error)
{
    char words[128];
    if (reason == ENOMEM) {
        return SQLITE_NOMEM;
    }
    if (reason == NOT_REGULAR) {
        snprintf(words, sizeof words, "it isn't a regular file, and no other is read");
    } else if (reason == TOO_LONG) {
        snprintf(words, sizeof words, "it has more than %zu bytes", TABLE_BYTES);
    } else if (strerror_r(reason, words, sizeof words) != 0) {
        snprintf(words, sizeof words, "error %d", reason);
    }
    return failed(error, sqlite3_mprintf("sfq: %s can't be read: %s", path, words));
}

/* Returns 0 where a file is a regular one, and isn't too long if all of it is wanted; else why it isn't read. */
static int why_not_read(int file, size_t least)
{
    struct stat it;
    if (fstat(file, &it) != 0) {
        return errno;
    }
    if (!S_ISREG(it.st_mode)) {
        return S_ISDIR(it.st_mode) ? EISDIR : NOT_REGULAR;
    }
    return least > TABLE_BYTES && (uintmax_t)it.st_size > TABLE_BYTES ? TOO_LONG : 0;
}

/* Reads a file to its end, or so many bytes at the least. Returns 0, or why it isn't read. */
static int read_bytes(int file, size_t least, struct bytes *bytes)
{
    size_t room = 0;
    while (bytes->count < least) {
        ssize_t got;
        if (!has_room((void **)&bytes->at, 1, bytes->count, 65536, &room)) {
            return ENOMEM;
        }
        got = read(file, bytes->at + bytes->count, room - bytes->count);
        if (got == 0 || (got < 0 && errno != EINTR)) {
            return got == 0 ? 0 : errno;
        }
        bytes->count += got > 0 ? (size_t)got : 0;
    }
    return 0;
}

/* The same of the file of a path, into bytes that the caller frees in any case. A fault of reading is said. */
static int read_path(const char *path, size_t least, struct bytes *bytes, char **error)
{
    int file, reason;
    do {
        /* So that the opening of a pipe waits for nobody. */
        file = open(path, O_RDONLY | O_CLOEXEC | O_NONBLOCK | O_NOCTTY);
    } while (file < 0 && errno == EINTR);
    reason = file < 0 ? errno : why_not_read(file, least);
    reason = reason != 0 ? reason : read_bytes(file, least, bytes);
    reason = reason == 0 && bytes->count > TABLE_BYTES ? TOO_LONG : reason;
    if (file >= 0) {
        close(file);
    }
    return reason == 0 ? SQLITE_OK : unreadable(path, reason, error);
}

/* What a fault of a schema or a table means, and what to do. */
static const char *table_fault_meaning(const sfq_tables_fault *fault)
{
    static const struct meaning known[] = {
#define FAULT(letter, number, words)
#define TABLE_FAULT(letter, number, words) { letter, number, words },
#include "../python/sfq/fault_words.h"
#undef FAULT
#undef TABLE_FAULT
    };
    return words_of(known, sizeof known / sizeof known[0], fault->letter, fault->number);
}

/* The error of a fault: the file of the schema, or the table, and the code with its places, as `sfq check` prints them. */
static int refused(const char *what, const sfq_tables_fault *fault, char **error)
{
    char code[FAULT_PLACE], place[FAULT_PLACE] = "";
    snprintf(code, sizeof code, "%c%u", fault->letter, fault->number);
    if (fault->letter == 'S' && fault->number < 6) {
        snprintf(place, sizeof place, " at %zu", fault->at);
    } else if (fault->letter == 'L' && fault->number > 2 && fault->number < 10) {
        snprintf(place, sizeof place, " record %zu", fault->at);
    }
    if (fault->geometry.letter != 0) {
        char of_geometry[FAULT_PLACE];
        fault_place(&fault->geometry, of_geometry);
        return failed(error, sqlite3_mprintf("sfq: %s %s%s %s: %s: %s", what, code, place, of_geometry, table_fault_meaning(fault),
                                             fault_meaning(&fault->geometry)));
    }
    return failed(error, sqlite3_mprintf("sfq: %s %s%s: %s", what, code, place, table_fault_meaning(fault)));
}

/* The status of SQLite for a status of the library that says nothing of a fault. */
static int without_fault(int status, char **error)
{
    if (status == SFQ_OK || status == SFQ_OUT_OF_MEMORY) {
        return status == SFQ_OK ? SQLITE_OK : SQLITE_NOMEM;
    }
    return failed(error, sqlite3_mprintf("sfq: the library returned the status %d, which is none of this call", status));
}

/* Loads a table of an open database from a file of CSV, and takes its rows. */
static int load_table(struct rows *rows, sfq_database *database, size_t table, const char *name, const char *path, char **error)
{
    struct bytes csv = { NULL, 0 };
    sfq_tables_fault fault;
    int loaded, status = read_path(path, TABLE_BYTES + 1, &csv, error);
    if (status == SQLITE_OK) {
        loaded = sfq_load(database, table, csv.at, csv.count, &fault);
        free(csv.at);
        csv.at = NULL;
        if (loaded == SFQ_REFUSED) {
            status = refused(name, &fault, error);
        } else {
            status = without_fault(loaded != SFQ_OK ? loaded : take_rows(rows, database, table), error);
        }
    }
    free(csv.at);
    return status;
}

/* The name of a table as the schema spells it, which the caller frees. Null where memory is refused. */
static char *spelled_name(sfq_database *database, size_t table)
{
    size_t length = 0;
    char *name;
    sfq_table_name(database, table, NULL, 0, &length);
    name = sqlite3_malloc64(length + 1);
    if (name == NULL || sfq_table_name(database, table, name, length, &length) != SFQ_OK) {
        sqlite3_free(name);
        return NULL;
    }
    name[length] = '\0';
    return name;
}

/* Finds the table in an open database and loads it: of a folder from the file with its name. */
static int find_and_load(struct rows *rows, sfq_database *database, const struct options *options, const char *schema_path,
                         char **error)
{
    char *const *values = options->values;
    size_t table;
    char *name, *path;
    int status = sfq_find_table(database, values[TABLE], strlen(values[TABLE]), &table);
    if (status == SFQ_UNKNOWN) {
        return failed(error, sqlite3_mprintf("sfq: %s has no table '%s'", schema_path, values[TABLE]));
    }
    status = status == SFQ_OK ? name_columns(rows, database, table) : status;
    if (status != SFQ_OK) {
        return without_fault(status, error);
    }
    name = spelled_name(database, table);
    path = name == NULL ? NULL
        : values[FOLDER] == NULL ? sqlite3_mprintf("%s", values[CSV]) : sqlite3_mprintf("%s/%s.csv", values[FOLDER], name);
    status = path == NULL ? SQLITE_NOMEM : load_table(rows, database, table, name, path, error);
    sqlite3_free(path);
    sqlite3_free(name);
    return status;
}

int load_rows(struct rows *rows, const struct options *options, char **error)
{
    char *const *values = options->values;
    char *path = values[FOLDER] == NULL ? sqlite3_mprintf("%s", values[SCHEMA]) : sqlite3_mprintf("%s/schema.sql", values[FOLDER]);
    struct bytes schema = { NULL, 0 };
    sfq_database database = SFQ_EMPTY;
    sfq_tables_fault fault;
    int opened, status = path == NULL ? SQLITE_NOMEM : read_path(path, SCHEMA_BYTES, &schema, error);
    if (status == SQLITE_OK) {
        opened = sfq_open(schema.at, schema.count, &database, &fault);
        if (opened == SFQ_REFUSED) {
            status = refused(path, &fault, error);
        } else {
            status = opened != SFQ_OK ? without_fault(opened, error) : find_and_load(rows, &database, options, path, error);
        }
        sfq_close(&database);
    }
    free(schema.at);
    sqlite3_free(path);
    return status;
}
