/*
 * A loadable extension of SQLite: functions over columns of well-known text, named as in 06-104r4, and virtual tables over folders of
 * CSV files, which have an index.
 *
 * The proof ends at the calls of the crates sfq_c and sfq_tables. Not proved are bindings/c over them, what is here, and SQLite, which
 * finds the rows: asking.c asks the library, functions.c makes SQLite's values of it, rows.c, options.c and files.c load tables,
 * statements.c says when the index may be asked, and tables.c hands out their rows. Each connection has a state of its own
 * (connections.c), so connections may be in any threads.
 */
#include "connections.h"
#include "files.h"
#include "functions.h"
#include "tables.h"

SQLITE_EXTENSION_INIT1

/* The first SQLite that lets a module say that no view or trigger may use its tables. */
#define LEAST_VERSION 3031000

/*
 * Adds one function to a connection. SQLite says when it has no more use for it. A function reads nothing but its arguments, so a view, a
 * trigger, an index or a check that somebody else wrote may call it.
 */
static int add(sqlite3 *connection, struct connection *data, size_t at)
{
    data->functions[at].of = FUNCTIONS[at].of;
    data->users++;
    return sqlite3_create_function_v2(connection, FUNCTIONS[at].name, FUNCTIONS[at].count,
                                      SQLITE_UTF8 | SQLITE_DETERMINISTIC | SQLITE_INNOCUOUS, &data->functions[at], FUNCTIONS[at].call,
                                      NULL, NULL, leave_function);
}

/* What SQLite calls when the extension is loaded as sfq0. */
__attribute__((visibility("default"))) int sqlite3_sfq_init(sqlite3 *connection, char **error, const sqlite3_api_routines *routines)
{
    struct connection *data;
    size_t at;
    int status = SQLITE_OK;
    SQLITE_EXTENSION_INIT2(routines);
    if (sqlite3_libversion_number() < LEAST_VERSION) {
        return failed(error, sqlite3_mprintf("sfq: SQLite %s is too old: 3.31.0 or later is needed", sqlite3_libversion()));
    }
    data = new_connection(connection, FUNCTION_COUNT);
    if (data == NULL) {
        return SQLITE_NOMEM;
    }
    for (at = 0; at < FUNCTION_COUNT && status == SQLITE_OK; at++) {
        status = add(connection, data, at);
    }
    if (status == SQLITE_OK) {
        data->users++;
        status = sqlite3_create_module_v2(connection, "sfq", &MODULE, data, leave_connection);
    }
    leave_connection(data);
    return status;
}
