/*
 * What a connection has of sfq: the data of its functions, and the rows of its virtual tables. A function that is handed the text of
 * a geometry in such a row takes the geometry that is kept with it, and reads nothing. It knows the text by its address: that is
 * within the texts of rows that are there, so it is that text, and no other can have the address. Nothing here is proved.
 *
 * SQLite makes the calls of a connection one at a time, so a geometry serves one call at a time, as the library demands.
 */
#ifndef SFQ_CONNECTIONS_H
#define SFQ_CONNECTIONS_H

#include "extension.h"
#include "keeping.h"
#include "rows.h"

struct connection;

/* The data of one function in one connection: what it asks, and the last geometry of each of its arguments. */
struct function {
    struct connection *connection;
    int of;
    struct kept kept[2];
};

/* The rows of a virtual table, in the list of those of a connection. */
struct listed {
    struct rows rows;
    struct listed *next;
};

/* So many statements that run are remembered at most. */
#define RUNNING 4

/* Whether the index of a table may be asked by a plan, as it was found after so many plans, while these statements ran. */
struct looked {
    const void *table;
    int plan;
    size_t plans, count;
    sqlite3_stmt *running[RUNNING];
    bool may_search;
};

/* What functions and the module of a connection share: `plans` is how many plans its tables were asked for. It is freed when none of
 * them is left. */
struct connection {
    sqlite3 *sqlite;
    int users;
    struct listed *tables;
    size_t plans;
    struct looked looked;
    size_t count;
    struct function functions[];
};

/* Makes what a connection with this number of functions has, for one user. Null where memory is refused. */
struct connection *new_connection(sqlite3 *sqlite, size_t count);

/* One user less. */
void leave_connection(void *given);

/* One user less, by the data of one of the connection's functions. */
void leave_function(void *given);

/* Adds rows to those whose geometries are known by their texts. */
void list_rows(struct connection *connection, struct listed *listed);

/* Takes rows away from those whose geometries are known, if they are among them. */
void unlist_rows(struct connection *connection, const struct listed *listed);

/* The geometry of a table's row that a value is the text of; null where it is another text. */
sfq_geometry *geometry_of(const struct connection *connection, sqlite3_value *value);

#endif
