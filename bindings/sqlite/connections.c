/* What a connection has of sfq: see connections.h. */
#include "connections.h"

#include <string.h>

struct connection *new_connection(sqlite3 *sqlite, size_t count)
{
    size_t at, size = sizeof(struct connection) + count * sizeof(struct function);
    struct connection *connection = sqlite3_malloc64(size);
    if (connection == NULL) {
        return NULL;
    }
    memset(connection, 0, size);
    connection->sqlite = sqlite;
    connection->users = 1;
    connection->count = count;
    for (at = 0; at < count; at++) {
        connection->functions[at].connection = connection;
    }
    return connection;
}

void leave_connection(void *given)
{
    struct connection *connection = given;
    size_t at;
    if (--connection->users > 0) {
        return;
    }
    for (at = 0; at < connection->count; at++) {
        forget(&connection->functions[at].kept[0]);
        forget(&connection->functions[at].kept[1]);
    }
    sqlite3_free(connection);
}

void leave_function(void *given)
{
    struct function *function = given;
    leave_connection(function->connection);
}

void list_rows(struct connection *connection, struct listed *listed)
{
    listed->next = connection->tables;
    connection->tables = listed;
}

void unlist_rows(struct connection *connection, const struct listed *listed)
{
    struct listed **at = &connection->tables;
    while (*at != NULL && *at != listed) {
        at = &(*at)->next;
    }
    if (*at != NULL) {
        *at = listed->next;
    }
}

sfq_geometry *geometry_of(const struct connection *connection, sqlite3_value *value)
{
    const struct listed *listed = connection->tables;
    const char *bytes = listed == NULL ? NULL : sqlite3_value_blob(value);
    while (listed != NULL && bytes != NULL) {
        struct text *text = text_at(&listed->rows, bytes);
        if (text != NULL) {
            return text->length == (size_t)sqlite3_value_bytes(value) ? &text->geometry : NULL;
        }
        listed = listed->next;
    }
    return NULL;
}
