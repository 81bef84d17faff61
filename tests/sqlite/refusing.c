/*
 * Each allocation of each call refused in turn: the result is an error, out of memory, or what it is otherwise, and never another
 * one. A line of standard input is SQL of one value, which is worked out without a refusal first.
 *
 * usage: refusing EXTENSION    prints `N refused, N bad`
 */
#include "refused.h"

#include <sqlite3.h>
#include <stdio.h>
#include <string.h>

/* Asks each function about other texts, so that none has anything left of those that are tried. */
static const char OTHERS[] =
    "SELECT ST_Relate('POINT(7 7)', 'POINT(8 8)'), ST_Relate('POINT(7 7)', 'POINT(8 8)', '*********'), "
    "ST_Touches('POINT(7 7)', 'POINT(8 8)')";

/* What a statement gives: its value or its error, in the caller's room. Returns whether memory was refused. */
static bool value_of(sqlite3 *connection, sqlite3_stmt *statement, char room[256])
{
    int status = sqlite3_step(statement);
    const char *text = NULL;
    if (status == SQLITE_ROW) {
        text = (const char *)sqlite3_column_text(statement, 0);
    } else if (status == SQLITE_ERROR) {
        text = sqlite3_errmsg(connection);
    }
    snprintf(room, 256, "%d %s", status, text == NULL ? "NULL" : text);
    return status == SQLITE_NOMEM || (status == SQLITE_ROW && text == NULL && sqlite3_errcode(connection) == SQLITE_NOMEM);
}

/* Tries one statement with each allocation refused, until none is left to refuse. Returns how many were, and counts bad results. */
static long try_all(sqlite3 *connection, const char *sql, long *bad)
{
    sqlite3_stmt *statement;
    char wanted[256], found[256];
    long number = 0;
    bool is_met = true;
    if (sqlite3_prepare_v2(connection, sql, -1, &statement, NULL) != SQLITE_OK) {
        ++*bad;
        return 0;
    }
    value_of(connection, statement, wanted);
    sqlite3_reset(statement);
    while (is_met) {
        bool no_memory;
        *bad += sqlite3_exec(connection, OTHERS, NULL, NULL, NULL) != SQLITE_OK;
        asked = 0;
        refused = ++number;
        no_memory = value_of(connection, statement, found);
        is_met = asked >= number;
        refused = 0;
        *bad += !no_memory && strcmp(found, wanted) != 0;
        sqlite3_reset(statement);
    }
    sqlite3_finalize(statement);
    return number - 1;
}

int main(int words, char **given)
{
    sqlite3 *connection;
    char *line = NULL;
    size_t room = 0;
    long count = 0, bad = 0;
    if (words != 2 || sqlite3_open(":memory:", &connection) != SQLITE_OK ||
        sqlite3_enable_load_extension(connection, 1) != SQLITE_OK ||
        sqlite3_load_extension(connection, given[1], NULL, NULL) != SQLITE_OK) {
        return 2;
    }
    /* Without this SQLite serves small requests from a store of its own. */
    sqlite3_db_config(connection, SQLITE_DBCONFIG_LOOKASIDE, NULL, 0, 0);
    while (getline(&line, &room, stdin) > 0) {
        count += try_all(connection, line, &bad);
    }
    free(line);
    sqlite3_close(connection);
    printf("%ld refused, %ld bad\n", count, bad);
    return bad != 0;
}
