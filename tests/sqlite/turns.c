/*
 * Statements over tables of the extension that are prepared once and run in turn, with one plan: each row of the left table of an outer
 * join is there, whichever statement ran before, runs beside it, or was prepared since. The tables t and u are those of FOLDER.
 *
 * usage: turns EXTENSION FOLDER TIMES    prints `N run, N differ`
 */
#include <sqlite3.h>
#include <stdio.h>
#include <stdlib.h>
#include <string.h>

static const char SQUARE[] = "POLYGON((0 0,4 0,4 4,0 4,0 0))";
static const char INNER[] = "SELECT t.id FROM t WHERE ST_CoveredBy(t.at, ?1)";
static const char OUTER[] = "SELECT t.id FROM t LEFT JOIN u ON ST_CoveredBy(t.at, ?1) AND u.of = t.id";
static const char VIEW[] = "CREATE TEMP VIEW w AS SELECT t.id AS one FROM t LEFT JOIN u ON "
                           "ST_CoveredBy(t.at, 'POLYGON((0 0,4 0,4 4,0 4,0 0))') AND u.of = t.id";

static sqlite3 *connection;
static long run, differ;

static void fail(const char *what)
{
    fprintf(stderr, "%s: %s\n", what, sqlite3_errmsg(connection));
    exit(1);
}

static void execute(const char *text)
{
    if (sqlite3_exec(connection, text, NULL, NULL, NULL) != SQLITE_OK) {
        fail(text);
    }
}

static sqlite3_stmt *prepared(const char *text)
{
    sqlite3_stmt *made;
    if (sqlite3_prepare_v2(connection, text, -1, &made, NULL) != SQLITE_OK) {
        fail(text);
    }
    if (sqlite3_bind_parameter_count(made) == 1) {
        sqlite3_bind_text(made, 1, SQUARE, -1, SQLITE_STATIC);
    }
    return made;
}

/* Runs a statement to its end, and counts it where it has another number of rows. */
static void has_rows(sqlite3_stmt *statement, int wanted)
{
    int found = 0, status;
    while ((status = sqlite3_step(statement)) == SQLITE_ROW) {
        found++;
    }
    sqlite3_reset(statement);
    run++;
    differ += status != SQLITE_DONE || found != wanted;
}

static void turn(sqlite3_stmt *inner, sqlite3_stmt *outer)
{
    sqlite3_stmt *of_view, *other = prepared(INNER);
    has_rows(other, 1);
    sqlite3_finalize(other);
    /* It may have the address of the one before it. */
    other = prepared(OUTER);
    has_rows(other, 3);
    sqlite3_finalize(other);
    has_rows(inner, 1);
    has_rows(inner, 1);
    has_rows(outer, 3);
    has_rows(outer, 3);
    has_rows(inner, 1);
    /* The one beside the other. */
    differ += sqlite3_step(inner) != SQLITE_ROW;
    has_rows(outer, 3);
    sqlite3_reset(inner);
    differ += sqlite3_step(outer) != SQLITE_ROW;
    has_rows(inner, 1);
    sqlite3_reset(outer);
    execute(VIEW);
    has_rows(inner, 1);
    of_view = prepared("SELECT * FROM w");
    has_rows(of_view, 3);
    has_rows(inner, 1);
    has_rows(of_view, 3);
    sqlite3_finalize(of_view);
    execute("DROP VIEW w");
    has_rows(inner, 1);
}

int main(int count, char **words)
{
    static const char *const tables[] = { "t", "u" };
    sqlite3_stmt *inner, *outer;
    int at;
    if (count != 4 || sqlite3_open(":memory:", &connection) != SQLITE_OK || sqlite3_enable_load_extension(connection, 1) != SQLITE_OK ||
        sqlite3_load_extension(connection, words[1], NULL, NULL) != SQLITE_OK) {
        fail("turns EXTENSION FOLDER TIMES");
    }
    for (at = 0; at < 2; at++) {
        char *text = sqlite3_mprintf("CREATE VIRTUAL TABLE %s USING sfq(folder='%q', table='%s')", tables[at], words[2], tables[at]);
        execute(text);
        sqlite3_free(text);
    }
    inner = prepared(INNER);
    outer = prepared(OUTER);
    for (at = 0; at < atoi(words[3]); at++) {
        turn(inner, outer);
    }
    sqlite3_finalize(inner);
    sqlite3_finalize(outer);
    printf("%ld run, %ld differ\n", run, differ);
    return sqlite3_close(connection) == SQLITE_OK ? 0 : 1;
}
