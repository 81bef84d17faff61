/*
 * Asks virtual tables and plain tables with the same rows by the same random statements: joins of every kind, nested too, under
 * conditions of relations and keys, beside statements that are half done, and in transactions that make and drop tables. The rows have to
 * be the same. The extension is compiled into this program, so that sanitizers watch it.
 *
 * usage: fuzz_joins FOLDER SEED SECONDS    prints the seed and `N statements, N rows`; and the statement whose rows differ
 *
 * A statement depends on the seed and on its number alone.
 */
#define _POSIX_C_SOURCE 200809L

#include "../library/random.h"

#include <sqlite3.h>
#include <stdarg.h>
#include <stdbool.h>
#include <stdio.h>
#include <stdlib.h>
#include <string.h>
#include <time.h>

#define ROWS 9
#define TABLES 3
#define SPAN 7
#define REFERENCES 4

int sqlite3_sfq_init(sqlite3 *, char **, const void *);

/* ---- chance ---- */

static void begin(unsigned long long seed, unsigned long long turn)
{
    int times;
    state = (seed + 1) * 0x9e3779b97f4a7c15u ^ (turn + 1) * 0xbf58476d1ce4e5b9u;
    state += state == 0;
    for (times = 0; times < 8; times++) {
        chance(2);
    }
}

/* ---- texts ---- */

static char text[65536];
static size_t length;

static void add(const char *format, ...)
{
    va_list words;
    va_start(words, format);
    length += (size_t)vsnprintf(text + length, sizeof text - length, format, words);
    va_end(words);
    if (length >= sizeof text) {
        exit(2);
    }
}

/* The text of a geometry: one that is empty now and then. */
static void add_geometry(void)
{
    static const char *const empty[] = { "POINT EMPTY", "LINESTRING EMPTY", "POLYGON EMPTY" };
    int x = (int)chance(SPAN), y = (int)chance(SPAN), w = 1 + (int)chance(4), h = 1 + (int)chance(4);
    switch (chance(9)) {
    case 0:
        add("%s", empty[chance(3)]);
        break;
    case 1:
        add("LINESTRING(%d %d,%d %d)", x, y, x + w, y + h);
        break;
    case 2:
        add("MULTIPOINT((%d %d),(%d %d))", x, y, x + w, y);
        break;
    case 3:
    case 4:
    case 5:
        add("POINT(%d %d)", x, y);
        break;
    default:
        add("POLYGON((%d %d,%d %d,%d %d,%d %d,%d %d))", x, y, x + w, y, x + w, y + h, x, y + h, x, y);
    }
}

/* ---- tables ---- */

/* Writes the files of the tables: keys in any order, numbers and geometries, NULL among them. */
static void write_tables(const char *folder)
{
    char path[4096];
    int table, row;
    FILE *file;
    snprintf(path, sizeof path, "%s/schema.sql", folder);
    file = fopen(path, "w");
    for (table = 0; file != NULL && table < TABLES; table++) {
        fprintf(file, "CREATE TABLE %c (n INTEGER, id INTEGER PRIMARY KEY, geom GEOMETRY);\n", 'a' + table);
    }
    if (file == NULL || fclose(file) != 0) {
        exit(2);
    }
    for (table = 0; table < TABLES; table++) {
        snprintf(path, sizeof path, "%s/%c.csv", folder, 'a' + table);
        file = fopen(path, "w");
        if (file == NULL) {
            exit(2);
        }
        fprintf(file, "id,n,geom\n");
        for (row = 0; row < ROWS; row++) {
            length = 0;
            text[0] = '\0';
            if (chance(6) > 0) {
                add_geometry();
            }
            fprintf(file, "%d,", row * 5 % ROWS);
            if (chance(4) > 0) {
                fprintf(file, "%d", (int)chance(ROWS));
            }
            fprintf(file, ",\"%s\"\n", text);
        }
        fclose(file);
    }
}

static void must(sqlite3 *connection, const char *sql)
{
    char *error = NULL;
    if (sqlite3_exec(connection, sql, NULL, NULL, &error) != SQLITE_OK) {
        printf("%s: %s\n", sql, error);
        exit(1);
    }
}

/* Makes the virtual tables va, vb, vc, and the plain tables pa, pb, pc with their rows. */
static void make_tables(sqlite3 *connection, const char *folder)
{
    int table;
    for (table = 0; table < TABLES; table++) {
        length = 0;
        add("CREATE VIRTUAL TABLE v%c USING sfq(folder='%s', table='%c');", 'a' + table, folder, 'a' + table);
        add("CREATE TABLE p%c (n INTEGER, id INTEGER PRIMARY KEY, geom TEXT);", 'a' + table);
        add("INSERT INTO p%c SELECT * FROM v%c", 'a' + table, 'a' + table);
        must(connection, text);
    }
}

/* ---- statements: `@` is in the place of v or p ---- */

static void add_relation(int from, int to)
{
    static const char *const names[] = { "Equals", "Disjoint", "Intersects", "Touches", "Crosses", "Within", "Contains", "Overlaps",
                                         "Covers", "CoveredBy", "ContainsProperly" };
    int one = from + (int)chance((unsigned)(to - from)), other = from + (int)chance((unsigned)(to - from));
    add("ST_%s(", names[chance(11)]);
    switch (chance(6)) {
    case 0:
        add("'");
        add_geometry();
        add("', x%d.geom)", one);
        break;
    case 1:
        add("x%d.geom, NULL)", one);
        break;
    case 2:
    case 3:
        add("x%d.geom, x%d.geom)", one, other);
        break;
    default:
        add("x%d.geom, '", one);
        add_geometry();
        add("')");
    }
}

/* A condition over the references from one to another, which isn't one of them. */
static void add_condition(int from, int to, int deep)
{
    static const char *const signs[] = { "=", "<", ">=", "<>", "IS" };
    int one = from + (int)chance((unsigned)(to - from)), other = from + (int)chance((unsigned)(to - from));
    unsigned kind = chance(deep > 0 ? 12 : 8);
    if (kind < 4) {
        add_relation(from, to);
        add(chance(8) == 0 ? " = 1" : "");
    } else if (kind < 5) {
        add("x%d.%s %s x%d.%s", one, chance(2) ? "id" : "n", signs[chance(5)], other, chance(2) ? "id" : "n");
    } else if (kind < 6) {
        add("x%d.%s %s %d", one, chance(2) ? "id" : "n", signs[chance(5)], (int)chance(ROWS));
    } else if (kind < 7) {
        add("x%d.%s IS %sNULL", one, chance(2) ? "geom" : "n", chance(2) ? "NOT " : "");
    } else if (kind < 8) {
        add("NOT ");
        add_relation(from, to);
    } else {
        add("(");
        add_condition(from, to, deep - 1);
        add(kind < 11 ? " AND " : " OR ");
        add_condition(from, to, deep - 1);
        add(")");
    }
}

/* Tables joined, from a reference to another, which isn't one of them: the conditions of ON are over those joined so far. */
static void add_joined(int from, int to)
{
    static const char *const joins[] = { "JOIN", "LEFT JOIN", "LEFT JOIN", "CROSS JOIN", "RIGHT JOIN", "FULL JOIN" };
    /* RIGHT and FULL are there from 3.39 on. */
    unsigned kinds = sqlite3_libversion_number() >= 3039000 ? 6 : 4;
    int at = from + 1, next;
    add("@%c x%d", 'a' + (int)chance(TABLES), from);
    for (; at < to; at = next) {
        next = at + 1;
        add(" %s ", joins[chance(kinds)]);
        if (to - at >= 2 && chance(3) == 0) {
            next = at + 2;
            add("(");
            add_joined(at, next);
            add(")");
        } else {
            add("@%c x%d", 'a' + (int)chance(TABLES), at);
        }
        add(" ON ");
        add_condition(chance(4) == 0 ? at : from, next, 2);
    }
}

/* Columns of all references, in a row of its own for each row of the tables. */
static void add_keys(int from, int to)
{
    int at;
    for (at = from; at < to; at++) {
        add("%sx%d.id", at > from ? "," : "", at);
    }
}

static void make_statement(void)
{
    int count = 1 + (int)chance(REFERENCES);
    bool is_counted = chance(8) == 0;
    length = 0;
    add("SELECT %s", is_counted ? "count(*), min(x0.id)" : chance(8) == 0 ? "DISTINCT " : "");
    if (!is_counted) {
        /* A table of which no column is asked for may be left out of the plan. */
        add_keys(0, chance(4) == 0 ? 1 : count);
    }
    add(" FROM ");
    add_joined(0, count);
    if (chance(3) == 0) {
        add(" WHERE ");
        add_condition(0, count, 2);
    }
    if (chance(8) == 0) {
        add("%s EXISTS (SELECT 1 FROM @%c x9 LEFT JOIN @%c x8 ON ST_Within(x9.geom, x0.geom) AND x8.id = x9.n WHERE x9.n = x0.n)",
            strstr(text, " WHERE ") != NULL ? " AND" : " WHERE", 'a' + (int)chance(TABLES), 'a' + (int)chance(TABLES));
    }
    if (is_counted && chance(2) == 0) {
        add(" GROUP BY x0.n");
    }
}

/* ---- rows ---- */

struct rows {
    char **lines;
    size_t count;
};

static int compare_lines(const void *one, const void *other)
{
    return strcmp(*(char *const *)one, *(char *const *)other);
}

/* The rows of a statement, of virtual or of plain tables, sorted; or its error as a row. */
static struct rows ask(sqlite3 *connection, const char *template, char of)
{
    struct rows rows = { NULL, 0 };
    sqlite3_stmt *statement = NULL;
    char *sql = strdup(template), *at, line[512];
    int status, column;
    for (at = sql; *at != '\0'; at++) {
        *at = *at == '@' ? of : *at;
    }
    status = sqlite3_prepare_v2(connection, sql, -1, &statement, NULL);
    while (status == SQLITE_OK || status == SQLITE_ROW) {
        size_t used = 0;
        status = sqlite3_step(statement);
        for (column = 0; status == SQLITE_ROW && column < sqlite3_column_count(statement); column++) {
            const char *field = (const char *)sqlite3_column_text(statement, column);
            used += (size_t)snprintf(line + used, sizeof line - used, "%s|", field == NULL ? "NULL" : field);
        }
        if (status != SQLITE_DONE) {
            rows.lines = realloc(rows.lines, (rows.count + 1) * sizeof *rows.lines);
            rows.lines[rows.count++] = strdup(status == SQLITE_ROW ? line : sqlite3_errmsg(connection));
        }
    }
    sqlite3_finalize(statement);
    free(sql);
    if (rows.count > 0) {
        qsort(rows.lines, rows.count, sizeof *rows.lines, compare_lines);
    }
    return rows;
}

static bool are_equal(const struct rows *one, const struct rows *other)
{
    size_t at = 0;
    while (at < one->count && at < other->count && strcmp(one->lines[at], other->lines[at]) == 0) {
        at++;
    }
    return at == one->count && at == other->count;
}

static void free_lines(struct rows *rows)
{
    while (rows->count > 0) {
        free(rows->lines[--rows->count]);
    }
    free(rows->lines);
}

/* ---- what runs beside ---- */

/* Has a statement over a virtual table half done while others run. */
static sqlite3_stmt *half_done(sqlite3 *connection)
{
    sqlite3_stmt *statement = NULL;
    sqlite3_prepare_v2(connection, chance(2) ? "SELECT * FROM va x LEFT JOIN vb y ON ST_Intersects(y.geom, x.geom)"
                                             : "SELECT * FROM va x JOIN vb y ON ST_Intersects(y.geom, x.geom)",
                       -1, &statement, NULL);
    sqlite3_step(statement);
    return statement;
}

/* Makes, renames and drops tables in a transaction that is ended in some way. */
static void turn_tables(sqlite3 *connection, const char *folder)
{
    length = 0;
    add("SAVEPOINT s; CREATE VIRTUAL TABLE t USING sfq(folder='%s', table='a'); ", folder);
    add(chance(2) ? "ALTER TABLE t RENAME TO u; SELECT count(*) FROM u WHERE ST_Within(geom, geom); " : "SELECT count(*) FROM t; ");
    add(chance(2) ? "ROLLBACK TO s; RELEASE s" : "RELEASE s; DROP TABLE IF EXISTS t; DROP TABLE IF EXISTS u");
    must(connection, text);
}

/* Has the statement that was made in temporary views, in place of which another one asks them. */
static void make_views(sqlite3 *connection)
{
    static char of_view[sizeof text + 64];
    const char *kind;
    char *at;
    for (kind = "vp"; *kind != '\0'; kind++) {
        snprintf(of_view, sizeof of_view, "CREATE TEMP VIEW w%c AS %s", *kind, text);
        for (at = of_view; *at != '\0'; at++) {
            *at = *at == '@' ? *kind : *at;
        }
        must(connection, of_view);
    }
    length = 0;
    add("SELECT * FROM w@");
}

/* Asks one statement of both kinds of tables. Returns how many rows it has, or -1 where they differ. */
static long turn(sqlite3 *connection, const char *folder)
{
    sqlite3_stmt *beside = chance(10) == 0 ? half_done(connection) : NULL;
    bool in_views = beside == NULL && chance(10) == 0;
    struct rows of_virtual, of_plain;
    long count;
    make_statement();
    if (in_views) {
        make_views(connection);
    }
    of_virtual = ask(connection, text, 'v');
    of_plain = ask(connection, text, 'p');
    count = are_equal(&of_virtual, &of_plain) ? (long)of_plain.count : -1;
    if (count < 0) {
        printf("%s\n%zu rows of virtual tables, %zu of plain ones: %s, %s\n", text, of_virtual.count, of_plain.count,
               of_virtual.count > 0 ? of_virtual.lines[0] : "", of_plain.count > 0 ? of_plain.lines[0] : "");
    }
    free_lines(&of_virtual);
    free_lines(&of_plain);
    if (in_views) {
        must(connection, "DROP VIEW wv; DROP VIEW wp");
    }
    sqlite3_finalize(beside);
    if (count >= 0 && beside == NULL && chance(20) == 0) {
        turn_tables(connection, folder);
    }
    return count;
}

/* So many statements over tables of their own. Returns how many rows they had, or -1 where some differ. */
static long turn_many(const char *folder, unsigned long long seed, unsigned long long number, int count)
{
    sqlite3 *connection;
    long rows = 0, found = 0;
    begin(seed, number);
    write_tables(folder);
    if (sqlite3_open(":memory:", &connection) != SQLITE_OK) {
        return -1;
    }
    make_tables(connection, folder);
    while (count-- > 0 && found >= 0) {
        found = turn(connection, folder);
        rows = found >= 0 ? rows + found : -1;
    }
    if (sqlite3_close(connection) != SQLITE_OK) {
        printf("the connection isn't closed\n");
        rows = -1;
    }
    return rows;
}

int main(int count, char **words)
{
    enum { OF_TABLES = 50 };
    unsigned long long seed, number = 0;
    long rows = 0, found = 0;
    time_t end;
    if (count != 4) {
        return 2;
    }
    seed = strtoull(words[2], NULL, 10);
    end = time(NULL) + atol(words[3]);
    sqlite3_auto_extension((void (*)(void))sqlite3_sfq_init);
    do {
        found = turn_many(words[1], seed, number++, OF_TABLES);
        rows += found;
    } while (found >= 0 && time(NULL) < end);
    printf("seed %llu: %llu statements, %ld rows%s\n", seed, number * OF_TABLES, rows, found < 0 ? ", and some differ" : "");
    return found < 0;
}
