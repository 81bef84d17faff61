/* Whether the index may be asked: see statements.h. */
#include "statements.h"

#include <string.h>

/* The first version in whose source a table on the left of an outer join was seen to be offered no relation of ON. */
#define OFFERS_NO_ON 3053004

/* How many bytes of the front of a text of SQLite are of a word. */
static size_t word_length(const char *text, size_t length)
{
    static const char of_words[] = "ABCDEFGHIJKLMNOPQRSTUVWXYZabcdefghijklmnopqrstuvwxyz0123456789_";
    size_t at = 0;
    while (at < length && strchr(of_words, text[at]) != NULL) {
        at++;
    }
    return at;
}

/* Whether a text has a word without which no outer join is written. It may be a name or a part of a literal too. */
static bool has_outer_word(const char *sql)
{
    static const char *const words[] = { "LEFT", "RIGHT", "FULL" };
    size_t length = strlen(sql), at = 0, word;
    while (at < length) {
        size_t size = word_length(sql + at, length - at);
        for (word = 0; word < sizeof words / sizeof words[0]; word++) {
            if (size == strlen(words[word]) && sqlite3_strnicmp(sql + at, words[word], (int)size) == 0) {
                return true;
            }
        }
        at += size > 0 ? size : 1;
    }
    return false;
}

/* Whether a view or a trigger that may use the tables has such a word: a temporary one, which no file has. True where it isn't known. */
static bool has_outer_view(sqlite3 *sqlite)
{
    static const char sources[] = "SELECT sql FROM sqlite_temp_master WHERE type IN ('view', 'trigger')";
    sqlite3_stmt *statement = NULL;
    bool found = sqlite3_prepare_v2(sqlite, sources, -1, &statement, NULL) != SQLITE_OK;
    int status = SQLITE_DONE;
    while (!found && (status = sqlite3_step(statement)) == SQLITE_ROW) {
        const char *sql = (const char *)sqlite3_column_text(statement, 0);
        found = sql == NULL || has_outer_word(sql);
    }
    sqlite3_finalize(statement);
    return found || status != SQLITE_DONE;
}

/*
 * Whether each step of a statement that asks a table by this plan is one of the right table of LEFT JOIN, as EXPLAIN QUERY PLAN says it
 * from 3.39 on. False where it can't be asked, or no step does.
 */
static bool are_of_right_tables(sqlite3 *sqlite, const char *sql, const char *step)
{
    char *asked = sqlite3_mprintf("EXPLAIN QUERY PLAN %s", sql);
    sqlite3_stmt *statement = NULL;
    bool are_right = asked != NULL && sqlite3_prepare_v2(sqlite, asked, -1, &statement, NULL) == SQLITE_OK && statement != NULL;
    int status = SQLITE_DONE, found = 0;
    while (are_right && (status = sqlite3_step(statement)) == SQLITE_ROW) {
        const char *line = (const char *)sqlite3_column_text(statement, 3), *at = line == NULL ? NULL : strstr(line, step);
        found += at != NULL;
        are_right = line != NULL && (at == NULL || strcmp(at + strlen(step), " LEFT-JOIN") == 0);
    }
    sqlite3_finalize(statement);
    sqlite3_free(asked);
    return are_right && status == SQLITE_DONE && found > 0;
}

/*
 * Whether a relation with this plan may leave out rows, whichever of the connection's statements asks. That one runs, so the texts of all
 * that run are looked at, and those of temporary views and triggers; no others may ask (sqlite3_vtab_config). A statement without a text
 * may be any.
 */
static bool look_at_statements(sqlite3 *sqlite, int plan, const char *name)
{
    char *step = NULL;
    sqlite3_stmt *at = NULL;
    bool may = true, in_view = has_outer_view(sqlite);
    while (may && (at = sqlite3_next_stmt(sqlite, at)) != NULL) {
        const char *sql = sqlite3_sql(at);
        if (sqlite3_stmt_busy(at) && (sql == NULL || in_view || has_outer_word(sql))) {
            step = step != NULL ? step : sqlite3_mprintf("VIRTUAL TABLE INDEX %d:%s", plan, name);
            may = sql != NULL && step != NULL && are_of_right_tables(sqlite, sql, step);
        }
    }
    sqlite3_free(step);
    return may;
}

/* Notes the statements that run, as many as there is room for, and returns how many there are. */
static size_t running_statements(sqlite3 *sqlite, sqlite3_stmt *running[RUNNING])
{
    sqlite3_stmt *at = NULL;
    size_t count = 0;
    while ((at = sqlite3_next_stmt(sqlite, at)) != NULL) {
        if (sqlite3_stmt_busy(at)) {
            if (count < RUNNING) {
                running[count] = at;
            }
            count++;
        }
    }
    return count;
}

/* Whether what was found last is of the same table and plan, while the same statements ran, and no plan was asked for since. */
static bool is_known(const struct looked *last, const struct looked *now)
{
    return now->count <= RUNNING && last->count == now->count && last->table == now->table && last->plan == now->plan &&
           last->plans == now->plans && memcmp(last->running, now->running, sizeof now->running) == 0;
}

bool may_search(struct connection *connection, const void *table, int plan, const char *name)
{
    struct looked now = { table, plan, connection->plans, 0, { NULL }, true };
    if (sqlite3_libversion_number() >= OFFERS_NO_ON) {
        return true;
    }
    now.count = running_statements(connection->sqlite, now.running);
    if (!is_known(&connection->looked, &now)) {
        now.may_search = look_at_statements(connection->sqlite, plan, name);
        /* To look at a statement asks for its plans. */
        now.plans = connection->plans;
        connection->looked = now;
    }
    return connection->looked.may_search;
}
