/*
 * Calls over databases, for tests/test_databases.py. `|` is a line feed in a text:
 *
 *     database SCHEMA TABLE CSV   opens a database of the schema, loads the table of this name from the text, and closes it again. It
 *                                 prints the status of opening, or the fault; each table with its columns and their types; the
 *                                 status of loading, or the fault; and of each table whether it is loaded
 *     file SCHEMA TABLE PATH      the same with the table of a file
 *     query SCHEMA CSV QUERY      loads the first table from the text, but from `-` none, and opens a statement of the query, and then
 *                                 another one. It prints the status or the fault; how many rows each of the two gives, which are
 *                                 stepped in turns; how many the first gives once it began anew, by steps of one look; `busy`, if a
 *                                 step that may look at nothing is busy; and its work
 *     parts TEXT                  prints the status, and each part of the text by its numbers: kind.constant@at+size
 *     described SCHEMA CSV QUERY  loads the first table from the text and opens a statement. It prints of each column of each table the
 *                                 number of its geometries, `k` for the key and `n` for NOT NULL; of each reference its table and name;
 *                                 and of each column of the rows its reference, its column and its function, or `-`
 *     asked SCHEMA CSV QUERY      loads the first table from the text and opens a statement. It prints the limit or `-`, and what is asked
 *                                 for: `rows`, `plan`, `work`, and `count`; each conjunct by its test, with `j` if it joins; each
 *                                 operand by its conjunct, test and function, and its column or the type of its constant; and each
 *                                 column that the text names: at/name+size
 *     closed                      makes each call of an empty database, and prints the statuses
 *     numbers SCHEMA              makes each call with numbers that nothing has, and prints the statuses
 *
 * Memory that is refused is asked for once more, and the line then begins with "3 ".
 */
#include "asked.h"
#include "kept.h"

#include "sfq_tables.h"

#include <stdio.h>
#include <stdlib.h>
#include <string.h>

/* What a fault is before a call, which leaves it unless it refuses a text. */
static const sfq_tables_fault unwritten = { '-', 0, 7, { 0, 0, 0, 0 } };

static void add_status(struct printed *out, int status, const sfq_tables_fault *fault)
{
    char words[200];
    if (status == SFQ_NOT_LOADED)
        snprintf(words, sizeof words, "9 table %zu%s", fault->at, fault->letter == 0 ? "" : " with a letter");
    else if (status != SFQ_REFUSED)
        snprintf(words, sizeof words, fault->letter == '-' && fault->at == 7 ? "%d" : "%d but the fault was written", status);
    else if (fault->geometry.letter == 0)
        snprintf(words, sizeof words, "1 %c%d %zu", fault->letter, fault->number, fault->at);
    else
        snprintf(words, sizeof words, "1 %c%d %zu %c%d %zu %zu", fault->letter, fault->number, fault->at, fault->geometry.letter,
                 fault->geometry.number, fault->geometry.first, fault->geometry.second);
    add(out, words);
}

/* A text whose lines end with `|`, and its length. */
static char *lines_of(const char *word, size_t *length)
{
    static __thread char room[4096];
    char *at;
    snprintf(room, sizeof room, "%s", word);
    for (at = strchr(room, '|'); at != NULL; at = strchr(at, '|'))
        *at = '\n';
    *length = strlen(room);
    return room;
}

/* Each table by its name, with the names and types of its columns. */
static void add_tables(struct printed *out, sfq_database *database)
{
    size_t tables = 0, columns = 0, length = 0, table, column;
    uint32_t type = 9;
    char name[200], words[300];
    sfq_table_count(database, &tables);
    for (table = 0; table < tables; table++) {
        int status = sfq_table_name(database, table, name, sizeof name, &length);
        snprintf(words, sizeof words, "%d:%.*s", status, (int)length, name);
        add(out, words);
        sfq_table_columns(database, table, &columns);
        for (column = 0; column < columns; column++) {
            status = sfq_table_column(database, table, column, name, sizeof name, &length, &type);
            snprintf(words, sizeof words, "%d:%.*s=%u", status, (int)length, name, (unsigned)type);
            add(out, words);
        }
    }
}

static void add_loaded(struct printed *out, sfq_database *database)
{
    size_t tables = 0, table;
    sfq_table_count(database, &tables);
    for (table = 0; table < tables; table++) {
        bool loaded = true;
        int status = sfq_is_loaded(database, table, &loaded);
        add(out, status != SFQ_OK ? "no status" : loaded ? "loaded" : "not");
    }
}

/* After memory was refused no table is loaded. */
static void add_if_loaded(struct printed *out, sfq_database *database)
{
    struct printed tables = { "" };
    add_loaded(&tables, database);
    if (strstr(tables.text, "loaded") != NULL)
        add(out, "loaded without memory");
}

static struct printed run_opened(char *const words[WORDS])
{
    struct printed out = { "" };
    sfq_database database = SFQ_EMPTY;
    sfq_tables_fault fault = unwritten;
    size_t length = 0, table = 7;
    char *text = lines_of(words[1], &length);
    bool is_file = strcmp(words[0], "file") == 0;
    int status;
    while (again(status = sfq_open(text, length, &database, &fault)))
        ;
    add_status(&out, status, &fault);
    if (status != SFQ_OK) {
        if (database.kept != NULL)
            add(&out, "but it is open");
        return out;
    }
    add_tables(&out, &database);
    if (sfq_open(text, length, &database, &fault) != SFQ_NO_GEOMETRY)
        add(&out, "opened twice");
    if (sfq_find_table(&database, words[2], strlen(words[2]), &table) != SFQ_OK)
        table = 99;
    text = lines_of(words[3], &length);
    fault = unwritten;
    while (again(status = is_file ? sfq_load_file(&database, table, text, &fault) : sfq_load(&database, table, text, length, &fault)))
        add_if_loaded(&out, &database);
    add_status(&out, status, &fault);
    add_loaded(&out, &database);
    if (sfq_close(&database) != SFQ_OK || database.kept != NULL || sfq_close(&database) != SFQ_NO_GEOMETRY)
        add(&out, "not closed");
    return out;
}

/* Steps a statement once, within so many looks, and begins it anew where memory is refused. Returns whether it goes on. */
static bool step(struct printed *out, sfq_database *database, size_t statement, uint64_t most, int *rows)
{
    int status = sfq_step(database, statement, most);
    bool busy = status == SFQ_BUSY && most != UINT64_MAX;
    if (again(status)) {
        if (sfq_step(database, statement, UINT64_MAX) != SFQ_NONE || sfq_reset(database, statement) != SFQ_OK)
            add(out, "goes on without memory");
        *rows = 0;
        return true;
    }
    if (status == SFQ_OK)
        ++*rows;
    else if (status != SFQ_NONE && !busy)
        add(out, "no status of a step");
    return status == SFQ_OK || busy;
}

/* Whether a step that may look at nothing is busy. The statement then begins anew. */
static bool is_busy(sfq_database *database, size_t statement)
{
    int status;
    while (again(status = sfq_step(database, statement, 0)))
        sfq_reset(database, statement);
    sfq_reset(database, statement);
    return status == SFQ_BUSY;
}

/* The rows of two statements, stepped in turns, and those of the first once it began anew, by steps of one look. */
static void add_rows(struct printed *out, sfq_database *database, size_t first, size_t second)
{
    int rows[3] = { 0, 0, 0 };
    bool more[2] = { true, true }, busy;
    uint64_t work = 7;
    char words[100];
    while (more[0] || more[1]) {
        more[0] = more[0] && step(out, database, first, UINT64_MAX, &rows[0]);
        more[1] = more[1] && step(out, database, second, UINT64_MAX, &rows[1]);
    }
    if (sfq_step(database, first, UINT64_MAX) != SFQ_NONE || sfq_reset(database, first) != SFQ_OK)
        add(out, "no end");
    busy = is_busy(database, first);
    if (sfq_work(database, first, &work) != SFQ_OK || work != 0)
        add(out, "work before the first row");
    while (step(out, database, first, 1, &rows[2]))
        ;
    sfq_work(database, first, &work);
    snprintf(words, sizeof words, "%d %d %d%s work %d", rows[0], rows[1], rows[2], busy ? " busy" : "", (int)work);
    add(out, words);
}

/* While statements are open nothing is loaded and nothing closed; then their numbers name nothing. */
static void end_both(struct printed *out, sfq_database *database, size_t first, size_t second)
{
    uint64_t work = 7;
    if (sfq_load(database, 0, "", 0, NULL) != SFQ_OPEN || sfq_close(database) != SFQ_OPEN)
        add(out, "not open");
    if (sfq_finalize(database, first) != SFQ_OK || sfq_finalize(database, first) != SFQ_UNKNOWN)
        add(out, "not ended");
    if (sfq_close(database) != SFQ_OPEN || sfq_finalize(database, second) != SFQ_OK)
        add(out, "ended");
    if (sfq_step(database, second, 0) != SFQ_UNKNOWN || sfq_reset(database, second) != SFQ_UNKNOWN)
        add(out, "steps on");
    if (sfq_work(database, first, &work) != SFQ_UNKNOWN || work != 7)
        add(out, "works on");
}

static void add_statements(struct printed *out, sfq_database *database, const char *query)
{
    size_t first = 7, second = 7;
    sfq_tables_fault fault = unwritten;
    int status;
    while (again(status = sfq_prepare(database, query, strlen(query), &first, &fault)))
        ;
    add_status(out, status, &fault);
    if (status != SFQ_OK) {
        if (first != 7)
            add(out, "but it has a number");
        return;
    }
    while (again(sfq_prepare(database, query, strlen(query), &second, NULL)))
        ;
    if (first == second)
        add(out, "one number for two");
    add_rows(out, database, first, second);
    end_both(out, database, first, second);
}

static struct printed run_query(char *const words[WORDS])
{
    struct printed out = { "" };
    sfq_database database = SFQ_EMPTY;
    size_t length = 0;
    char *text = lines_of(words[1], &length);
    while (again(sfq_open(text, length, &database, NULL)))
        ;
    text = lines_of(words[2], &length);
    while (strcmp(text, "-") != 0 && again(sfq_load(&database, 0, text, length, NULL)))
        ;
    add_statements(&out, &database, words[3]);
    if (sfq_close(&database) != SFQ_OK)
        add(&out, "not closed");
    return out;
}

/* ---- what is in a text ---- */

static struct printed run_parts(char *const words[WORDS])
{
    struct printed out = { "" };
    sfq_text_part room[40], few[1] = { { 7, 7, 7, 7 } };
    size_t length = 0, count = 7, all = 7, i;
    char *text = lines_of(words[1], &length), said[100];
    int status;
    while (again(status = sfq_text_parts(text, length, NULL, 1, &count)))
        ;
    while (again(sfq_text_parts(text, length, few, 0, &count)))
        ;
    if (status != SFQ_TOO_SMALL || few[0].kind != 7 || count > sizeof room / sizeof room[0])
        add(&out, "no count");
    while (again(status = sfq_text_parts(text, length, room, count, &all)))
        ;
    snprintf(said, sizeof said, "%d", status);
    add(&out, said);
    for (i = 0; status == SFQ_OK && i < all; i++) {
        snprintf(said, sizeof said, "%u.%u@%zu+%zu", (unsigned)room[i].kind, (unsigned)room[i].constant, room[i].at, room[i].size);
        add(&out, said);
    }
    if (all != count)
        add(&out, "another count");
    return out;
}

static void add_forms(struct printed *out, sfq_database *database)
{
    size_t tables = 0, table, column;
    sfq_table_count(database, &tables);
    for (table = 0; table < tables; table++) {
        sfq_form form;
        for (column = 0; sfq_column_form(database, table, column, &form) == SFQ_OK; column++) {
            char said[40];
            snprintf(said, sizeof said, "%u%s%s", (unsigned)form.geometry, form.is_key ? "k" : "", form.is_required ? "n" : "");
            add(out, said);
        }
    }
}

static void add_named(struct printed *out, sfq_database *database, size_t statement)
{
    size_t columns = 0, length = 7, table = 7, i;
    char name[100], said[200];
    sfq_origin origin;
    for (i = 0; sfq_reference(database, statement, i, NULL, 0, &length, &table) == SFQ_TOO_SMALL; i++) {
        int status = sfq_reference(database, statement, i, name, sizeof name, &length, &table);
        snprintf(said, sizeof said, "%d:%zu=%.*s", status, table, (int)length, name);
        add(out, said);
    }
    sfq_columns(database, statement, &columns);
    for (i = 0; i < columns; i++) {
        if (sfq_column_origin(database, statement, i, &origin) == SFQ_OK)
            snprintf(said, sizeof said, "%zu/%zu/%u", origin.reference, origin.column, (unsigned)origin.function);
        else
            snprintf(said, sizeof said, "-");
        add(out, said);
    }
}

static struct printed run_described(char *const words[WORDS])
{
    struct printed out = { "" };
    sfq_database database = SFQ_EMPTY;
    size_t length = 0, statement = 7;
    char *text = lines_of(words[1], &length);
    while (again(sfq_open(text, length, &database, NULL)))
        ;
    add_forms(&out, &database);
    text = lines_of(words[2], &length);
    while (again(sfq_load(&database, 0, text, length, NULL)))
        ;
    while (again(sfq_prepare(&database, words[3], strlen(words[3]), &statement, NULL)))
        ;
    add_named(&out, &database, statement);
    if (sfq_finalize(&database, statement) != SFQ_OK || sfq_close(&database) != SFQ_OK)
        add(&out, "not closed");
    return out;
}

static void add_asked(struct printed *out, sfq_database *database, size_t statement)
{
    static const char *const asked[] = { "rows", "plan", "work" };
    sfq_query_form form;
    sfq_conjunct_form conjunct;
    char said[100];
    size_t i;
    sfq_query(database, statement, &form);
    if (form.limits)
        snprintf(said, sizeof said, "%llu", (unsigned long long)form.limit);
    else
        snprintf(said, sizeof said, form.limit == 0 ? "-" : "a number without LIMIT");
    add(out, said);
    add(out, asked[form.explain]);
    if (form.counts)
        add(out, "count");
    for (i = 0; sfq_conjunct(database, statement, i, &conjunct) == SFQ_OK; i++) {
        snprintf(said, sizeof said, "%u%s", (unsigned)conjunct.test, conjunct.joins ? "j" : "");
        add(out, said);
    }
    if (i != form.conjuncts)
        add(out, "another number of conjuncts");
}

static void add_operands(struct printed *out, sfq_database *database, size_t statement)
{
    sfq_operand room[10], few[1] = { { 7, 7, 7, 7, 7, 7 } };
    size_t count = 7, all = 7, i;
    char said[100];
    int status;
    while (again(status = sfq_operands(database, statement, NULL, 1, &count)))
        ;
    while (again(sfq_operands(database, statement, few, 0, &all)))
        ;
    if (status != (count > 0 ? SFQ_TOO_SMALL : SFQ_OK) || few[0].test != 7 || all != count || count > sizeof room / sizeof room[0])
        add(out, "no count");
    while (again(status = sfq_operands(database, statement, room, count, &all)))
        ;
    for (i = 0; status == SFQ_OK && i < all; i++) {
        if (room[i].constant == SFQ_NO_CONSTANT)
            snprintf(said, sizeof said, "%zu:%u.%u=%zu/%zu", room[i].conjunct, (unsigned)room[i].test, (unsigned)room[i].function, room[i].reference, room[i].column);
        else
            snprintf(said, sizeof said, "%zu:%u.%u=%u", room[i].conjunct, (unsigned)room[i].test, (unsigned)room[i].function, (unsigned)room[i].constant);
        add(out, said);
    }
}

static void add_columns(struct printed *out, const char *query)
{
    sfq_named_column room[10], few[1] = { { 7, 7, 7 } };
    size_t count = 7, all = 7, i;
    char said[100];
    int status;
    while (again(status = sfq_named_columns(query, strlen(query), NULL, 1, &count)))
        ;
    while (again(sfq_named_columns(query, strlen(query), few, 0, &all)))
        ;
    if (status != (count > 0 ? SFQ_TOO_SMALL : SFQ_OK) || few[0].at != 7 || all != count || count > sizeof room / sizeof room[0])
        add(out, "no count of columns");
    while (again(status = sfq_named_columns(query, strlen(query), room, count, &all)))
        ;
    for (i = 0; status == SFQ_OK && i < all; i++) {
        snprintf(said, sizeof said, "%zu/%zu+%zu", room[i].at, room[i].name, room[i].size);
        add(out, said);
    }
    all = 7;
    while (again(status = sfq_named_columns("SELECT", 6, room, 10, &all)))
        ;
    if (status != SFQ_UNKNOWN || sfq_named_columns("\xff", 1, room, 10, &all) != SFQ_UNKNOWN || all != 7)
        add(out, "no query is one");
}

static struct printed run_asked(char *const words[WORDS])
{
    struct printed out = { "" };
    sfq_database database = SFQ_EMPTY;
    size_t length = 0, statement = 7;
    char *text = lines_of(words[1], &length);
    while (again(sfq_open(text, length, &database, NULL)))
        ;
    text = lines_of(words[2], &length);
    while (again(sfq_load(&database, 0, text, length, NULL)))
        ;
    while (again(sfq_prepare(&database, words[3], strlen(words[3]), &statement, NULL)))
        ;
    add_asked(&out, &database, statement);
    add_operands(&out, &database, statement);
    add_columns(&out, words[3]);
    if (sfq_finalize(&database, statement) != SFQ_OK || sfq_close(&database) != SFQ_OK)
        add(&out, "not closed");
    return out;
}

/* Each call of a database, with this number of a table and of a column. */
static void add_each(struct printed *out, sfq_database *database, size_t number)
{
    char room[8] = "before", words[100];
    size_t count = 7, table = 7, length = 7;
    uint32_t type = 7;
    bool loaded = true;
    sfq_tables_fault fault = unwritten;
    int all[32];
    sfq_query_form asked = { 7, 7, 7, false, false };
    sfq_conjunct_form conjunct = { 7, false };
    sfq_operand operand[1] = { { 7, 7, 7, 7, 7, 7 } };
    sfq_form form = { 7, false, false };
    sfq_origin origin = { 7, 7, 7 };
    uint64_t work = 7;
    int64_t value = 7;
    all[0] = sfq_find_table(database, "nothing", 7, &table);
    all[1] = sfq_table_name(database, number, room, sizeof room, &length);
    all[2] = sfq_table_columns(database, number, &count);
    all[3] = sfq_table_column(database, number, number, room, sizeof room, &length, &type);
    all[4] = sfq_is_loaded(database, number, &loaded);
    all[5] = sfq_load(database, number, "a\n", 2, &fault);
    all[6] = sfq_load_file(database, number, "/dev/null", &fault);
    all[7] = sfq_step(database, number, 7);
    all[8] = sfq_reset(database, number);
    all[9] = sfq_work(database, number, &work);
    all[10] = sfq_finalize(database, number);
    all[11] = sfq_prepare(database, "\xff", 1, &table, &fault);
    all[12] = sfq_columns(database, number, &count);
    all[13] = sfq_column_name(database, number, 0, room, sizeof room, &length);
    all[14] = sfq_column_type(database, number, 0, &type);
    all[15] = sfq_header_text(database, number, room, sizeof room, &length);
    all[16] = sfq_column_integer(database, number, 0, &value);
    all[17] = sfq_column_text(database, number, 0, room, sizeof room, &length);
    all[18] = sfq_row_text(database, number, room, sizeof room, &length);
    all[19] = sfq_plan_text(database, number, room, sizeof room, &length);
    all[20] = sfq_constants(database, number, &count);
    all[21] = sfq_constant_type(database, number, 0, &type);
    all[22] = sfq_bind_integer(database, number, 0, 7);
    while (again(all[23] = sfq_bind_text(database, number, 0, "a", 1)))
        ;
    while (again(all[24] = sfq_bind_geometry(database, number, 0, "POINT(1 2)", 10, &fault)))
        ;
    all[25] = sfq_bind_null(database, number, 0);
    all[26] = sfq_column_form(database, number, 0, &form);
    all[27] = sfq_reference(database, number, 0, room, sizeof room, &length, &table);
    all[28] = sfq_column_origin(database, number, 0, &origin);
    all[29] = sfq_query(database, number, &asked);
    all[30] = sfq_conjunct(database, number, 0, &conjunct);
    all[31] = sfq_operands(database, number, operand, 1, &count);
    for (size_t i = 0; i < sizeof all / sizeof all[0]; i++) {
        snprintf(words, sizeof words, "%d", all[i]);
        add(out, words);
    }
    if (strcmp(room, "before") != 0 || count + table + length + type + work != 35 || value != 7 || form.geometry != 7 || origin.reference != 7 || asked.limit + asked.conjuncts + conjunct.test + operand[0].test != 28 || !loaded || fault.letter != '-')
        add(out, "but something was written");
}

static struct printed run_numbers(char *const words[WORDS])
{
    struct printed out = { "" };
    sfq_database database = SFQ_EMPTY;
    size_t length = 0, count = 7;
    char *text = lines_of(words[1], &length);
    if (strcmp(words[0], "closed") == 0) {
        char word[20];
        snprintf(word, sizeof word, "%d", sfq_table_count(&database, &count));
        add(&out, word);
        add_each(&out, &database, 0);
        return out;
    }
    while (again(sfq_open(text, length, &database, NULL)))
        ;
    add_each(&out, &database, (size_t)-1);
    sfq_table_count(&database, &count);
    add_each(&out, &database, count);
    sfq_close(&database);
    return out;
}

bool is_database_call(char *const words[WORDS])
{
    static const char *const known[] = { "database", "file", "query", "parts", "described", "asked", "closed", "numbers" };
    size_t i;
    for (i = 0; i < sizeof known / sizeof known[0]; i++)
        if (strcmp(words[0], known[i]) == 0)
            return true;
    return false;
}

struct printed run_database(char *const words[WORDS])
{
    struct printed out, all = { "" };
    ran_out = false;
    if (strcmp(words[0], "query") == 0)
        out = run_query(words);
    else if (strcmp(words[0], "parts") == 0)
        out = run_parts(words);
    else if (strcmp(words[0], "described") == 0)
        out = run_described(words);
    else if (strcmp(words[0], "asked") == 0)
        out = run_asked(words);
    else
        out = strcmp(words[0], "database") == 0 || strcmp(words[0], "file") == 0 ? run_opened(words) : run_numbers(words);
    if (!ran_out)
        return out;
    snprintf(all.text, sizeof all.text, "3 %.*s", (int)(sizeof all.text - 3), out.text);
    return all;
}
