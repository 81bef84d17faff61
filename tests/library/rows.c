/*
 * Calls over the rows and the constants of statements, for tests/test_databases.py. `|` is a line feed in a text:
 *
 *     rows SCHEMA CSV QUERY   loads the first table from the text, opens a statement of the query, and prints each column with its type,
 *                             the header, and of each row its text and its fields, `-` for NULL; its plan has to be what EXPLAIN gives
 *     bind SCHEMA CSV QUERY;K=VALUE;..
 *                             loads it likewise and opens a statement, steps it once, and binds its K-th constant to a value: a letter,
 *                             and for i (integer), t (text) and g (geometry) the value; n is NULL, and b a text that isn't UTF-8. It
 *                             prints the types of the constants, the status of each, or the fault, and the texts of the rows
 *     order CALLS NUMBER      makes so many calls in an order that the number gives, compares each with what a model says, and prints
 *                             how many they were
 *
 * Memory that is refused is asked for once more, and the line then begins with "3 ".
 */
#include "asked.h"
#include "kept.h"

#include "sfq_tables.h"

#include <stdio.h>
#include <stdlib.h>
#include <string.h>

static void add_number(struct printed *out, long long number)
{
    char words[30];
    snprintf(words, sizeof words, "%lld", number);
    add(out, words);
}

static void exchange(char *text, char one, char other)
{
    for (; *text != '\0'; text++)
        if (*text == one)
            *text = other;
}

/* ---- texts ---- */

enum what { NAME, FIELD, HEADER, PLAN, ROW };

#define ROOM 300

static int ask(enum what what, sfq_database *database, size_t statement, size_t column, char *room, size_t size, size_t *length)
{
    switch (what) {
    case NAME:
        return sfq_column_name(database, statement, column, room, size, length);
    case FIELD:
        return sfq_column_text(database, statement, column, room, size, length);
    case HEADER:
        return sfq_header_text(database, statement, room, size, length);
    case PLAN:
        return sfq_plan_text(database, statement, room, size, length);
    default:
        return sfq_row_text(database, statement, room, size, length);
    }
}

/* A text: asked for its length first, then with a room that is a byte too small, then with one that is larger. */
static int text_of(struct printed *out, enum what what, sfq_database *database, size_t statement, size_t column, char found[ROOM])
{
    size_t length = 77, once_more = 77;
    int status;
    memset(found, '#', ROOM);
    while (again(status = ask(what, database, statement, column, NULL, 0, &length)))
        if (length != 77)
            add(out, "a length without memory");
    if (status != SFQ_TOO_SMALL) {
        if (length != (status == SFQ_OK ? 0 : 77))
            add(out, "a length of nothing");
        found[0] = '\0';
        return status;
    }
    while (again(status = ask(what, database, statement, column, found, length - 1, &once_more)))
        ;
    if (status != SFQ_TOO_SMALL || once_more != length || found[0] != '#')
        add(out, "written where the room is too small");
    while (again(status = ask(what, database, statement, column, found, length + 1, &once_more)))
        ;
    if (status != SFQ_OK || once_more != length || found[length] != '#')
        add(out, "not the text");
    found[length] = '\0';
    exchange(found, '\n', '|');
    return status;
}

static void add_text(struct printed *out, enum what what, sfq_database *database, size_t statement, size_t column)
{
    char found[ROOM];
    int status = text_of(out, what, database, statement, column, found);
    add(out, status == SFQ_OK ? found : status == SFQ_NONE ? "-" : "no text");
}

/* ---- rows ---- */

/* Opens a database and loads its first table. */
static void open_loaded(sfq_database *database, const char *schema, const char *csv)
{
    char text[4096];
    while (again(sfq_open(schema, strlen(schema), database, NULL)))
        ;
    snprintf(text, sizeof text, "%s", csv);
    exchange(text, '|', '\n');
    while (again(sfq_load(database, 0, text, strlen(text), NULL)))
        ;
}

static int prepare(sfq_database *database, const char *query, size_t *statement)
{
    int status;
    while (again(status = sfq_prepare(database, query, strlen(query), statement, NULL)))
        ;
    return status;
}

/* No row is there, so nothing is said of one. */
static void need_no_row(struct printed *out, sfq_database *database, size_t statement)
{
    char room[8] = "before";
    size_t length = 7;
    int64_t value = 7;
    if (sfq_row_text(database, statement, room, sizeof room, &length) != SFQ_NO_ROW
        || sfq_column_text(database, statement, 0, room, sizeof room, &length) != SFQ_NO_ROW
        || sfq_column_integer(database, statement, 0, &value) != SFQ_NO_ROW)
        add(out, "a row without a step");
    if (strcmp(room, "before") != 0 || length != 7 || value != 7)
        add(out, "but something was written");
}

/* A number in a column, which has to be what its field says, and none of another type. */
static void need_number(struct printed *out, sfq_database *database, size_t statement, size_t column, const char *field)
{
    uint32_t type = 9;
    int64_t value = 7;
    char digits[30];
    int status = sfq_column_integer(database, statement, column, &value);
    sfq_column_type(database, statement, column, &type);
    snprintf(digits, sizeof digits, "%lld", (long long)value);
    if (type == SFQ_INTEGER && field[0] != '\0' ? status != SFQ_OK || strcmp(digits, field) != 0 : status != SFQ_NONE || value != 7)
        add(out, "no number of this column");
}

/* The row that is there: its text, and its fields, if they are wanted. */
static void add_row(struct printed *out, sfq_database *database, size_t statement, size_t columns)
{
    size_t column, length = 7;
    char field[ROOM];
    int64_t value = 7;
    add_text(out, ROW, database, statement, 0);
    for (column = 0; column < columns; column++) {
        int status = text_of(out, FIELD, database, statement, column, field);
        need_number(out, database, statement, column, field);
        add(out, status == SFQ_OK ? field : status == SFQ_NONE ? "-" : "no field");
    }
    if (columns > 0 && (sfq_column_text(database, statement, columns, NULL, 0, &length) != SFQ_UNKNOWN
                        || sfq_column_integer(database, statement, columns, &value) != SFQ_UNKNOWN || length != 7 || value != 7))
        add(out, "a column too many");
}

/* All rows of a statement. Where memory is refused it begins anew. */
static void add_rows(struct printed *out, sfq_database *database, size_t statement, size_t columns)
{
    struct printed rows = { "" };
    int status;
    need_no_row(out, database, statement);
    while ((status = sfq_step(database, statement, UINT64_MAX)) != SFQ_NONE) {
        if (again(status)) {
            rows.text[0] = '\0';
            need_no_row(out, database, statement);
            if (sfq_reset(database, statement) != SFQ_OK)
                add(out, "not begun anew");
        } else if (status == SFQ_OK) {
            add_row(&rows, database, statement, columns);
        } else {
            add(out, "no status of a step");
            break;
        }
    }
    need_no_row(out, database, statement);
    if (rows.text[0] != '\0')
        add(out, rows.text);
}

/* The plan, which has to be the rows of EXPLAIN. */
static void need_plan(struct printed *out, sfq_database *database, size_t statement, const char *query)
{
    char words[1000], plan[ROOM], line[ROOM], lines[10 * ROOM] = "";
    size_t other = 7;
    int status;
    text_of(out, PLAN, database, statement, 0, plan);
    snprintf(words, sizeof words, "%s%s", strncmp(query, "EXPLAIN ", 8) == 0 ? "" : "EXPLAIN ", query);
    prepare(database, words, &other);
    while ((status = sfq_step(database, other, UINT64_MAX)) == SFQ_OK || again(status)) {
        if (status == SFQ_OK) {
            text_of(out, ROW, database, other, 0, line);
            strncat(lines, line, sizeof lines - strlen(lines) - 1);
        } else {
            lines[0] = '\0';
            sfq_reset(database, other);
        }
    }
    if (strcmp(plan, lines) != 0 || sfq_finalize(database, other) != SFQ_OK)
        add(out, "another plan");
}

static struct printed run_rows(char *const words[WORDS])
{
    struct printed out = { "" };
    sfq_database database = SFQ_EMPTY;
    size_t statement = 7, columns = 0, column;
    open_loaded(&database, words[1], words[2]);
    add_number(&out, prepare(&database, words[3], &statement));
    sfq_columns(&database, statement, &columns);
    for (column = 0; column < columns; column++) {
        uint32_t type = 9;
        add_text(&out, NAME, &database, statement, column);
        sfq_column_type(&database, statement, column, &type);
        add_number(&out, type);
    }
    add_text(&out, HEADER, &database, statement, 0);
    need_plan(&out, &database, statement, words[3]);
    add_rows(&out, &database, statement, columns);
    if (sfq_finalize(&database, statement) != SFQ_OK || sfq_close(&database) != SFQ_OK)
        add(&out, "not closed");
    return out;
}

/* ---- constants ---- */

static int bind(sfq_database *database, size_t statement, size_t constant, const char *value, sfq_tables_fault *fault)
{
    const char *text = value + 1;
    switch (value[0]) {
    case 'i':
        return sfq_bind_integer(database, statement, constant, strtoll(text, NULL, 10));
    case 't':
        return sfq_bind_text(database, statement, constant, text, strlen(text));
    case 'b':
        return sfq_bind_text(database, statement, constant, "\xff", 1);
    case 'g':
        return sfq_bind_geometry(database, statement, constant, text, strlen(text), fault);
    default:
        return sfq_bind_null(database, statement, constant);
    }
}

/* What a fault is before a call, which leaves it unless it refuses a text. */
static const sfq_tables_fault unwritten = { '-', 0, 7, { 0, 0, 0, 0 } };

static void add_bound(struct printed *out, int status, const sfq_tables_fault *fault)
{
    char words[100];
    if (status == SFQ_REFUSED)
        snprintf(words, sizeof words, "1 %c%d %zu %c%d %zu", fault->letter, fault->number, fault->at, fault->geometry.letter,
                 fault->geometry.number, fault->geometry.first);
    else
        snprintf(words, sizeof words, fault->letter == '-' && fault->at == 7 ? "%d" : "%d but the fault was written", status);
    add(out, words);
}

/* Ends a statement after memory was refused: it has no rows any more, or is as it was where a text was to be bound. */
static void end_bound(struct printed *out, sfq_database *database, size_t statement, char kind)
{
    size_t length = 7;
    if ((kind == 'i' || kind == 'n')
        && (sfq_row_text(database, statement, NULL, 0, &length) != SFQ_NO_ROW
            || sfq_step(database, statement, UINT64_MAX) != SFQ_NONE || sfq_reset(database, statement) != SFQ_OK
            || sfq_step(database, statement, UINT64_MAX) != SFQ_NONE))
        add(out, "rows without memory");
    if (sfq_finalize(database, statement) != SFQ_OK)
        add(out, "not ended");
}

/* Binds a constant, and returns the status. A row that was there still is, unless the value was bound. */
static int bind_one(struct printed *out, sfq_database *database, size_t statement, const char *words, bool *has_row)
{
    sfq_tables_fault fault = unwritten;
    const char *value = strchr(words, '=') + 1;
    size_t length = 7;
    int status = bind(database, statement, (size_t)atol(words), value, &fault), row;
    if (again(status))
        return status;
    add_bound(out, status, &fault);
    *has_row = *has_row && status != SFQ_OK;
    while (again(row = sfq_row_text(database, statement, NULL, 0, &length)))
        ;
    if (row != (*has_row ? SFQ_TOO_SMALL : SFQ_NO_ROW))
        add(out, "another row");
    return status;
}

/* Binds the constants of a list, one after another. Returns the letter of the value for which memory was refused, or 0. */
static char bind_all(struct printed *out, sfq_database *database, size_t statement, const char *list, bool *has_row)
{
    char words[ROOM];
    while (*list != '\0') {
        size_t length = strcspn(list, ";");
        snprintf(words, sizeof words, "%.*s", (int)length, list);
        if (bind_one(out, database, statement, words, has_row) == SFQ_OUT_OF_MEMORY)
            return strchr(words, '=')[1];
        list += length + (list[length] == ';');
    }
    return '\0';
}

/* The types of the constants. */
static void add_constants(struct printed *out, sfq_database *database, size_t statement)
{
    size_t constants = 99, constant;
    uint32_t type = 9;
    if (sfq_constants(database, statement, &constants) != SFQ_OK)
        add(out, "no constants");
    for (constant = 0; constant < constants; constant++) {
        sfq_constant_type(database, statement, constant, &type);
        add_number(out, type);
    }
    type = 9;
    if (sfq_constant_type(database, statement, constants, &type) != SFQ_UNKNOWN || type != 9)
        add(out, "a constant too many");
}

/* Opens a statement and steps it once. Returns whether a row is there. */
static bool prepare_stepped(sfq_database *database, const char *query, size_t *statement)
{
    int status;
    prepare(database, query, statement);
    while (again(status = sfq_step(database, *statement, UINT64_MAX)))
        sfq_reset(database, *statement);
    return status == SFQ_OK;
}

static struct printed run_bind(char *const words[WORDS])
{
    struct printed out = { "" }, bound = { "" };
    sfq_database database = SFQ_EMPTY;
    size_t statement = 7, length = strcspn(words[3], ";");
    char query[1000], refused;
    bool has_row;
    snprintf(query, sizeof query, "%.*s", (int)length, words[3]);
    open_loaded(&database, words[1], words[2]);
    has_row = prepare_stepped(&database, query, &statement);
    add_constants(&out, &database, statement);
    while ((refused = bind_all(&bound, &database, statement, words[3] + length + 1, &has_row)) != '\0') {
        end_bound(&out, &database, statement, refused);
        bound.text[0] = '\0';
        has_row = prepare_stepped(&database, query, &statement);
    }
    add(&out, bound.text);
    if (has_row && sfq_reset(&database, statement) != SFQ_OK)
        add(&out, "not begun anew");
    add_rows(&out, &database, statement, 0);
    if (sfq_finalize(&database, statement) != SFQ_OK || sfq_close(&database) != SFQ_OK)
        add(&out, "not closed");
    return out;
}

/* ---- calls in any order ---- */

#define STATEMENTS 5
#define IDS 5

static const char *const queries[] = {
    "SELECT id, name FROM t WHERE id > 2",
    "SELECT name, id, name FROM t WHERE id = 4",
    "SELECT COUNT(*) FROM t WHERE id < 4",
};
static const uint32_t types[][3] = { { SFQ_INTEGER, SFQ_TEXT, 9 }, { SFQ_TEXT, SFQ_INTEGER, SFQ_TEXT }, { SFQ_INTEGER, 9, 9 } };
static const char *const headers[] = { "id,name\n", "name,id,name\n", "COUNT(*)\n" };
static const char *const header_names[][3] = { { "id", "name", "" }, { "name", "id", "name" }, { "COUNT(*)", "", "" } };
static const size_t widths[] = { 2, 3, 1 };
static const long long first_bounds[] = { 2, 4, 4 };
static const char *const names[IDS + 1] = { "", "a", "b", "", "d", "e" };

/* A statement as it has to be: its query and its constant, how many rows it gave, and whether one is there and none is left. */
struct known {
    bool is_open, is_null, is_there, is_over;
    size_t number;
    int query, given;
    long long bound;
};

struct order {
    struct printed *out;
    sfq_database database;
    struct known all[STATEMENTS];
    unsigned long state;
    int made;
};

static unsigned long draw(struct order *order, unsigned long below)
{
    order->state = order->state * 6364136223846793005UL + 1442695040888963407UL;
    return (order->state >> 33) % below;
}

static bool holds(const struct known *it, long long id)
{
    if (it->is_null)
        return false;
    return it->query == 0 ? id > it->bound : it->query == 1 ? id == it->bound : id < it->bound;
}

/* The number of the row that a statement gave last: an id, or how many there are. */
static long long row_of(const struct known *it)
{
    long long id, found = 0;
    for (id = 1; id <= IDS; id++) {
        found += holds(it, id);
        if (it->query != 2 && holds(it, id) && found == it->given)
            return id;
    }
    return found;
}

static int rows_of(const struct known *it)
{
    struct known whole = *it;
    whole.given = 0;
    return it->query == 2 ? 1 : (int)row_of(&whole);
}

/* The field of a column of the row that is there. */
static void field_of(const struct known *it, size_t column, char field[40])
{
    if (types[it->query][column] == SFQ_INTEGER)
        snprintf(field, 40, "%lld", row_of(it));
    else
        snprintf(field, 40, "%s", names[row_of(it)]);
}

static void wrong(struct order *order, const char *what, long long found, long long wanted)
{
    char words[100];
    snprintf(words, sizeof words, "call %d, %s: %lld, not %lld", order->made, what, found, wanted);
    add(order->out, words);
}

static void need(struct order *order, const char *what, long long found, long long wanted)
{
    if (found != wanted)
        wrong(order, what, found, wanted);
}

/* A number that no open statement has, now and then that of one that was ended. */
static size_t other_number(struct order *order, const struct known *it)
{
    int i;
    for (i = 0; i < STATEMENTS; i++)
        if (order->all[i].is_open && order->all[i].number == it->number)
            return (size_t)-1 - draw(order, 3);
    return it->number;
}

/* A text with a room of any size. */
static void need_text(struct order *order, enum what what, size_t number, size_t column, int wanted, const char *text)
{
    char room[60];
    size_t size = draw(order, sizeof room), length = 77;
    int status;
    memset(room, '#', sizeof room);
    while (again(status = ask(what, &order->database, number, column, room, size, &length)))
        ;
    if (wanted == SFQ_OK && size < strlen(text))
        wanted = SFQ_TOO_SMALL;
    need(order, "a text", status, wanted);
    need(order, "a length", (long long)length, wanted == SFQ_OK || wanted == SFQ_TOO_SMALL ? (long long)strlen(text) : 77);
    if (wanted == SFQ_OK && memcmp(room, text, strlen(text)) != 0)
        wrong(order, "another text", room[0], text[0]);
    need(order, "a room", room[wanted == SFQ_OK ? strlen(text) : 0], '#');
}

static void call_prepare(struct order *order, struct known *it)
{
    int i;
    if (it->is_open)
        return;
    *it = (struct known){ 0 };
    it->query = (int)draw(order, 3);
    it->bound = first_bounds[it->query];
    need(order, "prepare", prepare(&order->database, queries[it->query], &it->number), SFQ_OK);
    for (i = 0; i < STATEMENTS; i++)
        if (order->all[i].is_open && order->all[i].number == it->number)
            wrong(order, "a number twice", (long long)it->number, 0);
    it->is_open = true;
}

static bool may_be_busy(const struct known *it)
{
    return it->query != 2 || (it->given == 0 && !it->is_over);
}

static void call_step(struct order *order, struct known *it, size_t number)
{
    unsigned long most = draw(order, 9);
    int status = sfq_step(&order->database, number, most), wanted = SFQ_UNKNOWN;
    /* It may look at fewer candidates than there are: then no row is there, and the same are to come. COUNT(*) is busy before its row. */
    if (it->is_open && status == SFQ_BUSY && may_be_busy(it) && most <= (it->is_over ? 0 : IDS)) {
        it->is_there = false;
        return;
    }
    if (it->is_open && again(status)) {
        it->is_there = false;
        it->is_over = true;
        return;
    }
    if (it->is_open) {
        it->is_over = it->is_over || it->given == rows_of(it);
        it->is_there = !it->is_over;
        it->given += it->is_there;
        wanted = it->is_there ? SFQ_OK : SFQ_NONE;
    }
    need(order, "step", status, wanted);
}

static void begin_anew(struct known *it)
{
    it->given = 0;
    it->is_there = it->is_over = false;
}

static void call_end(struct order *order, struct known *it, size_t number)
{
    if (draw(order, 3) > 0) {
        need(order, "reset", sfq_reset(&order->database, number), it->is_open ? SFQ_OK : SFQ_UNKNOWN);
        begin_anew(it);
        return;
    }
    need(order, "finalize", sfq_finalize(&order->database, number), it->is_open ? SFQ_OK : SFQ_UNKNOWN);
    it->is_open = it->is_there = false;
}

static void call_bind(struct order *order, struct known *it, size_t number)
{
    static const char *const values[] = { "i0", "i1", "i3", "i9", "n", "ta", "b", "gPOINT(1 2)", "gPOINT(1" };
    sfq_tables_fault fault = unwritten;
    const char *value = values[draw(order, sizeof values / sizeof values[0])];
    size_t constant = draw(order, 4) > 0 ? 0 : 1 + draw(order, 2);
    bool takes = it->is_open && constant == 0 && (value[0] == 'n' || (value[0] == 'i' && !it->is_null));
    int status = bind(&order->database, number, constant, value, &fault);
    if (again(status)) {
        if (it->is_open)
            end_bound(order->out, &order->database, number, value[0]);
        it->is_open = it->is_there = false;
        return;
    }
    need(order, "bind", status, strcmp(value, "gPOINT(1") == 0 ? SFQ_REFUSED : takes ? SFQ_OK : SFQ_UNKNOWN);
    need(order, "a fault", fault.letter, status == SFQ_REFUSED ? 'Q' : '-');
    if (takes) {
        it->is_null = value[0] == 'n';
        it->bound = strtoll(value + 1, NULL, 10);
        begin_anew(it);
    }
}

static void call_constants(struct order *order, const struct known *it, size_t number)
{
    size_t count = 77;
    uint32_t type = 77;
    need(order, "constants", sfq_constants(&order->database, number, &count), it->is_open ? SFQ_OK : SFQ_UNKNOWN);
    need(order, "a count", (long long)count, it->is_open ? 1 : 77);
    need(order, "no constant", sfq_constant_type(&order->database, number, 1, &type), SFQ_UNKNOWN);
    need(order, "no type", type, 77);
    need(order, "constant_type", sfq_constant_type(&order->database, number, 0, &type), it->is_open ? SFQ_OK : SFQ_UNKNOWN);
    need(order, "a type", type, !it->is_open ? 77 : it->is_null ? SFQ_NULL : SFQ_INTEGER);
}

static void call_column(struct order *order, const struct known *it, size_t number)
{
    size_t column = draw(order, 4), count = 77;
    bool is_known = it->is_open && column < widths[it->query];
    int status = !is_known ? SFQ_UNKNOWN : !it->is_there ? SFQ_NO_ROW : SFQ_OK;
    uint32_t type = 77;
    int64_t value = 77;
    char field[40] = "";
    if (status == SFQ_OK)
        field_of(it, column, field);
    if (status == SFQ_OK && field[0] == '\0')
        status = SFQ_NONE;
    need_text(order, FIELD, number, column, status, field);
    if (status == SFQ_OK && types[it->query][column] != SFQ_INTEGER)
        status = SFQ_NONE;
    need(order, "column_integer", sfq_column_integer(&order->database, number, column, &value), status);
    need(order, "an integer", value, status == SFQ_OK ? row_of(it) : 77);
    need_text(order, NAME, number, column, is_known ? SFQ_OK : SFQ_UNKNOWN, is_known ? header_names[it->query][column] : "");
    need(order, "column_type", sfq_column_type(&order->database, number, column, &type), is_known ? SFQ_OK : SFQ_UNKNOWN);
    need(order, "a type", type, is_known ? types[it->query][column] : 77);
    need(order, "columns", sfq_columns(&order->database, number, &count), it->is_open ? SFQ_OK : SFQ_UNKNOWN);
    need(order, "a count", (long long)count, it->is_open ? (long long)widths[it->query] : 77);
}

static void call_row(struct order *order, const struct known *it, size_t number)
{
    char text[130] = "", field[40];
    size_t column;
    for (column = 0; it->is_open && it->is_there && column < widths[it->query]; column++) {
        field_of(it, column, field);
        snprintf(text + strlen(text), sizeof text - strlen(text), "%s%s", column > 0 ? "," : "", field);
    }
    strcat(text, "\n");
    need_text(order, ROW, number, 0, !it->is_open ? SFQ_UNKNOWN : it->is_there ? SFQ_OK : SFQ_NO_ROW, text);
    need_text(order, HEADER, number, 0, it->is_open ? SFQ_OK : SFQ_UNKNOWN, headers[it->query]);
}

static void make_call(struct order *order)
{
    struct known *it = &order->all[draw(order, STATEMENTS)];
    size_t number = it->is_open ? it->number : other_number(order, it);
    switch (draw(order, 9)) {
    case 0:
        call_prepare(order, it);
        break;
    case 1:
    case 2:
    case 3:
        call_step(order, it, number);
        break;
    case 4:
        call_end(order, it, number);
        break;
    case 5:
        call_bind(order, it, number);
        break;
    case 6:
        call_constants(order, it, number);
        break;
    case 7:
        call_column(order, it, number);
        break;
    default:
        call_row(order, it, number);
    }
}

static struct printed run_order(char *const words[WORDS])
{
    struct printed out = { "" };
    struct order order = { &out, SFQ_EMPTY, { { 0 } }, 0, 0 };
    int i, calls = atoi(words[1]);
    order.state = strtoul(words[2], NULL, 10);
    open_loaded(&order.database, "CREATE TABLE t (id INTEGER PRIMARY KEY, name TEXT);", "id,name|1,a|2,b|3,|4,d|5,e|");
    for (i = 0; i < STATEMENTS; i++)
        order.all[i].number = (size_t)i;
    while (order.made < calls) {
        make_call(&order);
        order.made++;
    }
    for (i = 0; i < STATEMENTS; i++)
        if (order.all[i].is_open
            && (sfq_close(&order.database) != SFQ_OPEN || sfq_finalize(&order.database, order.all[i].number) != SFQ_OK))
            add(&out, "not ended");
    if (sfq_close(&order.database) != SFQ_OK)
        add(&out, "not closed");
    add_number(&out, order.made);
    return out;
}

bool is_row_call(char *const words[WORDS])
{
    return strcmp(words[0], "rows") == 0 || strcmp(words[0], "bind") == 0 || strcmp(words[0], "order") == 0;
}

struct printed run_row(char *const words[WORDS])
{
    struct printed out, all = { "" };
    ran_out = false;
    out = strcmp(words[0], "rows") == 0 ? run_rows(words) : strcmp(words[0], "bind") == 0 ? run_bind(words) : run_order(words);
    if (!ran_out)
        return out;
    snprintf(all.text, sizeof all.text, "3 %.*s", (int)(sizeof all.text - 3), out.text);
    return all;
}
