/* The module of virtual tables: see tables.h. */
#include "tables.h"

#include <string.h>

#include "asking.h"
#include "files.h"
#include "functions.h"
#include "statements.h"

/* How rows are found. */
enum { SCAN, KEY, KEY_FROM, KEY_TO, KEY_BETWEEN, TREE };

/* The numbers of a plan, which xBestIndex hands to xFilter: how, whether backwards, which relation, which column. */
#define BACKWARDS 8
#define RELATION_SHIFT 4
#define COLUMN_SHIFT 8

/* A table, with its rows; or why it can't be loaded. */
struct table {
    sqlite3_vtab base;
    struct connection *connection;
    struct listed listed;
    char *fault;
};

/* Where a statement is in the rows: `at` of `count`, which are those from `first` on, or the found ones. */
struct cursor {
    sqlite3_vtab_cursor base;
    /* The plan of an index for which the statements were looked at, and whether it may be asked; 0 before. */
    int plan;
    bool may_search;
    size_t at, count, first;
    bool is_backwards, has_found;
    size_t *found;
    size_t room;
};

static const struct rows *rows_of(const sqlite3_vtab_cursor *cursor)
{
    return &((struct table *)cursor->pVtab)->listed.rows;
}

/* The row that a cursor is at. */
static size_t row_of(const struct cursor *cursor)
{
    size_t place = cursor->is_backwards ? cursor->count - 1 - cursor->at : cursor->at;
    return cursor->has_found ? cursor->found[place] : cursor->first + place;
}

/* ---- tables ---- */

/* Says the columns of a table to SQLite: one without a type where no schema has them. */
static int declare(sqlite3 *connection, const struct rows *rows)
{
    sqlite3_str *text = sqlite3_str_new(connection);
    size_t at;
    char *sql;
    int status;
    if (rows->column_count == 0) {
        sqlite3_str_appendall(text, "CREATE TABLE t(unreadable");
    }
    for (at = 0; at < rows->column_count; at++) {
        const char *type = rows->columns[at].type == SFQ_INTEGER ? "INTEGER" : "TEXT";
        sqlite3_str_appendf(text, "%s\"%w\" %s%s", at == 0 ? "CREATE TABLE t(" : ", ", rows->columns[at].name, type,
                            at == rows->key ? " PRIMARY KEY" : "");
    }
    sqlite3_str_appendall(text, ")");
    sql = sqlite3_str_finish(text);
    status = sql == NULL ? SQLITE_NOMEM : sqlite3_declare_vtab(connection, sql);
    sqlite3_free(sql);
    return status;
}

static int free_table(sqlite3_vtab *base)
{
    struct table *table = (struct table *)base;
    unlist_rows(table->connection, &table->listed);
    free_rows(&table->listed.rows);
    sqlite3_free(table->fault);
    sqlite3_free(table);
    return SQLITE_OK;
}

/* Loads the rows of a table by its options. */
static int load_by_options(struct table *table, int count, const char *const *words, char **error)
{
    struct options options = { { NULL } };
    int status = read_options(&options, count, words, error);
    if (status == SQLITE_OK) {
        status = load_rows(&table->listed.rows, &options, error);
    }
    free_options(&options);
    return status;
}

/* Loads a table. The words from the fourth on are the options. A new one has to be loaded; another may have a fault. */
static int make_table(sqlite3 *connection, void *data, int count, const char *const *words, sqlite3_vtab **base, char **error, bool is_new)
{
    struct table *table = sqlite3_malloc(sizeof *table);
    int status = sqlite3_vtab_config(connection, SQLITE_VTAB_DIRECTONLY);
    if (table == NULL || status != SQLITE_OK) {
        sqlite3_free(table);
        return status != SQLITE_OK ? status : SQLITE_NOMEM;
    }
    memset(table, 0, sizeof *table);
    table->connection = data;
    status = load_by_options(table, count - 3, words + 3, error);
    if (status == SQLITE_ERROR && !is_new) {
        table->fault = *error;
        *error = NULL;
        status = SQLITE_OK;
    }
    if (status == SQLITE_OK) {
        status = declare(connection, &table->listed.rows);
    }
    if (status != SQLITE_OK) {
        free_table(&table->base);
        return status;
    }
    list_rows(table->connection, &table->listed);
    *base = &table->base;
    return SQLITE_OK;
}

/* What SQLite calls for a table that is new: one of its own, so that no table is there without being made. */
static int create_table(sqlite3 *connection, void *data, int count, const char *const *words, sqlite3_vtab **base, char **error)
{
    return make_table(connection, data, count, words, base, error, true);
}

/* What SQLite calls for a table that a database has. DROP TABLE calls it too. */
static int connect_table(sqlite3 *connection, void *data, int count, const char *const *words, sqlite3_vtab **base, char **error)
{
    return make_table(connection, data, count, words, base, error, false);
}

/* A table that is renamed stays as it is: its files are named by its options. */
static int rename_table(sqlite3_vtab *base, const char *name)
{
    (void)base;
    (void)name;
    return SQLITE_OK;
}

/* ---- plans ---- */

/* The constraints that a plan can use, by their numbers; -1 where there is none. */
struct usable {
    int equal, from, to, shape;
};

/* Notes a constraint, if a plan can use it. */
static void note_usable(const struct rows *rows, const struct sqlite3_index_constraint *it, int number, struct usable *usable)
{
    bool is_key = it->iColumn < 0 || (size_t)it->iColumn == rows->key;
    int *place = NULL;
    if (it->op >= SQLITE_INDEX_CONSTRAINT_FUNCTION) {
        place = rows->columns[it->iColumn < 0 ? (int)rows->key : it->iColumn].type == SFQ_GEOMETRY ? &usable->shape : NULL;
    } else if (is_key && (it->op == SQLITE_INDEX_CONSTRAINT_EQ || it->op == SQLITE_INDEX_CONSTRAINT_IS)) {
        place = &usable->equal;
    } else if (is_key && (it->op == SQLITE_INDEX_CONSTRAINT_GT || it->op == SQLITE_INDEX_CONSTRAINT_GE)) {
        place = &usable->from;
    } else if (is_key && (it->op == SQLITE_INDEX_CONSTRAINT_LT || it->op == SQLITE_INDEX_CONSTRAINT_LE)) {
        place = &usable->to;
    }
    if (it->usable && place != NULL && *place < 0) {
        *place = number;
    }
}

/* Sets a plan: how rows are found, by which values, how many they may be, and its name for EXPLAIN QUERY PLAN. */
static void set_plan(sqlite3_index_info *info, int how, const char *name, int first, int second, double count)
{
    info->idxNum = how;
    info->idxStr = (char *)name;
    info->estimatedRows = (sqlite3_int64)count;
    info->estimatedCost = count;
    if (first >= 0) {
        info->aConstraintUsage[first].argvIndex = 1;
    }
    if (second >= 0) {
        info->aConstraintUsage[second].argvIndex = 2;
    }
}

/* The plan of an index of envelopes. A relation finds a few rows of many. */
static int set_tree(const struct rows *rows, sqlite3_index_info *info, int number)
{
    const struct sqlite3_index_constraint *it = &info->aConstraint[number];
    char *name = sqlite3_mprintf("tree of %s", rows->columns[it->iColumn].name);
    int relation = it->op - SQLITE_INDEX_CONSTRAINT_FUNCTION;
    if (name == NULL) {
        return SQLITE_NOMEM;
    }
    set_plan(info, TREE | relation << RELATION_SHIFT | it->iColumn << COLUMN_SHIFT, name, number, -1, 5.0 + (double)rows->count / 64);
    info->needToFreeIdxStr = 1;
    return SQLITE_OK;
}

/* Whether rows by the key are in the order that is asked for. */
static void set_order(const struct rows *rows, sqlite3_index_info *info)
{
    const struct sqlite3_index_orderby *order = info->aOrderBy;
    if (info->nOrderBy >= 1 && (order->iColumn < 0 || (size_t)order->iColumn == rows->key)) {
        info->orderByConsumed = 1;
        info->idxNum |= order->desc ? BACKWARDS : 0;
    }
}

/* Chooses how rows are found: by a key, else by the index of envelopes, else from a key to another, else all. */
static int best_index(sqlite3_vtab *base, sqlite3_index_info *info)
{
    const struct rows *rows = &((struct table *)base)->listed.rows;
    struct usable usable = { -1, -1, -1, -1 };
    double count = (double)rows->count + 1;
    int at, status = SQLITE_OK;
    ((struct table *)base)->connection->plans++;
    if (((struct table *)base)->fault != NULL) {
        base->zErrMsg = sqlite3_mprintf("%s", ((struct table *)base)->fault);
        return base->zErrMsg == NULL ? SQLITE_NOMEM : SQLITE_ERROR;
    }
    for (at = 0; at < info->nConstraint; at++) {
        note_usable(rows, &info->aConstraint[at], at, &usable);
    }
    if (usable.equal >= 0) {
        set_plan(info, KEY, "key", usable.equal, -1, 1);
        info->idxFlags = SQLITE_INDEX_SCAN_UNIQUE;
    } else if (usable.shape >= 0) {
        status = set_tree(rows, info, usable.shape);
    } else if (usable.from >= 0 && usable.to >= 0) {
        set_plan(info, KEY_BETWEEN, "key from and to", usable.from, usable.to, count / 8 + 1);
    } else if (usable.from >= 0) {
        set_plan(info, KEY_FROM, "key from", usable.from, -1, count / 2 + 1);
    } else if (usable.to >= 0) {
        set_plan(info, KEY_TO, "key to", usable.to, -1, count / 2 + 1);
    } else {
        set_plan(info, SCAN, "scan", -1, -1, count);
    }
    set_order(rows, info);
    return status;
}

/* Finds the function that a relation of a column is: its own, of which SQLite may ask for the rows. */
static int find_function(sqlite3_vtab *base, int count, const char *name, void (**call)(sqlite3_context *, int, sqlite3_value **),
                         void **data)
{
    struct connection *connection = ((struct table *)base)->connection;
    size_t at = relation_named(name, count);
    if (at == FUNCTION_COUNT || FUNCTIONS[at].of == SFQ_DISJOINT) {
        return 0;
    }
    *call = FUNCTIONS[at].call;
    *data = &connection->functions[at];
    return SQLITE_INDEX_CONSTRAINT_FUNCTION + FUNCTIONS[at].of;
}

/* ---- cursors ---- */

static int open_cursor(sqlite3_vtab *base, sqlite3_vtab_cursor **made)
{
    struct cursor *cursor = sqlite3_malloc(sizeof *cursor);
    (void)base;
    if (cursor == NULL) {
        return SQLITE_NOMEM;
    }
    memset(cursor, 0, sizeof *cursor);
    *made = &cursor->base;
    return SQLITE_OK;
}

static int close_cursor(sqlite3_vtab_cursor *base)
{
    sqlite3_free(((struct cursor *)base)->found);
    sqlite3_free(base);
    return SQLITE_OK;
}

/* Sets a cursor before the rows from one to another, which isn't one of them. */
static void set_range(struct cursor *cursor, size_t from, size_t to)
{
    cursor->at = 0;
    cursor->first = from;
    cursor->count = from < to ? to - from : 0;
    cursor->has_found = false;
}

/*
 * The first row whose key may be at least a value, or at most one: then it is the row behind. What isn't a number is compared by
 * SQLite: all rows are left then. NULL leaves none.
 */
static size_t bound_of(const struct rows *rows, sqlite3_value *value, bool is_upper)
{
    size_t all = is_upper ? rows->count : 0, none = is_upper ? 0 : rows->count;
    double number;
    switch (sqlite3_value_type(value)) {
    case SQLITE_NULL:
        return none;
    case SQLITE_INTEGER:
        return rows_below(rows, sqlite3_value_int64(value), is_upper);
    case SQLITE_FLOAT:
        number = sqlite3_value_double(value);
        if (number > -9e15 && number < 9e15) {
            /* A number that isn't whole lies between the one towards 0 and its neighbour. */
            return rows_below(rows, (int64_t)number + (is_upper ? (number > 0) : -(number < 0)), is_upper);
        }
        return all;
    default:
        return all;
    }
}

/* Finds the rows whose envelope meets that of a value. */
static int search_tree(struct cursor *cursor, const struct rows *rows, size_t column, sqlite3_value *value, struct function *function)
{
    int32_t window[4] = SFQ_NO_BOUNDS;
    sfq_geometry *geometry;
    sfq_fault fault;
    sfq_index *index = (sfq_index *)&rows->columns[column].index;
    int status = sqlite3_value_type(value) != SQLITE_TEXT ? SFQ_REFUSED : take_argument(function, 1, value, &geometry, &fault);
    if (status == SFQ_REFUSED) {
        /* The relation itself then says what is wrong with the value, at the first row. */
        set_range(cursor, 0, sqlite3_value_type(value) == SQLITE_NULL ? 0 : rows->count);
        return SQLITE_OK;
    }
    if (status != SFQ_OK || (status = sfq_envelope(geometry, window)) == SFQ_OUT_OF_MEMORY) {
        return SQLITE_NOMEM;
    }
    cursor->at = 0;
    cursor->has_found = true;
    status = sfq_index_search(index, window, cursor->found, cursor->room, &cursor->count);
    if (status == SFQ_TOO_SMALL) {
        size_t *larger = sqlite3_realloc64(cursor->found, 2 * cursor->count * sizeof *larger);
        if (larger == NULL) {
            return SQLITE_NOMEM;
        }
        cursor->found = larger;
        cursor->room = 2 * cursor->count;
        status = sfq_index_search(index, window, cursor->found, cursor->room, &cursor->count);
    }
    return status == SFQ_OK ? SQLITE_OK : SQLITE_NOMEM;
}

/* Whether a cursor may ask the index by this plan. Statements are looked at when it is another one than before: OR has several. */
static bool searches(struct cursor *cursor, struct connection *connection, int plan, const char *name)
{
    if (cursor->plan != plan) {
        cursor->plan = plan;
        cursor->may_search = may_search(connection, cursor->base.pVtab, plan, name);
    }
    return cursor->may_search;
}

/* Begins the rows of a plan. */
static int filter(sqlite3_vtab_cursor *base, int plan, const char *name, int count, sqlite3_value **values)
{
    struct cursor *cursor = (struct cursor *)base;
    struct connection *connection = ((struct table *)base->pVtab)->connection;
    const struct rows *rows = rows_of(base);
    int how = plan & 7;
    (void)count;
    cursor->is_backwards = (plan & BACKWARDS) != 0;
    if (how == TREE && searches(cursor, connection, plan, name)) {
        struct function *function = &connection->functions[relation_numbered(plan >> RELATION_SHIFT & 15)];
        return search_tree(cursor, rows, (size_t)(plan >> COLUMN_SHIFT), values[0], function);
    }
    set_range(cursor, how == KEY || how == KEY_FROM || how == KEY_BETWEEN ? bound_of(rows, values[0], false) : 0,
              how == KEY || how == KEY_TO ? bound_of(rows, values[0], true)
              : how == KEY_BETWEEN        ? bound_of(rows, values[1], true)
                                          : rows->count);
    return SQLITE_OK;
}

static int next(sqlite3_vtab_cursor *base)
{
    ((struct cursor *)base)->at++;
    return SQLITE_OK;
}

static int is_at_end(sqlite3_vtab_cursor *base)
{
    const struct cursor *cursor = (struct cursor *)base;
    return cursor->at >= cursor->count;
}

/* The field of a column. Texts are those of the rows, at their own addresses: none is copied. */
static int field(sqlite3_vtab_cursor *base, sqlite3_context *context, int column)
{
    const struct rows *rows = rows_of(base);
    const struct field *it = field_of(rows, row_of((struct cursor *)base), (size_t)column);
    if (it->is_there && rows->columns[column].type == SFQ_INTEGER) {
        sqlite3_result_int64(context, it->value);
    } else if (it->is_there) {
        const struct text *text = &rows->texts[it->value];
        sqlite3_result_text64(context, rows->bytes + text->at, text->length, SQLITE_STATIC, SQLITE_UTF8);
    }
    return SQLITE_OK;
}

static int rowid(sqlite3_vtab_cursor *base, sqlite3_int64 *key)
{
    *key = key_of(rows_of(base), row_of((struct cursor *)base));
    return SQLITE_OK;
}

const sqlite3_module MODULE = {
    .iVersion = 1,
    .xCreate = create_table,
    .xConnect = connect_table,
    .xBestIndex = best_index,
    .xDisconnect = free_table,
    .xDestroy = free_table,
    .xOpen = open_cursor,
    .xClose = close_cursor,
    .xFilter = filter,
    .xNext = next,
    .xEof = is_at_end,
    .xColumn = field,
    .xRowid = rowid,
    .xFindFunction = find_function,
    .xRename = rename_table,
};
