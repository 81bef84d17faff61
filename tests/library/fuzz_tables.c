/*
 * Hands schemas, tables and queries by chance to the calls of sfq_tables.h, for tests/fuzz/rims.py:
 *
 *     fuzz_tables SEED COUNT
 *     fuzz_tables SEED SECONDSs
 *
 * makes COUNT databases, each with its tables and some queries: texts as they are and with bytes changed, constants of each type bound,
 * steps that are bounded. A status has to be one of its call's, the place of a fault within the text, and the rows have to be the same
 * after a reset. Prints what isn't so, and ends with status 1 then.
 */
#define _GNU_SOURCE
#include "chance.h"
#include "sfq_tables.h"

#define STEPS 400

static const char *const schemas[] = {
    ("CREATE TABLE t (id INTEGER PRIMARY KEY, name TEXT NOT NULL, n INTEGER, geom GEOMETRY);\n"
     "CREATE TABLE u (id INTEGER, key BIGINT PRIMARY KEY, at POINT, area POLYGON)"),
    "-- a comment\nCREATE TABLE t (geom POLYGON NOT NULL, id INT NOT NULL PRIMARY KEY)",
    "CREATE TABLE u (key INTEGER PRIMARY KEY);",
    "",
};

static const char *const tables[] = {
    "id,name,n,geom\n1,one,7,POINT(1 1)\n2,\"two, \"\"too\"\"\",,\"POLYGON((0 0,4 0,4 4,0 4,0 0))\"\n-3,\xc3\xa9,0,\n",
    "key,id,area,at,more\r\n7,1,\"POLYGON((0 0,2 0,2 2,0 0))\",POINT(3 1),x\r\n8,,,POINT EMPTY,\r\n9223372036854775807,2,,,",
    "id,geom\n5,\"POLYGON((0 0,4 0,4 4,0 4,0 0),(1 1,2 1,2 2,1 1))\"\n6,POLYGON EMPTY\n",
    "key\n1\n2\n3\n",
    "",
};

static const char *const queries[] = {
    "SELECT * FROM t WHERE n >= 7 AND name <> 'x' OR geom IS NULL",
    "SELECT a.id, ST_AsText(a.geom) FROM t a, u b WHERE ST_Within(b.at, a.geom) AND a.id = b.id LIMIT 5",
    "SELECT t.name, u.key FROM t JOIN u ON ST_Intersects(t.geom, u.area) WHERE NOT (u.key < 8 OR t.n = NULL)",
    "SELECT COUNT(*) FROM t WHERE ST_Relate(geom, ST_GeomFromText('POINT(1 1)'), 'T********') = 1",
    "EXPLAIN SELECT id FROM t WHERE id = 2",
    "EXPLAIN ANALYZE SELECT a.id FROM t a JOIN t b ON ST_Touches(a.geom, b.geom) AND a.id > b.id",
    "SELECT ST_Dimension(geom), ST_IsEmpty(geom), id FROM t WHERE ST_Disjoint(geom, ST_GeomFromText('POLYGON((0 0,9 0,9 9,0 0))'))",
    "SELECT key FROM u WHERE key = 9223372036854775807 OR at IS NOT NULL",
    "",
};

#define DRAW(to, of) draw((to), (of), sizeof(of) / sizeof *(of))

/* One of some texts, now and then with bytes changed, put in, left out or cut off. */
static size_t draw(char *to, const char *const *of, unsigned count)
{
    static const char bytes[] = "0123456789-+.,()*;'\"= \t\r\n<>aeilrstXT\377\xc3\x80";
    const char *text = of[chance(count)];
    size_t length = strlen(text);
    unsigned turns = chance(3) == 0 ? 1 + chance(4) : 0;
    memcpy(to, text, length);
    while (turns-- > 0) {
        size_t at = length > 0 ? chance((unsigned)length) : 0;
        char byte = bytes[chance(sizeof bytes)];
        switch (chance(4)) {
        case 0:
            to[at] = byte;
            length += length == 0;
            break;
        case 1:
            memmove(to + at + 1, to + at, length - at);
            to[at] = byte;
            length++;
            break;
        case 2:
            if (length > 0)
                memmove(to + at, to + at + 1, --length - at);
            break;
        default:
            length = at;
        }
    }
    return length;
}

/* A fault has to be there where the status says so: of one of these letters, and within the text where it has a byte. */
static void need_fault(int status, const sfq_tables_fault *fault, char letter, const char *text, size_t length)
{
    need((status == SFQ_REFUSED || status == SFQ_NOT_LOADED) == (fault->letter != 'x'), "a fault", text, length);
    if (status == SFQ_REFUSED) {
        need(fault->letter == letter, "a fault's letter", text, length);
        need(letter == 'L' || fault->at <= length, "a fault's place", text, length);
    }
}

/* A text that a call writes has to be as long as it says, in a room that is too small, too. */
#define NEED_TEXT(call, ...)                                                                                    \
    do {                                                                                                        \
        char written[PAGE];                                                                                     \
        size_t wanted = 12345, got = 54321;                                                                     \
        int asked = call(__VA_ARGS__, NULL, 0, &wanted), status = call(__VA_ARGS__, written, PAGE, &got);       \
        need((status == SFQ_OK && wanted == got && asked == (got > 0 ? SFQ_TOO_SMALL : SFQ_OK)) ||              \
                 (status == asked && (status == SFQ_NONE || status == SFQ_NO_ROW) && wanted == 12345),          \
             #call, "", 0);                                                                                     \
    } while (0)

/* What a statement gives from here on: a sum over its rows, and how many there are. Steps are bounded now and then. */
static unsigned long long rows_of(sfq_database *database, size_t statement, size_t columns)
{
    unsigned long long sum = 1;
    int status = SFQ_BUSY, steps;
    for (steps = 0; steps < STEPS && (status == SFQ_OK || status == SFQ_BUSY); steps++) {
        char row[PAGE];
        size_t length = 0, at, column;
        int64_t number;
        status = sfq_step(database, statement, chance(3) == 0 ? 1 + chance(4) : UINT64_MAX);
        need(status == SFQ_OK || status == SFQ_NONE || status == SFQ_BUSY, "another status of a step", "", 0);
        need(sfq_row_text(database, statement, row, PAGE, &length) == (status == SFQ_OK ? SFQ_OK : SFQ_NO_ROW), "a row", "", 0);
        for (at = 0; status == SFQ_OK && at < length; at++)
            sum = sum * 1099511628211u + (unsigned char)row[at];
        for (column = 0; status == SFQ_OK && column < columns; column++) {
            NEED_TEXT(sfq_column_text, database, statement, column);
            sfq_column_integer(database, statement, column, &number);
        }
    }
    need(status == SFQ_NONE || steps == STEPS, "no end", "", 0);
    return sum;
}

/* Binds a constant to a value of some type. */
static void bind(sfq_database *database, struct room *room, size_t statement, size_t constant, size_t count)
{
    static const char *const texts[] = { "", "one", "\xc3\xa9", "\xff" };
    static const char *const shapes[] = { "POINT(1 1)", "POLYGON((0 0,2 0,2 2,0 0))", "LINESTRING EMPTY", "POINT(1.5 0)", "POINT(" };
    char drawn[PAGE];
    sfq_tables_fault fault = { 'x', 0, 0, { 0, 0, 0, 0 } };
    size_t length;
    uint32_t type = 99;
    int status;
    need(sfq_constant_type(database, statement, constant, &type) == (constant < count ? SFQ_OK : SFQ_UNKNOWN), "a type", "", 0);
    switch (chance(4)) {
    case 0:
        status = sfq_bind_integer(database, statement, constant, (int64_t)chance(10) - 3);
        need(status == SFQ_UNKNOWN || (status == SFQ_OK && type == SFQ_INTEGER), "binding a number", "", 0);
        break;
    case 1:
        length = DRAW(drawn, texts);
        status = sfq_bind_text(database, statement, constant, put(room, drawn, length), length);
        need(status == SFQ_UNKNOWN || (status == SFQ_OK && type == SFQ_TEXT), "binding a text", drawn, length);
        break;
    case 2:
        length = DRAW(drawn, shapes);
        status = sfq_bind_geometry(database, statement, constant, put(room, drawn, length), length, &fault);
        need(status == SFQ_UNKNOWN || status == SFQ_REFUSED || (status == SFQ_OK && type == SFQ_GEOMETRY), "binding a geometry", drawn, length);
        need_fault(status, &fault, 'Q', drawn, length);
        break;
    default:
        status = sfq_bind_null(database, statement, constant);
        need(status == SFQ_UNKNOWN || (status == SFQ_OK && type != SFQ_GEOMETRY), "binding NULL", "", 0);
    }
}

/* Asks for what is known of a statement, binds, and finds its rows twice. */
static void try_statement(sfq_database *database, struct room *room, size_t statement)
{
    size_t columns = 99, count = 99, column;
    unsigned long long first;
    uint64_t work;
    uint32_t type;
    need(sfq_columns(database, statement, &columns) == SFQ_OK && sfq_constants(database, statement, &count) == SFQ_OK, "no counts", "", 0);
    for (column = 0; column < columns; column++) {
        NEED_TEXT(sfq_column_name, database, statement, column);
        need(sfq_column_type(database, statement, column, &type) == SFQ_OK && type <= SFQ_GEOMETRY, "a column's type", "", 0);
    }
    need(sfq_column_type(database, statement, columns, &type) == SFQ_UNKNOWN, "a column too many", "", 0);
    NEED_TEXT(sfq_header_text, database, statement);
    NEED_TEXT(sfq_plan_text, database, statement);
    for (column = chance(4); column > 0; column--)
        bind(database, room, statement, chance((unsigned)count + 1), count);
    first = rows_of(database, statement, columns);
    need(sfq_work(database, statement, &work) == SFQ_OK && sfq_reset(database, statement) == SFQ_OK, "no reset", "", 0);
    need(rows_of(database, statement, columns) == first, "other rows after a reset", "", 0);
}

static void try_query(sfq_database *database, struct room *room)
{
    char drawn[PAGE];
    size_t length = DRAW(drawn, queries), statement = 999, table;
    sfq_tables_fault fault = { 'x', 0, 0, { 0, 0, 0, 0 } };
    int status = sfq_prepare(database, put(room, drawn, length), length, &statement, &fault);
    uint64_t work;
    need(status == SFQ_OK || status == SFQ_REFUSED || status == SFQ_NOT_LOADED || status == SFQ_UNKNOWN, "another status of a query", drawn, length);
    need((status == SFQ_OK) == (statement != 999), "a statement", drawn, length);
    if (status != SFQ_NOT_LOADED)
        need_fault(status, &fault, 'Q', drawn, length);
    if (status != SFQ_OK)
        return;
    need(sfq_close(database) == SFQ_OPEN && sfq_load(database, 0, "", 0, NULL) == SFQ_OPEN, "a statement that is open", drawn, length);
    try_statement(database, room, statement);
    if (wrong)
        printf("of %.*s\n", (int)length, drawn);
    need(sfq_finalize(database, statement) == SFQ_OK && sfq_finalize(database, statement) == SFQ_UNKNOWN, "an end", drawn, length);
    need(sfq_step(database, statement, 1) == SFQ_UNKNOWN && sfq_work(database, statement, &work) == SFQ_UNKNOWN, "a step behind the end", "", 0);
    need(sfq_find_table(database, put(room, drawn, length), length, &table) == SFQ_UNKNOWN, "a table with the name of a query", drawn, length);
}

/* Loads tables from texts, some of them twice. */
static void load_tables(sfq_database *database, struct room *room, size_t count)
{
    size_t turns = 6 * count;
    while (turns-- > 0) {
        char drawn[PAGE];
        size_t length = DRAW(drawn, tables), table = chance((unsigned)count + 1), columns = 0, column;
        sfq_tables_fault fault = { 'x', 0, 0, { 0, 0, 0, 0 } };
        uint32_t type;
        bool was_loaded = false, is_loaded = false;
        int known = sfq_is_loaded(database, table, &was_loaded), status = sfq_load(database, table, put(room, drawn, length), length, &fault);
        need(known == (table < count ? SFQ_OK : SFQ_UNKNOWN) && (status == SFQ_OK || status == SFQ_REFUSED || known == SFQ_UNKNOWN), "a table", drawn, length);
        if (known != SFQ_OK)
            continue;
        need_fault(status, &fault, 'L', drawn, length);
        need(sfq_is_loaded(database, table, &is_loaded) == SFQ_OK && is_loaded == (was_loaded || status == SFQ_OK), "loaded", drawn, length);
        NEED_TEXT(sfq_table_name, database, table);
        need(sfq_table_columns(database, table, &columns) == SFQ_OK, "columns", "", 0);
        for (column = 0; column <= columns; column++) {
            char name[PAGE];
            need(sfq_table_column(database, table, column, name, PAGE, &length, &type) == (column < columns ? SFQ_OK : SFQ_UNKNOWN), "a column", "", 0);
        }
    }
}

static void try_database(struct room *room)
{
    char drawn[PAGE];
    size_t length = DRAW(drawn, schemas), count = 0, asked = 6;
    sfq_database database = SFQ_EMPTY;
    sfq_tables_fault fault = { 'x', 0, 0, { 0, 0, 0, 0 } };
    int status = sfq_open(put(room, drawn, length), length, &database, &fault);
    need(status == SFQ_OK || status == SFQ_REFUSED, "another status of a schema", drawn, length);
    need((status == SFQ_OK) == (database.kept != NULL), "a database", drawn, length);
    need_fault(status, &fault, 'S', drawn, length);
    if (status != SFQ_OK)
        return;
    need(sfq_table_count(&database, &count) == SFQ_OK, "no count", drawn, length);
    load_tables(&database, room, count);
    while (asked-- > 0 && !wrong)
        try_query(&database, room);
    need(sfq_close(&database) == SFQ_OK && database.kept == NULL, "a database that stays open", drawn, length);
}

int main(int number, char **words)
{
    struct room room = make_room();
    long turns;
    if (number != 3)
        return 2;
    begin(words[1]);
    for (turns = 0; goes_on(words[2], turns) && !wrong; turns++)
        try_database(&room);
    return wrong;
}
