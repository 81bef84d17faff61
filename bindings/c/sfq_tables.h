/*
 * sfq_tables: databases of spatial tables that a program keeps (OGC 06-104r4, feature tables).
 *
 * A database has the tables of a schema. Each table is loaded by itself, from CSV, when it is needed, and stays loaded until the
 * database is closed. A statement is a query that is read, bound and planned once, whose rows are found step by step. The proof
 * ends at the calls of the crate sfq_tables, by which bindings/c/sfq_tables.c makes those of this header: sfq_tables.c itself is
 * tested, not proved. They are in a library of their own, libsfq_tables.so.0, beside libsfq.so.0, whose header says what SFQ_OK to
 * SFQ_NO_GEOMETRY are, and what an sfq_fault is.
 *
 * Statuses. Each call returns one of the statuses of sfq.h or below. Unless it is SFQ_OK, what the call would have written is as it
 * was before; what differs from that is said at the call. SFQ_NO_GEOMETRY: a database is empty that has to be open, or is open that
 * has to be empty. SFQ_UNKNOWN: there is no table, column, constant or open statement with this number or name.
 *
 * Pointers. A pointer to what a call writes must not be null, but for `fault`, which may be null where it isn't wanted. A text that
 * is null is empty, whatever its length. A text needs no 0 at its end, and is the caller's: a database keeps nothing of it. What a
 * call writes must not overlap anything else that it is handed. A room of `size` bytes that is null has none. `length` is how many
 * bytes the text has: it is written where the status is SFQ_OK or SFQ_TOO_SMALL. Bytes of the room after the text are left as they
 * were. To ask for the length first, pass a null room.
 *
 * Databases. An `sfq_database` is either empty, as SFQ_EMPTY makes it, or open, from sfq_open until sfq_close. A copy of the struct
 * isn't a second database: use one of the two only. Tables and columns are numbered from 0, in the order of the schema.
 *
 * Statements. sfq_prepare opens a statement and gives it a number, which is its own until sfq_finalize. Each has its own rows. While
 * statements are open, no table is loaded and the database isn't closed: the status is SFQ_OPEN.
 *
 * Threads. A database serves one call at a time. Different ones may serve calls in different threads at once, and each may go from
 * one thread to another; this is tested, not proved. There is no other state.
 *
 * Memory. Calls take memory by malloc and realloc, and give it back by free before they return, but for what a database holds. Where
 * memory is refused, the status is SFQ_OUT_OF_MEMORY, and the database is as it was before, but for what is said at sfq_step and at
 * constants. While a table is loaded in place of another, both are in memory. Calls were tested on stacks of 128 KB. No call may be
 * made from a signal handler, or in the forked child of a process that has threads.
 *
 * Files. sfq_load_file reads a file, a pipe or the like to its end before it loads it, and holds its bytes meanwhile. So a file that
 * another program changes is loaded as it was read, and what changes later changes no answer.
 *
 * Versions. The number in the library's name, libsfq_tables.so.0, changes when a call, a struct or a number below changes or goes. A
 * later version with the same number may add calls, and statuses for calls that are new.
 */
#ifndef SFQ_TABLES_H
#define SFQ_TABLES_H

#include "sfq.h"

#ifdef __cplusplus
extern "C" {
#endif

/* What a call returns beside the statuses of sfq.h. SFQ_NONE, of sfq_step: no row is left; of a field: it is NULL. */
enum sfq_tables_status {
    SFQ_BUSY = 8,        /* sfq_step has looked at as much as it was allowed to; what is to come is unchanged */
    SFQ_NOT_LOADED = 9,  /* the query names a table that isn't loaded */
    SFQ_OPEN = 10,       /* statements are open */
    SFQ_UNREADABLE = 11, /* the file can't be opened or read; errno says why */
    SFQ_NO_ROW = 12      /* no row is there: before the first step, after a busy one or one that failed, and after the last row */
};

/* A database that a program keeps. */
typedef struct sfq_database {
    void *kept;
} sfq_database;

/*
 * Why a text is refused: its first fault. `letter` is 'S' for a fault of a schema, 'L' for one of a table and 'Q' for one of a query;
 * `at` is the byte, from 0, of S1 to S5 and of queries, and the record, 1 for the first after the header, of L3 to L9. `geometry` is
 * the fault of the geometry's text, of L6 and Q8. What a fault doesn't use is 0. Where the status is SFQ_NOT_LOADED, `at` is the
 * number of the table, and all else is 0.
 *
 *     S1  a token that can't be there, or the end of a text that ends too soon
 *     S2  the name of a table, or of a column of a table, that an earlier one has
 *     S3  a table without PRIMARY KEY
 *     S4  PRIMARY on a second column of a table
 *     S5  the name of the 17th table, or of the 33rd column of a table
 *     S6  more than 65,536 bytes
 *     L1  the header lacks the name of a column
 *     L2  the header has the name of a column more than once
 *     L3  the record has more or fewer fields than the header
 *     L4  a TEXT field isn't UTF-8
 *     L5  an INTEGER field isn't a whole number of 64 bits
 *     L6  a geometry field isn't the text of a valid geometry
 *     L7  a geometry isn't of its column's type
 *     L8  a field is empty whose column takes no null
 *     L9  the record has a key that an earlier one has
 *     L10 more than 100,000 records after the header
 *     Q1  bytes that are no token
 *     Q2  a token that can't be there, or the end of a text that ends too soon
 *     Q3  a table that the schema lacks
 *     Q4  a name in FROM that an earlier one has
 *     Q5  a column that the tables lack
 *     Q6  a column that both tables have, without the table's name
 *     Q7  a value of the wrong type
 *     Q8  a text that isn't that of a valid geometry
 *     Q9  a text that is no pattern of a matrix
 *     Q10 conditions that are nested too deep
 *     Q11 more than 65,536 bytes
 *     Q12 a number of more than 64 bits
 */
typedef struct sfq_tables_fault {
    uint8_t letter;
    uint8_t number;
    size_t at;
    sfq_fault geometry;
} sfq_tables_fault;

/* The types of columns and of constants. Only a constant can be SFQ_NULL. */
enum sfq_column_type {
    SFQ_INTEGER = 0,
    SFQ_TEXT = 1,
    SFQ_GEOMETRY = 2,
    SFQ_NULL = 3
};

/*
 * Texts. The parts of a text are the tokens of a schema or a query, and what begins no token. SFQ_END is behind the last. A semicolon ends
 * a query or a table. A parameter isn't part of the language: a program that offers parameters writes a constant in its place.
 */
enum sfq_part_kind {
    SFQ_WORD = 0,
    SFQ_RESERVED = 1, /* a word that is never a name */
    SFQ_DIGITS = 2,
    SFQ_STRING = 3, /* with its quotes */
    SFQ_SYMBOL = 4,
    SFQ_SEMICOLON = 5,
    SFQ_PARAMETER = 6,       /* `?`, which begins no token */
    SFQ_NAMED_PARAMETER = 7, /* `:` and a name right behind it */
    SFQ_OPEN_STRING = 8,     /* from the quote of a string that isn't closed to the end of the text */
    SFQ_NO_TOKEN = 9,        /* another byte that begins no token */
    SFQ_END = 10
};

/* What no constant has as its type. */
#define SFQ_NO_CONSTANT 4

/*
 * A part: what it is; the `sfq_column_type` of the constant that it is in a query, or SFQ_NO_CONSTANT; its first byte, from 0; and how many
 * bytes it has. The constants of a query that is taken are numbered by their order. What begins no token has the type that a string
 * would have in its place: SFQ_GEOMETRY in ST_GeomFromText.
 */
typedef struct sfq_text_part {
    uint32_t kind;
    uint32_t constant;
    size_t at;
    size_t size;
} sfq_text_part;

/*
 * Writes how many parts a text has, and the parts, if the room is for at least so many. They end with SFQ_END, or before it with the first
 * one that is no token: for more, ask for the text behind that. Any bytes are a text, of any length. A null room has room for none.
 */
int sfq_text_parts(const char *text, size_t length, sfq_text_part *parts, size_t size, size_t *count);

/*
 * A column that a query names: its first byte, from 0; the first byte of its name, which is behind the name of its reference where that is
 * written; and how many bytes the name has.
 */
typedef struct sfq_named_column {
    size_t at;
    size_t name;
    size_t size;
} sfq_named_column;

/*
 * Writes how many columns the text of a query names, and the columns, if the room is for at least so many: those of the select list, of ON
 * and of WHERE, from the left. `*` and COUNT(*) name none. SFQ_UNKNOWN where this isn't the text of a query; whether the columns are
 * there isn't asked. A null room has room for none.
 */
int sfq_named_columns(const char *text, size_t length, sfq_named_column *columns, size_t size, size_t *count);

/* Opens a database of the schema that a text spells, in `database`, which has to be empty. No table is loaded. */
int sfq_open(const char *schema, size_t length, sfq_database *database, sfq_tables_fault *fault);

/* Closes a database, and leaves it empty. SFQ_OPEN where statements are open, and then it stays open. */
int sfq_close(sfq_database *database);

/* How many tables the schema has. */
int sfq_table_count(sfq_database *database, size_t *count);

/* The number of the table of this name, without regard to ASCII case. */
int sfq_find_table(sfq_database *database, const char *name, size_t length, size_t *table);

/* The name of a table, as the schema spells it, without a 0 at its end. */
int sfq_table_name(sfq_database *database, size_t table, char *room, size_t size, size_t *length);

/* How many columns a table has. */
int sfq_table_columns(sfq_database *database, size_t table, size_t *count);

/* The name of a column, as the schema spells it, and its `sfq_column_type`, which is written where `length` is. */
int sfq_table_column(sfq_database *database, size_t table, size_t column, char *room, size_t size, size_t *length, uint32_t *type);

/*
 * How the schema writes a column: `geometry` is the `sfq_type` of its geometries, or 0 where it is of GEOMETRY, which takes them all, or
 * of no geometries; `is_key` whether it is the PRIMARY KEY, `is_required` whether NOT NULL is written.
 */
typedef struct sfq_form {
    uint32_t geometry;
    bool is_key;
    bool is_required;
} sfq_form;

int sfq_column_form(sfq_database *database, size_t table, size_t column, sfq_form *form);

/* Whether a table is loaded. */
int sfq_is_loaded(sfq_database *database, size_t table, bool *loaded);

/*
 * Loads a table from its CSV text: the first record is the header, which names the columns in any order. SFQ_REFUSED with the first
 * fault where the text isn't that of the table. A table that was there is replaced, but only once the new one is loaded.
 */
int sfq_load(sfq_database *database, size_t table, const char *bytes, size_t length, sfq_tables_fault *fault);

/* The same from a file. SFQ_UNREADABLE where it can't be opened or read. `path` ends with a 0. */
int sfq_load_file(sfq_database *database, size_t table, const char *path, sfq_tables_fault *fault);

/*
 * Opens a statement of a query: reads and binds it, and chooses its plan. SFQ_REFUSED with the query's first fault; SFQ_NOT_LOADED with
 * the number of the first table that it names and that isn't loaded; SFQ_UNKNOWN where its bytes aren't UTF-8.
 */
int sfq_prepare(sfq_database *database, const char *query, size_t length, size_t *statement, sfq_tables_fault *fault);

/*
 * Finds the next row. SFQ_OK: a row is there. SFQ_NONE: none is left. SFQ_OUT_OF_MEMORY: no row is left either, until sfq_reset.
 * SFQ_BUSY: it has looked at `most` candidates, none of which gave a row, and the same rows are to come. A candidate is a row or a pair
 * of rows; turning to the next row of the table that is walked first counts as one too. Under COUNT(*) and EXPLAIN ANALYZE the rows
 * among them are counted. UINT64_MAX is no bound. With 0 it looks at nothing, and from 1 on the steps come to an end. Some steps are
 * never busy, whatever `most` is: those of EXPLAIN, and those of a query whose pairs of rows have to be sorted.
 */
int sfq_step(sfq_database *database, size_t statement, uint64_t most);

/* Begins a statement anew, before its first row. It takes no memory. */
int sfq_reset(sfq_database *database, size_t statement);

/*
 * The work of a statement since it began, as EXPLAIN ANALYZE counts it: how many DE-9IM predicates without a NULL argument were decided; a
 * pair that the probe or an earlier condition rules out costs none.
 */
int sfq_work(sfq_database *database, size_t statement, uint64_t *work);

/* Ends a statement. Its number is then free for another one. */
int sfq_finalize(sfq_database *database, size_t statement);

/*
 * Columns. They are numbered from 0, and are the same from sfq_prepare on. COUNT(*) has one of an integer; EXPLAIN has one of a text,
 * whose rows are the lines of the plan. SFQ_UNKNOWN where there is no such statement or column.
 */

/* How many columns the rows of a statement have. */
int sfq_columns(sfq_database *database, size_t statement, size_t *count);

/* The name of a column, as the header of the program sfq has it. */
int sfq_column_name(sfq_database *database, size_t statement, size_t column, char *room, size_t size, size_t *length);

/* The `sfq_column_type` of a column. That of ST_AsText is SFQ_TEXT, that of ST_Dimension and ST_IsEmpty SFQ_INTEGER. */
int sfq_column_type(sfq_database *database, size_t statement, size_t column, uint32_t *type);

/*
 * The table that the query names as its `reference`-th, from 0, in the order of FROM: its number, which is written where `length` is,
 * and the name by which the query knows it, the alias or the name of the table. SFQ_UNKNOWN where there is no such reference.
 */
int sfq_reference(sfq_database *database, size_t statement, size_t reference, char *room, size_t size, size_t *length, size_t *table);

/*
 * Where a column comes from: which reference, which column of its table, and by which function: 0 for none, 1 for ST_AsText, 2 for
 * ST_Dimension, 3 for ST_IsEmpty. SFQ_UNKNOWN also where it comes from none: COUNT(*), and the lines of EXPLAIN.
 */
typedef struct sfq_origin {
    size_t reference;
    size_t column;
    uint32_t function;
} sfq_origin;

int sfq_column_origin(sfq_database *database, size_t statement, size_t column, sfq_origin *origin);

/*
 * What the query of a statement asks for: the number of LIMIT, 0 where `limits` is false; how many conjuncts ON and WHERE have; whether it
 * asks for rows (0), for its plan (1, EXPLAIN) or for its plan and work (2, EXPLAIN ANALYZE); and whether it selects COUNT(*).
 */
typedef struct sfq_query_form {
    uint64_t limit;
    size_t conjuncts;
    uint32_t explain;
    bool counts;
    bool limits;
} sfq_query_form;

int sfq_query(sfq_database *database, size_t statement, sfq_query_form *form);

/* What a test in ON or WHERE is. A predicate is SFQ_TEST_RELATION and its `sfq_relation`. `= 1` behind it is left out, `= 0` a NOT. */
enum sfq_test {
    SFQ_TEST_EQUAL = 0,
    SFQ_TEST_NOT_EQUAL = 1,
    SFQ_TEST_LESS = 2,
    SFQ_TEST_LESS_OR_EQUAL = 3,
    SFQ_TEST_GREATER = 4,
    SFQ_TEST_GREATER_OR_EQUAL = 5,
    SFQ_TEST_IS_NULL = 6,
    SFQ_TEST_IS_EMPTY = 7,
    SFQ_TEST_OF_PARTS = 8, /* OR or NOT */
    SFQ_TEST_RELATE = 9,   /* ST_Relate with a pattern */
    SFQ_TEST_RELATION = 10
};

/*
 * A conjunct, a part of ON or WHERE between ANDs at the top: its `sfq_test`; and whether it is a predicate of a column of each of two
 * references that holds only where their bounding boxes meet. Those of ON come before those of WHERE. SFQ_UNKNOWN where there is none.
 */
typedef struct sfq_conjunct_form {
    uint32_t test;
    bool joins;
} sfq_conjunct_form;

int sfq_conjunct(sfq_database *database, size_t statement, size_t conjunct, sfq_conjunct_form *form);

/*
 * An operand of a test in ON or WHERE: the number of its conjunct; its reference and its column; the `sfq_test`; the `sfq_column_type` of
 * the constant that it is, or SFQ_NO_CONSTANT where it is a column; and the function of it: 0 for none, 1 for ST_AsText, 2 for
 * ST_Dimension. Both numbers of a constant are 0. Two operands of a comparison or a predicate follow each other.
 */
typedef struct sfq_operand {
    size_t conjunct;
    size_t reference;
    size_t column;
    uint32_t test;
    uint32_t constant;
    uint32_t function;
} sfq_operand;

/*
 * Writes how many operands the tests in ON and WHERE have, and the operands, from the left, if the room is for at least so many. The
 * columns among them are in the order of sfq_named_columns, and the constants in that of sfq_constants. A null room has room for none.
 */
int sfq_operands(sfq_database *database, size_t statement, sfq_operand *operands, size_t size, size_t *count);

/* The header as the program sfq writes it, a record of CSV with its line end. EXPLAIN has none: its text is empty. */
int sfq_header_text(sfq_database *database, size_t statement, char *room, size_t size, size_t *length);

/* The plan, as EXPLAIN writes it, of a query that may ask for its rows. Each line ends with a line feed. */
int sfq_plan_text(sfq_database *database, size_t statement, char *room, size_t size, size_t *length);

/*
 * The row that is there: the one that the last sfq_step found. SFQ_NO_ROW where none is. SFQ_NONE where the field is NULL.
 */

/* The number in a column. SFQ_NONE also where the column isn't of integers. It takes no memory. */
int sfq_column_integer(sfq_database *database, size_t statement, size_t column, int64_t *value);

/*
 * The field of a column of any type, without quotes: the digits of a number, a text, the canonical well-known text of a geometry, or
 * a line of EXPLAIN without its line feed.
 */
int sfq_column_text(sfq_database *database, size_t statement, size_t column, char *room, size_t size, size_t *length);

/* The row as the program sfq writes it: a record of CSV, or a line of EXPLAIN, with its line end. */
int sfq_row_text(sfq_database *database, size_t statement, char *room, size_t size, size_t *length);

/*
 * Constants. These are the numbers, texts and NULLs that are compared in ON and WHERE, and the geometries of ST_GeomFromText. They are
 * numbered from 0, from the left. The pattern of ST_Relate is none of them, nor is the number of LIMIT, nor the 0 or 1 behind a
 * predicate.
 *
 * To bind a constant is to put another value in its place. The statement is then that of the query with this value, with the plan that
 * is chosen for it, and is before its first row. What was bound stays bound, also after sfq_reset, until it is bound again.
 *
 * A number takes the place of a number, a text that of a text, a geometry that of a geometry, and NULL that of a number or a text. A
 * constant that is NULL, or that was bound to NULL, stays NULL: nothing else takes its place. A geometry can't be bound to NULL.
 *
 * SFQ_UNKNOWN: there is no such statement, or no such constant that takes the value. Then nothing changes: a row that was there is still
 * there, and the same rows are to come. SFQ_OUT_OF_MEMORY: the statement may have no rows from then on, also after sfq_reset, and other
 * columns, so end it. Other statements don't change.
 */

/* How many constants the query of a statement has. It takes no memory. */
int sfq_constants(sfq_database *database, size_t statement, size_t *count);

/* The `sfq_column_type` of a constant. It takes no memory. */
int sfq_constant_type(sfq_database *database, size_t statement, size_t constant, uint32_t *type);

/* Binds a constant to a number. */
int sfq_bind_integer(sfq_database *database, size_t statement, size_t constant, int64_t value);

/* Binds a constant to a text, which may be empty. SFQ_UNKNOWN also where its bytes aren't UTF-8. */
int sfq_bind_text(sfq_database *database, size_t statement, size_t constant, const char *text, size_t length);

/*
 * Binds a constant to the geometry of a well-known text. SFQ_REFUSED where that isn't the text of a valid one, also where there is no
 * such constant: the fault is Q8 with `at` 0 and the geometry's first fault, and nothing changes.
 */
int sfq_bind_geometry(sfq_database *database, size_t statement, size_t constant, const char *text, size_t length,
                      sfq_tables_fault *fault);

/* Binds a constant to NULL. */
int sfq_bind_null(sfq_database *database, size_t statement, size_t constant);

#ifdef __cplusplus
}
#endif

#endif
