/* The functions of SQL: see functions.h. */
#include "functions.h"

#include <stdio.h>

#include "asking.h"
#include "faults.h"

/* Room for an error: a fault's place and meaning, with words around. */
#define LINE 256

/* Sets the error of a fault: which argument it is in, its place, and what it means. */
static void say_fault(sqlite3_context *context, const char *which, const sfq_fault *fault, const char *meaning)
{
    char place[FAULT_PLACE], line[LINE];
    fault_place(fault, place);
    snprintf(line, LINE, "sfq: %s %s: %s", which, place, meaning);
    sqlite3_result_error(context, line, -1);
}

/* Sets the error of a status that isn't SFQ_OK. */
static void refuse(sqlite3_context *context, int status, const sfq_fault *fault)
{
    if (status == SFQ_OUT_OF_MEMORY) {
        sqlite3_result_error_nomem(context);
    } else if (status == NO_PATTERN) {
        sqlite3_result_error(context, "sfq: a pattern is nine characters T, F, *, 0, 1 or 2", -1);
    } else {
        say_fault(context, status == SFQ_REFUSED ? "first" : "second", fault, fault_meaning(fault));
    }
}

/* Whether no argument is NULL and all are texts. Sets the error where one is another value; NULL is the result without one. */
static bool are_texts(sqlite3_context *context, int count, sqlite3_value **values)
{
    static const char *const wrong[] = {
        "sfq: first isn't a text: a geometry is well-known text here",
        "sfq: second isn't a text: a geometry is well-known text here",
        "sfq: the pattern isn't a text",
    };
    int at;
    for (at = 0; at < count; at++) {
        if (sqlite3_value_type(values[at]) == SQLITE_NULL) {
            return false;
        }
    }
    for (at = 0; at < count; at++) {
        if (sqlite3_value_type(values[at]) != SQLITE_TEXT) {
            sqlite3_result_error(context, wrong[at], -1);
            return false;
        }
    }
    return true;
}

/* ST_Relate(a, b): the matrix. */
static void relate(sqlite3_context *context, int count, sqlite3_value **values)
{
    char matrix[10];
    sfq_fault fault;
    int status;
    if (!are_texts(context, count, values)) {
        return;
    }
    status = ask_matrix(sqlite3_user_data(context), values, matrix, &fault);
    if (status == SFQ_OK) {
        sqlite3_result_text(context, matrix, 9, SQLITE_TRANSIENT);
    } else {
        refuse(context, status, &fault);
    }
}

/* What the functions of numbers ask: one of ask_relation, ask_pattern, ask_empty, ask_dimension and ask_bound. */
typedef int asking(struct function *, sqlite3_value **, int64_t *, sfq_fault *);

/* The result of a number, NULL where there is none. */
static void number(sqlite3_context *context, int count, sqlite3_value **values, asking *ask)
{
    int64_t found = 0;
    sfq_fault fault;
    int status;
    if (!are_texts(context, count, values)) {
        return;
    }
    status = ask(sqlite3_user_data(context), values, &found, &fault);
    if (status == SFQ_OK) {
        sqlite3_result_int64(context, found);
    } else if (status != SFQ_NONE) {
        refuse(context, status, &fault);
    }
}

/* ST_Relate(a, b, pattern): whether the matrix matches the pattern. */
static void relate_pattern(sqlite3_context *context, int count, sqlite3_value **values)
{
    number(context, count, values, ask_pattern);
}

/* The predicates: whether the function's relation holds. */
static void relation(sqlite3_context *context, int count, sqlite3_value **values)
{
    number(context, count, values, ask_relation);
}

/* ST_IsValid(a): whether the text is that of a valid geometry. */
static void is_valid(sqlite3_context *context, int count, sqlite3_value **values)
{
    sfq_fault fault;
    int status;
    if (!are_texts(context, count, values)) {
        return;
    }
    status = ask_fault(values, &fault);
    if (status == SFQ_OUT_OF_MEMORY) {
        sqlite3_result_error_nomem(context);
    } else {
        sqlite3_result_int(context, status == SFQ_OK);
    }
}

/* ST_IsValidReason(a): "Valid Geometry", or the first fault. */
static void is_valid_reason(sqlite3_context *context, int count, sqlite3_value **values)
{
    sfq_fault fault;
    char place[FAULT_PLACE], line[LINE] = "Valid Geometry";
    int status;
    if (!are_texts(context, count, values)) {
        return;
    }
    status = ask_fault(values, &fault);
    if (status == SFQ_OUT_OF_MEMORY) {
        sqlite3_result_error_nomem(context);
        return;
    }
    if (status == SFQ_REFUSED) {
        fault_place(&fault, place);
        snprintf(line, LINE, "%s: %s", place, fault_meaning(&fault));
    }
    sqlite3_result_text(context, line, -1, SQLITE_TRANSIENT);
}

/* ST_IsEmpty(a): whether it is the empty set of points. */
static void is_empty(sqlite3_context *context, int count, sqlite3_value **values)
{
    number(context, count, values, ask_empty);
}

/* ST_Dimension(a): 0 of points, 1 of lines, 2 of areas. */
static void dimension(sqlite3_context *context, int count, sqlite3_value **values)
{
    number(context, count, values, ask_dimension);
}

/* ST_XMin(a) and so on: one of the bounds, NULL of an empty geometry. */
static void bound(sqlite3_context *context, int count, sqlite3_value **values)
{
    number(context, count, values, ask_bound);
}

/* The result of what is written: a text without so many of its last bytes, or a blob. */
static void written(sqlite3_context *context, int count, sqlite3_value **values, writing *write, size_t without, bool is_blob)
{
    char *text;
    size_t length = 0;
    sfq_fault fault;
    int status;
    if (!are_texts(context, count, values)) {
        return;
    }
    status = ask_text(sqlite3_user_data(context), count, values, write, &text, &length, &fault);
    if (status != SFQ_OK) {
        sqlite3_free(text);
        refuse(context, status, &fault);
    } else if (is_blob) {
        sqlite3_result_blob64(context, text, length, sqlite3_free);
    } else {
        sqlite3_result_text64(context, text, length - without, sqlite3_free, SQLITE_UTF8);
    }
}

/* ST_Why(a, b): nine lines, of what shows each cell of the matrix. ST_Why(a): whether it is valid, and where not. */
static void why(sqlite3_context *context, int count, sqlite3_value **values)
{
    /* Without the line feed of the last line. */
    written(context, count, values, write_why, 1, false);
}

/* ST_GeomFromText(a) and ST_AsText(a): the canonical text, for a geometry is a text here. */
static void canonical(sqlite3_context *context, int count, sqlite3_value **values)
{
    written(context, count, values, write_canonical, 0, false);
}

/* ST_AsBinary(a): its well-known binary, whose numbers are the coordinates. */
static void as_binary(sqlite3_context *context, int count, sqlite3_value **values)
{
    written(context, count, values, write_blob, 0, true);
}

/* What a fault of well-known binary means. */
static const char *binary_meaning(const sfq_fault *fault)
{
    static const char *const meanings[] = {
        "from this byte on it isn't well-known binary, or it ends here", "the position with this number isn't at whole coordinates",
        "the position with this number is past 10,000,000",
    };
    return fault->letter == 'W' && fault->number <= 3 ? meanings[fault->number - 1] : fault_meaning(fault);
}

/* Sets the error of a status of well-known binary that isn't SFQ_OK. */
static void refuse_binary(sqlite3_context *context, int status, const sfq_fault *fault)
{
    if (status == SFQ_OUT_OF_MEMORY) {
        sqlite3_result_error_nomem(context);
    } else if (status == SFQ_UNKNOWN) {
        sqlite3_result_error(context, "sfq: first has a type that sfq doesn't have, a Z or an M, or an element or a ring without positions", -1);
    } else {
        say_fault(context, "first", fault, binary_meaning(fault));
    }
}

/* ST_GeomFromWKB(a): the canonical text of well-known binary, whose numbers have to be whole. */
static void of_binary(sqlite3_context *context, int count, sqlite3_value **values)
{
    char *text;
    size_t length = 0;
    sfq_fault fault;
    int status, type = sqlite3_value_type(values[0]);
    if (type == SQLITE_NULL) {
        return;
    }
    if (type != SQLITE_BLOB) {
        sqlite3_result_error(context, "sfq: first isn't a blob: well-known binary is one", -1);
        return;
    }
    status = ask_text(sqlite3_user_data(context), count, values, write_text_of_blob, &text, &length, &fault);
    if (status == SFQ_OK) {
        sqlite3_result_text64(context, text, length, sqlite3_free, SQLITE_UTF8);
    } else {
        sqlite3_free(text);
        refuse_binary(context, status, &fault);
    }
}

const struct named_function FUNCTIONS[] = {
    { "ST_Relate", 2, relate, 0 },
    { "ST_Relate", 3, relate_pattern, 0 },
    { "ST_Equals", 2, relation, SFQ_EQUALS },
    { "ST_Disjoint", 2, relation, SFQ_DISJOINT },
    { "ST_Intersects", 2, relation, SFQ_INTERSECTS },
    { "ST_Touches", 2, relation, SFQ_TOUCHES },
    { "ST_Crosses", 2, relation, SFQ_CROSSES },
    { "ST_Within", 2, relation, SFQ_WITHIN },
    { "ST_Contains", 2, relation, SFQ_CONTAINS },
    { "ST_Overlaps", 2, relation, SFQ_OVERLAPS },
    { "ST_Covers", 2, relation, SFQ_COVERS },
    { "ST_CoveredBy", 2, relation, SFQ_COVERED_BY },
    { "ST_ContainsProperly", 2, relation, SFQ_CONTAINS_PROPERLY },
    { "ST_IsValid", 1, is_valid, 0 },
    { "ST_IsValidReason", 1, is_valid_reason, 0 },
    { "ST_GeomFromText", 1, canonical, 0 },
    { "ST_AsText", 1, canonical, 0 },
    { "ST_GeomFromWKB", 1, of_binary, 0 },
    { "ST_AsBinary", 1, as_binary, 0 },
    { "ST_Why", 1, why, 0 },
    { "ST_Why", 2, why, 0 },
    { "ST_Dimension", 1, dimension, 0 },
    { "ST_IsEmpty", 1, is_empty, 0 },
    { "ST_XMin", 1, bound, 0 },
    { "ST_XMax", 1, bound, 1 },
    { "ST_YMin", 1, bound, 2 },
    { "ST_YMax", 1, bound, 3 },
};

const size_t FUNCTION_COUNT = sizeof FUNCTIONS / sizeof FUNCTIONS[0];

size_t relation_named(const char *name, int count)
{
    size_t at = 0;
    while (at < FUNCTION_COUNT && (FUNCTIONS[at].call != relation || count != 2 || sqlite3_stricmp(FUNCTIONS[at].name, name) != 0)) {
        at++;
    }
    return at;
}

size_t relation_numbered(int of)
{
    size_t at = 0;
    while (FUNCTIONS[at].call != relation || FUNCTIONS[at].of != of) {
        at++;
    }
    return at;
}
