/*
 * The functions of the extension sfq of PostgreSQL, over texts. The functions over PostGIS's geometries are SQL over these.
 *
 * The proof ends at the calls of the crate sfq_c. Not proved are bindings/c/sfq.c over them, asking.c, this file, which turns what
 * the library returns into PostgreSQL's values and errors, and PostgreSQL, which finds the rows. All functions are STRICT: NULL in,
 * NULL out.
 * A text that is refused is an error with the fault, but for ST_IsValid and ST_IsValidReason.
 */
#include "postgresql.h"
#include "utils/builtins.h"

#include "asking.h"
#include "faults.h"
#include "server_memory.h"

PG_MODULE_MAGIC;

void _PG_init(void);
void _PG_init(void)
{
    define_memory();
}

/* Raises the error of a status that isn't SFQ_OK. */
static void need_ok(int status, const sfq_fault *fault)
{
    char place[FAULT_PLACE];
    if (status == SFQ_OUT_OF_MEMORY) {
        refused_memory();
    }
    if (status == NO_PATTERN) {
        ereport(ERROR, (errcode(ERRCODE_INVALID_PARAMETER_VALUE),
                        errmsg("sfq: a pattern is nine characters T, F, *, 0, 1 or 2")));
    }
    if (status != SFQ_OK) {
        fault_place(fault, place);
        ereport(ERROR, (errcode(fault->letter == 'W' ? ERRCODE_INVALID_TEXT_REPRESENTATION : ERRCODE_INVALID_PARAMETER_VALUE),
                        errmsg("sfq: %s %s: %s", status == SFQ_REFUSED ? "first" : "second", place, fault_meaning(fault))));
    }
}

/* ST_Relate(a, b): the matrix. */
PG_FUNCTION_INFO_V1(sql_sfq_relate);
Datum sql_sfq_relate(PG_FUNCTION_ARGS)
{
    char matrix[10];
    sfq_fault fault;
    need_ok(ask_matrix(fcinfo, matrix, &fault), &fault);
    PG_RETURN_TEXT_P(cstring_to_text(matrix));
}

/* ST_Relate(a, b, pattern): whether the matrix matches the pattern. */
PG_FUNCTION_INFO_V1(sql_sfq_relate_pattern);
Datum sql_sfq_relate_pattern(PG_FUNCTION_ARGS)
{
    bool answer = false;
    sfq_fault fault;
    need_ok(ask_pattern(fcinfo, &answer, &fault), &fault);
    PG_RETURN_BOOL(answer);
}

/* The same three of values in PostGIS's binary form. NULL where one isn't taken: its text then says why. */
PG_FUNCTION_INFO_V1(sql_sfq_binary_relate);
Datum sql_sfq_binary_relate(PG_FUNCTION_ARGS)
{
    struct memory *memory = memory_of(fcinfo);
    char matrix[10];
    if (!take_both(fcinfo, memory)) {
        PG_RETURN_NULL();
    }
    need_ok(sfq_relate(&memory->kept[0].geometry, &memory->kept[1].geometry, matrix), NULL);
    PG_RETURN_TEXT_P(cstring_to_text(matrix));
}

PG_FUNCTION_INFO_V1(sql_sfq_binary_relate_pattern);
Datum sql_sfq_binary_relate_pattern(PG_FUNCTION_ARGS)
{
    struct memory *memory = memory_of(fcinfo);
    text *pattern = PG_GETARG_TEXT_PP(2);
    bool answer = false;
    if (!take_both(fcinfo, memory)) {
        PG_RETURN_NULL();
    }
    need_ok(sfq_relate_pattern(&memory->kept[0].geometry, &memory->kept[1].geometry, VARDATA_ANY(pattern),
                               VARSIZE_ANY_EXHDR(pattern), &answer), NULL);
    PG_RETURN_BOOL(answer);
}

PG_FUNCTION_INFO_V1(sql_sfq_binary_holds);
Datum sql_sfq_binary_holds(PG_FUNCTION_ARGS)
{
    struct memory *memory = memory_of(fcinfo);
    bool answer = false;
    if (!take_both(fcinfo, memory)) {
        PG_RETURN_NULL();
    }
    need_ok(sfq_holds((uint32_t)PG_GETARG_INT32(2), &memory->kept[0].geometry, &memory->kept[1].geometry, &answer), NULL);
    PG_RETURN_BOOL(answer);
}

/* The predicates: whether a relation holds. */
static Datum relation(FunctionCallInfo fcinfo, enum sfq_relation of)
{
    bool answer = false;
    sfq_fault fault;
    need_ok(ask_relation(fcinfo, of, &answer, &fault), &fault);
    PG_RETURN_BOOL(answer);
}

#define PREDICATE(name, of) \
    PG_FUNCTION_INFO_V1(name); \
    Datum name(PG_FUNCTION_ARGS) \
    { \
        return relation(fcinfo, of); \
    }

PREDICATE(sql_sfq_equals, SFQ_EQUALS)
PREDICATE(sql_sfq_disjoint, SFQ_DISJOINT)
PREDICATE(sql_sfq_intersects, SFQ_INTERSECTS)
PREDICATE(sql_sfq_touches, SFQ_TOUCHES)
PREDICATE(sql_sfq_crosses, SFQ_CROSSES)
PREDICATE(sql_sfq_within, SFQ_WITHIN)
PREDICATE(sql_sfq_contains, SFQ_CONTAINS)
PREDICATE(sql_sfq_overlaps, SFQ_OVERLAPS)
PREDICATE(sql_sfq_covers, SFQ_COVERS)
PREDICATE(sql_sfq_covered_by, SFQ_COVERED_BY)
PREDICATE(sql_sfq_contains_properly, SFQ_CONTAINS_PROPERLY)

/* ST_IsValid(a): whether the text is that of a valid geometry. */
PG_FUNCTION_INFO_V1(sql_sfq_is_valid);
Datum sql_sfq_is_valid(PG_FUNCTION_ARGS)
{
    sfq_fault fault;
    int status = ask_fault(fcinfo, &fault);
    if (status == SFQ_OUT_OF_MEMORY) {
        need_ok(status, &fault);
    }
    PG_RETURN_BOOL(status == SFQ_OK);
}

/* ST_IsValidReason(a): "Valid Geometry", or the first fault. */
PG_FUNCTION_INFO_V1(sql_sfq_is_valid_reason);
Datum sql_sfq_is_valid_reason(PG_FUNCTION_ARGS)
{
    char place[FAULT_PLACE];
    sfq_fault fault;
    int status = ask_fault(fcinfo, &fault);
    if (status == SFQ_OUT_OF_MEMORY) {
        need_ok(status, &fault);
    }
    if (status == SFQ_OK) {
        PG_RETURN_TEXT_P(cstring_to_text("Valid Geometry"));
    }
    fault_place(&fault, place);
    PG_RETURN_TEXT_P(cstring_to_text(psprintf("%s: %s", place, fault_meaning(&fault))));
}

/* The result of a text, without so many of its last bytes. */
static Datum written(FunctionCallInfo fcinfo, writing *write, int without)
{
    char *found;
    size_t length = 0;
    sfq_fault fault;
    need_ok(ask_text(fcinfo, write, &found, &length, &fault), &fault);
    PG_RETURN_TEXT_P(cstring_to_text_with_len(found, (int)length - without));
}

/* ST_Why(a, b): nine lines, of what shows each cell of the matrix. ST_Why(a): whether it is valid, and where not. */
PG_FUNCTION_INFO_V1(sql_sfq_why);
Datum sql_sfq_why(PG_FUNCTION_ARGS)
{
    /* Without the line feed of the last line. */
    return written(fcinfo, write_why, 1);
}

/* ST_GeomFromText(a) and ST_AsText(a): the canonical text, for a geometry is a text here. */
PG_FUNCTION_INFO_V1(sql_sfq_canonical);
Datum sql_sfq_canonical(PG_FUNCTION_ARGS)
{
    return written(fcinfo, write_canonical, 0);
}

/* ST_Dimension(a): 0 of points, 1 of lines, 2 of areas. */
PG_FUNCTION_INFO_V1(sql_sfq_dimension);
Datum sql_sfq_dimension(PG_FUNCTION_ARGS)
{
    uint32_t dimension = 0;
    sfq_fault fault;
    need_ok(ask_dimension(fcinfo, &dimension, &fault), &fault);
    PG_RETURN_INT32((int32)dimension);
}

/* ST_IsEmpty(a): whether it is the empty set of points. */
PG_FUNCTION_INFO_V1(sql_sfq_is_empty);
Datum sql_sfq_is_empty(PG_FUNCTION_ARGS)
{
    bool answer = false;
    sfq_fault fault;
    need_ok(ask_empty(fcinfo, &answer, &fault), &fault);
    PG_RETURN_BOOL(answer);
}

/* ST_XMin(a) and so on: one of the bounds, by its place; NULL of an empty geometry. */
static Datum bound(FunctionCallInfo fcinfo, int place)
{
    int32_t bounds[4];
    sfq_fault fault;
    int status = ask_bounds(fcinfo, bounds, &fault);
    if (status == SFQ_NONE) {
        PG_RETURN_NULL();
    }
    need_ok(status, &fault);
    PG_RETURN_INT32(bounds[place]);
}

#define BOUND(name, place) \
    PG_FUNCTION_INFO_V1(name); \
    Datum name(PG_FUNCTION_ARGS) \
    { \
        return bound(fcinfo, place); \
    }

BOUND(sql_sfq_x_min, 0)
BOUND(sql_sfq_x_max, 1)
BOUND(sql_sfq_y_min, 2)
BOUND(sql_sfq_y_max, 3)

/* Whether two reference systems, by their numbers, are the same. It is an error where they aren't, as in PostGIS. */
PG_FUNCTION_INFO_V1(sql_sfq_same_system);
Datum sql_sfq_same_system(PG_FUNCTION_ARGS)
{
    int32 first = PG_GETARG_INT32(0), second = PG_GETARG_INT32(1);
    if (first != second) {
        ereport(ERROR, (errcode(ERRCODE_INVALID_PARAMETER_VALUE),
                        errmsg("sfq: first has the reference system %d, second %d: transform one", first, second)));
    }
    PG_RETURN_BOOL(true);
}
