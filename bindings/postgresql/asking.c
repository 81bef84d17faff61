/* The calls of the library, for PostgreSQL's arguments: see asking.h. */
#include "asking.h"

static void forget_both(void *given)
{
    struct memory *memory = given;
    forget(&memory->kept[0]);
    forget(&memory->kept[1]);
}

struct memory *memory_of(FunctionCallInfo fcinfo)
{
    if (fcinfo->flinfo->fn_extra == NULL) {
        struct memory *memory = MemoryContextAllocZero(fcinfo->flinfo->fn_mcxt, sizeof *memory);
        memory->callback.func = forget_both;
        memory->callback.arg = memory;
        MemoryContextRegisterResetCallback(fcinfo->flinfo->fn_mcxt, &memory->callback);
        fcinfo->flinfo->fn_extra = memory;
    }
    return fcinfo->flinfo->fn_extra;
}

/* Reads an argument, if it isn't the one that is kept. Values are compared as they are stored, packed or not. */
static int read_argument(struct kept *kept, struct varlena *stored, sfq_fault *fault)
{
    text *unpacked;
    if (is_kept(kept, (const char *)stored, VARSIZE_ANY(stored))) {
        return SFQ_OK;
    }
    unpacked = (text *)pg_detoast_datum_packed(stored);
    return keep(kept, (const char *)stored, VARSIZE_ANY(stored), VARDATA_ANY(unpacked), VARSIZE_ANY_EXHDR(unpacked), fault);
}

static int read_both(FunctionCallInfo fcinfo, struct memory *memory, sfq_fault *fault)
{
    int status = read_argument(&memory->kept[0], PG_GETARG_RAW_VARLENA_P(0), fault);
    return status != SFQ_OK ? status : of_second(read_argument(&memory->kept[1], PG_GETARG_RAW_VARLENA_P(1), fault));
}

/*
 * Reads a value in PostGIS's binary form in place of what is kept, and keeps it under its bytes as they are stored. What isn't on the
 * grid, isn't of the six types or isn't valid isn't taken: the text of it then says what is wrong.
 */
static int keep_binary(struct kept *kept, const char *bytes, size_t size, const void *value, size_t length, int32_t *system)
{
    forget(kept);
    return keep_under(kept, bytes, size, sfq_read_binary(NULL, value, length, &kept->geometry, system, NULL, NULL));
}

bool take_both(FunctionCallInfo fcinfo, struct memory *memory)
{
    int i;
    for (i = 0; i < 2; i++) {
        struct varlena *stored = PG_GETARG_RAW_VARLENA_P(i);
        bytea *unpacked;
        if (is_kept(&memory->kept[i], (const char *)stored, VARSIZE_ANY(stored))) {
            continue;
        }
        unpacked = (bytea *)pg_detoast_datum_packed(stored);
        if (keep_binary(&memory->kept[i], (const char *)stored, VARSIZE_ANY(stored), VARDATA_ANY(unpacked),
                        VARSIZE_ANY_EXHDR(unpacked), &memory->systems[i]) != SFQ_OK) {
            return false;
        }
    }
    return memory->systems[0] == memory->systems[1];
}

int ask_fault(FunctionCallInfo fcinfo, sfq_fault *fault)
{
    text *given = PG_GETARG_TEXT_PP(0);
    return sfq_check(VARDATA_ANY(given), VARSIZE_ANY_EXHDR(given), fault);
}

int ask_matrix(FunctionCallInfo fcinfo, char matrix[10], sfq_fault *fault)
{
    struct memory *memory = memory_of(fcinfo);
    int status = read_both(fcinfo, memory, fault);
    return status != SFQ_OK ? status : sfq_relate(&memory->kept[0].geometry, &memory->kept[1].geometry, matrix);
}

int ask_relation(FunctionCallInfo fcinfo, enum sfq_relation of, bool *answer, sfq_fault *fault)
{
    struct memory *memory = memory_of(fcinfo);
    int status = read_both(fcinfo, memory, fault);
    return status != SFQ_OK ? status : sfq_holds(of, &memory->kept[0].geometry, &memory->kept[1].geometry, answer);
}

int ask_pattern(FunctionCallInfo fcinfo, bool *answer, sfq_fault *fault)
{
    struct memory *memory = memory_of(fcinfo);
    text *pattern = PG_GETARG_TEXT_PP(2);
    int status = read_both(fcinfo, memory, fault);
    if (status != SFQ_OK) {
        return status;
    }
    return sfq_relate_pattern(&memory->kept[0].geometry, &memory->kept[1].geometry, VARDATA_ANY(pattern), VARSIZE_ANY_EXHDR(pattern),
                              answer);
}

/* The geometry of the first argument. */
static int read_one(FunctionCallInfo fcinfo, sfq_geometry **geometry, sfq_fault *fault)
{
    struct memory *memory = memory_of(fcinfo);
    *geometry = &memory->kept[0].geometry;
    return read_argument(&memory->kept[0], PG_GETARG_RAW_VARLENA_P(0), fault);
}

int ask_dimension(FunctionCallInfo fcinfo, uint32_t *dimension, sfq_fault *fault)
{
    sfq_geometry *geometry;
    int status = read_one(fcinfo, &geometry, fault);
    return status != SFQ_OK ? status : sfq_dimension(geometry, dimension);
}

int ask_empty(FunctionCallInfo fcinfo, bool *answer, sfq_fault *fault)
{
    sfq_geometry *geometry;
    int status = read_one(fcinfo, &geometry, fault);
    return status != SFQ_OK ? status : sfq_is_empty(geometry, answer);
}

int ask_bounds(FunctionCallInfo fcinfo, int32_t bounds[4], sfq_fault *fault)
{
    sfq_geometry *geometry;
    int status = read_one(fcinfo, &geometry, fault);
    return status != SFQ_OK ? status : sfq_envelope(geometry, bounds);
}

int write_why(FunctionCallInfo fcinfo, char *room, size_t size, size_t *length, sfq_fault *fault)
{
    if (PG_NARGS() == 2) {
        struct memory *memory = memory_of(fcinfo);
        int status = read_both(fcinfo, memory, fault);
        return status != SFQ_OK ? status : sfq_why(&memory->kept[0].geometry, &memory->kept[1].geometry, room, size, length);
    } else {
        text *given = PG_GETARG_TEXT_PP(0);
        return sfq_reason(VARDATA_ANY(given), VARSIZE_ANY_EXHDR(given), room, size, length, fault);
    }
}

int write_canonical(FunctionCallInfo fcinfo, char *room, size_t size, size_t *length, sfq_fault *fault)
{
    sfq_geometry *geometry;
    int status = read_one(fcinfo, &geometry, fault);
    return status != SFQ_OK ? status : sfq_text(geometry, room, size, length);
}

int ask_text(FunctionCallInfo fcinfo, writing *write, char **written, size_t *length, sfq_fault *fault)
{
    /* Room for most, since a call with too little takes as long. */
    size_t size = 8192;
    int status;
    *written = palloc(size);
    status = write(fcinfo, *written, size, length, fault);
    if (status == SFQ_TOO_SMALL) {
        size = *length;
        *written = repalloc(*written, size);
        status = write(fcinfo, *written, size, length, fault);
    }
    return status;
}
