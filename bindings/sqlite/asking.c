/* The calls of the library, for SQLite's arguments: see asking.h. */
#include "asking.h"

/* The bytes of an argument, and their number. Null where SQLite has no memory to convert it. */
static const char *text_of(sqlite3_value *value, size_t *length)
{
    const char *text = (const char *)sqlite3_value_text(value);
    *length = (size_t)sqlite3_value_bytes(value);
    return text;
}

int take_argument(struct function *function, int which, sqlite3_value *value, sfq_geometry **geometry, sfq_fault *fault)
{
    struct kept *kept = &function->kept[which];
    size_t length;
    const char *text;
    *geometry = geometry_of(function->connection, value);
    if (*geometry != NULL) {
        return SFQ_OK;
    }
    *geometry = &kept->geometry;
    text = text_of(value, &length);
    if (text == NULL) {
        return SFQ_OUT_OF_MEMORY;
    }
    return is_kept(kept, text, length) ? SFQ_OK : keep(kept, text, length, text, length, fault);
}

/* The geometries of the first two arguments. */
static int take_both(struct function *function, sqlite3_value **values, sfq_geometry *both[2], sfq_fault *fault)
{
    int status = take_argument(function, 0, values[0], &both[0], fault);
    return status != SFQ_OK ? status : of_second(take_argument(function, 1, values[1], &both[1], fault));
}

int ask_fault(sqlite3_value **values, sfq_fault *fault)
{
    size_t length;
    const char *text = text_of(values[0], &length);
    return text == NULL ? SFQ_OUT_OF_MEMORY : sfq_check(text, length, fault);
}

int ask_matrix(struct function *function, sqlite3_value **values, char matrix[10], sfq_fault *fault)
{
    sfq_geometry *both[2];
    int status = take_both(function, values, both, fault);
    return status != SFQ_OK ? status : sfq_relate(both[0], both[1], matrix);
}

int ask_relation(struct function *function, sqlite3_value **values, int64_t *number, sfq_fault *fault)
{
    sfq_geometry *both[2];
    bool answer = false;
    int status = take_both(function, values, both, fault);
    status = status != SFQ_OK ? status : sfq_holds((uint32_t)function->of, both[0], both[1], &answer);
    *number = answer;
    return status;
}

int ask_pattern(struct function *function, sqlite3_value **values, int64_t *number, sfq_fault *fault)
{
    sfq_geometry *both[2];
    bool answer = false;
    size_t length;
    int status = take_both(function, values, both, fault);
    const char *pattern = text_of(values[2], &length);
    if (status != SFQ_OK || pattern == NULL) {
        return status != SFQ_OK ? status : SFQ_OUT_OF_MEMORY;
    }
    status = sfq_relate_pattern(both[0], both[1], pattern, length, &answer);
    *number = answer;
    return status;
}

int ask_empty(struct function *function, sqlite3_value **values, int64_t *number, sfq_fault *fault)
{
    sfq_geometry *geometry;
    bool answer = false;
    int status = take_argument(function, 0, values[0], &geometry, fault);
    status = status != SFQ_OK ? status : sfq_is_empty(geometry, &answer);
    *number = answer;
    return status;
}

int ask_dimension(struct function *function, sqlite3_value **values, int64_t *number, sfq_fault *fault)
{
    sfq_geometry *geometry;
    uint32_t dimension = 0;
    int status = take_argument(function, 0, values[0], &geometry, fault);
    status = status != SFQ_OK ? status : sfq_dimension(geometry, &dimension);
    *number = dimension;
    return status;
}

int ask_bound(struct function *function, sqlite3_value **values, int64_t *number, sfq_fault *fault)
{
    sfq_geometry *geometry;
    int32_t bounds[4] = { 0 };
    int status = take_argument(function, 0, values[0], &geometry, fault);
    status = status != SFQ_OK ? status : sfq_envelope(geometry, bounds);
    *number = bounds[function->of];
    return status;
}

int write_why(struct function *function, int count, sqlite3_value **values, char *room, size_t size, size_t *length,
              sfq_fault *fault)
{
    sfq_geometry *both[2];
    const char *text;
    size_t text_length;
    int status;
    if (count == 2) {
        status = take_both(function, values, both, fault);
        return status != SFQ_OK ? status : sfq_why(both[0], both[1], room, size, length);
    }
    text = text_of(values[0], &text_length);
    return text == NULL ? SFQ_OUT_OF_MEMORY : sfq_reason(text, text_length, room, size, length, fault);
}

int write_canonical(struct function *function, int count, sqlite3_value **values, char *room, size_t size, size_t *length,
                    sfq_fault *fault)
{
    sfq_geometry *geometry;
    int status = take_argument(function, 0, values[0], &geometry, fault);
    (void)count;
    return status != SFQ_OK ? status : sfq_text(geometry, room, size, length);
}

int write_blob(struct function *function, int count, sqlite3_value **values, char *room, size_t size, size_t *length,
               sfq_fault *fault)
{
    sfq_geometry *geometry;
    int status = take_argument(function, 0, values[0], &geometry, fault);
    (void)count;
    return status != SFQ_OK ? status : sfq_write_binary(geometry, NULL, room, size, length);
}

int write_text_of_blob(struct function *function, int count, sqlite3_value **values, char *room, size_t size, size_t *length,
                       sfq_fault *fault)
{
    struct kept *kept = &function->kept[0];
    const char *blob = sqlite3_value_blob(values[0]);
    size_t blob_length = (size_t)sqlite3_value_bytes(values[0]);
    int status = SFQ_OK;
    (void)count;
    if (blob == NULL && blob_length > 0) {
        return SFQ_OUT_OF_MEMORY;
    }
    blob = blob != NULL ? blob : "";
    if (!is_kept(kept, blob, blob_length)) {
        forget(kept);
        status = keep_under(kept, blob, blob_length, sfq_read_binary(NULL, blob, blob_length, &kept->geometry, NULL, NULL, fault));
    }
    return status != SFQ_OK ? status : sfq_text(&kept->geometry, room, size, length);
}

int ask_text(struct function *function, int count, sqlite3_value **values, writing *write, char **text, size_t *length,
             sfq_fault *fault)
{
    size_t size = 512;
    int status = SFQ_TOO_SMALL;
    *text = NULL;
    while (status == SFQ_TOO_SMALL) {
        char *larger = sqlite3_realloc64(*text, size);
        if (larger == NULL) {
            return SFQ_OUT_OF_MEMORY;
        }
        *text = larger;
        status = write(function, count, values, *text, size, length, fault);
        size = status == SFQ_TOO_SMALL ? *length : size;
    }
    return status;
}
