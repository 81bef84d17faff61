/*
 * The border between C and the proved calls of the crate sfq_c. Nothing here is proved: it hands in what those calls require.
 * No pointer is null, also with a length of 0; what is written to is a value of its type before; a geometry or an index is handed to
 * one call, which puts it back into an empty slot; two geometries that are the same go to a call for one.
 */
#include "sfq.h"

#include <string.h>

/* JavaScript asks for nothing of many values or geometries. */
#ifndef __wasm__
#include <stdlib.h>
#endif

/* ---- the proved calls, as crates/sfq_c/src declares them ---- */

/* A kept geometry or index, and a slot for one. */
struct kept {
    void *at;
};

/* Two coordinates. An array of them is one of coordinates, x and y in turn. */
struct position {
    int32_t x, y;
};

/* The four bounds of an envelope. An array of them is one of numbers, four in turn. */
struct bounds {
    int32_t least_x, greatest_x, least_y, greatest_y;
};

/* A grid, and whether positions are moved to it. */
struct grid_numbers {
    uint64_t step;
    int64_t origin_x, origin_y;
    uint64_t parts;
    bool moves;
};

/* Two doubles, by their bits. An array of them is one of doubles, x and y in turn. */
struct pair {
    uint64_t x, y;
};

/* The type of well-known binary by its number, and how much it has. */
struct counts {
    uint32_t code;
    size_t positions, lines, elements;
};

/* An extent of doubles, by their bits. */
struct extent {
    uint64_t least_x, greatest_x, least_y, greatest_y;
};

/* What goes with a geometry that was read from well-known binary. */
struct notes {
    uint32_t system;
    size_t positions, moved, merged;
    uint64_t greatest_high, greatest_low;
};

uint32_t sfq_proved_fault(const uint8_t *text, size_t length, sfq_fault *fault);
uint32_t sfq_proved_relate_texts(const uint8_t *first, size_t first_length, const uint8_t *second, size_t second_length,
                                 uint8_t *matrix, sfq_fault *fault);
uint32_t sfq_proved_answer_texts(const uint8_t *first, size_t first_length, const uint8_t *second, size_t second_length,
                                 uint8_t *matrix, bool *holds, sfq_fault *fault);
uint32_t sfq_proved_read(const uint8_t *text, size_t length, struct kept *slot, sfq_fault *fault);
uint32_t sfq_proved_read_positions(uint32_t type, const struct position *positions, size_t count, const size_t *lines,
                                   size_t line_count, const size_t *polygons, size_t polygon_count, struct kept *slot,
                                   sfq_fault *fault);
uint32_t sfq_proved_check_grid(const struct grid_numbers *grid);
uint32_t sfq_proved_read_binary(const uint8_t *bytes, size_t length, const struct grid_numbers *grid, struct kept *slot,
                                struct notes *notes, sfq_fault *fault);
uint32_t sfq_proved_write_binary(struct kept kept, const struct grid_numbers *grid, uint8_t *room, size_t size, size_t *length,
                                 struct kept *back);
uint32_t sfq_proved_round(const struct grid_numbers *grid, const struct pair *positions, size_t count, struct position *room,
                          size_t size, size_t *position);
uint32_t sfq_proved_take_apart(const uint8_t *bytes, size_t length, struct pair *positions, size_t most_positions, size_t *lines,
                               size_t most_lines, size_t *elements, size_t most_elements, struct counts *counts, sfq_fault *fault);
uint32_t sfq_proved_widen_extent(const uint8_t *bytes, size_t length, bool *is_there, struct extent *extent);
void sfq_proved_free(struct kept kept);
uint32_t sfq_proved_relate(struct kept first, struct kept second, uint8_t *matrix, struct kept *first_back,
                           struct kept *second_back);
uint32_t sfq_proved_relate_itself(struct kept kept, uint8_t *matrix, struct kept *back);
uint32_t sfq_proved_holds(uint32_t relation, struct kept first, struct kept second, bool *answer, struct kept *first_back,
                          struct kept *second_back);
uint32_t sfq_proved_holds_itself(uint32_t relation, struct kept kept, bool *answer, struct kept *back);
uint32_t sfq_proved_matches(struct kept first, struct kept second, const uint8_t *pattern, size_t length, bool *answer,
                            struct kept *first_back, struct kept *second_back);
uint32_t sfq_proved_matches_itself(struct kept kept, const uint8_t *pattern, size_t length, bool *answer, struct kept *back);
uint32_t sfq_proved_text(struct kept kept, uint8_t *room, size_t size, size_t *length, struct kept *back);
uint32_t sfq_proved_dimension(struct kept kept, struct kept *back);
bool sfq_proved_is_empty(struct kept kept, struct kept *back);
uint32_t sfq_proved_envelope(struct kept kept, int32_t *bounds, struct kept *back);
uint32_t sfq_proved_locate(struct kept kept, int32_t x, int32_t y, uint32_t *place, struct kept *back);
uint32_t sfq_proved_holds_at(uint32_t relation, uint32_t place, bool *answer);
uint32_t sfq_proved_index_build(const struct bounds *bounds, size_t count, struct kept *slot, size_t *position);
uint32_t sfq_proved_index_search(struct kept kept, const struct bounds *window, size_t *room, size_t size, size_t *count,
                                 struct kept *back);
void sfq_proved_index_free(struct kept kept);
uint32_t sfq_proved_why(struct kept first, struct kept second, uint8_t *room, size_t size, size_t *length, struct kept *first_back,
                        struct kept *second_back);
uint32_t sfq_proved_why_itself(struct kept kept, uint8_t *room, size_t size, size_t *length, struct kept *back);
uint32_t sfq_proved_reason(const uint8_t *text, size_t text_length, uint8_t *room, size_t size, size_t *length, sfq_fault *fault);

/* ---- what they require ---- */

static const struct kept empty_slot = { NULL };

/* A text as a pointer that isn't null: a text that is null is empty, whatever its length. */
static const uint8_t *bytes_of(const char *text)
{
    return (const uint8_t *)(text != NULL ? text : "");
}

/* How many items there are behind a pointer: none behind null. */
static size_t count_of(const void *items, size_t count)
{
    return items != NULL ? count : 0;
}

/* Sizes as a pointer that isn't null. */
static const size_t *sizes_of(const size_t *sizes)
{
    static const size_t none = 0;
    return sizes != NULL ? sizes : &none;
}

/* The geometry, for a call that puts it back. */
static struct kept taken(const sfq_geometry *geometry)
{
    struct kept kept = { geometry->kept };
    return kept;
}

static bool is_there(const sfq_geometry *geometry)
{
    return geometry != NULL && geometry->kept != NULL;
}

static bool are_there(const sfq_geometry *first, const sfq_geometry *second)
{
    return is_there(first) && is_there(second);
}

/* The caller's fault, or one to write to where the caller wants none. */
static sfq_fault *written(sfq_fault *fault, sfq_fault *other)
{
    return fault != NULL ? fault : other;
}

/* Nine characters with a 0 after them, where the status is SFQ_OK. */
static int with_end(uint32_t status, const uint8_t *nine, char *matrix)
{
    if (status == SFQ_OK) {
        memcpy(matrix, nine, 9);
        matrix[9] = '\0';
    }
    return (int)status;
}

/* ---- the calls of sfq.h ---- */

uint32_t sfq_version(void)
{
    return SFQ_VERSION;
}

int sfq_check(const char *text, size_t length, sfq_fault *fault)
{
    sfq_fault other = { 0, 0, 0, 0 };
    return (int)sfq_proved_fault(bytes_of(text), count_of(text, length), written(fault, &other));
}

int sfq_relate_texts(const char *first, size_t first_length, const char *second, size_t second_length, char matrix[10],
                     sfq_fault *fault)
{
    uint8_t nine[9] = { 0 };
    sfq_fault other = { 0, 0, 0, 0 };
    uint32_t status = sfq_proved_relate_texts(bytes_of(first), count_of(first, first_length), bytes_of(second),
                                              count_of(second, second_length), nine, written(fault, &other));
    return with_end(status, nine, matrix);
}

int sfq_answer_texts(const char *first, size_t first_length, const char *second, size_t second_length, char matrix[10],
                     bool holds[SFQ_RELATIONS], sfq_fault *fault)
{
    uint8_t nine[9] = { 0 };
    bool all[SFQ_RELATIONS] = { false };
    sfq_fault other = { 0, 0, 0, 0 };
    uint32_t status = sfq_proved_answer_texts(bytes_of(first), count_of(first, first_length), bytes_of(second),
                                              count_of(second, second_length), nine, all, written(fault, &other));
    if (status == SFQ_OK) {
        memcpy(holds, all, sizeof all);
    }
    return with_end(status, nine, matrix);
}

int sfq_read(const char *text, size_t length, sfq_geometry *geometry, sfq_fault *fault)
{
    struct kept slot = empty_slot;
    sfq_fault other = { 0, 0, 0, 0 };
    uint32_t status;
    if (geometry->kept != NULL) {
        return SFQ_NO_GEOMETRY;
    }
    status = sfq_proved_read(bytes_of(text), count_of(text, length), &slot, written(fault, &other));
    if (status == SFQ_OK) {
        geometry->kept = slot.at;
    }
    return (int)status;
}

int sfq_read_positions(uint32_t type, const int32_t *coordinates, size_t positions, const size_t *lines, size_t line_count,
                       const size_t *polygons, size_t polygon_count, sfq_geometry *geometry, sfq_fault *fault)
{
    static const struct position none = { 0, 0 };
    struct kept slot = empty_slot;
    sfq_fault other = { 0, 0, 0, 0 };
    uint32_t status;
    if (geometry->kept != NULL) {
        return SFQ_NO_GEOMETRY;
    }
    status = sfq_proved_read_positions(type, coordinates != NULL ? (const struct position *)(const void *)coordinates : &none,
                                       count_of(coordinates, positions), sizes_of(lines), count_of(lines, line_count),
                                       sizes_of(polygons), count_of(polygons, polygon_count), &slot, written(fault, &other));
    if (status == SFQ_OK) {
        geometry->kept = slot.at;
    }
    return (int)status;
}

void sfq_free(sfq_geometry *geometry)
{
    if (is_there(geometry)) {
        sfq_proved_free(taken(geometry));
        geometry->kept = NULL;
    }
}

void sfq_free_many(sfq_geometry *geometries, size_t count)
{
    size_t i;
    for (i = 0; i < count; i++) {
        sfq_free(&geometries[i]);
    }
}

int sfq_relate(sfq_geometry *first, sfq_geometry *second, char matrix[10])
{
    struct kept one = empty_slot, two = empty_slot;
    uint8_t nine[9] = { 0 };
    uint32_t status;
    if (!are_there(first, second)) {
        return SFQ_NO_GEOMETRY;
    }
    if (first->kept == second->kept) {
        status = sfq_proved_relate_itself(taken(first), nine, &one);
        two = one;
    } else {
        status = sfq_proved_relate(taken(first), taken(second), nine, &one, &two);
    }
    first->kept = one.at;
    second->kept = two.at;
    return with_end(status, nine, matrix);
}

int sfq_relate_many(sfq_geometry *const *first, sfq_geometry *const *second, size_t count, char *matrices, size_t *done)
{
    char matrix[10];
    int status = SFQ_OK;
    size_t i;
    for (i = 0; i < count; i++) {
        status = sfq_relate(first[i], second[i], matrix);
        if (status != SFQ_OK) {
            break;
        }
        memcpy(matrices + 9 * i, matrix, 9);
    }
    *done = i;
    return status;
}

int sfq_relate_points(const int32_t *coordinates, sfq_geometry *const *second, size_t count, char *matrices, size_t *done)
{
    sfq_geometry point = SFQ_EMPTY;
    char matrix[10];
    int status = SFQ_OK;
    size_t i;
    for (i = 0; i < count; i++) {
        status = sfq_read_positions(SFQ_POINT, coordinates + 2 * i, 1, NULL, 0, NULL, 0, &point, NULL);
        if (status == SFQ_OK) {
            status = sfq_relate(&point, second[i], matrix);
            sfq_free(&point);
        }
        if (status != SFQ_OK) {
            break;
        }
        memcpy(matrices + 9 * i, matrix, 9);
    }
    *done = i;
    return status;
}

int sfq_holds(uint32_t relation, sfq_geometry *first, sfq_geometry *second, bool *answer)
{
    struct kept one = empty_slot, two = empty_slot;
    bool found = false;
    uint32_t status;
    if (!are_there(first, second)) {
        return SFQ_NO_GEOMETRY;
    }
    if (first->kept == second->kept) {
        status = sfq_proved_holds_itself(relation, taken(first), &found, &one);
        two = one;
    } else {
        status = sfq_proved_holds(relation, taken(first), taken(second), &found, &one, &two);
    }
    first->kept = one.at;
    second->kept = two.at;
    if (status == SFQ_OK) {
        *answer = found;
    }
    return (int)status;
}

int sfq_holds_many(uint32_t relation, sfq_geometry *const *first, sfq_geometry *const *second, size_t count, bool *answers, size_t *done)
{
    int status = SFQ_OK;
    size_t i;
    for (i = 0; i < count; i++) {
        status = sfq_holds(relation, first[i], second[i], &answers[i]);
        if (status != SFQ_OK) {
            break;
        }
    }
    *done = i;
    return status;
}

int sfq_relate_pattern(sfq_geometry *first, sfq_geometry *second, const char *pattern, size_t length, bool *answer)
{
    struct kept one = empty_slot, two = empty_slot;
    bool found = false;
    uint32_t status;
    if (!are_there(first, second)) {
        return SFQ_NO_GEOMETRY;
    }
    if (first->kept == second->kept) {
        status = sfq_proved_matches_itself(taken(first), bytes_of(pattern), count_of(pattern, length), &found, &one);
        two = one;
    } else {
        status = sfq_proved_matches(taken(first), taken(second), bytes_of(pattern), count_of(pattern, length), &found, &one, &two);
    }
    first->kept = one.at;
    second->kept = two.at;
    if (status == SFQ_OK) {
        *answer = found;
    }
    return (int)status;
}

int sfq_text(sfq_geometry *geometry, char *room, size_t size, size_t *length)
{
    struct kept back = empty_slot;
    uint8_t nothing = 0;
    uint32_t status;
    if (!is_there(geometry)) {
        return SFQ_NO_GEOMETRY;
    }
    status = sfq_proved_text(taken(geometry), room != NULL ? (uint8_t *)room : &nothing, room != NULL ? size : 0, length, &back);
    geometry->kept = back.at;
    return (int)status;
}

int sfq_dimension(sfq_geometry *geometry, uint32_t *dimension)
{
    struct kept back = empty_slot;
    if (!is_there(geometry)) {
        return SFQ_NO_GEOMETRY;
    }
    *dimension = sfq_proved_dimension(taken(geometry), &back);
    geometry->kept = back.at;
    return SFQ_OK;
}

int sfq_is_empty(sfq_geometry *geometry, bool *empty)
{
    struct kept back = empty_slot;
    if (!is_there(geometry)) {
        return SFQ_NO_GEOMETRY;
    }
    *empty = sfq_proved_is_empty(taken(geometry), &back);
    geometry->kept = back.at;
    return SFQ_OK;
}

int sfq_envelope(sfq_geometry *geometry, int32_t bounds[4])
{
    struct kept back = empty_slot;
    uint32_t status;
    if (!is_there(geometry)) {
        return SFQ_NO_GEOMETRY;
    }
    status = sfq_proved_envelope(taken(geometry), bounds, &back);
    geometry->kept = back.at;
    return (int)status;
}

int sfq_locate(sfq_geometry *geometry, int32_t x, int32_t y, uint32_t *place)
{
    struct kept back = empty_slot;
    uint32_t status;
    if (!is_there(geometry)) {
        return SFQ_NO_GEOMETRY;
    }
    status = sfq_proved_locate(taken(geometry), x, y, place, &back);
    geometry->kept = back.at;
    return (int)status;
}

int sfq_locate_many(sfq_geometry *geometry, const int32_t *coordinates, size_t count, uint32_t *places, size_t *done)
{
    int status = is_there(geometry) ? SFQ_OK : SFQ_NO_GEOMETRY;
    size_t i;
    for (i = 0; status == SFQ_OK && i < count; i++) {
        status = sfq_locate(geometry, coordinates[2 * i], coordinates[2 * i + 1], &places[i]);
        if (status != SFQ_OK) {
            break;
        }
    }
    *done = i;
    return status;
}

/* ---- well-known binary and doubles ---- */

/* Whole numbers, of which no position is moved, where the caller has no grid. */
static struct grid_numbers numbers_of(const sfq_grid *grid)
{
    struct grid_numbers found = { 1, 0, 0, 1, false };
    if (grid != NULL) {
        found.step = (uint64_t)grid->step;
        found.origin_x = grid->origin_x;
        found.origin_y = grid->origin_y;
        found.parts = (uint64_t)grid->parts;
        found.moves = true;
    }
    return found;
}

/* Adds what rounding did to one geometry. A tick is a part divided by 2 to the power of 20. */
static void add_shift(sfq_shift *all, const struct notes *one, uint64_t parts)
{
    double ticks = (double)one->greatest_high * 18446744073709551616.0 + (double)one->greatest_low;
    double greatest = ticks / 1048576.0 / (double)parts;
    if (all != NULL) {
        all->positions += one->positions;
        all->moved += one->moved;
        all->merged += one->merged;
        all->greatest = greatest > all->greatest ? greatest : all->greatest;
    }
}

int sfq_read_binary(const sfq_grid *grid, const void *binary, size_t length, sfq_geometry *geometry, int32_t *system,
                    sfq_shift *shift, sfq_fault *fault)
{
    const struct grid_numbers numbers = numbers_of(grid);
    struct kept slot = empty_slot;
    struct notes notes = { 0, 0, 0, 0, 0, 0 };
    sfq_fault other = { 0, 0, 0, 0 };
    uint32_t status;
    if (geometry->kept != NULL) {
        return SFQ_NO_GEOMETRY;
    }
    status = sfq_proved_read_binary(bytes_of(binary), count_of(binary, length), &numbers, &slot, &notes, written(fault, &other));
    if (status == SFQ_OK) {
        geometry->kept = slot.at;
        add_shift(shift, &notes, numbers.parts);
        if (system != NULL) {
            *system = (int32_t)notes.system;
        }
    }
    return (int)status;
}

int sfq_write_binary(sfq_geometry *geometry, const sfq_grid *grid, void *room, size_t size, size_t *length)
{
    const struct grid_numbers numbers = numbers_of(grid);
    struct kept back = empty_slot;
    uint8_t nothing = 0;
    size_t other = 0;
    uint32_t status;
    if (!is_there(geometry)) {
        return SFQ_NO_GEOMETRY;
    }
    status = sfq_proved_write_binary(taken(geometry), &numbers, room != NULL ? room : &nothing, count_of(room, size),
                                     length != NULL ? length : &other, &back);
    geometry->kept = back.at;
    return (int)status;
}

/* Sizes to write to as a pointer that isn't null. */
static size_t *room_of(size_t *sizes, size_t *none)
{
    return sizes != NULL ? sizes : none;
}

int sfq_round(const sfq_grid *grid, const double *coordinates, size_t positions, int32_t *steps, size_t *position)
{
    static const struct pair none = { 0, 0 };
    const struct grid_numbers numbers = numbers_of(grid);
    const size_t count = count_of(coordinates, positions);
    struct position nothing = { 0, 0 };
    size_t other = 0;
    return (int)sfq_proved_round(&numbers, coordinates != NULL ? (const struct pair *)(const void *)coordinates : &none, count,
                                 steps != NULL ? (struct position *)(void *)steps : &nothing, count_of(steps, count),
                                 position != NULL ? position : &other);
}

int sfq_take_apart(const sfq_grid *grid, const void *binary, size_t length, sfq_pieces *pieces, sfq_fault *fault)
{
    struct pair none = { 0, 0 }, *positions = pieces->coordinates != NULL ? (struct pair *)(void *)pieces->coordinates : &none;
    struct counts counts = { 0, 0, 0, 0 };
    size_t nothing = 0, no_more = 0;
    sfq_fault other = { 0, 0, 0, 0 };
    uint32_t status = sfq_proved_take_apart(
        bytes_of(binary), count_of(binary, length), positions, count_of(pieces->coordinates, pieces->most_positions),
        room_of(pieces->lines, &nothing), count_of(pieces->lines, pieces->most_lines), room_of(pieces->elements, &no_more),
        count_of(pieces->elements, pieces->most_elements), &counts, written(fault, &other));
    if (status == SFQ_OK && pieces->coordinates != NULL && pieces->steps != NULL) {
        status = (uint32_t)sfq_round(grid, pieces->coordinates, counts.positions, pieces->steps, NULL);
        status = status == SFQ_REFUSED ? SFQ_NONE : status;
    }
    if (status != SFQ_REFUSED && status != SFQ_OUT_OF_MEMORY) {
        pieces->positions = counts.positions;
        pieces->line_count = counts.lines;
        pieces->element_count = counts.elements;
        pieces->type = counts.code;
    }
    return (int)status;
}

#ifndef __wasm__

int sfq_read_binaries(const sfq_grid *grid, const void *binaries, const size_t *lengths, size_t count, sfq_geometry *geometries,
                      uint32_t *statuses, sfq_fault *faults, sfq_shift *shift, size_t *done)
{
    const unsigned char *at = binaries;
    const struct grid_numbers numbers = numbers_of(grid);
    int status = (int)sfq_proved_check_grid(&numbers);
    size_t i;
    for (i = 0; status == SFQ_OK && i < count; i++) {
        int found = lengths[i] == 0 ? SFQ_NONE : sfq_read_binary(grid, at, lengths[i], &geometries[i], NULL, shift, &faults[i]);
        if (found == SFQ_OUT_OF_MEMORY) {
            status = found;
            break;
        }
        statuses[i] = (uint32_t)found;
        at += lengths[i];
    }
    *done = i;
    return status;
}

int sfq_binaries_extent(const void *binaries, const size_t *lengths, size_t count, double extent[4])
{
    const unsigned char *at = binaries;
    struct extent found = { 0, 0, 0, 0 };
    bool is_there = false;
    int status = SFQ_OK;
    size_t i;
    for (i = 0; status == SFQ_OK && i < count; i++) {
        status = (int)sfq_proved_widen_extent(bytes_of((const char *)at), lengths[i], &is_there, &found);
        at += lengths[i];
    }
    if (status == SFQ_OK && is_there) {
        memcpy(extent, &found, sizeof found);
    }
    return status == SFQ_OK && !is_there ? SFQ_NONE : status;
}

#endif

/* ---- indexes ---- */

int sfq_index_build(const int32_t *bounds, size_t count, sfq_index *index, size_t *position)
{
    static const struct bounds none = SFQ_NO_BOUNDS;
    struct kept slot = empty_slot;
    size_t other = 0;
    uint32_t status;
    if (index->kept != NULL) {
        return SFQ_NO_GEOMETRY;
    }
    status = sfq_proved_index_build(bounds != NULL ? (const struct bounds *)(const void *)bounds : &none, count_of(bounds, count), &slot,
                                    position != NULL ? position : &other);
    if (status == SFQ_OK) {
        index->kept = slot.at;
    }
    return (int)status;
}

int sfq_index_search(sfq_index *index, const int32_t window[4], size_t *room, size_t size, size_t *count)
{
    struct kept kept, back = empty_slot;
    size_t nothing = 0;
    uint32_t status;
    if (index == NULL || index->kept == NULL) {
        return SFQ_NO_GEOMETRY;
    }
    if (window == NULL) {
        return SFQ_UNKNOWN;
    }
    kept.at = index->kept;
    status = sfq_proved_index_search(kept, (const struct bounds *)(const void *)window, room != NULL ? room : &nothing,
                                     count_of(room, size), count, &back);
    index->kept = back.at;
    return (int)status;
}

void sfq_index_free(sfq_index *index)
{
    struct kept kept;
    if (index != NULL && index->kept != NULL) {
        kept.at = index->kept;
        sfq_proved_index_free(kept);
        index->kept = NULL;
    }
}

#ifndef __wasm__
/* The bounds of a geometry, or those that an empty one has. */
static void write_bounds(sfq_geometry *geometry, int32_t bounds[4])
{
    static const int32_t none[4] = SFQ_NO_BOUNDS;
    if (sfq_envelope(geometry, bounds) != SFQ_OK) {
        memcpy(bounds, none, sizeof none);
    }
}

int sfq_index_geometries(sfq_geometry *geometries, size_t count, sfq_index *index)
{
    int32_t *bounds = count <= SIZE_MAX / 16 ? malloc(count > 0 ? count * 16 : 1) : NULL;
    int status;
    size_t i;
    if (bounds == NULL) {
        return SFQ_OUT_OF_MEMORY;
    }
    for (i = 0; i < count; i++) {
        write_bounds(&geometries[i], bounds + 4 * i);
    }
    status = sfq_index_build(bounds, count, index, NULL);
    free(bounds);
    return status;
}

int sfq_index_points(const int32_t *coordinates, size_t count, sfq_index *index, size_t *position)
{
    const size_t points = count_of(coordinates, count);
    int32_t *bounds = points <= SIZE_MAX / 16 ? malloc(points > 0 ? points * 16 : 1) : NULL;
    int status;
    size_t i;
    if (bounds == NULL) {
        return SFQ_OUT_OF_MEMORY;
    }
    for (i = 0; i < 2 * points; i++) {
        bounds[2 * i] = bounds[2 * i + 1] = coordinates[i];
    }
    status = sfq_index_build(bounds, points, index, position);
    free(bounds);
    return status;
}

/* ---- joins ---- */

/* One geometry of a join, and those with which it may be in a pair: the candidates, whose envelopes meet its own. */
struct join {
    uint32_t relation;
    size_t place;
    sfq_geometry *geometry, *second;
    const size_t *candidates;
    size_t count;
};

/* Writes a pair, in front of the candidates that are left, where both are there and the relation holds: of no candidate it does. */
static int join_pair(const struct join *it, size_t place, bool is_candidate, size_t *room, size_t *pairs)
{
    bool answer = is_there(&it->second[place]);
    int status = SFQ_OK;
    if (answer && is_candidate) {
        status = sfq_holds(it->relation, it->geometry, &it->second[place], &answer);
    }
    if (status == SFQ_OK && answer) {
        room[2 * *pairs] = it->place;
        room[2 * *pairs + 1] = place;
        ++*pairs;
    }
    return status;
}

/* Writes the pairs of one geometry, which are among its candidates. */
static int join_one(const struct join *it, size_t *room, size_t *pairs)
{
    int status = SFQ_OK;
    size_t i;
    for (i = 0; status == SFQ_OK && i < it->count; i++) {
        status = join_pair(it, it->candidates[i], true, room, pairs);
    }
    return status;
}

/* The same of disjoint ones, of all geometries: those that are no candidates are. */
static int join_disjoint(const struct join *it, size_t second_count, size_t *room, size_t *pairs)
{
    int status = SFQ_OK;
    size_t i = 0, place;
    for (place = 0; status == SFQ_OK && place < second_count; place++) {
        bool is_candidate = i < it->count && it->candidates[i] == place;
        i += is_candidate;
        status = join_pair(it, place, is_candidate, room, pairs);
    }
    return status;
}

int sfq_join(uint32_t relation, sfq_geometry *first, size_t *next, size_t end, sfq_geometry *second, size_t second_count,
             sfq_index *index, size_t *room, size_t size, size_t *pairs)
{
    size_t found = 0, place;
    int status = relation < SFQ_RELATIONS ? SFQ_OK : SFQ_UNKNOWN;
    for (place = *next; status == SFQ_OK && place < end; place++) {
        struct join it = { relation, place, &first[place], second, NULL, 0 };
        int32_t window[4];
        if (!is_there(it.geometry)) {
            continue;
        }
        write_bounds(it.geometry, window);
        status = sfq_index_search(index, window, room + 2 * found, 2 * (size - found), &it.count);
        if (status == SFQ_OK && (relation == SFQ_DISJOINT ? second_count : it.count) > size - found) {
            status = SFQ_TOO_SMALL;
        }
        if (status == SFQ_TOO_SMALL) {
            status = place > *next ? SFQ_OK : status;
            break;
        }
        if (status == SFQ_OK) {
            it.candidates = memmove(room + 2 * size - it.count, room + 2 * found, it.count * sizeof *room);
            status = relation == SFQ_DISJOINT ? join_disjoint(&it, second_count, room, &found) : join_one(&it, room, &found);
        }
    }
    if (status == SFQ_OK) {
        *next = place;
        *pairs = found;
    }
    return status;
}

/* How many places of sfq_place a point can have. */
enum { PLACES = SFQ_EXTERIOR + 1 };

/* For each place of a point in a geometry, whether a relation holds of the two. */
static int find_answers(uint32_t relation, bool answers[PLACES])
{
    int status = SFQ_OK;
    uint32_t place;
    for (place = 0; status == SFQ_OK && place < PLACES; place++) {
        status = (int)sfq_proved_holds_at(relation, place, &answers[place]);
    }
    return status;
}

int sfq_join_points(uint32_t relation, sfq_geometry *first, size_t *next, size_t end, const int32_t *coordinates, sfq_index *index,
                    size_t *room, size_t size, size_t *pairs)
{
    size_t found = 0, place;
    bool answers[PLACES] = { false, false, false };
    int status = find_answers(relation, answers);
    for (place = *next; status == SFQ_OK && place < end; place++) {
        const size_t *candidates;
        size_t count = 0, i;
        int32_t window[4];
        if (coordinates == NULL || !is_there(&first[place])) {
            continue;
        }
        write_bounds(&first[place], window);
        status = sfq_index_search(index, window, room + 2 * found, 2 * (size - found), &count);
        if (status == SFQ_TOO_SMALL || (status == SFQ_OK && count > size - found)) {
            status = place > *next ? SFQ_OK : SFQ_TOO_SMALL;
            break;
        }
        candidates = status == SFQ_OK ? memmove(room + 2 * size - count, room + 2 * found, count * sizeof *room) : room;
        for (i = 0; status == SFQ_OK && i < count; i++) {
            const size_t point = candidates[i];
            uint32_t where = SFQ_EXTERIOR;
            status = sfq_locate(&first[place], coordinates[2 * point], coordinates[2 * point + 1], &where);
            if (status == SFQ_OK && answers[where]) {
                room[2 * found] = place;
                room[2 * found + 1] = point;
                found++;
            }
        }
    }
    if (status == SFQ_OK) {
        *next = place;
        *pairs = found;
    }
    return status;
}

#endif

/* ---- why ---- */

int sfq_why(sfq_geometry *first, sfq_geometry *second, char *room, size_t size, size_t *length)
{
    struct kept one = empty_slot, two = empty_slot;
    uint8_t nothing = 0, *bytes = room != NULL ? (uint8_t *)room : &nothing;
    size_t bound = room != NULL ? size : 0;
    uint32_t status;
    if (!are_there(first, second)) {
        return SFQ_NO_GEOMETRY;
    }
    if (first->kept == second->kept) {
        status = sfq_proved_why_itself(taken(first), bytes, bound, length, &one);
        two = one;
    } else {
        status = sfq_proved_why(taken(first), taken(second), bytes, bound, length, &one, &two);
    }
    first->kept = one.at;
    second->kept = two.at;
    return (int)status;
}

int sfq_reason(const char *text, size_t text_length, char *room, size_t size, size_t *length, sfq_fault *fault)
{
    uint8_t nothing = 0, *bytes = room != NULL ? (uint8_t *)room : &nothing;
    sfq_fault other = { 0, 0, 0, 0 };
    return (int)sfq_proved_reason(bytes_of(text), count_of(text, text_length), bytes, count_of(room, size), length,
                                  written(fault, &other));
}
