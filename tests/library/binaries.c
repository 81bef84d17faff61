/*
 * Calls over well-known binary, and joins, for calls.c. Each is a line of words with tabs between:
 *
 *     binary GRID HEX          prints the status; then the fault, or the number of the system, what rounding did and the canonical text
 *     extent HEX,HEX           prints the status, and where the coordinates of both values go from and to
 *     apart GRID HEX           prints the status; then the fault, or the type, the positions, the sizes of lines and of elements, and the steps
 *     round GRID HEX           prints the status; then the steps of the doubles whose bytes HEX has, or which position has none
 *     join RELATION A;.. B;..  prints the status, and the pairs of the texts of A and of B, by their places
 *     near RELATION A;.. X,Y;..  does so for the texts of A and points that aren't kept
 *
 * GRID has the four numbers of an sfq_grid with blanks between, or is empty. HEX has the bytes. Among the texts an empty one is a
 * geometry that is missing. A call whose memory was refused is made again, as in kept.c.
 */
#include "kept.h"

#include <stdarg.h>
#include <stdio.h>
#include <stdlib.h>
#include <string.h>

/* The most bytes of a value, and the most geometries of a side. */
#define BYTES 1000
#define SIDE 20

/* One call of the list. */
struct one_call {
    bool was_refused;
    const char *wrong;
    struct printed out;
};

/* Whether a call has to be made again. */
static bool again(struct one_call *it, int status)
{
    it->was_refused = it->was_refused || status == SFQ_OUT_OF_MEMORY;
    return status == SFQ_OUT_OF_MEMORY;
}

/* ---- binaries ---- */

static size_t read_bytes(const char *hex, unsigned char *bytes)
{
    size_t count = 0;
    unsigned value;
    while (count < BYTES && sscanf(hex + 2 * count, "%2x", &value) == 1)
        bytes[count++] = (unsigned char)value;
    return count;
}

static const sfq_grid *read_grid(const char *text, sfq_grid *grid)
{
    long long numbers[4];
    if (sscanf(text, "%lld %lld %lld %lld", &numbers[0], &numbers[1], &numbers[2], &numbers[3]) != 4)
        return NULL;
    grid->step = numbers[0];
    grid->origin_x = numbers[1];
    grid->origin_y = numbers[2];
    grid->parts = numbers[3];
    return grid;
}

/* The same value twice among many, with one of no bytes between, has the same status and text each time. */
static void compare_many(struct one_call *it, const sfq_grid *grid, const unsigned char *bytes, size_t length, int wanted)
{
    unsigned char both[2 * BYTES];
    sfq_geometry many[3] = { SFQ_EMPTY, SFQ_EMPTY, SFQ_EMPTY };
    sfq_fault faults[3];
    uint32_t statuses[3] = { 99, 99, 99 };
    size_t lengths[3], done = 99, i;
    bool same;
    int status;
    lengths[0] = lengths[2] = length;
    lengths[1] = 0;
    memcpy(both, bytes, length);
    memcpy(both + length, bytes, length);
    status = sfq_read_binaries(grid, both, lengths, 3, many, statuses, faults, NULL, &done);
    if (again(it, status)) {
        for (i = done; i < 3; i++)
            if (many[i].kept != NULL || statuses[i] != 99)
                it->wrong = "one of many was written";
        sfq_free_many(many, 3);
        status = sfq_read_binaries(grid, both, lengths, 3, many, statuses, faults, NULL, &done);
    }
    if (status == SFQ_UNKNOWN ? wanted != status || done != 0 : status != SFQ_OK || done != 3)
        it->wrong = "another status of many";
    if (status == SFQ_OK && ((int)statuses[0] != (length > 0 ? wanted : SFQ_NONE) || statuses[1] != SFQ_NONE || statuses[2] != statuses[0]))
        it->wrong = "another status of one of many";
    same = many[0].kept == NULL && many[2].kept == NULL;
    if (many[0].kept != NULL && again(it, sfq_holds(SFQ_EQUALS, &many[0], &many[2], &same)))
        sfq_holds(SFQ_EQUALS, &many[0], &many[2], &same);
    if (!same)
        it->wrong = "another geometry of many";
    sfq_free_many(many, 3);
}

static void print_read(struct one_call *it, sfq_geometry *geometry, int32_t system, const sfq_shift *shift)
{
    char text[400];
    size_t length = 0;
    if (again(it, sfq_text(geometry, text, sizeof text, &length)))
        sfq_text(geometry, text, sizeof text, &length);
    snprintf(it->out.text, sizeof it->out.text, "0 %ld %zu %zu %zu %.6g %.*s", (long)system, shift->positions, shift->moved,
             shift->merged, shift->greatest, (int)length, text);
}

/* What is written of a geometry is read again, on the same grid, as the same. */
static void compare_written(struct one_call *it, const sfq_grid *grid, sfq_geometry *geometry)
{
    unsigned char bytes[2 * BYTES];
    sfq_geometry other = SFQ_EMPTY;
    size_t length = 0, wanted = 0;
    bool same = false;
    if (again(it, sfq_write_binary(geometry, grid, NULL, 0, &wanted)) && sfq_write_binary(geometry, grid, NULL, 0, &wanted) != SFQ_TOO_SMALL)
        it->wrong = "no length of bytes";
    if (again(it, sfq_write_binary(geometry, grid, bytes, sizeof bytes, &length)))
        sfq_write_binary(geometry, grid, bytes, sizeof bytes, &length);
    if (length != wanted)
        it->wrong = "another length of bytes";
    if (again(it, sfq_read_binary(grid, bytes, length, &other, NULL, NULL, NULL)))
        sfq_read_binary(grid, bytes, length, &other, NULL, NULL, NULL);
    if (other.kept != NULL && again(it, sfq_holds(SFQ_EQUALS, geometry, &other, &same)))
        sfq_holds(SFQ_EQUALS, geometry, &other, &same);
    if (!same)
        it->wrong = "another geometry is read of the bytes";
    sfq_free(&other);
}

static void run_one_binary(struct one_call *it, const char *of_grid, const char *hex)
{
    unsigned char bytes[BYTES];
    sfq_grid grid;
    const sfq_grid *used = read_grid(of_grid, &grid);
    size_t length = read_bytes(hex, bytes);
    sfq_geometry geometry = SFQ_EMPTY;
    sfq_shift shift = { 0, 0, 0, 0 };
    sfq_fault fault = { '-', 9, 7, 8 };
    int32_t system = 12345;
    int status = sfq_read_binary(used, bytes, length, &geometry, &system, &shift, &fault);
    if (again(it, status))
        status = sfq_read_binary(used, bytes, length, &geometry, &system, &shift, &fault);
    if ((status == SFQ_OK) != (geometry.kept != NULL) || (status == SFQ_REFUSED) != (fault.letter != '-')
        || (status != SFQ_OK && (system != 12345 || shift.positions != 0)))
        it->wrong = "another status than what was written";
    if (status == SFQ_OK) {
        print_read(it, &geometry, system, &shift);
        compare_written(it, used, &geometry);
        if (sfq_read_binary(used, bytes, length, &geometry, NULL, NULL, NULL) == SFQ_OK)
            it->wrong = "a geometry was read into one that is there";
    } else if (status == SFQ_REFUSED) {
        print_fault(&it->out, status, &fault);
    } else {
        snprintf(it->out.text, sizeof it->out.text, "%d", status);
    }
    compare_many(it, used, bytes, length, status);
    sfq_free(&geometry);
}

static void run_extent(struct one_call *it, const char *hex)
{
    unsigned char bytes[2 * BYTES];
    size_t lengths[2];
    double extent[4] = { 7, 7, 7, 7 };
    const char *second = strchr(hex, ',');
    int status;
    lengths[0] = read_bytes(hex, bytes);
    lengths[1] = second != NULL ? read_bytes(second + 1, bytes + lengths[0]) : 0;
    status = sfq_binaries_extent(bytes, lengths, 2, extent);
    if (status != SFQ_OK && (extent[0] != 7 || extent[3] != 7))
        it->wrong = "an extent was written";
    if (again(it, status))
        status = sfq_binaries_extent(bytes, lengths, 2, extent);
    snprintf(it->out.text, sizeof it->out.text, "%d", status);
    if (status == SFQ_OK)
        snprintf(it->out.text, sizeof it->out.text, "0 %.9g %.9g %.9g %.9g", extent[0], extent[1], extent[2], extent[3]);
}

/* Adds words to what is printed. */
static void add(struct one_call *it, const char *format, ...)
{
    size_t used = strlen(it->out.text);
    va_list words;
    va_start(words, format);
    vsnprintf(it->out.text + used, sizeof it->out.text - used, format, words);
    va_end(words);
}

static void print_apart(struct one_call *it, const sfq_pieces *pieces, int status)
{
    size_t i;
    add(it, "%d %lu;", status, (unsigned long)pieces->type);
    for (i = 0; i < 2 * pieces->positions; i++)
        add(it, " %.9g", pieces->coordinates[i]);
    add(it, ";");
    for (i = 0; i < pieces->line_count; i++)
        add(it, " %zu", pieces->lines[i]);
    add(it, ";");
    for (i = 0; i < pieces->element_count; i++)
        add(it, " %zu", pieces->elements[i]);
    add(it, ";");
    for (i = 0; status == SFQ_OK && i < 2 * pieces->positions; i++)
        add(it, " %ld", (long)pieces->steps[i]);
}

/* Takes a value apart without rooms first, to learn how large they have to be. */
static void run_apart(struct one_call *it, const char *of_grid, const char *hex)
{
    unsigned char bytes[BYTES];
    double coordinates[2 * SIDE];
    int32_t steps[2 * SIDE];
    size_t lines[SIDE], elements[SIDE], length = read_bytes(hex, bytes);
    sfq_pieces none = { NULL, NULL, NULL, 0, 0, 0, 99, 99, 99, 99, NULL };
    sfq_pieces pieces = { coordinates, lines, elements, SIDE, SIDE, SIDE, 99, 99, 99, 99, steps };
    sfq_fault fault = { '-', 9, 7, 8 };
    sfq_grid grid;
    const sfq_grid *used = read_grid(of_grid, &grid);
    int without = sfq_take_apart(used, bytes, length, &none, NULL), status;
    if (again(it, without))
        without = sfq_take_apart(used, bytes, length, &none, NULL);
    status = sfq_take_apart(used, bytes, length, &pieces, &fault);
    if (again(it, status)) {
        if (pieces.type != 99)
            it->wrong = "pieces were written";
        status = sfq_take_apart(used, bytes, length, &pieces, &fault);
    }
    if (without == SFQ_TOO_SMALL ? none.positions != pieces.positions || none.line_count != pieces.line_count
                                       || none.element_count != pieces.element_count || none.type != pieces.type
                                 : without != status && without != SFQ_OK)
        it->wrong = "other sizes without rooms";
    if (status == SFQ_REFUSED)
        print_fault(&it->out, status, &fault);
    else if (status == SFQ_UNKNOWN)
        add(it, "%d %lu", status, (unsigned long)pieces.type);
    else
        print_apart(it, &pieces, status);
}

static void run_round(struct one_call *it, const char *of_grid, const char *hex)
{
    double coordinates[2 * SIDE];
    unsigned char bytes[BYTES];
    int32_t steps[2 * SIDE];
    sfq_grid grid;
    const sfq_grid *used = read_grid(of_grid, &grid);
    size_t count = read_bytes(hex, bytes) / 16, position = 99, i;
    int status;
    memcpy(coordinates, bytes, 16 * count);
    memset(steps, 0x55, sizeof steps);
    status = sfq_round(used, coordinates, count, steps, &position);
    if (again(it, status))
        status = sfq_round(used, coordinates, count, steps, &position);
    if ((status != SFQ_OK && steps[0] != 0x55555555) || (status != SFQ_REFUSED && position != 99))
        it->wrong = "steps or a position were written";
    add(it, "%d", status);
    if (status == SFQ_REFUSED)
        add(it, " %zu", position);
    for (i = 0; status == SFQ_OK && i < 2 * count; i++)
        add(it, " %ld", (long)steps[i]);
}

/* ---- joins ---- */

/* Reads texts with semicolons between, an empty one as a geometry that is missing. Returns how many there are. */
static size_t read_side(struct one_call *it, const char *texts, sfq_geometry *side)
{
    size_t count = 0;
    while (count < SIDE && *texts != '\0') {
        size_t length = strcspn(texts, ";");
        if (length > 0 && again(it, sfq_read(texts, length, &side[count], NULL)))
            sfq_read(texts, length, &side[count], NULL);
        if ((length > 0) != (side[count].kept != NULL))
            it->wrong = "a text isn't read";
        texts += length + (texts[length] == ';');
        count++;
    }
    return count;
}

/* The second side of a join: geometries, or the coordinates of points that aren't kept. */
struct side {
    sfq_geometry *geometries;
    const int32_t *coordinates;
    size_t count;
};

static int index_side(const struct side *it, sfq_index *index)
{
    if (it->coordinates != NULL)
        return sfq_index_points(it->coordinates, it->count, index, NULL);
    return sfq_index_geometries(it->geometries, it->count, index);
}

static int join(uint32_t relation, sfq_geometry *first, size_t *next, size_t end, const struct side *second, sfq_index *index, size_t *room,
                size_t size, size_t *pairs)
{
    if (second->coordinates != NULL)
        return sfq_join_points(relation, first, next, end, second->coordinates, index, room, size, pairs);
    return sfq_join(relation, first, next, end, second->geometries, second->count, index, room, size, pairs);
}

/* Joins, at most three geometries of the first side at a time, and prints the pairs. */
static void print_pairs(struct one_call *it, uint32_t relation, sfq_geometry *first, size_t count, const struct side *second)
{
    sfq_index index = SFQ_EMPTY;
    size_t room[4 * SIDE], next = 0, pairs = 7, used = 1, i;
    int status = index_side(second, &index);
    if (again(it, status))
        status = index_side(second, &index);
    it->out.text[0] = '0';
    while (status == SFQ_OK && next < count) {
        size_t before = next;
        status = join(relation, first, &next, next + 3 < count ? next + 3 : count, second, &index, room, 2 * SIDE, &pairs);
        if (again(it, status) && (status = SFQ_OK, next != before))
            it->wrong = "a join that failed went on";
        else
            for (i = 0; status == SFQ_OK && next != before && i < pairs; i++)
                used += (size_t)snprintf(it->out.text + used, sizeof it->out.text - used, " %zu:%zu", room[2 * i], room[2 * i + 1]);
    }
    if (status != SFQ_OK)
        snprintf(it->out.text, sizeof it->out.text, "%d", status);
    next = 0;
    if (count > 0 && first[0].kept != NULL && join(relation, first, &next, 1, second, NULL, room, SIDE, &pairs) == SFQ_OK)
        it->wrong = "a join without an index";
    sfq_index_free(&index);
}

/* Reads an x and a y of each point, with semicolons between. Returns how many there are. */
static size_t read_points(const char *text, int32_t *coordinates)
{
    size_t count = 0;
    while (count < SIDE && *text != '\0') {
        char *behind;
        coordinates[2 * count] = (int32_t)strtol(text, &behind, 10);
        coordinates[2 * count + 1] = (int32_t)strtol(behind + 1, &behind, 10);
        text = behind + (*behind == ';');
        count++;
    }
    return count;
}

static void run_one_join(struct one_call *it, char *const words[WORDS])
{
    sfq_geometry sides[2][SIDE];
    int32_t coordinates[2 * SIDE];
    size_t count;
    struct side second = { sides[1], NULL, 0 };
    memset(sides, 0, sizeof sides);
    count = read_side(it, words[2], sides[0]);
    if (strcmp(words[0], "join") == 0) {
        second.count = read_side(it, words[3], sides[1]);
    } else {
        second.coordinates = coordinates;
        second.count = read_points(words[3], coordinates);
    }
    print_pairs(it, (uint32_t)strtoul(words[1], NULL, 10), sides[0], count, &second);
    sfq_free_many(sides[0], SIDE);
    sfq_free_many(sides[1], SIDE);
}

bool is_binary_call(char *const words[WORDS])
{
    return strcmp(words[0], "binary") == 0 || strcmp(words[0], "extent") == 0 || strcmp(words[0], "apart") == 0
           || strcmp(words[0], "round") == 0 || strcmp(words[0], "join") == 0 || strcmp(words[0], "near") == 0;
}

struct printed run_binary(char *const words[WORDS])
{
    struct one_call it = { false, NULL, { "" } };
    if (strcmp(words[0], "join") == 0 || strcmp(words[0], "near") == 0)
        run_one_join(&it, words);
    else if (strcmp(words[0], "extent") == 0)
        run_extent(&it, words[1]);
    else if (strcmp(words[0], "apart") == 0)
        run_apart(&it, words[1], words[2]);
    else if (strcmp(words[0], "round") == 0)
        run_round(&it, words[1], words[2]);
    else
        run_one_binary(&it, words[1], words[2]);
    return printed_of(it.wrong, it.was_refused, &it.out);
}
