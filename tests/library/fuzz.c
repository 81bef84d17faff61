/*
 * Hands bytes and numbers by chance to the calls of the C library, for tests/test_library.py:
 *
 *     fuzz SEED COUNT
 *     fuzz SEED SECONDSs
 *
 * makes COUNT texts, patterns and arrays each, and an eighth as many indexes. A status has to be one of its call's, and the place of a
 * fault within the text. Prints what isn't so, and ends with status 1 then.
 */
#define _GNU_SOURCE
#include "chance.h"

/* ---- texts ---- */

static const char *const texts[] = {
    "POINT(1 -2)", "multipoint ((1 2),3 4)", "LINESTRING EMPTY", "LINESTRING(0 0,4.0 0,-1 +7)",
    "MULTILINESTRING((0 0,1 1),(5 5,5 6))", "POLYGON((0 0,8 0,8 8,0 8,0 0),(2 2,6 2,6 6,2 6,2 2))",
    "MULTIPOLYGON(((0 0,1 0,1 1,0 0)),((2 2,10000000 2,3 9,2 2)))", "POINT(10000001 00)", "",
};

static size_t draw_text(char *to)
{
    static const char bytes[] = "0123456789-+.,() \t\nEMPTYpointlsrg\0\377Z";
    const char *from = texts[chance(sizeof texts / sizeof *texts)];
    size_t length = strlen(from);
    unsigned turns = chance(4);
    memcpy(to, from, length);
    while (turns-- > 0) {
        size_t at = length > 0 ? chance((unsigned)length) : 0;
        char byte = bytes[chance(sizeof bytes - 1)];
        switch (chance(4)) {
        case 0: /* another byte */
            if (length > 0)
                to[at] = byte;
            break;
        case 1: /* one more */
            memmove(to + at + 1, to + at, length - at);
            to[at] = byte;
            length++;
            break;
        case 2: /* one less */
            if (length > 0) {
                memmove(to + at, to + at + 1, length - at - 1);
                length--;
            }
            break;
        default: /* cut off */
            length = at;
        }
    }
    return length;
}

static void try_text(struct room *room)
{
    char drawn[400];
    size_t length = draw_text(drawn);
    const char *text = put(room, drawn, length);
    sfq_fault fault = { 'x', 0, 0, 0 }, other = { 'x', 0, 0, 0 };
    sfq_geometry read = SFQ_EMPTY;
    int status = sfq_read(text, length, &read, &fault);
    need(status == sfq_check(text, length, &other) && memcmp(&fault, &other, 2) == 0 && fault.first == other.first
             && fault.second == other.second,
         "another fault", drawn, length);
    if (status == SFQ_OK) {
        compare(&read);
    } else {
        need(status == SFQ_REFUSED && read.kept == NULL, "another status", drawn, length);
        need(fault.letter == 'V' ? fault.number >= 1 && fault.number <= 8 : fault.letter == 'W' && fault.number >= 1 && fault.number <= 4,
             "an unknown fault", drawn, length);
        need(fault.letter == 'V' || fault.first <= length, "a place past the end", drawn, length);
    }
    sfq_free(&read);
}

/* ---- patterns ---- */

static void try_pattern(struct room *room, sfq_geometry *kept)
{
    static const char bytes[] = "TF*012tf3 ";
    char drawn[12];
    size_t length = chance(8) == 0 ? chance(12) : 9, i;
    bool is_pattern = length == 9, answer = false;
    for (i = 0; i < length; i++) {
        drawn[i] = bytes[chance(chance(20) == 0 ? 10 : 8)];
        is_pattern = is_pattern && drawn[i] != '3' && drawn[i] != ' ';
    }
    need(sfq_relate_pattern(kept, kept, put(room, drawn, length), length, &answer) == (is_pattern ? SFQ_OK : SFQ_UNKNOWN), "a pattern",
         drawn, length);
}

/* ---- arrays ---- */

/* Lines or rings of these sizes, or of others now and then. */
static size_t draw_sizes(size_t left, size_t *sizes)
{
    size_t count = 0;
    while (left > 0 && count < 8) {
        size_t size = chance(3) == 0 || left < 4 ? left : 1 + chance((unsigned)left);
        sizes[count++] = size;
        left -= size;
    }
    if (chance(10) == 0 && count < 8)
        sizes[count++] = chance(2) == 0 ? 0 : SIZE_MAX - chance(3);
    return count;
}

static void try_array(struct room *positions, struct room *lines, struct room *polygons)
{
    static const int32_t corners[][2] = { { 0, 0 }, { 9, 0 }, { 9, 9 }, { 0, 9 } };
    int32_t drawn[48];
    size_t sizes[8], counts[8], count = chance(24), line_count = 0, polygon_count = 0, i;
    uint32_t type = chance(8);
    sfq_geometry read = SFQ_EMPTY;
    sfq_fault fault = { 'x', 0, 0, 0 };
    int status;
    for (i = 0; i < count; i++) {
        /* Squares beside one another, which are closed where five positions are a part. */
        int32_t by = chance(12) == 0 ? (int32_t)chance(20) : 0, beside = (int32_t)(20 * (i / 5));
        drawn[2 * i] = corners[i % 5 % 4][0] + by + beside;
        drawn[2 * i + 1] = corners[i % 5 % 4][1] + by;
    }
    if (chance(10) == 0 && count > 0)
        drawn[chance((unsigned)(2 * count))] = chance(2) == 0 ? INT32_MIN : 10000001;
    if (type == SFQ_MULTILINESTRING || type == SFQ_POLYGON || type == SFQ_MULTIPOLYGON || chance(20) == 0) {
        if (chance(2) == 0 && count % 5 == 0) {
            for (line_count = 0; line_count < count / 5; line_count++)
                sizes[line_count] = 5;
        } else {
            line_count = draw_sizes(count, sizes);
        }
    }
    if (type == SFQ_MULTIPOLYGON || chance(20) == 0) {
        polygon_count = chance(2) == 0 ? draw_sizes(line_count, counts) : line_count;
        for (i = 0; polygon_count == line_count && i < line_count; i++)
            counts[i] = 1;
    }
    status = sfq_read_positions(type, put(positions, drawn, count * 8), count, put(lines, sizes, line_count * sizeof *sizes), line_count,
                                put(polygons, counts, polygon_count * sizeof *counts), polygon_count, &read, &fault);
    need(status == SFQ_OK || status == SFQ_REFUSED || status == SFQ_UNKNOWN, "another status of an array", "", 0);
    need((status == SFQ_OK) == (read.kept != NULL), "a geometry", "", 0);
    need((status == SFQ_REFUSED) == (fault.letter != 'x'), "a fault", "", 0);
    if (status == SFQ_OK)
        compare(&read);
    sfq_free(&read);
}

/* ---- indexes ---- */

/* Whether an envelope by its bounds meets a window, or both are of empty geometries. */
static bool meet(const int32_t one[4], const int32_t other[4])
{
    bool no_one = one[0] > one[1], no_other = other[0] > other[1];
    if (no_one || no_other)
        return no_one && no_other;
    return one[0] <= other[1] && other[0] <= one[1] && one[2] <= other[3] && other[2] <= one[3];
}

/* Bounds of a small or a large envelope, seldom of an empty geometry, and more seldom none. */
static void draw_bounds(int32_t bounds[4])
{
    static const int32_t none[4] = SFQ_NO_BOUNDS;
    int32_t limit = chance(9) == 0 ? 10000000 : 30;
    int i;
    if (chance(20) == 0) {
        memcpy(bounds, none, sizeof none);
        return;
    }
    for (i = 0; i < 2; i++) {
        bounds[2 * i] = (int32_t)chance((unsigned)limit) - limit / 2;
        bounds[2 * i + 1] = bounds[2 * i] + (int32_t)chance((unsigned)limit / 3);
    }
    if (chance(500) == 0)
        bounds[chance(4)] = chance(2) == 0 ? 10000001 : INT32_MIN;
}

/* What a search finds has to be what a look at each envelope finds. */
static void try_index(struct room *first, struct room *second)
{
    int32_t bounds[PAGE / 4], window[4];
    size_t count = chance(PAGE / 16), found[PAGE / 16], many = 999, at = 999, i, next = 0;
    sfq_index index = SFQ_EMPTY;
    int status;
    for (i = 0; i < count; i++)
        draw_bounds(bounds + 4 * i);
    draw_bounds(window);
    status = sfq_index_build(put(first, bounds, count * 16), count, &index, &at);
    need(status == SFQ_OK || (status == SFQ_UNKNOWN && at < count), "another status of an index", "", 0);
    need((status == SFQ_OK) == (at == 999), "a position", "", 0);
    if (status == SFQ_OK) {
        status = sfq_index_search(&index, put(second, window, sizeof window), found, count, &many);
        need(status == SFQ_OK || status == SFQ_UNKNOWN, "another status of a search", "", 0);
        for (i = 0; status == SFQ_OK && i < count; i++)
            if (meet(bounds + 4 * i, window))
                need(next < many && found[next++] == i, "another position", "", 0);
        need(status != SFQ_OK || next == many, "a position too many", "", 0);
    }
    sfq_index_free(&index);
}

int main(int number, char **words)
{
    struct room first = make_room(), second = make_room(), third = make_room();
    sfq_geometry kept = SFQ_EMPTY;
    long turns;
    if (number != 3)
        return 2;
    begin(words[1]);
    if (sfq_read(texts[5], strlen(texts[5]), &kept, NULL) != SFQ_OK)
        return 2;
    for (turns = 0; goes_on(words[2], turns) && !wrong; turns++) {
        try_text(&first);
        try_pattern(&first, &kept);
        try_array(&first, &second, &third);
        if (turns % 8 == 0)
            try_index(&first, &second);
    }
    sfq_free(&kept);
    return wrong;
}
