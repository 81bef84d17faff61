/*
 * Calls over geometries that are kept, for calls.c. Each is a line of words with tabs between:
 *
 *     kept FIRST SECOND            prints the status, the matrix and a digit for each relation, or the fault
 *     match FIRST SECOND PATTERN   prints the status, and whether the matrix matches
 *     seen TEXT                    prints the status, the dimension, whether it is empty, the envelope, and the canonical text
 *     place TEXT X Y               prints the status, and the number of the place
 *     array TYPE X.. L..;P..       reads from positions, and prints as `seen` does: coordinates with blanks between, the sizes of lines
 *                                  or rings, and after a semicolon those of polygons
 *     without                      prints the statuses of calls that have no geometry, or one too many
 *
 * Of two texts that are the same one geometry is read, and handed in twice. A call whose memory was refused is made again, since
 * what it was handed has to be as it was: what is printed then begins with `3 `.
 */
#define _GNU_SOURCE
#include "kept.h"

#include <pthread.h>
#include <stdarg.h>
#include <stdio.h>
#include <stdlib.h>
#include <string.h>
#include <sys/mman.h>

/* One call of the list: its geometries, and what was found. */
struct one_call {
    sfq_geometry first, second;
    sfq_geometry *other;
    bool was_refused;
    const char *wrong;
    struct printed out;
};

static const char before[10] = "unchanged";

static void add(struct one_call *it, const char *form, ...)
{
    size_t used = strlen(it->out.text);
    va_list values;
    va_start(values, form);
    vsnprintf(it->out.text + used, sizeof it->out.text - used, form, values);
    va_end(values);
}

/* Whether a call has to be made again. What it would have written, and what it was handed, has to be as it was. */
static bool again(struct one_call *it, int status, bool is_unchanged)
{
    if (status != SFQ_OK && !is_unchanged)
        it->wrong = "something was written";
    if (status != SFQ_OUT_OF_MEMORY)
        return false;
    it->was_refused = true;
    return true;
}

/* ---- reading ---- */

static int read_one(struct one_call *it, const char *text, sfq_geometry *geometry, sfq_fault *fault)
{
    int status = sfq_read(text, strlen(text), geometry, fault);
    if (again(it, status, geometry->kept == NULL))
        status = sfq_read(text, strlen(text), geometry, fault);
    if ((status == SFQ_OK) != (geometry->kept != NULL))
        it->wrong = "another status than what is kept";
    if (status != SFQ_REFUSED && (fault->letter != '-' || fault->number != 9))
        it->wrong = "the fault was written";
    return status;
}

/* Reads one geometry, or prints its fault. */
static bool reads(struct one_call *it, const char *text, sfq_geometry *geometry, int status_if_refused)
{
    sfq_fault fault = { '-', 9, 7, 8 };
    int status = read_one(it, text, geometry, &fault);
    if (status == SFQ_REFUSED)
        print_fault(&it->out, status_if_refused, &fault);
    else if (status != SFQ_OK)
        add(it, "%d", status);
    return status == SFQ_OK;
}

/* Reads two geometries; the same text once. */
static bool reads_both(struct one_call *it, char *const words[WORDS])
{
    if (!reads(it, words[1], &it->first, SFQ_REFUSED))
        return false;
    it->other = &it->first;
    if (strcmp(words[1], words[2]) == 0)
        return true;
    it->other = &it->second;
    return reads(it, words[2], &it->second, SFQ_SECOND_REFUSED);
}

/* The most numbers of an array. */
#define NUMBERS 24000

/* The numbers of an array, whose room is none of what is refused. */
struct numbers {
    int32_t coordinates[NUMBERS];
    size_t lines[NUMBERS / 2], polygons[NUMBERS / 2];
};

/* The next number of a text, and what is behind it. */
static size_t next_number(const char **text)
{
    char *end;
    size_t found = (*text)[0] == '-' ? (size_t)strtoll(*text, &end, 10) : (size_t)strtoull(*text, &end, 10);
    *text = *end == ' ' ? end + 1 : end;
    return found;
}

/* Reads sizes up to a semicolon or the end, and returns how many there are. */
static size_t read_sizes(const char **text, size_t sizes[NUMBERS / 2])
{
    size_t count = 0;
    while (**text != '\0' && **text != ';' && count < NUMBERS / 2)
        sizes[count++] = next_number(text);
    *text += **text == ';';
    return count;
}

/* Reads one geometry from an array, or prints its fault. Arrays that are empty are null. */
static bool reads_array(struct one_call *it, char *const words[WORDS])
{
    struct numbers *all = mmap(NULL, sizeof *all, PROT_READ | PROT_WRITE, MAP_PRIVATE | MAP_ANONYMOUS, -1, 0);
    sfq_fault fault = { '-', 9, 7, 8 };
    const char *text = words[2], *parts = words[3];
    size_t count = 0, line_count, polygon_count;
    int status;
    if (all == MAP_FAILED)
        return false;
    while (*text != '\0' && count < NUMBERS)
        all->coordinates[count++] = (int32_t)next_number(&text);
    line_count = read_sizes(&parts, all->lines);
    polygon_count = read_sizes(&parts, all->polygons);
    do {
        status = sfq_read_positions((uint32_t)atol(words[1]), count > 0 ? all->coordinates : NULL, count / 2,
                                    line_count > 0 ? all->lines : NULL, line_count, polygon_count > 0 ? all->polygons : NULL,
                                    polygon_count, &it->first, &fault);
    } while (again(it, status, it->first.kept == NULL));
    munmap(all, sizeof *all);
    if (status != SFQ_REFUSED && (fault.letter != '-' || fault.number != 9))
        it->wrong = "the fault was written";
    if (status == SFQ_REFUSED)
        print_fault(&it->out, status, &fault);
    else if (status != SFQ_OK)
        add(it, "%d", status);
    return status == SFQ_OK;
}

/* ---- asking ---- */

static int relate(struct one_call *it, char matrix[10])
{
    int status = sfq_relate(&it->first, it->other, matrix);
    if (again(it, status, memcmp(matrix, before, sizeof before) == 0))
        status = sfq_relate(&it->first, it->other, matrix);
    return status;
}

static int holds(struct one_call *it, uint32_t relation, bool *answer)
{
    int status;
    *answer = true;
    status = sfq_holds(relation, &it->first, it->other, answer);
    if (again(it, status, *answer))
        status = sfq_holds(relation, &it->first, it->other, answer);
    return status;
}

static int matches(struct one_call *it, const char *pattern, bool *answer)
{
    int status;
    *answer = true;
    status = sfq_relate_pattern(&it->first, it->other, pattern, strlen(pattern), answer);
    if (again(it, status, *answer))
        status = sfq_relate_pattern(&it->first, it->other, pattern, strlen(pattern), answer);
    return status;
}

/* The matrices of both pairs at once, which have to be those of single calls; and a call that ends at a pair that isn't there. */
static void compare_many(struct one_call *it, const char *matrix)
{
    sfq_geometry none = SFQ_EMPTY;
    sfq_geometry *first[3] = { &it->first, &it->first, &none }, *second[3] = { it->other, it->other, it->other };
    char found[28];
    size_t done = 9;
    int status;
    memset(found, '#', sizeof found);
    status = sfq_relate_many(first, second, 2, found, &done);
    if (again(it, status, done <= 2 && found[9 * done] == '#'))
        status = sfq_relate_many(first, second, 2, found, &done);
    if (status != SFQ_OK || done != 2 || memcmp(found, matrix, 9) != 0 || memcmp(found + 9, matrix, 9) != 0 || found[18] != '#')
        it->wrong = "the matrices of many";
    status = sfq_relate_many(first, second, 3, found, &done);
    if (again(it, status, done <= 2 && found[18] == '#'))
        status = sfq_relate_many(first, second, 3, found, &done);
    if (status != SFQ_NO_GEOMETRY || done != 2 || found[18] != '#')
        it->wrong = "the matrices up to one that isn't there";
    if (sfq_relate_many(NULL, NULL, 0, NULL, &done) != SFQ_OK || done != 0)
        it->wrong = "no pairs";
}

static void print_relations(struct one_call *it)
{
    char matrix[10], digits[SFQ_RELATIONS + 1] = { 0 };
    bool answer;
    uint32_t i;
    memcpy(matrix, before, sizeof matrix);
    if (relate(it, matrix) != SFQ_OK)
        it->wrong = "no matrix";
    compare_many(it, matrix);
    for (i = 0; i < SFQ_RELATIONS; i++) {
        if (holds(it, i, &answer) != SFQ_OK)
            it->wrong = "no answer to a relation";
        digits[i] = answer ? '1' : '0';
    }
    if (holds(it, SFQ_RELATIONS, &answer) != SFQ_UNKNOWN || holds(it, UINT32_MAX, &answer) != SFQ_UNKNOWN)
        it->wrong = "an unknown relation";
    if (matches(it, matrix, &answer) != SFQ_OK || !answer)
        it->wrong = "the matrix as a pattern doesn't match";
    add(it, "0 %s %s", matrix, digits);
}

static void print_match(struct one_call *it, const char *pattern)
{
    bool answer;
    int status = matches(it, pattern, &answer);
    add(it, status == SFQ_OK ? "%d %d" : "%d", status, answer);
}

static void print_text(struct one_call *it)
{
    char room[400];
    size_t length = 12345, length_again = 12345;
    int status = sfq_text(&it->first, NULL, 0, &length);
    if (again(it, status, length == (status == SFQ_OUT_OF_MEMORY ? 12345 : length)))
        status = sfq_text(&it->first, NULL, 0, &length);
    if (status != SFQ_TOO_SMALL || length == 0 || length >= sizeof room) {
        it->wrong = "no length";
        return;
    }
    memset(room, '#', sizeof room);
    status = sfq_text(&it->first, room, length - 1, &length_again);
    if (again(it, status, memchr(room, '#', sizeof room) == room))
        status = sfq_text(&it->first, room, length - 1, &length_again);
    if (status != SFQ_TOO_SMALL || length_again != length)
        it->wrong = "a room that is too small";
    status = sfq_text(&it->first, room, sizeof room - 1, &length_again);
    if (again(it, status, memchr(room, '#', sizeof room) == room))
        status = sfq_text(&it->first, room, sizeof room - 1, &length_again);
    if (status != SFQ_OK || length_again != length || room[length] != '#' || room[sizeof room - 1] != '#')
        it->wrong = "a room that is large enough";
    add(it, "%.*s", (int)length, room);
}

static void print_seen(struct one_call *it)
{
    uint32_t dimension = 9;
    bool is_empty = false;
    int32_t bounds[4] = { 7, 7, 7, 7 };
    int status;
    if (sfq_dimension(&it->first, &dimension) != SFQ_OK || sfq_is_empty(&it->first, &is_empty) != SFQ_OK)
        it->wrong = "no dimension, or no emptiness";
    add(it, "0 %u %d ", (unsigned)dimension, is_empty);
    status = sfq_envelope(&it->first, bounds);
    if (status == SFQ_OK)
        add(it, "%d %d %d %d ", bounds[0], bounds[1], bounds[2], bounds[3]);
    else if (status == SFQ_NONE && bounds[0] == 7 && bounds[1] == 7 && bounds[2] == 7 && bounds[3] == 7)
        add(it, "none ");
    else
        it->wrong = "the envelope";
    print_text(it);
}

/* The matrix of the point at a position, of which a second one is asked for, has to be that of its text. */
static void compare_points(struct one_call *it, const int32_t twice[4], int located)
{
    sfq_geometry *others[2] = { &it->first, &it->first };
    char found[19], matrix[10], text[40];
    size_t done = 9;
    int status;
    memset(found, '#', sizeof found);
    do {
        status = sfq_relate_points(twice, others, 2, found, &done);
    } while (again(it, status, done < 2 && found[18] == '#'));
    if (status != (located == SFQ_OK ? SFQ_OK : SFQ_REFUSED) || done != (located == SFQ_OK ? 2u : 1u) || found[9 * done] != '#') {
        it->wrong = "the matrices of points";
        return;
    }
    snprintf(text, sizeof text, "POINT(%d %d)", twice[2 * done - 2], twice[2 * done - 1]);
    if (read_one(it, text, &it->second, &(sfq_fault){ '-', 9, 0, 0 }) != SFQ_OK) {
        it->wrong = "a point of text";
        return;
    }
    do {
        status = sfq_relate(&it->second, &it->first, matrix);
    } while (again(it, status, true));
    if (memcmp(found + 9 * (done - 1), matrix, 9) != 0)
        it->wrong = "another matrix of a point";
}

static void print_place(struct one_call *it, const char *x, const char *y)
{
    uint32_t place = 9;
    int status = sfq_locate(&it->first, (int32_t)atol(x), (int32_t)atol(y), &place);
    int32_t twice[4] = { 0, 0, (int32_t)atol(x), (int32_t)atol(y) };
    uint32_t places[2] = { 9, 9 };
    size_t done = 9;
    if (status != SFQ_OK && place != 9)
        it->wrong = "a place was written";
    if (sfq_locate_many(&it->first, twice, 2, places, &done) != status || places[1] != place || done != (status == SFQ_OK ? 2u : 1u))
        it->wrong = "the places of many";
    compare_points(it, twice, status);
    add(it, status == SFQ_OK ? "%d %u" : "%d", status, (unsigned)place);
}

/* Calls that have no geometry, and the last of them one too many. */
static void print_without(struct one_call *it)
{
    char matrix[10];
    bool answer = true;
    size_t length = 5;
    uint32_t number = 5;
    int32_t bounds[4] = { 5, 5, 5, 5 };
    sfq_geometry none = SFQ_EMPTY;
    memcpy(matrix, before, sizeof matrix);
    if (!reads(it, "POINT(1 2)", &it->first, SFQ_REFUSED))
        return;
    add(it, "%d ", sfq_relate(&none, &it->first, matrix));
    add(it, "%d ", sfq_relate(&it->first, &none, matrix));
    add(it, "%d ", sfq_relate(NULL, NULL, matrix));
    add(it, "%d ", sfq_holds(SFQ_EQUALS, &none, &none, &answer));
    add(it, "%d ", sfq_relate_pattern(&it->first, NULL, "*********", 9, &answer));
    add(it, "%d ", sfq_text(&none, NULL, 0, &length));
    add(it, "%d ", sfq_dimension(&none, &number));
    add(it, "%d ", sfq_is_empty(NULL, &answer));
    add(it, "%d ", sfq_envelope(&none, bounds));
    add(it, "%d ", sfq_locate(&none, 0, 0, &number));
    add(it, "%d ", sfq_read("POINT(3 4)", 10, &it->first, NULL));
    add(it, "%d ", sfq_read_positions(SFQ_POINT, bounds, 1, NULL, 0, NULL, 0, &it->first, NULL));
    add(it, "%d", sfq_locate_many(&none, bounds, 2, &number, &length));
    if (memcmp(matrix, before, sizeof matrix) != 0 || !answer || length != 0 || number != 5 || bounds[3] != 5)
        it->wrong = "something was written";
    sfq_free(&none);
    sfq_free(NULL);
}

/* ---- the calls ---- */

bool is_kept_call(char *const words[WORDS])
{
    static const char *const names[] = { "kept", "match", "seen", "place", "array", "without" };
    size_t i;
    for (i = 0; i < sizeof names / sizeof *names; i++)
        if (strcmp(words[0], names[i]) == 0)
            return true;
    return false;
}

struct printed run_kept(char *const words[WORDS])
{
    struct one_call it = { SFQ_EMPTY, SFQ_EMPTY, NULL, false, NULL, { "" } };
    if (strcmp(words[0], "without") == 0) {
        print_without(&it);
    } else if (strcmp(words[0], "array") == 0) {
        if (reads_array(&it, words))
            print_seen(&it);
    } else if (strcmp(words[0], "seen") == 0 || strcmp(words[0], "place") == 0) {
        if (reads(&it, words[1], &it.first, SFQ_REFUSED)) {
            if (words[0][0] == 's')
                print_seen(&it);
            else
                print_place(&it, words[2], words[3]);
        }
    } else if (reads_both(&it, words)) {
        if (words[0][0] == 'k')
            print_relations(&it);
        else
            print_match(&it, words[3]);
    }
    sfq_free(&it.first);
    sfq_free(&it.second);
    sfq_free(&it.second);
    if (it.first.kept != NULL || it.second.kept != NULL)
        it.wrong = "a geometry isn't empty after it was freed";
    return printed_of(it.wrong, it.was_refused, &it.out);
}

/* ---- from one thread to another ---- */

static void *use(void *geometry)
{
    char matrix[10] = "";
    sfq_geometry other = SFQ_EMPTY;
    bool is_right = sfq_read("POINT(1 1)", 10, &other, NULL) == SFQ_OK && sfq_relate(&other, geometry, matrix) == SFQ_OK
        && strcmp(matrix, "0FFFFF212") == 0 && sfq_relate(geometry, geometry, matrix) == SFQ_OK
        && strcmp(matrix, "2FFF1FFF2") == 0;
    sfq_free(&other);
    return is_right ? geometry : NULL;
}

int hand_over(void)
{
    static const char square[] = "POLYGON((0 0,4 0,4 4,0 4,0 0))";
    sfq_geometry kept[4] = { SFQ_EMPTY, SFQ_EMPTY, SFQ_EMPTY, SFQ_EMPTY };
    pthread_t threads[4];
    int wrong = 0, i;
    for (i = 0; i < 4; i++)
        if (sfq_read(square, sizeof square - 1, &kept[i], NULL) != SFQ_OK
            || pthread_create(&threads[i], NULL, use, &kept[i]) != 0)
            return 1;
    for (i = 0; i < 4; i++) {
        void *used = NULL;
        pthread_join(threads[i], &used);
        wrong += used == NULL || use(&kept[i]) == NULL;
        sfq_free(&kept[i]);
    }
    return wrong;
}
