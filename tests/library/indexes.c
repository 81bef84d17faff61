/*
 * Calls over indexes of envelopes, for calls.c. Each is a line of words with tabs between:
 *
 *     index BOUNDS WINDOW   prints the status, and the positions that are found; or 4, and the position of the envelope that is
 *                           refused; or 4 alone, where the window is
 *
 * BOUNDS has four numbers for each envelope, with blanks between, and WINDOW four. A call whose memory was refused is made again, as
 * in kept.c.
 */
#include "kept.h"

#include <stdio.h>
#include <stdlib.h>
#include <string.h>

/* The most envelopes of an index. */
#define ENVELOPES 200

/* One call of the list. */
struct one_call {
    sfq_index index;
    bool was_refused;
    const char *wrong;
    struct printed out;
};

/* Reads numbers with blanks between, and returns how many there are. */
static size_t read_numbers(const char *text, int32_t *numbers, size_t most)
{
    size_t count = 0;
    char *end = (char *)text;
    while (*end != '\0' && count < most)
        numbers[count++] = (int32_t)strtol(end, &end, 10);
    return count;
}

/* Makes the index, and again where memory was refused. */
static bool builds(struct one_call *it, const int32_t *bounds, size_t count)
{
    size_t position = 12345;
    int status = sfq_index_build(count > 0 ? bounds : NULL, count, &it->index, &position);
    if (status == SFQ_OUT_OF_MEMORY) {
        it->was_refused = true;
        if (it->index.kept != NULL || position != 12345)
            it->wrong = "something was written";
        status = sfq_index_build(bounds, count, &it->index, &position);
    }
    if ((status == SFQ_OK) != (it->index.kept != NULL) || (status == SFQ_UNKNOWN) != (position != 12345))
        it->wrong = "another status than what was written";
    if (status == SFQ_UNKNOWN) {
        if (sfq_index_build(bounds, count, &it->index, NULL) == SFQ_OK)
            it->wrong = "another status without a position";
        snprintf(it->out.text, sizeof it->out.text, "4 %zu", position);
    }
    return status == SFQ_OK;
}

/* Searches, and again where memory was refused. Unless that is done, the room is as it was, and the index serves the next call. */
static int search(struct one_call *it, const int32_t window[4], size_t *room, size_t size, size_t *count)
{
    size_t before = *count, i;
    int status = sfq_index_search(&it->index, window, room, size, count);
    if (status != SFQ_OK)
        for (i = 0; i < size; i++)
            if (room[i] != 999)
                it->wrong = "the room was written";
    if (status != SFQ_OK && status != SFQ_TOO_SMALL && *count != before)
        it->wrong = "the count was written";
    if (status != SFQ_OUT_OF_MEMORY)
        return status;
    it->was_refused = true;
    return sfq_index_search(&it->index, window, room, size, count);
}

/* Asks for the count, with too little room, and with enough, and prints the positions. */
static void print_found(struct one_call *it, const int32_t window[4])
{
    size_t room[ENVELOPES + 1], count = 12345, again = 12345, i, used = 1;
    int status = search(it, window, NULL, 0, &count);
    for (i = 0; i <= ENVELOPES; i++)
        room[i] = 999;
    if (status == SFQ_UNKNOWN) {
        snprintf(it->out.text, sizeof it->out.text, "4");
        return;
    }
    if (count > ENVELOPES || status != (count > 0 ? SFQ_TOO_SMALL : SFQ_OK)) {
        it->wrong = "no count";
        return;
    }
    if (count > 0 && (search(it, window, room, count - 1, &again) != SFQ_TOO_SMALL || again != count))
        it->wrong = "a room that is too small";
    if (search(it, window, room, ENVELOPES, &again) != SFQ_OK || again != count || room[count] != 999)
        it->wrong = "a room that is large enough";
    it->out.text[0] = '0';
    for (i = 0; i < count; i++)
        used += (size_t)snprintf(it->out.text + used, sizeof it->out.text - used, " %zu", room[i]);
}

/* Calls without an index, with one too many, and without a window. */
static void try_without(struct one_call *it)
{
    static const int32_t one[4] = { 0, 1, 0, 1 };
    sfq_index none = SFQ_EMPTY;
    size_t count = 5;
    if (sfq_index_search(&none, one, NULL, 0, &count) != SFQ_NO_GEOMETRY || sfq_index_search(NULL, one, NULL, 0, &count) != SFQ_NO_GEOMETRY
        || sfq_index_search(&it->index, NULL, NULL, 0, &count) != SFQ_UNKNOWN
        || sfq_index_build(one, 1, &it->index, NULL) != SFQ_NO_GEOMETRY || count != 5)
        it->wrong = "no index, or one too many";
    sfq_index_free(&none);
    sfq_index_free(NULL);
}

bool is_index_call(char *const words[WORDS])
{
    return strcmp(words[0], "index") == 0;
}

struct printed run_index(char *const words[WORDS])
{
    struct one_call it = { SFQ_EMPTY, false, NULL, { "" } };
    int32_t bounds[4 * ENVELOPES], window[4] = { 0 };
    size_t count = read_numbers(words[1], bounds, 4 * ENVELOPES);
    if (read_numbers(words[2], window, 4) != 4 || count % 4 != 0)
        it.wrong = "no four numbers";
    if (builds(&it, bounds, count / 4)) {
        try_without(&it);
        print_found(&it, window);
    }
    sfq_index_free(&it.index);
    sfq_index_free(&it.index);
    if (it.index.kept != NULL)
        it.wrong = "an index isn't empty after it was freed";
    return printed_of(it.wrong, it.was_refused, &it.out);
}
