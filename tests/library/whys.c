/*
 * Calls that say why, for calls.c. Each is a line of words with tabs between:
 *
 *     why FIRST SECOND   prints the status, and the nine lines with a stroke for each line feed, or the fault
 *     reason TEXT        prints the status, and the line, or the fault
 *
 * Of two texts that are the same one geometry is read, and handed in twice. A call whose memory was refused is made again, as in
 * kept.c.
 */
#include "kept.h"

#include <stdio.h>
#include <string.h>

/* One call of the list. */
struct one_call {
    char *const *words;
    sfq_geometry first, second;
    bool was_refused;
    const char *wrong;
    struct printed out;
};

/* Makes the call once, with this room. */
static int ask(struct one_call *it, char *room, size_t size, size_t *length, sfq_fault *fault)
{
    sfq_geometry *other = strcmp(it->words[1], it->words[2]) == 0 ? &it->first : &it->second;
    if (it->words[0][0] == 'r')
        return sfq_reason(it->words[1], strlen(it->words[1]), room, size, length, fault);
    return sfq_why(&it->first, other, room, size, length);
}

/* Makes the call, and again where memory was refused. Unless it is done, nothing is written but the length. */
static int ask_twice(struct one_call *it, char *room, size_t size, size_t *length, sfq_fault *fault)
{
    size_t before = *length;
    int status = ask(it, room, size, length, fault);
    if ((status == SFQ_OUT_OF_MEMORY || status == SFQ_REFUSED) && *length != before)
        it->wrong = "the length was written";
    if (status != SFQ_OK && room != NULL && memchr(room, '#', size) != room)
        it->wrong = "the room was written";
    if (status != SFQ_OUT_OF_MEMORY)
        return status;
    it->was_refused = true;
    return ask(it, room, size, length, fault);
}

/* Asks for the length, with too little room, and with enough, and prints the text. */
static void print_lines(struct one_call *it)
{
    char room[900], *feed;
    size_t length = 12345, again = 12345;
    sfq_fault fault = { '-', 9, 7, 8 };
    int status = ask_twice(it, NULL, 0, &length, &fault);
    if (status == SFQ_REFUSED) {
        print_fault(&it->out, status, &fault);
        return;
    }
    if (status != SFQ_TOO_SMALL || length == 0 || length >= sizeof room) {
        it->wrong = "no length";
        return;
    }
    memset(room, '#', sizeof room);
    if (ask_twice(it, room, length - 1, &again, &fault) != SFQ_TOO_SMALL || again != length)
        it->wrong = "a room that is too small";
    if (ask_twice(it, room, sizeof room, &again, &fault) != SFQ_OK || again != length || room[length] != '#'
        || room[length - 1] != '\n')
        it->wrong = "a room that is large enough";
    if (fault.letter != '-' || fault.number != 9)
        it->wrong = "the fault was written";
    while ((feed = memchr(room, '\n', length)) != NULL)
        *feed = '|';
    snprintf(it->out.text, sizeof it->out.text, "0 %.*s", (int)length, room);
}

/* Reads a text, and again where memory was refused. */
static bool reads(struct one_call *it, const char *text, sfq_geometry *geometry, int status_if_refused)
{
    sfq_fault fault = { 0, 0, 0, 0 };
    int status = sfq_read(text, strlen(text), geometry, &fault);
    if (status == SFQ_OUT_OF_MEMORY) {
        it->was_refused = true;
        status = sfq_read(text, strlen(text), geometry, &fault);
    }
    if (status == SFQ_REFUSED)
        print_fault(&it->out, status_if_refused, &fault);
    return status == SFQ_OK;
}

bool is_why_call(char *const words[WORDS])
{
    return strcmp(words[0], "why") == 0 || strcmp(words[0], "reason") == 0;
}

struct printed run_why(char *const words[WORDS])
{
    struct one_call it = { words, SFQ_EMPTY, SFQ_EMPTY, false, NULL, { "" } };
    size_t length = 5;
    if (sfq_why(&it.first, &it.first, NULL, 0, &length) != SFQ_NO_GEOMETRY || length != 5)
        it.wrong = "no geometry";
    if (words[0][0] == 'r'
        || (reads(&it, words[1], &it.first, SFQ_REFUSED)
            && (strcmp(words[1], words[2]) == 0 || reads(&it, words[2], &it.second, SFQ_SECOND_REFUSED))))
        print_lines(&it);
    sfq_free(&it.first);
    sfq_free(&it.second);
    return printed_of(it.wrong, it.was_refused, &it.out);
}
