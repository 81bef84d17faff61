/*
 * What fuzz.c, fuzz_binaries.c and fuzz_tables.c share: chance, and values that end where memory ends that may be read, so that a byte
 * too far ends the program. What is read has to be what its canonical text spells.
 */
#ifndef CHANCE_H
#define CHANCE_H

#include "random.h"
#include "sfq.h"

#include <stdio.h>
#include <stdlib.h>
#include <string.h>
#include <sys/mman.h>
#include <time.h>

#define PAGE 4096

/* Begins the chances of a seed. */
static void begin(const char *seed)
{
    state = strtoull(seed, NULL, 10) * 0x9e3779b97f4a7c15u + 1;
}

/* Whether there is a turn after so many: `1000` is how many there are, `30s` for how many seconds they go on. */
static bool goes_on(const char *word, long done)
{
    static time_t end;
    char *rest;
    long number = strtol(word, &rest, 10);
    if (*rest != 's')
        return done < number;
    if (done == 0)
        end = time(NULL) + number;
    return done % 16 != 0 || time(NULL) < end;
}

/* Room for one value at a time, before a page that may not be read. */
struct room {
    unsigned char *end;
};

static struct room make_room(void)
{
    struct room made = { NULL };
    unsigned char *at = mmap(NULL, 2 * PAGE, PROT_READ | PROT_WRITE, MAP_PRIVATE | MAP_ANONYMOUS, -1, 0);
    if (at == MAP_FAILED || mprotect(at + PAGE, PAGE, PROT_NONE) != 0)
        exit(2);
    made.end = at + PAGE;
    return made;
}

static void *put(struct room *room, const void *from, size_t size)
{
    return size == 0 ? room->end : memcpy(room->end - size, from, size);
}

static int wrong;

static void need(bool is_so, const char *what, const char *bytes, size_t length)
{
    if (!is_so) {
        wrong = 1;
        printf("%s: %.*s\n", what, (int)length, bytes);
    }
}

/* What was read has to be what its canonical text spells, and equal to itself. */
static inline void compare(sfq_geometry *read)
{
    char text[4000], again[4000], matrix[10];
    size_t length = 0, other = 0;
    sfq_geometry second = SFQ_EMPTY;
    bool answer = false;
    need(sfq_text(read, text, sizeof text, &length) == SFQ_OK, "no text", "", 0);
    need(sfq_read(text, length, &second, NULL) == SFQ_OK, "not read again", text, length);
    need(sfq_text(&second, again, sizeof again, &other) == SFQ_OK && other == length && memcmp(text, again, length) == 0,
         "another text", text, length);
    need(sfq_holds(SFQ_EQUALS, read, &second, &answer) == SFQ_OK && answer, "not equal", text, length);
    need(sfq_relate(read, &second, matrix) == SFQ_OK, "no matrix", text, length);
    need(sfq_holds(SFQ_INTERSECTS, read, &second, &answer) == SFQ_OK
             && answer == (matrix[0] != 'F' || matrix[1] != 'F' || matrix[3] != 'F' || matrix[4] != 'F'),
         "another answer than by the matrix", text, length);
    sfq_free(&second);
}

#endif
