/*
 * Calls of the C library, for tests/test_library.py and test_databases.py. Each line that it reads from standard input is a call, by tabs:
 *
 *     check TEXT            prints the status, and the fault where there is one
 *     status TEXT           the same without a fault to write to, and an empty text as null: prints the status
 *     relate FIRST SECOND   prints the status, and the matrix or the fault
 *     answer FIRST SECOND   prints the status, the matrix and a digit for each relation, or the fault
 *
 * and those of kept.c, whys.c, indexes.c, binaries.c, databases.c and rows.c. With the word `refuse` the program refuses each allocation of each
 * call in turn. With `threads` four threads make all calls at once, many times, each on a stack of STACK bytes, or of the number
 * after that word. It prints what differs from the first time, and ends with status 1 then.
 */
#define _GNU_SOURCE
#include "kept.h"

#include <pthread.h>
#include <stdio.h>
#include <stdlib.h>
#include <string.h>

/* ---- what is printed of a call ---- */

void print_fault(struct printed *out, int status, const sfq_fault *fault)
{
    snprintf(out->text, sizeof out->text, "%d %c%d %zu %zu", status, fault->letter, fault->number, fault->first, fault->second);
}

struct printed printed_of(const char *wrong, bool was_refused, const struct printed *out)
{
    struct printed all;
    if (wrong != NULL)
        snprintf(all.text, sizeof all.text, "wrong: %s", wrong);
    else
        snprintf(all.text, sizeof all.text, "%s%.990s", was_refused ? "3 " : "", out->text);
    return all;
}

/* A call that is refused leaves what it would have written. */
static const char before[10] = "unchanged";

static struct printed run_texts(char *const words[WORDS])
{
    struct printed out = { "" };
    char matrix[10];
    bool holds[SFQ_RELATIONS];
    sfq_fault fault = { '-', 0, 7, 8 };
    char digits[SFQ_RELATIONS + 1] = { 0 };
    int status, i;
    memcpy(matrix, before, sizeof matrix);
    memset(holds, 0, sizeof holds);
    if (strcmp(words[0], "check") == 0) {
        status = sfq_check(words[1], strlen(words[1]), &fault);
    } else if (strcmp(words[0], "status") == 0) {
        const char *text = words[1][0] != '\0' ? words[1] : NULL;
        snprintf(out.text, sizeof out.text, "%d", sfq_check(text, strlen(words[1]), NULL));
        return out;
    } else if (strcmp(words[0], "relate") == 0) {
        status = sfq_relate_texts(words[1], strlen(words[1]), words[2], strlen(words[2]), matrix, &fault);
    } else {
        status = sfq_answer_texts(words[1], strlen(words[1]), words[2], strlen(words[2]), matrix, holds, &fault);
    }
    if (status == SFQ_REFUSED || status == SFQ_SECOND_REFUSED) {
        print_fault(&out, status, &fault);
    } else if (fault.letter != '-' || fault.number != 0 || fault.first != 7 || fault.second != 8) {
        snprintf(out.text, sizeof out.text, "%d but the fault was written", status);
        return out;
    }
    if (status != SFQ_OK) {
        if (memcmp(matrix, before, sizeof matrix) != 0)
            snprintf(out.text, sizeof out.text, "%d but the matrix was written", status);
        for (i = 0; i < SFQ_RELATIONS; i++)
            if (holds[i])
                snprintf(out.text, sizeof out.text, "%d but relations were written", status);
        if (out.text[0] == '\0')
            snprintf(out.text, sizeof out.text, "%d", status);
        return out;
    }
    if (strcmp(words[0], "check") == 0) {
        snprintf(out.text, sizeof out.text, "0");
        return out;
    }
    for (i = 0; i < SFQ_RELATIONS && strcmp(words[0], "answer") == 0; i++)
        digits[i] = holds[i] ? '1' : '0';
    snprintf(out.text, sizeof out.text, "0 %s%s%s", matrix, digits[0] != '\0' ? " " : "", digits);
    return out;
}

static struct printed run(char *const words[WORDS])
{
    if (is_why_call(words))
        return run_why(words);
    if (is_index_call(words))
        return run_index(words);
    if (is_binary_call(words))
        return run_binary(words);
    if (is_database_call(words))
        return run_database(words);
    if (is_row_call(words))
        return run_row(words);
    return is_kept_call(words) ? run_kept(words) : run_texts(words);
}

/* ---- the calls ---- */

#define MOST 10000

static char *calls[MOST][WORDS];
static struct printed found[MOST];
static int count;

static void read_calls(void)
{
    char *line = NULL;
    size_t size = 0;
    ssize_t length;
    while (count < MOST && (length = getline(&line, &size, stdin)) > 0) {
        char *rest = line;
        int i;
        if (line[length - 1] == '\n')
            line[length - 1] = '\0';
        for (i = 0; i < WORDS; i++) {
            char *word = rest != NULL ? strsep(&rest, "\t") : NULL;
            calls[count][i] = strdup(word != NULL ? word : "");
        }
        count++;
    }
    free(line);
}

static void free_calls(void)
{
    int i, j;
    for (i = 0; i < count; i++)
        for (j = 0; j < WORDS; j++)
            free(calls[i][j]);
}

/* ---- four threads ---- */

#define STACK 65536

static void *run_all(void *differing)
{
    int times, i;
    for (times = 0; times < 20; times++)
        for (i = 0; i < count; i++)
            if (strcmp(run(calls[i]).text, found[i].text) != 0)
                ++*(int *)differing;
    return NULL;
}

static int run_in_threads(size_t stack)
{
    pthread_t threads[4];
    pthread_attr_t small;
    int differing[4] = { 0 }, i, all = 0;
    if (pthread_attr_init(&small) != 0 || pthread_attr_setstacksize(&small, stack) != 0)
        return 1;
    for (i = 0; i < 4; i++)
        if (pthread_create(&threads[i], &small, run_all, &differing[i]) != 0)
            return 1;
    for (i = 0; i < 4; i++) {
        pthread_join(threads[i], NULL);
        all += differing[i];
    }
    all += hand_over();
    printf("%d calls, %d differ\n", 4 * 20 * count, all);
    return all != 0;
}

/* ---- each allocation refused ---- */

#ifdef REFUSES

void *__libc_malloc(size_t size);
void *__libc_calloc(size_t number, size_t size);
void *__libc_realloc(void *old, size_t size);
void *__libc_memalign(size_t alignment, size_t size);
void __libc_free(void *old);

/* The allocation that is refused, counted from 1; none at 0. */
static long refused, asked, held;

static bool is_refused(void)
{
    return ++asked == refused;
}

static void *noted(void *made)
{
    held += made != NULL;
    return made;
}

void *malloc(size_t size)
{
    return is_refused() ? NULL : noted(__libc_malloc(size));
}

void *calloc(size_t number, size_t size)
{
    return is_refused() ? NULL : noted(__libc_calloc(number, size));
}

void *realloc(void *old, size_t size)
{
    return is_refused() ? NULL : old == NULL ? noted(__libc_malloc(size)) : __libc_realloc(old, size);
}

void *aligned_alloc(size_t alignment, size_t size)
{
    return is_refused() ? NULL : noted(__libc_memalign(alignment, size));
}

int posix_memalign(void **made, size_t alignment, size_t size)
{
    void *at = is_refused() ? NULL : noted(__libc_memalign(alignment, size));
    if (at == NULL)
        return 12;
    *made = at;
    return 0;
}

void free(void *old)
{
    held -= old != NULL;
    __libc_free(old);
}

/* Whether this is what a call prints whose memory was refused once. */
static bool is_of_refusal(const char *text, int i)
{
    if (is_kept_call(calls[i]) || is_why_call(calls[i]) || is_index_call(calls[i]) || is_binary_call(calls[i])
        || is_database_call(calls[i]) || is_row_call(calls[i]))
        return strncmp(text, "3 ", 2) == 0 && strcmp(text + 2, found[i].text) == 0;
    return strcmp(text, "3") == 0;
}

static int run_refused(void)
{
    int i, bad = 0;
    long tried = 0, managed = 0;
    for (i = 0; i < count; i++) {
        long at;
        for (at = 1;; at++) {
            long before_call = held;
            struct printed out;
            refused = at;
            asked = 0;
            out = run(calls[i]);
            refused = 0;
            if (held != before_call) {
                bad++;
                printf("%ld blocks are left at %ld of call %d\n", held - before_call, at, i);
            }
            if (asked < at)
                break;
            tried++;
            /* Some rings are tested without a list of boxes where there is no room for one. */
            if (strcmp(out.text, found[i].text) == 0) {
                managed++;
            } else if (!is_of_refusal(out.text, i)) {
                bad++;
                printf("%s at %ld of call %d\n", out.text, at, i);
            }
        }
    }
    printf("%ld refused, %ld done without, %d bad\n", tried, managed, bad);
    return bad != 0 || tried == 0;
}

#else

static int run_refused(void)
{
    return 2;
}

#endif

int main(int number, char **words)
{
    int i, status = 0;
    read_calls();
    for (i = 0; i < count; i++)
        found[i] = run(calls[i]);
    if (number > 1 && strcmp(words[1], "refuse") == 0)
        status = run_refused();
    else if (number > 1 && strcmp(words[1], "threads") == 0)
        status = run_in_threads(number > 2 ? (size_t)atol(words[2]) : STACK);
    else
        for (i = 0; i < count; i++)
            puts(found[i].text);
    free_calls();
    return status;
}
