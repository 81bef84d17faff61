/*
 * How many bytes an index and its searches need, for tests/test_library.py. The program makes an index of as many equal envelopes as its
 * word says. It prints the most bytes that were held meanwhile, those that are held from then on, and the most that a search needs besides
 * which finds all of them.
 */
#include <sfq.h>

#include <stdio.h>
#include <stdlib.h>

/* The blocks that the library holds: few, but large ones. */
#define BLOCKS 4096

extern void *__libc_malloc(size_t size);
extern void __libc_free(void *old);
extern void *__libc_memalign(size_t alignment, size_t size);

static struct {
    void *at;
    size_t size;
} blocks[BLOCKS];
static size_t held, most;

static void *noted(void *at, size_t size)
{
    size_t i = 0;
    while (i < BLOCKS && blocks[i].at != NULL)
        i++;
    if (i == BLOCKS || at == NULL)
        abort();
    blocks[i].at = at;
    blocks[i].size = size;
    held += size;
    most = held > most ? held : most;
    return at;
}

static size_t size_of(const void *at)
{
    size_t i = 0;
    while (i < BLOCKS && blocks[i].at != at)
        i++;
    return i < BLOCKS ? blocks[i].size : 0;
}

void *malloc(size_t size)
{
    return noted(__libc_malloc(size), size);
}

void *calloc(size_t number, size_t size)
{
    char *at = malloc(number * size);
    size_t i;
    for (i = 0; i < number * size; i++)
        at[i] = 0;
    return at;
}

void free(void *old)
{
    size_t i = 0;
    while (i < BLOCKS && blocks[i].at != old)
        i++;
    if (old != NULL && i < BLOCKS) {
        held -= blocks[i].size;
        blocks[i].at = NULL;
    }
    __libc_free(old);
}

/* Both blocks are held while one is copied. */
void *realloc(void *old, size_t size)
{
    size_t had = old != NULL ? size_of(old) : 0, i;
    char *at = malloc(size);
    for (i = 0; i < size && i < had; i++)
        at[i] = ((const char *)old)[i];
    free(old);
    return at;
}

int posix_memalign(void **made, size_t alignment, size_t size)
{
    *made = noted(__libc_memalign(alignment, size), size);
    return 0;
}

void *aligned_alloc(size_t alignment, size_t size)
{
    return noted(__libc_memalign(alignment, size), size);
}

/* The arrays of the program itself aren't noted. */
int main(int number, char **words)
{
    const size_t count = number > 1 ? strtoul(words[1], NULL, 10) : 0;
    static const int32_t window[4] = { 1, 1, 1, 1 };
    int32_t *bounds = __libc_malloc(16 * count + 1);
    size_t *room = __libc_malloc(sizeof *room * count + 1), found = 0, before, i;
    sfq_index index = SFQ_EMPTY;
    for (i = 0; i < 4 * count; i++)
        bounds[i] = 1;
    before = most = held;
    if (sfq_index_build(bounds, count, &index, NULL) != SFQ_OK)
        return 1;
    printf("%zu %zu", most - before, held - before);
    before = most = held;
    if (sfq_index_search(&index, window, room, count, &found) != SFQ_OK || found != count || held != before)
        return 1;
    printf(" %zu\n", most - before);
    sfq_index_free(&index);
    return 0;
}
