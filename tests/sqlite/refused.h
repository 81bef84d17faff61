/*
 * An allocation that is refused. What is here takes the place of the allocator's calls in a program.
 */
#ifndef REFUSED_H
#define REFUSED_H

#include <stdbool.h>
#include <stdlib.h>

void *__libc_malloc(size_t size);
void *__libc_calloc(size_t number, size_t size);
void *__libc_realloc(void *old, size_t size);

/* The allocation of this thread that is refused, counted from 1, none at 0; and how many were asked for. */
static __thread long refused, asked;

static bool is_refused(void)
{
    return ++asked == refused;
}

void *malloc(size_t size)
{
    return is_refused() ? NULL : __libc_malloc(size);
}

void *calloc(size_t number, size_t size)
{
    return is_refused() ? NULL : __libc_calloc(number, size);
}

void *realloc(void *old, size_t size)
{
    return is_refused() ? NULL : __libc_realloc(old, size);
}

#endif
