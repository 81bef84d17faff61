/* The memory of the library in a server: see server_memory.h. */
#include "postgresql.h"

#include "miscadmin.h"
#include "utils/guc.h"

#include <stdint.h>

#include "server_memory.h"

void *__real_malloc(size_t size);
void *__real_realloc(void *old, size_t size);
void __real_free(void *old);
void *__wrap_malloc(size_t size);
void *__wrap_realloc(void *old, size_t size);
void __wrap_free(void *old);

/* What is before each block: its size. It keeps the block aligned. */
union head {
    size_t size;
    long double aligned;
};

/* The bound of sfq.memory in megabytes, the bytes that are held, and whether the bound was met since it was last asked. */
static int most_megabytes = 256;
static size_t held;
static bool met_bound;

/* Whether the query is to end, and may be ended here. */
static bool is_cancelled(void)
{
    return InterruptPending && (QueryCancelPending || ProcDiePending) && InterruptHoldoffCount == 0 && CritSectionCount == 0 &&
           (ProcDiePending || QueryCancelHoldoffCount == 0);
}

/* Whether so many bytes more may be held. */
static bool may_take(size_t size)
{
    size_t most = (size_t)most_megabytes * 1024 * 1024;
    if (size > most || held > most - size) {
        met_bound = true;
        return false;
    }
    return !is_cancelled();
}

void *__wrap_realloc(void *old, size_t size)
{
    union head *before = old == NULL ? NULL : (union head *)old - 1, *found;
    size_t had = before == NULL ? 0 : before->size;
    if (size > had && !may_take(size - had)) {
        return NULL;
    }
    found = size > SIZE_MAX - sizeof *found ? NULL : __real_realloc(before, size + sizeof *found);
    if (found == NULL) {
        return NULL;
    }
    held = held - had + size;
    found->size = size;
    return found + 1;
}

void *__wrap_malloc(size_t size)
{
    return __wrap_realloc(NULL, size);
}

void __wrap_free(void *old)
{
    if (old != NULL) {
        union head *before = (union head *)old - 1;
        held -= before->size;
        __real_free(before);
    }
}

void refused_memory(void)
{
    bool is_bounded = met_bound;
    met_bound = false;
    CHECK_FOR_INTERRUPTS();
    if (is_bounded) {
        ereport(ERROR, (errcode(ERRCODE_PROGRAM_LIMIT_EXCEEDED), errmsg("sfq: the call needs more than %d MB", most_megabytes),
                        errhint("Ask of smaller geometries, or have a superuser raise sfq.memory.")));
    }
    ereport(ERROR, (errcode(ERRCODE_OUT_OF_MEMORY), errmsg("sfq: out of memory")));
}

void define_memory(void)
{
    DefineCustomIntVariable("sfq.memory", "How much memory the functions of sfq may hold in a session.", NULL, &most_megabytes, 256, 1,
                            1048576, PGC_SUSET, GUC_UNIT_MB, NULL, NULL, NULL);
    MarkGUCPrefixReserved("sfq");
}
