// Memory for the proved code, in the place of a C library. A block has 2^n bytes: a head of 16 bytes, then what is handed out. A
// block that is given back goes on the list of its size, and serves the next request of that size. Nothing here is proved.

#include "module.h"

typedef struct block {
    size order;
    struct block *next;
} block;

enum { LEAST_ORDER = 5, MOST_ORDER = 30, ALIGNED = 16, PAGE = 65536 };

// The memory stays below this, so that an address below 0, which a stack that grows too far makes, is past its end and traps.
static const size MOST_MEMORY = (size)1 << 31;

extern char __heap_base[];
static block *given_back[MOST_ORDER + 1];
// Where the memory begins that no block has had yet, and where it ends; 0 before the first request.
static size unused, end;

static _Bool grow_to(size wanted) {
    if (wanted <= end)
        return 1;
    if (wanted > MOST_MEMORY)
        return 0;
    size pages = (wanted - end + PAGE - 1) / PAGE;
    // In a memory of 32 bits a refusal is -1 of 32 bits.
    if ((unsigned)__builtin_wasm_memory_grow(0, pages) == ~0u)
        return 0;
    end += pages * PAGE;
    return 1;
}

static block *new_block(size order) {
    if (end == 0) {
        unused = ((size)__heap_base + ALIGNED - 1) / ALIGNED * ALIGNED;
        end = __builtin_wasm_memory_size(0) * PAGE;
    }
    if (!grow_to(unused + ((size)1 << order)))
        return 0;
    block *it = (block *)unused;
    unused += (size)1 << order;
    return it;
}

static size order_for(size bytes) {
    size order = LEAST_ORDER;
    while (order <= MOST_ORDER && ((size)1 << order) - sizeof(block) < bytes)
        order++;
    return order;
}

handed rattle_alloc(size bytes, size align) {
    size order = order_for(bytes);
    if (order > MOST_ORDER || align > ALIGNED)
        return (handed){0, 0};
    block *it = given_back[order];
    if (it)
        given_back[order] = it->next;
    else
        it = new_block(order);
    if (!it)
        return (handed){0, 0};
    it->order = order;
    return (handed){1, it + 1};
}

void rattle_dealloc(void *at) {
    if (!at)
        return;
    block *it = (block *)at - 1;
    it->next = given_back[it->order];
    given_back[it->order] = it;
}

handed rattle_realloc(void *at, size old_bytes, size bytes, size align) {
    if (order_for(bytes) <= ((block *)at - 1)->order && align <= ALIGNED)
        return (handed){1, at};
    handed more = rattle_alloc(bytes, align);
    if (more.is_there) {
        __builtin_memcpy(more.at, at, old_bytes < bytes ? old_bytes : bytes);
        rattle_dealloc(at);
    }
    return more;
}
