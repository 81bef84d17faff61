// Memory for what JavaScript hands in. Nothing here is proved.
#include "module.h"

handed rattle_alloc(size, size);
void rattle_dealloc(void *);

static void *taken(size bytes) {
    handed it = rattle_alloc(bytes, 1);
    return it.is_there ? it.at : 0;
}

// Returns memory of so many bytes, or 0 where there is none.
EXPORTED(take, (word bytes), (size)taken(bytes))

// Takes back what `take` returned.
EXPORTED(give, (word at), (rattle_dealloc(AS(void *, at)), 0))
