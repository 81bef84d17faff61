/* The last geometries of arguments: see keeping.h. */
#include "keeping.h"

#include <stdlib.h>
#include <string.h>

void forget(struct kept *kept)
{
    sfq_free(&kept->geometry);
    free(kept->bytes);
    kept->bytes = NULL;
}

bool is_kept(const struct kept *kept, const char *bytes, size_t length)
{
    return kept->bytes != NULL && kept->length == length && memcmp(kept->bytes, bytes, length) == 0;
}

int keep_under(struct kept *kept, const char *bytes, size_t size, int status)
{
    if (status != SFQ_OK) {
        return status;
    }
    kept->bytes = malloc(size > 0 ? size : 1);
    if (kept->bytes == NULL) {
        forget(kept);
        return SFQ_OUT_OF_MEMORY;
    }
    memcpy(kept->bytes, bytes, size);
    kept->length = size;
    return SFQ_OK;
}

int keep(struct kept *kept, const char *bytes, size_t size, const char *text, size_t length, sfq_fault *fault)
{
    forget(kept);
    return keep_under(kept, bytes, size, sfq_read(text, length, &kept->geometry, fault));
}

int of_second(int status)
{
    return status == SFQ_REFUSED ? SFQ_SECOND_REFUSED : status;
}
