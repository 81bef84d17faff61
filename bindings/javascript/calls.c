// The calls of bindings/c/sfq.h for JavaScript, which says there what they do and return. Nothing here is proved.
#include "module.h"
#include "sfq.c"

// Short calls return their status, and above its 8 bits what they found, so that JavaScript reads no memory for it.
static word with(int status, word found) {
    return (word)status | found << 8;
}

static word holds(word relation, sfq_geometry *first, sfq_geometry *second) {
    bool found = 0;
    int status = sfq_holds(relation, first, second, &found);
    return with(status, found);
}

static word relate_pattern(sfq_geometry *first, sfq_geometry *second, const char *pattern, word length) {
    bool found = 0;
    int status = sfq_relate_pattern(first, second, pattern, length, &found);
    return with(status, found);
}

static word dimension(sfq_geometry *geometry) {
    uint32_t found = 0;
    int status = sfq_dimension(geometry, &found);
    return with(status, found);
}

static word is_empty(sfq_geometry *geometry) {
    bool found = 0;
    int status = sfq_is_empty(geometry, &found);
    return with(status, found);
}

static word locate(sfq_geometry *geometry, int32_t x, int32_t y) {
    uint32_t found = 0;
    int status = sfq_locate(geometry, x, y, &found);
    return with(status, found);
}

EXPORTED7(answer_texts, const char *, size_t, const char *, size_t, char *, bool *, sfq_fault *)
EXPORTED4(read, const char *, size_t, sfq_geometry *, sfq_fault *)
EXPORTED9(read_positions, uint32_t, const int32_t *, size_t, const size_t *, size_t, const size_t *, size_t, sfq_geometry *, sfq_fault *)
EXPORTED7(read_binary, const sfq_grid *, const void *, size_t, sfq_geometry *, int32_t *, sfq_shift *, sfq_fault *)
EXPORTED5(write_binary, sfq_geometry *, const sfq_grid *, void *, size_t, size_t *)
EXPORTED5(round, const sfq_grid *, const double *, size_t, int32_t *, size_t *)
EXPORTED(free, (word geometry), (sfq_free(AS(sfq_geometry *, geometry)), 0))
EXPORTED3(relate, sfq_geometry *, sfq_geometry *, char *)
EXPORTED5(relate_many, sfq_geometry *const *, sfq_geometry *const *, size_t, char *, size_t *)
EXPORTED(holds, (word relation, word first, word second), holds(relation, AS(sfq_geometry *, first), AS(sfq_geometry *, second)))
EXPORTED(relate_pattern, (word first, word second, word pattern, word length),
         relate_pattern(AS(sfq_geometry *, first), AS(sfq_geometry *, second), AS(const char *, pattern), length))
EXPORTED4(text, sfq_geometry *, char *, size_t, size_t *)
EXPORTED(dimension, (word geometry), dimension(AS(sfq_geometry *, geometry)))
EXPORTED(is_empty, (word geometry), is_empty(AS(sfq_geometry *, geometry)))
EXPORTED2(envelope, sfq_geometry *, int32_t *)
EXPORTED(locate, (word geometry, word x, word y), locate(AS(sfq_geometry *, geometry), AS(int32_t, x), AS(int32_t, y)))
EXPORTED5(locate_many, sfq_geometry *, const int32_t *, size_t, uint32_t *, size_t *)
EXPORTED4(index_build, const int32_t *, size_t, sfq_index *, size_t *)
EXPORTED5(index_search, sfq_index *, const int32_t *, size_t *, size_t, size_t *)
EXPORTED(index_free, (word index), (sfq_index_free(AS(sfq_index *, index)), 0))
EXPORTED5(why, sfq_geometry *, sfq_geometry *, char *, size_t, size_t *)
EXPORTED6(reason, const char *, size_t, char *, size_t, size_t *, sfq_fault *)
