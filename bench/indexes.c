/* Windows in an index of envelopes, by the C library and by GEOS's STRtree, for indexes.py.
 *
 *   indexes HOW TIMES < INPUT
 *
 * INPUT has how many envelopes there are and how many windows, and then four numbers for each: the least x, the greatest x, the
 * least y and the greatest y. HOW is what is done TIMES times:
 *
 *   search        an index that was made before is searched by each window
 *   build         an index is made, searched by the first window, and freed
 *   geos_search   the same by GEOSSTRtree_query_r
 *   geos_build    the same, of geometries that were made before
 *
 * It prints how many are found in the last turn, and the sum of their positions.
 */
#define GEOS_USE_ONLY_R_API
#include <geos_c.h>
#include <sfq.h>
#include <stdio.h>
#include <stdlib.h>
#include <string.h>

static size_t envelopes, windows;
/* The bounds of the envelopes, then those of the windows. */
static int32_t *bounds;
static size_t *room;
static unsigned long long found, sum;

static int search_by_library(sfq_index *index, size_t window) {
    size_t count;
    if (sfq_index_search(index, bounds + 4 * (envelopes + window), room, envelopes, &count) != SFQ_OK) return 0;
    found += count;
    for (size_t i = 0; i < count; i++) sum += room[i];
    return 1;
}

static int by_library(int is_build, long times) {
    sfq_index index = SFQ_EMPTY;
    for (long k = is_build ? 0 : -1; k < times; k++) {
        found = sum = 0;
        if (index.kept == NULL && sfq_index_build(bounds, envelopes, &index, NULL) != SFQ_OK) return 5;
        for (size_t i = 0; i < (is_build || k < 0 ? 1 : windows); i++)
            if (!search_by_library(&index, i)) return 5;
        if (is_build) sfq_index_free(&index);
    }
    sfq_index_free(&index);
    return 0;
}

static void note(void *position, void *data) {
    (void)data;
    found++;
    sum += *(const size_t *)position;
}

static int by_geos(int is_build, long times) {
    GEOSContextHandle_t geos = GEOS_init_r();
    GEOSGeometry **shapes = calloc(envelopes + windows, sizeof *shapes);
    GEOSSTRtree *tree = NULL;
    for (size_t i = 0; i < envelopes + windows; i++) {
        const int32_t *it = bounds + 4 * i;
        shapes[i] = GEOSGeom_createRectangle_r(geos, it[0], it[2], it[1], it[3]);
        if (shapes[i] == NULL) return 5;
    }
    for (size_t i = 0; i < envelopes; i++) room[i] = i;
    for (long k = is_build ? 0 : -1; k < times; k++) {
        found = sum = 0;
        if (tree == NULL) {
            tree = GEOSSTRtree_create_r(geos, 10);
            for (size_t i = 0; i < envelopes; i++) GEOSSTRtree_insert_r(geos, tree, shapes[i], &room[i]);
        }
        for (size_t i = 0; i < (is_build || k < 0 ? 1 : windows); i++)
            GEOSSTRtree_query_r(geos, tree, shapes[envelopes + i], note, NULL);
        if (is_build) {
            GEOSSTRtree_destroy_r(geos, tree);
            tree = NULL;
        }
    }
    return 0;
}

int main(int number, char **words) {
    int status;
    if (number != 3 || scanf("%zu %zu", &envelopes, &windows) != 2) return 2;
    bounds = calloc(4 * (envelopes + windows), sizeof *bounds);
    room = calloc(envelopes, sizeof *room);
    if (bounds == NULL || room == NULL) return 3;
    for (size_t i = 0; i < 4 * (envelopes + windows); i++)
        if (scanf("%d", &bounds[i]) != 1) return 6;
    status = (strncmp(words[1], "geos", 4) == 0 ? by_geos : by_library)(strstr(words[1], "build") != NULL, atol(words[2]));
    printf("%llu %llu\n", found, sum);
    return status;
}
