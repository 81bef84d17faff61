/* Positions in a kept polygon, by the C library and by GEOS's C interface, for prepared.py.
 *
 *   prepared HOW TIMES < INPUT
 *
 * The first line of INPUT is the text of a polygon, each further line a position, as `x y`. HOW is the call that is asked:
 *
 *   locate          sfq_locate, with the coordinates
 *   holds           sfq_holds of intersects, with points that are kept
 *   contains        the same of contains
 *   covers          the same of covers
 *   properly        the same of contains properly
 *   geos            GEOSPreparedIntersects_r, with points that are kept
 *   geos_contains   GEOSPreparedContains_r, with points that are kept
 *   geos_covers     GEOSPreparedCovers_r, with points that are kept
 *   geos_properly   GEOSPreparedContainsProperly_r, with points that are kept
 *
 * or one of these, and the second line is another polygon:
 *
 *   meet            sfq_holds of intersects
 *   relate          sfq_relate
 *   geos_meet       GEOSPreparedIntersects_r
 *   geos_relate     GEOSPreparedRelate_r, before GEOS 3.13 GEOSRelate_r
 *
 * Everything is read, tested and kept once, then all positions are asked for TIMES times. It prints how many of them the call
 * holds of.
 */
#define GEOS_USE_ONLY_R_API
#include <geos_c.h>
#include <sfq.h>
#include <stdio.h>
#include <stdlib.h>
#include <string.h>

#define MOST 20000

static int32_t xs[MOST], ys[MOST];
static int count;
static char *line;
static size_t room;

/* What is asked of kept points, of the library and of GEOS. */
static const struct asked {
    const char *ours, *theirs;
    uint32_t relation;
    char (*call)(GEOSContextHandle_t, const GEOSPreparedGeometry *, const GEOSGeometry *);
} relations[] = {
    {"holds", "geos", SFQ_INTERSECTS, GEOSPreparedIntersects_r},
    {"contains", "geos_contains", SFQ_CONTAINS, GEOSPreparedContains_r},
    {"covers", "geos_covers", SFQ_COVERS, GEOSPreparedCovers_r},
    {"properly", "geos_properly", SFQ_CONTAINS_PROPERLY, GEOSPreparedContainsProperly_r},
};

/* What these words ask for: of positions, whether they intersect. */
static const struct asked *asked_by(const char *how) {
    for (size_t i = 0; i < sizeof relations / sizeof *relations; i++) {
        if (strcmp(how, relations[i].ours) == 0 || strcmp(how, relations[i].theirs) == 0) return &relations[i];
    }
    return &relations[0];
}

static void quiet(const char *message, void *data) { (void)message; (void)data; }

/* Two polygons, asked so often by the library; the answers are added up, or the matrix is printed. */
static int two_by_library(const char *how, long times, const char *one, const char *other) {
    sfq_geometry first = SFQ_EMPTY, second = SFQ_EMPTY;
    char matrix[10] = "";
    bool holds = false;
    if (sfq_read(one, strlen(one), &first, NULL) != SFQ_OK || sfq_read(other, strlen(other), &second, NULL) != SFQ_OK) return 5;
    for (long k = 0; k < times; k++) {
        if (strcmp(how, "meet") == 0 ? sfq_holds(SFQ_INTERSECTS, &first, &second, &holds) != SFQ_OK
                                     : sfq_relate(&first, &second, matrix) != SFQ_OK) return 5;
    }
    printf("%d %s\n", holds, matrix);
    return 0;
}

/* The same by GEOS. */
static int two_by_geos(const char *how, long times, const char *one, const char *other) {
    GEOSContextHandle_t geos = GEOS_init_r();
    GEOSWKTReader *reader = GEOSWKTReader_create_r(geos);
    GEOSGeometry *first = GEOSWKTReader_read_r(geos, reader, one), *second = GEOSWKTReader_read_r(geos, reader, other);
    if (first == NULL || second == NULL || GEOSisValid_r(geos, first) != 1 || GEOSisValid_r(geos, second) != 1) return 5;
    const GEOSPreparedGeometry *kept = GEOSPrepare_r(geos, first);
    char *matrix = NULL;
    int holds = 0;
    for (long k = 0; k < times; k++) {
        if (strcmp(how, "geos_meet") == 0) {
            holds = GEOSPreparedIntersects_r(geos, kept, second);
        } else {
            if (matrix != NULL) GEOSFree_r(geos, matrix);
#if GEOS_VERSION_MAJOR > 3 || GEOS_VERSION_MINOR >= 13
            matrix = GEOSPreparedRelate_r(geos, kept, second);
#else
            matrix = GEOSRelate_r(geos, first, second);
#endif
        }
    }
    printf("%d %s\n", holds, matrix != NULL ? matrix : "");
    return 0;
}

static int by_library(const char *how, long times, size_t length) {
    sfq_geometry polygon = SFQ_EMPTY, *points = calloc((size_t)count, sizeof *points);
    uint32_t relation = asked_by(how)->relation;
    int is_by_position = strcmp(how, "locate") == 0;
    long found = 0;
    if (sfq_read(line, length, &polygon, NULL) != SFQ_OK) return 5;
    for (int i = 0; i < count && !is_by_position; i++) {
        char text[64];
        int size = snprintf(text, sizeof text, "POINT(%d %d)", xs[i], ys[i]);
        if (sfq_read(text, (size_t)size, &points[i], NULL) != SFQ_OK) return 5;
    }
    for (long k = 0; k < times; k++) {
        found = 0;
        for (int i = 0; i < count; i++) {
            uint32_t place = SFQ_EXTERIOR;
            bool holds = false;
            if (is_by_position) {
                if (sfq_locate(&polygon, xs[i], ys[i], &place) != SFQ_OK) return 5;
                found += place != SFQ_EXTERIOR;
            } else {
                if (sfq_holds(relation, &polygon, &points[i], &holds) != SFQ_OK) return 5;
                found += holds;
            }
        }
    }
    for (int i = 0; i < count; i++) sfq_free(&points[i]);
    sfq_free(&polygon);
    free(points);
    printf("%ld\n", found);
    return 0;
}

static int by_geos(const char *how, long times) {
    GEOSContextHandle_t geos = GEOS_init_r();
    GEOSContext_setErrorMessageHandler_r(geos, quiet, NULL);
    GEOSContext_setNoticeMessageHandler_r(geos, quiet, NULL);
    GEOSWKTReader *reader = GEOSWKTReader_create_r(geos);
    GEOSGeometry *polygon = GEOSWKTReader_read_r(geos, reader, line);
    GEOSGeometry **points = calloc((size_t)count, sizeof *points);
    const struct asked *asked = asked_by(how);
    long found = 0;
    if (polygon == NULL || GEOSisValid_r(geos, polygon) != 1) return 5;
    const GEOSPreparedGeometry *kept = GEOSPrepare_r(geos, polygon);
    for (int i = 0; i < count; i++) points[i] = GEOSGeom_createPointFromXY_r(geos, xs[i], ys[i]);
    for (long k = 0; k < times; k++) {
        found = 0;
        for (int i = 0; i < count; i++) found += asked->call(geos, kept, points[i]) == 1;
    }
    printf("%ld\n", found);
    return 0;
}

int main(int number, char **words) {
    ssize_t length;
    int x, y;
    if (number != 3) return 2;
    length = getline(&line, &room, stdin);
    if (length < 1) return 6;
    line[--length] = '\0';
    if (strstr(words[1], "meet") != NULL || strstr(words[1], "relate") != NULL) {
        char *other = NULL;
        size_t other_room = 0;
        ssize_t other_length = getline(&other, &other_room, stdin);
        if (other_length < 1) return 6;
        other[other_length - 1] = '\0';
        return (strncmp(words[1], "geos", 4) == 0 ? two_by_geos : two_by_library)(words[1], atol(words[2]), line, other);
    }
    while (count < MOST && scanf("%d %d", &x, &y) == 2) {
        xs[count] = x;
        ys[count++] = y;
    }
    return strncmp(words[1], "geos", 4) == 0 ? by_geos(words[1], atol(words[2])) : by_library(words[1], atol(words[2]), (size_t)length);
}
