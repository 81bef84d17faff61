/* The peer of `gauge` for GEOS: the same words, the same input, the same output.
 *
 * The first line of standard input is a geometry, each further line a point. The first word says what is done,
 * the second how often: `read` reads the text, `check` reads and tests it, `locate` reads, tests and prepares it once and
 * then locates every point. It prints one line: for `read` the number of geometries in it, for `check` 1 where the geometry is
 * valid and else 0, for `locate` how many points are in the interior or on the boundary. Of `relate` the first two lines are
 * geometries, which it reads and tests once, and it prints their matrix; of `prepared`, which GEOS has from 3.13 on, it prepares the
 * first one before.
 */
#define GEOS_USE_ONLY_R_API
#include <geos_c.h>
#include <stdio.h>
#include <stdlib.h>
#include <string.h>

#if GEOS_VERSION_MAJOR > 3 || GEOS_VERSION_MINOR >= 13
#define HAS_PREPARED 1
#else
#define HAS_PREPARED 0
#define GEOSPreparedRelate_r(geos, prepared, other) NULL
#endif

static char *matrix_of(GEOSContextHandle_t geos, const GEOSGeometry *a, const GEOSPreparedGeometry *prepared, const GEOSGeometry *b) {
    return prepared ? GEOSPreparedRelate_r(geos, prepared, b) : GEOSRelate_r(geos, a, b);
}

static int relate(GEOSContextHandle_t geos, const char *first, long times, int is_prepared) {
    if (is_prepared && !HAS_PREPARED) return 2;
    char *line = NULL;
    size_t room = 0;
    if (getline(&line, &room, stdin) < 0) return 6;
    GEOSWKTReader *reader = GEOSWKTReader_create_r(geos);
    GEOSGeometry *a = GEOSWKTReader_read_r(geos, reader, first);
    GEOSGeometry *b = GEOSWKTReader_read_r(geos, reader, line);
    if (a == NULL || b == NULL || GEOSisValid_r(geos, a) != 1 || GEOSisValid_r(geos, b) != 1) return 5;
    const GEOSPreparedGeometry *prepared = is_prepared ? GEOSPrepare_r(geos, a) : NULL;
    char *matrix = matrix_of(geos, a, prepared, b);
    for (long k = 0; k < times; k++) {
        GEOSFree_r(geos, matrix);
        matrix = matrix_of(geos, a, prepared, b);
    }
    printf("%s\n", matrix);
    return 0;
}

static void quiet(const char *message, void *data) { (void)message; (void)data; }

int main(int argc, char **argv) {
    if (argc != 3) return 2;
    long times = atol(argv[2]);
    char *line = NULL;
    size_t room = 0;
    if (getline(&line, &room, stdin) < 0) return 6;
    GEOSContextHandle_t geos = GEOS_init_r();
    GEOSContext_setErrorMessageHandler_r(geos, quiet, NULL);
    GEOSContext_setNoticeMessageHandler_r(geos, quiet, NULL);
    int is_prepared = strcmp(argv[1], "prepared") == 0;
    if (is_prepared || strcmp(argv[1], "relate") == 0) return relate(geos, line, times, is_prepared);
    GEOSGeometry **asked = NULL;
    size_t points = 0, kept = 0;
    double x, y;
    while (scanf(" POINT(%lf %lf)", &x, &y) == 2) {
        if (points == kept) {
            kept = kept ? 2 * kept : 1024;
            asked = realloc(asked, kept * sizeof *asked);
        }
        asked[points++] = GEOSGeom_createPointFromXY_r(geos, x, y);
    }
    GEOSWKTReader *reader = GEOSWKTReader_create_r(geos);
    long answer = 0;
    if (strcmp(argv[1], "locate") == 0) {
        GEOSGeometry *g = GEOSWKTReader_read_r(geos, reader, line);
        if (g == NULL || GEOSisValid_r(geos, g) != 1) return 5;
        const GEOSPreparedGeometry *prepared = GEOSPrepare_r(geos, g);
        for (long k = 0; k < times; k++) {
            answer = 0;
            for (size_t i = 0; i < points; i++) answer += GEOSPreparedIntersects_r(geos, prepared, asked[i]) == 1;
        }
    } else {
        for (long k = 0; k < times; k++) {
            GEOSGeometry *g = GEOSWKTReader_read_r(geos, reader, line);
            if (g == NULL) return 5;
            answer = strcmp(argv[1], "check") == 0 ? GEOSisValid_r(geos, g) == 1 : GEOSGetNumGeometries_r(geos, g);
            GEOSGeom_destroy_r(geos, g);
        }
    }
    printf("%ld\n", answer);
    return 0;
}
