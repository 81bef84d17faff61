/* The peer of `sfq pairs` for GEOS: it reads the same file, and writes the same lines.
 *
 * Each line of the file at the path is a record of two fields in quotes, each the well-known text of a geometry. Both are read and
 * tested, and their matrix is printed; else `refused`.
 */
#define GEOS_USE_ONLY_R_API
#include <geos_c.h>
#include <stdio.h>
#include <stdlib.h>
#include <string.h>

static void quiet(const char *message, void *data) { (void)message; (void)data; }

/* The field in quotes at the place, which moves behind it; null if there is none. */
static char *field(char **place) {
    char *start = strchr(*place, '"');
    char *end = start == NULL ? NULL : strchr(start + 1, '"');
    if (end == NULL) return NULL;
    *end = '\0';
    *place = end + 1;
    return start + 1;
}

int main(int argc, char **argv) {
    FILE *file = argc == 2 ? fopen(argv[1], "r") : NULL;
    if (file == NULL) return 6;
    GEOSContextHandle_t geos = GEOS_init_r();
    GEOSContext_setErrorMessageHandler_r(geos, quiet, NULL);
    GEOSContext_setNoticeMessageHandler_r(geos, quiet, NULL);
    GEOSWKTReader *reader = GEOSWKTReader_create_r(geos);
    char *line = NULL;
    size_t room = 0;
    int status = 0;
    while (getline(&line, &room, file) > 0) {
        char *place = line, *first = field(&place), *second = first == NULL ? NULL : field(&place);
        if (second == NULL) return 4;
        GEOSGeometry *a = GEOSWKTReader_read_r(geos, reader, first);
        GEOSGeometry *b = GEOSWKTReader_read_r(geos, reader, second);
        int valid = a != NULL && b != NULL && GEOSisValid_r(geos, a) == 1 && GEOSisValid_r(geos, b) == 1;
        char *matrix = valid ? GEOSRelate_r(geos, a, b) : NULL;
        if (matrix == NULL) status = 5;
        puts(matrix == NULL ? "refused" : matrix);
        if (matrix != NULL) GEOSFree_r(geos, matrix);
        if (a != NULL) GEOSGeom_destroy_r(geos, a);
        if (b != NULL) GEOSGeom_destroy_r(geos, b);
    }
    return status;
}
