/* A database that is loaded once and asked often: by the C library, by sqlite3 in memory, and by GEOS, for databases.py.
 *
 *   databases ENGINE WHAT TIMES FOLDER [EXTENSION]
 *
 * FOLDER has point.csv (id,n,geom), parcel.csv (id,geom) of squares, and windows, which has four numbers a line: the least x, the
 * least y, the greatest x and the greatest y. ENGINE is sfq, sqlite or geos; or sfq0 or spatialite, which are sqlite with the extension
 * EXTENSION, and FOLDER then has schema.sql too. WHAT is done TIMES times:
 *
 *   load      both tables are loaded, with an index of their geometries, and let go of
 *   windows   the points of each window, by a statement whose constant is replaced
 *   filters   the points with each of 100 numbers, by a statement whose constant is replaced; only by sfq and sqlite
 *   keys      the point of each of 1,000 keys, likewise
 *   join      each point with the parcels that it meets
 *
 * Under valgrind's callgrind with --instr-atstart=no, the turns alone are counted.
 *
 * It prints how many rows the last turn has, and the sum of the keys in them. sqlite has an R*Tree of whole numbers beside each
 * table, whose answers are right for points and squares.
 */
#define GEOS_USE_ONLY_R_API
#include <geos_c.h>
#include <sfq_tables.h>
#include <sqlite3.h>
#include <stdio.h>
#include <stdlib.h>
#include <string.h>
#include <valgrind/callgrind.h>

enum { KEYS = 1000, FILTERS = 100 };

struct text {
    char *bytes;
    size_t length;
};

static struct text point_text, parcel_text;
/* The windows, by four numbers each. */
static int *windows;
static size_t window_count;
static unsigned long long rows, sum;

static void fail(const char *what) {
    fprintf(stderr, "%s failed\n", what);
    exit(5);
}

static struct text text_of(const char *folder, const char *name) {
    char path[4096];
    struct text it = {NULL, 0};
    long size;
    snprintf(path, sizeof path, "%s/%s", folder, name);
    FILE *file = fopen(path, "rb");
    if (file == NULL || fseek(file, 0, SEEK_END) || (size = ftell(file)) < 0) fail(path);
    it.length = (size_t)size;
    it.bytes = malloc(it.length + 1);
    rewind(file);
    if (it.bytes == NULL || fread(it.bytes, 1, it.length, file) != it.length) fail(path);
    it.bytes[it.length] = 0;
    fclose(file);
    return it;
}

static void read_windows(const char *folder) {
    struct text it = text_of(folder, "windows");
    windows = malloc(sizeof *windows * (it.length + 1));
    size_t read = 0;
    for (char *at = it.bytes, *end; (void)(windows[read] = (int)strtol(at, &end, 10)), end != at; at = end) read++;
    window_count = read / 4;
    free(it.bytes);
}

static void found(long long key) {
    rows++;
    sum += (unsigned long long)key;
}

/* The square of four numbers, as text. */
static int square(char *room, size_t size, const int *it) {
    return snprintf(room, size, "POLYGON((%d %d,%d %d,%d %d,%d %d,%d %d))", it[0], it[1], it[2], it[1], it[2], it[3], it[0], it[3], it[0], it[1]);
}

/* What a turn asks, by the engine's own calls: `ask` asks once, of the value of this number. */
struct engine {
    void (*load)(void);
    void (*leave)(void);
    void (*prepare)(const char *what);
    void (*ask)(size_t number);
};

/* ---- sfq ---- */

static const char SCHEMA[] = "CREATE TABLE point (id INTEGER PRIMARY KEY, n INTEGER, geom POINT);"
                             "CREATE TABLE parcel (id INTEGER PRIMARY KEY, geom POLYGON)";
static sfq_database database = {NULL};
static size_t statement;
static const char *asked;

static void sfq_call(int status, const char *what) {
    if (status != SFQ_OK) fail(what);
}

static void load_sfq(void) {
    sfq_call(sfq_open(SCHEMA, strlen(SCHEMA), &database, NULL), "sfq_open");
    sfq_call(sfq_load(&database, 0, point_text.bytes, point_text.length, NULL), "sfq_load");
    sfq_call(sfq_load(&database, 1, parcel_text.bytes, parcel_text.length, NULL), "sfq_load");
}

static void leave_sfq(void) { sfq_call(sfq_close(&database), "sfq_close"); }

/* Prepares the query, with a constant in the place of those that are put in later. */
static void prepare_sfq(const char *what) {
    const char *query = !strcmp(what, "windows") ? "SELECT id FROM point WHERE ST_Intersects(geom, ST_GeomFromText('POINT EMPTY'))"
                        : !strcmp(what, "join")  ? "SELECT a.id, b.id FROM point a JOIN parcel b ON ST_Intersects(a.geom, b.geom)"
                        : !strcmp(what, "keys")  ? "SELECT id FROM point WHERE id = 0"
                                                 : "SELECT id FROM point WHERE n = 0";
    asked = what;
    sfq_call(sfq_prepare(&database, query, strlen(query), &statement, NULL), "sfq_prepare");
}

/* Puts the constant of this number into the statement, and begins it anew. */
static void replace(size_t number) {
    char room[256];
    if (!strcmp(asked, "windows"))
        sfq_call(sfq_bind_geometry(&database, statement, 0, room, (size_t)square(room, sizeof room, windows + 4 * number), NULL), "sfq_bind_geometry");
    else
        sfq_call(sfq_bind_integer(&database, statement, 0, (int64_t)number), "sfq_bind_integer");
}

static void ask_sfq(size_t number) {
    int64_t key;
    int status, is_join = !strcmp(asked, "join");
    if (is_join)
        sfq_call(sfq_reset(&database, statement), "sfq_reset");
    else
        replace(number);
    while ((status = sfq_step(&database, statement, UINT64_MAX)) == SFQ_OK) {
        sfq_call(sfq_column_integer(&database, statement, 0, &key), "sfq_column_integer");
        found(key);
        if (is_join) {
            sfq_call(sfq_column_integer(&database, statement, 1, &key), "sfq_column_integer");
            sum += (unsigned long long)key;
        }
    }
    if (status != SFQ_NONE) fail("sfq_step");
}

/* ---- a table's text, by its fields: the numbers in it, in order ---- */

/* Takes the numbers of a line into a row, and returns the next line, or NULL at the end. */
static const char *numbers_of(const char *at, const char *end, long *row, size_t *count) {
    *count = 0;
    while (at < end && *at != '\n') {
        if (*at == '-' || (*at >= '0' && *at <= '9')) {
            char *after;
            row[(*count)++] = strtol(at, &after, 10);
            at = after;
        } else
            at++;
    }
    return at < end ? at + 1 : NULL;
}

static const char *second_line(struct text it) { return strchr(it.bytes, '\n') + 1; }

/* ---- sqlite ---- */

static sqlite3 *base;
static sqlite3_stmt *made;

static void sqlite_call(int status, const char *what) {
    if (status != SQLITE_OK && status != SQLITE_DONE) fail(what);
}

static void run_sqlite(const char *text) { sqlite_call(sqlite3_exec(base, text, NULL, NULL, NULL), text); }

static sqlite3_stmt *prepared(const char *text) {
    sqlite3_stmt *it;
    sqlite_call(sqlite3_prepare_v2(base, text, -1, &it, NULL), text);
    return it;
}

static void put(sqlite3_stmt *it, const long *values, int count) {
    for (int k = 0; k < count; k++) sqlite_call(sqlite3_bind_int64(it, k + 1, values[k]), "bind");
    sqlite_call(sqlite3_step(it), "insert");
    sqlite3_reset(it);
}

static void load_sqlite(void) {
    sqlite_call(sqlite3_open(":memory:", &base), "open");
    run_sqlite("CREATE TABLE point (id INTEGER PRIMARY KEY, n INTEGER, x INTEGER, y INTEGER);"
               "CREATE TABLE parcel (id INTEGER PRIMARY KEY, a INTEGER, b INTEGER, c INTEGER, d INTEGER);"
               "CREATE VIRTUAL TABLE points USING rtree_i32(id, a, c, b, d); CREATE VIRTUAL TABLE parcels USING rtree_i32(id, a, c, b, d); BEGIN");
    sqlite3_stmt *first = prepared("INSERT INTO point VALUES (?,?,?,?)"), *second = prepared("INSERT INTO parcel VALUES (?,?,?,?,?)");
    sqlite3_stmt *points = prepared("INSERT INTO points VALUES (?,?,?,?,?)"), *parcels = prepared("INSERT INTO parcels VALUES (?,?,?,?,?)");
    long row[64];
    size_t count;
    for (const char *at = second_line(point_text); at != NULL;) {
        at = numbers_of(at, point_text.bytes + point_text.length, row, &count);
        if (count < 4) continue;
        put(first, row, 4);
        put(points, (long[]){row[0], row[2], row[2], row[3], row[3]}, 5);
    }
    for (const char *at = second_line(parcel_text); at != NULL;) {
        at = numbers_of(at, parcel_text.bytes + parcel_text.length, row, &count);
        if (count < 11) continue;
        put(second, row, 5);
        put(parcels, (long[]){row[0], row[1], row[5], row[2], row[6]}, 5);
    }
    run_sqlite("COMMIT");
    sqlite3_finalize(first);
    sqlite3_finalize(second);
    sqlite3_finalize(points);
    sqlite3_finalize(parcels);
}

static void leave_sqlite(void) {
    sqlite3_finalize(made);
    made = NULL;
    sqlite_call(sqlite3_close(base), "close");
}

static void prepare_sqlite(const char *what) {
    asked = what;
    made = prepared(!strcmp(what, "windows")   ? "SELECT id FROM points WHERE c >= ? AND d >= ? AND a <= ? AND b <= ? ORDER BY id"
                    : !strcmp(what, "filters") ? "SELECT id FROM point WHERE n = ?"
                    : !strcmp(what, "keys")    ? "SELECT id FROM point WHERE id = ?"
                                               : "SELECT p.id, q.id FROM point p CROSS JOIN parcels q ON q.c >= p.x AND q.d >= p.y "
                                                 "AND q.a <= p.x AND q.b <= p.y ORDER BY p.id, q.id");
}

/* Takes all rows of the statement, and begins it anew. */
static void step_sqlite(void) {
    int is_join = !strcmp(asked, "join"), status;
    while ((status = sqlite3_step(made)) == SQLITE_ROW) {
        found(sqlite3_column_int64(made, 0));
        if (is_join) sum += (unsigned long long)sqlite3_column_int64(made, 1);
    }
    sqlite_call(status, "step");
    sqlite3_reset(made);
}

static void ask_sqlite(size_t number) {
    if (!strcmp(asked, "windows"))
        for (int k = 0; k < 4; k++) sqlite_call(sqlite3_bind_int(made, k + 1, windows[4 * number + (size_t)k]), "bind");
    else if (strcmp(asked, "join"))
        sqlite_call(sqlite3_bind_int64(made, 1, (sqlite3_int64)number), "bind");
    step_sqlite();
}

/* ---- sqlite with an extension ---- */

static const char *folder, *extension;

static void open_with_extension(void) {
    sqlite_call(sqlite3_open(":memory:", &base), "open");
    sqlite_call(sqlite3_db_config(base, SQLITE_DBCONFIG_ENABLE_LOAD_EXTENSION, 1, NULL), "config");
    sqlite_call(sqlite3_load_extension(base, extension, NULL, NULL), extension);
}

static void load_sfq0(void) {
    static const char *const tables[] = {"point", "parcel"};
    open_with_extension();
    for (int k = 0; k < 2; k++) {
        char *text = sqlite3_mprintf("CREATE VIRTUAL TABLE %s USING sfq(folder='%q', table='%s')", tables[k], folder, tables[k]);
        run_sqlite(text);
        sqlite3_free(text);
    }
}

/* Inserts the lines of a table: its numbers before the geometry, and the geometry. */
static void insert(const char *text, struct text table, int numbers) {
    sqlite3_stmt *it = prepared(text);
    for (const char *at = second_line(table), *end; (end = strchr(at, '\n')) != NULL; at = end + 1) {
        const char *shape = at + strcspn(at, "P"), *last = end - (end[-1] == '"');
        char *next = (char *)at;
        for (int k = 0; k < numbers; k++, next++) sqlite3_bind_int64(it, k + 1, strtol(next, &next, 10));
        sqlite_call(sqlite3_bind_text(it, numbers + 1, shape, (int)(last - shape), SQLITE_STATIC), "bind");
        sqlite_call(sqlite3_step(it), "insert");
        sqlite3_reset(it);
    }
    sqlite3_finalize(it);
}

static void load_spatialite(void) {
    open_with_extension();
    run_sqlite("CREATE TABLE point (id INTEGER PRIMARY KEY, n INTEGER, geom BLOB); CREATE TABLE parcel (id INTEGER PRIMARY KEY, geom BLOB);"
               "CREATE VIRTUAL TABLE points USING rtree(id, a, c, b, d); CREATE VIRTUAL TABLE parcels USING rtree(id, a, c, b, d); BEGIN");
    insert("INSERT INTO point VALUES (?, ?, ST_GeomFromText(?))", point_text, 2);
    insert("INSERT INTO parcel VALUES (?, ST_GeomFromText(?))", parcel_text, 1);
    run_sqlite("INSERT INTO points SELECT id, MbrMinX(geom), MbrMaxX(geom), MbrMinY(geom), MbrMaxY(geom) FROM point;"
               "INSERT INTO parcels SELECT id, MbrMinX(geom), MbrMaxX(geom), MbrMinY(geom), MbrMaxY(geom) FROM parcel; COMMIT");
}

static void prepare_sfq0(const char *what) {
    asked = what;
    made = prepared(!strcmp(what, "windows") ? "SELECT id FROM point WHERE ST_Intersects(geom, ?) ORDER BY id"
                                             : "SELECT p.id, q.id FROM point p JOIN parcel q ON ST_Intersects(p.geom, q.geom) ORDER BY p.id, q.id");
}

static void prepare_spatialite(const char *what) {
    asked = what;
    made = prepared(!strcmp(what, "windows") ? "SELECT p.id FROM points t CROSS JOIN point p ON p.id = t.id WHERE t.c >= ?1 AND t.d >= ?2 AND "
                                               "t.a <= ?3 AND t.b <= ?4 AND ST_Intersects(p.geom, BuildMbr(?1, ?2, ?3, ?4)) ORDER BY p.id"
                                             : "SELECT p.id, q.id FROM point p CROSS JOIN parcels t ON t.c >= MbrMinX(p.geom) AND "
                                               "t.d >= MbrMinY(p.geom) AND t.a <= MbrMaxX(p.geom) AND t.b <= MbrMaxY(p.geom) CROSS JOIN "
                                               "parcel q ON q.id = t.id WHERE ST_Intersects(p.geom, q.geom) ORDER BY p.id, q.id");
}

static void ask_sfq0(size_t number) {
    char room[256];
    if (!strcmp(asked, "windows"))
        sqlite_call(sqlite3_bind_text(made, 1, room, square(room, sizeof room, windows + 4 * number), SQLITE_STATIC), "bind");
    step_sqlite();
}

/* ---- GEOS ---- */

static GEOSContextHandle_t geos;
static GEOSSTRtree *point_tree, *parcel_tree;
static GEOSGeometry **points, **parcels;
static const GEOSPreparedGeometry **ready;
static long *point_keys, *parcel_keys;
static size_t point_count, parcel_count, *places, place_count;

static GEOSGeometry **shapes_of(struct text table, long **keys, size_t *count) {
    GEOSWKTReader *reader = GEOSWKTReader_create_r(geos);
    GEOSGeometry **shapes = NULL;
    size_t size = 0;
    *count = 0;
    for (char *at = (char *)second_line(table), *end; (end = strchr(at, '\n')) != NULL; at = end + 1) {
        char *text = at + strcspn(at, "P"), last = *end;
        if (*count == size) {
            size = 2 * size + 64;
            shapes = realloc(shapes, size * sizeof *shapes);
            *keys = realloc(*keys, size * sizeof **keys);
        }
        end[end[-1] == '"' ? -1 : 0] = 0;
        (*keys)[*count] = strtol(at, NULL, 10);
        if ((shapes[(*count)++] = GEOSWKTReader_read_r(geos, reader, text)) == NULL) fail("GEOSWKTReader_read");
        if (*end) end[-1] = '"';
        *end = last;
    }
    GEOSWKTReader_destroy_r(geos, reader);
    return shapes;
}

static void pass(void *place, void *data) { (void)place, (void)data; }

static GEOSSTRtree *tree_of(GEOSGeometry **shapes, size_t count) {
    GEOSSTRtree *tree = GEOSSTRtree_create_r(geos, 10);
    for (size_t k = 0; k < count; k++) GEOSSTRtree_insert_r(geos, tree, shapes[k], (void *)k);
    /* The first search builds it. */
    if (count) GEOSSTRtree_query_r(geos, tree, shapes[0], pass, NULL);
    return tree;
}

static void load_geos(void) {
    geos = GEOS_init_r();
    points = shapes_of(point_text, &point_keys, &point_count);
    parcels = shapes_of(parcel_text, &parcel_keys, &parcel_count);
    point_tree = tree_of(points, point_count);
    parcel_tree = tree_of(parcels, parcel_count);
    ready = calloc(parcel_count + 1, sizeof *ready);
    places = malloc(sizeof *places * (point_count + parcel_count + 1));
}

static void leave_geos(void) {
    GEOSSTRtree_destroy_r(geos, point_tree);
    GEOSSTRtree_destroy_r(geos, parcel_tree);
    for (size_t k = 0; k < point_count; k++) GEOSGeom_destroy_r(geos, points[k]);
    for (size_t k = 0; k < parcel_count; k++) {
        if (ready[k]) GEOSPreparedGeom_destroy_r(geos, ready[k]);
        GEOSGeom_destroy_r(geos, parcels[k]);
    }
    free(points), free(parcels), free(ready), free(places), free(point_keys), free(parcel_keys);
    points = parcels = NULL, point_keys = parcel_keys = NULL;
    GEOS_finish_r(geos);
}

static void note(void *place, void *data) {
    (void)data;
    places[place_count++] = (size_t)place;
}

static int compare(const void *first, const void *second) {
    size_t a = *(const size_t *)first, b = *(const size_t *)second;
    return (a > b) - (a < b);
}

static void candidates(GEOSSTRtree *tree, const GEOSGeometry *shape) {
    place_count = 0;
    GEOSSTRtree_query_r(geos, tree, shape, note, NULL);
    qsort(places, place_count, sizeof *places, compare);
}

static void prepare_geos(const char *what) {
    asked = what;
    if (!strcmp(what, "filters") || !strcmp(what, "keys")) fail(what);
    for (size_t k = 0; k < parcel_count && !strcmp(what, "join"); k++) ready[k] = GEOSPrepare_r(geos, parcels[k]);
}

static void ask_geos(size_t number) {
    if (!strcmp(asked, "windows")) {
        const int *it = windows + 4 * number;
        GEOSGeometry *shape = GEOSGeom_createRectangle_r(geos, it[0], it[1], it[2], it[3]);
        const GEOSPreparedGeometry *window = GEOSPrepare_r(geos, shape);
        candidates(point_tree, shape);
        for (size_t k = 0; k < place_count; k++)
            if (GEOSPreparedIntersects_r(geos, window, points[places[k]]) == 1) found(point_keys[places[k]]);
        GEOSPreparedGeom_destroy_r(geos, window);
        GEOSGeom_destroy_r(geos, shape);
        return;
    }
    for (size_t point = 0; point < point_count; point++) {
        candidates(parcel_tree, points[point]);
        for (size_t k = 0; k < place_count; k++)
            if (GEOSPreparedIntersects_r(geos, ready[places[k]], points[point]) == 1) {
                found(point_keys[point]);
                sum += (unsigned long long)parcel_keys[places[k]];
            }
    }
}

/* ---- a run ---- */

static size_t count_of(const char *what) {
    return !strcmp(what, "windows") ? window_count : !strcmp(what, "filters") ? FILTERS : !strcmp(what, "keys") ? KEYS : 1;
}

static const struct engine *engine_named(const char *name) {
    static const struct {
        const char *name;
        struct engine engine;
    } engines[] = {{"sfq", {load_sfq, leave_sfq, prepare_sfq, ask_sfq}},
                   {"sqlite", {load_sqlite, leave_sqlite, prepare_sqlite, ask_sqlite}},
                   {"geos", {load_geos, leave_geos, prepare_geos, ask_geos}},
                   {"sfq0", {load_sfq0, leave_sqlite, prepare_sfq0, ask_sfq0}},
                   {"spatialite", {load_spatialite, leave_sqlite, prepare_spatialite, ask_sqlite}}};
    for (size_t k = 0; k < sizeof engines / sizeof *engines; k++)
        if (!strcmp(engines[k].name, name)) return &engines[k].engine;
    fail(name);
    return NULL;
}

int main(int count, char **words) {
    if (count != 5 && count != 6) fail("usage: databases ENGINE WHAT TIMES FOLDER [EXTENSION]:");
    const struct engine *it = engine_named(words[1]);
    folder = words[4];
    extension = count == 6 ? words[5] : "";
    long times = strtol(words[3], NULL, 10);
    point_text = text_of(words[4], "point.csv");
    parcel_text = text_of(words[4], "parcel.csv");
    read_windows(words[4]);
    if (!strcmp(words[2], "load")) {
        CALLGRIND_START_INSTRUMENTATION;
        for (long k = 0; k < times; k++) {
            it->load();
            it->leave();
        }
        CALLGRIND_STOP_INSTRUMENTATION;
        return 0;
    }
    it->load();
    it->prepare(words[2]);
    CALLGRIND_START_INSTRUMENTATION;
    for (long k = 0; k < times; k++) {
        rows = sum = 0;
        for (size_t number = 0; number < count_of(words[2]); number++) it->ask(number);
    }
    CALLGRIND_STOP_INSTRUMENTATION;
    printf("%llu %llu\n", rows, sum);
    return 0;
}
