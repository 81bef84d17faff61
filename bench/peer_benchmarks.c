/* What the benchmarks of GEOS and JTS ask, by the C library and by GEOS's C interface, for peer_benchmarks.py.
 *
 *   peer_benchmarks WHO ASKED NANOSECONDS INPUT
 *
 * INPUT has texts of geometries, one a line, and an empty line between the first ones and the others. ASKED is what a turn does:
 *
 *   intersects, contains, covers, touches, crosses, overlaps
 *                 whether this holds of each of the first ones and each of the others
 *   relate        the matrix of each of the first ones and each of the others
 *   locate        whether each of the first ones has each of the others, which are points
 *   read          each of the first texts is read, and freed
 *   test          the same, and its validity is tested
 *   build         an index of the envelopes of the first ones is made, searched by the first of the others, and freed
 *   search        an index that was made before is searched by the envelope of each of the others
 *
 * WHO is one of these:
 *
 *   sfq           the library, by geometries that it keeps; what it reads it also tests, and `locate` is handed coordinates
 *   geos          GEOS, by geometries
 *   prepared      GEOS, the first ones being prepared; of all that is asked of pairs, of relate from GEOS 3.13 on
 *
 * Without words it prints the version of GEOS, and whether it prepares relate, as 1 or 0.
 *
 * A turn is made before those that count, so that what is made once is there. Under valgrind's callgrind with --instr-atstart=no the
 * next one is counted. Then turns are timed, until they took so many nanoseconds of processor. It prints the answers of the last
 * turn, and the nanoseconds of the least one, or 0 where none is timed.
 */
#define GEOS_USE_ONLY_R_API
#include <geos_c.h>
#include <sfq.h>
#include <stdio.h>
#include <stdlib.h>
#include <string.h>
#include <time.h>
#include <valgrind/callgrind.h>

#if GEOS_VERSION_MAJOR > 3 || GEOS_VERSION_MINOR >= 13
#define PREPARES_RELATE 1
#else
#define PREPARES_RELATE 0
#endif

/* A text, and what either engine has of it. */
struct shape {
    char *text;
    size_t length;
    sfq_geometry kept;
    int32_t bounds[4];
    GEOSGeometry *geometry;
    const GEOSPreparedGeometry *prepared;
};

struct shapes {
    struct shape *items;
    size_t count;
};

/* A relation, by its name and the calls of either engine. */
struct relation {
    const char *name;
    uint32_t number;
    char (*holds)(GEOSContextHandle_t, const GEOSGeometry *, const GEOSGeometry *);
    char (*holds_prepared)(GEOSContextHandle_t, const GEOSPreparedGeometry *, const GEOSGeometry *);
};

static const struct relation RELATIONS[] = {
    {"intersects", SFQ_INTERSECTS, GEOSIntersects_r, GEOSPreparedIntersects_r},
    {"contains", SFQ_CONTAINS, GEOSContains_r, GEOSPreparedContains_r},
    {"covers", SFQ_COVERS, GEOSCovers_r, GEOSPreparedCovers_r},
    {"touches", SFQ_TOUCHES, GEOSTouches_r, GEOSPreparedTouches_r},
    {"crosses", SFQ_CROSSES, GEOSCrosses_r, GEOSPreparedCrosses_r},
    {"overlaps", SFQ_OVERLAPS, GEOSOverlaps_r, GEOSPreparedOverlaps_r},
    /* Of a point, `locate` is this by GEOS. */
    {"locate", SFQ_INTERSECTS, GEOSIntersects_r, GEOSPreparedIntersects_r},
};

static struct shapes firsts, others;
static const struct relation *relation;
static GEOSContextHandle_t geos;
static GEOSWKTReader *reader;
/* What a turn finds: a byte or nine for each answer, or how many envelopes and the sum of their places. */
static char *answers;
static size_t written;
static unsigned long long found, sum;
/* The bounds of the first ones, one behind the other, and room for their places. */
static int32_t *bounds;
static size_t *room;
static sfq_index kept_index = SFQ_EMPTY;
static GEOSSTRtree *tree;

static void need(int is_well, const char *what) {
    if (!is_well) {
        fprintf(stderr, "%s failed\n", what);
        exit(5);
    }
}

static void answer(int holds) { answers[written++] = holds ? '1' : '0'; }

/* ---- sfq ---- */

static void read_by_sfq(struct shape *it) {
    need(sfq_read(it->text, it->length, &it->kept, NULL) == SFQ_OK, "sfq_read");
    need(sfq_envelope(&it->kept, it->bounds) == SFQ_OK, "sfq_envelope");
}

static void holds_by_sfq(struct shape *first, struct shape *other) {
    bool holds;
    need(sfq_holds(relation->number, &first->kept, &other->kept, &holds) == SFQ_OK, "sfq_holds");
    answer(holds);
}

static void relate_by_sfq(struct shape *first, struct shape *other) {
    char matrix[10];
    need(sfq_relate(&first->kept, &other->kept, matrix) == SFQ_OK, "sfq_relate");
    memcpy(answers + written, matrix, 9);
    written += 9;
}

static void locate_by_sfq(struct shape *first, struct shape *other) {
    uint32_t place;
    need(sfq_locate(&first->kept, other->bounds[0], other->bounds[2], &place) == SFQ_OK, "sfq_locate");
    answer(place != SFQ_EXTERIOR);
}

static void read_again_by_sfq(struct shape *first) {
    sfq_geometry again = SFQ_EMPTY;
    answer(sfq_read(first->text, first->length, &again, NULL) == SFQ_OK);
    sfq_free(&again);
}

static void build_by_sfq(void) {
    need(sfq_index_build(bounds, firsts.count, &kept_index, NULL) == SFQ_OK, "sfq_index_build");
}

static void leave_by_sfq(void) { sfq_index_free(&kept_index); }

static void search_by_sfq(struct shape *window) {
    size_t count;
    need(sfq_index_search(&kept_index, window->bounds, room, firsts.count, &count) == SFQ_OK, "sfq_index_search");
    found += count;
    for (size_t i = 0; i < count; i++) sum += room[i];
}

/* ---- GEOS ---- */

static GEOSGeometry *geometry_of(const char *text) {
    GEOSGeometry *it = GEOSWKTReader_read_r(geos, reader, text);
    need(it != NULL, "GEOSWKTReader_read");
    return it;
}

static void read_by_geos(struct shape *it) { it->geometry = geometry_of(it->text); }

static void holds_by_geos(struct shape *first, struct shape *other) {
    answer(relation->holds(geos, first->geometry, other->geometry) == 1);
}

static void holds_by_prepared(struct shape *first, struct shape *other) {
    answer(relation->holds_prepared(geos, first->prepared, other->geometry) == 1);
}

/* Notes a matrix, and frees it. */
static void note_matrix(char *matrix) {
    need(matrix != NULL, "GEOSRelate");
    memcpy(answers + written, matrix, 9);
    written += 9;
    GEOSFree_r(geos, matrix);
}

static void relate_by_geos(struct shape *first, struct shape *other) {
    note_matrix(GEOSRelate_r(geos, first->geometry, other->geometry));
}

#if PREPARES_RELATE
static void relate_by_prepared(struct shape *first, struct shape *other) {
    note_matrix(GEOSPreparedRelate_r(geos, first->prepared, other->geometry));
}
#else
#define relate_by_prepared NULL
#endif

static void read_again_by_geos(struct shape *first) {
    GEOSGeometry *again = geometry_of(first->text);
    answer(1);
    GEOSGeom_destroy_r(geos, again);
}

static void test_by_geos(struct shape *first) {
    GEOSGeometry *again = geometry_of(first->text);
    answer(GEOSisValid_r(geos, again) == 1);
    GEOSGeom_destroy_r(geos, again);
}

static void build_by_geos(void) {
    tree = GEOSSTRtree_create_r(geos, 10);
    for (size_t i = 0; i < firsts.count; i++) GEOSSTRtree_insert_r(geos, tree, firsts.items[i].geometry, &room[i]);
}

static void leave_by_geos(void) { GEOSSTRtree_destroy_r(geos, tree); }

static void note(void *place, void *data) {
    (void)data;
    found++;
    sum += (unsigned long long)((size_t *)place - room);
}

static void search_by_geos(struct shape *window) { GEOSSTRtree_query_r(geos, tree, window->geometry, note, NULL); }

/* ---- turns ---- */

/* What a turn does: of each pair, of each of the first ones, or of an index. One of these three is there. */
struct ways {
    void (*of_pair)(struct shape *, struct shape *);
    void (*of_first)(struct shape *);
    void (*build)(void), (*leave)(void), (*search)(struct shape *);
};

static void turn(const struct ways *ways, int is_build) {
    written = found = sum = 0;
    for (size_t i = 0; i < firsts.count && ways->of_first != NULL; i++) ways->of_first(&firsts.items[i]);
    for (size_t i = 0; i < firsts.count && ways->of_pair != NULL; i++)
        for (size_t k = 0; k < others.count; k++) ways->of_pair(&firsts.items[i], &others.items[k]);
    if (ways->search == NULL) return;
    if (is_build) ways->build();
    for (size_t k = 0; k < (is_build ? 1 : others.count); k++) ways->search(&others.items[k]);
    if (is_build) ways->leave();
}

static double now(void) {
    struct timespec it;
    clock_gettime(CLOCK_PROCESS_CPUTIME_ID, &it);
    return 1e9 * (double)it.tv_sec + (double)it.tv_nsec;
}

/* The nanoseconds of the least of the turns that take so many. */
static double least_turn(const struct ways *ways, int is_build, double nanoseconds) {
    double least = 0;
    for (double taken = 0; taken < nanoseconds;) {
        double begun = now();
        turn(ways, is_build);
        double it = now() - begun;
        least = taken == 0 || it < least ? it : least;
        taken += it;
    }
    return least;
}

static struct ways ways_of(const char *who, const char *asked) {
    int is_sfq = strcmp(who, "sfq") == 0, is_prepared = strcmp(who, "prepared") == 0;
    struct ways it = {NULL, NULL, NULL, NULL, NULL};
    for (size_t i = 0; i < sizeof RELATIONS / sizeof *RELATIONS; i++)
        if (strcmp(asked, RELATIONS[i].name) == 0) relation = &RELATIONS[i];
    if (strcmp(asked, "relate") == 0) it.of_pair = is_sfq ? relate_by_sfq : is_prepared ? relate_by_prepared : relate_by_geos;
    else if (strcmp(asked, "read") == 0) it.of_first = is_sfq ? read_again_by_sfq : read_again_by_geos;
    else if (strcmp(asked, "test") == 0) it.of_first = is_sfq ? read_again_by_sfq : test_by_geos;
    else if (strcmp(asked, "build") == 0 || strcmp(asked, "search") == 0)
        it = is_sfq ? (struct ways){NULL, NULL, build_by_sfq, leave_by_sfq, search_by_sfq}
                    : (struct ways){NULL, NULL, build_by_geos, leave_by_geos, search_by_geos};
    else if (is_sfq) it.of_pair = strcmp(asked, "locate") == 0 ? locate_by_sfq : holds_by_sfq;
    else it.of_pair = is_prepared ? holds_by_prepared : holds_by_geos;
    need(it.of_pair != holds_by_sfq || relation != NULL, asked);
    return it;
}

/* ---- input ---- */

static void add(struct shapes *to, const char *text, size_t length) {
    if (to->count % 1024 == 0) to->items = realloc(to->items, (to->count + 1024) * sizeof *to->items);
    struct shape it = {strndup(text, length), length, SFQ_EMPTY, {0, 0, 0, 0}, NULL, NULL};
    need(to->items != NULL && it.text != NULL, "memory");
    to->items[to->count++] = it;
}

static void read_input(const char *path) {
    char *line = NULL;
    size_t size = 0;
    ssize_t length;
    struct shapes *to = &firsts;
    FILE *file = fopen(path, "r");
    need(file != NULL, path);
    while ((length = getline(&line, &size, file)) > 0) {
        if (line[length - 1] == '\n') length--;
        if (length == 0) to = &others;
        else add(to, line, (size_t)length);
    }
    free(line);
    fclose(file);
}

/* Reads the texts by the engine that is asked. */
static void keep(const char *who) {
    struct shapes *all[] = {&firsts, &others};
    int is_sfq = strcmp(who, "sfq") == 0;
    geos = GEOS_init_r();
    reader = GEOSWKTReader_create_r(geos);
    for (int i = 0; i < 2; i++)
        for (size_t k = 0; k < all[i]->count; k++) (is_sfq ? read_by_sfq : read_by_geos)(&all[i]->items[k]);
    for (size_t i = 0; i < firsts.count && strcmp(who, "prepared") == 0; i++)
        firsts.items[i].prepared = GEOSPrepare_r(geos, firsts.items[i].geometry);
    bounds = calloc(firsts.count, 4 * sizeof *bounds);
    room = calloc(firsts.count, sizeof *room);
    need(bounds != NULL && room != NULL, "memory");
    for (size_t i = 0; i < firsts.count; i++) memcpy(bounds + 4 * i, firsts.items[i].bounds, sizeof firsts.items[i].bounds);
}

int main(int number, char **words) {
    if (number == 1) return printf("%s %d\n", GEOSversion(), PREPARES_RELATE) < 0;
    if (number != 5) return 2;
    int is_build = strcmp(words[2], "build") == 0;
    read_input(words[4]);
    keep(words[1]);
    struct ways ways = ways_of(words[1], words[2]);
    answers = calloc(ways.search != NULL ? 1 : firsts.count * (others.count + 1), 9);
    need(answers != NULL, "memory");
    if (ways.search != NULL && !is_build) ways.build();
    turn(&ways, is_build);
    CALLGRIND_START_INSTRUMENTATION;
    turn(&ways, is_build);
    CALLGRIND_STOP_INSTRUMENTATION;
    double least = least_turn(&ways, is_build, atof(words[3]));
    printf("%.*s %llu %llu\n%.0f\n", (int)written, answers, found, sum, least);
    return 0;
}
