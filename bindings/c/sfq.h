/*
 * sfq: the DE-9IM matrix of two geometries in well-known text, exactly (OGC 06-103r4).
 *
 * Geometries are points, lines and areas on a grid of whole coordinates, each from -10,000,000 to 10,000,000, with at most
 * 10,000 positions and 1,000 rings or elements. The proof ends at the calls of the crate sfq_c, by which bindings/c/sfq.c makes
 * those of this header: sfq.c itself is tested, not proved.
 *
 * Statuses. Each call returns one of the statuses below. Unless it is SFQ_OK, what the call would have written is as it was
 * before; what differs from that is said at the call.
 *
 * Pointers. A pointer to what a call writes must not be null, but for `fault`, which may be null where it isn't wanted. A text
 * or an array that is null is empty, whatever its length. A text needs no 0 at its end, and is the caller's. What a call writes
 * must not overlap anything else that it is handed.
 *
 * Geometries. An `sfq_geometry` is either empty, as SFQ_EMPTY makes it, or holds one geometry from sfq_read until sfq_free. A
 * copy of the struct isn't a second geometry: use one of the two only. A call that fails leaves the geometries that it was handed
 * as they were. The same holds of an `sfq_index`, from sfq_index_build until sfq_index_free.
 *
 * Threads. A geometry or an index serves one call at a time. Different ones may serve calls in different threads at once, and each
 * may go from one thread to another. There is no other state.
 *
 * Memory. Calls take memory by malloc and realloc, and give it back by free before they return, but for what a geometry or an index
 * holds.
 * Where memory is refused, the status is SFQ_OUT_OF_MEMORY. Calls were tested on stacks of 64 KB. No call may be made from a
 * signal handler, or in the forked child of a process that has threads.
 *
 * Versions. The number in the library's name, libsfq.so.0, changes when a call, a struct or a number below changes or goes. A
 * later version with the same number may add calls, and statuses for calls that are new.
 */
#ifndef SFQ_H
#define SFQ_H

#include <stdbool.h>
#include <stddef.h>
#include <stdint.h>

#ifdef __cplusplus
extern "C" {
#endif

/* The version of this header: 1,000,000 times the first number, 1,000 times the second, and the third. */
#define SFQ_VERSION 2000

/* What a call returns. */
enum sfq_status {
    SFQ_OK = 0,
    SFQ_REFUSED = 1,        /* the first or only text isn't that of a valid geometry */
    SFQ_SECOND_REFUSED = 2, /* the first text is, and the second isn't */
    SFQ_OUT_OF_MEMORY = 3,
    SFQ_UNKNOWN = 4,        /* no relation, pattern, position, envelope or type with such parts is written so */
    SFQ_TOO_SMALL = 5,      /* the room is too small */
    SFQ_NONE = 6,           /* there is no envelope: the geometry is empty */
    SFQ_NO_GEOMETRY = 7     /* a geometry or an index is empty that has to hold one, or holds one that has to be empty */
};

/*
 * Why a text is refused: its first fault. `letter` is 'W' for a fault of the text and 'V' for one of the geometry. Parts are
 * numbered from 0; rings through all elements of a geometry. What a fault doesn't use is 0.
 *
 *     W1  first: the byte, from 0, at which the text isn't well-known text, or at which it ends too soon
 *     W2  first: the byte at which a number begins that isn't whole
 *     W3  first: the byte at which a number begins that is past the limit
 *     W4  too many positions, rings or elements
 *     V1  first: the line or ring that has too few positions
 *     V2  first: the ring that isn't closed
 *     V3  first: the ring that touches or crosses itself
 *     V4  first and second: the rings of one element that meet
 *     V5  first: the hole that isn't inside its outer ring
 *     V6  first and second: the holes one of which is inside the other
 *     V7  first and second: the elements that meet
 *     V8  first and second: the first element is inside the second
 */
typedef struct sfq_fault {
    uint8_t letter;
    uint8_t number;
    size_t first;
    size_t second;
} sfq_fault;

/* A geometry that a program keeps, so that it is read and checked once. */
typedef struct sfq_geometry {
    void *kept;
} sfq_geometry;

/* An index of envelopes that a program keeps. */
typedef struct sfq_index {
    void *kept;
} sfq_index;

#define SFQ_EMPTY { NULL }

/*
 * A grid for the coordinates of a source: x becomes the whole number that is nearest to (x - origin) / step, and of two that are as
 * near the greater one. Step and origin count parts of the source's unit: 1, 56400000, 0 and 100 are a step of 0.01 and the origin
 * 564000 0. The step and the parts are from 1 to 10^15.
 */
typedef struct sfq_grid {
    int64_t step;
    int64_t origin_x;
    int64_t origin_y;
    int64_t parts;
} sfq_grid;

/* A coordinate that sfq_round writes for one past the limit, and that no geometry has. */
#define SFQ_PAST_LIMIT 10000001

/*
 * What a value of well-known binary has, and the rooms for it. Each room may be null, and then has none. A geometry that isn't of a
 * MULTI type is its one element. A point has one line of one position. An empty point or line has no line.
 */
typedef struct sfq_pieces {
    double *coordinates;   /* an x and a y for each position, as they are */
    size_t *lines;         /* how many positions each line or ring has */
    size_t *elements;      /* how many lines or rings each element has */
    size_t most_positions, most_lines, most_elements; /* how many there is room for */
    size_t positions, line_count, element_count;      /* how many there are */
    uint32_t type;         /* an `sfq_type`, or the number of another type where the status is SFQ_UNKNOWN */
    int32_t *steps;        /* as many as `coordinates`: where sfq_round puts the positions, if they are wanted */
} sfq_pieces;

/* What rounding did. A distance below 2^-20 parts of the source's unit counts as 0. */
typedef struct sfq_shift {
    size_t positions; /* how many there were */
    size_t moved;     /* how many of them aren't on the grid */
    size_t merged;    /* how many became the same as the one before them on a line or ring, and were left out */
    double greatest;  /* by how much a coordinate moved at most, in the source's unit */
} sfq_shift;

/* The relations of two geometries (06-103r4, 6.1.15.3). The last three are patterns that engines besides have. */
enum sfq_relation {
    SFQ_EQUALS = 0,
    SFQ_DISJOINT = 1,
    SFQ_INTERSECTS = 2,
    SFQ_TOUCHES = 3,
    SFQ_CROSSES = 4,
    SFQ_WITHIN = 5,
    SFQ_CONTAINS = 6,
    SFQ_OVERLAPS = 7,
    SFQ_COVERS = 8,            /* they share a point, and none of the second is outside the first */
    SFQ_COVERED_BY = 9,        /* they share a point, and none of the first is outside the second */
    SFQ_CONTAINS_PROPERLY = 10 /* they share a point, and all of the second is in the interior of the first */
};

#define SFQ_RELATIONS 11

/* The types of geometries, as well-known binary counts them (06-103r4, 8.2). */
enum sfq_type {
    SFQ_POINT = 1,
    SFQ_LINESTRING = 2,
    SFQ_POLYGON = 3,
    SFQ_MULTIPOINT = 4,
    SFQ_MULTILINESTRING = 5,
    SFQ_MULTIPOLYGON = 6
};

/* Where a position lies in a geometry (06-103r4, 6.1.15.2). */
enum sfq_place {
    SFQ_INTERIOR = 0,
    SFQ_BOUNDARY = 1,
    SFQ_EXTERIOR = 2
};

/* The version of the library, as SFQ_VERSION counts it. */
uint32_t sfq_version(void);

/* ---- texts ---- */

/* Whether a text is that of a valid geometry: SFQ_OK, or SFQ_REFUSED with the fault. */
int sfq_check(const char *text, size_t length, sfq_fault *fault);

/*
 * The DE-9IM matrix of the valid geometries that two texts spell (06-103r4, 6.1.15.2): nine characters, and a 0 after them. The
 * first text is read and checked before the second; the fault is that of the text that the status names.
 */
int sfq_relate_texts(const char *first, size_t first_length, const char *second, size_t second_length, char matrix[10],
                     sfq_fault *fault);

/* The same, and which of the relations hold, by their numbers. */
int sfq_answer_texts(const char *first, size_t first_length, const char *second, size_t second_length, char matrix[10],
                     bool holds[SFQ_RELATIONS], sfq_fault *fault);

/* ---- geometries that are kept ---- */

/* Reads a valid geometry from a text, and keeps it in `geometry`, which has to be empty. */
int sfq_read(const char *text, size_t length, sfq_geometry *geometry, sfq_fault *fault);

/*
 * The same from numbers: the geometry, or the fault, of the text of this `sfq_type` with these coordinates. There are `positions`
 * positions, each an x and a y. `lines` has how many positions each line or ring has, of SFQ_MULTILINESTRING, SFQ_POLYGON and
 * SFQ_MULTIPOLYGON, and `polygons` how many rings each polygon has, of SFQ_MULTIPOLYGON; elsewhere both are empty. None of these
 * numbers may be 0. An array that is null is empty. Without positions the geometry is EMPTY, and a position that is equal
 * to the one before it on a line or ring is left out, as in a text.
 *
 * SFQ_UNKNOWN where no type has such parts. A fault is W4, else W3 with the number of the position, from 0, in `first`, else one
 * of V1 to V8; so W4 comes before W3 also where a text has the number past the limit first.
 */
int sfq_read_positions(uint32_t type, const int32_t *coordinates, size_t positions, const size_t *lines, size_t line_count,
                       const size_t *polygons, size_t polygon_count, sfq_geometry *geometry, sfq_fault *fault);

/* Frees what a geometry holds, and leaves it empty. Null and an empty one do nothing. */
void sfq_free(sfq_geometry *geometry);

/* The same of each of `count` geometries. */
void sfq_free_many(sfq_geometry *geometries, size_t count);

/* The DE-9IM matrix of two geometries: nine characters, and a 0 after them. They may be the same. */
int sfq_relate(sfq_geometry *first, sfq_geometry *second, char matrix[10]);

/*
 * The matrices of `count` pairs, of `first[i]` and `second[i]`: nine characters each, one after another, without a 0 at the end. A
 * geometry may be in several pairs. `done` is written in any case: how many pairs have their matrix. The first pair whose status
 * isn't SFQ_OK ends the call, with that status, and its matrix and those after it are as they were.
 */
int sfq_relate_many(sfq_geometry *const *first, sfq_geometry *const *second, size_t count, char *matrices, size_t *done);

/*
 * The same of points and geometries: of the POINT at the position `i`, an x and a y, and `second[i]`. SFQ_REFUSED ends the call too,
 * where a coordinate is past the limit.
 */
int sfq_relate_points(const int32_t *coordinates, sfq_geometry *const *second, size_t count, char *matrices, size_t *done);

/* Whether a relation of `sfq_relation` holds of two geometries; SFQ_UNKNOWN for any other number. They may be the same. */
int sfq_holds(uint32_t relation, sfq_geometry *first, sfq_geometry *second, bool *answer);

/*
 * Whether the matrix of two geometries matches a pattern: nine characters T, F, *, 0, 1 or 2 (t and f too); SFQ_UNKNOWN for any
 * other bytes. They may be the same.
 */
int sfq_relate_pattern(sfq_geometry *first, sfq_geometry *second, const char *pattern, size_t length, bool *answer);

/*
 * The canonical text of a geometry, without a 0 at its end. `length` is written unless the status is SFQ_OUT_OF_MEMORY or
 * SFQ_NO_GEOMETRY: how many bytes the text has. The room has `size` bytes, of which those after the text are left as they were;
 * with too few the status is SFQ_TOO_SMALL. To ask for the length first, pass a null room of 0 bytes.
 */
int sfq_text(sfq_geometry *geometry, char *room, size_t size, size_t *length);

/* The dimension of a geometry's type: 0 of points, 1 of lines, 2 of areas, also where it is empty. */
int sfq_dimension(sfq_geometry *geometry, uint32_t *dimension);

/* Whether a geometry is the empty set of points. */
int sfq_is_empty(sfq_geometry *geometry, bool *empty);

/* The least x, the greatest x, the least y and the greatest y of a geometry; SFQ_NONE where it is the empty set. */
int sfq_envelope(sfq_geometry *geometry, int32_t bounds[4]);

/* Where the position (x, y) lies in a geometry, by `sfq_place`; SFQ_UNKNOWN where a coordinate is past the limit. */
int sfq_locate(sfq_geometry *geometry, int32_t x, int32_t y, uint32_t *place);

/*
 * The same of `count` positions, each an x and a y: one number each. `done` is written in any case: how many positions have their
 * place. The first one that is past the limit ends the call.
 */
int sfq_locate_many(sfq_geometry *geometry, const int32_t *coordinates, size_t count, uint32_t *places, size_t *done);

/*
 * Whether a relation of `sfq_relation` holds of each of `count` pairs, of `first[i]` and `second[i]`. `done` and the first pair whose
 * status isn't SFQ_OK are as in sfq_relate_many.
 */
int sfq_holds_many(uint32_t relation, sfq_geometry *const *first, sfq_geometry *const *second, size_t count, bool *answers, size_t *done);

/* ---- well-known binary ---- */

/*
 * Reads a valid geometry from well-known binary (06-103r4, 8.2), in either order of bytes, and keeps it in `geometry`, which has to be
 * empty. Its coordinates are rounded to the grid; where that is null they have to be whole numbers. A position that is the same as the
 * one before it on a line or ring is left out. `system` is the number of the reference system that PostGIS and GEOS may write, else 0.
 * The shift is added to what it has. Each of the last three may be null where it isn't wanted.
 *
 * SFQ_UNKNOWN for a type that isn't an `sfq_type` or has a Z or an M, for an element of a MULTI type or a ring that is empty, and for
 * a grid that is none. A fault is the first one: W1 with the byte at which the value isn't such a binary, ends too soon, goes on, or
 * has a coordinate that is infinite or no number; W2 or W3 with the number of the position, from 0, that isn't whole or is past the
 * limit; W4; else one of V1 to V8.
 */
int sfq_read_binary(const sfq_grid *grid, const void *binary, size_t length, sfq_geometry *geometry, int32_t *system,
                    sfq_shift *shift, sfq_fault *fault);

/*
 * The same of `count` values, which are one behind the other, with these lengths: `geometries[i]`, its status, and the fault where that
 * is SFQ_REFUSED. A value of no bytes leaves its geometry empty, with the status SFQ_NONE. `shift` may be null. `done` is written in
 * any case: how many values were read. The call returns SFQ_OK; or SFQ_OUT_OF_MEMORY, or SFQ_UNKNOWN for a grid that is none.
 */
int sfq_read_binaries(const sfq_grid *grid, const void *binaries, const size_t *lengths, size_t count, sfq_geometry *geometries,
                      uint32_t *statuses, sfq_fault *faults, sfq_shift *shift, size_t *done);

/*
 * Writes the well-known binary of a geometry at the front of the room, without a 0 behind it, and its length: the least byte of each
 * number first, no number of a reference system, and each coordinate as the double that is nearest to its place in the source. The
 * grid is the one that the geometry was read on; where it is null the numbers are the coordinates. Read again on that grid, the bytes
 * give the same geometry if the grid's origin is at most 10^14 steps away from 0. `length` is written where the status is SFQ_OK or
 * SFQ_TOO_SMALL. To ask for the length first, pass a null room. SFQ_UNKNOWN for a grid that is none.
 */
int sfq_write_binary(sfq_geometry *geometry, const sfq_grid *grid, void *room, size_t size, size_t *length);

/*
 * Takes a value apart, without limits: what it has goes into the rooms of `pieces`. What sfq_read_binary refuses for a coordinate or an
 * empty part is taken, and so are more positions and parts than a geometry may have. Where there are rooms for coordinates and for
 * steps, the positions are also rounded to the grid, as sfq_round does; SFQ_NONE if one can't be, with all else written.
 * SFQ_TOO_SMALL where a room is too small: then how many positions, lines and elements there are is written, and the type. SFQ_UNKNOWN
 * for a type that isn't an `sfq_type` or has a Z or an M, with its number, and for a grid that is none. SFQ_REFUSED for bytes that are
 * no such value, with W1 and the byte. On another status than SFQ_OK the rooms may be written.
 */
int sfq_take_apart(const sfq_grid *grid, const void *binary, size_t length, sfq_pieces *pieces, sfq_fault *fault);

/*
 * The least x, the greatest x, the least y and the greatest y of `count` such values, as they are. A value that can't be taken apart,
 * or has a coordinate that is infinite or no number, is left out. SFQ_NONE where there is no position.
 */
int sfq_binaries_extent(const void *binaries, const size_t *lengths, size_t count, double extent[4]);

/* ---- doubles ---- */

/*
 * Rounds positions to a grid, or to whole numbers where that is null: `steps` gets an x and a y for each, of which one past the limit is
 * SFQ_PAST_LIMIT. SFQ_REFUSED where a coordinate is infinite or no number, with the number of the first such position, from 0, in
 * `position`, which may be null; SFQ_UNKNOWN for a grid that is none.
 */
int sfq_round(const sfq_grid *grid, const double *coordinates, size_t positions, int32_t *steps, size_t *position);

/* ---- indexes of envelopes ---- */

/* The four bounds of the envelope of an empty geometry. */
#define SFQ_NO_BOUNDS { 0, -1, 0, -1 }

/*
 * Makes an index of `count` envelopes, and keeps it in `index`, which has to be empty. An envelope is four bounds, as sfq_envelope
 * writes them: the least x, the greatest x, the least y and the greatest y. SFQ_UNKNOWN where four are neither SFQ_NO_BOUNDS nor
 * bounds within the limit of which the least aren't past the greatest; `position` is then that of the first such, from 0. It may
 * be null where it isn't wanted.
 */
int sfq_index_build(const int32_t *bounds, size_t count, sfq_index *index, size_t *position);

/*
 * The positions, from 0 and ascending, of the envelopes that meet a window, which is four bounds too: that share a point with it, be
 * it on their sides. An envelope of an empty geometry meets only a window of SFQ_NO_BOUNDS, and such a window no other. `count` is
 * how many there are; it is written where the status is SFQ_OK or SFQ_TOO_SMALL. The room has `size` numbers, of which those after the
 * positions are left as they were; with too few the status is SFQ_TOO_SMALL. To ask for the count first, pass a null room.
 * SFQ_UNKNOWN where the window is null or has no bounds.
 */
int sfq_index_search(sfq_index *index, const int32_t window[4], size_t *room, size_t size, size_t *count);

/* Frees what an index holds, and leaves it empty. Null and an empty one do nothing. */
void sfq_index_free(sfq_index *index);

/* Makes an index of the envelopes of `count` geometries. One that holds none has SFQ_NO_BOUNDS there, as an empty geometry has. */
int sfq_index_geometries(sfq_geometry *geometries, size_t count, sfq_index *index);

/*
 * A join: the pairs of a geometry of `first`, from the place `*next` up to `end`, and one of the `second_count` of `second`, of which a
 * relation of `sfq_relation` holds. `index` is that of `second`, by sfq_index_geometries. `room` has places for `size` pairs, the place
 * of the first geometry and that of the second, from 0; `pairs` is how many there are. They ascend by the first, then the second. A
 * geometry that holds none is in no pair.
 *
 * The call ends before a geometry whose pairs may not fit any more, and `*next` is its place, or `end`. Where that is the one with
 * which it began, the status is SFQ_TOO_SMALL; `second_count` pairs are room enough for any. On another status than SFQ_OK, `*next` and
 * `pairs` are as they were, and the room may be written.
 */
int sfq_join(uint32_t relation, sfq_geometry *first, size_t *next, size_t end, sfq_geometry *second, size_t second_count,
             sfq_index *index, size_t *room, size_t size, size_t *pairs);

/*
 * Makes an index of `count` points, an x and a y each, for sfq_join_points. SFQ_UNKNOWN where a coordinate is past the limit; `position`
 * is then that of the first such point, from 0. It may be null where it isn't wanted.
 */
int sfq_index_points(const int32_t *coordinates, size_t count, sfq_index *index, size_t *position);

/*
 * A join with points that aren't kept: as sfq_join of `first` and the points of `coordinates`, of which `index` is that of
 * sfq_index_points. The relation is one of SFQ_INTERSECTS, SFQ_TOUCHES, SFQ_CONTAINS, SFQ_COVERS and SFQ_CONTAINS_PROPERLY, of a
 * geometry and a point; SFQ_UNKNOWN for another. As many pairs as there are points are room enough for any geometry.
 */
int sfq_join_points(uint32_t relation, sfq_geometry *first, size_t *next, size_t end, const int32_t *coordinates, sfq_index *index,
                    size_t *room, size_t size, size_t *pairs);

/* ---- why ---- */

/*
 * What shows each cell of the matrix of two geometries, in nine lines, each with a line feed at its end, as the command `sfq why`
 * prints them: "interior boundary 0 at 0 0", "interior exterior 1 from -2 2 to 0 0", "exterior interior 2 around 2 2", or
 * "interior interior F". The words are a part of the first geometry, a part of the second, the dimension of what both share, and
 * what shows it: a point, an open stretch by its ends, or a point with all points around it. A coordinate is n or n/d in lowest
 * terms. They may be the same geometry. `room`, `size` and `length` are as in sfq_text. It takes longer than sfq_relate.
 */
int sfq_why(sfq_geometry *first, sfq_geometry *second, char *room, size_t size, size_t *length);

/*
 * Whether the geometry of a text is valid, in one line with a line feed at its end, as `sfq why` prints it: "valid", or the first
 * fault and where it is, as "V3 0: 0 0 to 4 4 and 4 0 to 0 4 share 2 2". SFQ_REFUSED where the text spells no geometry, with its
 * fault, W1 to W4. `room`, `size` and `length` are as in sfq_text; where the status is SFQ_REFUSED, `length` is as it was.
 */
int sfq_reason(const char *text, size_t text_length, char *room, size_t size, size_t *length, sfq_fault *fault);

#ifdef __cplusplus
}
#endif

#endif
