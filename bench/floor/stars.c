/* The floor of the matrix of two polygons of one ring each whose rings cross: both are read, tested and related.
 *
 *   stars INPUT      INPUT is a file with a text a line
 *
 * A line that sweeps over the plane tests whether a ring is simple. Where two rings cross, only one cell of the matrix is open: whether
 * they share a stretch too. It ends with status 4 where a ring isn't simple, and with 1 where no edges cross.
 */
#include "floor.h"

/* An edge, its lesser end first, by x and then by y; and its place in its ring. */
typedef struct { Position lesser, greater; int32_t place, ring; } Edge;

static inline int comes_before(Position a, Position b) { return a.x < b.x || (a.x == b.x && a.y < b.y); }

static inline int64_t across(const Edge *e, const Edge *f) {
    return (int64_t)(e->greater.x - e->lesser.x) * (f->greater.y - f->lesser.y)
        - (int64_t)(e->greater.y - e->lesser.y) * (f->greater.x - f->lesser.x);
}

static inline int lie_apart(const Edge *e, const Edge *f) {
    int64_t one = side(e->lesser, e->greater, f->lesser), other = side(e->lesser, e->greater, f->greater);
    return (one > 0 && other > 0) || (one < 0 && other < 0);
}

static inline Box box_of_edge(const Edge *e) { return box_of(e->lesser, e->greater); }

static inline int share_point(const Edge *e, const Edge *f) {
    return boxes_meet(box_of_edge(e), box_of_edge(f)) && !lie_apart(e, f) && !lie_apart(f, e);
}

/* Whether two edges of a ring of so many share more than neighbours do. */
static int clash(const Edge *e, const Edge *f, int32_t edges) {
    if (!share_point(e, f)) return 0;
    int32_t apart = e->place < f->place ? f->place - e->place : e->place - f->place;
    if (apart != 1 && apart != edges - 1) return 1;
    int is_one_end = (e->lesser.x == f->lesser.x && e->lesser.y == f->lesser.y) || (e->greater.x == f->greater.x && e->greater.y == f->greater.y);
    return is_one_end && across(e, f) == 0;
}

static const Position *sorted_positions;

static int by_position(const void *a, const void *b) {
    Position p = sorted_positions[*(const int32_t *)a], q = sorted_positions[*(const int32_t *)b];
    return comes_before(q, p) - comes_before(p, q);
}

/* The edges that the line crosses, from below. */
typedef struct { const Edge **edges; int32_t count; } Front;

/* How many of them lie below a position. */
static inline int32_t below(const Front *front, Position p) {
    int32_t low = 0, high = front->count;
    while (low < high) {
        int32_t middle = (low + high) / 2;
        if (side(front->edges[middle]->lesser, front->edges[middle]->greater, p) > 0) low = middle + 1;
        else high = middle;
    }
    return low;
}

static inline int clash_at(const Front *front, int32_t place, int32_t edges) {
    return place > 0 && place < front->count && clash(front->edges[place - 1], front->edges[place], edges);
}

/* Moves the line over a position, at which two edges of the ring end or begin; returns whether they clash with those beside them. */
static int pass(Front *front, Position p, const Edge *one, const Edge *other, int32_t edges) {
    int32_t place = below(front, p), ends = 0;
    while (place + ends < front->count && (front->edges[place + ends] == one || front->edges[place + ends] == other)) ends++;
    int32_t wanted = (one->greater.x == p.x && one->greater.y == p.y) + (other->greater.x == p.x && other->greater.y == p.y);
    if (ends != wanted) return 1;
    int32_t begins = 2 - ends, behind = front->count - place - ends;
    memmove(front->edges + place + begins, front->edges + place + ends, (size_t)behind * sizeof(Edge *));
    front->count += begins - ends;
    if (begins == 2 && across(one, other) < 0) {
        const Edge *kept = one;
        one = other;
        other = kept;
    }
    if (begins == 1) front->edges[place] = one->lesser.x == p.x && one->lesser.y == p.y ? one : other;
    if (begins == 2) {
        front->edges[place] = one;
        front->edges[place + 1] = other;
    }
    for (int32_t k = 0; k <= begins; k++) {
        if (clash_at(front, place + k, edges)) return 1;
    }
    return 0;
}

static int is_simple(const Ring *ring, const Edge *edges) {
    int32_t count = ring->count - 1;
    Position first = ring->positions[0], last = ring->positions[count];
    if (count < 3 || first.x != last.x || first.y != last.y) return 0;
    int32_t *order = malloc((size_t)count * sizeof(int32_t));
    Front front = {malloc(((size_t)count + 2) * sizeof(Edge *)), 0};
    for (int32_t k = 0; k < count; k++) order[k] = k;
    sorted_positions = ring->positions;
    qsort(order, (size_t)count, sizeof(int32_t), by_position);
    for (int32_t k = 0; k < count; k++) {
        int32_t place = order[k];
        Position p = ring->positions[place];
        if (k > 0 && !comes_before(ring->positions[order[k - 1]], p)) return 0;
        if (pass(&front, p, &edges[place], &edges[place == 0 ? count - 1 : place - 1], count)) return 0;
    }
    return 1;
}

/* Whether inner parts of two edges have one common point. */
static inline int cross(const Edge *e, const Edge *f) {
    int64_t one = side(e->lesser, e->greater, f->lesser), other = side(e->lesser, e->greater, f->greater);
    if (one == 0 || other == 0 || (one < 0) == (other < 0)) return 0;
    one = side(f->lesser, f->greater, e->lesser), other = side(f->lesser, f->greater, e->greater);
    return one != 0 && other != 0 && (one < 0) != (other < 0);
}

static int some_cross(const Edge *edges, int32_t of_first, int32_t all) {
    for (int32_t k = 0; k < of_first; k++) {
        Box box = box_of_edge(&edges[k]);
        for (int32_t j = of_first; j < all; j++) {
            if (boxes_meet(box, box_of_edge(&edges[j])) && cross(&edges[k], &edges[j])) return 1;
        }
    }
    return 0;
}

static int by_direction(const void *a, const void *b) {
    int64_t turn = across(a, b);
    return (turn < 0) - (turn > 0);
}

/* Whether edges of different rings share a stretch: those of one direction, sorted, are compared. */
static int some_share(Edge *edges, int32_t all) {
    qsort(edges, (size_t)all, sizeof(Edge), by_direction);
    for (int32_t k = 0; k < all; k++) {
        for (int32_t j = k + 1; j < all && across(&edges[k], &edges[j]) == 0; j++) {
            const Edge *e = &edges[k], *f = &edges[j];
            if (e->ring != f->ring && side(e->lesser, e->greater, f->lesser) == 0
                && comes_before(e->lesser, f->greater) && comes_before(f->lesser, e->greater)) return 1;
        }
    }
    return 0;
}

int main(int count, char **words) {
    if (count != 2) return 2;
    Text text = mapped(words[1]);
    Position *positions = malloc((size_t)(text.end - text.at) * sizeof(Position));
    Edge *edges = malloc((size_t)(text.end - text.at) * sizeof(Edge));
    int32_t used = 0, starts[3] = {0, 0, 0};
    for (int k = 0; k < 2; k++) {
        behind_parenthesis(&text);
        text.at++;
        Ring ring = ring_of(&text, k, positions + used);
        Edge *own = edges + starts[k];
        for (int32_t j = 1; j < ring.count; j++) {
            Position a = ring.positions[j - 1], b = ring.positions[j];
            own[j - 1] = comes_before(a, b) ? (Edge){a, b, j - 1, k} : (Edge){b, a, j - 1, k};
        }
        if (!is_simple(&ring, own)) return 4;
        used += ring.count;
        starts[k + 1] = starts[k] + ring.count - 1;
    }
    if (!some_cross(edges, starts[1], starts[2])) return 1;
    put(some_share(edges, starts[2]) ? "212111212\n" : "212101212\n", 10);
    flush();
    return 0;
}
