/* The floor of `SELECT id FROM pt WHERE ST_Within(geom, ST_GeomFromText(..))`, of points and a polygon of one ring.
 *
 *   window pt.csv WINDOW     WINDOW is a file with the polygon's text
 *
 * The plane is cut into slabs between equal steps of x, as many as the polygon has edges or so. A point asks the edges of its slab.
 */
#include "floor.h"

typedef struct { int32_t left, shift, count, *first, *edges; } Slabs;

static Slabs slabs_of(const Ring *ring) {
    Slabs slabs = {ring->box.least_x, 0, 0, NULL, NULL};
    int32_t width = ring->box.greatest_x - ring->box.least_x, sum = 0;
    while (width >> slabs.shift >= ring->count) slabs.shift++;
    slabs.count = (width >> slabs.shift) + 1;
    slabs.first = calloc((size_t)slabs.count + 2, sizeof(int32_t));
    for (int pass = 0; pass < 2; pass++) {
        for (int32_t k = 1; k < ring->count; k++) {
            Box box = box_of(ring->positions[k - 1], ring->positions[k]);
            int32_t end = (box.greatest_x - slabs.left) >> slabs.shift;
            for (int32_t slab = (box.least_x - slabs.left) >> slabs.shift; slab <= end; slab++) {
                if (pass == 0) slabs.first[slab + 2]++;
                else slabs.edges[slabs.first[slab + 1]++] = k;
            }
        }
        if (pass == 0) {
            for (int32_t k = 0; k < slabs.count; k++) sum = slabs.first[k + 2] += sum;
            slabs.edges = malloc((size_t)sum * sizeof(int32_t) + 1);
        }
    }
    return slabs;
}

static int is_within(const Ring *ring, const Slabs *slabs, Position p) {
    if (!box_holds(ring->box, p)) return 0;
    int32_t slab = (p.x - slabs->left) >> slabs->shift;
    int parity = 0;
    for (int32_t at = slabs->first[slab]; at < slabs->first[slab + 1]; at++) {
        int32_t k = slabs->edges[at];
        int found = crossing(ring->positions[k - 1], ring->positions[k], p);
        if (found < 0) return 0;
        parity ^= found;
    }
    return parity;
}

int main(int count, char **words) {
    if (count != 3) return 2;
    Text window = mapped(words[2]), text = behind_header(mapped(words[1]));
    Position *positions = malloc((size_t)(window.end - window.at) * sizeof(Position));
    behind_parenthesis(&window);
    window.at++;
    Ring ring = ring_of(&window, 0, positions);
    Slabs slabs = slabs_of(&ring);
    Pair *pairs = malloc(((size_t)(text.end - text.at) / 12 + 1) * sizeof(Pair));
    size_t found = 0;
    uint32_t greatest = 0;
    while (text.at < text.end) {
        uint32_t key = (uint32_t)number(&text);
        text.at += sizeof ",POINT(" - 1;
        Position p = position(&text);
        text.at++;
        if (is_within(&ring, &slabs, p)) {
            pairs[found++] = (Pair){key, 0};
            greatest |= key;
        }
    }
    pairs = sorted(pairs, found, greatest);
    put("id\n", 3);
    for (size_t k = 0; k < found; k++) put_number((int32_t)pairs[k].key, '\n');
    flush();
    return 0;
}
