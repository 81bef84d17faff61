/* The floor of `sfq check` over a table of polygons of one ring: whether each ring is closed and simple, and how many there are.
 *
 *   check_polygons NAME NAME.csv
 *
 * It ends with status 4 where a ring isn't. Neighbouring positions of a ring are taken to differ.
 */
#include "floor.h"

#define MOST 4096

static inline int share_point(Position a, Position b, Position c, Position d) {
    int64_t of_c = side(a, b, c), of_d = side(a, b, d);
    if ((of_c > 0 && of_d > 0) || (of_c < 0 && of_d < 0)) return 0;
    int64_t of_a = side(c, d, a), of_b = side(c, d, b);
    return !((of_a > 0 && of_b > 0) || (of_a < 0 && of_b < 0));
}

/* Whether the edge from b to c goes back over the one from a to b. */
static inline int goes_back(Position a, Position b, Position c) {
    return side(a, b, c) == 0 && (int64_t)(b.x - a.x) * (c.x - b.x) + (int64_t)(b.y - a.y) * (c.y - b.y) < 0;
}

static int is_simple(const Ring *ring) {
    const Position *at = ring->positions;
    int32_t edges = ring->count - 1;
    Box boxes[MOST];
    if (edges < 3 || edges > MOST || at[0].x != at[edges].x || at[0].y != at[edges].y) return 0;
    for (int32_t k = 0; k < edges; k++) boxes[k] = box_of(at[k], at[k + 1]);
    for (int32_t k = 0; k < edges; k++) {
        if (goes_back(at[k], at[k + 1], at[k + 1 == edges ? 1 : k + 2])) return 0;
        for (int32_t j = k + 2; j < edges - (k == 0); j++) {
            if (boxes_meet(boxes[k], boxes[j]) && share_point(at[k], at[k + 1], at[j], at[j + 1])) return 0;
        }
    }
    return 1;
}

int main(int count, char **words) {
    if (count != 3) return 2;
    Rings all = rings_of(behind_header(mapped(words[2])));
    for (int32_t k = 0; k < all.count; k++) {
        if (!is_simple(&all.rings[k])) return 4;
    }
    put(words[1], strlen(words[1]));
    put(" ", 1);
    put_number(all.count, '\n');
    flush();
    return 0;
}
