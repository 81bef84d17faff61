/*
 * Hands well-known binary and joins by chance to the calls of the C library, for tests/test_binaries.py:
 *
 *     fuzz_binaries SEED COUNT
 *     fuzz_binaries SEED SECONDSs
 *
 * makes COUNT values, in both orders of bytes, with flags and nested heads, each as it is and with bytes changed, added, left out or
 * cut off, and an eighth as many joins. A value that isn't changed has to be what sfq_read_positions makes of the same numbers, and a
 * join what a look at each pair finds. Prints what isn't so, and ends with status 1 then.
 */
#define _GNU_SOURCE
#include "../../bindings/c/sfq.h"
#include "chance.h"

/* The flag of a type behind which the number of a reference system comes. */
#define HAS_SYSTEM 0x20000000u

#define MOST 2000

/* A value as it is written, and the numbers that are in it. */
struct drawn {
    unsigned char bytes[MOST];
    size_t length;
    sfq_grid grid;
    bool rounds;
    uint32_t type, system;
    int32_t numbers[48];
    size_t count, line_count;
    size_t lines[8], polygons[8];
};

/* ---- values ---- */

static void write_number(struct drawn *to, uint64_t number, size_t size, bool is_little)
{
    size_t i;
    for (i = 0; i < size; i++)
        to->bytes[to->length++] = (unsigned char)(number >> 8 * (is_little ? i : size - 1 - i));
}

/* A head, in an order of bytes by chance, which is returned. */
static bool write_head(struct drawn *to, uint32_t type, bool has_system)
{
    bool is_little = chance(2) == 0;
    to->bytes[to->length++] = is_little;
    write_number(to, type | (has_system ? HAS_SYSTEM : 0), 4, is_little);
    if (has_system)
        write_number(to, to->system, 4, is_little);
    return is_little;
}

static void write_position(struct drawn *to, size_t at, bool is_little)
{
    int axis;
    for (axis = 0; axis < 2; axis++) {
        int64_t origin = axis == 0 ? to->grid.origin_x : to->grid.origin_y;
        double value = ((double)origin + (double)to->grid.step * to->numbers[2 * at + axis]) / (double)to->grid.parts;
        uint64_t bits;
        memcpy(&bits, &value, sizeof bits);
        write_number(to, bits, 8, is_little);
    }
}

static void write_line(struct drawn *to, size_t *at, size_t count, bool is_little)
{
    write_number(to, count, 4, is_little);
    while (count-- > 0)
        write_position(to, (*at)++, is_little);
}

static void write_rings(struct drawn *to, size_t *at, size_t *line, size_t count, bool is_little)
{
    write_number(to, count, 4, is_little);
    while (count-- > 0)
        write_line(to, at, to->lines[(*line)++], is_little);
}

static void write_value(struct drawn *to, bool has_system)
{
    size_t at = 0, line = 0, i;
    bool is_little = write_head(to, to->type, has_system);
    switch (to->type) {
    case SFQ_POINT:
        write_position(to, at, is_little);
        break;
    case SFQ_LINESTRING:
        write_line(to, &at, to->count, is_little);
        break;
    case SFQ_POLYGON:
        write_rings(to, &at, &line, to->line_count, is_little);
        break;
    case SFQ_MULTIPOINT:
        write_number(to, to->count, 4, is_little);
        for (i = 0; i < to->count; i++)
            write_position(to, i, write_head(to, SFQ_POINT, false));
        break;
    case SFQ_MULTILINESTRING:
        write_number(to, to->line_count, 4, is_little);
        while (line < to->line_count) {
            is_little = write_head(to, SFQ_LINESTRING, false);
            write_line(to, &at, to->lines[line++], is_little);
        }
        break;
    default:
        write_number(to, to->line_count, 4, is_little);
        for (i = 0; i < to->line_count; i++) {
            is_little = write_head(to, SFQ_POLYGON, false);
            write_rings(to, &at, &line, 1, is_little);
        }
    }
}

/* Squares beside one another, which are closed where five positions are a part. Some are moved so that they meet. */
static void draw(struct drawn *to)
{
    static const int32_t corners[][2] = { { 0, 0 }, { 9, 0 }, { 9, 9 }, { 0, 9 } };
    static const sfq_grid grids[] = {
        { 1, 0, 0, 1 }, { 1, 0, 0, 100 }, { 1, 56400000, 593500000, 100 }, { 2, -1, 7, 100000 }, { 1000, 12345, -5, 7 }, { 1, 80, 0, 10000000 },
    };
    size_t i;
    memset(to, 0, sizeof *to);
    to->grid = grids[chance(6)];
    to->rounds = to->grid.parts > 1 || chance(2) == 0;
    to->type = 1 + chance(6);
    to->line_count = to->type == SFQ_POINT || to->type == SFQ_LINESTRING || to->type == SFQ_MULTIPOINT ? 0 : 1 + chance(4);
    to->count = to->line_count > 0 ? 5 * to->line_count : to->type == SFQ_POINT ? 1 : 1 + chance(20);
    to->system = chance(70000);
    for (i = 0; i < to->count; i++) {
        int32_t by = chance(12) == 0 ? (int32_t)chance(20) : 0, beside = (int32_t)(chance(30) == 0 ? 0 : 20 * (i / 5));
        to->numbers[2 * i] = corners[i % 5 % 4][0] + by + beside;
        to->numbers[2 * i + 1] = corners[i % 5 % 4][1] + by;
    }
    if (chance(10) == 0)
        to->numbers[chance((unsigned)(2 * to->count))] = chance(2) == 0 ? 10000000 : 10000001;
    for (i = 0; i < to->line_count; i++) {
        to->lines[i] = 5;
        to->polygons[i] = 1;
    }
}

/* Reads a value: what is written goes with the status. */
static int read_value(struct room *room, const struct drawn *it, sfq_geometry *geometry, sfq_shift *shift, sfq_fault *fault)
{
    const sfq_grid *grid = it->rounds ? &it->grid : NULL;
    const void *value = put(room, it->bytes, it->length);
    int32_t system = 12345;
    int status = sfq_read_binary(grid, value, it->length, geometry, &system, shift, fault);
    need(status == SFQ_OK || system == 12345, "a system was written", "", 0);
    need(status == SFQ_OK || shift->positions == 0, "a shift was written", "", 0);
    need((status == SFQ_OK) == (geometry->kept != NULL), "a geometry", "", 0);
    need((status == SFQ_REFUSED) == (fault->letter != 'x'), "a fault", "", 0);
    return status;
}

/* The extent of a value that isn't changed, on its grid, has to be that of the numbers. */
static void try_extent(struct room *room, const struct drawn *it)
{
    double extent[4], nearest[4];
    int32_t least[2], greatest[2];
    size_t i, axis;
    for (axis = 0; axis < 2; axis++) {
        least[axis] = greatest[axis] = it->numbers[axis];
        for (i = 0; i < it->count; i++) {
            int32_t number = it->numbers[2 * i + axis];
            least[axis] = number < least[axis] ? number : least[axis];
            greatest[axis] = number > greatest[axis] ? number : greatest[axis];
        }
    }
    need(sfq_binaries_extent(put(room, it->bytes, it->length), &it->length, 1, extent) == SFQ_OK, "no extent", "", 0);
    for (i = 0; i < 4; i++) {
        int64_t origin = i < 2 ? it->grid.origin_x : it->grid.origin_y;
        nearest[i] = (extent[i] * (double)it->grid.parts - (double)origin) / (double)it->grid.step - (i % 2 == 0 ? least : greatest)[i / 2];
        need(nearest[i] > -0.01 && nearest[i] < 0.01, "another extent", "", 0);
    }
}

/* Takes a value apart: what it has fits into its bytes. Returns the status. */
static int take_apart(struct room *room, const struct drawn *it, sfq_pieces *pieces, sfq_fault *fault)
{
    static double coordinates[MOST / 4];
    static int32_t steps[MOST / 4];
    static size_t lines[MOST], elements[MOST];
    const sfq_pieces rooms = { coordinates, lines, elements, MOST / 8, MOST, MOST, 0, 0, 0, 0, steps };
    int status;
    *pieces = rooms;
    status = sfq_take_apart(it->rounds ? &it->grid : NULL, put(room, it->bytes, it->length), it->length, pieces, fault);
    need(status == SFQ_OK || status == SFQ_REFUSED || status == SFQ_UNKNOWN || status == SFQ_NONE, "another status of pieces", "", 0);
    need(16 * pieces->positions <= it->length && 4 * pieces->element_count <= it->length, "more than there is", "", 0);
    return status;
}

/* Takes a value apart that isn't changed: its steps are the numbers. */
static void try_apart(struct room *room, const struct drawn *it)
{
    sfq_pieces pieces;
    size_t i;
    need(take_apart(room, it, &pieces, NULL) == SFQ_OK && pieces.type == it->type && pieces.positions == it->count, "other pieces", "", 0);
    for (i = 0; i < 2 * it->count; i++)
        need(pieces.steps[i] == it->numbers[i], "another step", "", 0);
    for (i = 0; it->line_count > 0 && i < pieces.line_count; i++)
        need(pieces.line_count == it->line_count && pieces.lines[i] == it->lines[i], "another line", "", 0);
    need(pieces.element_count == (it->type <= SFQ_POLYGON ? 1 : it->type == SFQ_MULTIPOINT ? it->count : it->line_count), "elements", "", 0);
}

/* Reads a value that isn't changed: it is what the numbers are. */
static void try_value(struct room *room, const struct drawn *it)
{
    sfq_geometry read = SFQ_EMPTY, wanted = SFQ_EMPTY;
    sfq_fault fault = { 'x', 0, 0, 0 }, other = { 'x', 0, 0, 0 };
    sfq_shift shift = { 0, 0, 0, 0 };
    int status = read_value(room, it, &read, &shift, &fault);
    size_t polygons = it->type == SFQ_MULTIPOLYGON ? it->line_count : 0;
    int from = sfq_read_positions(it->type, it->numbers, it->count, it->lines, it->line_count, it->polygons, polygons, &wanted, &other);
    bool same = false;
    need(status == from && fault.letter == other.letter && fault.number == other.number && fault.first == other.first
             && fault.second == other.second,
         "another status than of the numbers", "", 0);
    if (status == SFQ_OK) {
        need(sfq_holds(SFQ_EQUALS, &read, &wanted, &same) == SFQ_OK && same, "another geometry than of the numbers", "", 0);
        need(shift.positions == it->count && shift.moved == 0, "another shift", "", 0);
        compare(&read);
    }
    sfq_free(&read);
    sfq_free(&wanted);
}

/* ---- values that are changed ---- */

static void change(struct drawn *it)
{
    unsigned turns = 1 + chance(3);
    while (turns-- > 0) {
        size_t at = it->length > 0 ? chance((unsigned)it->length) : 0;
        unsigned char byte = (unsigned char)(chance(3) == 0 ? chance(256) : chance(2) == 0 ? 255 : chance(8));
        switch (chance(6)) {
        case 0: /* another byte */
            it->bytes[at] = byte;
            break;
        case 1: /* one more */
            memmove(it->bytes + at + 1, it->bytes + at, it->length - at);
            it->bytes[at] = byte;
            it->length++;
            break;
        case 2: /* one less */
            if (it->length > 0)
                memmove(it->bytes + at, it->bytes + at + 1, --it->length - at);
            break;
        case 3: /* a count that lies, or flags, in the head */
            it->bytes[1 + chance(8)] = byte;
            break;
        case 4: /* four bytes as of a number that is too great */
            memset(it->bytes + at, byte, 4);
            it->length = it->length > at + 4 ? it->length : at + 4;
            break;
        default: /* cut off */
            it->length = at;
        }
    }
}

static void try_changed(struct room *room, struct drawn *it)
{
    sfq_geometry read = SFQ_EMPTY, many[2] = { SFQ_EMPTY, SFQ_EMPTY };
    sfq_fault fault = { 'x', 0, 0, 0 }, faults[2] = { { 'x', 0, 0, 0 }, { 'x', 0, 0, 0 } };
    sfq_shift shift = { 0, 0, 0, 0 };
    uint32_t statuses[2] = { 99, 99 };
    size_t lengths[2], done = 99;
    double extent[4];
    sfq_pieces pieces;
    sfq_fault other = { 'x', 0, 0, 0 };
    int status, apart;
    change(it);
    lengths[0] = it->length;
    lengths[1] = 0;
    status = read_value(room, it, &read, &shift, &fault);
    need(status == SFQ_OK || status == SFQ_REFUSED || status == SFQ_UNKNOWN, "another status of a binary", "", 0);
    need(fault.letter != 'W' || fault.number != 1 || fault.first <= it->length, "a place past the end", "", 0);
    if (status == SFQ_OK)
        compare(&read);
    apart = take_apart(room, it, &pieces, &other);
    need(status != SFQ_OK || apart == SFQ_OK, "a geometry without pieces", "", 0);
    need(apart != SFQ_REFUSED || (other.letter == 'W' && other.number == 1 && other.first <= it->length), "a fault of pieces", "", 0);
    need(sfq_read_binaries(it->rounds ? &it->grid : NULL, put(room, it->bytes, it->length), lengths, 2, many, statuses, faults, NULL, &done)
             == SFQ_OK && done == 2,
         "many", "", 0);
    need((lengths[0] == 0 ? statuses[0] == SFQ_NONE : (int)statuses[0] == status) && statuses[1] == SFQ_NONE, "a status of many", "", 0);
    need(faults[0].letter == fault.letter || lengths[0] == 0, "a fault of many", "", 0);
    status = sfq_binaries_extent(put(room, it->bytes, it->length), lengths, 2, extent);
    need(status == SFQ_NONE || (status == SFQ_OK && extent[0] <= extent[1] && extent[2] <= extent[3]), "an extent", "", 0);
    sfq_free_many(many, 2);
    sfq_free(&read);
}

/* ---- joins ---- */

#define SIDE 12

/* A geometry by chance, some of them empty and some missing. */
static void draw_geometry(sfq_geometry *geometry)
{
    int32_t x = (int32_t)chance(6), y = (int32_t)chance(6), w = 1 + (int32_t)chance(4);
    int32_t square[] = { x, y, x + w, y, x + w, y + w, x, y + w, x, y };
    size_t ring = 5;
    unsigned kind = chance(8);
    if (kind == 0)
        return;
    if (kind < 4)
        sfq_read_positions(SFQ_POLYGON, square, 5, &ring, 1, NULL, 0, geometry, NULL);
    else if (kind < 6)
        sfq_read_positions(SFQ_POINT, square, 1, NULL, 0, NULL, 0, geometry, NULL);
    else if (kind < 7)
        sfq_read_positions(SFQ_LINESTRING, square, 3, NULL, 0, NULL, 0, geometry, NULL);
    else
        sfq_read_positions(1 + chance(6), NULL, 0, NULL, 0, NULL, 0, geometry, NULL);
}

/* The second side of a join: geometries, and for points that aren't kept their coordinates; and an index of them. */
struct side {
    sfq_geometry *geometries;
    const int32_t *coordinates;
    size_t count;
    sfq_index index;
};

static int join(uint32_t relation, sfq_geometry *first, size_t *next, size_t end, struct side *second, size_t *room, size_t size, size_t *pairs)
{
    if (second->coordinates != NULL)
        return sfq_join_points(relation, first, next, end, second->coordinates, &second->index, room, size, pairs);
    return sfq_join(relation, first, next, end, second->geometries, second->count, &second->index, room, size, pairs);
}

/* Joins by rooms of a size by chance, and compares what each has with the next pairs of the plain loop. */
static void compare_join(uint32_t relation, sfq_geometry *first, size_t count, sfq_geometry *second, size_t second_count, const int32_t *coordinates)
{
    struct side side = { second, coordinates, second_count, SFQ_EMPTY };
    size_t room[2 * SIDE * SIDE], next = 0, pairs = 0, taken = 0, size = 1 + chance(20), i, j;
    int status = coordinates != NULL ? sfq_index_points(coordinates, second_count, &side.index, NULL) : sfq_index_geometries(second, second_count, &side.index);
    bool held = false;
    need(status == SFQ_OK, "no index", "", 0);
    for (i = 0; i < count; i++)
        for (j = 0; j < second_count; j++) {
            if (first[i].kept == NULL || second[j].kept == NULL)
                continue;
            need(sfq_holds(relation, &first[i], &second[j], &held) == SFQ_OK, "no answer", "", 0);
            if (!held)
                continue;
            while (taken == pairs && next < count) {
                size_t end = next + 1 + chance((unsigned)(count - next));
                status = join(relation, first, &next, end, &side, room, size, &pairs);
                taken = status == SFQ_OK ? 0 : taken;
                need(status == SFQ_OK || (status == SFQ_TOO_SMALL && size < second_count), "another status of a join", "", 0);
                size = status == SFQ_TOO_SMALL ? second_count : size;
            }
            need(taken < pairs && room[2 * taken] == i && room[2 * taken + 1] == j, "another pair", "", 0);
            taken++;
        }
    while (next < count && !wrong) {
        need(taken == pairs, "pairs too many", "", 0);
        taken = 0;
        if (join(relation, first, &next, count, &side, room, SIDE * SIDE, &pairs) != SFQ_OK)
            wrong = 1;
    }
    need(taken == pairs, "pairs too many at the end", "", 0);
    sfq_index_free(&side.index);
}

/* Joins with points by chance that aren't kept. Of other relations than these five there is no such join. */
static void try_points(sfq_geometry *first, size_t count)
{
    static const uint32_t relations[] = { SFQ_INTERSECTS, SFQ_TOUCHES, SFQ_CONTAINS, SFQ_COVERS, SFQ_CONTAINS_PROPERLY };
    sfq_geometry points[SIDE];
    int32_t coordinates[2 * SIDE];
    size_t second_count = chance(SIDE + 1), next = 0, room[2], pairs, i;
    memset(points, 0, sizeof points);
    for (i = 0; i < 2 * second_count; i++)
        coordinates[i] = (int32_t)chance(11);
    for (i = 0; i < second_count; i++)
        sfq_read_positions(SFQ_POINT, coordinates + 2 * i, 1, NULL, 0, NULL, 0, &points[i], NULL);
    compare_join(relations[chance(5)], first, count, points, second_count, coordinates);
    for (i = 0; i < SFQ_RELATIONS + 1; i++)
        if (i != SFQ_INTERSECTS && i != SFQ_TOUCHES && i != SFQ_CONTAINS && i != SFQ_COVERS && i != SFQ_CONTAINS_PROPERLY)
            need(sfq_join_points((uint32_t)i, first, &next, count, coordinates, NULL, room, 1, &pairs) == SFQ_UNKNOWN, "a join by another relation", "", 0);
    sfq_free_many(points, second_count);
}

static void try_join(void)
{
    sfq_geometry first[SIDE], second[SIDE];
    size_t count = chance(SIDE + 1), second_count = chance(SIDE + 1), i;
    memset(first, 0, sizeof first);
    memset(second, 0, sizeof second);
    for (i = 0; i < count; i++)
        draw_geometry(&first[i]);
    for (i = 0; i < second_count; i++)
        draw_geometry(&second[i]);
    compare_join(chance(SFQ_RELATIONS), first, count, second, second_count, NULL);
    compare_join(chance(SFQ_RELATIONS), first, count, first, count, NULL);
    try_points(first, count);
    sfq_free_many(first, SIDE);
    sfq_free_many(second, SIDE);
}

int main(int number, char **words)
{
    static struct drawn it;
    struct room room = make_room();
    long turns;
    if (number != 3)
        return 2;
    begin(words[1]);
    for (turns = 0; goes_on(words[2], turns) && !wrong; turns++) {
        draw(&it);
        write_value(&it, chance(3) == 0);
        try_value(&room, &it);
        try_extent(&room, &it);
        try_apart(&room, &it);
        try_changed(&room, &it);
        if (turns % 8 == 0)
            try_join();
    }
    return wrong;
}
