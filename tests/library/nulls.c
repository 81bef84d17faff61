/*
 * What bindings/c/sfq.c hands on where a caller's text or array is null: no byte and no item, whatever its length. The proved calls
 * are stand-ins here, which note how much they are handed; nothing behind a pointer is read.
 */
#include "../../bindings/c/sfq.c"

#include <stdio.h>

static size_t handed;

uint32_t sfq_proved_fault(const uint8_t *text, size_t length, sfq_fault *fault)
{
    (void)fault;
    handed += text != NULL ? length : 100;
    return SFQ_REFUSED;
}

uint32_t sfq_proved_relate_texts(const uint8_t *first, size_t first_length, const uint8_t *second, size_t second_length,
                                 uint8_t *matrix, sfq_fault *fault)
{
    (void)matrix;
    (void)fault;
    handed += first != NULL && second != NULL ? first_length + second_length : 100;
    return SFQ_REFUSED;
}

uint32_t sfq_proved_answer_texts(const uint8_t *first, size_t first_length, const uint8_t *second, size_t second_length,
                                 uint8_t *matrix, bool *holds, sfq_fault *fault)
{
    (void)holds;
    return sfq_proved_relate_texts(first, first_length, second, second_length, matrix, fault);
}

uint32_t sfq_proved_read(const uint8_t *text, size_t length, struct kept *slot, sfq_fault *fault)
{
    (void)slot;
    return sfq_proved_fault(text, length, fault);
}

uint32_t sfq_proved_read_positions(uint32_t type, const struct position *positions, size_t count, const size_t *lines,
                                   size_t line_count, const size_t *polygons, size_t polygon_count, struct kept *slot,
                                   sfq_fault *fault)
{
    (void)type;
    (void)slot;
    (void)fault;
    handed += positions != NULL && lines != NULL && polygons != NULL ? count + line_count + polygon_count : 100;
    return SFQ_REFUSED;
}

uint32_t sfq_proved_matches(struct kept first, struct kept second, const uint8_t *pattern, size_t length, bool *answer,
                            struct kept *first_back, struct kept *second_back)
{
    (void)answer;
    *first_back = first;
    *second_back = second;
    handed += pattern != NULL ? length : 100;
    return SFQ_UNKNOWN;
}

uint32_t sfq_proved_matches_itself(struct kept kept, const uint8_t *pattern, size_t length, bool *answer, struct kept *back)
{
    struct kept other;
    return sfq_proved_matches(kept, kept, pattern, length, answer, back, &other);
}

uint32_t sfq_proved_text(struct kept kept, uint8_t *room, size_t size, size_t *length, struct kept *back)
{
    *length = 0;
    *back = kept;
    handed += room != NULL ? size : 100;
    return SFQ_TOO_SMALL;
}

uint32_t sfq_proved_reason(const uint8_t *text, size_t text_length, uint8_t *room, size_t size, size_t *length, sfq_fault *fault)
{
    struct kept kept = { NULL };
    sfq_proved_text(kept, room, size, length, &kept);
    return sfq_proved_fault(text, text_length, fault);
}

uint32_t sfq_proved_index_build(const struct bounds *bounds, size_t count, struct kept *slot, size_t *position)
{
    (void)slot;
    handed += bounds != NULL && position != NULL ? count : 100;
    return SFQ_UNKNOWN;
}

uint32_t sfq_proved_index_search(struct kept kept, const struct bounds *window, size_t *room, size_t size, size_t *count,
                                 struct kept *back)
{
    *count = 0;
    *back = kept;
    handed += window != NULL && room != NULL ? size : 100;
    return SFQ_TOO_SMALL;
}

/* Nothing here asks for these, but one compiler keeps what does. */
uint32_t sfq_proved_envelope(struct kept kept, int32_t *bounds, struct kept *back)
{
    (void)bounds;
    *back = kept;
    return SFQ_UNKNOWN;
}

uint32_t sfq_proved_locate(struct kept kept, int32_t x, int32_t y, uint32_t *place, struct kept *back)
{
    (void)x;
    (void)y;
    (void)place;
    *back = kept;
    return SFQ_UNKNOWN;
}

uint32_t sfq_proved_holds_at(uint32_t relation, uint32_t place, bool *answer)
{
    (void)relation;
    (void)place;
    (void)answer;
    return SFQ_UNKNOWN;
}

int main(void)
{
    static const int32_t window[4] = { 0, 1, 0, 1 };
    char matrix[10];
    bool answers[SFQ_RELATIONS];
    size_t length;
    int one, two;
    sfq_index no_index = SFQ_EMPTY, index = { &one };
    sfq_geometry none = SFQ_EMPTY, first = { &one }, second = { &two };
    sfq_check(NULL, 9, NULL);
    sfq_relate_texts(NULL, 9, NULL, 9, matrix, NULL);
    sfq_answer_texts(NULL, 9, NULL, 9, matrix, answers, NULL);
    sfq_read(NULL, 9, &none, NULL);
    sfq_read_positions(SFQ_POLYGON, NULL, 9, NULL, 9, NULL, 9, &none, NULL);
    sfq_relate_pattern(&first, &second, NULL, 9, answers);
    sfq_relate_pattern(&first, &first, NULL, 9, answers);
    sfq_text(&first, NULL, 9, &length);
    sfq_reason(NULL, 9, NULL, 9, &length, NULL);
    sfq_index_build(NULL, 9, &no_index, NULL);
    sfq_index_points(NULL, 9, &no_index, NULL);
    sfq_index_search(&index, window, NULL, 9, &length);
    printf("%zu", handed);
    handed = 0;
    sfq_check("POINT", 5, NULL);
    sfq_relate_texts("P", 1, "L", 1, matrix, NULL);
    sfq_relate_pattern(&first, &second, "T********", 9, answers);
    sfq_index_build(window, 1, &no_index, &length);
    sfq_index_points(window, 2, &no_index, &length);
    printf(" %zu\n", handed);
    return 0;
}
