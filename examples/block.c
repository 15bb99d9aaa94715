/* Turns the plan of a block: 30 bays of 10 rows and 5 tiers, with a container in every place. tests/c-interface builds and runs it. */
#include "gillgrater.h"

#include <stdio.h>
#include <stdlib.h>

enum { BAYS = 30, ROWS = 10, TIERS = 5, PLACES = BAYS * ROWS * TIERS };

/* Bays, rows and tiers are counted from 1, and so are the axes. */
enum { G = 1, BAY = 1, ROW = 2 };

typedef struct {
    gillgrater_shape shape;
    int32_t elements[PLACES];
} array;

static array scalar(int32_t element)
{
    array a = { .elements = { element } };
    return a;
}

/* Each result has a buffer of its own: it must not overlap an operand. */
static array call(int32_t number, int32_t k, const array *l, const array *r)
{
    array result = scalar(0);
    gillgrater_answer answer = gillgrater_call(
        number, G, k, l->shape, l->elements, PLACES, r->shape, r->elements, PLACES, result.elements, PLACES);
    if (answer.number != 0) {
        printf("primitive %d is refused: %zu\n", (int)number, answer.number);
        exit(1);
    }
    result.shape = answer.shape;
    return result;
}

/* Containers 1 to 1,500 as they were stowed: tier by tier, row by row, bay by bay. */
static array stowed(void)
{
    array none = scalar(0);
    array places = scalar(PLACES);
    array lengths = { .shape = { 1, { 3 } }, .elements = { BAYS, ROWS, TIERS } };
    array numbers = call(GILLGRATER_INTERVAL, G, &none, &places);
    return call(GILLGRATER_RESHAPE, G, &lengths, &numbers);
}

/* A matrix, line by line, by the places that the kernel steps through. */
static void print_lines(const array *matrix)
{
    gillgrater_place place = { .end = false };
    for (size_t i = 0; !place.end; i++) {
        size_t column = place.positions[1];
        printf("%6d%s", (int)matrix->elements[i], column + 1 == matrix->shape.lens[1] ? "\n" : "");
        place = gillgrater_successor(place, matrix->shape);
    }
}

/* A bay as it is seen from its end: a column for each row, the highest tier on top. The bay is read where it stands in the plan. */
static void print_bay(const char *title, const array *plan, int32_t bay)
{
    gillgrater_answer item = gillgrater_item_shape(G, bay, plan->shape, plan->elements, PLACES);
    gillgrater_part part = gillgrater_item(G, bay, plan->shape, plan->elements, PLACES);
    array none = scalar(0);
    array upright = none;
    printf("\n%s, bay %d\n", title, (int)bay);
    if (item.number != 0) {
        printf("  refused: %zu\n", item.number);
        return;
    }
    upright.shape = gillgrater_call(
        GILLGRATER_TRANSPOSE, G, G, none.shape, none.elements, PLACES,
        item.shape, plan->elements + part.start, part.length, upright.elements, PLACES).shape;
    upright = call(GILLGRATER_REVERSE, G, &none, &upright);
    print_lines(&upright);
}

int main(void)
{
    /* A header beside an archive with other limits would hand shapes of another size. */
    if (gillgrater_max_rank() != GILLGRATER_MAX_RANK || gillgrater_max_count() != GILLGRATER_MAX_COUNT) {
        fputs("gillgrater.h has other limits than the archive\n", stderr);
        return EXIT_FAILURE;
    }
    array none = scalar(0);
    array one = scalar(1);
    array plan = stowed();
    printf("%d bays of %d rows and %d tiers: %zu containers\n", BAYS, ROWS, TIERS, gillgrater_count(plan.shape));
    print_bay("as stowed", &plan, 1);

    array moved = call(GILLGRATER_ROTATE, BAY, &one, &plan);
    print_bay("every bay moved up by one, the first to the end", &moved, 30);

    array mirrored = call(GILLGRATER_REVERSE, ROW, &none, &plan);
    print_bay("seen from the other end, rows reversed", &mirrored, 1);

    array seaside = call(GILLGRATER_SELECT, ROW, &one, &plan);
    array upright = call(GILLGRATER_TRANSPOSE, G, &none, &seaside);
    array first_bays = { .shape = { 1, { 2 } }, .elements = { TIERS, 10 } };
    upright = call(GILLGRATER_TAKE, G, &first_bays, &upright);
    upright = call(GILLGRATER_REVERSE, G, &none, &upright);
    printf("\nrow 1 from the side, its first 10 bays\n");
    print_lines(&upright);

    print_bay("as stowed", &plan, 31);
    return 0;
}
