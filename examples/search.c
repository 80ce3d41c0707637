/* What a controller does that finds its own way: a search on document 01's example floor, the judge on what was found, and the
   points that the cart drives to. Then a search that is refused. */
#include "show.h"
#include <string.h>

/* Room for a search of so many nodes, and for the longest route that they can make. */
enum { NODES = 64 };
static float floats[CART_NODE_FLOATS * NODES];
static uint32_t words[CART_NODE_WORDS * NODES];
static uint32_t tree[CART_NODE_TREE * NODES];
static uint32_t table[CART_ENTRY_WORDS * NODES];
static uint8_t found[CART_RECORD_BYTES * (NODES + 1)];

static uint32_t search(const uint8_t *asked, size_t *steps, size_t *value) {
    *value = none;
    return cart_search(vertices, sizeof vertices, polygons, sizeof polygons, asked, CART_QUESTION_BYTES, CART_BUDGET,
                       floats, sizeof floats / sizeof floats[0], words, sizeof words / sizeof words[0],
                       tree, sizeof tree / sizeof tree[0], table, sizeof table / sizeof table[0], found, sizeof found, steps, value);
}

static int find_route(size_t *length) {
    size_t steps = none;
    if (search(question, &steps, length) != 0) return 0;
    printf("found: %zu bytes, steps: %zu\n", *length, steps);
    return steps == 1 && *length == sizeof route && memcmp(found, route, sizeof route) == 0;
}

/* Nothing drives on the word of a search alone. */
static int judge_found(size_t length) {
    size_t record = none;
    uint32_t number = cart_judge(vertices, sizeof vertices, polygons, sizeof polygons, question, sizeof question, found, length, &record);
    say("the judge", number, record);
    return number == 0;
}

/* From (1,3), which no polygon contains: 8, with no record and no steps, and the output as it was. */
static int ask_from_outside(void) {
    uint8_t outside[CART_QUESTION_BYTES], before[sizeof found];
    size_t steps = none, value;
    memcpy(outside, question, sizeof outside);
    memcpy(before, found, sizeof found);
    memcpy(outside + 4, question + 8, 4);
    uint32_t number = search(outside, &steps, &value);
    say("from (1, 3)", number, value);
    return number == 8 && steps == 0 && value == none && memcmp(found, before, sizeof found) == 0;
}

int main(void) {
    size_t length;
    return find_route(&length) && judge_found(length) && list_points(found, length) && ask_from_outside() ? 0 : 1;
}
