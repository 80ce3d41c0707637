/* What the examples print: an answer in plain words, and the points of a route on document 01's floor. */
#include "cart.h"
#include "floor.h"
#include <stdio.h>

/* What a record or a value is before a call that may write it. */
static const size_t none = (size_t)-1;

/* The number, the record where there is one, and the words: the line that the programs say. */
static void say(const char *what, uint32_t number, size_t record) {
    uint8_t words[CART_WORDS_BYTES];
    size_t count = cart_words(number, words);
    printf("%s: %u", what, (unsigned)number);
    if (record != none) printf(" at record %zu", record);
    printf("%s%.*s\n", number == 0 ? " " : ": ", (int)count, (const char *)words);
}

/* On one line. Answers whether they are just the goal, (3,1). The example's route has three records, and so at most three points. */
static int list_points(const uint8_t *bytes, size_t length) {
    float points[2 * 3];
    size_t count = 0;
    uint32_t number = cart_read_out(vertices, sizeof vertices, polygons, sizeof polygons, question, sizeof question, bytes, length,
                                    points, sizeof points / sizeof points[0], &count);
    if (number != 0) return 0;
    printf("its points:");
    for (size_t i = 0; i < count; i++) printf(" (%g, %g)", (double)points[2 * i], (double)points[2 * i + 1]);
    printf("\n");
    return count == 1 && points[0] == 3.0f && points[1] == 1.0f;
}
