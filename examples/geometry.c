/* Document 01's fixed examples of the geometry, asked from C, and the walk of one edge. */
#include "geometry.h"
#include <stdio.h>
#include <string.h>

static uint32_t bits(float x) {
    uint32_t pattern;
    memcpy(&pattern, &x, 4);
    return pattern;
}

static float number(uint32_t pattern) {
    float x;
    memcpy(&x, &pattern, 4);
    return x;
}

static int wrong;

/* One line an answer: what was asked, what came out, and whether that is what document 01 says. */
static void say(const char *asked, uint32_t found, uint32_t right) {
    printf("%s: %08x%s\n", asked, (unsigned)found, found == right ? "" : ", which is wrong");
    wrong += found != right;
}

int main(void) {
    const uint32_t zero = bits(0), one = bits(1), two = bits(2), three = bits(3), four = bits(4), minus = bits(-1), low = bits(-3);
    uint32_t point[2] = {zero, zero}, seen[4], walked[GEOMETRY_WALK_WORDS];

    say("side of (0,1) to (0,0)-(1,0)", geometry_side(zero, one, zero, zero, one, zero), GEOMETRY_LEFT);
    say("side of (0,NaN)", geometry_side(zero, 0x7FC00000, zero, zero, one, zero), GEOMETRY_RIGHT);
    say("(0,0)-(2,2) meets (2,0)-(0,2)", geometry_line_intersect_segment(zero, zero, two, two, two, zero, zero, two, point), 1);
    printf("  at (%g,%g)\n", number(point[0]), number(point[1]));
    wrong += point[0] != one || point[1] != one;
    say("  at the time", geometry_intersection_time(zero, zero, two, two, two, zero, zero, two), bits(0.5f));
    say("heuristic to (0,4)", geometry_heuristic(zero, zero, zero, four, one, two, minus, two), four);
    say("heuristic to (0,1)", geometry_heuristic(zero, zero, zero, one, one, two, minus, two), three);
    say("turning point for (4,4)", geometry_turning_point(zero, zero, four, four, one, two, minus, two, point), 1);
    printf("  at (%g,%g)\n", number(point[0]), number(point[1]));
    wrong += point[0] != one || point[1] != two;
    say("clip of (2,-3),(3,-3)", geometry_clip_to_cone(zero, zero, one, zero, zero, one, two, low, three, low, seen), 0);
    say("root of 2", geometry_root(two), 0x3FB504F3);
    say("parts of (4,4)-(-4,4)",
        geometry_walk_edge(zero, zero, one, two, minus, two, four, four, bits(-4), four, GEOMETRY_RIGHT_NON_OBSERVABLE, walked), 3);
    return wrong ? 1 : 0;
}
