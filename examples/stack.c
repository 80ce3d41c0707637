/* How much stack each function of cart.h takes. It is called on a stack that was filled with one byte; what no longer holds that
   byte was used. The count begins at the caller's frame, so the arguments are in it. Two bytes are tried, since a function may
   write the very one. The floors are document 01's example, a ring of eight squares, on which the way turns, and three rooms round
   the start, where the search stalls. */
#define _XOPEN_SOURCE 700
#include "cart.h"
#include "floor.h"
#include <stdio.h>
#include <string.h>
#include <ucontext.h>

enum { NODES = 4096, SIDE = 4, SQUARES = 8 };
static float floats[CART_NODE_FLOATS * NODES];
static uint32_t words[CART_NODE_WORDS * NODES];
static uint32_t tree[CART_NODE_TREE * NODES];
static uint32_t table[CART_ENTRY_WORDS * NODES];
static uint8_t found[CART_ROUTE_BYTES];
static float points[CART_POINTS_FLOATS];

/* The floor and the question at hand, and what came out. */
static const uint8_t *v, *p, *q;
static size_t v_length, p_length, found_length;
static uint32_t number;
static size_t steps, value;

static unsigned char stack[1 << 16];
static unsigned char *frame;
static ucontext_t here, there;

static void call_search(void) {
    frame = __builtin_frame_address(0);
    number = cart_search(v, v_length, p, p_length, q, 16, CART_BUDGET, floats, CART_NODE_FLOATS * NODES, words, CART_NODE_WORDS * NODES,
                         tree, CART_NODE_TREE * NODES, table, CART_ENTRY_WORDS * NODES, found, sizeof found, &steps, &value);
}

static void call_judge(void) {
    frame = __builtin_frame_address(0);
    number = cart_judge(v, v_length, p, p_length, q, 16, found, found_length, &value);
}

static void call_read_out(void) {
    frame = __builtin_frame_address(0);
    number = cart_read_out(v, v_length, p, p_length, q, 16, found, found_length, points, CART_POINTS_FLOATS, &value);
}

static void call_words(void) {
    frame = __builtin_frame_address(0);
    value = cart_words(22, found);
}

static size_t used_with(void (*call)(void), unsigned char paint) {
    size_t low = 0;
    memset(stack, paint, sizeof stack);
    getcontext(&there);
    there.uc_stack.ss_sp = stack;
    there.uc_stack.ss_size = sizeof stack;
    there.uc_link = &here;
    makecontext(&there, call, 0);
    swapcontext(&here, &there);
    while (stack[low] == paint) low++;
    return (size_t)(frame - (stack + low));
}

static size_t used(void (*call)(void)) {
    size_t one = used_with(call, 0xA5), other = used_with(call, 0x5A);
    return one > other ? one : other;
}

/* Searches, judges and reads out, and says what each took. */
static int measure(const char *name) {
    size_t searched = used(call_search);
    uint32_t search_number = number;
    size_t search_steps = steps;
    found_length = value;
    size_t judged = used(call_judge);
    uint32_t judge_number = number;
    size_t read = used(call_read_out);
    printf("%s (steps %zu, points %zu): cart_search %zu bytes of stack, cart_judge %zu, cart_read_out %zu\n", name, search_steps, value,
           searched, judged, read);
    int enough = searched <= CART_STACK_BYTES && judged <= CART_STACK_BYTES && read <= CART_STACK_BYTES;
    return enough && search_number == 0 && judge_number == 0 && number == 0;
}

/* A number as four little-endian bytes. */
static void put(uint8_t *at, uint32_t word) {
    for (int i = 0; i < 4; i++) at[i] = (uint8_t)(word >> (8 * i));
}

static void put_float(uint8_t *at, float x) {
    uint32_t bits;
    memcpy(&bits, &x, 4);
    put(at, bits);
}

static uint8_t ring_vertices[8 * SIDE * SIDE], ring_polygons[64 * SQUARES], ring_question[16];
static uint32_t corners[SQUARES][4];

/* The square across the edge from a to b, or none. */
static uint32_t across(uint32_t a, uint32_t b) {
    for (uint32_t s = 0; s < SQUARES; s++)
        for (int i = 0; i < 4; i++)
            if (corners[s][i] == b && corners[s][(i + 1) % 4] == a) return s;
    return 0xFFFFFFFF;
}

/* Three by three squares without the one in the middle, and a way from the first to the last. */
static void make_ring(void) {
    uint32_t s = 0;
    for (uint32_t i = 0; i < SIDE * SIDE; i++) {
        put_float(ring_vertices + 8 * i, (float)(i % SIDE));
        put_float(ring_vertices + 8 * i + 4, (float)(i / SIDE));
    }
    for (uint32_t i = 0; i < 9; i++) {
        uint32_t first = i / 3 * SIDE + i % 3;
        uint32_t round[4] = {first, first + 1, first + SIDE + 1, first + SIDE};
        if (i != 4) memcpy(corners[s++], round, sizeof round);
    }
    memset(ring_polygons, 0xFF, sizeof ring_polygons);
    for (s = 0; s < SQUARES; s++)
        for (int i = 0; i < 4; i++) {
            put(ring_polygons + 64 * s + 4 * i, corners[s][i]);
            put(ring_polygons + 64 * s + 32 + 4 * i, across(corners[s][i], corners[s][(i + 1) % 4]));
        }
    put_float(ring_question, 0.25f);
    put_float(ring_question + 4, 0.5f);
    put_float(ring_question + 8, 2.75f);
    put_float(ring_question + 12, 2.5f);
}

/* As in docs/DIFFERENCES.md: three quadrilaterals round the start, and the goal in a fourth polygon. */
enum { ROUND_VERTICES = 8, ROUND_POLYGONS = 4 };
static const float round_points[ROUND_VERTICES][2] = {{0, 0}, {1, 0}, {1, 1}, {0, 1}, {-1, 1}, {-1, -1}, {1, -1}, {2, -1}};
static const uint32_t round_corners[ROUND_POLYGONS][4] = {{0, 1, 2, 3}, {0, 3, 4, 5}, {0, 5, 6, 1}, {1, 7, 2, 0xFFFFFFFF}};
static const uint32_t round_across[ROUND_POLYGONS][4] = {{2, 3, 0xFFFFFFFF, 1}, {0, 0xFFFFFFFF, 0xFFFFFFFF, 2},
                                                        {1, 0xFFFFFFFF, 0xFFFFFFFF, 0}, {0xFFFFFFFF, 0xFFFFFFFF, 0, 0xFFFFFFFF}};
static uint8_t round_vertices[8 * ROUND_VERTICES], round_polygons[64 * ROUND_POLYGONS], round_question[16];

static void make_round(void) {
    for (int i = 0; i < ROUND_VERTICES; i++)
        for (int k = 0; k < 2; k++) put_float(round_vertices + 8 * i + 4 * k, round_points[i][k]);
    memset(round_polygons, 0xFF, sizeof round_polygons);
    for (int i = 0; i < ROUND_POLYGONS; i++)
        for (int k = 0; k < 4; k++) {
            put(round_polygons + 64 * i + 4 * k, round_corners[i][k]);
            put(round_polygons + 64 * i + 32 + 4 * k, round_across[i][k]);
        }
    put_float(round_question + 8, 2.0f);
    put_float(round_question + 12, -1.0f);
}

int main(void) {
    v = vertices, v_length = sizeof vertices, p = polygons, p_length = sizeof polygons, q = question;
    int right = measure("document 01's example");
    make_ring();
    v = ring_vertices, v_length = sizeof ring_vertices, p = ring_polygons, p_length = sizeof ring_polygons, q = ring_question;
    right = measure("a ring of squares") && right;
    make_round();
    v = round_vertices, v_length = sizeof round_vertices, p = round_polygons, p_length = sizeof round_polygons, q = round_question;
    right = measure("three rooms round the start") && right;
    printf("cart_words %zu bytes of stack\n", used(call_words));
    return right ? 0 : 1;
}
