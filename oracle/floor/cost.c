/* Looks at the largest floor, many times: cost FLOOR WHAT COUNT
   FLOOR is "linked" (no walls: the most that test 6 can ask for) or "walls" (walls only: the most that the turn vertices can).
   WHAT is "look" (tests 2 to 6) or "turn" (the same, then the turn vertices). Prints the answer and the nanoseconds of the
   quickest call. */
#include "../least.h"

#include <stdint.h>
#include <stdio.h>
#include <stdlib.h>
#include <string.h>

/* libfloor_c.a. A slice is its pointer and its length. */
uint32_t floor_look(const uint8_t *vertices, size_t vertices_length, const uint8_t *polygons, size_t polygons_length);
uint32_t floor_turn(const uint8_t *vertices, size_t vertices_length, const uint8_t *polygons, size_t polygons_length, size_t v);

enum { VERTICES = 1024, POLYGONS = 512, SLOTS = 8 };

static float vertices[VERTICES][2];
static uint32_t polygons[POLYGONS][2 * SLOTS];

/* Polygons 2k and 2k + 1 have the same eight corners, the second one in reverse and begun at another, and the other across each
   of their edges. Of the 8 edges of a polygon each one is then sought from across once: 1 + 2 + .. + 8 edges are looked at, which
   is the most, whatever the floor. Polygons like these overlap: winding and convexity are not tested. */
static void lay(int walls) {
    for (int v = 0; v < VERTICES; v++) {
        vertices[v][0] = (float)(v % 32) * 4.0f;
        vertices[v][1] = (float)(v / 32) * 4.0f;
    }
    for (int p = 0; p < POLYGONS; p++) {
        int pair = p / 2, odd = p % 2, turn = pair % SLOTS;
        for (int i = 0; i < SLOTS; i++) {
            int place = odd ? (2 * SLOTS - 1 - i - turn) % SLOTS : i;
            polygons[p][i] = (uint32_t)((pair * 4 + place) % VERTICES);
            polygons[p][SLOTS + i] = walls ? 0xFFFFFFFFu : (uint32_t)(p ^ 1);
        }
    }
}

static uint32_t answer;

static void look(void) {
    answer = floor_look((const uint8_t *)vertices, sizeof vertices, (const uint8_t *)polygons, sizeof polygons);
}

static void turn(void) {
    answer = floor_turn((const uint8_t *)vertices, sizeof vertices, (const uint8_t *)polygons, sizeof polygons, 0);
}

int main(int words, char **word) {
    if (words != 4) return 2;
    lay(strcmp(word[1], "walls") == 0);
    double quickest = least(strcmp(word[2], "turn") == 0 ? turn : look, atol(word[3]));
    printf("%u %.0f\n", answer, quickest);
    return 0;
}
