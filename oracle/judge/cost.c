/* Judges a long route on the largest floor: cost WHAT RECORDS COUNT
   The route goes round and round the start, from sector to sector, as a true route may: every middle record is a permitted step.
   WHAT is "end": its last record is not the true end, so the judge reads all of them and answers 23 with the last; or "wrong": the
   one before it is no step, which costs a walk all round the polygon, and the judge answers 22 with it. Prints the answer, the record and
   the nanoseconds of the quickest call. */
#include "../least.h"

#include "cart.h"
#include <stdio.h>
#include <stdlib.h>
#include <string.h>

enum { VERTICES = 1024, POLYGONS = 512, SLOTS = 8, SECTORS = 3, MOST = 4097 };

/* Points on a circle of radius 8. */
static const float circle[(SLOTS - 2) * SECTORS][2] = {
    {8.0000f, 0.0000f},
    {7.5175f, 2.7362f},
    {6.1284f, 5.1423f},
    {4.0000f, 6.9282f},
    {1.3892f, 7.8785f},
    {-1.3892f, 7.8785f},
    {-4.0000f, 6.9282f},
    {-6.1284f, 5.1423f},
    {-7.5175f, 2.7362f},
    {-8.0000f, 0.0000f},
    {-7.5175f, -2.7362f},
    {-6.1284f, -5.1423f},
    {-4.0000f, -6.9282f},
    {-1.3892f, -7.8785f},
    {1.3892f, -7.8785f},
    {4.0000f, -6.9282f},
    {6.1284f, -5.1423f},
    {7.5175f, -2.7362f},
};

static float vertices[VERTICES][2];
static uint32_t polygons[POLYGONS][2 * SLOTS];
static uint32_t route[MOST][8];

static uint32_t bits(float x) {
    uint32_t b;
    memcpy(&b, &x, sizeof b);
    return b;
}

/* Vertex 0 is the start. Sector s has it and seven corners on a circle, and the next sector across its last edge. The goal is in
   polygon SECTORS, far off. All other polygons are pairs that have each other across every edge, and touch neither. */
static void lay(void) {
    int corners = (SLOTS - 2) * SECTORS;
    for (int k = 0; k < corners; k++) {
        vertices[1 + k][0] = circle[k][0];
        vertices[1 + k][1] = circle[k][1];
    }
    for (int v = 1 + corners; v < VERTICES; v++) {
        vertices[v][0] = 100.0f + (float)(v % 32) * 4.0f;
        vertices[v][1] = 100.0f + (float)(v / 32) * 4.0f;
    }
    memset(polygons, 0xFF, sizeof polygons);
    for (int s = 0; s < SECTORS; s++) {
        for (int i = 1; i < SLOTS; i++) polygons[s][i] = (uint32_t)(1 + ((SLOTS - 2) * s + i - 1) % corners);
        polygons[s][0] = 0;
        polygons[s][SLOTS + SLOTS - 1] = (uint32_t)((s + 1) % SECTORS);
        polygons[s][SLOTS] = (uint32_t)((s + SECTORS - 1) % SECTORS);
    }
    for (int p = SECTORS; p < POLYGONS; p++) {
        int alone = p == SECTORS, pair = (p - SECTORS - 1) / 2, odd = (p - SECTORS - 1) % 2;
        int first = alone ? 32 : 64 + pair * 3 % 900;
        static const int ring[SLOTS] = {0, 1, 2, 3, 35, 34, 33, 32};
        for (int i = 0; i < SLOTS; i++) {
            int place = odd && !alone ? SLOTS - 1 - i : i;
            polygons[p][i] = (uint32_t)((first + ring[place]) % (VERTICES - 64) + 64);
            if (!alone) polygons[p][SLOTS + i] = (uint32_t)(odd ? p - 1 : p + 1);
        }
    }
}

/* Each step leaves its sector over the first edge, from the start to the circle, into the sector before: it is the first step that
   the walk meets. The record before the last has another kind if it is to be wrong, so that the walk goes all the way round. */
static void drive(int records, int wrong) {
    memset(route, 0, sizeof route);
    route[0][0] = 1;
    int sector = 0;
    for (int r = 1; r < records - 1; r++) {
        uint32_t corner = polygons[sector][1];
        sector = (sector + SECTORS - 1) % SECTORS;
        uint32_t step[8] = {2, (uint32_t)sector, 0, corner, 0, 0, bits(vertices[corner][0]), bits(vertices[corner][1])};
        memcpy(route[r], step, sizeof step);
    }
    if (wrong) route[records - 2][0] = 3;
    route[records - 1][0] = 5;
}

static float question[4];
static size_t route_length, fault;
static uint32_t answer;

static void judge(void) {
    answer = cart_judge((const uint8_t *)vertices, sizeof vertices, (const uint8_t *)polygons, sizeof polygons,
                        (const uint8_t *)question, sizeof question, (const uint8_t *)route, route_length, &fault);
}

int main(int words, char **word) {
    if (words != 4) return 2;
    int records = atoi(word[2]);
    if (records < 2 || records > MOST) return 2;
    lay();
    drive(records, strcmp(word[1], "wrong") == 0);
    uint32_t goal = polygons[SECTORS][0];
    question[2] = vertices[goal][0] + 1.0f;
    question[3] = vertices[goal][1] + 1.0f;
    route_length = (size_t)records * 32;
    double quickest = least(judge, atol(word[3]));
    printf("%u %zu %.0f\n", answer, fault, quickest);
    return 0;
}
