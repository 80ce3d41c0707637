/* Document 01's geometry, the clip to a cone and the walk of one edge, for a controller that works out something of its own.

   Numbers go in and out as the bit patterns of their f32 (memcpy makes them). Every pattern is taken; NaN of any kind is NaN, and
   comes back as 0x7FC00000. A segment is its start and its end. Each function is proved to answer as its crate says. None keeps
   anything between calls, takes heap or recurses. `out` is aligned as uint32_t is, overlaps nothing, and is written only where that is said.

   Link libgeometry_c.a, and libcone_c.a and libwalk_c.a for the last three, for x86-64: ./install puts them into lib/. */

#ifndef GEOMETRY_H
#define GEOMETRY_H

#include <stdint.h>

#ifdef __cplusplus
extern "C" {
#endif

/* On which side of a line a point is. */
enum { GEOMETRY_LEFT = 0, GEOMETRY_RIGHT = 1, GEOMETRY_EDGE = 2 };

/* How a part of an edge is seen from a root. */
enum { GEOMETRY_LEFT_NON_OBSERVABLE = 0, GEOMETRY_OBSERVABLE = 1, GEOMETRY_RIGHT_NON_OBSERVABLE = 2 };

/* The words that geometry_walk_edge writes to. */
enum { GEOMETRY_WALK_WORDS = 16 };

/* IEEE 754's square root, nearest. Zero keeps its sign; below zero is NaN. */
uint32_t geometry_root(uint32_t x);
uint32_t geometry_min(uint32_t x, uint32_t y);
uint32_t geometry_max(uint32_t x, uint32_t y);

/* Points and directions, as x, y. */
uint32_t geometry_dot(uint32_t ax, uint32_t ay, uint32_t bx, uint32_t by);
uint32_t geometry_perp_dot(uint32_t ax, uint32_t ay, uint32_t bx, uint32_t by);
uint32_t geometry_length(uint32_t x, uint32_t y);
uint32_t geometry_distance(uint32_t ax, uint32_t ay, uint32_t bx, uint32_t by);

/* (x, y) projected onto (rx, ry): out is its x, y. */
void geometry_project_onto(uint32_t x, uint32_t y, uint32_t rx, uint32_t ry, uint32_t out[2]);

/* GEOMETRY_LEFT, GEOMETRY_RIGHT or GEOMETRY_EDGE. */
uint32_t geometry_side(uint32_t px, uint32_t py, uint32_t l0x, uint32_t l0y, uint32_t l1x, uint32_t l1y);

/* 1 if it is so, else 0. */
uint32_t geometry_on_segment(uint32_t px, uint32_t py, uint32_t s0x, uint32_t s0y, uint32_t s1x, uint32_t s1y);
uint32_t geometry_in_bounding_box(uint32_t px, uint32_t py, uint32_t s0x, uint32_t s0y, uint32_t s1x, uint32_t s1y);

/* A point mirrored at a line: out is its x, y. */
void geometry_mirror(uint32_t px, uint32_t py, uint32_t l0x, uint32_t l0y, uint32_t l1x, uint32_t l1y, uint32_t out[2]);

/* Where a line meets a segment, as a fraction of the segment: 0 at its start, 1 at its end, below 0 or above 1 beyond them. Where f32
   finds the two parallel it is an infinity or NaN. */
uint32_t geometry_intersection_time(
    uint32_t l0x, uint32_t l0y, uint32_t l1x, uint32_t l1y, uint32_t s0x, uint32_t s0y, uint32_t s1x, uint32_t s1y);

/* 1, and out is the x, y of where a line meets a segment; or 0, nowhere, and out stays as it is. */
uint32_t geometry_line_intersect_segment(
    uint32_t l0x, uint32_t l0y, uint32_t l1x, uint32_t l1y, uint32_t s0x, uint32_t s0y, uint32_t s1x, uint32_t s1y, uint32_t out[2]);

/* How far it is at least from a root through an interval to a goal. */
uint32_t geometry_heuristic(
    uint32_t rx, uint32_t ry, uint32_t gx, uint32_t gy, uint32_t i0x, uint32_t i0y, uint32_t i1x, uint32_t i1y);

/* 1, and out is the x, y of the interval's end that the way from the root to the goal turns at; or 0, it goes straight, and out
   stays as it is. */
uint32_t geometry_turning_point(
    uint32_t rx, uint32_t ry, uint32_t gx, uint32_t gy, uint32_t i0x, uint32_t i0y, uint32_t i1x, uint32_t i1y, uint32_t out[2]);

/* libcone_c.a: what a root sees of a segment between the rays to the two ends of its cone. 1, and out is the segment; or 0,
   nothing of it, and out stays as it is. */
uint32_t geometry_clip_to_cone(
    uint32_t rx, uint32_t ry, uint32_t c0x, uint32_t c0y, uint32_t c1x, uint32_t c1y,
    uint32_t s0x, uint32_t s0y, uint32_t s1x, uint32_t s1y, uint32_t out[4]);

/* libcone_c.a: 1 if an interval's end lands on a vertex, seen from a root; else 0. */
uint32_t geometry_lands_on(uint32_t cx, uint32_t cy, uint32_t vx, uint32_t vy, uint32_t rx, uint32_t ry);

/* libwalk_c.a: the parts of the edge from a to b, seen from a root through an interval, where `kind` is what the edge before it
   left. Answers how many parts there are, 1 to 3, or 0 with out as it was where `kind` is none of the three. Words 5 * i to 5 * i + 3
   are part i's start and end, word 5 * i + 4 its kind, for each i below the answer; word 15 is the kind to go on with; every other
   word stays as it was. */
uint32_t geometry_walk_edge(
    uint32_t rx, uint32_t ry, uint32_t i0x, uint32_t i0y, uint32_t i1x, uint32_t i1y,
    uint32_t ax, uint32_t ay, uint32_t bx, uint32_t by, uint32_t kind, uint32_t out[GEOMETRY_WALK_WORDS]);

#ifdef __cplusplus
}
#endif

#endif
