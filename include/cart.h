/* The planner and the judge for a cart's controller: finds a route, reads a route before the cart moves, lists its points.

   Link libcart_c.a, for x86-64: ./install puts it into lib/. examples/run builds it into target/staticlib, and runs programs
   over it. Each function here is proved to answer as crates/cart_c says, on any bytes at all. cart.rs is this file for Rust.
   docs/FORMATS.md has each byte of a floor, a question and a route.

   Bytes are little-endian, whatever the processor. The byte pointers need no alignment; every other pointer is aligned as its
   type is. A pointer must point to as many bytes (floats, words) as the length beside it says, also where that is 0 (then any
   valid address will do, but not NULL). What a function writes to may overlap nothing else that it is lent, and nothing else may
   write to any of it while the call runs. The functions keep nothing between calls, take no heap and do not recurse. All that they
   want of the linker is memcpy and memset.

   geometry.h, which comes with this file, has document 01's geometry, the clip and the walk of one edge; they have libraries of
   their own.

   Stack, with the arguments, on x86-64: cart_search 2,028 bytes, cart_judge 1,064, cart_read_out 1,224, cart_words 8. That is what
   examples/stack.c measures (docs/DECISIONS.md). */

#ifndef CART_H
#define CART_H

#include "geometry.h"
#include <stddef.h>
#include <stdint.h>

#ifdef __cplusplus
extern "C" {
#endif

/* The longest that each list may be, and the exact length of a question, in bytes. A list that is longer is refused; you need
   not test for it. */
enum {
    CART_VERTEX_BYTES = 8 * 1024,   /* 1 to 1,024 records of 8: x, y as f32 */
    CART_POLYGON_BYTES = 64 * 512,  /* 1 to 512 records of 64: eight u32 corners, eight u32 neighbours */
    CART_QUESTION_BYTES = 16,       /* start x, y, goal x, y as f32 */
    CART_RECORD_BYTES = 32,         /* one record of a route */
    CART_ROUTE_BYTES = CART_RECORD_BYTES * 4097, /* 2 to 4,097 records: room in cart_search for any route */
    CART_WORDS_BYTES = 64,          /* the room that cart_words asks for */
    CART_POINTS_FLOATS = 2 * 4097,  /* floats: room in cart_read_out for the points of any route */
    CART_STACK_BYTES = 3072         /* stack that is enough for each function here, on x86-64 */
};

/* What cart_search needs for each node. For n nodes lend CART_NODE_FLOATS * n floats, CART_NODE_WORDS * n words,
   CART_NODE_TREE * n words for the tree, CART_ENTRY_WORDS * n words for the table, and CART_RECORD_BYTES * (n + 1) bytes for the
   route: then 13 and 14 never come (`wide-is-never-short`, `never-14`). */
enum {
    CART_NODE_FLOATS = 11,
    CART_NODE_WORDS = 8,
    CART_NODE_TREE = 2,
    CART_ENTRY_WORDS = 10,   /* an entry of the table: a node that a stalled search has met */
    CART_MOST_NODES = 4096,  /* room for more nodes, or for more entries, is not used */
    CART_BUDGET = 4096       /* the budget where there is no reason for another */
};

/* Finds a route from the question's start to its goal. Answers 0 if it found one, and otherwise why not:

     1  no route was found: there is nowhere left to look
     2 to 9  the floor or the question is refused, as in cart_judge
    10  the work buffers hold no node
    11  a node was needed and all are used: lend more, up to CART_MOST_NODES
    12  the budget is spent: allow more steps
    13  a route was found and `out` is too short for it
    14  the search stalled, and its table is full: lend as many entries as nodes

   The nodes that the work buffers hold are floats_length / CART_NODE_FLOATS, words_length / CART_NODE_WORDS or tree_length /
   CART_NODE_TREE, whichever is least, and CART_MOST_NODES at most. The buffers may hold anything before the call. The budget is
   the most steps that the search may take; each takes one node from the queue.

   A search stalls when it has taken more than 512 nodes in a row that bring it no nearer: it goes round and round. From then on it
   enters each node that it meets into the table, and drops one that it has met before. The table's entries are table_length /
   CART_ENTRY_WORDS, CART_MOST_NODES at most; they have no part in the number of nodes. Any length will do, 0 too: a search that does
   not stall never needs an entry.

   *steps is written with every answer: the steps taken, 0 with 2 to 10.
   *value is written with 0, 4, 5 and 6 alone: with 0 the bytes of the route, with 4, 5 and 6 the lowest record at fault, as
   cart_judge has it. With every other answer it stays as it is.
   `out` is written with 0 alone: the route stands in its first *value bytes, and those behind stay as they are.
   The work buffers stay as they are with 2 to 10, and where start and goal lie in one polygon. With every other answer they hold
   the search as it ended (docs/BUFFERS.md has every word); nothing has to be read there. The table stays as it is too, unless the
   search stalls.

   A route that was found is one that cart_judge accepts: that is proved too (`found-is-accepted`). */
uint32_t cart_search(
    const uint8_t *vertices, size_t vertices_length,
    const uint8_t *polygons, size_t polygons_length,
    const uint8_t *question, size_t question_length,
    size_t budget,
    float *floats, size_t floats_length,
    uint32_t *words, size_t words_length,
    uint32_t *tree, size_t tree_length,
    uint32_t *table, size_t table_length,
    uint8_t *out, size_t out_length,
    size_t *steps,
    size_t *value);

/* Judges a route against a floor and a question. Answers 0 if the cart may drive it, and otherwise why not:

     2  the vertex list's length            3  the polygon list's length
     4  a vertex coordinate                 5  a polygon's corners
     6  a polygon's neighbours              7  the question
     8  the start is in no polygon          9  the goal is in no polygon
    20  the route's length                 21  its first record is not the true start
    22  a middle record is not a step      23  its last record is not the true end

   With 4, 5, 6, 21, 22 and 23 the lowest record at fault is written to *record, counted from 0: a vertex for 4, a polygon for
   5 and 6, a route record for the others. With every other answer *record stays as it is. */
uint32_t cart_judge(
    const uint8_t *vertices, size_t vertices_length,
    const uint8_t *polygons, size_t polygons_length,
    const uint8_t *question, size_t question_length,
    const uint8_t *route, size_t route_length,
    size_t *record);

/* Judges a route as cart_judge does and, if the cart may drive it, lists its points: x, y of the first place to drive to, then
   of the next, and the goal last. The start is not among them. Answers cart_judge's numbers, and

    13  `points` is too short for them

   points_length counts floats, two for each point. A route of n records has at most n points, so route_length / 16 floats are
   always enough, and CART_POINTS_FLOATS for every route.

   With 0 the number of points is written to *value; with 4, 5, 6, 21, 22 and 23 the record at fault, as cart_judge has it.
   With every other answer, 13 among them, *value stays as it is. With 0 the first floats, two for each point, are written, and
   those behind them stay as they are; with every other answer all of `points` stays. */
uint32_t cart_read_out(
    const uint8_t *vertices, size_t vertices_length,
    const uint8_t *polygons, size_t polygons_length,
    const uint8_t *question, size_t question_length,
    const uint8_t *route, size_t route_length,
    float *points, size_t points_length,
    size_t *value);

/* Puts plain words for a number into `words`, CART_WORDS_BYTES of room, and answers how many bytes they take. They are ASCII
   with no zero at the end; the room behind them stays as it is. 0 is said as the judge means it, "accepted". */
size_t cart_words(uint32_t number, uint8_t *words);

#ifdef __cplusplus
}
#endif

#endif
