/* Document 01's example: its floor, its question and its route, as they are stored. */
#include <stdint.h>

/* Six vertices, (0,0) (2,0) (4,0) (4,2) (2,2) (0,2). The bytes of 2.0 as f32 are 00 00 00 40, those of 4.0 are 00 00 80 40. */
static const uint8_t vertices[48] = {
    0, 0, 0, 0,          0, 0, 0, 0,
    0, 0, 0, 0x40,       0, 0, 0, 0,
    0, 0, 0x80, 0x40,    0, 0, 0, 0,
    0, 0, 0x80, 0x40,    0, 0, 0, 0x40,
    0, 0, 0, 0x40,       0, 0, 0, 0x40,
    0, 0, 0, 0,          0, 0, 0, 0x40,
};

#define NONE 0xFF, 0xFF, 0xFF, 0xFF

/* Two squares: corners 0,1,4,5 with polygon 1 across the second edge, corners 1,2,3,4 with polygon 0 across the fourth. */
static const uint8_t polygons[128] = {
    0, 0, 0, 0,  1, 0, 0, 0,  4, 0, 0, 0,  5, 0, 0, 0,  NONE, NONE, NONE, NONE,
    NONE,        1, 0, 0, 0,  NONE,        NONE,        NONE, NONE, NONE, NONE,
    1, 0, 0, 0,  2, 0, 0, 0,  3, 0, 0, 0,  4, 0, 0, 0,  NONE, NONE, NONE, NONE,
    NONE,        NONE,        NONE,        0, 0, 0, 0,  NONE, NONE, NONE, NONE,
};

/* From (1,1) to (3,1). */
static const uint8_t question[16] = {0, 0, 0x80, 0x3F, 0, 0, 0x80, 0x3F, 0, 0, 0x40, 0x40, 0, 0, 0x80, 0x3F};

static const uint8_t route[96] = {
    1, 0, 0, 0,     0, 0, 0, 0,  0, 0, 0x80, 0x3F,  0, 0, 0x80, 0x3F,  0, 0, 0, 0,     0, 0, 0, 0,  0, 0, 0, 0,     0, 0, 0, 0,
    2, 0, 0, 0,     1, 0, 0, 0,  1, 0, 0, 0,        4, 0, 0, 0,        0, 0, 0, 0x40,  0, 0, 0, 0,  0, 0, 0, 0x40,  0, 0, 0, 0x40,
    5, 0, 0, 0,     1, 0, 0, 0,  0, 0, 0x40, 0x40,  0, 0, 0x80, 0x3F,  0, 0, 0, 0x40,  0, 0, 0, 0,  0, 0, 0, 0,     0, 0, 0, 0,
};
