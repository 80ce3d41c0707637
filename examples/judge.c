/* What a controller does with the judge: document 01's example floor and route, as they are and with one byte changed, and the
   points that it drives to. */
#include "show.h"
#include <string.h>

static uint32_t judge(const char *name, const uint8_t *bytes, size_t length) {
    size_t record = none;
    uint32_t number = cart_judge(vertices, sizeof vertices, polygons, sizeof polygons, question, sizeof question, bytes, length, &record);
    say(name, number, record);
    return number;
}

int main(void) {
    uint8_t damaged[sizeof route];
    memcpy(damaged, route, sizeof route);
    damaged[32 + 16 + 2] ^= 1; /* the right end of the step's interval, a little off */
    uint32_t whole = judge("the route", route, sizeof route);
    int listed = list_points(route, sizeof route);
    uint32_t spoilt = judge("a damaged copy", damaged, sizeof damaged);
    return whole == 0 && listed && spoilt == 22 ? 0 : 1;
}
