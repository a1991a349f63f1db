/* Lists a morning's three stands in plan Q, a square of two cells, in one call: a point, one that lies outside, and an
 * offset from corner 2. The scanner has a reach, which goes to every wall from there; there is no ceiling. Prints for
 * each what the printing program prints for it.
 * C99 and C++17 alike; examples/run.sh compiles, links and runs it. */
#include "manopluea.h"

#include <inttypes.h>
#include <stdio.h>

#define CORNERS 4
#define CELLS 2
#define STANDS 3
#define REACH 7 /* millimetres: the farthest of the four walls is just so far */

int main(void)
{
    const int32_t corners[2 * CORNERS] = {0, 0, 10, 0, 10, 10, 0, 10};
    const uint16_t cells[6 * CELLS] = {
        0, 1, 2, MANOPLUEA_WALL, MANOPLUEA_WALL, 1, /* */
        0, 2, 3, 0, MANOPLUEA_WALL, MANOPLUEA_WALL, /* */
    };
    const double stands[3 * STANDS] = {
        MANOPLUEA_POINT, 6, 3,  /* */
        MANOPLUEA_POINT, 11, 5, /* */
        2, -4, -7,              /* */
    };
    uint16_t table[4 * CORNERS * STANDS];
    uint64_t replies[3 * STANDS], reply[MANOPLUEA_REPLY];
    const uint16_t *row = table;
    int stand;

    manopluea_list_stands(corners, 2 * CORNERS, cells, 6 * CELLS, NULL, 0, MANOPLUEA_TRIANGLES, 0, stands, 3 * STANDS,
                          true, REACH, false, 0, table, 4 * CORNERS * STANDS, replies, 3 * STANDS, reply,
                          MANOPLUEA_REPLY);
    if (reply[0] != MANOPLUEA_DONE) {
        printf("refused %" PRIu64 " %" PRIu64 "\n", reply[0], reply[1]);
        return 1;
    }
    for (stand = 0; stand < STANDS; stand++) {
        const uint64_t *own = replies + 3 * stand;
        const uint16_t *end = row + 4 * own[1]; /* of its rows; the next stand's begin here */
        if (own[0] != MANOPLUEA_DONE) {
            printf("refused %" PRIu64 " 0\n", own[0]);
            continue; /* it has no rows, and stops no other */
        }
        printf("rows %" PRIu64 " crossings %" PRIu64 "\n", own[1], own[2]);
        for (; row < end; row += 4)
            printf("%d %d %d %d\n", row[0], row[1], row[2], row[3]);
    }
    return 0;
}
