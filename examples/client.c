/* Lists what is seen from (6, 3) in plan Q, a square of two cells, as the printing program prints it.
 * C99 and C++17 alike; examples/run.sh compiles, links and runs it. */
#include "manopluea.h"

#include <inttypes.h>
#include <stdio.h>

#define CORNERS 4
#define CELLS 2

int main(void)
{
    const int32_t corners[2 * CORNERS] = {0, 0, 10, 0, 10, 10, 0, 10};
    const uint16_t cells[6 * CELLS] = {
        0, 1, 2, MANOPLUEA_WALL, MANOPLUEA_WALL, 1, /* */
        0, 2, 3, 0, MANOPLUEA_WALL, MANOPLUEA_WALL, /* */
    };
    uint16_t table[4 * CORNERS]; /* rows never outnumber corners */
    uint64_t reply[MANOPLUEA_REPLY], row;

    /* No doors: a list of no numbers may be null. No reach is stated, and there is no ceiling: the number after `false`
     * means nothing. */
    manopluea_list_point(corners, 2 * CORNERS, cells, 6 * CELLS, NULL, 0, MANOPLUEA_TRIANGLES, 0, 6.0, 3.0, false, 1,
                         false, 0, table, 4 * CORNERS, reply, MANOPLUEA_REPLY);
    if (reply[0] != MANOPLUEA_DONE) {
        printf("refused %" PRIu64 " %" PRIu64 "\n", reply[0], reply[1]);
        return 1;
    }
    printf("rows %" PRIu64 " crossings %" PRIu64 "\n", reply[2], reply[3]);
    for (row = 0; row < reply[2]; row++)
        printf("%d %d %d %d\n", table[4 * row], table[4 * row + 1], table[4 * row + 2], table[4 * row + 3]);
    return 0;
}
