/* The proved library: the public calls of documents 01 and 02 for C and every language that speaks its calling
 * convention.
 *
 * `rt lib` in crates/exports writes crates/exports/out/libexports.a, for x86-64 Linux. It needs memcpy and memset, and
 * nothing else. Its code is position-independent: a shared object can be linked from it. examples/ has clients in C and
 * Python.
 *
 * What a caller keeps:
 *
 *   Lists. A list passes as a pointer and a length in numbers, not bytes. The pointer is aligned for its type, and may
 *   be null where the length is 0: nothing is read or written through it then. Memory that a call may write to (no
 *   `const`) overlaps nothing else that is passed to it, and nobody else writes to any of it until the call returns.
 *
 *   Stack. A call needs at most MANOPLUEA_STACK bytes. With less, the process may be ended by a signal at the guard
 *   page below its stack. Where lines are followed, calls go into one another no more often than the listing has rows.
 *   On a floor where they do so 2044 times, on one with 2999 lines behind one another, on one of cells with the most
 *   sides and on the fullest plan, with neither a reach nor a ceiling stated and with the longest reach and a ceiling
 *   that is just kept to, no call took more than 1145 KiB, on x86-64 and on AArch64, with an older kit and the code of
 *   then. The number stated is 1.8 times that.
 *
 * There is nothing else to keep: no list, number or setting is wrong input, and every call returns. A call is
 * reentrant and keeps no state: several threads may make calls at once.
 *
 * A plan is three lists, and the kind that its cells are in:
 *
 *   corners  two numbers a corner: x, y, in millimetres
 *   cells    of kind MANOPLUEA_TRIANGLES, six numbers a cell: three corner numbers, then three neighbours;
 *            of kind MANOPLUEA_POLYGONS, a count n from MANOPLUEA_LEAST_SIDES to MANOPLUEA_MOST_SIDES, then n corner
 *            numbers, then n neighbours: 7 to 17 numbers a cell, and up to 17*3000 in the list
 *   doors    one number a door: a face
 *
 * A cell's corners stand counter-clockwise; side s runs from its corner s to the next one, the last side to its corner
 * 0. Neighbour s, a cell or MANOPLUEA_WALL, lies across side s. Faces are numbered in the order of the list, the sides
 * of a cell one after another: in a list of triangles a face is 3*cell + side. Any number may be passed as the kind;
 * one that is neither of the two is refused with 1. Check, finding, listing, a morning, the door change and a drawing
 * answer a plan of triangles alike in either kind.
 *
 * Cells may touch, in a corner or along a line, neighbours or not, but they do not overlap: a plan in which some point,
 * whole or fractional, is strictly inside two cells is refused with 17, and the place is the least cell of any such
 * pair. So at most one cell holds a stand strictly inside.
 *
 * Reach. A listing, a morning, the door change and a drawing may state how far the scanner sees, in millimetres:
 * `stated` says whether they do. Where it is false the reach is unlimited, and the number after it means nothing. Where
 * it is true, any number but MANOPLUEA_LEAST_REACH to MANOPLUEA_MOST_REACH is refused with 15.
 *
 * A line, which is the whole side from corner to corner, is in reach when some point of it is at most so far from the
 * stand, exactly: the point need not be of whole millimetres. It need not be seen either: where the near part of a line
 * is hidden and a far part is seen, the line is in reach if the hidden part is. So a row can be in reach though no seen
 * point of it is. Sight ends at a line that is wall or a shut door, and at any line out of reach: a free line out of
 * reach is not crossed.
 *
 * Row. Four numbers: face (on the side seen), right limit, left limit, and 0 where its line is in reach, 1 where it is
 * not. A row with 1 is of a wall that is not reached, or of a free line that is not crossed, an open door's too. A
 * longer reach, or none, keeps every row with 0 as it is and in its order, and has one row or more in place of each
 * with 1; crossings do not get fewer.
 *
 * Ceiling. A listing and a morning may have a ceiling for their crossings, which is how often a free line is crossed:
 * `limited` says whether they do. Where it is false there is none, and the number after it means nothing. Where it is
 * true, any number may be the ceiling, 0 and the largest too. A listing is refused with 19 exactly when its crossings
 * would exceed the ceiling, and just as many are allowed; otherwise it is the listing without a ceiling. So a higher
 * ceiling, or none, never alters a list that was given. The work stops when the ceiling is passed, and the table keeps
 * its contents. A morning has one ceiling for all stands, and each has it for itself: what one stand crosses takes
 * nothing from the others. No other call has a ceiling.
 *
 * Reply. Seven numbers: reply[0] number, reply[1] place, reply[2..6] up to five values; those that a call has no use
 * for are 0. On a refusal the five values are 0. Numbers beyond the seven keep their values. Where reply_length is
 * below 7, the call does nothing at all: no lent memory is touched, the reply neither.
 *
 * The lowest number that applies is the reply, but for 17, which goes after 6 and before 7, for 15, which goes after 8
 * and before 9, and for 19, which goes after 11 and is the last of a listing's. So 14 is the last of a drawing's. A
 * refusal returns its number and place only, and every lent table, list and file keeps its contents. On 0, numbers and
 * bytes beyond those written keep their old values, bit for bit. Each call checks its plan anew.
 *
 * Each promise below is proved: crates/exports/specs/Reply.antt defines what a call leaves in the lent memory and in
 * the reply as a function of its input, and the call's contract says that it leaves exactly that. The stack is not
 * proved but measured: rust/tests/header.rs runs every function on the deepest floors known, in either kind, and on a
 * plan of the largest size with no more than is stated. Nor is it proved, but compared, that a NaN which stood in the
 * offsets of a drawing keeps its bits: the logic has one NaN.
 */
#ifndef MANOPLUEA_H
#define MANOPLUEA_H

#include <stdbool.h>
#include <stddef.h>
#include <stdint.h>

#ifdef __cplusplus
extern "C" {
#endif

/* Counts up where a function, a number or a promise of this header changes. */
#define MANOPLUEA_VERSION 8

/* The limits of a plan. A coordinate lies between -MANOPLUEA_MOST_COORDINATE and MANOPLUEA_MOST_COORDINATE. */
#define MANOPLUEA_LEAST_CORNERS 3
#define MANOPLUEA_MOST_CORNERS 2048
#define MANOPLUEA_LEAST_CELLS 1
#define MANOPLUEA_MOST_CELLS 3000
#define MANOPLUEA_MOST_DOORS 64
#define MANOPLUEA_MOST_COORDINATE 536870912

/* How many corners a cell of a list of kind MANOPLUEA_POLYGONS has, and so how many sides. */
#define MANOPLUEA_LEAST_SIDES 3
#define MANOPLUEA_MOST_SIDES 8

/* The kinds that cells are in; in a plan file, the kinds of their record. */
#define MANOPLUEA_TRIANGLES 2
#define MANOPLUEA_POLYGONS 12

/* The neighbour that means wall. */
#define MANOPLUEA_WALL 65535

/* The most stands that a morning has. */
#define MANOPLUEA_MOST_STANDS 32

/* The reaches that can be stated, in millimetres. */
#define MANOPLUEA_LEAST_REACH 1
#define MANOPLUEA_MOST_REACH 262144

/* How far from the stand a corner may be to be drawn, in x and in y, in millimetres. */
#define MANOPLUEA_MOST_OFFSET 16777216

/* In a list of stands, what a stand that is a point has in place of a corner. */
#define MANOPLUEA_POINT (-1.0)

/* No plan file that is accepted has more bytes than 2048 corners, 3000 cells of 8 corners and 64 doors take. */
#define MANOPLUEA_MOST_FILE 118530

/* The bytes of the longest input of printing: a longer one is refused, in print. */
#define MANOPLUEA_MOST_INPUT 65536

/* A text of so many bytes has room for all that the printing program can print. */
#define MANOPLUEA_TEXT 49216

/* The numbers of a reply. */
#define MANOPLUEA_REPLY 7

/* The bytes of stack that a call needs at most. */
#define MANOPLUEA_STACK 2097152

/* What reply[0] is, and where reply[1] is a place other than 0. A morning's single stands have these numbers too. */
enum manopluea_number {
    MANOPLUEA_DONE = 0,
    MANOPLUEA_FRAME = 1,     /* not the three records; a kind that is neither of the two; corners not of 8 bytes each,
                                or as a list not of 2 numbers, doors not of 2 bytes; cells not cut into whole ones: a
                                leftover, a cell running past the end, a count of corners outside 3 to 8; stands not
                                of 3 numbers */
    MANOPLUEA_SIZE = 2,      /* a count outside the limits; more than MANOPLUEA_MOST_STANDS stands */
    MANOPLUEA_CORNER = 3,    /* a coordinate outside the limits; place: the least such corner */
    MANOPLUEA_CELL = 4,      /* a corner number that does not exist, two that are equal, or a corner other than a
                                side's own two that is not strictly left of that side; least cell */
    MANOPLUEA_NEIGHBOUR = 5, /* neither wall, nor a cell with a side that answers; least face */
    MANOPLUEA_DOOR = 6,      /* its face does not exist or is wall, or an earlier door names the line; least door */
    MANOPLUEA_SETTING = 7,   /* a bit at or above the door count */
    MANOPLUEA_STAND = 8,     /* number or corner not accepted */
    MANOPLUEA_LINE = 9,      /* on some cell's border, strictly inside no cell and strictly within no free side; for
                                the door change, also a door whose line the stand is strictly within */
    MANOPLUEA_OUTSIDE = 10,  /* inside or on no cell */
    MANOPLUEA_ROOM = 11,     /* a table or offsets below 4*corners numbers, or a table for a morning below
                                4*corners*stands; replies below 3*stands; a file or a list below what is written; a
                                text below MANOPLUEA_TEXT */
    MANOPLUEA_CHANGE = 12,   /* no such door, or already in that state */
    MANOPLUEA_ROWS = 13,     /* the given list differs from the true one, in length or any number */
    MANOPLUEA_FAR = 14,      /* a corner to be drawn is more than MANOPLUEA_MOST_OFFSET from the stand, in x or in y;
                                after MANOPLUEA_ROOM */
    MANOPLUEA_REACH = 15,    /* a number is stated that is no reach; after MANOPLUEA_STAND, before MANOPLUEA_LINE */
    MANOPLUEA_OVERLAP = 17,  /* cells that lie on top of each other: some point, whole or fractional, is strictly inside
                                two of them; the least cell of any such pair; after MANOPLUEA_DOOR, before
                                MANOPLUEA_SETTING */
    MANOPLUEA_CEILING = 19   /* more crossings than the ceiling; after MANOPLUEA_ROOM */
};

/* The plan check. Replies 0 to 6 and 17. On 0 the values are the counts of corners, cells and doors. Writes to the
 * reply only. */
void manopluea_check(const int32_t *corners, size_t corners_length,
                     const uint16_t *cells, size_t cells_length,
                     const uint16_t *doors, size_t doors_length, uint16_t kind,
                     uint64_t *reply, size_t reply_length);

/* The reader. Replies 0 to 6, 11 and 17. On 0 the values are the counts of corners, cells and doors, the kind that was
 * read, MANOPLUEA_TRIANGLES or MANOPLUEA_POLYGONS, and how many numbers the list of cells has in that kind; and the
 * three lists hold the numbers of the file from their beginnings on: 2*corners of them, as many as that, and doors.
 * Writing them again in that kind gives the same bytes. */
void manopluea_read(const uint8_t *file, size_t file_length,
                    int32_t *corners, size_t corners_length,
                    uint16_t *cells, size_t cells_length,
                    uint16_t *doors, size_t doors_length,
                    uint64_t *reply, size_t reply_length);

/* The writer. Replies 0 to 6, 11 and 17. On 0 the values are the counts of corners, cells and doors, and the file holds
 * the one file of the three lists from its beginning on: 18 + 4*corners_length + 2*cells_length + 2*doors_length
 * bytes. The kind is that of its second record. Reading it returns those lists and that kind. */
void manopluea_write(const int32_t *corners, size_t corners_length,
                     const uint16_t *cells, size_t cells_length,
                     const uint16_t *doors, size_t doors_length, uint16_t kind,
                     uint8_t *file, size_t file_length,
                     uint64_t *reply, size_t reply_length);

/* Finding. Replies 0 to 10 and 17. On 0 the first value is the stand's cell. The second is 0 where the stand is
 * strictly inside that cell and 1 where it is strictly within a side of it; the third is the number of that side in its
 * cell, and 0 where the stand is inside. Writes to the reply only.
 *
 * A stand that some cell holds strictly inside, which is strictly left of every side, is inside that cell: no other one
 * holds it so. Any other stand that is strictly within a free side, which is on its line and strictly between its two
 * ends, is on the least such side of the least-numbered cell that has one. Any other stand on a border is refused with
 * 9: on a corner, on a wall, or on the line of a shut door.
 *
 * Bit i of the setting is one while door i is shut; both faces of a shut door count as wall. A side is free where its
 * neighbour is a cell and no shut door is on its line.
 *
 * The stand is a point, or an offset from a corner, in millimetres. A number is accepted exactly when it is a whole
 * number of millimetres within the coordinate limits; minus zero reads as 0. For an offset the corner must exist, and
 * the sums must also lie within the limits. */
void manopluea_find_point(const int32_t *corners, size_t corners_length,
                          const uint16_t *cells, size_t cells_length,
                          const uint16_t *doors, size_t doors_length, uint16_t kind,
                          uint64_t setting, double x, double y,
                          uint64_t *reply, size_t reply_length);

void manopluea_find_offset(const int32_t *corners, size_t corners_length,
                           const uint16_t *cells, size_t cells_length,
                           const uint16_t *doors, size_t doors_length, uint16_t kind,
                           uint64_t setting, uint16_t corner, double dx, double dy,
                           uint64_t *reply, size_t reply_length);

/* The listing. Replies 0 to 11, 15, 17 and 19. On 0 the first two values are row count and crossings, and the table
 * holds four numbers a row from its beginning on: face (on the side seen), right limit, left limit, and 0 in reach or 1
 * out of reach. Rows never outnumber corners. Where no reach is stated every fourth number is 0. Crossings are counted
 * for the whole listing, from a side through both its cells, and 19 is the reply where they exceed the ceiling.
 *
 * Setting and stand are as for finding. From a stand strictly inside a cell, the sides of that cell are followed to
 * their rows in order. From a stand strictly within a free side, the other sides of the cell found are followed in
 * order after it, then the other sides of the neighbour likewise, in order after its own side of that line. The line
 * stood on is not counted as crossed, and is always in reach. */
void manopluea_list_point(const int32_t *corners, size_t corners_length,
                          const uint16_t *cells, size_t cells_length,
                          const uint16_t *doors, size_t doors_length, uint16_t kind,
                          uint64_t setting, double x, double y,
                          bool stated, uint64_t reach, bool limited, uint64_t ceiling,
                          uint16_t *table, size_t table_length,
                          uint64_t *reply, size_t reply_length);

void manopluea_list_offset(const int32_t *corners, size_t corners_length,
                           const uint16_t *cells, size_t cells_length,
                           const uint16_t *doors, size_t doors_length, uint16_t kind,
                           uint64_t setting, uint16_t corner, double dx, double dy,
                           bool stated, uint64_t reach, bool limited, uint64_t ceiling,
                           uint16_t *table, size_t table_length,
                           uint64_t *reply, size_t reply_length);

/* A morning's stands together. Replies 0 to 7, 11 and 17; 8 to 10, 15 and 19 are replies of single stands.
 *
 * Stands are three numbers each: corner, x, y. Where the first is MANOPLUEA_POINT the stand is the point (x, y), else
 * the offset (x, y) from that corner. Minus zero reads as corner 0; a stand whose first number is neither
 * MANOPLUEA_POINT nor a corner of the plan is not accepted. So every list has a reply: a length that is no multiple of
 * 3 is refused with 1, more than MANOPLUEA_MOST_STANDS stands with 2, and a list of no stands is done, with sums 0.
 *
 * A table of fewer than 4*corners*stands numbers is refused with 11, and so are replies of fewer than 3*stands. This is
 * judged before any stand is looked at, also where every stand would be refused.
 *
 * One reach is stated for all stands, or none. A number that is no reach does not refuse the call: 15 is then the reply
 * of each stand, but for those that have 8. The ceiling, where there is one, is each stand's own: 19 is the reply of a
 * stand whose crossings exceed it, and the sum of all crossings may exceed it.
 *
 * On 0 the replies hold three numbers a stand from their beginning on: its own reply (0, 8, 15, 9, 10 or 19), row count
 * and crossings. The table holds the rows of all stands from its beginning on, one stand after another in the order
 * given. A refused stand has counts 0 and no row, and stops no other. The first two values are the sums of the row
 * counts and of the crossings. Each stand's reply, counts and rows are those of the listing from it with the same
 * reach, the same ceiling and a table of 4*corners numbers, wherever it is: strictly inside a cell, or strictly within
 * a free side. */
void manopluea_list_stands(const int32_t *corners, size_t corners_length,
                           const uint16_t *cells, size_t cells_length,
                           const uint16_t *doors, size_t doors_length, uint16_t kind,
                           uint64_t setting,
                           const double *stands, size_t stands_length,
                           bool stated, uint64_t reach, bool limited, uint64_t ceiling,
                           uint16_t *table, size_t table_length,
                           uint64_t *replies, size_t replies_length,
                           uint64_t *reply, size_t reply_length);

/* The door change. Replies 0 to 13, 15 and 17. The given list is the one that is true under the setting and the reach,
 * four numbers a row; a list that differs from it in length or any number is refused with 13, and a door that does not
 * exist or is already as wished with 12. On 0 the values and the table are those of the listing with that door shut or
 * open as wished and the same reach. The given list and the table do not overlap.
 *
 * A door out of reach can be changed like any other. Nothing behind it is listed, shut or open, and it keeps its row:
 * the new list is the given one.
 *
 * From a stand that is found strictly within a side, a door that exists and whose line holds the stand strictly within
 * is refused with 9, also where it is already as wished: that is before the room, the state of the door and the given
 * list are looked at. From a stand strictly inside a cell no door is refused so. */
void manopluea_change_point(const int32_t *corners, size_t corners_length,
                            const uint16_t *cells, size_t cells_length,
                            const uint16_t *doors, size_t doors_length, uint16_t kind,
                            uint64_t setting, double x, double y,
                            bool stated, uint64_t reach,
                            const uint16_t *given, size_t given_length,
                            size_t door, bool shut,
                            uint16_t *table, size_t table_length,
                            uint64_t *reply, size_t reply_length);

void manopluea_change_offset(const int32_t *corners, size_t corners_length,
                             const uint16_t *cells, size_t cells_length,
                             const uint16_t *doors, size_t doors_length, uint16_t kind,
                             uint64_t setting, uint16_t corner, double dx, double dy,
                             bool stated, uint64_t reach,
                             const uint16_t *given, size_t given_length,
                             size_t door, bool shut,
                             uint16_t *table, size_t table_length,
                             uint64_t *reply, size_t reply_length);

/* The drawing. Replies 0 to 11, 14, 15 and 17. On 0 the first two values are row count and crossings, as of the listing
 * with the same setting, stand and reach and without a ceiling. The offsets hold four numbers a row from their
 * beginning on, row by row in the order of that listing, repeats included: x and y of the right limit, then x and y of
 * the left limit, each less the stand. Each is exactly the difference in whole millimetres, and 0 is plus zero.
 *
 * Offsets of fewer than 4*corners numbers are refused with 11. After that, 14 is the reply where a row has a limit that
 * is more than MANOPLUEA_MOST_OFFSET from the stand in x or in y, in either direction; just as far is drawn. Farther is
 * refused also where a float has that number. Rows out of reach count like all others. Corners that are no row's limit
 * do not count, however far they are. */
void manopluea_draw_point(const int32_t *corners, size_t corners_length,
                          const uint16_t *cells, size_t cells_length,
                          const uint16_t *doors, size_t doors_length, uint16_t kind,
                          uint64_t setting, double x, double y,
                          bool stated, uint64_t reach,
                          float *offsets, size_t offsets_length,
                          uint64_t *reply, size_t reply_length);

void manopluea_draw_offset(const int32_t *corners, size_t corners_length,
                           const uint16_t *cells, size_t cells_length,
                           const uint16_t *doors, size_t doors_length, uint16_t kind,
                           uint64_t setting, uint16_t corner, double dx, double dy,
                           bool stated, uint64_t reach,
                           float *offsets, size_t offsets_length,
                           uint64_t *reply, size_t reply_length);

/* What the printing program prints for an input: a query record (kind 4 or 5), then a plan with cells of either kind.
 * Replies 0 and 11. On 0 the first value is the number of bytes printed, which stand in the text from its beginning; a
 * refused query or plan is printed too, as `refused`, its number and place. No reach is stated: each row's line has its
 * four numbers, and the last of them is 0. */
void manopluea_print(const uint8_t *input, size_t input_length,
                     uint8_t *text, size_t text_length,
                     uint64_t *reply, size_t reply_length);

#ifdef __cplusplus
}
#endif

#endif
