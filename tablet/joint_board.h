/* joint_board.h: what the bench tablet calls.
 *
 * Every call takes any input, ends, and returns a number: 0 where it is served, and else the number of refusal below. What it finds goes into
 * the numbers that the caller lends; after a refusal they are zero.
 *
 * Nothing may be null, not even a string of length 0: give it any address. What is lent for writing must not overlap anything else that is
 * passed in the same call. Nothing is kept after the call, nothing is allocated, and no call writes past the lengths given.
 */
#ifndef JOINT_BOARD_H
#define JOINT_BOARD_H

#include <stddef.h>
#include <stdint.h>

#ifdef __cplusplus
extern "C" {
#endif

/* Numbers of refusal. */
enum joint_board_number {
    JOINT_BOARD_SERVED = 0,
    JOINT_BOARD_HEIGHT = 1,           /* height not 1 to 10 */
    JOINT_BOARD_CUT_SHORT = 2,        /* the bytes end before a group that must be there is complete */
    JOINT_BOARD_EMPTY_GROUP = 3,      /* a group other than group 0 is all zero */
    JOINT_BOARD_LEFT_OVER = 4,        /* bytes left over, or an unused bit is one */
    JOINT_BOARD_TOO_MANY_JOINTS = 5,  /* more than 4,096 distinct joints */
    JOINT_BOARD_CELL = 12,            /* cell not on the board */
    JOINT_BOARD_MEASURE = 13,         /* not a written measure */
    JOINT_BOARD_KIND = 14,            /* unknown kind */
    JOINT_BOARD_OUT_OF_PLACE = 15,    /* record out of place */
    JOINT_BOARD_RECORD_CUT = 16,      /* record cut short */
    JOINT_BOARD_END = 17,             /* no end record, or bytes after it */
    JOINT_BOARD_BITMAP_ROOM = 18,     /* bitmap room too short */
    JOINT_BOARD_SHEET_LENGTH = 19     /* sheet longer than 65,536 bytes */
};

/* Lengths in bytes. */
#define JOINT_BOARD_MEASURE_BYTES 5u /* a measure, as 012,5 */
#define JOINT_BOARD_MARKED_BYTES 6u  /* a marked measure, as -000,5 */
#define JOINT_BOARD_SHEET_BYTES 65536u /* the longest sheet */
#define JOINT_BOARD_BITMAP_BYTES 8875u /* room that every board's bitmap fits: with it, 18 never occurs */

/* A measure: three digits, a comma, then 0 or 5. *value is 2 times the three digits, plus 1 if it ends in 5: 0 to 1,999 half millimetres.
 * Refused: 13, for any text of any length that is no measure. */
uint32_t joint_board_read_measure(const uint8_t *text, size_t length, uint32_t *value);

/* A marked measure: + or - before a measure. *value is -1,999 to 1,999 half millimetres. Refused: 13; -000,0 is refused. */
uint32_t joint_board_read_marked(const uint8_t *text, size_t length, int32_t *value);

/* The check of a board's bitmap: the number of its joints and of its boxes. Refused in this order: 1, the first of 2 or 3 in bit order, 4, 5. */
uint32_t joint_board_check(uint32_t height, const uint8_t *bytes, size_t length, uint32_t *joints, uint32_t *boxes);

/* Builds the board of a joint sheet: its bitmap goes into the room lent, then zeros to the room's end; after a refusal the room is all zero.
 * Served: *height, *joints (distinct ones), *boxes, *size (the bitmap's bytes), and *offset, that of the first record after the joints.
 * Refused: *offset is where the sheet is wrong, and the other numbers are zero. In this order: 19 at offset 0; then record by record 14, 15,
 * 16, and of its body 1, or 13, and for a joint 12, each at the record's kind byte; 17 at the first byte after the end record, or at the
 * sheet's length; last 5, then 18, at offset 0. The call has room of its own for the joints of the longest sheet (24 kilobytes of stack). */
uint32_t joint_board_build(const uint8_t *sheet, size_t length, uint8_t *bitmap, size_t room, uint32_t *height, uint32_t *joints, uint32_t *boxes,
                           uint32_t *size, size_t *offset);

#ifdef __cplusplus
}
#endif

#endif
