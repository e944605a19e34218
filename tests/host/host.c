/* The tablet's host program, for tests: it calls every entry of joint_board.h.
 *
 *   host examples   calls each entry on the paper's examples and prints what it got
 *   host check      reads boards from standard input and prints a line for each (tests/second/README.md has the streams)
 *   host measure    reads texts from standard input and prints both readings of each
 *   host sheet      reads sheets with bitmap rooms from standard input and prints what is built of each
 */
#include "joint_board.h"

#include <inttypes.h>
#include <stdio.h>
#include <stdlib.h>
#include <string.h>

/* A number of a stream: four bytes, least significant first. Ends the program at the stream's end, with an error inside a case. */
static uint32_t next_number(int first) {
    uint8_t b[4];
    size_t got = fread(b, 1, sizeof b, stdin);
    if (got == 0 && first) {
        exit(0);
    }
    if (got != sizeof b) {
        fprintf(stderr, "host: the stream ends inside a case\n");
        exit(2);
    }
    return (uint32_t)b[0] | (uint32_t)b[1] << 8 | (uint32_t)b[2] << 16 | (uint32_t)b[3] << 24;
}

/* Bytes of a stream, in room of exactly their number. */
static uint8_t *next_bytes(uint32_t length) {
    uint8_t *bytes = malloc(length ? length : 1);
    if (!bytes || fread(bytes, 1, length, stdin) != length) {
        fprintf(stderr, "host: the stream ends inside a case\n");
        exit(2);
    }
    return bytes;
}

static void check_stream(void) {
    for (;;) {
        uint32_t height = next_number(1);
        uint32_t length = next_number(0);
        uint8_t *bytes = next_bytes(length);
        uint32_t joints = 77, boxes = 77;
        uint32_t number = joint_board_check(height, bytes, length, &joints, &boxes);
        printf("%" PRIu32 " %" PRIu32 " %" PRIu32 "\n", number, joints, boxes);
        free(bytes);
    }
}

static void measure_stream(void) {
    for (;;) {
        uint32_t length = next_number(1);
        uint8_t *text = next_bytes(length);
        uint32_t plain = 77;
        int32_t marked = 77;
        uint32_t number = joint_board_read_measure(text, length, &plain);
        uint32_t number_marked = joint_board_read_marked(text, length, &marked);
        printf("%" PRIu32 " %" PRIu32 " %" PRIu32 " %" PRId32 "\n", number, plain, number_marked, marked);
        free(text);
    }
}

/* The stream's work room is not used: the call brings its own. A case whose room would be too short there is for others to try. */
static void sheet_stream(void) {
    for (;;) {
        next_number(1);
        uint32_t room = next_number(0);
        uint32_t length = next_number(0);
        uint8_t *sheet = next_bytes(length);
        uint8_t *bitmap = malloc(room ? room : 1);
        if (!bitmap) {
            exit(2);
        }
        memset(bitmap, 77, room);
        uint32_t height = 77, joints = 77, boxes = 77, size = 77;
        size_t offset = 77;
        uint32_t number = joint_board_build(sheet, length, bitmap, room, &height, &joints, &boxes, &size, &offset);
        size_t after = number ? 0 : offset, at = number ? offset : 0;
        printf("%" PRIu32 " %zu %" PRIu32 " %" PRIu32 " %" PRIu32 " %" PRIu32 " %zu ", number, at, height, joints, boxes, size, after);
        for (uint32_t i = 0; i < size; i++) {
            printf("%02x", bitmap[i]);
        }
        for (uint32_t i = size; i < room; i++) {
            if (bitmap[i] != 0) {
                printf(" not zero at %" PRIu32, i);
                break;
            }
        }
        printf("%s\n", number ? "-" : "");
        free(sheet);
        free(bitmap);
    }
}

static void try_measure(const char *text) {
    uint32_t plain = 77;
    int32_t marked = 77;
    uint32_t number = joint_board_read_measure((const uint8_t *)text, strlen(text), &plain);
    uint32_t number_marked = joint_board_read_marked((const uint8_t *)text, strlen(text), &marked);
    printf("measure [%s]: plain %" PRIu32 " %" PRIu32 ", marked %" PRIu32 " %" PRId32 "\n", text, number, plain, number_marked, marked);
}

static void try_board(uint32_t height, const char *name, const uint8_t *bytes, size_t length) {
    uint32_t joints = 77, boxes = 77;
    uint32_t number = joint_board_check(height, bytes, length, &joints, &boxes);
    printf("board %" PRIu32 " [%s]: %" PRIu32 " %" PRIu32 " %" PRIu32 "\n", height, name, number, joints, boxes);
}

#define BOARD(height, name, ...)                             \
    do {                                                     \
        const uint8_t bytes[] = {__VA_ARGS__};               \
        try_board(height, name, bytes, sizeof bytes);        \
    } while (0)

static void examples(void) {
    const char *texts[] = {"012,5", "12,50", "012.5", "012,3", "000,0", "999,5", "+000,0", "-000,5", "-000,0", "", "012,", "0012,55"};
    for (size_t i = 0; i < sizeof texts / sizeof texts[0]; i++) {
        try_measure(texts[i]);
    }
    BOARD(2, "96 50", 0x96, 0x50);
    BOARD(1, "00", 0x00);
    BOARD(1, "F0", 0xF0);
    BOARD(2, "98 00", 0x98, 0x00);
    BOARD(2, "96", 0x96);
    BOARD(2, "96 51", 0x96, 0x51);
    BOARD(2, "96 50 00", 0x96, 0x50, 0x00);
    BOARD(0, "96 50", 0x96, 0x50);
    BOARD(11, "96 50", 0x96, 0x50);
    const uint8_t none[1] = {0};
    try_board(2, "", none, 0);
}

/* Sheet R of the paper, a room of just its two bytes, one of three, and one that is too short. */
static void try_sheet(const char *name, const uint8_t *sheet, size_t length, size_t room) {
    uint8_t bitmap[4] = {77, 77, 77, 77};
    uint32_t height = 77, joints = 77, boxes = 77, size = 77;
    size_t offset = 77;
    uint32_t number = joint_board_build(sheet, length, bitmap, room, &height, &joints, &boxes, &size, &offset);
    printf("sheet %s, room %zu: %" PRIu32 " %" PRIu32 " %" PRIu32 " %" PRIu32 " %" PRIu32 " %zu, left", name, room, number, height, joints, boxes, size, offset);
    for (size_t i = 0; i < 4; i++) {
        printf(" %02x", bitmap[i]);
    }
    printf("\n");
}

static const uint8_t sheet_r[] = "\x01\x02"
                                 "\x02" "000,0" "000,5" "\x02" "000,5" "000,0" "\x02" "001,0" "001,5" "\x02" "001,5" "001,5"
                                 "\x03\x01" "+000,0" "+001,5"
                                 "\x04" "000,5" "001,5" "000,0" "001,5"
                                 "\x05";

static void sheet_examples(void) {
    size_t length = sizeof sheet_r - 1;
    try_sheet("R", sheet_r, length, 2);
    try_sheet("R", sheet_r, length, 3);
    try_sheet("R", sheet_r, length, 1);
    try_sheet("R cut at 81", sheet_r, length - 1, 3);
    try_sheet("R cut at 80", sheet_r, length - 2, 3);
    try_sheet("empty", sheet_r, 0, 3);
}

int main(int argc, char **argv) {
    if (argc == 2 && strcmp(argv[1], "examples") == 0) {
        examples();
        sheet_examples();
        return 0;
    }
    if (argc == 2 && strcmp(argv[1], "check") == 0) {
        check_stream();
    }
    if (argc == 2 && strcmp(argv[1], "measure") == 0) {
        measure_stream();
    }
    if (argc == 2 && strcmp(argv[1], "sheet") == 0) {
        sheet_stream();
    }
    fprintf(stderr, "usage: host examples | host check < boards | host measure < texts | host sheet < sheets\n");
    return 2;
}
