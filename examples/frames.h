/* Reads a block from a file of frames (01 to 05), for the examples: its size, its routing table and its bits. A program says its name first.
 *
 *     #define PROGRAM "build"
 *     #include "frames.h" */
#ifndef FRAMES_H
#define FRAMES_H

#include <errno.h>
#include <stdio.h>
#include <stdlib.h>
#include <string.h>
#include "ice40.h"

enum { TILES = ICE40_TILES_LIMIT };

static uint32_t w, h, east, tiles; /* east: whether the column to the east of the block is logic or RAM */
static uint16_t table[ICE40_TABLE_LENGTH];
static uint8_t bytes[ICE40_BYTES_LENGTH(TILES)]; /* as the frames have them */
static uint64_t bits[ICE40_BITS_LENGTH(TILES)];
static unsigned line_number, last_kind; /* of the frames that were taken */

static void fail(const char *what, const char *why) {
    fprintf(stderr, PROGRAM ": %s: %s\n", what, why);
    exit(2);
}

static void bad_line(void) {
    char line[32];
    snprintf(line, sizeof line, "line %u", line_number);
    fail(line, "not the frame that is due there");
}

/* The next number of a frame, in `width` hexadecimal digits. */
static unsigned take(const char **frame, int width) {
    static const char digits[] = "0123456789ABCDEF";
    unsigned value = 0;
    for (; width > 0; width--, ++*frame) {
        const char *digit = **frame ? strchr(digits, **frame) : NULL;
        if (!digit) bad_line();
        value = 16 * value + (unsigned)(digit - digits);
    }
    return value;
}

/* A count of what follows it; the table has no room for a larger one. */
static uint16_t take_count(const char **frame, unsigned limit) {
    unsigned count = take(frame, 2);
    if (count > limit) bad_line();
    return (uint16_t)count;
}

static void take_positions(const char **frame, uint16_t *positions, unsigned count) {
    for (unsigned k = 0; k < count; k++) positions[k] = (uint16_t)take(frame, 4);
}

static void take_group(const char **frame) {
    if (table[ICE40_TABLE_GROUP_COUNT] == ICE40_GROUP_LIMIT) bad_line();
    uint16_t *group = table + ICE40_TABLE_GROUP(table[ICE40_TABLE_GROUP_COUNT]++);
    group[ICE40_GROUP_DESTINATION] = (uint16_t)take(frame, 4);
    group[ICE40_GROUP_POSITION_COUNT] = take_count(frame, ICE40_POSITION_LIMIT);
    take_positions(frame, group + ICE40_GROUP_POSITION(0), group[ICE40_GROUP_POSITION_COUNT]);
    group[ICE40_GROUP_ENTRY_COUNT] = take_count(frame, ICE40_ENTRY_LIMIT);
    for (unsigned e = 0; e < group[ICE40_GROUP_ENTRY_COUNT]; e++) {
        group[ICE40_GROUP_PATTERN(e)] = (uint16_t)take(frame, 2);
        group[ICE40_GROUP_SOURCE(e)] = (uint16_t)take(frame, 4);
    }
}

static void take_tile(const char **frame) {
    if (tiles == w * h) bad_line();
    uint8_t *tile = bytes + ICE40_BYTES_LENGTH(tiles++);
    for (size_t b = 0; b < ICE40_BYTES_LENGTH(1); b++) tile[b] = (uint8_t)take(frame, 2);
}

/* The size, and a byte for the column to the east, which may be left out. */
static void take_size(const char **frame) {
    w = take(frame, 2), h = take(frame, 2);
    if (**frame != '\n') east = take(frame, 2);
    if (east > 1) bad_line();
}

/* One 01, one 02, the 03s, one 04, the 05s. */
static int is_due(unsigned kind) {
    return kind == last_kind + 1 || (kind == last_kind && (kind == 3 || kind == 5)) || (kind == 4 && last_kind == 2);
}

static void take_frame(const char *frame) {
    unsigned kind = take(&frame, 2);
    if (!is_due(kind)) bad_line();
    switch (last_kind = kind) {
    case 1: take_positions(&frame, table + ICE40_TABLE_NEG_CLK, 3); break;
    case 2:
        table[ICE40_TABLE_PASSIVE_COUNT] = take_count(&frame, ICE40_PASSIVE_LIMIT);
        take_positions(&frame, table + ICE40_TABLE_PASSIVE(0), table[ICE40_TABLE_PASSIVE_COUNT]);
        break;
    case 3: take_group(&frame); break;
    case 4: take_size(&frame); break;
    default: take_tile(&frame);
    }
    if (*frame != '\n') bad_line();
}

/* Whether every frame is there. After a size that no call takes nothing is looked at: the answer is ground 1. */
static int is_whole(void) {
    int refused = w < 1 || w > ICE40_LIMIT || h < 1 || h > ICE40_LIMIT;
    return last_kind >= 4 && (refused || tiles == w * h);
}

/* Reads a block and its routing table; ends the program where the file is not such a block. */
static void read_input(const char *path) {
    FILE *file = fopen(path, "r");
    if (!file) fail(path, strerror(errno));
    for (char line[600]; !(last_kind == 4 && is_whole()) && fgets(line, sizeof line, file);) line_number++, take_frame(line);
    if (ferror(file)) fail(path, strerror(errno));
    line_number++;
    if (!is_whole()) bad_line();
    fclose(file);
    ice40_words_of_bytes(w, h, bytes, ICE40_BYTES_LENGTH(tiles), bits, ICE40_BITS_LENGTH(tiles)); /* every other call refuses the sizes that it refuses */
}

/* Ends the program unless all that was printed has been written. */
static void end_output(void) {
    if (fflush(stdout) || ferror(stdout)) fail("standard output", strerror(errno));
}

#endif
