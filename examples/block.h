/* The calls on the block that frames.h reads, with all that they are lent in static memory: what an example adds to the header's names.
 *
 *     #define PROGRAM "count"
 *     #include "block.h" */
#ifndef BLOCK_H
#define BLOCK_H

#include "frames.h"

/* ---- what the calls write, and their work room, which is zeros before and after a call */
static uint16_t list[ICE40_LIST_LENGTH(TILES)], settings[ICE40_SETTINGS_LENGTH(TILES)];
static uint16_t room_list[ICE40_LIST_LENGTH(TILES)], room_settings[ICE40_SETTINGS_LENGTH(TILES)], room_rows[ICE40_LIST_LENGTH(TILES)];
static uint16_t room_a[ICE40_PORTS_LENGTH(TILES)], room_b[ICE40_PORTS_LENGTH(TILES)], room_c[ICE40_PORTS_LENGTH(TILES)], room_d[ICE40_PORTS_LENGTH(TILES)];

/* Reads the block to its settings and builds its list. */
static inline uint64_t build_block(void) {
    size_t ports = ICE40_PORTS_LENGTH(tiles), numbers = ICE40_LIST_LENGTH(tiles), fields = ICE40_SETTINGS_LENGTH(tiles);
    uint64_t answer = ice40_build(w, h, east, table, ICE40_TABLE_LENGTH, bits, ICE40_BITS_LENGTH(tiles), list, numbers, room_settings, fields, room_a, ports,
                                  room_b, ports, room_rows, numbers, room_c, ports, room_d, ports);
    if (!ICE40_GROUND(answer)) ice40_read(w, h, table, ICE40_TABLE_LENGTH, bits, ICE40_BITS_LENGTH(tiles), settings, fields); /* an accepted block can be read */
    return answer;
}

/* The wire of a port that is there: the call has no reason for a no. */
static inline uint32_t wire(uint32_t tile, uint32_t port) {
    return ICE40_VALUE(ice40_wire_number(w, h, east, tile, port));
}

/* What drives a port of a block that was built. */
static inline uint64_t follow_block(uint32_t tile, uint32_t port) {
    size_t ports = ICE40_PORTS_LENGTH(tiles);
    return ice40_follow(w, h, east, table, ICE40_TABLE_LENGTH, settings, ICE40_SETTINGS_LENGTH(tiles), tile, port, room_a, ports, room_b, ports, room_c,
                        ports);
}

/* Every port's value, of a block that was built. */
static inline uint64_t settle_block(const uint8_t *state, const uint8_t *lent, uint8_t *values) {
    size_t ports = ICE40_PORTS_LENGTH(tiles);
    return ice40_settle(w, h, east, table, ICE40_TABLE_LENGTH, settings, ICE40_SETTINGS_LENGTH(tiles), list, ICE40_LIST_LENGTH(tiles), state,
                        ICE40_STATE_LENGTH(tiles), lent, ports, values, ports, room_a, ports, room_b, ports, room_c, ports);
}

/* The next state, of a block that was built. */
static inline uint64_t clock_block(const uint8_t *state, const uint8_t *before, const uint8_t *after, uint8_t *next) {
    size_t ports = ICE40_PORTS_LENGTH(tiles), cells = ICE40_STATE_LENGTH(tiles);
    return ice40_clock(w, h, table, ICE40_TABLE_LENGTH, settings, ICE40_SETTINGS_LENGTH(tiles), state, cells, before, ports, after, ports, next, cells);
}

/* The shelf card, in a slice of `length` numbers. */
static inline uint64_t card_block(uint16_t *card, size_t length) {
    size_t ports = ICE40_PORTS_LENGTH(tiles), numbers = ICE40_LIST_LENGTH(tiles);
    return ice40_card(w, h, east, table, ICE40_TABLE_LENGTH, bits, ICE40_BITS_LENGTH(tiles), card, length, room_list, numbers, room_settings,
                      ICE40_SETTINGS_LENGTH(tiles), room_a, ports, room_b, ports, room_rows, numbers, room_c, ports, room_d, ports);
}

/* A no in words, on standard output. */
static inline void show_no(const char *what, uint64_t answer) {
    printf("%s: no, ground %u, %s", what, (unsigned)ICE40_GROUND(answer), ice40_ground_words(ICE40_GROUND(answer)));
    if (*ice40_place_words(ICE40_GROUND(answer))) printf(": %s %u", ice40_place_words(ICE40_GROUND(answer)), (unsigned)ICE40_VALUE(answer));
    printf("\n");
}

#endif
