/* Steps a block and prints its state after each step that changes it, or after the last: a counter that counts. A step settles the block twice, with the
 * clock's wires 0 and then 1, and clocks what that gave; every other lent value stays 0.
 *
 *     make && cc -Iinclude examples/count.c target/staticlib/libcapi.a -o target/count
 *     target/count tests/data/counter8_2x2.in 1000       after 1,000 steps
 *     target/count tests/data/counter8_2x2.in 20 each    after each of 20 */
#include <inttypes.h>
#define PROGRAM "count"
#include "block.h"

static uint8_t state[ICE40_STATE_LENGTH(TILES)], next[ICE40_STATE_LENGTH(TILES)];
static uint8_t low[ICE40_PORTS_LENGTH(TILES)], high[ICE40_PORTS_LENGTH(TILES)]; /* what is lent before and after an edge */
static uint8_t before[ICE40_PORTS_LENGTH(TILES)], after[ICE40_PORTS_LENGTH(TILES)];

static int has_flip_flop(uint32_t tile, unsigned cell) {
    return settings[ICE40_SETTINGS_LENGTH(tile) + ICE40_SETTINGS_CELL_FLAGS(cell)] & ICE40_FLAG_FLIP_FLOP;
}

/* Lends 1 after the edge to each open wire that clocks a flip-flop. Building has refused a clock that comes from a cell; one that is a constant never ticks. */
static void find_clocks(void) {
    for (uint32_t t = 0; t < tiles; t++) {
        for (unsigned i = 0; i < ICE40_CELLS; i++) {
            if (!has_flip_flop(t, i)) continue;
            uint32_t end = ICE40_VALUE(follow_block(t, ICE40_PORT_CLK));
            if (ICE40_END(end) == ICE40_OPEN) high[ICE40_END_WIRE(end)] = 1;
        }
    }
}

/* One step; a block that was built, with bytes of 0 and 1, gives no reason for a no. */
static void step(void) {
    settle_block(state, low, before);
    settle_block(state, high, after);
    clock_block(state, before, after, next);
    memcpy(state, next, ICE40_STATE_LENGTH(tiles));
}

/* The number of steps, then the flip-flops' values: the tiles by index, in each cell 7 first. Cells without a flip-flop are dots. */
static void show_state(unsigned long steps) {
    printf("%lu:", steps);
    for (uint32_t t = 0; t < tiles; t++) {
        putchar(' ');
        for (unsigned i = ICE40_CELLS; i-- > 0;) putchar(has_flip_flop(t, i) ? '0' + state[ICE40_STATE_LENGTH(t) + i] : '.');
    }
    putchar('\n');
}

/* A decimal number of steps, or 0. */
static unsigned long steps_asked(const char *word) {
    return *word && strspn(word, "0123456789") == strlen(word) && strlen(word) < 10 ? strtoul(word, NULL, 10) : 0;
}

int main(int argc, char **argv) {
    unsigned long steps = argc > 2 ? steps_asked(argv[2]) : 0;
    int each = argc == 4 && !strcmp(argv[3], "each");
    if (!steps || (argc == 4 && !each) || argc > 4) return fprintf(stderr, "usage: count FRAMES STEPS [each]\n"), 2;
    read_input(argv[1]);
    uint64_t answer = build_block();
    if (ICE40_GROUND(answer)) {
        show_no("this block", answer);
    } else {
        find_clocks();
        for (unsigned long k = 1; k <= steps; k++) {
            step();
            if (each || k == steps) show_state(k);
        }
    }
    end_output();
    return ICE40_GROUND(answer) != ICE40_YES;
}
