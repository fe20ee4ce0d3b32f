/* A viewer in a few lines. Without a file: which wire is sp4_r_v_b_37 of tile (0, 1) in a 2 by 5 block, and what does table F0F0 give at in_2 = 1? Two
 * more questions have no answer, and the header has the words for that. With a file of frames: the settled values of each cell in use, with every
 * flip-flop and every lent value 0, before any tick.
 *
 *     make && cc -Iinclude examples/viewer.c target/staticlib/libcapi.a -o target/viewer && target/viewer
 *     target/viewer tests/data/counter8_2x2.in */
#include <inttypes.h>
#define PROGRAM "viewer"
#include "block.h"

static void show(const char *what, uint64_t answer) {
    if (ICE40_GROUND(answer)) show_no(what, answer);
    else printf("%s: %" PRIu32 "\n", what, ICE40_VALUE(answer));
}

static void answer_questions(void) {
    show("wire of sp4_r_v_b_37, tile 2, 2 by 5", ice40_wire_number(2, 5, 0, 2, ICE40_PORT_SP4_R_V_B + 37));
    show("wire of port 506", ice40_wire_number(2, 5, 0, 2, ICE40_PORTS));
    show("lookup F0F0 at 4", ice40_lookup(0xF0F0, 4));
    show("lookup F0F0 at 16", ice40_lookup(0xF0F0, 16));
}

/* Lines "(x, y) cell i: in_3 .. in_0 = 0101, out = 1" of each cell that is not all zero. */
static void show_cells(const uint8_t *values) {
    for (uint32_t t = 0; t < tiles; t++) {
        const uint8_t *ports = values + ICE40_PORTS_LENGTH(t);
        for (unsigned i = 0; i < ICE40_CELLS; i++) {
            const uint16_t *cell = settings + ICE40_SETTINGS_LENGTH(t) + ICE40_SETTINGS_CELL_TABLE(i);
            if (!cell[0] && !cell[1]) continue;
            const uint8_t *in = ports + ICE40_PORT_IN + 4 * i;
            printf("(%" PRIu32 ", %" PRIu32 ") cell %u: in_3 .. in_0 = %d%d%d%d, out = %d\n", t % w, t / w, i, in[3], in[2], in[1], in[0], ports[ICE40_PORT_OUT + i]);
        }
    }
}

/* Settles the block once; no clock has moved. A no is shown in words. */
static uint64_t show_settled(void) {
    static uint8_t state[ICE40_STATE_LENGTH(TILES)], lent[ICE40_PORTS_LENGTH(TILES)], values[ICE40_PORTS_LENGTH(TILES)];
    uint64_t answer = build_block();
    if (!ICE40_GROUND(answer)) answer = settle_block(state, lent, values);
    if (ICE40_GROUND(answer)) show_no("this block", answer);
    else show_cells(values);
    return answer;
}

int main(int argc, char **argv) {
    uint64_t answer = 0;
    if (argc > 2) return fprintf(stderr, "usage: viewer [FRAMES]\n"), 2;
    if (argc == 2) read_input(argv[1]), answer = show_settled();
    else answer_questions();
    end_output();
    return ICE40_GROUND(answer) != ICE40_YES;
}
