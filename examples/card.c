/* A shelf card in words: the size of a block, its cells and flip-flops, the wires that leave it and the open wires that these and its flip-flops depend on.
 *
 *     make && cc -Iinclude examples/card.c target/staticlib/libcapi.a -o target/card
 *     target/card tests/data/counter8_2x2.in */
#include <inttypes.h>
#define PROGRAM "card"
#include "block.h"

enum { LONGEST = 6 + 2 * ICE40_PORTS * TILES }; /* six numbers, and two lists in which no wire is given twice */

/* A list of wires after its count, in one line. */
static void show_wires(const char *what, const uint16_t *counted) {
    printf("%s: %u", what, (unsigned)counted[0]);
    for (unsigned k = 1; k <= counted[0]; k++) printf("%s %u", k > 1 ? "" : counted[0] > 1 ? ", wires" : ", wire", (unsigned)counted[k]);
    printf("\n");
}

static void show_card(const uint16_t *card) {
    printf("%u by %u tiles\n", (unsigned)card[ICE40_CARD_W], (unsigned)card[ICE40_CARD_H]);
    printf("cells in use: %u\n", (unsigned)card[ICE40_CARD_CELLS]);
    printf("flip-flops: %u\n", (unsigned)card[ICE40_CARD_FLIP_FLOPS]);
    show_wires("leaving the block", card + ICE40_CARD_LEAVING);
    show_wires("coming in, and used by a flip-flop or by what leaves", card + ICE40_CARD_FEEDING(card[ICE40_CARD_LEAVING]));
}

int main(int argc, char **argv) {
    static uint16_t card[LONGEST];
    if (argc != 2) return fprintf(stderr, "usage: card FRAMES\n"), 2;
    read_input(argv[1]);
    uint64_t answer = card_block(card, LONGEST);
    if (ICE40_GROUND(answer)) show_no("this block", answer);
    else show_card(card);
    end_output();
    return ICE40_GROUND(answer) != ICE40_YES;
}
