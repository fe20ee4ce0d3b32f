/* The report program once more, from C and for blocks up to 8 by 8: reads the frames of an input (01 to 05) and prints the report's own lines,
 * for tools/explain.py. Exit status: 0 a yes, 1 a no, 2 it could not be told.
 *
 *     make && cc -Iinclude examples/build.c target/staticlib/libcapi.a -o target/build_c
 *     target/build_c block.frames | tools/explain.py --input block.frames */
#include <inttypes.h>
#define PROGRAM "build"
#include "block.h"

typedef struct {
    uint32_t driven, source;
} Switch;

static int by_driven(const void *one, const void *other) {
    uint32_t a = ((const Switch *)one)->driven, b = ((const Switch *)other)->driven;
    return (a > b) - (a < b);
}

/* Lines 06: driven wire and source wire of each enabled switch, rising by the first. */
static void print_switches(void) {
    static Switch switches[TILES * ICE40_GROUP_LIMIT];
    size_t count = 0;
    for (uint32_t t = 0; t < tiles; t++) {
        for (uint32_t g = 0; g < table[ICE40_TABLE_GROUP_COUNT]; g++) {
            const uint16_t *group = table + ICE40_TABLE_GROUP(g);
            unsigned entry = settings[ICE40_SETTINGS_LENGTH(t) + ICE40_SETTINGS_GROUP(g)];
            if (entry) switches[count++] = (Switch){wire(t, group[ICE40_GROUP_DESTINATION]), wire(t, group[ICE40_GROUP_SOURCE(entry - 1)])};
        }
    }
    qsort(switches, count, sizeof *switches, by_driven);
    for (size_t k = 0; k < count; k++) printf("06%04" PRIX32 "%04" PRIX32 "\n", switches[k].driven, switches[k].source);
}

/* Lines 07: tile, cell, table and flags of each cell that is not all zero. */
static void print_cells(void) {
    for (uint32_t t = 0; t < tiles; t++) {
        const uint16_t *of_tile = settings + ICE40_SETTINGS_LENGTH(t);
        for (unsigned i = 0; i < ICE40_CELLS; i++) {
            unsigned lut = of_tile[ICE40_SETTINGS_CELL_TABLE(i)], flags = of_tile[ICE40_SETTINGS_CELL_FLAGS(i)];
            if (lut || flags) printf("07%02" PRIX32 "%02X%04X%02X\n", t, i, lut, flags);
        }
    }
}

int main(int argc, char **argv) {
    if (argc != 2) return fprintf(stderr, "usage: build FRAMES\n"), 2;
    read_input(argv[1]);
    uint64_t answer = build_block();
    if (!ICE40_GROUND(answer)) print_switches(), print_cells();
    printf("08%02" PRIX32 "%04" PRIX32 "\n", ICE40_GROUND(answer), ICE40_GROUND(answer) ? ICE40_VALUE(answer) : 0);
    end_output();
    return ICE40_GROUND(answer) != ICE40_YES;
}
