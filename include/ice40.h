/* The proved reader of iCE40 logic tiles, for C and C++. `make lib` builds the library; examples/build.c is a whole program.
 *
 * Every function takes any numbers and always ends. The answer is one 64-bit number: what was asked for, with nothing above its
 * low 32 bits, or, for a no, the ground's number times 2^32 plus its place. ICE40_GROUND and ICE40_VALUE take it apart.
 *
 * Blocks. A block is w by h logic tiles, w and h from 1 to 8. Tile t is the one at x = t mod w, y = t / w, counted from the south-west tile: x grows
 * east, y grows north, t = w y + x. A call whose answer depends on which ports are one wire takes east after them: 1
 * where the column of tiles to the east of the block is logic or RAM, else 0; another number is refused with ground 1. The east column of
 * the block has names (sp4_r_v_b) for the vertical wires of the column beside it. Where that is logic or RAM these run on from row to row, so
 * that with 1 their names in two rows are one wire; with 0 each row's are wires of their own. On a chip's last column of logic, beside IO
 * tiles, 1 would join what is apart. With h = 1 both give the same. A list is a block's own only with the same east.
 *
 * Bits. A block's bits are 16 numbers a tile, a row each: bit Br[c] of tile t, its position 54 r + c, is in number 16 t + r at weight 2^c.
 * Columns 54 to 63 are zero. A set bit there is refused with ground 4, as a fault at column 53 of its row, by the calls that decode bits or
 * write them out; ice40_bit_count does not count it and ice40_tile_part hands it back. Frames hold a tile as 108 bytes: ice40_words_of_bytes and
 * ice40_bytes_of_words go from one form to the other.
 *
 * Memory. A slice is a pointer and a length, counted in numbers and not in bytes. Every length is exact: another one is refused with
 * ground 2. Four may have any length: the text that ice40_asc_read reads, the lists of ice40_compare and ice40_contentions, and the card of
 * ice40_card, which ground 15 refuses where the rows, or the numbers, do not fit. On a no the outputs keep their old contents; the work room comes back zeroed, or
 * untouched under grounds 1 and 2.
 *
 *   - Slices that are only read (const) may overlap one another, or be the same.
 *   - A slice that is written, output or work room, must not overlap any other slice of the call, read or written. The proofs are about
 *     separate slices, and nothing holds otherwise: the answer may be wrong, memory outside every slice may be read and written, and the
 *     call may not end. ice40_contentions, handed one slice as heads and nexts, wrote 32,652 numbers outside of all it was lent.
 *   - A slice of length 0 may have any pointer, NULL too. No exact length is 0, so it is refused with ground 2, or with 1 or 14 before that.
 *     Of the four that may have any length, a text of length 0 is a file without a line, ground 13 at line 1, and a list of length 0 is
 *     enough where there are no rows. A card has six numbers or more.
 *   - Any other pointer is to as many numbers of its type as the length says. The library cannot check that.
 *
 * Threads. The library has no variables: nothing is kept from one call to the next. Calls that share no memory which one of them writes may
 * run at the same time.
 *
 * Stack. ICE40_STACK_BYTES is enough for any call. Measured: ice40_read and ice40_contentions take 82 kB, ice40_asc_read 56 kB,
 * ice40_card and ice40_build 12 kB, every other call less than 8 kB.
 *
 * No call takes memory from the heap, opens a file, prints, or calls back. */
#ifndef ICE40_H
#define ICE40_H

#include <stddef.h>
#include <stdint.h>

#define ICE40_VERSION_MAJOR 0
#define ICE40_VERSION_MINOR 5
#define ICE40_VERSION_PATCH 0
#define ICE40_VERSION "0.5.0"

#define ICE40_STACK_BYTES 131072

/* The ground of an answer: 0 for a yes. */
#define ICE40_GROUND(answer) ((uint32_t)((answer) >> 32))
/* The place of a no, or the value of a yes. */
#define ICE40_VALUE(answer) ((uint32_t)(answer))

/* ---- the grounds for a no (document 01, 'Grounds for a no', and 02): X(number, NAME, words, what the place is)
 *
 * ICE40_NO_SIZE .. are the numbers. Calls of this version give 1 to 10, 12 to 15 and 20, the report program 11 too; nothing gives 16,
 * which belongs to a request of document 02 that is still to come. */
#define ICE40_GROUNDS(X) \
    X(1, SIZE, "W or H is not 1 to 8, or not 1 to 3 for the programs, or the byte for the column to the east is not 0 or 1", "") \
    X(2, LENGTH, "a lent length differs from the exact one", "") \
    X(3, TABLE, "the routing table breaks a rule", "part") \
    X(4, UNDECODABLE, "a tile cannot be decoded: a group's bits are a pattern that the table does not list, a bit is set that nothing claims or past the 54 columns of its row, " \
      "or CarryInSet is set together with the switch from carry_in", "position") \
    X(5, CONTENTION, "a fight: two enabled switches end on one wire", "wire") \
    X(6, DISABLED_CARRY, "a disabled carry output is read: by an enabled switch, by the chain or by the next enabled carry", "wire") \
    X(7, LOOP, "a loop: a wire depends on itself", "wire") \
    X(8, CELL_CLOCK, "the clock of a tile with a flip-flop, or the set/reset of one with an asynchronous flip-flop, comes from a cell", "tile") \
    X(9, SETTINGS, "settings that no bits have", "tile") \
    X(10, NOT_A_BIT, "a byte of the state, of lent or of settled values is above 1", "index") \
    X(11, LINE, "a line of the input is malformed, out of turn, missing or extra", "line") \
    X(12, ROW, "a row of the list breaks a rule", "row") \
    X(13, ASC_LINE, "a line of an .asc file is malformed, out of turn, missing or given twice", "line") \
    X(14, SIZES_DIFFER, "the sizes of two blocks differ", "") \
    X(15, LIST_TOO_SHORT, "the lent list is too short", "count") \
    X(16, NOT_OPEN, "a change to a wire that is not open, or two changes to one wire", "line") \
    X(20, OUT_OF_RANGE, "a port, tile or lookup input is out of range", "number")

#define ICE40_GROUND_NAME(number, name, words, place) ICE40_NO_##name = number,
enum { ICE40_YES = 0, ICE40_GROUNDS(ICE40_GROUND_NAME) };
#undef ICE40_GROUND_NAME

/* A ground in words, or NULL for a number that is no ground. */
static inline const char *ice40_ground_words(uint32_t ground) {
#define ICE40_GROUND_CASE(number, name, words, place) case number: return words;
    switch (ground) { ICE40_GROUNDS(ICE40_GROUND_CASE) default: return NULL; }
#undef ICE40_GROUND_CASE
}

/* What the place of a ground is: "wire", "tile", ..; "position", of ground 4, is 864 times the tile plus 54 r + c for its bit Br[c]. "" where it is
 * always 0, NULL for a number that is no ground. */
static inline const char *ice40_place_words(uint32_t ground) {
#define ICE40_PLACE_CASE(number, name, words, place) case number: return place;
    switch (ground) { ICE40_GROUNDS(ICE40_PLACE_CASE) default: return NULL; }
#undef ICE40_PLACE_CASE
}

/* ---- exact lengths, in numbers, for a block of n tiles */
#define ICE40_LIMIT 8                                        /* the largest w and h */
#define ICE40_TILES_LIMIT 64                                 /* the largest n */
#define ICE40_TABLE_LENGTH 38469                             /* uint16_t, whatever n is */
#define ICE40_BITS_LENGTH(n) (16 * (size_t)(n))              /* uint64_t: row r of tile t is number 16 t + r, column c at weight 2^c */
#define ICE40_BYTES_LENGTH(n) (108 * (size_t)(n))            /* uint8_t, frames: position p of tile t is in byte 108 t + p / 8, at weight 2^(p mod 8) */
#define ICE40_SETTINGS_LENGTH(n) (595 * (size_t)(n))         /* uint16_t */
#define ICE40_PORTS_LENGTH(n) (506 * (size_t)(n))            /* a number for each port: lent and settled values, work room */
#define ICE40_LIST_LENGTH(n) (3542 * (size_t)(n))            /* uint16_t */
#define ICE40_STATE_LENGTH(n) (8 * (size_t)(n))              /* uint8_t: cell i of tile t at 8 t + i */
#define ICE40_SWITCHES_LENGTH(n) (512 * (size_t)(n))         /* uint16_t: a number for each group of each tile, work room */

/* ---- a routing table. ICE40_TABLE_GROUP(g) is the first number of group g, and ICE40_GROUP_.. count from there */
#define ICE40_TABLE_NEG_CLK 0
#define ICE40_TABLE_CARRY_IN_SET 1
#define ICE40_TABLE_CHAIN 2                                  /* the switch from carry_in to carry_in_mux */
#define ICE40_TABLE_PASSIVE_COUNT 3
#define ICE40_TABLE_PASSIVE(j) (4 + (size_t)(j))             /* position j of the passive list */
#define ICE40_TABLE_GROUP_COUNT 68
#define ICE40_TABLE_GROUP(g) (69 + 75 * (size_t)(g))
#define ICE40_GROUP_DESTINATION 0
#define ICE40_GROUP_POSITION_COUNT 1
#define ICE40_GROUP_POSITION(k) (2 + (size_t)(k))            /* the first has weight 1 in a pattern */
#define ICE40_GROUP_ENTRY_COUNT 10
#define ICE40_GROUP_PATTERN(e) (11 + 2 * (size_t)(e))
#define ICE40_GROUP_SOURCE(e) (12 + 2 * (size_t)(e))
#define ICE40_PASSIVE_LIMIT 64
#define ICE40_GROUP_LIMIT 512
#define ICE40_POSITION_LIMIT 8                               /* of a group */
#define ICE40_ENTRY_LIMIT 32                                 /* of a group */

/* ---- a tile's settings, counted from ICE40_SETTINGS_LENGTH(t). Unused numbers are 0 */
#define ICE40_SETTINGS_NEG_CLK 0
#define ICE40_SETTINGS_CARRY_IN_SET 1
#define ICE40_SETTINGS_CHAIN 2
#define ICE40_SETTINGS_PASSIVE(j) (3 + (size_t)(j))
#define ICE40_SETTINGS_GROUP(g) (67 + (size_t)(g))           /* 0 for off, or the entry from 1 */
#define ICE40_SETTINGS_CELL_TABLE(i) (579 + 2 * (size_t)(i)) /* of cell i */
#define ICE40_SETTINGS_CELL_FLAGS(i) (580 + 2 * (size_t)(i))
#define ICE40_FLAG_CARRY 1
#define ICE40_FLAG_FLIP_FLOP 2
#define ICE40_FLAG_SET 4
#define ICE40_FLAG_ASYNCHRONOUS 8

/* ---- a list: row r at ICE40_ROW_LENGTH * r. Rows past the row count are 0, and so are numbers that a kind does not use */
#define ICE40_ROW_LENGTH 7
#define ICE40_ROW_KIND 0
#define ICE40_ROW_WIRE 1
#define ICE40_ROW_OPERAND(k) (2 + (size_t)(k))               /* k 0 to 3 */
#define ICE40_ROW_TABLE 6
#define ICE40_KIND_LENT 1
#define ICE40_KIND_ZERO 2
#define ICE40_KIND_ONE 3
#define ICE40_KIND_FLIP_FLOP 4                               /* operand 0 is 8 t + i */
#define ICE40_KIND_COPY 5
#define ICE40_KIND_LOOKUP 6                                  /* in_0 first */
#define ICE40_KIND_MAJORITY 7                                /* in_1, in_2, carry-in */

/* ---- a list of differences, uint32_t: row r at ICE40_DIFFERENCE_LENGTH * r. Rows rise by tile, kind and index, and zeros follow them */
#define ICE40_DIFFERENCE_LENGTH 5
#define ICE40_DIFFERENCE_TILE 0
#define ICE40_DIFFERENCE_KIND 1
#define ICE40_DIFFERENCE_INDEX 2
#define ICE40_DIFFERENCE_OLD 3                               /* a group's 0 or entry from 1; a cell's table plus 65,536 times its flags */
#define ICE40_DIFFERENCE_NEW 4
#define ICE40_DIFFERS_FIELD 1                                /* index 0 NegClk, 1 CarryInSet, 2 the chain */
#define ICE40_DIFFERS_GROUP 2
#define ICE40_DIFFERS_CELL 3
#define ICE40_DIFFERS_PASSIVE 4
#define ICE40_DIFFERENCES_LIMIT(n) (587 * (size_t)(n))       /* the most rows: 3 fields, 512 groups, 8 cells, 64 passive bits a tile */

/* ---- a list of contentions: row r at ICE40_CONTENTION_LENGTH * r. Rows rise by wire, tile and group, and zeros follow them */
#define ICE40_CONTENTION_LENGTH 3
#define ICE40_CONTENTION_WIRE 0
#define ICE40_CONTENTION_TILE 1
#define ICE40_CONTENTION_GROUP 2

/* ---- a shelf card. The leaving wires follow their count, then come the count of the feeding wires, these, and zeros */
#define ICE40_CARD_W 0
#define ICE40_CARD_H 1
#define ICE40_CARD_CELLS 2                                   /* cells that are not all zero */
#define ICE40_CARD_FLIP_FLOPS 3
#define ICE40_CARD_LEAVING 4                                 /* how many leaving wires; these follow */
#define ICE40_CARD_FEEDING(leaving) (5 + (size_t)(leaving))  /* how many feeding wires; these follow */

/* ---- the ports of a tile, IceStorm's names: port q of tile t is number 506 t + q */
#define ICE40_CELLS 8                                        /* of a tile */
#define ICE40_PORTS 506                                      /* of a tile */
#define ICE40_PORT_SP4_H_L 0                                 /* 48 */
#define ICE40_PORT_SP4_H_R 48                                /* 48 */
#define ICE40_PORT_SP4_V_T 96                                /* 48 */
#define ICE40_PORT_SP4_V_B 144                               /* 48 */
#define ICE40_PORT_SP4_R_V_B 192                             /* 48 */
#define ICE40_PORT_SP12_H_L 240                              /* 24 */
#define ICE40_PORT_SP12_H_R 264                              /* 24 */
#define ICE40_PORT_SP12_V_T 288                              /* 24 */
#define ICE40_PORT_SP12_V_B 312                              /* 24 */
#define ICE40_PORT_LOCAL 336                                 /* 32: local_gA_B at + 8 A + B */
#define ICE40_PORT_GLB2LOCAL 368                             /* 4 */
#define ICE40_PORT_IN 372                                    /* 32: lutff_i/in_j at + 4 i + j */
#define ICE40_PORT_OUT 404                                   /* 8 */
#define ICE40_PORT_NEIGH_OP_BNL 412                          /* 8, as those below */
#define ICE40_PORT_NEIGH_OP_BOT 420
#define ICE40_PORT_NEIGH_OP_BNR 428
#define ICE40_PORT_NEIGH_OP_LFT 436
#define ICE40_PORT_NEIGH_OP_RGT 444
#define ICE40_PORT_NEIGH_OP_TNL 452
#define ICE40_PORT_NEIGH_OP_TOP 460
#define ICE40_PORT_NEIGH_OP_TNR 468
#define ICE40_PORT_CLK 476
#define ICE40_PORT_CEN 477
#define ICE40_PORT_S_R 478
#define ICE40_PORT_GLB_NETWK 479                             /* 8 */
#define ICE40_PORT_CARRY_IN 487
#define ICE40_PORT_CARRY_IN_MUX 488
#define ICE40_PORT_COUT 489                                  /* 8 */
#define ICE40_PORT_LOUT 497                                  /* 8 */
#define ICE40_PORT_LTIN 505                                  /* of cell 0 */

/* ---- the ends of following a driver: ICE40_END of the value is one of these, ICE40_END_WIRE the wire */
#define ICE40_OPEN 1
#define ICE40_ZERO 2
#define ICE40_ONE 3
#define ICE40_CELL 4
#define ICE40_RING 5
#define ICE40_END(value) ((uint32_t)(value) >> 16)
#define ICE40_END_WIRE(value) ((uint32_t)(value) & 0xFFFF)

#ifdef __cplusplus
extern "C" {
#endif

/* The number of the wire that a port of a tile is on. Grounds 1, 20. */
uint64_t ice40_wire_number(uint32_t w, uint32_t h, uint32_t east, uint32_t tile, uint32_t port);

/* The bit of a lookup table at inputs given as one number, in_0 with weight 1. Ground 20. */
uint64_t ice40_lookup(uint16_t table, uint32_t inputs);

/* Reads a block's bits to its settings. Grounds 1, 2, 3, 4. */
uint64_t ice40_read(uint32_t w, uint32_t h, const uint16_t *table, size_t table_length, const uint64_t *bits, size_t bits_length,
                    uint16_t *settings, size_t settings_length);

/* Writes a block's settings as bits. Grounds 1, 2, 3, 9. */
uint64_t ice40_write(uint32_t w, uint32_t h, const uint16_t *table, size_t table_length, const uint16_t *settings, size_t settings_length,
                     uint64_t *bits, size_t bits_length);

/* How many of a tile's 864 bits are set; what stands past a row's columns is not looked at. Grounds 1, 2, 20. */
uint64_t ice40_bit_count(uint32_t w, uint32_t h, const uint64_t *bits, size_t bits_length, uint32_t tile);

/* A block's bits as numbers, of the bytes that frames hold; the value is 0. Grounds 1, 2. Every byte may have any value: the numbers have no bit
 * past their columns, and read to what the bytes say. */
uint64_t ice40_words_of_bytes(uint32_t w, uint32_t h, const uint8_t *bytes, size_t bytes_length, uint64_t *words, size_t words_length);

/* A block's bits as the bytes that frames hold; the value is 0. Each of the two undoes the other. Grounds 1, 2, and 4 for a bit past the columns
 * of its row, in the lowest tile and its lowest row; there is no table, so that nothing else is ground 4 here. */
uint64_t ice40_bytes_of_words(uint32_t w, uint32_t h, const uint64_t *words, size_t words_length, uint8_t *bytes, size_t bytes_length);

/* Every difference between two blocks of one size under one table; the value is the number of rows, 0 exactly if the bits are equal.
 * Grounds 1, 14, 2, 3, 4, 15, each for the first block before the second; the place of 15 is the number of rows needed. The output is list,
 * of any length, with zeros behind the rows; no two blocks need more than ICE40_DIFFERENCE_LENGTH * ICE40_DIFFERENCES_LIMIT(n). The work
 * room is before and after, each as long as the settings of a block; under 14 it is zeroed whatever its length. */
uint64_t ice40_compare(uint32_t w1, uint32_t h1, uint32_t w2, uint32_t h2, const uint16_t *table, size_t table_length, const uint64_t *first,
                       size_t first_length, const uint64_t *second, size_t second_length, uint32_t *list, size_t list_length, uint16_t *before,
                       size_t before_length, uint16_t *after, size_t after_length);

/* Where a tile's numbers begin in one of two blocks of one size: which is 0 for the first, any other number for the second. The index is
 * the same in both; the caller adds it to the pointer of the one asked for, and a tile has ICE40_BITS_LENGTH(1) numbers. Nothing is decoded.
 * Grounds 1, 14, 2, 20. */
uint64_t ice40_tile_part(uint32_t w1, uint32_t h1, uint32_t w2, uint32_t h2, const uint64_t *first, size_t first_length, const uint64_t *second,
                         size_t second_length, uint32_t which, uint32_t tile);

/* The list of a block's rows, in order; the value is the row count. Grounds 1 to 8. The output is list; the work room follows it: settings,
 * then wires, sources, rows (a list), marks and queue, which but for rows have a number for each port. */
uint64_t ice40_build(uint32_t w, uint32_t h, uint32_t east, const uint16_t *table, size_t table_length, const uint64_t *bits,
                     size_t bits_length, uint16_t *list, size_t list_length, uint16_t *settings, size_t settings_length, uint16_t *wires,
                     size_t wires_length, uint16_t *sources, size_t sources_length, uint16_t *rows, size_t rows_length, uint16_t *marks,
                     size_t marks_length, uint16_t *queue, size_t queue_length);

/* What drives a port, followed from switch to switch; ICE40_END and ICE40_END_WIRE take the value apart. Grounds 1, 2, 3, 9, 5, 20. The
 * work room is wires, sources and marks. */
uint64_t ice40_follow(uint32_t w, uint32_t h, uint32_t east, const uint16_t *table, size_t table_length, const uint16_t *settings,
                      size_t settings_length, uint32_t tile, uint32_t port, uint16_t *wires, size_t wires_length, uint16_t *sources,
                      size_t sources_length, uint16_t *marks, size_t marks_length);

/* Every contention of a block (document 02: fight): a row of wire, tile and group for each enabled switch on a wire on which two or more
 * end; the value is the number of rows. Grounds 1 to 4, then 15, whose place is the number of rows needed. The output is list, of any length;
 * no block needs more than ICE40_CONTENTION_LENGTH * ICE40_SWITCHES_LENGTH(n). The work room follows it: settings, wires and heads, which have
 * a number for each port, and nexts, one for each group of each tile. */
uint64_t ice40_contentions(uint32_t w, uint32_t h, uint32_t east, const uint16_t *table, size_t table_length, const uint64_t *bits,
                           size_t bits_length, uint16_t *list, size_t list_length, uint16_t *settings, size_t settings_length,
                           uint16_t *wires, size_t wires_length, uint16_t *heads, size_t heads_length, uint16_t *nexts,
                           size_t nexts_length);

/* One step from the values before to those after: writes every port's value before, and the next state. Grounds 1, 2, 3, 9, 12, 10. The
 * outputs are values and next; the work room is wires, own, marks, first and second. */
uint64_t ice40_step(uint32_t w, uint32_t h, uint32_t east, const uint16_t *table, size_t table_length, const uint16_t *settings,
                    size_t settings_length, const uint16_t *list, size_t list_length, const uint8_t *state, size_t state_length,
                    const uint8_t *before, size_t before_length, const uint8_t *after, size_t after_length, uint8_t *values,
                    size_t values_length, uint8_t *next, size_t next_length, uint16_t *wires, size_t wires_length, uint16_t *own,
                    size_t own_length, uint16_t *marks, size_t marks_length, uint8_t *first, size_t first_length, uint8_t *second,
                    size_t second_length);

/* The shelf card of a block: W, H, cells in use, flip-flops, the wires that leave the block (span wires with an enabled switch and a port whose join to
 * another tile fails, as that tile is outside), and the open wires that a leaving wire or a flip-flop's in, clk, cen or s_r wire depends on; the value is
 * how many numbers it has. Grounds 1 to 8, then 15, whose place is the numbers needed. The output is card, of any length; the work room follows it: list,
 * settings, wires, sources, rows, marks and queue, of the lengths that ice40_build asks for. */
uint64_t ice40_card(uint32_t w, uint32_t h, uint32_t east, const uint16_t *table, size_t table_length, const uint64_t *bits, size_t bits_length,
                    uint16_t *card, size_t card_length, uint16_t *list, size_t list_length, uint16_t *settings, size_t settings_length,
                    uint16_t *wires, size_t wires_length, uint16_t *sources, size_t sources_length, uint16_t *rows, size_t rows_length,
                    uint16_t *marks, size_t marks_length, uint16_t *queue, size_t queue_length);

/* Settles a block: every port's value under a state and lent values, without any tick; the value is 0. Grounds 1, 2, 3, 9, 12, 10; the place of 10 is the
 * index into state and lent, joined. The list is the block's own, as ice40_build gives it. A lent value is read where a row of the list has kind
 * ICE40_KIND_LENT, at the number of its wire; the other numbers of lent are not looked at, but must be 0 or 1. The output is values, which has the value
 * of each port's wire; the work room is wires, own and marks. */
uint64_t ice40_settle(uint32_t w, uint32_t h, uint32_t east, const uint16_t *table, size_t table_length, const uint16_t *settings,
                      size_t settings_length, const uint16_t *list, size_t list_length, const uint8_t *state, size_t state_length,
                      const uint8_t *lent, size_t lent_length, uint8_t *values, size_t values_length, uint16_t *wires, size_t wires_length,
                      uint16_t *own, size_t own_length, uint16_t *marks, size_t marks_length);

/* Clocks a block: the next state of every cell, from the old state and the values settled before and after under that state; the value is 0. Grounds 1,
 * 2, 3, 9, 10; the place of 10 is the index into state, before and after, joined. A tile's flip-flops tick where its clk port is 0 before and 1 after, or
 * 1 and 0 with NegClk. Every tile's own clk, cen, s_r and in ports are read, whatever values they are handed. The output is next. Settling with the
 * lent values before, settling with those after, and clocking make one step. */
uint64_t ice40_clock(uint32_t w, uint32_t h, const uint16_t *table, size_t table_length, const uint16_t *settings, size_t settings_length,
                     const uint8_t *state, size_t state_length, const uint8_t *before, size_t before_length, const uint8_t *after,
                     size_t after_length, uint8_t *next, size_t next_length);

/* ---- IceStorm's ASCII files (.asc) of a 1k. The block is w by h logic tiles with its south-west one at x, y of the chip; the other tiles
 * and sections of a file are skipped. A block that reaches past 255 is refused with ground 1. A text is bytes, with no 0 at its end */

/* Reads a block's bits from a file; the value is 0. Grounds 1, 2, 13. The text may have any length and hold any bytes; one of length 0 is
 * refused with 13 at line 1, and its pointer may be NULL. The place of 13 is the line, from 1, cut at 2^32 - 1: the first line that is not
 * of the shape due there (one without a line feed too), another or a second device, or a block tile given twice; one past the last line
 * for what is missing. */
uint64_t ice40_asc_read(uint32_t w, uint32_t h, uint32_t x, uint32_t y, const uint8_t *text, size_t text_length,
                        uint64_t *bits, size_t bits_length);

/* How many bytes the file of such a block has, 57,611 at most. Ground 1. */
uint64_t ice40_asc_length(uint32_t w, uint32_t h, uint32_t x, uint32_t y);

/* Writes a block as a file: .device 1k, then its tiles by index; the value is 0. Grounds 1, 2, and 4 as in ice40_bytes_of_words. The text has
 * exactly the length that ice40_asc_length tells. Read back at its corner and size it gives the same bits. */
uint64_t ice40_asc_write(uint32_t w, uint32_t h, uint32_t x, uint32_t y, const uint64_t *bits, size_t bits_length,
                         uint8_t *text, size_t text_length);

#ifdef __cplusplus
}
#endif

#endif
