/* What include/ice40.h says, tried; compiled as C and as C++ by tests/header.py. The one argument is a block as tests/header.py writes it: w, h
 * and east, a byte each, the table, the bits as words and as bytes. It prints a line for each group of calls, the number of calls and of those that are wrong. */
#include <pthread.h>
#include <stdio.h>
#include <stdlib.h>
#include <string.h>
#include "ice40.h"

enum { N = ICE40_TILES_LIMIT, TEXT = 57611, X = 9, Y = 98, THREADS = 4, ROUNDS = 10 };

/* Everything that the calls of a block are lent. */
typedef struct {
    uint16_t table[ICE40_TABLE_LENGTH], settings[ICE40_SETTINGS_LENGTH(N)], list[ICE40_LIST_LENGTH(N)];
    uint64_t bits[ICE40_BITS_LENGTH(N)], written[ICE40_BITS_LENGTH(N)], again[ICE40_BITS_LENGTH(N)], words[ICE40_BITS_LENGTH(N)];
    uint64_t other[ICE40_BITS_LENGTH(N)]; /* the block with one bit changed */
    uint8_t bytes[ICE40_BYTES_LENGTH(N)], back[ICE40_BYTES_LENGTH(N)], state[ICE40_STATE_LENGTH(N)], next[ICE40_STATE_LENGTH(N)];
    uint8_t low[ICE40_PORTS_LENGTH(N)], high[ICE40_PORTS_LENGTH(N)]; /* lent before and after */
    uint8_t before[ICE40_PORTS_LENGTH(N)], after[ICE40_PORTS_LENGTH(N)]; /* settled with these */
    uint8_t values[ICE40_PORTS_LENGTH(N)], stepped[ICE40_STATE_LENGTH(N)]; /* what a step from low to high writes */
    uint8_t text[TEXT];
    uint16_t contentions[ICE40_CONTENTION_LENGTH * ICE40_SWITCHES_LENGTH(N)];
    uint32_t differences[ICE40_DIFFERENCE_LENGTH * 2];
    uint16_t card[6 + 2 * ICE40_PORTS * N];
    uint64_t answers[18];
    /* work room */
    uint16_t room_settings[ICE40_SETTINGS_LENGTH(N)], rows[ICE40_LIST_LENGTH(N)], a[ICE40_PORTS_LENGTH(N)], b[ICE40_PORTS_LENGTH(N)];
    uint16_t c[ICE40_PORTS_LENGTH(N)], d[ICE40_PORTS_LENGTH(N)], nexts[ICE40_SWITCHES_LENGTH(N)], other_settings[ICE40_SETTINGS_LENGTH(N)];
    uint16_t room_list[ICE40_LIST_LENGTH(N)];
    uint8_t first[ICE40_PORTS_LENGTH(N)], second[ICE40_PORTS_LENGTH(N)];
} Work;

static uint32_t w, h, east;
static size_t n, ports;
static unsigned cases, wrong;

static void same(int right, const char *what) {
    cases++;
    if (!right && wrong++ < 3) printf("  DIFFERENT %s\n", what);
}

static void done(const char *what) {
    printf("%s\t%u\t%u\n", what, cases, wrong);
    cases = wrong = 0;
}

static uint64_t step(Work *k, const uint8_t *before, const uint8_t *after) {
    return ice40_step(w, h, east, k->table, ICE40_TABLE_LENGTH, k->settings, ICE40_SETTINGS_LENGTH(n), k->list, ICE40_LIST_LENGTH(n), k->state,
                      ICE40_STATE_LENGTH(n), before, ports, after, ports, k->values, ports, k->stepped, ICE40_STATE_LENGTH(n), k->a, ports, k->b, ports,
                      k->c, ports, k->first, ports, k->second, ports);
}

static uint64_t settle(Work *k, const uint8_t *lent, uint8_t *values) {
    return ice40_settle(w, h, east, k->table, ICE40_TABLE_LENGTH, k->settings, ICE40_SETTINGS_LENGTH(n), k->list, ICE40_LIST_LENGTH(n), k->state,
                        ICE40_STATE_LENGTH(n), lent, ports, values, ports, k->a, ports, k->b, ports, k->c, ports);
}

static uint64_t clock_cells(Work *k, const uint8_t *before, const uint8_t *after) {
    return ice40_clock(w, h, k->table, ICE40_TABLE_LENGTH, k->settings, ICE40_SETTINGS_LENGTH(n), k->state, ICE40_STATE_LENGTH(n), before, ports, after, ports,
                       k->next, ICE40_STATE_LENGTH(n));
}

/* With a card of `length` numbers. */
static uint64_t make_card(Work *k, size_t length) {
    return ice40_card(w, h, east, k->table, ICE40_TABLE_LENGTH, k->bits, ICE40_BITS_LENGTH(n), k->card, length, k->room_list, ICE40_LIST_LENGTH(n),
                      k->room_settings, ICE40_SETTINGS_LENGTH(n), k->a, ports, k->b, ports, k->rows, ICE40_LIST_LENGTH(n), k->c, ports, k->d, ports);
}

/* With a list of so many numbers. */
static uint64_t list_contentions(Work *k, size_t length) {
    return ice40_contentions(w, h, east, k->table, ICE40_TABLE_LENGTH, k->bits, ICE40_BITS_LENGTH(n), k->contentions, length, k->room_settings,
                             ICE40_SETTINGS_LENGTH(n), k->a, ports, k->b, ports, k->nexts, ICE40_SWITCHES_LENGTH(n));
}

/* With another block and a list of so many numbers. */
static uint64_t compare(Work *k, const uint64_t *other, uint32_t *list, size_t length) {
    return ice40_compare(w, h, w, h, k->table, ICE40_TABLE_LENGTH, k->bits, ICE40_BITS_LENGTH(n), other, ICE40_BITS_LENGTH(n), list, length,
                         k->room_settings, ICE40_SETTINGS_LENGTH(n), k->other_settings, ICE40_SETTINGS_LENGTH(n));
}

static uint64_t tile_part(const Work *k, uint32_t which, uint32_t tile) {
    return ice40_tile_part(w, h, w, h, k->bits, ICE40_BITS_LENGTH(n), k->other, ICE40_BITS_LENGTH(n), which, tile);
}

static uint64_t write_settings(Work *k, const uint16_t *settings) {
    return ice40_write(w, h, k->table, ICE40_TABLE_LENGTH, settings, ICE40_SETTINGS_LENGTH(n), k->written, ICE40_BITS_LENGTH(n));
}

/* Every call once. */
static void call_all(Work *k) {
    k->answers[0] = ice40_read(w, h, k->table, ICE40_TABLE_LENGTH, k->bits, ICE40_BITS_LENGTH(n), k->settings, ICE40_SETTINGS_LENGTH(n));
    k->answers[1] = write_settings(k, k->settings);
    k->answers[2] = ice40_build(w, h, east, k->table, ICE40_TABLE_LENGTH, k->bits, ICE40_BITS_LENGTH(n), k->list, ICE40_LIST_LENGTH(n), k->room_settings,
                                ICE40_SETTINGS_LENGTH(n), k->a, ports, k->b, ports, k->rows, ICE40_LIST_LENGTH(n), k->c, ports, k->d, ports);
    k->answers[3] = ice40_follow(w, h, east, k->table, ICE40_TABLE_LENGTH, k->settings, ICE40_SETTINGS_LENGTH(n), (uint32_t)n - 1, ICE40_PORT_CLK, k->a, ports,
                                 k->b, ports, k->c, ports);
    k->answers[4] = settle(k, k->low, k->before);
    k->answers[5] = ice40_bit_count(w, h, k->bits, ICE40_BITS_LENGTH(n), 0) + ice40_wire_number(w, h, east, 0, ICE40_PORT_OUT) + ice40_lookup(0xF0F0, 4);
    k->answers[6] = ice40_asc_length(w, h, X, Y);
    k->answers[7] = ice40_asc_write(w, h, X, Y, k->bits, ICE40_BITS_LENGTH(n), k->text, ICE40_VALUE(k->answers[6]));
    k->answers[8] = ice40_asc_read(w, h, X, Y, k->text, ICE40_VALUE(k->answers[6]), k->again, ICE40_BITS_LENGTH(n));
    k->answers[9] = list_contentions(k, ICE40_CONTENTION_LENGTH * ICE40_SWITCHES_LENGTH(n));
    k->answers[10] = compare(k, k->other, k->differences, ICE40_DIFFERENCE_LENGTH * 2);
    k->answers[11] = tile_part(k, 1, (uint32_t)n - 1);
    k->answers[12] = ice40_words_of_bytes(w, h, k->bytes, ICE40_BYTES_LENGTH(n), k->words, ICE40_BITS_LENGTH(n));
    k->answers[13] = ice40_bytes_of_words(w, h, k->words, ICE40_BITS_LENGTH(n), k->back, ICE40_BYTES_LENGTH(n));
    k->answers[14] = settle(k, k->high, k->after);
    k->answers[15] = clock_cells(k, k->before, k->after);
    k->answers[16] = make_card(k, 6 + 2 * ports);
    k->answers[17] = step(k, k->low, k->high);
}

static void *call_often(void *work) {
    for (int r = 0; r < ROUNDS; r++) call_all((Work *)work);
    return NULL;
}

static Work *copy_of(const Work *work) {
    Work *copy = (Work *)malloc(sizeof *copy);
    if (!copy) exit(2);
    memcpy(copy, work, sizeof *copy);
    return copy;
}

static int equal(const Work *one, const Work *other) {
    return memcmp(one, other, sizeof *one) == 0;
}

/* Several threads, each with memory of its own and no more stack than the header says. */
static void try_threads(const Work *start, const Work *result) {
    pthread_t threads[THREADS];
    Work *works[THREADS];
    pthread_attr_t attributes;
    pthread_attr_init(&attributes);
    same(pthread_attr_setstacksize(&attributes, ICE40_STACK_BYTES) == 0, "a stack of ICE40_STACK_BYTES");
    for (int k = 0; k < THREADS; k++) {
        works[k] = copy_of(start);
        if (pthread_create(&threads[k], &attributes, call_often, works[k])) exit(2);
    }
    for (int k = 0; k < THREADS; k++) {
        pthread_join(threads[k], NULL);
        same(equal(works[k], result), "calls of several threads at once");
        free(works[k]);
    }
    done("threads at once, each with the stack that the header says");
}

/* Slices that are only read, one over the other. */
static void try_overlap(const Work *result) {
    Work *apart = copy_of(result), *shared = copy_of(result);
    memcpy(apart->high, apart->low, sizeof apart->high);
    uint64_t one = step(apart, apart->low, apart->high), other = step(shared, shared->low, shared->low);
    same(one == other && !memcmp(apart->values, shared->values, sizeof apart->values) && !memcmp(apart->stepped, shared->stepped, sizeof apart->stepped),
         "lent before and after the same");
    memcpy(apart->after, apart->before, sizeof apart->after);
    one = clock_cells(apart, apart->before, apart->after), other = clock_cells(shared, shared->before, shared->before);
    same(one == other && !memcmp(apart->next, shared->next, sizeof apart->next), "before and after the same");
    same(!memcmp(shared->next, shared->state, sizeof shared->next), "no edge, no tick");
    memcpy(apart->state, apart->low, ICE40_STATE_LENGTH(n));
    one = settle(apart, apart->low, apart->before);
    other = ice40_settle(w, h, east, shared->table, ICE40_TABLE_LENGTH, shared->settings, ICE40_SETTINGS_LENGTH(n), shared->list, ICE40_LIST_LENGTH(n), shared->low,
                         ICE40_STATE_LENGTH(n), shared->low, ports, shared->before, ports, shared->a, ports, shared->b, ports, shared->c, ports);
    same(one == other && !memcmp(apart->before, shared->before, sizeof apart->before), "a state that is a part of the lent values");
    for (size_t at = 0; at + ICE40_SETTINGS_LENGTH(n) <= ICE40_TABLE_LENGTH; at += 6007) {
        memcpy(apart->settings, apart->table + at, ICE40_SETTINGS_LENGTH(n) * sizeof *apart->table);
        one = write_settings(apart, apart->settings), other = write_settings(shared, shared->table + at);
        same(one == other && !memcmp(apart->written, shared->written, sizeof apart->written), "settings that are a part of the table");
    }
    free(apart), free(shared);
    done("slices that are only read, one over the other");
}

static uint64_t no(uint64_t ground) {
    return ground << 32;
}

/* A block as a file: its length, what is read back, and a text that is a part of the lent memory of another call. */
static void try_files(const Work *result) {
    Work *k = copy_of(result);
    size_t length = ICE40_VALUE(k->answers[6]);
    same(ICE40_GROUND(k->answers[6]) == 0 && k->answers[7] == 0 && k->answers[8] == 0, "length, write, read");
    same(!memcmp(k->again, k->bits, sizeof k->bits), "the bits come back");
    same(ice40_asc_length(8, 8, 248, 248) == TEXT, "the longest file");
    same(ice40_asc_length(w, h, 257 - w, 0) == no(1) && ice40_asc_length(w, h, 0, UINT32_MAX) == no(1), "a block that reaches past 255");
    same(ice40_asc_write(w, h, X, Y, k->bits, ICE40_BITS_LENGTH(n), k->text, length - 1) == no(2), "a text that is too short");
    same(ice40_asc_read(w, h, X, Y, k->text, length - 1, k->again, ICE40_BITS_LENGTH(n)) == (no(13) | (1 + 17 * n)), "a last line without a line feed");
    same(ice40_asc_read(w, h, X, Y, k->text, 11, k->again, ICE40_BITS_LENGTH(n)) == (no(13) | 2), "the tiles missing");
    same(ice40_asc_read(w, h, X, Y, NULL, 0, k->again, ICE40_BITS_LENGTH(n)) == (no(13) | 1), "no text");
    same(ice40_asc_read(w, h, X, Y, NULL, 0, NULL, 0) == no(2) && ice40_asc_write(w, h, X, Y, NULL, 0, NULL, 0) == no(2), "NULL with length 0");
    same(ice40_asc_read(9, h, X, Y, NULL, 0, NULL, 0) == no(1) && ice40_asc_write(9, h, X, Y, NULL, 0, NULL, 0) == no(1), "NULL with length 0 and a wrong size");
    same(ice40_asc_read(w, h, X, Y, (const uint8_t *)k->table, sizeof k->table, k->again, ICE40_BITS_LENGTH(n)) >> 32 == 13, "any bytes");
    same(equal(k, result), "nothing touched");
    free(k);
    done("ASCII files");
}

/* The list of contentions: empty where building does not give ground 5, and of any length. */
static void try_contentions(const Work *result) {
    Work *k = copy_of(result);
    same(ICE40_GROUND(k->answers[9]) == 0, "no ground");
    same((k->answers[9] == 0) == (ICE40_GROUND(k->answers[2]) != ICE40_NO_CONTENTION), "empty exactly if building does not give 5");
    for (uint64_t rows = ICE40_VALUE(k->answers[9]), r = 0; r < rows; r++)
        same(k->contentions[ICE40_CONTENTION_LENGTH * r + ICE40_CONTENTION_TILE] < n && k->contentions[ICE40_CONTENTION_LENGTH * r + ICE40_CONTENTION_WIRE] < ports
             && k->contentions[ICE40_CONTENTION_LENGTH * r + ICE40_CONTENTION_GROUP] < k->table[ICE40_TABLE_GROUP_COUNT], "a row");
    same(list_contentions(k, ICE40_CONTENTION_LENGTH * (size_t)ICE40_VALUE(k->answers[9])) == k->answers[9], "a list of just so many numbers");
    same(equal(k, result), "nothing else touched");
    free(k);
    done("contentions");
}

/* A step and settling say what building says, and clocking what it is handed; a byte above 1 by its index. Settling twice and clocking is the step. */
static void try_steps(const Work *result) {
    Work *k = copy_of(result);
    int built = ICE40_GROUND(k->answers[2]) == ICE40_YES;
    same(built ? k->answers[4] == 0 && k->answers[14] == 0 : ICE40_GROUND(k->answers[4]) == ICE40_NO_ROW, "settled exactly if there is a list");
    same(built ? k->answers[17] == 0 : ICE40_GROUND(k->answers[17]) == ICE40_NO_ROW, "stepped exactly if there is a list");
    same(!built || (!memcmp(k->values, k->before, sizeof k->values) && !memcmp(k->stepped, k->next, sizeof k->stepped)), "settled twice and clocked: the step");
    same(k->answers[15] == 0, "clocking needs no list");
    for (size_t p = 0; built && p < ports; p++) {
        uint32_t own = ICE40_VALUE(ice40_wire_number(w, h, east, (uint32_t)(p / ICE40_PORTS), (uint32_t)(p % ICE40_PORTS)));
        same(k->before[p] < 2 && k->before[p] == k->before[own], "a port has the value of its wire");
    }
    k->high[ports - 1] = 2, k->low[0] = 3;
    same(clock_cells(k, k->before, k->high) == (no(ICE40_NO_NOT_A_BIT) | (ICE40_STATE_LENGTH(n) + 2 * ports - 1)), "after, joined");
    same(clock_cells(k, k->low, k->high) == (no(ICE40_NO_NOT_A_BIT) | ICE40_STATE_LENGTH(n)), "before, joined");
    same(!built || step(k, k->low, k->high) == (no(ICE40_NO_NOT_A_BIT) | ICE40_STATE_LENGTH(n)), "a step's before, joined");
    same(!built || step(k, result->low, k->high) == (no(ICE40_NO_NOT_A_BIT) | (ICE40_STATE_LENGTH(n) + 2 * ports - 1)), "a step's after, joined");
    same(!built || settle(k, k->high, k->before) == (no(ICE40_NO_NOT_A_BIT) | (ICE40_STATE_LENGTH(n) + ports - 1)), "lent, joined");
    k->high[ports - 1] = result->high[ports - 1], k->low[0] = result->low[0];
    same(equal(k, result), "nothing else touched");
    free(k);
    done("the step, settling and clocking");
}

/* The card: building's grounds, its numbers, and one that is too short. */
static void try_card(const Work *result) {
    Work *k = copy_of(result);
    size_t leaving = k->card[ICE40_CARD_LEAVING], feeding = k->card[ICE40_CARD_FEEDING(leaving)], length = 6 + leaving + feeding;
    if (ICE40_GROUND(k->answers[2])) {
        same(k->answers[16] == k->answers[2], "building's no");
    } else {
        same(k->answers[16] == length && k->card[ICE40_CARD_W] == w && k->card[ICE40_CARD_H] == h, "numbers, w, h");
        same(k->card[ICE40_CARD_FLIP_FLOPS] <= k->card[ICE40_CARD_CELLS] && k->card[ICE40_CARD_CELLS] <= ICE40_CELLS * n, "cells");
        for (size_t m = 6; m < length; m++) same(m == ICE40_CARD_FEEDING(leaving) || k->card[m] < ports, "a wire");
        for (size_t m = length; m < 6 + 2 * ports; m++) same(k->card[m] == 0, "zeros after it");
        same(make_card(k, length) == length, "a card of just these numbers");
        same(make_card(k, length - 1) == (no(ICE40_NO_LIST_TOO_SHORT) | length), "too short by one: the numbers needed");
    }
    same(equal(k, result), "nothing else touched");
    free(k);
    done("the shelf card");
}

/* Two blocks that differ in one bit of a table of the last tile, and one tile's part of either. */
static void try_compare(const Work *result) {
    Work *k = copy_of(result);
    const uint32_t *row = k->differences, last = (uint32_t)n - 1;
    same(k->answers[10] == 1, "one row");
    same(row[ICE40_DIFFERENCE_TILE] == last && row[ICE40_DIFFERENCE_KIND] == ICE40_DIFFERS_CELL && row[ICE40_DIFFERENCE_INDEX] == 0, "the row's cell");
    same((row[ICE40_DIFFERENCE_OLD] ^ row[ICE40_DIFFERENCE_NEW]) == 0x8000, "LUT_INIT 15");
    same((row[ICE40_DIFFERENCE_OLD] & 0xFFFF) == k->settings[ICE40_SETTINGS_LENGTH(last) + ICE40_SETTINGS_CELL_TABLE(0)], "the old table");
    for (size_t m = ICE40_DIFFERENCE_LENGTH; m < ICE40_DIFFERENCE_LENGTH * 2; m++) same(row[m] == 0, "zeros behind it");
    same(compare(k, k->other, k->differences, ICE40_DIFFERENCE_LENGTH - 1) == (no(ICE40_NO_LIST_TOO_SHORT) | 1), "a list too short by one: the rows needed");
    same(compare(k, k->other, NULL, 0) == (no(ICE40_NO_LIST_TOO_SHORT) | 1), "no list");
    same(compare(k, k->bits, NULL, 0) == 0, "the same bits, which may be one slice, need no list");
    same(k->answers[11] == ICE40_BITS_LENGTH(last) && tile_part(k, 0, last) == k->answers[11] && tile_part(k, UINT32_MAX, 0) == 0, "a tile's part");
    same(tile_part(k, 0, (uint32_t)n) == (no(ICE40_NO_OUT_OF_RANGE) | n), "no such tile");
    same(ice40_tile_part(w, h, 9 - w, 9 - h, k->bits, 0, k->other, 0, 0, 0) == no(ICE40_NO_SIZES_DIFFER), "sizes that differ, before lengths");
    same(equal(k, result), "nothing else touched");
    free(k);
    done("comparing");
}

/* Both forms of a block's bits, and a bit past the columns of a row: who refuses it, and where. */
static void try_words(const Work *result) {
    Work *k = copy_of(result);
    size_t row = ICE40_BITS_LENGTH(n - 1) + 15, length = ICE40_VALUE(k->answers[6]);
    uint64_t place = no(ICE40_NO_UNDECODABLE) | (864 * n - 1), count = ice40_bit_count(w, h, k->bits, ICE40_BITS_LENGTH(n), (uint32_t)n - 1);
    same(k->answers[12] == 0 && k->answers[13] == 0, "both conversions");
    same(!memcmp(k->words, k->bits, sizeof k->bits) && !memcmp(k->back, k->bytes, sizeof k->bytes), "each undoes the other");
    for (int c = 54; c < 64; c++) {
        k->bits[row] |= UINT64_C(1) << c;
        same(ice40_read(w, h, k->table, ICE40_TABLE_LENGTH, k->bits, ICE40_BITS_LENGTH(n), k->settings, ICE40_SETTINGS_LENGTH(n)) == place, "read");
        same(ice40_bytes_of_words(w, h, k->bits, ICE40_BITS_LENGTH(n), k->back, ICE40_BYTES_LENGTH(n)) == place, "bytes_of_words");
        same(ice40_asc_write(w, h, X, Y, k->bits, ICE40_BITS_LENGTH(n), k->text, length) == place, "asc_write");
        same(list_contentions(k, 0) == place && compare(k, k->other, k->differences, 0) == place, "contentions, compare");
        same(ice40_bit_count(w, h, k->bits, ICE40_BITS_LENGTH(n), (uint32_t)n - 1) == count, "not counted");
        same(tile_part(k, 0, (uint32_t)n - 1) == ICE40_BITS_LENGTH(n - 1), "the tile's part");
        k->bits[row] ^= UINT64_C(1) << c;
    }
    same(ice40_words_of_bytes(w, h, k->bytes, ICE40_BYTES_LENGTH(n) - 1, k->words, ICE40_BITS_LENGTH(n)) == no(2), "bytes of another length");
    same(ice40_bytes_of_words(w, h, k->words, ICE40_BITS_LENGTH(n), k->back, ICE40_BYTES_LENGTH(n) + 1) == no(2), "room of another length");
    same(equal(k, result), "nothing touched");
    free(k);
    done("words and bytes, a bit past the columns");
}

/* NULL with length 0 in each place, with a size that is right and one that is not. */
static void try_null(const Work *result) {
    Work *k = copy_of(result);
    for (uint32_t x = 0; x <= 9; x += 3) {
        uint64_t expected = x == 0 || x == 9 ? no(1) : no(2);
        same(ice40_read(x, h, NULL, 0, NULL, 0, NULL, 0) == expected, "read");
        same(ice40_write(x, h, NULL, 0, NULL, 0, NULL, 0) == expected, "write");
        same(ice40_bit_count(x, h, NULL, 0, 0) == expected, "bit_count");
        same(ice40_words_of_bytes(x, h, NULL, 0, NULL, 0) == expected, "words_of_bytes");
        same(ice40_bytes_of_words(x, h, NULL, 0, NULL, 0) == expected, "bytes_of_words");
        same(ice40_build(x, h, east, NULL, 0, NULL, 0, NULL, 0, NULL, 0, NULL, 0, NULL, 0, NULL, 0, NULL, 0, NULL, 0) == expected, "build");
        same(ice40_follow(x, h, east, NULL, 0, NULL, 0, 0, 0, NULL, 0, NULL, 0, NULL, 0) == expected, "follow");
        same(ice40_card(x, h, east, NULL, 0, NULL, 0, NULL, 0, NULL, 0, NULL, 0, NULL, 0, NULL, 0, NULL, 0, NULL, 0, NULL, 0) == expected, "card");
        same(ice40_contentions(x, h, east, NULL, 0, NULL, 0, NULL, 0, NULL, 0, NULL, 0, NULL, 0, NULL, 0) == expected, "contentions");
        same(ice40_compare(x, h, x, h, NULL, 0, NULL, 0, NULL, 0, NULL, 0, NULL, 0, NULL, 0) == expected, "compare");
        same(ice40_tile_part(x, h, x, h, NULL, 0, NULL, 0, 0, 0) == expected, "tile_part");
        same(ice40_step(x, h, east, NULL, 0, NULL, 0, NULL, 0, NULL, 0, NULL, 0, NULL, 0, NULL, 0, NULL, 0, NULL, 0, NULL, 0, NULL, 0, NULL, 0, NULL, 0) == expected,
             "step");
        same(ice40_settle(x, h, east, NULL, 0, NULL, 0, NULL, 0, NULL, 0, NULL, 0, NULL, 0, NULL, 0, NULL, 0, NULL, 0) == expected, "settle");
        same(ice40_clock(x, h, NULL, 0, NULL, 0, NULL, 0, NULL, 0, NULL, 0, NULL, 0) == expected, "clock");
    }
    same(ice40_wire_number(w, h, 2, 0, 0) == no(1) && ice40_wire_number(w, h, UINT32_MAX, 99, 999) == no(1), "wire_number, another byte");
    same(ice40_build(w, h, 2, NULL, 0, NULL, 0, NULL, 0, NULL, 0, NULL, 0, NULL, 0, NULL, 0, NULL, 0, NULL, 0) == no(1), "build, another byte");
#define LENT(slot, slice, length) (slot == at ? NULL : slice), (slot == at ? 0 : (size_t)(length))
    for (int at = 0; at < 9; at++) {
        same(ice40_build(w, h, east, LENT(0, k->table, ICE40_TABLE_LENGTH), LENT(1, k->bits, ICE40_BITS_LENGTH(n)), LENT(2, k->list, ICE40_LIST_LENGTH(n)),
                         LENT(3, k->room_settings, ICE40_SETTINGS_LENGTH(n)), LENT(4, k->a, ports), LENT(5, k->b, ports),
                         LENT(6, k->rows, ICE40_LIST_LENGTH(n)), LENT(7, k->c, ports), LENT(8, k->d, ports)) == no(2), "build");
        same(at > 2 || ice40_read(w, h, LENT(0, k->table, ICE40_TABLE_LENGTH), LENT(1, k->bits, ICE40_BITS_LENGTH(n)),
                                  LENT(2, k->settings, ICE40_SETTINGS_LENGTH(n))) == no(2), "read");
        same(at > 2 || ice40_write(w, h, LENT(0, k->table, ICE40_TABLE_LENGTH), LENT(1, k->settings, ICE40_SETTINGS_LENGTH(n)),
                                   LENT(2, k->written, ICE40_BITS_LENGTH(n))) == no(2), "write");
    }
    same(equal(k, result), "nothing touched");
    free(k);
    done("NULL with length 0: ground 2, or 1");
}

static void load(Work *k, const char *path) {
    FILE *file = fopen(path, "rb");
    if (!file) exit(2);
    w = (uint32_t)getc(file), h = (uint32_t)getc(file), east = (uint32_t)getc(file);
    n = w * h, ports = ICE40_PORTS_LENGTH(n);
    if (fread(k->table, sizeof *k->table, ICE40_TABLE_LENGTH, file) != ICE40_TABLE_LENGTH) exit(2);
    if (fread(k->bits, sizeof *k->bits, ICE40_BITS_LENGTH(n), file) != ICE40_BITS_LENGTH(n)) exit(2);
    if (fread(k->bytes, 1, ICE40_BYTES_LENGTH(n), file) != ICE40_BYTES_LENGTH(n)) exit(2);
    fclose(file);
    memcpy(k->other, k->bits, sizeof k->bits);
    k->other[ICE40_BITS_LENGTH(n - 1)] ^= UINT64_C(1) << 36; /* B0[36] */
    for (size_t p = 0; p < ports; p++) k->low[p] = p % 3 == 0, k->high[p] = p % 5 == 0;
}

int main(int argc, char **argv) {
    Work *start = (Work *)calloc(1, sizeof *start);
    if (argc != 2 || !start) return 2;
    load(start, argv[1]);
    Work *result = copy_of(start);
    call_all(result);
    try_threads(start, result);
    try_overlap(result);
    try_null(result);
    try_files(result);
    try_contentions(result);
    try_steps(result);
    try_card(result);
    try_compare(result);
    try_words(result);
    free(start), free(result);
    return 0;
}
