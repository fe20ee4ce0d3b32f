/* A lookup as four choices, each halving what is left: in_3 picks eight of the table's sixteen bits, in_2 four, in_1 two, in_0 one. It prints
 * what is left after each choice, and the bit that the library gives. docs/LOOKUP.md tells the rest.
 *
 *     make && cc -Iinclude examples/lookup.c target/staticlib/libcapi.a -o target/lookup && target/lookup
 *     target/lookup ACFC 0100     another table, in four hexadecimal digits, and other inputs, in_3 first and in_0 last */
#include <inttypes.h>
#include <stdio.h>
#include <string.h>
#include "ice40.h"

#define TABLE "ACFC"   /* the cell that sends, of the bundled serial transmitter */
#define INPUTS "1101"  /* in_3, in_2, in_1, in_0 */

/* One choice between two halves of n bits each: 0 picks the lower, 1 the upper. */
static unsigned half(unsigned bits, unsigned choice, unsigned n) {
    unsigned mask = (1u << n) - 1;
    return bits >> choice * n & mask;
}

/* n bits in the columns where they stand in the table, the first of them at weight 2 ^ from; then the same as a number. */
static void show(const char *what, unsigned bits, unsigned n, unsigned from) {
    char columns[17] = "                ";
    for (unsigned i = 0; i < n; i++) columns[15 - from - i] = (char)('0' + (bits >> i & 1));
    printf("%-22s%s  %0*X\n", what, columns, n < 4 ? 1 : (int)n / 4, bits);
}

/* The choice of one input: what it leaves, with its line printed; `from` goes to the place of what is left. */
static unsigned choose(const char *input, const char *count, unsigned bits, unsigned choice, unsigned n, unsigned *from) {
    char what[32];
    unsigned left = half(bits, choice, n);
    *from += choice * n;
    snprintf(what, sizeof what, "%s = %u picks %s", input, choice, count);
    show(what, left, n, *from);
    return left;
}

static int is_of(const char *word, const char *digits) { return strlen(word) == 4 && strspn(word, digits) == 4; }

int main(int count, char **words) {
    const char *table_word = count == 3 ? words[1] : TABLE, *inputs = count == 3 ? words[2] : INPUTS;
    if ((count != 1 && count != 3) || !is_of(table_word, "0123456789ABCDEF") || !is_of(inputs, "01"))
        return fputs("lookup: give a table as ACFC and inputs as 1101, in_3 first\n", stderr), 2;

    unsigned table = 0, from = 0, in3 = inputs[0] == '1', in2 = inputs[1] == '1', in1 = inputs[2] == '1', in0 = inputs[3] == '1';
    sscanf(table_word, "%x", &table);
    show("sixteen bits", table, 16, 0);
    unsigned eight = choose("in_3", "eight", table, in3, 8, &from);
    unsigned four = choose("in_2", "four", eight, in2, 4, &from);
    unsigned two = choose("in_1", "two", four, in1, 2, &from);
    choose("in_0", "one", two, in0, 1, &from);

    uint32_t at = in3 * 8 + in2 * 4 + in1 * 2 + in0;
    printf("the library's lookup of %04X at %" PRIu32 ": %" PRIu32 "\n", table, at, ICE40_VALUE(ice40_lookup((uint16_t)table, at)));
    return fflush(stdout) || ferror(stdout) ? perror("lookup: standard output"), 2 : 0;
}
