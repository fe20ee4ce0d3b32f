#!/usr/bin/env python3
"""What a logic cell gives over all inputs, from the words of document 01 and the Verilog of source document 003; the lookup by halves, from
those of document 02.

Prints the expected output of the program cell_run:  python3 tests/cell_model.py | diff - crates/cell_run/stdout
"""


def bit(n, k):
    return n >> k & 1


def tick(neg, before, after):
    """posedge of clk, or its negedge with NegClk"""
    return (before, after) == ((1, 0) if neg else (0, 1))


def step(flop, asynchronous, set_value, ticked, cen, sr_before, sr_after, lookup, old):
    """003's always blocks: the synchronous one samples before the edge, the asynchronous one wakes at an edge of CLK or RST"""
    if not flop:
        return old
    if not asynchronous:  # always @(posedge CLK) if (CE) begin if (RST) .. else .. end
        if ticked and cen:
            return set_value if sr_before else lookup
        return old
    posedge_rst = sr_before == 0 and sr_after == 1
    if ticked or posedge_rst:  # always @(posedge CLK, posedge RST) if (RST) .. else if (CE) ..
        if sr_after:
            return set_value
        if ticked and cen:
            return lookup
    return old


def halves(table, inputs):
    """02, W3: "in_3 picks eight of sixteen, in_2 four, and so on". What is left after each choice, as binary digits with the highest first, for
    inputs as four digits with in_3 first"""
    left = format(table, '016b')
    for choice in inputs:
        upper, lower = left[:len(left) // 2], left[len(left) // 2:]
        left = upper if choice == '1' else lower
        yield left


def table_bit(table, inputs):
    """01: "the table bit at in_3·8 + in_2·4 + in_1·2 + in_0", for inputs as one number"""
    return int(format(table, '016b')[15 - inputs])


def main():
    print(''.join(str(int(tick(bit(n, 2), bit(n, 1), bit(n, 0)))) for n in range(8)))
    moves = ''.join(str(step(*(bit(n, k) for k in range(8, -1, -1)))) for n in range(512))
    for i in range(0, 512, 64):
        print(moves[i:i + 64])
    print(''.join(str(int(bin(n).count('1') >= 2)) for n in range(8)))
    for k in range(16):
        one = ''.join(str(int(i == k)) if i < 16 else '-' for i in range(18))
        rest = ''.join(str(int(i != k)) for i in range(16))
        print(one + rest)


if __name__ == '__main__':
    main()
