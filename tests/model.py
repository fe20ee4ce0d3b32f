"""A model of the reader, written from documents 01 and 02 and apart from the reader's own text: plain Python, slow, and proved nowhere.

The tests compare the library with it. It works on the lent form of everything: a routing table of 38,469 numbers, 595 settings a tile, a
block's bits as words, 16 a tile, rows of seven numbers; at its end, on the lines of the report program, where a tile is 108 bytes. A no is a
pair (ground, place); a yes is what was asked for. `east` is the byte that says whether the column to the east of the block is logic or RAM; calls whose answer rests on no join do
not take it.
"""
import functools
import heapq
import os
import re
import sys

sys.path.insert(0, os.path.dirname(os.path.abspath(__file__)))
from bits_model import BYTES, COLUMNS, WORDS, bit, bytes_of, size_wrong, strays, words_of  # noqa: E402
from wire_numbers import BASE, PORTS, wires  # noqa: E402

TABLE, SETTINGS = 38469, 595
union_find = functools.lru_cache(maxsize=None)(wires)  # nobody writes to what it gives, nor to what `known` keeps
LUT_INIT = [4, 14, 15, 5, 6, 16, 17, 7, 3, 13, 12, 2, 1, 11, 10, 0]
FLAG_BITS = [8, 9, 18, 19]  # carry, flip-flop, set, asynchronous


# ---- where bits stand

def lc(i, k):
    return 54 * (2 * i) + 36 + k if k < 10 else 54 * (2 * i + 1) + 26 + k


CELL_BITS = [[lc(i, k) for k in LUT_INIT + FLAG_BITS] for i in range(8)]
ALL_CELL_BITS = {p for cell in CELL_BITS for p in cell}


# ---- the routing table

class Group:
    def __init__(self, numbers):
        self.destination, count = numbers[0], numbers[1]
        self.positions = list(numbers[2:2 + min(count, 8)])
        self.position_count, self.entry_count = count, numbers[10]
        self.entries = [(numbers[11 + 2 * e], numbers[12 + 2 * e]) for e in range(min(numbers[10], 32))]


def group_at(table, g):
    return Group(table[69 + 75 * g:69 + 75 * g + 75])


def is_destination(p):
    return p <= 403 or 476 <= p <= 478


def is_source(p):
    return p <= 371 or p <= 505 and not is_destination(p)


def faulty_part(table):
    """Ground 3's place, or None."""
    claimed = set(ALL_CELL_BITS)

    def claim(positions):
        for p in positions:
            if p >= 864 or p in claimed:
                return False
            claimed.add(p)
        return True

    if not claim(table[0:3]):
        return 0
    if table[3] > 64 or not claim(table[4:4 + table[3]]):
        return 1
    for g in range(min(table[68], 512)):
        group = group_at(table, g)
        patterns = [pattern for pattern, _ in group.entries]
        fine = (is_destination(group.destination) and 1 <= group.position_count <= 8 and 1 <= group.entry_count <= 32
                and all(0 < pattern < 1 << group.position_count for pattern in patterns) and len(set(patterns)) == len(patterns)
                and all(is_source(source) for _, source in group.entries))
        if not fine or not claim(group.positions):
            return 2 + g
    return 514 if table[68] > 512 else None


class Table:
    """What is asked of a table again and again, worked out once: its faulty part, its groups, the settings of tiles."""

    def __init__(self, numbers):
        self.fault = faulty_part(numbers)
        self.groups = [group_at(numbers, g) for g in range(numbers[68])] if self.fault is None else []
        self.settings = functools.lru_cache(maxsize=4096)(lambda tile: settings_of(numbers, self.groups, tile))


MET = []  # tables met last, the latest first, each with what is known of it


def known(table):
    found = next((k for k, (numbers, _) in enumerate(MET) if numbers == table), None)
    MET.insert(0, (list(table), Table(list(table))) if found is None else MET.pop(found))
    del MET[16:]
    return MET[0][1]


def groups_of(table):
    """The groups of a table that breaks no rule."""
    return known(table).groups


# ---- settings

def decode(table, tile):
    """A tile's settings under a table that breaks no rule, or the set of positions at fault."""
    return known(table).settings(tuple(tile))


def settings_of(table, groups, tile):
    """A tile's settings, or where it cannot be decoded the set of positions at fault: for an unlisted pattern the first position that the table
    lists for the group, for a set bit that nothing claims its own, for the carry pair that of CarryInSet, for a stray bit that of column 53 of
    its row, whoever claims it (document 02, W5 and W7)."""
    settings = [0] * SETTINGS
    faults = set()
    claimed = set(ALL_CELL_BITS) | set(table[0:3]) | set(table[4:4 + table[3]])
    for f in range(3):
        settings[f] = bit(tile, table[f])
    if settings[1] and settings[2]:
        faults.add(table[1])
    for j in range(table[3]):
        settings[3 + j] = bit(tile, table[4 + j])
    for g, group in enumerate(groups):
        claimed |= set(group.positions)
        pattern = sum(bit(tile, p) << k for k, p in enumerate(group.positions))
        if pattern:
            entry = [e for e, (listed, _) in enumerate(group.entries) if listed == pattern]
            if entry:
                settings[67 + g] = entry[0] + 1
            else:
                faults.add(group.positions[0])
    faults |= {p for p in range(864) if p not in claimed and bit(tile, p)}
    faults.update(strays(tile))
    if faults:
        return faults
    for i in range(8):
        settings[579 + 2 * i] = sum(bit(tile, p) << j for j, p in enumerate(CELL_BITS[i][:16]))
        settings[580 + 2 * i] = sum(bit(tile, p) << j for j, p in enumerate(CELL_BITS[i][16:]))
    return settings


def has_bits(table, settings):
    """Whether some bits read to a tile's settings."""
    if settings[1] and settings[2] or any(settings[f] > 1 for f in range(3)):
        return False
    if any(settings[3 + j] > (1 if j < table[3] else 0) for j in range(64)):
        return False
    groups = groups_of(table)
    if any(settings[67 + g] > (len(groups[g].entries) if g < len(groups) else 0) for g in range(512)):
        return False
    return all(settings[580 + 2 * i] < 16 for i in range(8))


def encode(table, settings):
    tile = [0] * WORDS

    def put(p, v):
        tile[p // COLUMNS] |= v << p % COLUMNS

    for f in range(3):
        put(table[f], settings[f])
    for j in range(table[3]):
        put(table[4 + j], settings[3 + j])
    for g, group in enumerate(groups_of(table)):
        if settings[67 + g]:
            pattern = group.entries[settings[67 + g] - 1][0]
            for k, p in enumerate(group.positions):
                put(p, pattern >> k & 1)
    for i in range(8):
        value = settings[579 + 2 * i] | settings[580 + 2 * i] << 16
        for j, p in enumerate(CELL_BITS[i]):
            put(p, value >> j & 1)
    return tile


def size_length_or_table(w, h, table, lent, a_tile):
    """Ground 1, 2 or 3, or None; so many numbers are lent, so many a tile should be."""
    if size_wrong(w, h):
        return 1, 0
    if (len(table), lent) != (TABLE, a_tile * w * h):
        return 2, 0
    place = known(table).fault
    return None if place is None else (3, place)


def read(w, h, table, bits):
    no = size_length_or_table(w, h, table, len(bits), WORDS)
    if no:
        return no
    settings, of_tile = [], known(table).settings
    for t in range(w * h):
        tile = of_tile(tuple(bits[WORDS * t:WORDS * t + WORDS]))
        if isinstance(tile, set):
            return 4, 864 * t + min(tile)
        settings += tile
    return settings


def write(w, h, table, settings):
    no = size_length_or_table(w, h, table, len(settings), SETTINGS)
    if no:
        return no
    for t in range(w * h):
        if not has_bits(table, settings[SETTINGS * t:SETTINGS * t + SETTINGS]):
            return 9, t
    return [row for t in range(w * h) for row in encode(table, settings[SETTINGS * t:SETTINGS * t + SETTINGS])]


# ---- equations

def depends(reads, start):
    """Whether a chain of readings, one or more, leads from a wire back to it."""
    seen, todo = set(), list(reads(start))
    while todo:
        wire = todo.pop()
        if wire == start:
            return True
        if wire not in seen:
            seen.add(wire)
            todo += reads(wire)
    return False


# ---- two blocks compared (document 02, W4)

FIRST_GROUP, FIRST_CELL = 67, 579


def settings_of_kinds(tile):
    """A tile's settings as a row's numbers: (kind, index, setting), fields 1, groups 2, cells 3, passive bits 4."""
    rows = [(1, f, tile[f]) for f in range(3)]
    rows += [(2, g, tile[FIRST_GROUP + g]) for g in range(512)]
    rows += [(3, i, tile[FIRST_CELL + 2 * i] + 65536 * tile[FIRST_CELL + 2 * i + 1]) for i in range(8)]
    return rows + [(4, j, tile[3 + j]) for j in range(64)]


def differences(old, new):
    """The rows of two lists of settings."""
    rows = []
    for t in range(len(old) // SETTINGS):
        tiles = [settings[SETTINGS * t:SETTINGS * (t + 1)] for settings in (old, new)]
        if tiles[0] != tiles[1]:  # most tiles are equal
            rows += [(t, kind, index, a, b) for (kind, index, a), (_, _, b) in zip(*map(settings_of_kinds, tiles)) if a != b]
    return rows


def compare(one, other, table, first, second, length, before, after):
    """The rows, or a no. `one` and `other` are (w, h); `length`, `before` and `after` are how long the list and the work room are."""
    if size_wrong(*one) or size_wrong(*other):
        return 1, 0
    if one != other:
        return 14, 0
    n = one[0] * one[1]
    if (len(table), len(first), len(second), before, after) != (TABLE, WORDS * n, WORDS * n, SETTINGS * n, SETTINGS * n):
        return 2, 0
    settings = []
    for bits in (first, second):
        read_to = read(*one, table, bits)
        if isinstance(read_to, tuple):
            return read_to
        settings.append(read_to)
    rows = differences(*settings)
    if length < 5 * len(rows):
        return 15, len(rows)
    return rows


def part(one, other, first, second, tile):
    """The index of the tile's first number, or a no: grounds 1, 14, 2, 20."""
    if size_wrong(*one) or size_wrong(*other):
        return 1, 0
    if one != other:
        return 14, 0
    n = one[0] * one[1]
    if (first, second) != (WORDS * n, WORDS * n):
        return 2, 0
    if tile >= n:
        return 20, tile
    return WORDS * tile


class Block:
    """The equations of a block with settings: what each wire is, by document 01's sentences."""

    def __init__(self, w, h, east, table, settings):
        self.tiles, self.settings = w * h, settings
        self.wire = union_find(w, h, east)
        self.wires = [p for p, n in enumerate(self.wire) if n == p]
        groups = groups_of(table)
        self.switches = []  # (driven wire, source wire, tile, group)
        for t in range(self.tiles):
            for g, group in enumerate(groups):
                entry = settings[SETTINGS * t + 67 + g]
                if entry:
                    self.switches.append((self.at(t, group.destination), self.at(t, group.entries[entry - 1][1]), t, g))
        self.source, self.contended = {}, set()
        for driven, source, _, _ in self.switches:
            if driven in self.source:
                self.contended.add(driven)
            else:
                self.source[driven] = source
        self.cells = {}  # wire -> what stands there
        for t in range(self.tiles):
            for q in list(range(BASE['local'], BASE['out'])) + [BASE['clk'], BASE['s_r']]:
                self.cells[self.at(t, q)] = ('zero',)
            self.cells[self.at(t, BASE['cen'])] = ('one',)
            for i in range(8):
                self.cells[self.at(t, BASE['out'] + i)] = ('out', t, i)
                self.cells[self.at(t, BASE['lout'] + i)] = ('lout', t, i)
                self.cells[self.at(t, BASE['cout'] + i)] = ('cout', t, i)
            self.cells[self.at(t, BASE['carry_in_mux'])] = ('mux', t)

    def at(self, t, q):
        return self.wire[PORTS * t + q]

    def field(self, t, f):
        return self.settings[SETTINGS * t + f]

    def lut(self, t, i):
        return self.settings[SETTINGS * t + 579 + 2 * i]

    def flag(self, t, i, k):
        return self.settings[SETTINGS * t + 580 + 2 * i] >> k & 1

    def inputs(self, t, i):
        return [self.at(t, BASE['in'] + 4 * i + j) for j in range(4)]

    def row(self, w):
        if w in self.source:
            return [5, w, self.source[w], 0, 0, 0, 0]
        what = self.cells.get(w, ('open',))
        if what[0] == 'open':
            return [1, w, 0, 0, 0, 0, 0]
        if what[0] in ('zero', 'one'):
            return [2 if what[0] == 'zero' else 3, w, 0, 0, 0, 0, 0]
        t = what[1]
        if what[0] == 'mux':
            if self.field(t, 1):
                return [3, w, 0, 0, 0, 0, 0]
            return [5, w, self.at(t, BASE['carry_in']), 0, 0, 0, 0] if self.field(t, 2) else [2, w, 0, 0, 0, 0, 0]
        i = what[2]
        if what[0] == 'cout':
            if not self.flag(t, i, 0):
                return [2, w, 0, 0, 0, 0, 0]
            carry = self.at(t, BASE['carry_in_mux'] if i == 0 else BASE['cout'] + i - 1)
            return [7, w] + self.inputs(t, i)[1:3] + [carry, 0, 0]
        if what[0] == 'out' and self.flag(t, i, 1):
            return [4, w, 8 * t + i, 0, 0, 0, 0]
        return [6, w] + self.inputs(t, i) + [self.lut(t, i)]

    def reads(self, row):
        return row[2:2 + {5: 1, 6: 4, 7: 3}.get(row[0], 0)]

    def disabled_carry(self):
        read = {source for _, source, _, _ in self.switches}
        read |= {self.at(t, BASE['carry_in']) for t in range(self.tiles) if self.field(t, 2)}
        read |= {self.at(t, BASE['cout'] + i - 1) for t in range(self.tiles) for i in range(1, 8) if self.flag(t, i, 0)}
        off = {self.at(t, BASE['cout'] + i) for t in range(self.tiles) for i in range(8) if not self.flag(t, i, 0)}
        return min(read & off, default=None)

    def order(self):
        """The rows in order, or the wires that are left over."""
        rows = {w: self.row(w) for w in self.wires}
        waiting = {w: len(set(self.reads(rows[w]))) for w in self.wires}
        users = {}
        for w in self.wires:
            for d in set(self.reads(rows[w])):
                users.setdefault(d, []).append(w)
        ready = [w for w in self.wires if waiting[w] == 0]
        heapq.heapify(ready)
        listed = []
        while ready:
            w = heapq.heappop(ready)
            listed.append(rows[w])
            for u in users.get(w, ()):
                waiting[u] -= 1
                if waiting[u] == 0:
                    heapq.heappush(ready, u)
        return listed, [w for w in self.wires if waiting[w]], rows

    def lowest_loop(self, left, rows):
        return next((w for w in left if depends(lambda wire: self.reads(rows[wire]), w)), None)

    def follow(self, w):
        """(kind, wire): 1 open, 2 zero, 3 one, 4 cell, 5 ring."""
        path = []
        while w in self.source:
            if w in path:
                return 5, min(path[path.index(w):])
            path.append(w)
            w = self.source[w]
        return {'open': 1, 'zero': 2, 'one': 3}.get(self.cells.get(w, ('open',))[0], 4), w

    def clocked_tile(self):
        for t in range(self.tiles):
            flops = [i for i in range(8) if self.flag(t, i, 1)]
            ports = [BASE['clk']] * bool(flops) + [BASE['s_r']] * any(self.flag(t, i, 3) for i in flops)
            if any(self.follow(self.at(t, q))[0] > 3 for q in ports):
                return t
        return None

    def follow_without_ring(self, w):
        """(kind, wire): 1 open, 2 zero, 3 one, 4 cell. Of a block without a loop: there is no ring to meet."""
        path = set()
        while w in self.source:
            assert w not in path, 'a ring, which ground 7 refuses'
            path.add(w)
            w = self.source[w]
        return {'open': 1, 'zero': 2, 'one': 3}.get(self.cells.get(w, ('open',))[0], 4), w


def build(w, h, east, table, bits):
    """The rows of the list, in order, or a no."""
    settings = read(w, h, table, bits) if east < 2 else (1, 0)
    return settings if isinstance(settings, tuple) else build_settings(w, h, east, table, settings)


def followed_without_ring(w, h, east, table, settings, tile, port):
    """What following a port's driver answers in request W12, which refuses a loop, of settings that some bits have: a no, or (0, 65,536 times the kind
    plus the wire). The library's follow is the other, which meets rings."""
    block = Block(w, h, east, table, settings)
    if block.contended:
        return 5, min(block.contended)
    _, left, rows = block.order()
    if left:
        return 7, block.lowest_loop(left, rows)
    if tile >= w * h or port >= PORTS:
        return 20, tile if tile >= w * h else port
    kind, wire = block.follow_without_ring(block.at(tile, port))
    return 0, 65536 * kind + wire


def build_settings(w, h, east, table, settings):
    block = Block(w, h, east, table, settings)
    if block.contended:
        return 5, min(block.contended)
    carry = block.disabled_carry()
    if carry is not None:
        return 6, carry
    listed, left, rows = block.order()
    if left:
        return 7, block.lowest_loop(left, rows)
    tile = block.clocked_tile()
    return listed if tile is None else (8, tile)


# ---- contentions

def contentions(w, h, east, table, bits, room):
    """A row (wire, tile, group) for each enabled switch on a wire on which two or more end, rising, or a no. `room` is the length of the
    lent list, in numbers."""
    settings = read(w, h, table, bits) if east < 2 else (1, 0)
    if isinstance(settings, tuple):
        return settings
    ends = {}
    for driven, _, t, g in Block(w, h, east, table, settings).switches:
        ends.setdefault(driven, []).append((driven, t, g))
    return in_room(sorted(row for switches in ends.values() if len(switches) > 1 for row in switches), room)


def in_room(rows, room):
    """Rows of three numbers in a list of so many, or ground 15."""
    return rows if 3 * len(rows) <= room else (15, len(rows))


# ---- a step, settling and clocking

def run(rows, state, lent):
    values = {}
    for kind, w, a, b, c, d, lut in rows:
        values[w] = (lent[w] if kind == 1 else kind - 2 if kind in (2, 3) else state[a] if kind == 4 else values[a] if kind == 5
                     else lut >> (values[d] * 8 + values[c] * 4 + values[b] * 2 + values[a]) & 1 if kind == 6
                     else int(values[a] + values[b] + values[c] >= 2))
    return values


def step(w, h, east, settings, rows, state, before, after):
    """Every port's value before, and the next state."""
    wire = union_find(w, h, east)
    b, a = run(rows, state, before), run(rows, state, after)
    new = list(state)
    for t in range(w * h):
        def port(values, q):
            return values[wire[PORTS * t + q]]

        edge = port(b, BASE['clk']), port(a, BASE['clk'])
        tick = edge == ((1, 0) if settings[SETTINGS * t] else (0, 1))
        cen, sr, later = port(b, BASE['cen']), port(b, BASE['s_r']), port(a, BASE['s_r'])
        for i in range(8):
            lut, flags = settings[SETTINGS * t + 579 + 2 * i], settings[SETTINGS * t + 580 + 2 * i]
            ins = sum(port(b, BASE['in'] + 4 * i + j) << j for j in range(4))
            lookup, set_value = lut >> ins & 1, flags >> 2 & 1
            c = 8 * t + i
            if not flags >> 1 & 1:
                continue
            if flags >> 3 & 1:
                if tick or (sr, later) == (0, 1):
                    new[c] = set_value if later else lookup if tick and cen else state[c]
            elif tick and cen:
                new[c] = set_value if sr else lookup
    return [b[wire[p]] for p in range(PORTS * w * h)], new


def settle(w, h, east, rows, state, lent):
    """Every port's value."""
    values, wire = run(rows, state, lent), union_find(w, h, east)
    return [values[wire[p]] for p in range(PORTS * w * h)]


def clock(w, h, settings, state, before, after):
    """The next state, from values of every port: each tile goes by those at its own ports."""
    new = list(state)
    for t in range(w * h):
        def port(values, q):
            return values[PORTS * t + q]

        edge = port(before, BASE['clk']), port(after, BASE['clk'])
        tick = edge == ((1, 0) if settings[SETTINGS * t] else (0, 1))
        cen, sr, later = port(before, BASE['cen']), port(before, BASE['s_r']), port(after, BASE['s_r'])
        for i in range(8):
            lut, flags = settings[SETTINGS * t + 579 + 2 * i], settings[SETTINGS * t + 580 + 2 * i]
            ins = sum(port(before, BASE['in'] + 4 * i + j) << j for j in range(4))
            lookup, set_value = lut >> ins & 1, flags >> 2 & 1
            c = 8 * t + i
            if not flags >> 1 & 1:
                continue
            if flags >> 3 & 1:
                if tick or (sr, later) == (0, 1):
                    new[c] = set_value if later else lookup if tick and cen else state[c]
            elif tick and cen:
                new[c] = set_value if sr else lookup
    return new


def settled_and_clocked(w, h, east, settings, rows, state, before, after):
    """The same as two settlings and a clocking."""
    b, a = settle(w, h, east, rows, state, before), settle(w, h, east, rows, state, after)
    return b, clock(w, h, settings, state, b, a)


# ---- the shelf card (document 02, W14)

# a join of span names to another tile: the range of ports, how many, and the other tile as seen from here; either end of a join has one
SPAN_JOINS = [('sp4_h_r', 48, 1, 0), ('sp4_h_l', 48, -1, 0), ('sp4_v_b', 48, 0, -1), ('sp4_v_t', 48, 0, 1), ('sp4_r_v_b', 48, 1, 0), ('sp4_v_b', 48, -1, 0),
              ('sp12_h_r', 24, 1, 0), ('sp12_h_l', 24, -1, 0), ('sp12_v_b', 24, 0, -1), ('sp12_v_t', 24, 0, 1)]


def leaving_wires(w, h, block):
    """Span wires with an enabled switch and a port one of whose joins to another tile fails, as that tile is outside."""
    outside = {block.at(y * w + x, BASE[name] + k) for x in range(w) for y in range(h) for name, count, east, north in SPAN_JOINS
               if not (0 <= x + east < w and 0 <= y + north < h) for k in range(count)}
    return sorted(outside & set(block.source))


def flip_flop_wires(block):
    """The in, clk, cen and s_r wires of each flip-flop."""
    flops = [(t, i) for t in range(block.tiles) for i in range(8) if block.flag(t, i, 1)]
    return {wire for t, i in flops for wire in block.inputs(t, i)} | {block.at(t, BASE[name]) for t, _ in flops for name in ('clk', 'cen', 's_r')}


def feeding_wires(block, rows, leaving):
    """Open wires that one of these depends on at any distance."""
    row_of, met, waiting = {row[1]: row for row in rows}, set(), list(flip_flop_wires(block) | set(leaving))
    while waiting:
        for wire in block.reads(row_of[waiting.pop()]):
            if wire not in met:
                met.add(wire)
                waiting.append(wire)
    return sorted(wire for wire in met if row_of[wire][0] == 1)


def card(w, h, east, table, bits, room):
    """The numbers of a card, or a no. `room` is how many numbers are lent."""
    rows = build(w, h, east, table, bits)
    if isinstance(rows, tuple):
        return rows
    block = Block(w, h, east, table, read(w, h, table, bits))
    cells = [(block.lut(t, i), block.settings[SETTINGS * t + 580 + 2 * i]) for t in range(block.tiles) for i in range(8)]
    leaving = leaving_wires(w, h, block)
    feeding = feeding_wires(block, rows, leaving)
    numbers = [w, h, sum(map(any, cells)), sum(flags >> 1 & 1 for _, flags in cells), len(leaving), *leaving, len(feeding), *feeding]
    return numbers if len(numbers) <= room else (15, len(numbers))


# ---- frames

def shorts(data):
    """Numbers of two bytes, the high one first."""
    return [int.from_bytes(data[k:k + 2], 'big') for k in range(0, len(data), 2)]


def group_numbers(data):
    """A group as the table has it, from the bytes behind 03, or None where they are malformed."""
    if len(data) < 3 or data[2] > 8:
        return None
    positions, rest = shorts(data[3:3 + 2 * data[2]]), data[3 + 2 * data[2]:]
    if not rest or rest[0] > 32 or len(rest) != 1 + 3 * rest[0]:
        return None
    numbers = shorts(data[0:2]) + [len(positions)] + positions + [0] * (8 - len(positions)) + [rest[0]]
    for e in range(rest[0]):
        numbers += [rest[1 + 3 * e]] + shorts(rest[2 + 3 * e:4 + 3 * e])
    return numbers + [0] * (75 - len(numbers))


def frame(line):
    """A line's kind and what it says, or None where it is malformed: fields, passive positions, a group, the size with the byte for the
    east, a tile's bytes."""
    if len(line) > 512 or len(line) % 2 or not re.fullmatch(b'[0-9A-F]+', line):
        return None
    kind, data = line[:2], bytes.fromhex(line[2:].decode())
    if kind == b'01' and len(data) == 6:
        return 1, shorts(data)
    if kind == b'02' and data and data[0] <= 64 and len(data) == 1 + 2 * data[0]:
        return 2, shorts(data[1:])
    if kind == b'03' and group_numbers(data):
        return 3, group_numbers(data)
    if kind == b'04' and (len(data) == 2 or len(data) == 3 and data[2] in (0, 1)):
        return 4, [*data, 0][:3]
    if kind == b'05' and len(data) == BYTES:
        return 5, data
    return None


class Input:
    """What frames say, one taken after the other."""

    def __init__(self):
        self.w, self.h, self.east, self.table, self.bytes = 0, 0, 0, [0] * TABLE, b''

    def take(self, kind, data):
        if kind == 1:
            self.table[0:3] = data
        elif kind == 2:
            self.table[3:4 + len(data)] = [len(data)] + data
        elif kind == 3:
            at = 69 + 75 * self.table[68]
            self.table[at:at + 75] = data
            self.table[68] += 1
        elif kind == 4:
            self.w, self.h, self.east = data
        else:
            self.bytes += data

    def due_after(self, kind):
        """The kinds of frame that may come next."""
        return {1: [2], 2: [3, 4], 3: [3, 4] if self.table[68] < 512 else [4], 4: [5],
                5: [5] if len(self.bytes) < BYTES * self.w * self.h else []}[kind]

    def block(self):
        return self.w, self.h, self.east, self.table, words_of(self.bytes)


def tile_frames(bits):
    """The frames 05 of a block, a line each."""
    return ''.join('05%s\n' % bytes_of(bits[at:at + WORDS]).hex().upper() for at in range(0, len(bits), WORDS))


def parse(text):
    """(w, h, east, table, bits) of well-formed frames, whichever of them are there."""
    whole = Input()
    for line in text.split():
        whole.take(*frame(line.encode()))
    return whole.block()


def read_input(data):
    """An input of the report program, whole, or ground 11 or 1 as it is met."""
    *lines, unended = data.split(b'\n')
    whole, due = Input(), [1]
    for number, line in enumerate(lines, 1):
        found = frame(line)
        if found is None or found[0] not in due:
            return 11, number
        whole.take(*found)
        if found[0] == 4 and not (1 <= whole.w <= 3 and 1 <= whole.h <= 3):
            return 1, 0
        due = whole.due_after(found[0])
    return (11, len(lines) + 1) if unended or due else whole


# ---- the report

def last_line(ground, place):
    return '08%02X%04X\n' % (ground, place)


def report(w, h, east, table, bits):
    """A block's report: its text, the enabled switches (driven wire, source wire), the cells in use (tile, cell, table, flags)."""
    answer = build(w, h, east, table, bits)
    if isinstance(answer, tuple):
        return last_line(*answer), [], []
    block = Block(w, h, east, table, read(w, h, table, bits))
    switches = sorted((driven, source) for driven, source, _, _ in block.switches)
    cells = [(t, i, block.lut(t, i), block.settings[SETTINGS * t + 580 + 2 * i]) for t in range(w * h) for i in range(8)]
    cells = [cell for cell in cells if cell[2] or cell[3]]
    text = ''.join('06%04X%04X\n' % switch for switch in switches) + ''.join('07%02X%02X%04X%02X\n' % cell for cell in cells)
    return text + last_line(0, 0), switches, cells


def report_of(data):
    """What the report program prints for an input, be it frames or not."""
    whole = read_input(data)
    return last_line(*whole) if isinstance(whole, tuple) else report(*whole.block())[0]
