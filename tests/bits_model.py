"""A block's bits in both of their forms, from documents 01 and 02: as words, which every call is lent, and as bytes, which frames hold. Row r
of tile t is word 16t + r; position p = 54r + c of a tile is in its byte p / 8. A no is a pair (ground, place); a yes is what was asked for.
"""
WORDS, BYTES, COLUMNS = 16, 108, 54  # words and bytes of a tile, columns of a word


def bit(tile, p):
    """ "each tile row as one 64-bit number, column c at weight 2^c" """
    return tile[p // COLUMNS] >> p % COLUMNS & 1


def flipped(bits, places):
    """A block with the bits at these places, each 864 times its tile plus its position, turned over."""
    bits = list(bits)
    for p in places:
        bits[p // COLUMNS] ^= 1 << p % COLUMNS
    return bits


def strays(bits):
    """A set bit in columns 54 to 63 is "at fault as column 53 of its row": those places, rising."""
    return [COLUMNS * r + 53 for r, row in enumerate(bits) if row >> COLUMNS]


def words_of(data):
    """The words of tiles of 108 bytes each, where position p is in byte p / 8 at weight 2^(p mod 8)."""
    tiles = [int.from_bytes(data[at:at + BYTES], 'little') for at in range(0, len(data), BYTES)]
    return [tile >> COLUMNS * r & (1 << COLUMNS) - 1 for tile in tiles for r in range(WORDS)]


def bytes_of(bits):
    """The bytes of words that have no stray bit."""
    tiles = [sum(row << COLUMNS * r for r, row in enumerate(bits[at:at + WORDS])) for at in range(0, len(bits), WORDS)]
    return b''.join(tile.to_bytes(BYTES, 'little') for tile in tiles)


def size_wrong(w, h):
    return not (1 <= w <= 8 and 1 <= h <= 8)


def words_of_bytes(w, h, data, length):
    """A block's words, or ground 1 or 2; `length` is that of the lent words."""
    if size_wrong(w, h):
        return 1, 0
    return words_of(data) if (len(data), length) == (BYTES * w * h, WORDS * w * h) else (2, 0)


def bytes_of_words(w, h, bits, length):
    """A block's bytes, or ground 1, 2 or 4; `length` is that of the lent bytes."""
    if size_wrong(w, h):
        return 1, 0
    if (len(bits), length) != (WORDS * w * h, BYTES * w * h):
        return 2, 0
    return (4, strays(bits)[0]) if strays(bits) else bytes_of(bits)


def bit_count(w, h, bits, tile):
    """How many bits of a tile are set, or ground 1, 2 or 20. Stray bits are not counted and nothing is refused for them."""
    if size_wrong(w, h):
        return 1, 0
    if len(bits) != WORDS * w * h:
        return 2, 0
    return sum(bit(bits[WORDS * tile:], p) for p in range(864)) if tile < w * h else (20, tile)
