/* The library's functions as `bench/try` compiles them take a slice as a pointer to a pair; the benchmark passes pointer and length. */
#include <stddef.h>
#include <stdint.h>

typedef struct {
    const void *numbers;
    size_t length;
} Slice;

#define LENT(k) const void *numbers##k, size_t length##k
#define SLICE(k) &(Slice){numbers##k, length##k}

uint64_t try_ice40_wire_number(uint32_t, uint32_t, uint32_t, uint32_t, uint32_t);
uint64_t try_ice40_read(uint32_t, uint32_t, Slice *, Slice *, Slice *);
uint64_t try_ice40_write(uint32_t, uint32_t, Slice *, Slice *, Slice *);
uint64_t try_ice40_build(uint32_t, uint32_t, uint32_t, Slice *, Slice *, Slice *, Slice *, Slice *, Slice *, Slice *, Slice *, Slice *);
uint64_t try_ice40_step(uint32_t, uint32_t, uint32_t, Slice *, Slice *, Slice *, Slice *, Slice *, Slice *, Slice *, Slice *, Slice *, Slice *,
                        Slice *, Slice *, Slice *);
uint64_t try_ice40_asc_read(uint32_t, uint32_t, uint32_t, uint32_t, Slice *, Slice *);
uint64_t try_ice40_asc_length(uint32_t, uint32_t, uint32_t, uint32_t);
uint64_t try_ice40_asc_write(uint32_t, uint32_t, uint32_t, uint32_t, Slice *, Slice *);
uint64_t try_ice40_compare(uint32_t, uint32_t, uint32_t, uint32_t, Slice *, Slice *, Slice *, Slice *, Slice *, Slice *);
uint64_t try_ice40_contentions(uint32_t, uint32_t, uint32_t, Slice *, Slice *, Slice *, Slice *, Slice *, Slice *, Slice *);

uint64_t ice40_wire_number(uint32_t w, uint32_t h, uint32_t east, uint32_t tile, uint32_t port) {
    return try_ice40_wire_number(w, h, east, tile, port);
}

uint64_t ice40_read(uint32_t w, uint32_t h, LENT(1), LENT(2), LENT(3)) {
    return try_ice40_read(w, h, SLICE(1), SLICE(2), SLICE(3));
}

uint64_t ice40_write(uint32_t w, uint32_t h, LENT(1), LENT(2), LENT(3)) {
    return try_ice40_write(w, h, SLICE(1), SLICE(2), SLICE(3));
}

uint64_t ice40_build(uint32_t w, uint32_t h, uint32_t east, LENT(1), LENT(2), LENT(3), LENT(4), LENT(5), LENT(6), LENT(7), LENT(8), LENT(9)) {
    return try_ice40_build(w, h, east, SLICE(1), SLICE(2), SLICE(3), SLICE(4), SLICE(5), SLICE(6), SLICE(7), SLICE(8), SLICE(9));
}

uint64_t ice40_step(uint32_t w, uint32_t h, uint32_t east, LENT(1), LENT(2), LENT(3), LENT(4), LENT(5), LENT(6), LENT(7), LENT(8), LENT(9),
                    LENT(10), LENT(11), LENT(12), LENT(13)) {
    return try_ice40_step(w, h, east, SLICE(1), SLICE(2), SLICE(3), SLICE(4), SLICE(5), SLICE(6), SLICE(7), SLICE(8), SLICE(9), SLICE(10),
                          SLICE(11), SLICE(12), SLICE(13));
}

uint64_t ice40_asc_read(uint32_t w, uint32_t h, uint32_t x, uint32_t y, LENT(1), LENT(2)) {
    return try_ice40_asc_read(w, h, x, y, SLICE(1), SLICE(2));
}

uint64_t ice40_asc_length(uint32_t w, uint32_t h, uint32_t x, uint32_t y) {
    return try_ice40_asc_length(w, h, x, y);
}

uint64_t ice40_asc_write(uint32_t w, uint32_t h, uint32_t x, uint32_t y, LENT(1), LENT(2)) {
    return try_ice40_asc_write(w, h, x, y, SLICE(1), SLICE(2));
}

uint64_t ice40_compare(uint32_t w1, uint32_t h1, uint32_t w2, uint32_t h2, LENT(1), LENT(2), LENT(3), LENT(4), LENT(5), LENT(6)) {
    return try_ice40_compare(w1, h1, w2, h2, SLICE(1), SLICE(2), SLICE(3), SLICE(4), SLICE(5), SLICE(6));
}

uint64_t ice40_contentions(uint32_t w, uint32_t h, uint32_t east, LENT(1), LENT(2), LENT(3), LENT(4), LENT(5), LENT(6), LENT(7)) {
    return try_ice40_contentions(w, h, east, SLICE(1), SLICE(2), SLICE(3), SLICE(4), SLICE(5), SLICE(6), SLICE(7));
}
