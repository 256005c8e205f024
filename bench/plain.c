// Plain C loops that know the two layouts, as somebody would write them by hand for a machine whose lowest byte stands first. They count the numbers that do not fit, as a
// call does.
#include "bench.h"
#include <string.h>

#define INLINE static inline __attribute__((always_inline))

// ---- numbers at places that need not be aligned

INLINE uint16_t le2(const uint8_t *p) { uint16_t x; memcpy(&x, p, 2); return x; }
INLINE uint32_t le4(const uint8_t *p) { uint32_t x; memcpy(&x, p, 4); return x; }
INLINE uint64_t le8(const uint8_t *p) { uint64_t x; memcpy(&x, p, 8); return x; }
INLINE uint16_t be2(const uint8_t *p) { return __builtin_bswap16(le2(p)); }
INLINE uint32_t be4(const uint8_t *p) { return __builtin_bswap32(le4(p)); }
INLINE double real(const uint8_t *p) { double x; memcpy(&x, p, 8); return x; }
INLINE void put2(uint8_t *p, uint16_t x) { memcpy(p, &x, 2); }
INLINE void put4(uint8_t *p, uint32_t x) { memcpy(p, &x, 4); }
INLINE void put8(uint8_t *p, uint64_t x) { memcpy(p, &x, 8); }

// 12 bits above 4, the highest byte first.
INLINE int unsigned_12(const uint8_t *p) { return be2(p) >> 4; }
INLINE int signed_12(const uint8_t *p) { return (int16_t)be2(p) >> 4; }
INLINE int twelve(const uint8_t *p, int member) { return member % 2 ? signed_12(p) : unsigned_12(p); }

// ---- loops over records: a record is read whole before it is written, so that it can be converted where it lies

// A record of S bytes to one of D bytes, `parts` of them one behind the other in a record of the workload.
#define COPYING(name, record, S, D, parts)                                                        \
    size_t plain_##name(const uint8_t *restrict source, uint8_t *restrict destination, size_t n) { \
        size_t raised = 0;                                                                         \
        for (size_t i = 0; i < n * (parts); i++)                                                   \
            raised += record(source + i * (S), destination + i * (D));                             \
        return raised;                                                                             \
    }

#define IN_PLACE(name, record, S, D, parts)                                       \
    size_t place_##name(uint8_t *buffer, size_t n) {                              \
        size_t raised = 0, m = n * (parts);                                       \
        if ((D) > (S)) {                                                          \
            for (size_t i = m; i-- > 0;)                                          \
                raised += record(buffer + i * (S), buffer + i * (D));             \
        } else {                                                                  \
            for (size_t i = 0; i < m; i++)                                        \
                raised += record(buffer + i * (S), buffer + i * (D));             \
            memset(buffer + m * (D), 0, (D) < (S) ? m * (size_t)((S) - (D)) : 0); \
        }                                                                         \
        return raised;                                                            \
    }

#define LOOPS(name, record, S, D, parts) COPYING(name, record, S, D, parts) IN_PLACE(name, record, S, D, parts)

// Handling 1: no number may be out of range before the first is written.
#define STOP_LOOPS(name, out, converted, S)                                                      \
    INLINE size_t name##_out(const uint8_t *source, size_t n) {                                  \
        size_t raised = 0;                                                                       \
        for (size_t i = 0; i < n; i++)                                                           \
            raised += out(source + i * (S));                                                     \
        return raised;                                                                           \
    }                                                                                            \
    size_t plain_##name(const uint8_t *source, uint8_t *destination, size_t n) {                 \
        size_t raised = name##_out(source, n);                                                   \
        return raised ? raised : plain_##converted(source, destination, n);                      \
    }                                                                                            \
    size_t place_##name(uint8_t *buffer, size_t n) {                                             \
        size_t raised = name##_out(buffer, n);                                                   \
        return raised ? raised : place_##converted(buffer, n);                                   \
    }

INLINE size_t whole_bytes(const uint8_t *s, uint8_t *d) {
    uint32_t a = s[0], b = (uint32_t)(int16_t)le2(s + 1), g = le2(s + 14);
    uint64_t c = be4(s + 3), e = (uint64_t)(int64_t)(int16_t)be2(s + 7), f = (uint64_t)(int64_t)(int32_t)le4(s + 9), h = le4(s + 16);
    uint16_t k = (uint16_t)(int8_t)s[13];
    put4(d, a);
    put4(d + 4, b);
    put8(d + 8, c);
    put8(d + 16, __builtin_bswap64(e));
    put8(d + 24, f);
    put2(d + 32, k);
    put4(d + 34, __builtin_bswap32(g));
    put8(d + 38, h);
    return 0;
}
LOOPS(whole_bytes, whole_bytes, 20, 46, 1)

// Behind each second member stands one that is left as it was.
INLINE size_t new_members(const uint8_t *s, uint8_t *d) {
    put4(d, s[0]);
    put4(d + 4, (uint32_t)(int16_t)le2(s + 1));
    put8(d + 12, be4(s + 3));
    put8(d + 20, __builtin_bswap64((uint64_t)(int64_t)(int16_t)be2(s + 7)));
    put8(d + 32, (uint64_t)(int64_t)(int32_t)le4(s + 9));
    put2(d + 40, (uint16_t)(int8_t)s[13]);
    put4(d + 46, __builtin_bswap32(le2(s + 14)));
    put8(d + 50, le4(s + 16));
    return 0;
}
COPYING(new_members, new_members, 20, 62, 1)

INLINE size_t twelve_bits(const uint8_t *s, uint8_t *d) {
    int x[INTS];
    for (int i = 0; i < INTS; i++)
        x[i] = twelve(s + 2 * i, i);
    for (int i = 0; i < INTS; i++)
        put4(d + 4 * i, (uint32_t)x[i]);
    return 0;
}
LOOPS(twelve_bits, twelve_bits, 16, 32, 1)

INLINE size_t element(const uint8_t *s, uint8_t *d) {
    put4(d, (uint32_t)signed_12(s));
    return 0;
}
LOOPS(array_of_512, element, 2, 4, 512)

INLINE size_t grown_byte(const uint8_t *s, uint8_t *d) {
    put8(d, (uint64_t)(int64_t)(int8_t)s[0]);
    return 0;
}
LOOPS(grown_byte, grown_byte, 1, 8, 1)

INLINE size_t four(const uint8_t *s, uint8_t *d, int i, int j, int k, int l) {
    uint32_t a = le4(s + 4 * i), b = le4(s + 4 * j), c = le4(s + 4 * k), e = le4(s + 4 * l);
    put4(d, a);
    put4(d + 4, b);
    put4(d + 8, c);
    put4(d + 12, e);
    return 0;
}
INLINE size_t scattered(const uint8_t *s, uint8_t *d) { return four(s, d, 3, 17, 40, 62); }
INLINE size_t first_four(const uint8_t *s, uint8_t *d) { return four(s, d, 0, 1, 2, 3); }
LOOPS(scattered, scattered, 256, 16, 1)
LOOPS(first_four, first_four, 256, 16, 1)

INLINE int limited(int x, int low, int high) { return x < low ? low : x > high ? high : x; }
INLINE int to_8(int x, int member) { return member % 2 ? limited(x, -128, 127) : limited(x, 0, 255); }

INLINE size_t twelve_to_8(const uint8_t *s, uint8_t *d) {
    unsigned raised = 0;
    uint8_t y[INTS];
    for (int i = 0; i < INTS; i++) {
        int x = twelve(s + 2 * i, i), z = to_8(x, i);
        raised += x != z;
        y[i] = (uint8_t)z;
    }
    memcpy(d, y, INTS);
    return raised;
}
INLINE size_t not_8(const uint8_t *s) {
    unsigned raised = 0;
    for (int i = 0; i < INTS; i++)
        raised += twelve(s + 2 * i, i) != to_8(twelve(s + 2 * i, i), i);
    return raised;
}
LOOPS(twelve_to_8, twelve_to_8, 16, 8, 1)
STOP_LOOPS(stop_twelve_to_8, not_8, twelve_to_8, 16)

INLINE size_t i32_to_i16(const uint8_t *s, uint8_t *d) {
    unsigned raised = 0;
    int16_t y[INTS];
    for (int i = 0; i < INTS; i++) {
        int x = (int32_t)le4(s + 4 * i);
        y[i] = (int16_t)limited(x, -32768, 32767);
        raised += x != y[i];
    }
    memcpy(d, y, sizeof y);
    return raised;
}
INLINE size_t i32_not_i16(const uint8_t *s) {
    unsigned raised = 0;
    for (int i = 0; i < INTS; i++)
        raised += (int32_t)le4(s + 4 * i) != (int16_t)le4(s + 4 * i);
    return raised;
}
LOOPS(i32_to_i16, i32_to_i16, 32, 16, 1)
STOP_LOOPS(stop_i32_to_i16, i32_not_i16, i32_to_i16, 32)

INLINE size_t u16_to_i16(const uint8_t *s, uint8_t *d) {
    unsigned raised = 0;
    uint16_t y[INTS];
    for (int i = 0; i < INTS; i++) {
        uint16_t x = le2(s + 2 * i);
        y[i] = x > 32767 ? 32767 : x;
        raised += x != y[i];
    }
    memcpy(d, y, sizeof y);
    return raised;
}
INLINE size_t u16_not_i16(const uint8_t *s) {
    unsigned raised = 0;
    for (int i = 0; i < INTS; i++)
        raised += le2(s + 2 * i) > 32767;
    return raised;
}
LOOPS(u16_to_i16, u16_to_i16, 16, 16, 1)
STOP_LOOPS(stop_u16_to_i16, u16_not_i16, u16_to_i16, 16)

// 12 bits above 4, the highest byte first, to 12 above 2 with 2 above them, the lowest byte first.
INLINE uint16_t moved_12(const uint8_t *s) { return (uint16_t)(be2(s) >> 4 << 2); }
INLINE size_t zero_pads(const uint8_t *s, uint8_t *d) {
    uint16_t x[INTS];
    for (int i = 0; i < INTS; i++)
        x[i] = moved_12(s + 2 * i);
    memcpy(d, x, sizeof x);
    return 0;
}
INLINE size_t keep_pads(const uint8_t *s, uint8_t *d) {
    uint16_t x[INTS];
    for (int i = 0; i < INTS; i++)
        x[i] = (uint16_t)(moved_12(s + 2 * i) | (le2(d + 2 * i) & 0xc003));
    memcpy(d, x, sizeof x);
    return 0;
}
LOOPS(zero_pads, zero_pads, 16, 16, 1)
COPYING(keep_pads, keep_pads, 16, 16, 1)

INLINE size_t same_12_bits(const uint8_t *s, uint8_t *d) {
    for (int i = 0; i < INTS; i++)
        put2(d + 2 * i, le2(s + 2 * i) & 0xf0ff);
    return 0;
}
COPYING(same_12_bits, same_12_bits, 16, 16, 1)

size_t plain_same_64(const uint8_t *source, uint8_t *destination, size_t n) { return memcpy(destination, source, n * 256), 0; }
size_t plain_same_8(const uint8_t *source, uint8_t *destination, size_t n) { return memcpy(destination, source, n * 20), 0; }

INLINE size_t structs(const uint8_t *s, uint8_t *d) {
    uint16_t a = s[0], c = (uint16_t)signed_12(s + 3);
    uint32_t b = (uint32_t)(int16_t)le2(s + 1);
    uint64_t e = (uint64_t)(int64_t)(int32_t)le4(s + 5);
    put2(d, a);
    put4(d + 2, __builtin_bswap32(b));
    put2(d + 6, c);
    put8(d + 8, e);
    return 0;
}
LOOPS(structs, structs, 9, 16, 64)

INLINE size_t to_reals(const uint8_t *s, uint8_t *d) {
    double x[INTS];
    for (int i = 0; i < INTS; i++)
        x[i] = twelve(s + 2 * i, i);
    memcpy(d, x, sizeof x);
    return 0;
}
LOOPS(to_reals, to_reals, 16, 64, 1)

// The double of what is written has the bits of what was read, or the number did not fit: a fraction, a negative zero and a not-a-number too.
INLINE size_t reals_to_ints(const uint8_t *s, uint8_t *d) {
    unsigned raised = 0;
    int16_t y[INTS];
    for (int i = 0; i < INTS; i++) {
        double x = real(s + 8 * i), back;
        uint64_t bits_back;
        y[i] = x >= 32768 ? 32767 : x <= -32769 ? -32768 : x == x ? (int16_t)x : 0;
        back = y[i];
        memcpy(&bits_back, &back, 8);
        raised += le8(s + 8 * i) != bits_back;
    }
    memcpy(d, y, sizeof y);
    return raised;
}
LOOPS(reals_to_ints, reals_to_ints, 64, 16, 1)

INLINE size_t turned_reals(const uint8_t *s, uint8_t *d) {
    for (int i = 0; i < INTS; i++)
        put8(d + 8 * i, __builtin_bswap64(le8(s + 8 * i)));
    return 0;
}
LOOPS(turned_reals, turned_reals, 64, 64, 1)

// ---- enums, by tables: what is to be written for a number, as its bytes lie, and whether it has no symbol

enum { SPAN_OF_40 = 512, NO_SYMBOL = 1 << 16 };
static uint32_t table_16[4][256], table_3[4][256], table_40[4][SPAN_OF_40];

static void make_table(uint32_t *table, int span, int base, int member, Numbering n) {
    for (int i = 0; i < span; i++)
        table[i] = NO_SYMBOL | 0xffff;
    for (int k = 0; k < n.symbols; k++)
        table[n.first + member + n.step * k - base] = __builtin_bswap16((uint16_t)(n.to_first + member + n.to_step * k));
}

void make_plain_tables(void) {
    for (int i = 0; i < 4; i++) {
        make_table(table_16[i], 256, 0, i, of_16);
        make_table(table_3[i], 256, 0, i, of_3);
        make_table(table_40[i], SPAN_OF_40, of_40.first, i, of_40);
    }
}

INLINE size_t four_codes(uint8_t *d, const uint32_t *code) {
    size_t raised = 0;
    for (int i = 0; i < 4; i++) {
        put2(d + 2 * i, (uint16_t)code[i]);
        raised += code[i] >> 16;
    }
    return raised;
}
INLINE size_t enums_of_16(const uint8_t *s, uint8_t *d) {
    uint32_t code[4] = {table_16[0][s[0]], table_16[1][s[1]], table_16[2][s[2]], table_16[3][s[3]]};
    return four_codes(d, code);
}
INLINE size_t enums_of_3(const uint8_t *s, uint8_t *d) {
    uint32_t code[4] = {table_3[0][s[0]], table_3[1][s[1]], table_3[2][s[2]], table_3[3][s[3]]};
    return four_codes(d, code);
}
INLINE uint32_t code_40(const uint8_t *s, int member) {
    uint32_t at = le2(s + 2 * member) - (uint32_t)of_40.first;
    return at < SPAN_OF_40 ? table_40[member][at] : NO_SYMBOL | 0xffff;
}
INLINE size_t enums_of_40(const uint8_t *s, uint8_t *d) {
    uint32_t code[4] = {code_40(s, 0), code_40(s, 1), code_40(s, 2), code_40(s, 3)};
    return four_codes(d, code);
}
LOOPS(enums_of_16, enums_of_16, 4, 8, 1)
LOOPS(enums_of_3, enums_of_3, 4, 8, 1)
LOOPS(enums_of_40, enums_of_40, 8, 8, 1)

// Shut is 0 and open 1 in the source, the other way round in the destination, whose byte 6 is in no member.
INLINE size_t way_back(const uint8_t *s, uint8_t *d) {
    unsigned raised = s[0] > 1;
    uint8_t valve = s[0] > 1 ? 255 : (uint8_t)(1 - s[0]);
    unsigned boost[3];
    for (int i = 0; i < 3; i++)
        boost[i] = le2(s + 1 + 2 * i);
    for (int i = 0; i < 3; i++) {
        raised += boost[i] > 4095;
        put2(d + 2 * i, __builtin_bswap16((uint16_t)((boost[i] > 4095 ? 4095 : boost[i]) << 4)));
    }
    d[7] = valve;
    return raised;
}
COPYING(way_back, way_back, 7, 8, 1)
