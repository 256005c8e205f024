// The workloads: their two sheets, and the bytes of their sources.
#include "bench.h"
#include <stdio.h>
#include <stdlib.h>
#include <string.h>

// ---- the sides

// The members stand one behind the other; member i is called m and names[i], or i.
static void compound(Side *s, int n, const Type *types, const int *names) {
    int size = 0, at = 0;
    for (int i = 0; i < n; i++)
        size += types[i].size;
    Type c = add_compound(s, size);
    for (int i = 0; i < n; i++) {
        char name[16];
        snprintf(name, sizeof name, "m%d", names ? names[i] : i);
        add_member(s, c, name, at, types[i]);
        at += types[i].size;
    }
}

static void ints_side(Side *s, const Int *members) {
    Type types[INTS];
    for (int i = 0; i < INTS; i++)
        types[i] = add_int(s, members[i]);
    compound(s, INTS, types, NULL);
}

static void reals_side(Side *s, int big) {
    Type types[INTS], real = add_real(s, big);
    for (int i = 0; i < INTS; i++)
        types[i] = real;
    compound(s, INTS, types, NULL);
}

// What stands in w->from and w->to.
static void ints(Workload *w) {
    ints_side(&w->source, w->from);
    ints_side(&w->destination, w->to);
}

static const Int whole[INTS] = {
    {1, 0, 0, 8, 0, 0}, {2, 0, 0, 16, 1, 0}, {4, 1, 0, 32, 0, 0}, {2, 1, 0, 16, 1, 0},
    {4, 0, 0, 32, 1, 0}, {1, 0, 0, 8, 1, 0}, {2, 0, 0, 16, 0, 0}, {4, 0, 0, 32, 0, 0},
};
static const Int whole_to[INTS] = {
    {4, 0, 0, 32, 0, 0}, {4, 0, 0, 32, 1, 0}, {8, 0, 0, 64, 0, 0}, {8, 1, 0, 64, 1, 0},
    {8, 0, 0, 64, 1, 0}, {2, 0, 0, 16, 1, 0}, {4, 1, 0, 32, 0, 0}, {8, 0, 0, 64, 0, 0},
};

static void whole_bytes(Workload *w) {
    memcpy(w->from, whole, sizeof whole);
    memcpy(w->to, whole_to, sizeof whole_to);
    ints(w);
}

// The ints that a report takes have at most 32 bits.
static void whole_bytes_of_32(Workload *w) {
    static const Int to[INTS] = {
        {4, 0, 0, 32, 0, 0}, {4, 0, 0, 32, 1, 0}, {4, 0, 0, 32, 0, 0}, {4, 1, 0, 32, 1, 0},
        {4, 1, 0, 32, 1, 0}, {2, 0, 0, 16, 1, 0}, {4, 1, 0, 32, 0, 0}, {4, 1, 0, 32, 0, 0},
    };
    memcpy(w->from, whole, sizeof whole);
    memcpy(w->to, to, sizeof to);
    ints(w);
}

static void same_8(Workload *w) {
    memcpy(w->from, whole, sizeof whole);
    memcpy(w->to, whole, sizeof whole);
    ints(w);
}

// Eight members of one layout, of which each other one is signed where `signs` is 1.
static void alike(Workload *w, Int from, Int to, int signs) {
    for (int i = 0; i < INTS; i++) {
        w->from[i] = from;
        w->to[i] = to;
        if (signs)
            w->from[i].is_signed = w->to[i].is_signed = i % 2;
    }
    ints(w);
}

static const Int twelve = {2, 1, 4, 12, 0, 0};

static void twelve_bits(Workload *w) { alike(w, twelve, (Int){4, 0, 0, 32, 0, 0}, 1); }
static void turned_twelve_bits(Workload *w) { alike(w, twelve, (Int){2, 0, 4, 12, 0, 0}, 1); }
static void same_12_bits(Workload *w) { alike(w, twelve, twelve, 1); }
static void twelve_to_8(Workload *w) { alike(w, twelve, (Int){1, 0, 0, 8, 0, 0}, 1); }
static void one_of_8_stops(Workload *w) {
    twelve_to_8(w);
    add_word(&w->destination, "stop");
}
static void one_of_8_clamps(Workload *w) {
    twelve_to_8(w);
    add_word(&w->destination, "clamp");
}
static void zero_pads(Workload *w) { alike(w, twelve, (Int){2, 0, 2, 12, 0, 0}, 1); }
static void keep_pads(Workload *w) { alike(w, twelve, (Int){2, 0, 2, 12, 0, 1}, 1); }
static void i32_to_i16(Workload *w) { alike(w, (Int){4, 0, 0, 32, 1, 0}, (Int){2, 0, 0, 16, 1, 0}, 0); }
static void u16_to_i16(Workload *w) { alike(w, (Int){2, 0, 0, 16, 0, 0}, (Int){2, 0, 0, 16, 1, 0}, 0); }

// Half of the numbers of each member are above or below the destination's range.
static void clamped(Workload *w) {
    for (int i = 0; i < INTS; i++) {
        w->from[i] = (Int){2, i % 2, 0, 16, i % 4 < 2, 0};
        w->to[i] = (Int){2, 0, 0, 15, i % 4 < 2, 0};
    }
    ints(w);
}

static void twelve_bits_to_reals(Workload *w) {
    for (int i = 0; i < INTS; i++)
        w->from[i] = (Int){2, 1, 4, 12, i % 2, 0};
    ints_side(&w->source, w->from);
    reals_side(&w->destination, 0);
}

static void reals_to_ints(Workload *w) {
    for (int i = 0; i < INTS; i++)
        w->to[i] = (Int){2, 0, 0, 16, 1, 0};
    reals_side(&w->source, 0);
    ints_side(&w->destination, w->to);
}

static void turned_reals(Workload *w) {
    reals_side(&w->source, 0);
    reals_side(&w->destination, 1);
}

static void array_of_512(Workload *w) {
    add_array(&w->source, add_int(&w->source, (Int){2, 1, 4, 12, 1, 0}), 512);
    add_array(&w->destination, add_int(&w->destination, (Int){4, 0, 0, 32, 1, 0}), 512);
}

static void struct_array(Side *s, const Int *members) {
    Type types[4], one;
    for (int i = 0; i < 4; i++)
        types[i] = add_int(s, members[i]);
    compound(s, 4, types, NULL);
    one = (Type){s->types - 1, s->size, s->h5};
    add_array(s, one, 64);
}

static void structs(Workload *w) {
    struct_array(&w->source, (const Int[4]){{1, 0, 0, 8, 0, 0}, {2, 0, 0, 16, 1, 0}, {2, 1, 4, 12, 1, 0}, {4, 0, 0, 32, 1, 0}});
    struct_array(&w->destination, (const Int[4]){{2, 0, 0, 16, 0, 0}, {4, 1, 0, 32, 1, 0}, {2, 0, 0, 16, 1, 0}, {8, 0, 0, 64, 1, 0}});
}

static void four_enums(Side *s, Int base, int symbols, int first, int step) {
    Type types[4];
    for (int i = 0; i < 4; i++) {
        types[i] = add_enum(s, add_int(s, base));
        for (int k = 0; k < symbols; k++) {
            char name[16];
            snprintf(name, sizeof name, "s%d", k);
            add_value(s, types[i], name, first + i + step * k);
        }
    }
    compound(s, 4, types, NULL);
}

static void enums(Workload *w, Int from, Int to, Numbering n) {
    four_enums(&w->source, from, n.symbols, n.first, n.step);
    four_enums(&w->destination, to, n.symbols, n.to_first, n.to_step);
}

static void enums_of_16(Workload *w) { enums(w, (Int){1, 0, 0, 8, 0, 0}, (Int){2, 1, 0, 16, 0, 0}, of_16); }
static void enums_of_3(Workload *w) { enums(w, (Int){1, 0, 0, 8, 0, 0}, (Int){2, 1, 0, 16, 0, 0}, of_3); }
static void enums_of_40(Workload *w) { enums(w, (Int){2, 0, 0, 16, 0, 0}, (Int){2, 1, 0, 16, 0, 0}, of_40); }

static void grown_byte(Workload *w) {
    add_int(&w->source, (Int){1, 0, 0, 8, 1, 0});
    add_int(&w->destination, (Int){8, 0, 0, 64, 1, 0});
}

static void members_of_4(Side *s, int n, const int *names) {
    Type types[64], one = add_int(s, (Int){4, 0, 0, 32, 1, 0});
    for (int i = 0; i < n; i++)
        types[i] = one;
    compound(s, n, types, names);
}

static void four_of_64(Workload *w, const int *taken) {
    members_of_4(&w->source, 64, NULL);
    members_of_4(&w->destination, 4, taken);
}

static void scattered(Workload *w) { four_of_64(w, (const int[4]){3, 17, 40, 62}); }
static void first_four(Workload *w) { four_of_64(w, (const int[4]){0, 1, 2, 3}); }

static void same_64(Workload *w) {
    members_of_4(&w->source, 64, NULL);
    members_of_4(&w->destination, 64, NULL);
}

// Behind each second member stands one of 4 bytes that the source lacks.
static void new_members(Workload *w) {
    Type types[INTS + INTS / 2];
    int names[INTS + INTS / 2], n = 0;
    for (int i = 0; i < INTS; i++) {
        names[n] = i;
        types[n++] = add_int(&w->destination, whole_to[i]);
        if (i % 2) {
            names[n] = 100 + i;
            types[n++] = add_int(&w->destination, (Int){4, 0, 0, 32, 1, 0});
        }
    }
    ints_side(&w->source, whole);
    compound(&w->destination, n, types, names);
}

// Ints that grow, turn, narrow to 16 bits and become doubles, 12 bits, a double that turns, and an enum of 3 symbols, over and over.
enum { MIXED = 8, MIXED_ENUM = 23, MIXED_BYTES = 24 };

static void mixed_side(Side *s, int n, const Type *kinds) {
    Type types[256];
    for (int i = 0; i < n; i++)
        types[i] = kinds[i % MIXED];
    compound(s, n, types, NULL);
}

static Type enum_of_3(Side *s, Int base, int first) {
    Type e = add_enum(s, add_int(s, base));
    add_value(s, e, "off", first);
    add_value(s, e, "on", first + 1);
    add_value(s, e, "torn", first + 2);
    return e;
}

static void mixed(Workload *w) {
    Side *s = &w->source, *d = &w->destination;
    Type from[MIXED] = {add_int(s, (Int){1, 0, 0, 8, 0, 0}), add_int(s, (Int){2, 0, 0, 16, 1, 0}), add_int(s, twelve),
                        add_int(s, (Int){4, 0, 0, 32, 1, 0}), add_real(s, 0), add_int(s, (Int){2, 1, 0, 16, 1, 0}),
                        add_int(s, (Int){4, 1, 0, 32, 0, 0}), enum_of_3(s, (Int){1, 0, 0, 8, 0, 0}, 0)};
    Type to[MIXED] = {add_int(d, (Int){4, 0, 0, 32, 0, 0}), add_int(d, (Int){4, 1, 0, 32, 1, 0}), add_int(d, (Int){2, 0, 0, 16, 0, 0}),
                      add_int(d, (Int){2, 0, 0, 16, 1, 0}), add_real(d, 1), add_real(d, 0),
                      add_int(d, (Int){8, 0, 0, 64, 0, 0}), enum_of_3(d, (Int){2, 1, 0, 16, 0, 0}, 700)};
    mixed_side(s, w->leaves, from);
    mixed_side(d, w->leaves, to);
}

// A side of the example's way back has to be the example's sheet.
static void is_example(const Side *s, const char *path) {
    static char text[SHEET_BYTES + 1];
    FILE *f = fopen(path, "rb");
    size_t len = f ? fread(text, 1, SHEET_BYTES, f) : 0;
    text[len] = 0;
    if (!f || strcmp(text, s->sheet)) {
        fprintf(stderr, "%s is not the sheet that is timed\n", path);
        exit(1);
    }
    fclose(f);
}

static void way_back(Workload *w) {
    Side *s = &w->source, *d = &w->destination;
    Type boost = add_int(s, (Int){2, 0, 0, 16, 0, 0}), valve = add_enum(s, add_int(s, (Int){1, 0, 0, 8, 0, 0}));
    add_value(s, valve, "shut", 0);
    add_value(s, valve, "open", 1);
    boost = add_array(s, boost, 3);
    Type c = add_compound(s, 7);
    add_member(s, c, "valve", 0, valve);
    add_member(s, c, "boost", 1, boost);
    is_example(s, "examples/customer.sheet");
    boost = add_int(d, twelve);
    valve = add_enum(d, add_int(d, (Int){1, 0, 0, 8, 1, 0}));
    add_value(d, valve, "open", 0);
    add_value(d, valve, "shut", 1);
    boost = add_array(d, boost, 3);
    c = add_compound(d, 8);
    add_member(d, c, "boost", 0, boost);
    add_member(d, c, "valve", 7, valve);
    is_example(d, "examples/rig.sheet");
}

// Line j of an enum has number 257 * j. The destination's lines name the source's symbols from the last to the first.
static void slowest_side(Side *s, int turned) {
    Type e = add_enum(s, add_int(s, (Int){2, 0, 0, 16, 0, 0}));
    for (int j = 0; j < SLOWEST_SYMBOLS; j++) {
        char name[32];
        snprintf(name, sizeof name, "symbol.......%03d...............", turned ? SLOWEST_SYMBOLS - 1 - j : j);
        add_value(s, e, name, SLOWEST_STEP * j);
    }
    add_array(s, e, SLOWEST_LEAVES);
}

void make_slowest(Workload *w) {
    slowest_side(&w->source, 0);
    slowest_side(&w->destination, 1);
}

// ---- the sources

uint64_t random_bits(void) {
    static uint64_t state = 88172645463325252ull;
    state ^= state << 13;
    state ^= state >> 7;
    state ^= state << 17;
    return state >> 24;
}

void random_bytes(uint8_t *bytes, size_t len) {
    for (size_t i = 0; i < len; i++)
        bytes[i] = (uint8_t)random_bits();
}

static void any(const Workload *w, uint8_t *source, size_t bytes) {
    (void)w;
    random_bytes(source, bytes);
}

static int64_t lowest(Int l) { return l.is_signed ? -(INT64_C(1) << (l.precision - 1)) : 0; }
static int64_t highest(Int l) { return (INT64_C(1) << (l.precision - l.is_signed)) - 1; }
static int64_t between(int64_t low, int64_t high) { return low + (int64_t)(random_bits() % (uint64_t)(high - low + 1)); }

// Puts a number of at most 32 bits where it lies; the pads are left as they are.
static void put(uint8_t *at, Int l, int64_t number) {
    for (int bit = 0; bit < l.precision; bit++) {
        int place = l.offset + bit, byte = l.big ? l.size - 1 - place / 8 : place / 8;
        at[byte] = (uint8_t)((at[byte] & ~(1 << place % 8)) | (int)(((uint64_t)number >> bit & 1) << place % 8));
    }
}

// Of w->from's members, one number of w->out_of is out of the range of w->to's.
static void in_range(const Workload *w, uint8_t *source, size_t bytes) {
    random_bytes(source, bytes);
    for (size_t at = 0, i = 0; at < bytes; at += (size_t)w->from[i++ % INTS].size) {
        Int from = w->from[i % INTS], to = w->to[i % INTS];
        int64_t low = lowest(from) > lowest(to) ? lowest(from) : lowest(to), high = highest(from) < highest(to) ? highest(from) : highest(to);
        int64_t number = between(low, high);
        if (w->out_of && random_bits() % (uint64_t)w->out_of == 0)
            number = lowest(from) < low && random_bits() % 2 ? between(lowest(from), low - 1) : between(high + 1, highest(from));
        put(source + at, from, number);
    }
}

// Doubles that are quarters, which 16 bits hold once the fraction is dropped.
static void quarters(const Workload *w, uint8_t *source, size_t bytes) {
    (void)w;
    for (size_t i = 0; i + 8 <= bytes; i += 8) {
        double quarter = (double)(int)(random_bits() % (1 << 18)) / 4 - 32768;
        memcpy(source + i, &quarter, 8);
    }
}

// Up to 3 of these have no symbol.
static void below_16(const Workload *w, uint8_t *source, size_t bytes) {
    (void)w;
    for (size_t i = 0; i < bytes; i++)
        source[i] = random_bits() % 16;
}

static int symbol(Numbering n, size_t member) { return n.first + (int)member + n.step * (int)(random_bits() % (uint64_t)n.symbols); }

static void symbols_of_3(const Workload *w, uint8_t *source, size_t bytes) {
    (void)w;
    for (size_t i = 0; i < bytes; i++)
        source[i] = (uint8_t)symbol(of_3, i % 4);
}

static void symbols_of_40(const Workload *w, uint8_t *source, size_t bytes) {
    (void)w;
    for (size_t i = 0; 2 * i < bytes; i++)
        put(source + 2 * i, (Int){2, 0, 0, 16, 0, 0}, symbol(of_40, i % 4));
}

static void mixed_bytes(const Workload *w, uint8_t *source, size_t bytes) {
    (void)w;
    random_bytes(source, bytes);
    for (size_t i = MIXED_ENUM; i < bytes; i += MIXED_BYTES)
        source[i] %= 3;
}

// The example's log, converted, over and over.
static void example_log(const Workload *w, uint8_t *source, size_t bytes) {
    enum { LOG = 48 };
    static uint8_t log[LOG * 8], converted[LOG * 7];
    static uint32_t table[YIRVAGUL_TABLE_WORDS];
    uint64_t answer[8];
    FILE *f = fopen("examples/rig.log", "rb");
    size_t len = f ? fread(log, 1, sizeof log, f) : 0;
    if (len != sizeof log ||
        yirvagul_convert_copying((const uint8_t *)w->destination.sheet, strlen(w->destination.sheet), (const uint8_t *)w->source.sheet, strlen(w->source.sheet), LOG,
                                 YIRVAGUL_STOP_FIRST, log, sizeof log, converted, sizeof converted, table, YIRVAGUL_TABLE_WORDS, answer)) {
        fprintf(stderr, "examples/rig.log is not the log that is timed\n");
        exit(1);
    }
    fclose(f);
    for (size_t i = 0; i < bytes; i++)
        source[i] = converted[i % sizeof converted];
}

// ---- all of them

#define LOOPS(name) .plain = plain_##name, .plain_in_place = place_##name

static const char keeps_zero[] = "HDF5 writes keep pads of members as zeros", keeps_pads[] = "HDF5 leaves the source's pads";

Workload conversions[] = {
    {"8 whole-byte members", 8, whole_bytes, .fill = any, LOOPS(whole_bytes), .targets = {40, 40, 1.2, 3}},
    {"8 members of 12 bits", 8, twelve_bits, .fill = any, LOOPS(twelve_bits), .targets = {40, 40, 1.2, 3}},
    {"array of 512 of 12 bits", 512, array_of_512, .fill = any, LOOPS(array_of_512), .targets = {35, 35, 1, 3}},
    {"4 enums of 16 symbols", 4, enums_of_16, .fill = below_16, LOOPS(enums_of_16), .targets = {20, 20, 1.2, 3}},
    {"1 byte grown to 8", 1, grown_byte, .fill = any, LOOPS(grown_byte), .targets = {0.9, 0.9, 0.8, 3}},
    {"4 members out of 64", 4, scattered, .fill = any, LOOPS(scattered), .targets = {2, 1.2, 1.2, 3}},
    {"the first 4 of 64", 4, first_four, .fill = any, LOOPS(first_four)},
    {"12 bits to 8, none out of range", 8, twelve_to_8, .fill = in_range, LOOPS(twelve_to_8), .targets = {40, 40, 1.2, 3}},
    {"12 bits to 8, 1 in 100 out of range", 8, twelve_to_8, .fill = in_range, .out_of = 100, LOOPS(twelve_to_8), .targets = {40, 40, 1.2, 3}},
    {"12 bits to 8, half out of range", 8, twelve_to_8, .fill = in_range, .out_of = 2, LOOPS(twelve_to_8), .targets = {40, 40, 1.2, 3}},
    {"i32 to i16, none out of range", 8, i32_to_i16, .fill = in_range, LOOPS(i32_to_i16), .targets = {2.5, 2.5, 1, 3}},
    {"i32 to i16, half out of range", 8, i32_to_i16, .fill = in_range, .out_of = 2, LOOPS(i32_to_i16), .targets = {2.5, 2.5, 1, 3}},
    {"u16 to i16, none out of range", 8, u16_to_i16, .fill = in_range, LOOPS(u16_to_i16), .targets = {2.5, 2.5, 1, 3}},
    {"u16 to i16, half out of range", 8, u16_to_i16, .fill = in_range, .out_of = 2, LOOPS(u16_to_i16), .targets = {2.5, 2.5, 1, 3}},
    {"12 bits in 16, zero pads", 8, zero_pads, .fill = any, LOOPS(zero_pads), .targets = {40, 40, 1.2, 3}},
    {"12 bits in 16, keep pads", 8, keep_pads, .fill = any, .plain = plain_keep_pads, .targets = {40, 40, 1.2, 3}, .other_bytes = keeps_zero},
    {"8 whole-byte members, handling 1", 8, whole_bytes, .fill = any, .handling = 1, LOOPS(whole_bytes)},
    {"12 bits to 8, handling 1", 8, twelve_to_8, .fill = in_range, .handling = 1, LOOPS(stop_twelve_to_8)},
    {"12 bits to 8, one of 8 obeys stop, handling 0", 8, one_of_8_stops, .fill = in_range, LOOPS(twelve_to_8)},
    {"12 bits to 8, one of 8 obeys clamp, handling 1", 8, one_of_8_clamps, .fill = in_range, .handling = 1, LOOPS(stop_twelve_to_8)},
    {"i32 to i16, handling 1", 8, i32_to_i16, .fill = in_range, .handling = 1, LOOPS(stop_i32_to_i16), .targets = {1.5, 1.5, 0, 3}},
    {"u16 to i16, handling 1", 8, u16_to_i16, .fill = in_range, .handling = 1, LOOPS(stop_u16_to_i16), .targets = {1.5, 1.5, 0, 3}},
    {"4 enums of 3 symbols", 4, enums_of_3, .fill = symbols_of_3, LOOPS(enums_of_3)},
    {"4 enums of 40 symbols in 16 bits", 4, enums_of_40, .fill = symbols_of_40, LOOPS(enums_of_40), .targets = {20, 20, 1.2, 3}},
    {"array of 64 structs of 4", 256, structs, .fill = any, LOOPS(structs), .targets = {35, 35, 1, 3}},
    {"identical sheets, 64 members of 4 bytes", 64, same_64, .fill = any, .plain = plain_same_64, .targets = {0, 0, 0, 1 / 0.6}},
    {"identical sheets, 8 whole-byte members", 8, same_8, .fill = any, .plain = plain_same_8, .targets = {0, 0, 0, 1 / 0.6}},
    {"identical sheets, 8 members of 12 bits", 8, same_12_bits, .fill = any, .plain = plain_same_12_bits, .other_bytes = keeps_pads},
    {"8 whole-byte members, 4 that the source lacks", 8, new_members, .fill = any, .plain = plain_new_members},
    {"8 members of 12 bits to doubles", 8, twelve_bits_to_reals, .fill = any, LOOPS(to_reals), .targets = {20, 20, 1, 3}},
    {"8 doubles to 16-bit ints", 8, reals_to_ints, .fill = quarters, LOOPS(reals_to_ints), .targets = {1, 1, 0.8, 3}},
    {"8 doubles of the other order", 8, turned_reals, .fill = any, LOOPS(turned_reals), .targets = {1.2, 1.2, 0.8, 3}},
    {"128 mixed members", 128, mixed, .fill = mixed_bytes},
    {"240 mixed members", 240, mixed, .fill = mixed_bytes},
    {"the way back of the example log", 4, way_back, .fill = example_log, .plain = plain_way_back},
};

Workload reports[] = {
    {"report of 8 whole-byte members of at most 32 bits", 8, whole_bytes_of_32, .fill = any, .targets = {0, 0, 0, 2.5}},
    {"report of 8 members that may clamp", 8, clamped, .fill = any},
};

Workload compares[] = {
    {"compare 8 whole-byte members", 8, whole_bytes, .fill = any, .targets = {0, 0, 0, 1.5}},
    {"compare 8 members of 12 bits", 8, twelve_bits, .fill = any},
    {"compare 8 members of 12 bits with doubles", 8, twelve_bits_to_reals, .fill = any},
    {"compare 8 doubles of the other order", 8, turned_reals, .fill = any},
    {"compare 8 whole-byte members, one record of 100 differs", 8, whole_bytes, .fill = any},
    {"compare 8 whole-byte members, each record differs", 8, whole_bytes, .fill = any},
    {"compare 8 members of 12 bits, other pads", 8, turned_twelve_bits, .fill = any},
};

const char *const small_calls[] = {"8 whole-byte members", "8 members of 12 bits", "array of 512 of 12 bits", "4 enums of 16 symbols", "1 byte grown to 8", "4 members out of 64",
                                   "i32 to i16, none out of range", "array of 64 structs of 4", "4 enums of 40 symbols in 16 bits", "128 mixed members", "the way back of the example log"};

const size_t conversions_count = sizeof conversions / sizeof *conversions, reports_count = sizeof reports / sizeof *reports, compares_count = sizeof compares / sizeof *compares,
             small_calls_count = sizeof small_calls / sizeof *small_calls;
