// What the files of the benchmark share: datatypes, workloads, and the peers that convert a workload's bytes.
#ifndef BENCH_H
#define BENCH_H

#include "../include/yirvagul.h"
#include <stddef.h>
#include <stdint.h>
#ifdef WITH_HDF5
#include <hdf5.h>
#else
typedef int hid_t;
#endif

enum { RECORDS = 65536, INTS = 8, SHEET_BYTES = 16384 };

// ---- datatypes (types.c): each function writes lines of a sheet and makes HDF5's datatype beside it

// One side of a workload: its sheet, and the size and HDF5's datatype of its last type, which is the record.
typedef struct {
    char sheet[SHEET_BYTES + 1];
    int types, size;
    hid_t h5;
} Side;

typedef struct {
    int number, size;
    hid_t h5;
} Type;

typedef struct {
    int size, big, offset, precision, is_signed, keep;  // keep: both pads are the background's, else zeros
} Int;

Type add_int(Side *s, Int l);
Type add_real(Side *s, int big);
Type add_array(Side *s, Type base, int n);
Type add_enum(Side *s, Type base);
void add_value(Side *s, Type of, const char *name, int number);
Type add_compound(Side *s, int size);
void add_member(Side *s, Type of, const char *name, int at, Type type);
// The word that the last line, which is a member's, ends in.
void add_word(Side *s, const char *word);

// ---- workloads (workloads.c)

// A plain C loop over n records, which answers how many numbers did not fit. In place it also clears what is left of a longer source.
typedef size_t (*Plain)(const uint8_t *source, uint8_t *destination, size_t n);
typedef size_t (*PlainInPlace)(uint8_t *buffer, size_t n);

// The other's time by ours is at least so much, and our time at most `c` times that of the plain C loop; of a report or a comparison, at most `c` times that of the
// conversion. 0: no target.
typedef struct {
    double hdf5, hdf5_in_place, numpy, c;
} Targets;

typedef struct Workload Workload;
struct Workload {
    const char *name;
    int leaves;                                                     // matched leaves of a record
    void (*make)(Workload *);                                       // makes the two sides
    void (*fill)(const Workload *, uint8_t *source, size_t bytes);  // makes the source's records
    int handling;
    int out_of;  // one number of so many is out of the destination's range; 0: none
    Plain plain;
    PlainInPlace plain_in_place;
    Targets targets;
    const char *other_bytes;  // why HDF5's bytes are not ours; NULL where they have to be
    Int from[INTS], to[INTS]; // the members, where they are ints
    Side source, destination;
};

extern Workload conversions[], reports[], compares[];
extern const size_t conversions_count, reports_count, compares_count;
// Workloads of conversions that are also timed in calls of few records.
extern const char *const small_calls[];
extern const size_t small_calls_count;

// The numbers of four enums: symbol k of member i has first + i + step * k in the source, to_first + i + to_step * k in the destination.
typedef struct {
    int symbols, first, step, to_first, to_step;
} Numbering;

static const Numbering of_16 = {16, 0, 1, 100, 3}, of_3 = {3, 0, 1, 100, 3}, of_40 = {40, 1000, 7, 3000, 11};

uint64_t random_bits(void);
void random_bytes(uint8_t *bytes, size_t len);
// An array of 2,048 enums of 16 bits with 256 symbols, whose numbers are far apart, to another such; and a number that has no symbol.
void make_slowest(Workload *w);
enum { SLOWEST_LEAVES = 2048, SLOWEST_SYMBOLS = 256, SLOWEST_STEP = 257, SLOWEST_NONE = 65534 };

// ---- plain C loops (plain.c), by the workload's name

#define PLAIN_LOOPS(name)                                                      \
    size_t plain_##name(const uint8_t *source, uint8_t *destination, size_t n); \
    size_t place_##name(uint8_t *buffer, size_t n);
PLAIN_LOOPS(whole_bytes)
PLAIN_LOOPS(twelve_bits)
PLAIN_LOOPS(array_of_512)
PLAIN_LOOPS(enums_of_16)
PLAIN_LOOPS(enums_of_3)
PLAIN_LOOPS(enums_of_40)
PLAIN_LOOPS(grown_byte)
PLAIN_LOOPS(scattered)
PLAIN_LOOPS(first_four)
PLAIN_LOOPS(twelve_to_8)
PLAIN_LOOPS(i32_to_i16)
PLAIN_LOOPS(u16_to_i16)
PLAIN_LOOPS(zero_pads)
PLAIN_LOOPS(structs)
PLAIN_LOOPS(to_reals)
PLAIN_LOOPS(reals_to_ints)
PLAIN_LOOPS(turned_reals)
PLAIN_LOOPS(stop_twelve_to_8)
PLAIN_LOOPS(stop_i32_to_i16)
PLAIN_LOOPS(stop_u16_to_i16)
#undef PLAIN_LOOPS
size_t plain_way_back(const uint8_t *source, uint8_t *destination, size_t n);
size_t plain_keep_pads(const uint8_t *source, uint8_t *destination, size_t n);
size_t plain_new_members(const uint8_t *source, uint8_t *destination, size_t n);
size_t plain_same_64(const uint8_t *source, uint8_t *destination, size_t n);
size_t plain_same_8(const uint8_t *source, uint8_t *destination, size_t n);
size_t plain_same_12_bits(const uint8_t *source, uint8_t *destination, size_t n);
// The tables of the enums' loops.
void make_plain_tables(void);

// ---- the run (bench.c)

// One round of numpy: so many calls of so many records each, one behind the other. It answers the time of all calls in ns and writes their results; 0: numpy does not
// do this; below 0: it failed.
typedef double (*Numpy)(const char *source_sheet, const char *destination_sheet, size_t records, size_t calls, const uint8_t *source, const uint8_t *background, uint8_t *result);

// Prints all tables, and answers the status of the run. Without numpy its columns are empty.
int bench(int rounds, const char *part_of_a_name, Numpy numpy);

#endif
