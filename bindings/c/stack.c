/* Every call keeps to the stack that the header says: measured on a painted stack, and run on one of exactly that size, above a guard. Says nothing but
 * what fails; with an argument, also what each call takes. */
#define _DEFAULT_SOURCE
#include <pthread.h>
#include <signal.h>
#include <stdio.h>
#include <stdlib.h>
#include <string.h>
#include <sys/mman.h>
#include <unistd.h>

#include "yirvagul.h"

enum { REFUSED_STACK_BYTES = 16384, SMALL_RECORD = 128, SHEET_MOST = 16384, RECORD_MOST = 4096 };
/* Of the longest records a block and its rest, of the shortest several blocks. */
enum { RECORDS = 25, RECORDS_MOST = 300, LOG_BYTES = RECORDS * RECORD_MOST };
enum { PAINT = 0xa5, PAINTED = 1 << 19, GUARD = 1 << 20 };

/* ---- sheets */

typedef struct {
    char text[2 * SHEET_MOST];
    int types;
} Sheet;

static void line(Sheet *s, const char *text) { strcat(strcat(s->text, text), "\n"); }

/* A type's line; returns the type's number. */
static int type(Sheet *s, const char *text) {
    line(s, text);
    return s->types++;
}

static int numbered(Sheet *s, const char *format, int a, int b) {
    char text[96];
    snprintf(text, sizeof text, format, a, b);
    return type(s, text);
}

/* The words of the members that are made: none, all the same, or clamp and stop in turn. */
typedef enum { NO_WORD, ALL_CLAMP, ALL_STOP, BOTH_WORDS } Words;

static Words words;

static void named(Sheet *s, const char *kind, int name, int a, int b) {
    static const char *const ends[] = {"", "\tclamp", "\tstop"};
    char text[96];
    if (b < 0)
        snprintf(text, sizeof text, "%s\tn%d\t%d", kind, name, a);
    else
        snprintf(text, sizeof text, "%s\tn%d\t%d\t%d%s", kind, name, a, b, ends[words == BOTH_WORDS ? ALL_CLAMP + name % 2 : (int)words]);
    line(s, text);
}

static const char *const BYTE = "int\t1\tLE\t0\t8\tzero\tzero\tunsigned";
static const char *const SIGNED_BYTE = "int\t1\tLE\t0\t8\tzero\tzero\tsigned";
static const char *const PAIR = "int\t2\tBE\t0\t16\tzero\tzero\tunsigned";
static const char *const SIGNED_PAIR = "int\t2\tLE\t0\t16\tzero\tzero\tsigned";
static const char *const KEPT = "int\t2\tBE\t3\t7\tkeep\tkeep\tsigned";
static const char *const BITS = "bits\t1\tLE\t0\t8\tzero\tzero";
static const char *const FOUR = "int\t4\tLE\t0\t32\tzero\tzero\tunsigned";
static const char *const WIDE = "int\t8\tBE\t0\t64\tzero\tzero\tunsigned";
static const char *const SIGNED_WIDE = "int\t8\tLE\t0\t64\tzero\tzero\tsigned";
static const char *const ODD = "int\t7\tBE\t5\t47\tone\tkeep\tsigned";
static const char *const WIDE_BITS = "bits\t8\tBE\t1\t63\tkeep\tone";
static const char *const REAL = "real\t8\tLE";
static const char *const OTHER_REAL = "real\t8\tBE";

static void array_of(Sheet *s, const char *base, int n) { numbered(s, "array\t%d\t%d", type(s, base), n); }

/* Arrays of arrays, as deep as 64 types allow. */
static void deep_arrays(Sheet *s, const char *base, int n) {
    array_of(s, base, n);
    while (s->types < 64) numbered(s, "array\t%d\t1\t1\t1\t1", s->types - 1, 0);
}

/* Compounds of compounds, likewise, each with a leaf of its own before or behind the one in it: 64 leaves. The last has this size. */
static void deep_compounds(Sheet *s, const char *base, int leaf, int before, int size) {
    int inner = type(s, base), depth;
    for (depth = 1; depth < 64; depth++) {
        int outer = numbered(s, "comp\t%d", depth == 63 ? size : (depth + 1) * leaf, 0);
        named(s, "member", 0, before ? leaf : 0, inner);
        named(s, "member", 1, before ? 0 : depth * leaf, 0);
        inner = outer;
    }
}

/* Arrays of compounds of arrays, likewise. The last is an array of n: so many leaves. */
static void deep_mixed(Sheet *s, const char *base, int n) {
    int inner = type(s, base);
    while (s->types < 63) {
        if (s->types % 2) {
            inner = numbered(s, "comp\t%d", 1, 0);
            named(s, "member", 0, 0, inner - 1);
        } else
            inner = numbered(s, "array\t%d\t1", inner, 0);
    }
    numbered(s, "array\t%d\t%d", inner, n);
}

/* 16 members in each of three compounds: 4,096 leaves of one byte, the members of the outermost backwards if said. */
static void wide_compounds(Sheet *s, const char *base, int backwards) {
    int inner = type(s, base), size = 1, depth, i;
    for (depth = 0; depth < 3; depth++) {
        int outer = numbered(s, "comp\t%d", 16 * size, 0);
        for (i = 0; i < 16; i++) named(s, "member", backwards ? 15 - i : i, i * size, inner);
        inner = outer;
        size *= 16;
    }
}

/* An array of an enum whose symbols from `first` on are numbered first * step on by step. */
static void enum_array(Sheet *s, const char *base, int first, int symbols, int step, int n) {
    int i, e = numbered(s, "enum\t%d", type(s, base), 0);
    for (i = first; i < symbols; i++) named(s, "value", i, i * step, -1);
    numbered(s, "array\t%d\t%d", e, n);
}

/* Compounds of compounds over an enum, as deep as 64 types allow. The last has this size. */
static void deep_enum(Sheet *s, int symbols, int size) {
    int i, inner = numbered(s, "enum\t%d", type(s, BYTE), 0);
    for (i = 0; i < symbols; i++) named(s, "value", i, i, -1);
    while (s->types < 64) {
        int outer = numbered(s, "comp\t%d", s->types == 63 ? size : 1, 0);
        named(s, "member", 0, 0, inner);
        inner = outer;
    }
}

/* A compound of 62 enums of two far symbols each. */
static void many_enums(Sheet *s, int far, int size) {
    int e, b = type(s, BYTE);
    for (e = 0; e < 62; e++) {
        numbered(s, "enum\t%d", b, 0);
        named(s, "value", 0, 0, -1);
        named(s, "value", 1, far, -1);
    }
    numbered(s, "comp\t%d", size, 0);
    for (e = 0; e < 62; e++) named(s, "member", e, e, e + 1);
}

/* A record of 4,096 bytes, of which one byte has the name that a small one has. */
static void one_of_many(Sheet *s, const char *base, int others) {
    int b = type(s, base), i;
    int array = numbered(s, "array\t%d\t%d", b, 32);
    numbered(s, "comp\t%d", others ? RECORD_MOST : 1, 0);
    named(s, "member", 0, others ? RECORD_MOST - 1 : 0, b);
    for (i = 0; i < others; i++) named(s, "member", i + 1, 32 * i, array);
}

/* A leaf of every kind and an array of the first; the last has this size. */
static void every_kind(Sheet *s, const char *const leaves[5], const char *base, int step, int size) {
    int types[7], i, at = 0, b;
    for (i = 0; i < 5; i++) types[i] = type(s, leaves[i]);
    b = type(s, base);
    types[5] = numbered(s, "enum\t%d", b, 0);
    for (i = 0; i < 3; i++) named(s, "value", i, i * step, -1);
    types[6] = numbered(s, "array\t%d\t%d", types[0], 3);
    numbered(s, "comp\t%d", size, 0);
    for (i = 0; i < 7; i++) named(s, "member", i, at, types[i]), at += i < 5 ? 8 : 2;
}

/* ---- pairs of sheets */

typedef struct {
    char name[64];
    Sheet from, to;
    int stops; /* records of bytes 255 have a number that does not fit; where the words are both, also in a member that says stop */
    int is_wide; /* an int of the destination has more bits than a report takes */
    Words words; /* of both sheets; the source's have no effect */
} Pair;

static Pair pairs[72];
static int pair_count;

static Pair *pair(const char *name, int stops) {
    static const char *const ends[] = {"", ", clamp", ", stop", ", clamp and stop"};
    Pair *p = &pairs[pair_count++];
    snprintf(p->name, sizeof p->name, "%s%s", name, ends[words]);
    p->stops = stops;
    p->words = words;
    return p;
}

static void fill_every_kind(Pair *p, int from_size, int to_size) {
    const char *many[5], *others[5];
    many[0] = PAIR, many[1] = WIDE, many[2] = WIDE_BITS, many[3] = REAL, many[4] = WIDE;
    others[0] = SIGNED_BYTE, others[1] = FOUR, others[2] = BITS, others[3] = KEPT, others[4] = OTHER_REAL;
    every_kind(&p->from, many, BYTE, 1, from_size), every_kind(&p->to, others, PAIR, 7, to_size);
}

static void make_pairs(void) {
    Pair *p;
    p = pair("one byte", 1), type(&p->from, BYTE), type(&p->to, SIGNED_BYTE);
    p = pair("one easy byte, growing", 0), type(&p->from, BYTE), type(&p->to, WIDE), p->is_wide = 1;
    p = pair("one easy byte, growing to 4", 0), type(&p->from, BYTE), type(&p->to, FOUR);
    p = pair("128 leaves", 1), array_of(&p->from, BYTE, 128), array_of(&p->to, SIGNED_BYTE, 128);
    p = pair("64 leaves, growing", 1), array_of(&p->from, SIGNED_BYTE, 64), array_of(&p->to, PAIR, 64);
    p = pair("128 leaves, shrinking", 1), array_of(&p->from, SIGNED_PAIR, 128), array_of(&p->to, BYTE, 128);
    p = pair("64 leaves with kept pads", 1), array_of(&p->from, BYTE, 64), array_of(&p->to, KEPT, 64);
    p = pair("128 flags", 0), array_of(&p->from, BITS, 128), array_of(&p->to, BITS, 128);
    p = pair("arrays 63 deep, 128 leaves", 1), deep_arrays(&p->from, BYTE, 128), deep_arrays(&p->to, SIGNED_BYTE, 128);
    p = pair("compounds 63 deep, 64 leaves", 1), deep_compounds(&p->from, BYTE, 1, 0, 64), deep_compounds(&p->to, SIGNED_BYTE, 1, 1, 64);
    p = pair("compounds 63 deep, growing to 128", 1), deep_compounds(&p->from, SIGNED_BYTE, 1, 0, 64), deep_compounds(&p->to, PAIR, 2, 1, 128);
    p = pair("arrays and compounds 63 deep", 1), deep_mixed(&p->from, BYTE, 128), deep_mixed(&p->to, SIGNED_BYTE, 128);
    p = pair("1 byte of 4,096", 1), one_of_many(&p->from, BYTE, 127), one_of_many(&p->to, SIGNED_BYTE, 0);
    p = pair("128 enums of 256 symbols", 1), enum_array(&p->from, BYTE, 0, 255, 1, 128), enum_array(&p->to, BYTE, 0, 256, 1, 128);
    p = pair("16 enums of 256 far symbols", 1), enum_array(&p->from, WIDE, 0, 256, 8000000, 16), enum_array(&p->to, WIDE, 0, 256, 7000000, 16);
    p = pair("an enum 62 compounds deep", 1), deep_enum(&p->from, 100, 1), deep_enum(&p->to, 101, 128);
    p = pair("62 enums that differ", 1), many_enums(&p->from, 254, 62), many_enums(&p->to, 253, 62);
    p = pair("16 ints to doubles", 1), array_of(&p->from, WIDE, 16), array_of(&p->to, REAL, 16);
    p = pair("128 doubles to bytes", 1), array_of(&p->from, REAL, 128), array_of(&p->to, BYTE, 128);
    p = pair("129 leaves", 1), array_of(&p->from, BYTE, 129), array_of(&p->to, SIGNED_BYTE, 129);
    p = pair("4,096 leaves", 1), array_of(&p->from, BYTE, 4096), array_of(&p->to, SIGNED_BYTE, 4096);
    p = pair("2,048 leaves, growing", 1), array_of(&p->from, SIGNED_BYTE, 2048), array_of(&p->to, PAIR, 2048);
    p = pair("2,048 leaves, shrinking", 1), array_of(&p->from, SIGNED_PAIR, 2048), array_of(&p->to, BYTE, 2048);
    p = pair("2,048 leaves with kept pads", 1), array_of(&p->from, BYTE, 2048), array_of(&p->to, KEPT, 2048);
    p = pair("arrays 63 deep, 4,096 leaves", 1), deep_arrays(&p->from, BYTE, 4096), deep_arrays(&p->to, SIGNED_BYTE, 4096);
    p = pair("compounds 63 deep in 4,096", 1), deep_compounds(&p->from, BYTE, 1, 0, 64), deep_compounds(&p->to, SIGNED_BYTE, 1, 1, 4096);
    p = pair("arrays and compounds 63 deep, 4,096", 1), deep_mixed(&p->from, BYTE, 4096), deep_mixed(&p->to, SIGNED_BYTE, 4096);
    p = pair("compounds of 4,096 leaves", 1), wide_compounds(&p->from, BYTE, 0), wide_compounds(&p->to, SIGNED_BYTE, 1);
    p = pair("4,096 enums of 256 symbols", 1), enum_array(&p->from, BYTE, 0, 255, 1, 4096), enum_array(&p->to, BYTE, 0, 256, 1, 4096);
    p = pair("512 enums of 256 far symbols", 1), enum_array(&p->from, WIDE, 0, 256, 8000000, 512), enum_array(&p->to, WIDE, 0, 256, 7000000, 512);
    p = pair("an enum 62 compounds deep in 4,096", 1), deep_enum(&p->from, 100, 1), deep_enum(&p->to, 101, 4096);
    p = pair("512 ints to doubles", 1), array_of(&p->from, WIDE, 512), array_of(&p->to, REAL, 512);
    p = pair("512 doubles of the other order", 0), array_of(&p->from, REAL, 512), array_of(&p->to, OTHER_REAL, 512);
    p = pair("a wide number", 1), type(&p->from, WIDE), type(&p->to, SIGNED_WIDE), p->is_wide = 1;
    p = pair("16 wide numbers", 1), array_of(&p->from, WIDE, 16), array_of(&p->to, SIGNED_WIDE, 16), p->is_wide = 1;
    p = pair("512 wide numbers", 1), array_of(&p->from, WIDE, 512), array_of(&p->to, SIGNED_WIDE, 512), p->is_wide = 1;
    p = pair("512 wide numbers to odd ones", 1), array_of(&p->from, WIDE, 512), array_of(&p->to, ODD, 512), p->is_wide = 1;
    p = pair("wide flags", 1), array_of(&p->from, WIDE_BITS, 2), array_of(&p->to, BITS, 2);
    p = pair("two doubles to bytes", 1), array_of(&p->from, REAL, 2), array_of(&p->to, BYTE, 2);
    p = pair("an enum", 1), enum_array(&p->from, BYTE, 0, 9, 1, 1), enum_array(&p->to, PAIR, 0, 9, 3, 1);
    p = pair("a leaf of every kind", 1), fill_every_kind(p, 128, 128);
    p = pair("a leaf of every kind from 4,096", 1), fill_every_kind(p, 4096, 128);
    p = pair("a leaf of every kind in 4,096", 1), fill_every_kind(p, 128, 4096);
    p = pair("62 enums that differ in 4,096", 1), many_enums(&p->from, 254, 62), many_enums(&p->to, 253, 4096);
}

/* Pairs whose members have words. */
static void make_worded_pairs(void) {
    Pair *p;
    p = pair("compounds 63 deep", 1), deep_compounds(&p->from, BYTE, 1, 0, 64), deep_compounds(&p->to, SIGNED_BYTE, 1, 1, 64);
    p = pair("compounds 63 deep, growing", 1), deep_compounds(&p->from, SIGNED_BYTE, 1, 0, 64), deep_compounds(&p->to, PAIR, 2, 1, 128);
    p = pair("compounds 63 deep in 4,096", 1), deep_compounds(&p->from, BYTE, 1, 0, 64), deep_compounds(&p->to, SIGNED_BYTE, 1, 1, 4096);
    p = pair("4,096 leaves", 1), wide_compounds(&p->from, BYTE, 0), wide_compounds(&p->to, SIGNED_BYTE, 1);
    p = pair("62 enums", 1), many_enums(&p->from, 254, 62), many_enums(&p->to, 253, 62);
    p = pair("62 enums in 4,096", 1), many_enums(&p->from, 254, 62), many_enums(&p->to, 253, 4096);
    p = pair("every kind", 1), fill_every_kind(p, 128, 128);
    p = pair("every kind in 4,096", 1), fill_every_kind(p, 128, 4096);
    if (words == BOTH_WORDS) return; /* the members of the last have one name, and so one word */
    p = pair("arrays and compounds 63 deep", 1), deep_mixed(&p->from, BYTE, 128), deep_mixed(&p->to, SIGNED_BYTE, 128);
}

/* ---- calls */

typedef enum {
    COPYING,
    COPYING_PLAIN,
    IN_PLACE,
    IN_PLACE_PLAIN,
    REPORT,
    COMPARE,
    REACH,
    LIST,
    SIZE,
    SET_SIZE,
    SET_FIELD,
    SET_ORDER,
    SET_PADS,
    SET_SIGN,
    NONE
} Form;

static const char *const forms[] = {"copying",  "copying, plain", "in place",  "in place, plain", "report",   "compare", "reach", "list", "size",
                                    "set size", "set field",      "set order", "set pads",        "set sign", "nothing"};

typedef struct {
    Form form;
    const char *what;
    const char *from, *to;
    size_t from_len, to_len, lent, room, words, table_len; /* bytes lent of the first log; words of a report's memory */
    uint64_t count;
    uint32_t handling; /* of a setter, its argument */
    uint32_t number;   /* that the call answers */
    size_t most;       /* of stack */
} Call;

static uint8_t source[LOG_BYTES], place[LOG_BYTES], background[LOG_BYTES], list[YIRVAGUL_LIST_BYTES];
static uint8_t output[YIRVAGUL_REPORT_BYTES], differences[YIRVAGUL_COMPARE_HEADER_BYTES + LOG_BYTES * YIRVAGUL_COMPARE_LINE_BYTES];
static int64_t memory[YIRVAGUL_REPORT_WORDS], held; /* held: the records of the report at entry */
static uint32_t table[YIRVAGUL_TABLE_WORDS];
static uint64_t answer[8];
static uint32_t layout[8];

static uint32_t run(const Call *c) {
    const uint8_t *from = (const uint8_t *)c->from, *to = (const uint8_t *)c->to;
    switch (c->form) {
    case COPYING:
        return yirvagul_convert_copying(from, c->from_len, to, c->to_len, c->count, c->handling, source, sizeof source, place, c->room, table,
                                        c->table_len, answer);
    case COPYING_PLAIN:
        return yirvagul_convert_copying_plain(from, c->from_len, to, c->to_len, c->count, source, sizeof source, place, c->room, table, c->table_len,
                                              answer);
    case IN_PLACE:
        return yirvagul_convert_in_place(from, c->from_len, to, c->to_len, c->count, c->handling, place, c->room, background, sizeof background, table,
                                         c->table_len, answer);
    case IN_PLACE_PLAIN:
        return yirvagul_convert_in_place_plain(from, c->from_len, to, c->to_len, c->count, place, c->room, background, sizeof background, table,
                                               c->table_len, answer);
    case REPORT:
        return yirvagul_report(from, c->from_len, to, c->to_len, c->count, place, sizeof place, background, sizeof background, memory, c->words, output,
                               c->room, table, c->table_len, answer);
    case COMPARE: /* the second log is of bytes 0 */
        return yirvagul_compare(from, c->from_len, to, c->to_len, c->count, source, c->lent, background, sizeof background, differences, c->room,
                                table, c->table_len, answer);
    case REACH: return yirvagul_reach(from, c->from_len, to, c->to_len, place, c->room, table, c->table_len, answer);
    case LIST: return yirvagul_leaf_list(from, c->from_len, list, c->room, table, c->table_len, answer);
    case SIZE: return yirvagul_record_size(from, c->from_len, table, c->table_len, answer);
    case SET_SIZE: return yirvagul_set_size(layout, c->handling);
    case SET_FIELD: return yirvagul_set_field(layout, c->handling, c->handling);
    case SET_ORDER: return yirvagul_set_order(layout, c->handling);
    case SET_PADS: return yirvagul_set_pads(layout, c->handling, c->handling);
    case SET_SIGN: return yirvagul_set_sign(layout, c->handling);
    case NONE: return 0;
    }
    return 0;
}

/* ---- threads */

static const Call *running;
static uint32_t returned;
static uint8_t *frame;
static uint8_t signal_stack[1 << 16];

static void *thread(void *unused_argument) {
    stack_t s;
    uint8_t here = 0;
    (void)unused_argument;
    memset(&s, 0, sizeof s);
    s.ss_sp = signal_stack;
    s.ss_size = sizeof signal_stack;
    sigaltstack(&s, NULL);
    frame = &here;
    returned = run(running);
    return NULL;
}

static void say(const char *text) {
    if (write(STDOUT_FILENO, text, strlen(text)) < 0) _exit(2);
}

static void overflow(int number) {
    (void)number;
    say("failed: ");
    say(forms[running->form]);
    say(", ");
    say(running->what);
    say(": it ran out of the stack that the header says\n");
    _exit(1);
}

static void must(int holds, const char *what) {
    if (!holds) {
        printf("failed: no %s here\n", what);
        exit(1);
    }
}

/* Runs a call on a thread whose stack is `size` bytes from `stack` on. */
static void run_on(const Call *c, uint8_t *stack, size_t size) {
    pthread_attr_t a;
    pthread_t t;
    static const uint32_t start[8] = {YIRVAGUL_INT, 4, YIRVAGUL_LE, 16, 16, 0, 0, YIRVAGUL_UNSIGNED};
    memcpy(layout, start, sizeof layout);
    memcpy(place, source, sizeof place);
    memset(memory, 0, sizeof memory);
    memory[YIRVAGUL_REPORT_RECORDS] = held;
    running = c;
    must(pthread_attr_init(&a) == 0 && pthread_attr_setstack(&a, stack, size) == 0, "thread with a stack of its own");
    must(pthread_create(&t, &a, thread, NULL) == 0 && pthread_join(t, NULL) == 0, "thread with a stack of its own");
    pthread_attr_destroy(&a);
}

static uint8_t *stack; /* PAINTED bytes, above a guard */
static size_t own;     /* what a thread takes that makes no call */
static int failed, talks;

/* The lowest byte that a call on the painted stack changes. */
static uint8_t *lowest(const Call *c) {
    uint8_t *p = stack;
    memset(stack, PAINT, PAINTED);
    run_on(c, stack, PAINTED);
    while (p < stack + PAINTED && *p == PAINT) p++;
    return p;
}

static void expect(Call c, uint32_t number, size_t most) {
    uint8_t *low;
    size_t taken;
    c.number = number;
    c.most = most;
    low = lowest(&c);
    taken = low < frame ? (size_t)(frame - low) : 0;
    if (talks) printf("%-16s %-36s %-12s %7lu of %lu\n", forms[c.form], c.what, yirvagul_name(returned), (unsigned long)taken, (unsigned long)most);
    if (returned == number && taken <= most) run_on(&c, stack, most + own);
    if (returned != number) {
        printf("failed: %s, %s: answered %s where %s was due\n", forms[c.form], c.what, yirvagul_name(returned), yirvagul_name(number));
        failed = 1;
    }
    if (taken > most) {
        printf("failed: %s, %s: %s took %lu bytes of stack, and %lu is the most\n", forms[c.form], c.what, yirvagul_name(returned), (unsigned long)taken,
               (unsigned long)most);
        failed = 1;
    }
}

static Call call(Form form, const char *what, const Sheet *from, const Sheet *to) {
    Call c;
    memset(&c, 0, sizeof c);
    c.form = form;
    c.what = what;
    c.from = from->text;
    c.from_len = strlen(from->text);
    c.to = to->text;
    c.to_len = strlen(to->text);
    c.room = form == LIST ? sizeof list : form == REPORT ? sizeof output : form == COMPARE ? sizeof differences : sizeof place;
    c.words = YIRVAGUL_REPORT_WORDS;
    c.table_len = YIRVAGUL_TABLE_WORDS;
    c.lent = sizeof source;
    c.count = 1;
    return c;
}

static int takes_handling(Form f) { return f == COPYING || f == IN_PLACE; }

static int is_plain(Form f) { return f == COPYING_PLAIN || f == IN_PLACE_PLAIN; }

/* ---- tests */

static size_t size_of(const Sheet *s) {
    must(yirvagul_record_size((const uint8_t *)s->text, strlen(s->text), table, YIRVAGUL_TABLE_WORDS, answer) == YIRVAGUL_DONE, "valid sheet");
    return (size_t)answer[YIRVAGUL_ANSWER_COUNT];
}

static size_t most_of(const Pair *p) { return size_of(&p->to) <= SMALL_RECORD ? YIRVAGUL_SMALL_STACK_BYTES : YIRVAGUL_STACK_BYTES; }

/* As many records as there is room for, several blocks at most. */
static uint64_t records_of(const Pair *p) {
    size_t from = size_of(&p->from), to = size_of(&p->to), records = LOG_BYTES / (from < to ? to : from);
    return records < RECORDS_MOST ? records : RECORDS_MOST;
}

/* A log of bytes 0, of bytes 255, or of bytes 0 but for its last record. */
static void fill(const Pair *p, uint64_t records, int high) {
    size_t size = size_of(&p->from), last = (size_t)(records - 1) * size;
    memset(source, high == 1 ? 255 : 0, sizeof source);
    if (high == 2) memset(source + last, 255, size);
}

/* Whether a number that does not fit stops a call, by a word or by the call itself. */
static int is_stopped(const Pair *p, const Call *c) { return p->words == NO_WORD ? c->handling || is_plain(c->form) : p->words != ALL_CLAMP; }

/* Every form, of records that fit and of records that may not; and checks 5 to 7. */
static void test_converting(const Pair *p) {
    size_t most = most_of(p);
    int form, high, handling;
    for (form = COPYING; form <= IN_PLACE_PLAIN; form++) {
        Call c = call((Form)form, p->name, &p->from, &p->to), other;
        c.count = records_of(p);
        for (high = 0; high < 3; high++) {
            fill(p, c.count, high);
            for (handling = 0; handling <= takes_handling(c.form); handling++) {
                c.handling = (uint32_t)handling;
                expect(c, high && p->stops && is_stopped(p, &c) ? YIRVAGUL_STOP : YIRVAGUL_DONE, most);
            }
        }
        other = c, other.count = 65537, expect(other, YIRVAGUL_COUNT, most);
        other = c, other.room = 0, expect(other, YIRVAGUL_ROOM, most);
    }
}

/* The report of records that fit and of records that may not; and checks 10, 5 to 7 and 11. */
static void test_report(const Pair *p) {
    size_t most = most_of(p);
    Call c = call(REPORT, p->name, &p->from, &p->to), other;
    int high;
    c.count = records_of(p);
    for (high = 0; high < 3; high++) {
        fill(p, c.count, high);
        expect(c, p->is_wide ? YIRVAGUL_CHANNEL : YIRVAGUL_DONE, most);
    }
    if (p->is_wide) return;
    other = c, other.count = 65537, expect(other, YIRVAGUL_COUNT, most);
    other = c, other.words = 1, expect(other, YIRVAGUL_ROOM, most);
    other = c, other.room = 0, expect(other, YIRVAGUL_ROOM, most);
    held = -1, expect(c, YIRVAGUL_FULL, most), held = 0;
}

/* Two logs that are the same and two that differ, where the first's records may have numbers that the second's have not; and checks 5 to 7. */
static void test_compare(const Pair *p) {
    size_t most = most_of(p);
    Call c = call(COMPARE, p->name, &p->from, &p->to), other;
    int high;
    c.count = records_of(p);
    for (high = 0; high < 3; high++) {
        fill(p, c.count, high);
        expect(c, YIRVAGUL_DONE, most);
        other = c, other.room = YIRVAGUL_COMPARE_HEADER_BYTES, expect(other, high ? YIRVAGUL_ROOM : YIRVAGUL_DONE, most);
    }
    other = c, other.count = 65537, expect(other, YIRVAGUL_COUNT, most);
    other = c, other.lent = 0, expect(other, YIRVAGUL_ROOM, most);
    other = c, other.room = 0, expect(other, YIRVAGUL_ROOM, most);
}

/* The mask, and checks 12 and 7. */
static void test_reach(const Pair *p) {
    Call c = call(REACH, p->name, &p->from, &p->to);
    uint32_t number = run(&c);
    must(number == YIRVAGUL_DONE || number == YIRVAGUL_SYMBOLS, "two sheets with a path");
    expect(c, number, YIRVAGUL_SMALL_STACK_BYTES);
    c.room = size_of(&p->from) - 1;
    expect(c, number == YIRVAGUL_SYMBOLS ? number : YIRVAGUL_ROOM, YIRVAGUL_SMALL_STACK_BYTES);
}

/* Checks 1 to 4, with faults in the last lines of the deepest sheets. */
static void test_refused(const Pair *p) {
    static Sheet faulty;
    int form;
    memcpy(&faulty, &p->from, sizeof faulty);
    line(&faulty, "member\tx\t0\t0");
    line(&faulty, "array\t0\t0");
    for (form = COPYING; form <= SIZE; form++) {
        Call c = call((Form)form, p->name, &p->from, &p->to), other;
        other = c, other.table_len--, expect(other, YIRVAGUL_TABLE, REFUSED_STACK_BYTES);
        other = c, other.from = faulty.text, other.from_len = strlen(faulty.text), expect(other, YIRVAGUL_SOURCE, REFUSED_STACK_BYTES);
        other = c, other.from_len = SHEET_MOST + 1, expect(other, YIRVAGUL_SOURCE, REFUSED_STACK_BYTES);
        if (takes_handling(c.form)) other = c, other.handling = 2, expect(other, YIRVAGUL_HANDLING, REFUSED_STACK_BYTES);
        if (form <= REACH) other = c, other.to = faulty.text, other.to_len = strlen(faulty.text), expect(other, YIRVAGUL_DESTINATION, REFUSED_STACK_BYTES);
    }
}

static void test_sheet(const char *name, const Sheet *s) {
    Call c = call(LIST, name, s, s);
    expect(c, YIRVAGUL_DONE, YIRVAGUL_SMALL_STACK_BYTES);
    c.room = 0;
    expect(c, YIRVAGUL_ROOM, YIRVAGUL_SMALL_STACK_BYTES);
    expect(call(SIZE, name, s, s), YIRVAGUL_DONE, YIRVAGUL_SMALL_STACK_BYTES);
}

static void test_no_path(const char *name, void (*deep)(Sheet *, const char *, int), int n, size_t most) {
    static Sheet from, to;
    int form;
    memset(&from, 0, sizeof from);
    memset(&to, 0, sizeof to);
    deep(&from, BYTE, n);
    deep(&to, BITS, n);
    for (form = COPYING; form <= REACH; form++) expect(call((Form)form, name, &from, &to), YIRVAGUL_PATH, form == REACH ? YIRVAGUL_SMALL_STACK_BYTES : most);
}

/* Check 12, which a comparison has not. */
static void test_lost_symbol(const char *name, int size, size_t most) {
    static Sheet from, to;
    int form;
    memset(&from, 0, sizeof from);
    memset(&to, 0, sizeof to);
    deep_enum(&from, 101, 1);
    deep_enum(&to, 100, size);
    for (form = COPYING; form <= COMPARE; form++) expect(call((Form)form, name, &from, &to), form == COMPARE ? YIRVAGUL_DONE : YIRVAGUL_SYMBOLS, most);
    expect(call(REACH, name, &from, &to), YIRVAGUL_SYMBOLS, YIRVAGUL_SMALL_STACK_BYTES);
}

static void test_setters(void) {
    static const Sheet none;
    static const uint32_t good[] = {3, 32, 1, 2, 1};
    int form;
    for (form = SET_SIZE; form <= SET_SIGN; form++) {
        Call c = call((Form)form, "a setter", &none, &none);
        c.handling = good[form - SET_SIZE];
        expect(c, YIRVAGUL_DONE, YIRVAGUL_SMALL_STACK_BYTES);
        c.handling = 4294967295u;
        expect(c, YIRVAGUL_RANGE, YIRVAGUL_SMALL_STACK_BYTES);
    }
}

int main(int argc, char **argv) {
    static const Sheet none;
    Call nothing = call(NONE, "nothing", &none, &none);
    struct sigaction s;
    uint8_t *mapped = mmap(NULL, GUARD + PAINTED, PROT_READ | PROT_WRITE, MAP_PRIVATE | MAP_ANONYMOUS, -1, 0);
    int i;
    (void)argv;
    must(mapped != MAP_FAILED && mprotect(mapped, GUARD, PROT_NONE) == 0, "memory for a stack");
    stack = mapped + GUARD;
    talks = argc > 1;
    memset(&s, 0, sizeof s);
    s.sa_handler = overflow;
    s.sa_flags = SA_ONSTACK;
    must(sigaction(SIGSEGV, &s, NULL) == 0 && sigaction(SIGBUS, &s, NULL) == 0, "signal handler");
    lowest(&nothing); /* the first thread binds what threads call */
    own = (size_t)(stack + PAINTED - lowest(&nothing) + 63) / 64 * 64;
    if (talks) printf("a thread by itself takes %lu\n", (unsigned long)own);
    make_pairs();
    for (i = ALL_CLAMP; i <= BOTH_WORDS; i++) words = (Words)i, make_worded_pairs();
    words = NO_WORD;
    for (i = 0; i < pair_count; i++) {
        test_converting(&pairs[i]);
        test_report(&pairs[i]);
        test_compare(&pairs[i]);
        test_reach(&pairs[i]);
        test_refused(&pairs[i]);
        test_sheet(pairs[i].name, &pairs[i].from);
        test_sheet(pairs[i].name, &pairs[i].to);
    }
    test_no_path("no path, 128", deep_arrays, 128, YIRVAGUL_SMALL_STACK_BYTES);
    test_no_path("no path, 4,096", deep_arrays, 4096, YIRVAGUL_STACK_BYTES);
    test_lost_symbol("a lost symbol, 128", 128, YIRVAGUL_SMALL_STACK_BYTES);
    test_lost_symbol("a lost symbol, 4,096", 4096, YIRVAGUL_STACK_BYTES);
    test_setters();
    return failed;
}
