/* Calls every function of the header, with each number that it answers. */
#include <stdio.h>
#include <string.h>

#include "yirvagul.h"

#define BYTE "int\t1\tLE\t0\t8\tzero\tzero\tunsigned\n"
#define SIGNED_BYTE "int\t1\tLE\t0\t8\tzero\tzero\tsigned\n"
#define PAIR "int\t2\tBE\t0\t16\tzero\tzero\tunsigned\n"
#define BITS "bits\t1\tLE\t0\t8\tzero\tzero\n"
#define WIDEST "int\t8\tBE\t0\t64\tzero\tzero\tunsigned\n"
#define SIGNED_WIDEST "int\t8\tBE\t0\t64\tzero\tzero\tsigned\n"
#define REAL "real\t8\tBE\n"

static uint32_t table[YIRVAGUL_TABLE_WORDS + 1];
static uint64_t answer[8];
static int failed;

static void expect(int holds, const char *what) {
    if (!holds) {
        printf("failed: %s\n", what);
        failed = 1;
    }
}

static void expect_words(uint32_t returned, const uint64_t wanted[8], const char *what) {
    expect(returned == wanted[YIRVAGUL_ANSWER_NUMBER] && memcmp(wanted, answer, sizeof answer) == 0, what);
    memset(answer, 0xee, sizeof answer);
}

/* The answer, which is no STOP, is these words, and the call returned the first of them. */
static void expect_answer(uint32_t returned, uint64_t number, uint64_t count, uint64_t line, uint64_t record, uint64_t at, uint64_t kind,
                          const char *what) {
    uint64_t wanted[8] = {0};
    wanted[YIRVAGUL_ANSWER_NUMBER] = number;
    wanted[YIRVAGUL_ANSWER_COUNT] = count;
    wanted[YIRVAGUL_ANSWER_LINE] = line;
    wanted[YIRVAGUL_ANSWER_RECORD] = record;
    wanted[YIRVAGUL_ANSWER_AT] = at;
    wanted[YIRVAGUL_ANSWER_KIND] = kind;
    expect_words(returned, wanted, what);
}

/* The answer is STOP, for this number. */
static void expect_stop(uint32_t returned, uint64_t record, uint64_t at, uint64_t kind, uint64_t given, uint64_t magnitude, const char *what) {
    uint64_t wanted[8] = {0};
    wanted[YIRVAGUL_ANSWER_NUMBER] = YIRVAGUL_STOP;
    wanted[YIRVAGUL_ANSWER_RECORD] = record;
    wanted[YIRVAGUL_ANSWER_AT] = at;
    wanted[YIRVAGUL_ANSWER_KIND] = kind;
    wanted[YIRVAGUL_ANSWER_GIVEN] = given;
    wanted[YIRVAGUL_ANSWER_MAGNITUDE] = magnitude;
    expect_words(returned, wanted, what);
}

static void expect_bytes(const uint8_t *found, const char *wanted, size_t len, const char *what) { expect(memcmp(found, wanted, len) == 0, what); }

static uint32_t copying(const char *from, const char *to, uint64_t count, uint32_t handling, const char *source, size_t source_len, uint8_t *destination,
                        size_t destination_len) {
    return yirvagul_convert_copying((const uint8_t *)from, strlen(from), (const uint8_t *)to, strlen(to), count, handling, (const uint8_t *)source,
                                    source_len, destination, destination_len, table, YIRVAGUL_TABLE_WORDS, answer);
}

static uint32_t copying_plain(const char *from, const char *to, uint64_t count, const char *source, size_t source_len, uint8_t *destination,
                              size_t destination_len) {
    return yirvagul_convert_copying_plain((const uint8_t *)from, strlen(from), (const uint8_t *)to, strlen(to), count, (const uint8_t *)source, source_len,
                                          destination, destination_len, table, YIRVAGUL_TABLE_WORDS, answer);
}

static uint32_t in_place_plain(const char *from, const char *to, uint64_t count, uint8_t *buffer, size_t buffer_len, const uint8_t *background,
                               size_t background_len) {
    return yirvagul_convert_in_place_plain((const uint8_t *)from, strlen(from), (const uint8_t *)to, strlen(to), count, buffer, buffer_len, background,
                                           background_len, table, YIRVAGUL_TABLE_WORDS, answer);
}

static void test_copying(void) {
    uint8_t out[3] = {0x77, 0x77, 0x77};
    expect_answer(copying(BYTE, SIGNED_BYTE, 2, YIRVAGUL_CLAMP, "\xff\x05", 2, out, 3), 0, 1, 0, 0, 0, 0, "copying, one clamped");
    expect_bytes(out, "\x7f\x05\x77", 3, "copied bytes, and none past them");
    memset(out, 0x77, 3);
    expect_answer(copying(BYTE, SIGNED_BYTE, 2, 2, "\xff\x05", 2, out, 3), 1, 0, 0, 0, 0, 0, "HANDLING");
    expect_answer(copying("int\t9\n", SIGNED_BYTE, 2, 0, "\xff\x05", 2, out, 3), 3, 0, 1, 0, 0, 0, "SOURCE");
    expect_answer(copying(BYTE, BYTE "x\n", 2, 0, "\xff\x05", 2, out, 3), 4, 0, 2, 0, 0, 0, "DESTINATION");
    expect_answer(copying(BYTE, BITS, 2, 0, "\xff\x05", 2, out, 3), 5, 0, 0, 0, 0, 0, "PATH");
    expect_answer(copying(BYTE, SIGNED_BYTE, 65537, 0, "\xff\x05", 2, out, 3), 6, 0, 0, 0, 0, 0, "COUNT");
    expect_answer(copying(BYTE, SIGNED_BYTE, 3, 0, "\xff\x05", 2, out, 3), 7, 0, 0, 0, 0, 0, "ROOM");
    expect_stop(copying(BYTE, SIGNED_BYTE, 2, YIRVAGUL_STOP_FIRST, "\x05\xff", 2, out, 3), 1, 0, YIRVAGUL_ABOVE, YIRVAGUL_GIVEN_PLUS, 255, "STOP");
    expect_bytes(out, "\x77\x77\x77", 3, "a refusal leaves the destination");
    expect_answer(copying(SIGNED_BYTE, PAIR, 1, YIRVAGUL_CLAMP, "\xff", 1, out, 3), 0, 1, 0, 0, 0, 0, "copying, clamped from below");
    expect_bytes(out, "\x00\x00\x77", 3, "copied bytes, clamped from below");
}

static void test_in_place(void) {
    uint8_t buffer[4] = {0x0a, 0x0b, 0x77, 0x77};
    const uint8_t background[4] = {0, 0, 0, 0};
    expect_answer(yirvagul_convert_in_place((const uint8_t *)BYTE, strlen(BYTE), (const uint8_t *)PAIR, strlen(PAIR), 2, YIRVAGUL_STOP_FIRST, buffer, 4,
                                            background, 4, table, YIRVAGUL_TABLE_WORDS, answer),
                  0, 0, 0, 0, 0, 0, "in place");
    expect_bytes(buffer, "\x00\x0a\x00\x0b", 4, "grown in place");
    expect_answer(in_place_plain(PAIR, BYTE, 2, buffer, 4, background, 4), 0, 0, 0, 0, 0, 0, "in place, plain");
    expect_bytes(buffer, "\x0a\x0b\x00\x00", 4, "shrunk in place, with a cleared tail");
    expect_answer(yirvagul_convert_in_place((const uint8_t *)BYTE, strlen(BYTE), (const uint8_t *)PAIR, strlen(PAIR), 2, 0, buffer, 3, background, 4,
                                            table, YIRVAGUL_TABLE_WORDS, answer),
                  7, 0, 0, 0, 0, 0, "ROOM, in place");
}

/* Logs of 300 records, against what their bytes say: a pressure of 12 bits in the top of two bytes, and a signed byte; the byte in two, a gap, and the
 * pressure in 10 bits between kept ones. */
enum { MANY = 300, SHORT_BYTES = 3, LONG_BYTES = 5 };
#define SHORT_SHEET "int\t2\tBE\t4\t12\tzero\tzero\tunsigned\n" SIGNED_BYTE "comp\t3\nmember\ta\t0\t0\nmember\tb\t2\t1\n"
#define LONG_SHEET "int\t2\tLE\t2\t10\tkeep\tkeep\tunsigned\n" PAIR "comp\t5\nmember\tb\t0\t1\nmember\ta\t3\t0\n"

static uint8_t shorts[MANY * SHORT_BYTES], longs[MANY * LONG_BYTES], under[MANY * LONG_BYTES], lent[MANY * LONG_BYTES];

/* Fills both logs: the pressure of record `unfit`, if there is one, does not fit the long record and is clamped there. */
static void fill_logs(int unfit) {
    int i;
    for (i = 0; i < MANY * LONG_BYTES; i++) under[i] = (uint8_t)(i * 37 % 251);
    for (i = 0; i < MANY; i++) {
        unsigned a = (unsigned)i * 7 % 1024 + (i == unfit ? 2048 : 0), clamped = a > 1023 ? 1023 : a;
        uint8_t b = (uint8_t)(i % 128), *from = shorts + i * SHORT_BYTES, *to = longs + i * LONG_BYTES, *below = under + i * LONG_BYTES;
        from[0] = (uint8_t)(a >> 4), from[1] = (uint8_t)(a << 4), from[2] = b;
        to[0] = 0, to[1] = b, to[2] = below[2];
        to[3] = (uint8_t)(clamped << 2 | (below[3] & 3)), to[4] = (uint8_t)(clamped >> 6 | (below[4] & 0xf0));
    }
}

static uint32_t placed(const char *from, const char *to, uint32_t handling, const uint8_t *background, size_t len) {
    return yirvagul_convert_in_place((const uint8_t *)from, strlen(from), (const uint8_t *)to, strlen(to), MANY, handling, lent, sizeof lent, background, len,
                                     table, YIRVAGUL_TABLE_WORDS, answer);
}

static void test_many(void) {
    static const int unfit[] = {-1, 0, 7, 8, 255, 256, 291, 292, 299};
    static const uint8_t zeros[MANY * LONG_BYTES];
    const char *source = (const char *)shorts;
    size_t i;
    for (i = 0; i < sizeof unfit / sizeof unfit[0]; i++) {
        uint64_t raised = unfit[i] >= 0, given;
        fill_logs(unfit[i]);
        memcpy(lent, under, sizeof lent);
        expect_answer(copying(SHORT_SHEET, LONG_SHEET, MANY, YIRVAGUL_CLAMP, source, sizeof shorts, lent, sizeof lent), 0, raised, 0, 0, 0, 0, "copying 300");
        expect(memcmp(lent, longs, sizeof lent) == 0, "300 copied records");
        memset(lent, 0x77, sizeof lent), memcpy(lent, shorts, sizeof shorts);
        expect_answer(placed(SHORT_SHEET, LONG_SHEET, YIRVAGUL_CLAMP, under, sizeof under), 0, raised, 0, 0, 0, 0, "300 in place");
        expect(memcmp(lent, longs, sizeof lent) == 0, "300 records grown in place");
        if (unfit[i] < 0) {
            expect_answer(placed(LONG_SHEET, SHORT_SHEET, YIRVAGUL_STOP_FIRST, zeros, sizeof shorts), 0, 0, 0, 0, 0, 0, "300 back in place");
            expect(memcmp(lent, shorts, sizeof shorts) == 0, "300 records shrunk in place");
            expect(memcmp(lent + sizeof shorts, zeros, sizeof lent - sizeof shorts) == 0, "a cleared tail behind 300 records");
            continue;
        }
        given = (uint64_t)unfit[i] * 7 % 1024 + 2048;
        memcpy(lent, under, sizeof lent);
        expect_stop(copying(SHORT_SHEET, LONG_SHEET, MANY, YIRVAGUL_STOP_FIRST, source, sizeof shorts, lent, sizeof lent), (uint64_t)unfit[i], 3,
                    YIRVAGUL_ABOVE, YIRVAGUL_GIVEN_PLUS, given, "STOP of 300");
        expect(memcmp(lent, under, sizeof lent) == 0, "STOP of 300 leaves the destination");
        expect_stop(copying_plain(SHORT_SHEET, LONG_SHEET, MANY, source, sizeof shorts, lent, sizeof lent), (uint64_t)unfit[i], 3, YIRVAGUL_ABOVE,
                    YIRVAGUL_GIVEN_PLUS, given, "STOP of 300, plain");
        expect(memcmp(lent, under, sizeof lent) == 0, "STOP of 300, plain, leaves the destination");
        memcpy(lent, shorts, sizeof shorts);
        expect_stop(placed(SHORT_SHEET, LONG_SHEET, YIRVAGUL_STOP_FIRST, under, sizeof under), (uint64_t)unfit[i], 3, YIRVAGUL_ABOVE, YIRVAGUL_GIVEN_PLUS,
                    given, "STOP of 300 in place");
        expect_stop(in_place_plain(SHORT_SHEET, LONG_SHEET, MANY, lent, sizeof lent, under, sizeof under), (uint64_t)unfit[i], 3, YIRVAGUL_ABOVE,
                    YIRVAGUL_GIVEN_PLUS, given, "STOP of 300 in place, plain");
        expect(memcmp(lent, shorts, sizeof shorts) == 0, "STOP of 300 leaves the buffer");
    }
}

/* The 64 bits of a real, from its bytes in big-endian order. */
static uint64_t bits_of(const char *real) {
    uint64_t bits = 0;
    int i;
    for (i = 0; i < 8; i++) bits = bits << 8 | (uint8_t)real[i];
    return bits;
}

/* One real, to a byte: what clamping writes, and the kind that stops it (0: none). */
static void expect_byte(const char *real, uint8_t wanted, uint64_t kind, const char *what) {
    uint8_t out[1] = {0x77};
    uint32_t returned = copying(REAL, BYTE, 1, YIRVAGUL_STOP_FIRST, real, 8, out, 1);
    if (kind)
        expect_stop(returned, 0, 0, kind, YIRVAGUL_GIVEN_REAL, bits_of(real), what);
    else
        expect_answer(returned, YIRVAGUL_DONE, 0, 0, 0, 0, 0, what);
    expect(out[0] == (kind ? 0x77 : wanted), what);
    expect_answer(copying(REAL, BYTE, 1, YIRVAGUL_CLAMP, real, 8, out, 1), 0, kind ? 1 : 0, 0, 0, 0, 0, what);
    expect(out[0] == wanted, what);
}

static void test_reals(void) {
    uint8_t out[8];
    expect_byte("\x40\x6f\xe0\0\0\0\0\0", 255, 0, "255.0");
    expect_byte("\x40\x6f\xf0\0\0\0\0\0", 255, YIRVAGUL_TRUNCATED, "255.5");
    expect_byte("\x40\x70\x08\0\0\0\0\0", 255, YIRVAGUL_ABOVE, "256.5");
    expect_byte("\xbf\xe0\0\0\0\0\0\0", 0, YIRVAGUL_TRUNCATED, "-0.5");
    expect_byte("\xbf\xf0\0\0\0\0\0\0", 0, YIRVAGUL_BELOW, "-1.0");
    expect_byte("\x80\0\0\0\0\0\0\0", 0, YIRVAGUL_TRUNCATED, "-0.0");
    expect_byte("\x7f\xf0\0\0\0\0\0\0", 255, YIRVAGUL_ABOVE, "infinity");
    expect_byte("\xff\xf0\0\0\0\0\0\0", 0, YIRVAGUL_BELOW, "-infinity");
    expect_byte("\x7f\xf8\0\0\0\0\0\0", 0, YIRVAGUL_NOT_A_NUMBER, "a quiet not-a-number");
    expect_byte("\xff\xf0\0\0\0\0\0\1", 0, YIRVAGUL_NOT_A_NUMBER, "a signalling not-a-number");
    expect_answer(copying(BYTE, REAL, 1, YIRVAGUL_STOP_FIRST, "\xff", 1, out, 8), 0, 0, 0, 0, 0, 0, "an int to a real");
    expect_bytes(out, "\x40\x6f\xe0\0\0\0\0\0", 8, "255 as a double");
    expect_stop(copying(WIDEST, REAL, 1, YIRVAGUL_STOP_FIRST, "\0\x20\0\0\0\0\0\1", 8, out, 8), 0, 0, YIRVAGUL_ROUNDED, YIRVAGUL_GIVEN_PLUS,
                ((uint64_t)1 << 53) + 1, "2^53 + 1");
    expect_answer(copying(WIDEST, REAL, 1, YIRVAGUL_CLAMP, "\0\x20\0\0\0\0\0\3", 8, out, 8), 0, 1, 0, 0, 0, 0, "2^53 + 3, clamped");
    expect_bytes(out, "\x43\x40\0\0\0\0\0\2", 8, "a tie goes to the even double");
    expect_answer(copying(REAL, "real\t8\tLE\n", 1, YIRVAGUL_STOP_FIRST, "\xff\xf0\0\0\0\0\x12\x34", 8, out, 8), 0, 0, 0, 0, 0, 0,
                  "a real to a real");
    expect_bytes(out, "\x34\x12\0\0\0\0\xf0\xff", 8, "all 64 bits, of a signalling not-a-number too");
    expect_answer(copying(REAL, BITS, 1, 0, "\0\0\0\0\0\0\0\0", 8, out, 8), 5, 0, 0, 0, 0, 0, "PATH, a real to bits");
    expect_answer(copying("real\t4\tBE\n", BYTE, 1, 0, "\0\0\0\0", 4, out, 8), 3, 0, 1, 0, 0, 0, "SOURCE, a real of 4 bytes");
}

/* The number that a STOP carries is the one of the source leaf: not the clamped one, and of an enum not the destination's. */
static void test_given(void) {
    static const char lowest[] = "\x80\0\0\0\0\0\0", most[] = "\xff\xff\xff\xff\xff\xff\xff\xff";
    static const char valve[] = SIGNED_BYTE "enum\t0\nvalue\topen\t0\nvalue\tajar\t9\nvalue\tshut\t-2\n";
    static const char other[] = BYTE "enum\t0\nvalue\tshut\t9\nvalue\tlost\t7\nvalue\topen\t254\nvalue\tajar\t3\n";
    static const char boost[] = PAIR "array\t0\t3\ncomp\t6\nmember\tboost\t0\t1\n", bytes[] = BYTE "array\t0\t3\ncomp\t4\nmember\tboost\t1\t1\n";
    const uint64_t high = (uint64_t)1 << 63;
    uint8_t out[16], buffer[8];
    memset(out, 0x77, sizeof out);
    expect_stop(copying(SIGNED_WIDEST, SIGNED_BYTE, 1, 1, lowest, 8, out, 8), 0, 0, YIRVAGUL_BELOW, YIRVAGUL_GIVEN_MINUS, high, "-2^63");
    expect_stop(copying(SIGNED_WIDEST, WIDEST, 1, 1, most, 8, out, 8), 0, 0, YIRVAGUL_BELOW, YIRVAGUL_GIVEN_MINUS, 1, "-1");
    expect_stop(copying(WIDEST, SIGNED_WIDEST, 1, 1, lowest, 8, out, 8), 0, 0, YIRVAGUL_ABOVE, YIRVAGUL_GIVEN_PLUS, high, "2^63");
    expect_stop(copying(WIDEST, SIGNED_WIDEST, 1, 1, most, 8, out, 8), 0, 0, YIRVAGUL_ABOVE, YIRVAGUL_GIVEN_PLUS, UINT64_MAX, "2^64 - 1");
    expect_stop(copying(WIDEST, REAL, 1, 1, most, 8, out, 8), 0, 0, YIRVAGUL_ROUNDED, YIRVAGUL_GIVEN_PLUS, UINT64_MAX, "2^64 - 1, to a real");
    expect_stop(copying(SIGNED_WIDEST, REAL, 1, 1, "\x80\0\0\0\0\0\0\1", 8, out, 8), 0, 0, YIRVAGUL_ROUNDED, YIRVAGUL_GIVEN_MINUS, high - 1,
                "-2^63 + 1, to a real");
    expect_stop(copying(valve, other, 2, 1, "\0\7", 2, out, 8), 1, 0, YIRVAGUL_NO_SYMBOL, YIRVAGUL_GIVEN_PLUS, 7, "a number without a symbol");
    expect_stop(copying(valve, other, 2, 1, "\xfe\x80", 2, out, 8), 1, 0, YIRVAGUL_NO_SYMBOL, YIRVAGUL_GIVEN_MINUS, 128, "a negative one");
    expect_stop(copying(valve, other, 1, 1, "\3", 1, out, 8), 0, 0, YIRVAGUL_NO_SYMBOL, YIRVAGUL_GIVEN_PLUS, 3, "a number with a symbol in the destination");
    expect_stop(copying(boost, bytes, 2, 1, "\0\1\0\2\0\3\0\4\x0f\xff\x01\0", 12, out, 8), 1, 2, YIRVAGUL_ABOVE, YIRVAGUL_GIVEN_PLUS, 4095,
                "the first of two in a record");
    expect(out[0] == 0x77 && memcmp(out, out + 1, sizeof out - 1) == 0, "STOP leaves the destination");
    memcpy(buffer, lowest, 8);
    expect_stop(yirvagul_convert_in_place((const uint8_t *)SIGNED_WIDEST, strlen(SIGNED_WIDEST), (const uint8_t *)BYTE, strlen(BYTE), 1, YIRVAGUL_STOP_FIRST,
                                          buffer, 8, out, 1, table, YIRVAGUL_TABLE_WORDS, answer),
                0, 0, YIRVAGUL_BELOW, YIRVAGUL_GIVEN_MINUS, high, "-2^63, in place");
    expect(memcmp(buffer, lowest, 8) == 0, "STOP leaves the buffer");
}

/* A source symbol that the destination lacks, by the sheets alone: between PATH and COUNT, in every form; and no buffer is changed. */
static void test_symbols(void) {
    static const char valve[] = BYTE "enum\t0\nvalue\topen\t0\nvalue\tshut\t1\n", fewer[] = BYTE "enum\t0\nvalue\topen\t7\n";
    static const char turned[] = BYTE "enum\t0\nvalue\tshut\t0\nvalue\topen\t1\n", none[] = BYTE "enum\t0\n";
    static const char first[] = BYTE "enum\t0\nvalue\topen\t0\nvalue\tshut\t1\narray\t1\t2\ncomp\t2\nmember\tvalve\t0\t2\n";
    static const char other[] = BYTE "enum\t0\nvalue\topen\t0\narray\t1\t2\ncomp\t2\nmember\tpump\t0\t2\n";
    static const char nested[] = BYTE "enum\t0\nvalue\topen\t0\narray\t1\t2\ncomp\t2\nmember\tvalve\t0\t2\n";
    static const char no_path[] = BYTE "enum\t0\nvalue\topen\t0\narray\t1\t3\ncomp\t3\nmember\tvalve\t0\t2\n";
    const uint8_t *from = (const uint8_t *)valve, *to = (const uint8_t *)fewer;
    uint8_t out[8];
    memset(out, 0x77, sizeof out);
    expect_answer(copying(valve, fewer, 1, 0, "\0", 1, out, 8), 12, 0, 0, 0, 0, 0, "SYMBOLS");
    expect_answer(copying(valve, fewer, 1, 1, "\1", 1, out, 8), 12, 0, 0, 0, 0, 0, "SYMBOLS, before STOP");
    expect_answer(copying(valve, fewer, 0, 0, "", 0, out, 8), 12, 0, 0, 0, 0, 0, "SYMBOLS of no record");
    expect_answer(copying(valve, fewer, 65537, 0, "", 0, out, 8), 12, 0, 0, 0, 0, 0, "SYMBOLS before COUNT and ROOM");
    expect_answer(copying(first, no_path, 1, 0, "\0", 1, out, 8), 5, 0, 0, 0, 0, 0, "PATH before SYMBOLS");
    expect_answer(copying(first, nested, 1, 0, "\0\0", 2, out, 8), 12, 0, 0, 0, 0, 0, "SYMBOLS, in an array of a member");
    expect_answer(copying_plain(valve, fewer, 1, "\0", 1, out, 8), 12, 0, 0, 0, 0, 0, "SYMBOLS, plain");
    expect_answer(yirvagul_convert_in_place(from, strlen(valve), to, strlen(fewer), 1, 0, out, 1, out + 1, 1, table, YIRVAGUL_TABLE_WORDS, answer), 12, 0, 0, 0,
                  0, 0, "SYMBOLS, in place");
    expect_answer(in_place_plain(valve, fewer, 1, out, 1, out + 1, 1), 12, 0, 0, 0, 0, 0, "SYMBOLS, in place and plain");
    expect(out[0] == 0x77 && memcmp(out, out + 1, sizeof out - 1) == 0, "SYMBOLS leaves the buffers");
    expect_answer(copying(first, other, 1, 0, "\0\0", 2, out, 8), 0, 0, 0, 0, 0, 0, "enums of members that one sheet alone has");
    expect_answer(copying(none, fewer, 0, 0, "", 0, out, 8), 0, 0, 0, 0, 0, 0, "a source enum without values");
    expect_answer(copying(fewer, valve, 1, 1, "\7", 1, out, 8), 0, 0, 0, 0, 0, 0, "more symbols in the destination");
    expect_answer(copying(valve, turned, 2, 1, "\0\1", 2, out, 8), 0, 0, 0, 0, 0, 0, "the same symbols in another order");
    expect_bytes(out, "\1\0", 2, "their numbers");
    expect_answer(copying(turned, valve, 2, 1, "\1\0", 2, out, 8), 0, 0, 0, 0, 0, 0, "and the way back");
    expect_bytes(out, "\0\1", 2, "their numbers again");
}

/* ---- the report */

#define WIDE "int\t8\tLE\t0\t33\tzero\tzero\tsigned\n"
#define HEAD "at\tlowest\thighest\tsum\tsamples\n"
enum { WORDS = 7 }; /* of a report of one int, and one behind them */

static uint8_t output[YIRVAGUL_REPORT_BYTES];

static uint32_t report(const char *from, const char *reader, uint64_t count, uint8_t *log, size_t log_len, int64_t *memory, size_t words, size_t room) {
    static const uint8_t background[16] = {0x55, 0x55, 0x55, 0x55};
    return yirvagul_report((const uint8_t *)from, strlen(from), (const uint8_t *)reader, strlen(reader), count, log, log_len, background,
                           sizeof background, memory, words, output, room, table, YIRVAGUL_TABLE_WORDS, answer);
}

/* Done, with this text, and no byte past it. */
static void expect_report(uint32_t returned, const char *text, const char *what) {
    expect_answer(returned, 0, strlen(text), 0, 0, 0, 0, what);
    expect_bytes(output, text, strlen(text), what);
    expect(output[strlen(text)] == 0x77, what);
    memset(output, 0x77, sizeof output);
}

/* Refused with this number, with log, memory and output as they were. */
static void expect_refused(const char *from, const char *reader, uint64_t count, size_t log_len, const int64_t *held, size_t words, size_t room,
                           uint64_t number, uint64_t line, const char *what) {
    uint8_t log[3] = {5, 9, 7};
    int64_t memory[WORDS];
    size_t i;
    memcpy(memory, held, sizeof memory);
    expect_answer(report(from, reader, count, log, log_len, memory, words, room), number, 0, line, 0, 0, 0, what);
    expect(memcmp(memory, held, sizeof memory) == 0 && memcmp(log, "\x05\x09\x07", 3) == 0, what);
    for (i = 0; i < sizeof output; i++)
        if (output[i] != 0x77) break;
    expect(i == sizeof output, what);
}

static void test_report(void) {
    static const char valve[] = BYTE "enum\t0\nvalue\topen\t0\nvalue\tshut\t1\n", fewer[] = BYTE "enum\t0\nvalue\topen\t7\n";
    const int64_t most = (int64_t)1 << 52, limit = 1048576;
    int64_t memory[WORDS] = {0, 0, 0, 0, 0, 0, -7}, held[WORDS] = {1, 0, 5, 9, 14, 2, -7};
    uint8_t log[4] = {0, 200, 255, 255};
    memset(output, 0x77, sizeof output);
    expect_report(report(BYTE, SIGNED_BYTE, 0, NULL, 0, memory, WORDS, sizeof output), HEAD "0\t-\t-\t0\t0\n", "a report of nothing");
    /* 200 and 65,535 are clamped; the log shrinks in place */
    expect_report(report(PAIR, SIGNED_BYTE, 2, log, 4, memory, WORDS, sizeof output), HEAD "0\t127\t127\t254\t2\n", "a first log");
    expect_bytes(log, "\x7f\x7f\x00\x00", 4, "the log is converted in place");
    log[0] = 0x80;
    expect_report(report(SIGNED_BYTE, SIGNED_BYTE, 1, log, 1, memory, WORDS, sizeof output), HEAD "0\t-128\t127\t126\t3\n", "a second log");
    expect(memory[YIRVAGUL_REPORT_RECORDS] == 3 && memory[YIRVAGUL_REPORT_EXCEPTIONS] == 2, "records and exceptions");
    expect(memory[2] == -128 && memory[3] == 127 && memory[4] == 126 && memory[5] == 3 && memory[6] == -7, "the leaf's words, and the one behind them");
    expect_report(report(BITS, BITS, 0, NULL, 0, memory, 2, 31), HEAD, "a report without ints");
    expect_report(report(BYTE, REAL, 0, NULL, 0, memory, 2, 31), HEAD, "a report of a real, which has no line");

    expect_refused("int\t9\n", BYTE, 1, 1, held, WORDS, 100, YIRVAGUL_SOURCE, 1, "SOURCE, report");
    expect_refused(BYTE, BYTE "x\n", 1, 1, held, WORDS, 100, YIRVAGUL_DESTINATION, 2, "DESTINATION, report");
    expect_refused(BITS, WIDE, 65537, 1, held, WORDS, 100, YIRVAGUL_CHANNEL, 0, "CHANNEL before PATH and COUNT");
    expect_refused(BITS, BYTE, 65537, 1, held, WORDS, 100, YIRVAGUL_PATH, 0, "PATH, report");
    expect_refused(valve, fewer, 65537, 1, held, WORDS, 100, YIRVAGUL_SYMBOLS, 0, "SYMBOLS before COUNT, report");
    expect_refused(valve, fewer, 0, 0, held, WORDS, 100, YIRVAGUL_SYMBOLS, 0, "SYMBOLS of no record, report");
    expect_refused(BYTE, BYTE, 65537, 1, held, WORDS, 100, YIRVAGUL_COUNT, 0, "COUNT, report");
    expect_refused(BYTE, BYTE, 2, 1, held, WORDS, 100, YIRVAGUL_ROOM, 0, "ROOM, a short log");
    expect_refused(BYTE, PAIR, 3, 3, held, WORDS, 100, YIRVAGUL_ROOM, 0, "ROOM, a log that grows");
    expect_refused(BYTE, BYTE, 1, 1, held, 5, 100, YIRVAGUL_ROOM, 0, "ROOM, a short memory");
    expect_refused(BYTE, BYTE, 1, 1, held, WORDS, strlen(HEAD "0\t5\t9\t19\t3\n") - 1, YIRVAGUL_ROOM, 0, "ROOM, a short output");
    held[0] = limit, expect_refused(BYTE, BYTE, 1, 1, held, WORDS, 0, YIRVAGUL_FULL, 0, "FULL, records, before the output");
    held[0] = -1, expect_refused(BYTE, BYTE, 1, 1, held, WORDS, 100, YIRVAGUL_FULL, 0, "FULL, negative records");
    held[0] = 0, held[5] = -1, expect_refused(BYTE, BYTE, 1, 1, held, WORDS, 100, YIRVAGUL_FULL, 0, "FULL, negative samples");
    held[5] = 2, held[4] = -most - 1, expect_refused(BYTE, BYTE, 1, 1, held, WORDS, 100, YIRVAGUL_FULL, 0, "FULL, a word past 2^52");
    held[4] = INT64_MIN, expect_refused(BYTE, BYTE, 0, 0, held, WORDS, 100, YIRVAGUL_FULL, 0, "FULL, the lowest word");
    held[4] = -most, log[0] = 1;
    expect_report(report(BYTE, BYTE, 1, log, 1, held, 6, sizeof output), HEAD "0\t1\t9\t-4503599627370495\t3\n", "a word of 2^52");
}

/* ---- the plain forms */

/* A pressure and a temperature, to a byte each, the temperature first. */
#define SENT PAIR SIGNED_BYTE "comp\t3\nmember\tboost\t0\t0\nmember\toil\t2\t1\n"
#define READ BYTE "comp\t2\nmember\toil\t0\t0\nmember\tboost\t1\t0\n"

/* Three records stop both plain forms at this place, and no buffer is changed; the report clamps them, says this text and counts so many exceptions. */
static void expect_plain_stop(const char *log, uint64_t record, uint64_t at, uint64_t kind, uint64_t given, uint64_t magnitude, const char *text,
                              int64_t exceptions, const char *what) {
    uint8_t out[7], buffer[10], background[6];
    int64_t memory[11] = {0, 0, 0, 0, 0, 0, 0, 0, 0, 0, -7};
    memset(out, 0x77, sizeof out), memset(background, 0x55, sizeof background);
    memcpy(buffer, log, 9), buffer[9] = 0x77;
    expect_stop(copying_plain(SENT, READ, 3, log, 9, out, 7), record, at, kind, given, magnitude, what);
    expect_bytes(out, "\x77\x77\x77\x77\x77\x77\x77", 7, what);
    expect_stop(in_place_plain(SENT, READ, 3, buffer, 10, background, 6), record, at, kind, given, magnitude, what);
    expect(memcmp(buffer, log, 9) == 0 && buffer[9] == 0x77, what);
    expect_bytes(background, "\x55\x55\x55\x55\x55\x55", 6, what);
    expect_report(report(SENT, READ, 3, buffer, 9, memory, 11, sizeof output), text, what);
    expect(memory[YIRVAGUL_REPORT_RECORDS] == 3 && memory[YIRVAGUL_REPORT_EXCEPTIONS] == exceptions && memory[10] == -7, what);
}

static void test_plain(void) {
    const uint8_t background[6] = {0};
    uint8_t out[7], buffer[10];
    memset(out, 0x77, sizeof out), memset(output, 0x77, sizeof output);
    memcpy(buffer, "\0\x09\x02\0\x07\x01\0\xff\x7f\x77", 10);
    expect_answer(copying_plain(SENT, READ, 3, (const char *)buffer, 9, out, 7), 0, 0, 0, 0, 0, 0, "copying, plain");
    expect_bytes(out, "\x02\x09\x01\x07\x7f\xff\x77", 7, "copied bytes, plain");
    expect_answer(in_place_plain(SENT, READ, 3, buffer, 10, background, 6), 0, 0, 0, 0, 0, 0, "in place, plain, of a compound");
    expect_bytes(buffer, "\x02\x09\x01\x07\x7f\xff\0\0\0\x77", 10, "converted bytes, plain");
    /* -5 and 300, of which the first byte is named */
    expect_plain_stop("\x01\x2c\xfb\0\x07\x01\0\xff\x7f", 0, 0, YIRVAGUL_BELOW, YIRVAGUL_GIVEN_MINUS, 5, HEAD "0\t0\t127\t128\t3\n1\t7\t255\t517\t3\n",
                      2, "plain, the first record");
    expect_plain_stop("\0\x09\x02\0\x07\x01\x01\0\x7f", 2, 1, YIRVAGUL_ABOVE, YIRVAGUL_GIVEN_PLUS, 256, HEAD "0\t1\t127\t130\t3\n1\t7\t255\t271\t3\n", 1,
                      "plain, the last record");
}

/* A season of the largest report: the header's sizes hold it. */
static void test_largest_report(void) {
    static int64_t memory[YIRVAGUL_REPORT_WORDS];
    static uint8_t log[4096], zeros[4096];
    const char *sheet = BYTE "array\t0\t4096\n";
    size_t leaf;
    memset(log, 255, sizeof log);
    for (leaf = 0; leaf < 4096; leaf++) {
        int64_t *words = memory + YIRVAGUL_REPORT_LEAVES + YIRVAGUL_REPORT_LEAF_WORDS * leaf;
        words[0] = words[1] = words[2] = -((int64_t)1 << 52);
        words[3] = (int64_t)1 << 52;
    }
    expect(yirvagul_report((const uint8_t *)sheet, strlen(sheet), (const uint8_t *)sheet, strlen(sheet), 0, NULL, 0, NULL, 0, memory, YIRVAGUL_REPORT_WORDS,
                           output, sizeof output, table, YIRVAGUL_TABLE_WORDS, answer) == YIRVAGUL_DONE,
           "the largest report");
    /* the first 1,000 leaves have fewer digits in their first column */
    expect(answer[YIRVAGUL_ANSWER_COUNT] == YIRVAGUL_REPORT_BYTES - 10 * 3 - 90 * 2 - 900, "its length");
    memset(memory, 0, sizeof memory);
    expect(yirvagul_report((const uint8_t *)sheet, strlen(sheet), (const uint8_t *)sheet, strlen(sheet), 1, log, sizeof log, zeros, sizeof zeros, memory,
                           YIRVAGUL_REPORT_WORDS, output, sizeof output, table, YIRVAGUL_TABLE_WORDS, answer) == YIRVAGUL_DONE,
           "a log of 4,096 leaves");
    expect(memory[YIRVAGUL_REPORT_WORDS - 1] == 1 && memory[YIRVAGUL_REPORT_WORDS - 4] == 255, "its last leaf");
}

/* ---- two logs compared */

#define COLUMNS "record\tat\tfirst\tsecond\n"

static uint8_t differences[YIRVAGUL_COMPARE_HEADER_BYTES + 8 * YIRVAGUL_COMPARE_LINE_BYTES];

static uint32_t compare(const char *from, const char *to, uint64_t count, const char *first, size_t first_len, const char *second, size_t second_len,
                        size_t room) {
    memset(differences, 0x77, sizeof differences);
    return yirvagul_compare((const uint8_t *)from, strlen(from), (const uint8_t *)to, strlen(to), count, (const uint8_t *)first, first_len,
                            (const uint8_t *)second, second_len, differences, room, table, YIRVAGUL_TABLE_WORDS, answer);
}

/* Done, with these lines and no byte past them; and refused, with no byte written, where the list lacks one byte. */
static void expect_lines(const char *from, const char *to, uint64_t count, const char *first, size_t first_len, const char *second, size_t second_len,
                         const char *lines, const char *what) {
    size_t len = strlen(COLUMNS) + strlen(lines);
    expect_answer(compare(from, to, count, first, first_len, second, second_len, sizeof differences), 0, len, 0, 0, 0, 0, what);
    expect_bytes(differences, COLUMNS, strlen(COLUMNS), what);
    expect_bytes(differences + strlen(COLUMNS), lines, strlen(lines), what);
    expect(differences[len] == 0x77, what);
    expect_answer(compare(from, to, count, first, first_len, second, second_len, len), 0, len, 0, 0, 0, 0, what);
    expect_answer(compare(from, to, count, first, first_len, second, second_len, len - 1), 7, 0, 0, 0, 0, 0, what);
    expect(differences[0] == 0x77 && memcmp(differences, differences + 1, sizeof differences - 1) == 0, what);
}

/* One record of one leaf each. */
static void expect_pair(const char *from, const char *to, const char *first, size_t first_len, const char *second, size_t second_len, const char *line,
                        const char *what) {
    expect_lines(from, to, 1, first, first_len, second, second_len, line, what);
}

static void test_compare(void) {
    static const char valve[] = SIGNED_BYTE "enum\t0\nvalue\topen\t0\nvalue\tshut\t-2\n";
    static const char other[] = BYTE "enum\t0\nvalue\tshut\t0\nvalue\topen\t254\n";
    static const char from[] = BYTE "comp\t3\nmember\ta\t0\t0\nmember\tb\t1\t0\n", to[] = PAIR "comp\t6\nmember\tb\t4\t0\nmember\ta\t0\t0\nmember\tc\t2\t0\n";
    static const char most[] = "\xff\xff\xff\xff\xff\xff\xff\xff", lowest[] = "\x80\0\0\0\0\0\0";
    expect(strlen(COLUMNS) == YIRVAGUL_COMPARE_HEADER_BYTES, "the header's length");
    expect_lines(BYTE, PAIR, 2, "\xc8\x07", 2, "\0\xc8\0\x07", 4, "", "ints of other widths");
    expect_lines(BYTE, SIGNED_BYTE, 2, "\x05\xff", 2, "\x05\xff", 2, "1\t0\t255\t-1\n", "the same bits of another sign");
    expect_pair(WIDEST, SIGNED_WIDEST, most, 8, lowest, 8, "0\t0\t18446744073709551615\t-9223372036854775808\n", "the longest numbers");
    expect_lines(from, to, 2, "\1\2\x99\3\4\x99", 6, "\0\7\x99\x99\0\2\0\3\x99\x99\0\x09", 12, "0\t0\t1\t7\n1\t4\t4\t9\n",
                 "by record and by the second log's byte");
    expect_lines(valve, other, 4, "\0\xfe\7\x09", 4, "\xfe\0\7\x08", 4, "3\t0\t9\t8\n", "enums by symbol");
    expect_lines(valve, other, 2, "\0\xfe", 2, "\0\xfe", 2, "0\t0\t0\t0\n1\t0\t-2\t254\n", "enums of one number, two symbols");
    expect_pair(valve, other, "\0", 1, "\5", 1, "0\t0\t0\t5\n", "a symbol in the first alone");
    expect_lines(valve, BYTE "enum\t0\nvalue\topen\t0\n", 3, "\0\xfe\7", 3, "\0\xfe\7", 3, "1\t0\t-2\t254\n", "a symbol that the second sheet lacks");
    expect_pair(REAL, REAL, "\x7f\xf8\0\0\0\0\0\1", 8, "\x7f\xf8\0\0\0\0\0\1", 8, "", "a not-a-number and itself");
    expect_pair(REAL, REAL, lowest, 8, "\0\0\0\0\0\0\0", 8, "0\t0\t9223372036854775808\t0\n", "-0.0 and 0.0");
    expect_pair(REAL, BYTE, lowest, 8, "\0", 1, "", "-0.0 and 0");
    expect_pair(REAL, WIDEST, "\x43\x40\0\0\0\0\0\0", 8, "\0\x20\0\0\0\0\0\0", 8, "", "2^53");
    expect_pair(WIDEST, REAL, "\0\x20\0\0\0\0\0\1", 8, "\x43\x40\0\0\0\0\0\0", 8, "0\t0\t9007199254740993\t4845873199050653696\n",
                "2^53 + 1 and the nearest double");
    expect_pair(REAL, SIGNED_WIDEST, "\x7f\xf8\0\0\0\0\0\0", 8, "\x7f\xf8\0\0\0\0\0\0", 8, "0\t0\t9221120237041090560\t9221120237041090560\n",
                "a not-a-number and the int of its bits");
    expect_pair(REAL, BYTE, "\x7f\xf0\0\0\0\0\0\0", 8, "\xff", 1, "0\t0\t9218868437227405312\t255\n", "an infinity");
    expect_lines("comp\t2\n", "comp\t1\n", 2, "\1\2\3\4", 4, "\5\6", 2, "", "records without a leaf");
    expect_lines(BYTE, BITS "comp\t1\n" PAIR, 0, NULL, 0, NULL, 0, "", "no record");
    expect_answer(compare("int\t9\n", "x\n", 65537, "", 0, "", 0, 0), 3, 0, 1, 0, 0, 0, "SOURCE, compare");
    expect_answer(compare(BYTE, BYTE "x\n", 65537, "", 0, "", 0, 0), 4, 0, 2, 0, 0, 0, "DESTINATION, compare");
    expect_answer(compare(BYTE, BITS, 65537, "", 0, "", 0, 0), 5, 0, 0, 0, 0, 0, "PATH, compare");
    expect_answer(compare(BYTE, BYTE, 65537, "", 0, "", 0, 0), 6, 0, 0, 0, 0, 0, "COUNT, compare");
    expect_answer(compare(BYTE, PAIR, 2, "\1", 1, "\0\1\0\2", 4, 99), 7, 0, 0, 0, 0, 0, "ROOM, a short first log");
    expect_answer(compare(BYTE, PAIR, 2, "\1\2", 2, "\0\1\0", 3, 99), 7, 0, 0, 0, 0, 0, "ROOM, a short second log");
}

/* A difference in each of 65,536 records, and both logs as one buffer. */
static void test_longest_lines(void) {
    static const char from[] = SIGNED_WIDEST "comp\t8\nmember\ta\t0\t0\n", to[] = WIDEST "comp\t8\nmember\ta\t0\t0\n";
    static const char last[] = "\n65535\t0\t-9223372036854775808\t9223372036854775808\n";
    static uint8_t log[65536 * 8], list[YIRVAGUL_COMPARE_HEADER_BYTES + 65536 * YIRVAGUL_COMPARE_LINE_BYTES];
    size_t digits = 10 + 90 * 2 + 900 * 3 + 9000 * 4 + (65536 - 10000) * 5, record, len;
    for (record = 0; record < 65536; record++) log[8 * record] = 0x80;
    len = YIRVAGUL_COMPARE_HEADER_BYTES + digits + 65536 * (strlen(last) - strlen("\n65535"));
    memset(list, 0x77, sizeof list);
    expect_answer(yirvagul_compare((const uint8_t *)from, strlen(from), (const uint8_t *)to, strlen(to), 65536, log, sizeof log, log, sizeof log, list,
                                   sizeof list, table, YIRVAGUL_TABLE_WORDS, answer),
                  0, len, 0, 0, 0, 0, "65,536 differences of one buffer");
    expect_bytes(list + len - strlen(last), last, strlen(last), "the last line");
    expect(list[len] == 0x77, "bytes past 65,536 differences");
    expect_answer(yirvagul_compare((const uint8_t *)to, strlen(to), (const uint8_t *)to, strlen(to), 65536, log, sizeof log, log, sizeof log, list,
                                   YIRVAGUL_COMPARE_HEADER_BYTES, table, YIRVAGUL_TABLE_WORDS, answer),
                  0, YIRVAGUL_COMPARE_HEADER_BYTES, 0, 0, 0, 0, "a log and itself");
}

/* ---- which bits of the source show */

#define TEN_LE "int\t2\tLE\t2\t10\tzero\tzero\tunsigned\n"
#define TEN_BE "int\t2\tBE\t2\t10\tzero\tzero\tunsigned\n"
#define VALVE BYTE "enum\t0\nvalue\topen\t0\n"

static uint32_t reach(const char *from, const char *to, uint8_t *mask, size_t mask_len) {
    return yirvagul_reach((const uint8_t *)from, strlen(from), (const uint8_t *)to, strlen(to), mask, mask_len, table, YIRVAGUL_TABLE_WORDS, answer);
}

static void test_reach(void) {
    static const char from[] = TEN_LE TEN_BE VALVE "comp\t8\nmember\toil\t0\t0\nmember\tboost\t2\t1\nmember\tvalve\t5\t2\n";
    static const char to[] = PAIR "comp\t4\nmember\tboost\t0\t0\nmember\toil\t2\t0\n";
    static uint8_t mask[YIRVAGUL_MASK_BYTES + 1];
    int i;
    memset(mask, 0x77, sizeof mask);
    expect_answer(reach(from, to, mask, 9), 0, 8, 0, 0, 0, 0, "a mask");
    expect_bytes(mask, "\xfc\x0f\x0f\xfc\x00\x00\x00\x00\x77", 9, "its bits, and no byte past it");
    expect_answer(reach(REAL, BYTE, mask, 8), 0, 8, 0, 0, 0, 0, "the mask of a real");
    expect_bytes(mask, "\xff\xff\xff\xff\xff\xff\xff\xff\x77", 9, "all 64 bits of it");
    memset(mask, 0x77, sizeof mask);
    expect_answer(reach(from, to, mask, 7), 7, 0, 0, 0, 0, 0, "ROOM, a mask short by one byte");
    expect_answer(reach(VALVE "value\tshut\t1\n", VALVE, mask, 0), YIRVAGUL_SYMBOLS, 0, 0, 0, 0, 0, "SYMBOLS, before ROOM");
    expect_answer(reach(BYTE, BITS, mask, 0), 5, 0, 0, 0, 0, 0, "PATH, before ROOM");
    expect_answer(reach(BYTE, BYTE "x\n", mask, 0), 4, 0, 2, 0, 0, 0, "DESTINATION");
    expect_answer(reach(BYTE "x\n", "", mask, 0), 3, 0, 2, 0, 0, 0, "SOURCE, before DESTINATION");
    expect_answer(yirvagul_reach(NULL, 0, NULL, 0, NULL, 0, NULL, 0, answer), 2, 0, 0, 0, 0, 0, "TABLE, before SOURCE");
    expect_answer(yirvagul_reach((const uint8_t *)BYTE, strlen(BYTE), (const uint8_t *)BYTE, strlen(BYTE), NULL, 0, table, YIRVAGUL_TABLE_WORDS, answer), 7,
                  0, 0, 0, 0, 0, "ROOM, a NULL mask");
    expect(mask[0] == 0x77 && mask[6] == 0x77, "a refusal leaves the mask");
    expect_answer(reach(VALVE, VALVE "value\tshut\t1\n", mask, 1), 0, 1, 0, 0, 0, 0, "a symbol that the source lacks");
    expect_answer(reach(BYTE "array\t0\t4096\n", BYTE "array\t0\t4096\n", mask, sizeof mask), 0, YIRVAGUL_MASK_BYTES, 0, 0, 0, 0, "the largest mask");
    for (i = 0; i < YIRVAGUL_MASK_BYTES; i++) expect(mask[i] == 0xff, "every bit of the largest mask");
    expect(mask[YIRVAGUL_MASK_BYTES] == 0x77, "no byte past the largest mask");
    for (i = 0; i < YIRVAGUL_TABLE_WORDS; i++) expect(table[i] == 0, "the mask's call clears the table");
}

static void test_list(void) {
    static uint8_t list[YIRVAGUL_LIST_BYTES];
    const char *wanted = "at\tsize\tclass\n0\t1\tbits\n";
    memset(list, 0x77, sizeof list);
    expect_answer(yirvagul_leaf_list((const uint8_t *)BITS, strlen(BITS), list, sizeof list, table, YIRVAGUL_TABLE_WORDS, answer), 0, strlen(wanted), 0, 0,
                  0, 0, "the list's length");
    expect_bytes(list, wanted, strlen(wanted), "the list");
    expect(list[strlen(wanted)] == 0x77, "bytes past the list");
    expect_answer(yirvagul_leaf_list((const uint8_t *)BITS, strlen(BITS), list, 22, table, YIRVAGUL_TABLE_WORDS, answer), 7, 0, 0, 0, 0, 0, "ROOM, list");
    expect_answer(yirvagul_leaf_list((const uint8_t *)BITS, 0, list, 23, table, YIRVAGUL_TABLE_WORDS, answer), 3, 0, 1, 0, 0, 0, "an empty sheet");
}

static void fill_table(void) {
    size_t i;
    for (i = 0; i <= YIRVAGUL_TABLE_WORDS; i++) table[i] = 7;
}

/* Each word of the filled table is this one now, and the word beyond is as it was. */
static int table_is(uint32_t word) {
    size_t i;
    for (i = 0; i < YIRVAGUL_TABLE_WORDS; i++)
        if (table[i] != word) return 0;
    return table[YIRVAGUL_TABLE_WORDS] == 7;
}

static void test_table(void) {
    uint8_t list[64];
    fill_table();
    expect_answer(yirvagul_leaf_list((const uint8_t *)BITS, strlen(BITS), list, sizeof list, table, YIRVAGUL_TABLE_WORDS - 1, answer), 2, 0, 0, 0, 0, 0,
                  "TABLE");
    expect(table_is(7), "TABLE leaves the table");
    yirvagul_leaf_list((const uint8_t *)BITS, strlen(BITS), list, sizeof list, table, YIRVAGUL_TABLE_WORDS + 1, answer);
    expect(table_is(0), "the table afterwards");
}

/* The call answers this number, size and line, and leaves the table as that number says. */
static void expect_size(const char *sheet, size_t len, size_t table_len, uint64_t number, uint64_t size, uint64_t line, const char *what) {
    fill_table();
    expect_answer(yirvagul_record_size((const uint8_t *)sheet, len, table, table_len, answer), number, size, line, 0, 0, 0, what);
    expect(table_is(number == YIRVAGUL_TABLE ? 7 : 0), what);
}

/* A good sheet's size, with a table that is long enough and with one that is longer. */
static void expect_size_of(const char *sheet, uint64_t size) {
    expect_size(sheet, strlen(sheet), YIRVAGUL_TABLE_WORDS, YIRVAGUL_DONE, size, 0, sheet);
    expect_size(sheet, strlen(sheet), YIRVAGUL_TABLE_WORDS + 1, YIRVAGUL_DONE, size, 0, sheet);
}

static void test_record_size(void) {
    static char over_long[16385];
    const char *past_end = PAIR "comp\t9\nmember\tboost\t8\t0\n";
    expect_size_of(BITS, 1);
    expect_size_of(BYTE "enum\t0\nvalue\topen\t1\n", 1);
    expect_size_of(PAIR "array\t0\t3\t5\n", 30);
    expect_size_of(PAIR "comp\t9\nmember\tboost\t4\t0\n", 9);
    expect_size_of(PAIR "comp\t4096\n", 4096);
    expect_size_of(BYTE "comp\t4096\n" PAIR, 2);
    expect_size(past_end, strlen(past_end), YIRVAGUL_TABLE_WORDS, YIRVAGUL_SOURCE, 0, 3, "the size of a faulty sheet");
    expect_size(BITS, strlen(BITS) - 1, YIRVAGUL_TABLE_WORDS, YIRVAGUL_SOURCE, 0, 1, "the size of a sheet without its last byte");
    expect_size(past_end, strlen(past_end), YIRVAGUL_TABLE_WORDS - 1, YIRVAGUL_TABLE, 0, 0, "the size with a short table");
    memset(over_long, 'x', sizeof over_long);
    expect_size(over_long, 16384, YIRVAGUL_TABLE_WORDS, YIRVAGUL_SOURCE, 0, 1, "the size of a sheet of 16,384 bytes");
    expect_size(over_long, 16385, YIRVAGUL_TABLE_WORDS, YIRVAGUL_SOURCE, 0, 0, "the size of an over-long sheet");
}

static void expect_layout(uint32_t returned, uint32_t number, const uint32_t layout[8], const uint32_t wanted[8], const char *what) {
    expect(returned == number && memcmp(layout, wanted, 8 * sizeof *wanted) == 0, what);
}

static void test_setters(void) {
    uint32_t l[8] = {YIRVAGUL_INT, 4, YIRVAGUL_LE, 16, 16, 0, 0, YIRVAGUL_UNSIGNED};
    const uint32_t shrunk[8] = {0, 3, 0, 8, 16, 0, 0, 0};
    const uint32_t fitting[8] = {0, 3, 0, 4, 20, 0, 0, 0};
    const uint32_t grown[8] = {0, 5, 0, 20, 20, 0, 0, 0};
    const uint32_t styled[8] = {0, 5, 1, 20, 20, 1, 2, 1};
    expect_layout(yirvagul_set_size(l, 3), 0, l, shrunk, "size");
    expect_layout(yirvagul_set_size(l, 9), 9, l, shrunk, "size 9");
    expect_layout(yirvagul_set_field(l, 4, 20), 0, l, fitting, "a field that fits");
    expect_layout(yirvagul_set_field(l, 4, 65), 9, l, fitting, "precision 65");
    expect_layout(yirvagul_set_field(l, 4, 0), 9, l, fitting, "precision 0");
    expect_layout(yirvagul_set_field(l, 45, 20), 9, l, fitting, "a field past 8 bytes");
    expect_layout(yirvagul_set_field(l, 20, 20), 0, l, grown, "a field that grows the size");
    expect_layout(yirvagul_set_field(l, 4294967295u, 1), 9, l, grown, "an offset that would wrap");
    yirvagul_set_order(l, YIRVAGUL_BE);
    yirvagul_set_pads(l, YIRVAGUL_PAD_ONE, YIRVAGUL_PAD_KEEP);
    expect_layout(yirvagul_set_sign(l, YIRVAGUL_SIGNED), 0, l, styled, "order, pads, sign");
    expect_layout(yirvagul_set_order(l, 2), 9, l, styled, "order 2");
    expect_layout(yirvagul_set_pads(l, 0, 3), 9, l, styled, "pads 0, 3");
    expect_layout(yirvagul_set_sign(l, 2), 9, l, styled, "sign 2");
}

static void test_faulty_layouts(void) {
    uint32_t bits[8] = {YIRVAGUL_BITS, 1, 0, 0, 8, 0, 0, 0};
    uint32_t order[8] = {0, 1, 7, 0, 8, 0, 0, 0};
    uint32_t wide[8] = {0, 1, 0, 1, 8, 0, 0, 0};
    const uint32_t kept_bits[8] = {YIRVAGUL_BITS, 1, 0, 0, 8, 0, 0, 0};
    const uint32_t kept_order[8] = {0, 1, 7, 0, 8, 0, 0, 0};
    const uint32_t kept_wide[8] = {0, 1, 0, 1, 8, 0, 0, 0};
    const uint32_t wide_bits[8] = {YIRVAGUL_BITS, 5, 0, 0, 40, 0, 0, 0};
    const uint32_t bits_after[8] = {YIRVAGUL_BITS, 5, 0, 0, 8, 0, 0, 0};
    expect_layout(yirvagul_set_sign(bits, YIRVAGUL_SIGNED), 9, bits, kept_bits, "sign on bits");
    expect_layout(yirvagul_set_size(order, 2), 9, order, kept_order, "a layout with no order");
    expect_layout(yirvagul_set_size(wide, 2), 9, wide, kept_wide, "a layout that breaks the rules");
    expect_layout(yirvagul_set_field(wide, 0, 8), 9, wide, kept_wide, "a field on a layout that breaks the rules");
    expect_layout(yirvagul_set_field(bits, 0, 40), 0, bits, wide_bits, "a field on bits");
    expect_layout(yirvagul_set_field(bits, 0, 8), 0, bits, bits_after, "a smaller field, which leaves the size");
}

/* Nothing is read or written through a pointer whose length is 0. */
static void test_null(void) {
    const uint8_t *byte = (const uint8_t *)BYTE;
    const size_t len = sizeof BYTE - 1;
    uint8_t out[1] = {0x77};
    expect_answer(yirvagul_convert_copying(NULL, 0, byte, len, 0, 0, NULL, 0, NULL, 0, table, YIRVAGUL_TABLE_WORDS, answer), 3, 0, 1, 0, 0, 0,
                  "a NULL source sheet");
    expect_answer(yirvagul_convert_copying(byte, len, NULL, 0, 0, 0, NULL, 0, NULL, 0, table, YIRVAGUL_TABLE_WORDS, answer), 4, 0, 1, 0, 0, 0,
                  "a NULL destination sheet");
    expect_answer(yirvagul_convert_copying(byte, len, byte, len, 0, 1, NULL, 0, NULL, 0, table, YIRVAGUL_TABLE_WORDS, answer), 0, 0, 0, 0, 0, 0,
                  "copying no record, NULL to NULL");
    expect_answer(yirvagul_convert_copying(byte, len, byte, len, 1, 1, NULL, 0, out, 1, table, YIRVAGUL_TABLE_WORDS, answer), 7, 0, 0, 0, 0, 0,
                  "ROOM, a NULL source");
    expect_answer(yirvagul_convert_copying(byte, len, byte, len, 1, 1, byte, 1, NULL, 0, table, YIRVAGUL_TABLE_WORDS, answer), 7, 0, 0, 0, 0, 0,
                  "ROOM, a NULL destination");
    expect_answer(yirvagul_convert_copying_plain(byte, len, byte, len, 0, NULL, 0, NULL, 0, table, YIRVAGUL_TABLE_WORDS, answer), 0, 0, 0, 0, 0, 0,
                  "copying no record, plain");
    expect_answer(yirvagul_convert_in_place(byte, len, byte, len, 0, 1, NULL, 0, NULL, 0, table, YIRVAGUL_TABLE_WORDS, answer), 0, 0, 0, 0, 0, 0,
                  "no record in a NULL buffer");
    expect_answer(yirvagul_convert_in_place(byte, len, byte, len, 1, 1, NULL, 0, byte, 1, table, YIRVAGUL_TABLE_WORDS, answer), 7, 0, 0, 0, 0, 0,
                  "ROOM, a NULL buffer");
    expect_answer(yirvagul_convert_in_place_plain(byte, len, byte, len, 1, out, 1, NULL, 0, table, YIRVAGUL_TABLE_WORDS, answer), 7, 0, 0, 0, 0, 0,
                  "ROOM, a NULL background");
    expect(out[0] == 0x77, "ROOM leaves the buffers");
    expect_answer(yirvagul_report(byte, len, byte, len, 0, NULL, 0, NULL, 0, NULL, 0, NULL, 0, table, YIRVAGUL_TABLE_WORDS, answer), 7, 0, 0, 0, 0, 0,
                  "ROOM, a NULL memory");
    expect_answer(yirvagul_report(byte, len, byte, len, 0, NULL, 0, NULL, 0, NULL, 0, NULL, 0, NULL, 0, answer), 2, 0, 0, 0, 0, 0, "TABLE, report");
    expect_answer(yirvagul_compare(NULL, 0, byte, len, 0, NULL, 0, NULL, 0, NULL, 0, table, YIRVAGUL_TABLE_WORDS, answer), 3, 0, 1, 0, 0, 0,
                  "a NULL first sheet");
    expect_answer(yirvagul_compare(byte, len, byte, len, 0, NULL, 0, NULL, 0, NULL, 0, table, YIRVAGUL_TABLE_WORDS, answer), 7, 0, 0, 0, 0, 0,
                  "ROOM, a NULL list of differences");
    expect_answer(yirvagul_compare(byte, len, byte, len, 0, NULL, 0, NULL, 0, differences, YIRVAGUL_COMPARE_HEADER_BYTES, table, YIRVAGUL_TABLE_WORDS,
                                   answer),
                  0, YIRVAGUL_COMPARE_HEADER_BYTES, 0, 0, 0, 0, "no record of NULL logs");
    expect_answer(yirvagul_compare(byte, len, byte, len, 0, NULL, 0, NULL, 0, NULL, 0, NULL, 0, answer), 2, 0, 0, 0, 0, 0, "TABLE, compare");
    expect_answer(yirvagul_leaf_list(NULL, 0, NULL, 0, table, YIRVAGUL_TABLE_WORDS, answer), 3, 0, 1, 0, 0, 0, "the list of a NULL sheet");
    expect_answer(yirvagul_leaf_list(byte, len, NULL, 0, table, YIRVAGUL_TABLE_WORDS, answer), 7, 0, 0, 0, 0, 0, "ROOM, a NULL list");
    expect_answer(yirvagul_leaf_list(byte, len, NULL, 0, NULL, 0, answer), 2, 0, 0, 0, 0, 0, "TABLE, a NULL table");
}

/* ---- the words of members */

/* What a member line may end in, and what a call may name: a word is one more than its handling, and a plain form stands for none. */
enum { SILENT, CLAMPS, STOPS, EACH };
static const char *const words[EACH] = {"", "\tclamp", "\tstop"};

/* Whether a leaf stops: by the word that it obeys, or by the call. */
static int stops(int word, int call) { return word == SILENT ? call != CLAMPS : word == STOPS; }

/* One call of each form that names this handling, of records that do not grow: done with this count and these bytes; or, where they are NULL, stopped by a
 * number above the range of this leaf, with nothing written. */
static void expect_by(int call, const char *from, const char *to, uint64_t count, const char *log, size_t log_len, const char *wanted, size_t wanted_len,
                      uint64_t exceptions, uint64_t record, uint64_t at, uint64_t given, const char *what) {
    uint8_t out[16], buffer[16], background[16];
    uint32_t handling = call == STOPS ? YIRVAGUL_STOP_FIRST : YIRVAGUL_CLAMP, returned;
    memset(out, 0x77, sizeof out), memset(background, 0x77, sizeof background);
    memset(buffer, 0x66, sizeof buffer), memcpy(buffer, log, log_len);
    returned = call == SILENT ? copying_plain(from, to, count, log, log_len, out, sizeof out)
                              : copying(from, to, count, handling, log, log_len, out, sizeof out);
    if (wanted) {
        expect_answer(returned, 0, exceptions, 0, 0, 0, 0, what);
        expect_bytes(out, wanted, wanted_len, what);
    } else
        expect_stop(returned, record, at, YIRVAGUL_ABOVE, YIRVAGUL_GIVEN_PLUS, given, what);
    wanted_len = wanted ? wanted_len : 0;
    expect(memcmp(out + wanted_len, background, sizeof out - wanted_len) == 0, what);
    returned = call == SILENT ? in_place_plain(from, to, count, buffer, sizeof buffer, background, sizeof background)
                              : yirvagul_convert_in_place((const uint8_t *)from, strlen(from), (const uint8_t *)to, strlen(to), count, handling, buffer,
                                                          sizeof buffer, background, sizeof background, table, YIRVAGUL_TABLE_WORDS, answer);
    if (wanted) {
        expect_answer(returned, 0, exceptions, 0, 0, 0, 0, what);
        expect_bytes(buffer, wanted, wanted_len, what);
    } else {
        expect_stop(returned, record, at, YIRVAGUL_ABOVE, YIRVAGUL_GIVEN_PLUS, given, what);
        expect(memcmp(buffer, log, log_len) == 0, what);
    }
    expect(buffer[15] == 0x66, what);
}

#define TWO PAIR "comp\t4\nmember\toil\t0\t0\nmember\tboost\t2\t0\n"

/* Two bytes, whose members have these words. */
static const char *two_bytes(int oil, int boost) {
    static char sheet[160];
    snprintf(sheet, sizeof sheet, BYTE "comp\t2\nmember\toil\t0\t0%s\nmember\tboost\t1\t0%s\n", words[oil], words[boost]);
    return sheet;
}

static void test_words(void) {
    /* the boost of the first record and the oil of the second do not fit; every oil; both of the second record */
    static const char log[] = "\0\5\1\0\1\1\0\7", oils[] = "\1\0\0\5\2\0\0\6", second[] = "\1\0\0\5\1\2\1\3";
    static const char text[] = HEAD "0\t5\t255\t260\t2\n1\t7\t255\t262\t2\n";
    int call, oil, boost;
    memset(output, 0x77, sizeof output);
    for (oil = 0; oil < EACH; oil++)
        for (boost = 0; boost < EACH; boost++) {
            const char *to = two_bytes(oil, boost);
            int64_t memory[10] = {0};
            uint8_t buffer[8], mask[4];
            for (call = 0; call < EACH; call++) {
                if (stops(boost, call))
                    expect_by(call, TWO, to, 2, log, 8, NULL, 0, 0, 0, 1, 256, "a leaf that stops");
                else if (stops(oil, call))
                    expect_by(call, TWO, to, 2, log, 8, NULL, 0, 0, 1, 0, 257, "a leaf that stops behind a record that is clamped");
                else
                    expect_by(call, TWO, to, 2, log, 8, "\5\xff\xff\7", 4, 2, 0, 0, 0, "leaves that clamp");
                expect_by(call, TWO, to, 2, "\0\1\0\2\0\3\0\xff", 8, "\1\2\3\xff", 4, 0, 0, 0, 0, "numbers that fit");
            }
            memcpy(buffer, log, 8);
            expect_report(report(TWO, to, 2, buffer, 8, memory, 10, sizeof output), text, "the report clamps whatever the words");
            expect(memory[YIRVAGUL_REPORT_EXCEPTIONS] == 2, "its exceptions");
            expect_answer(reach(TWO, to, mask, 4), 0, 4, 0, 0, 0, 0, "a mask turns on no word");
            expect_bytes(mask, "\xff\xff\xff\xff", 4, "its bits");
            expect_lines(TWO, to, 2, log, 8, "\5\xff\1\7", 4, "0\t1\t256\t255\n1\t0\t257\t1\n", "a comparison looks at no word");
            expect_size_of(to, 2);
        }
    for (call = 0; call < EACH; call++) {
        expect_by(call, TWO, two_bytes(CLAMPS, STOPS), 2, oils, 8, "\xff\5\xff\6", 4, 2, 0, 0, 0, "only leaves that clamp raise");
        expect_by(call, TWO, two_bytes(CLAMPS, STOPS), 2, second, 8, NULL, 0, 0, 1, 1, 259, "a leaf that stops behind a byte that is clamped");
    }
}

/* A leaf three members deep, whose members have these words. */
static void test_nested_words(void) {
    static const char from[] = PAIR "comp\t2\nmember\tboost\t0\t0\ncomp\t2\nmember\tbank\t0\t1\ncomp\t2\nmember\tengine\t0\t2\n";
    char to[240];
    int call, engine, bank, boost, word;
    for (call = 0; call < EACH; call++)
        for (engine = 0; engine < EACH; engine++)
            for (bank = 0; bank < EACH; bank++)
                for (boost = 0; boost < EACH; boost++) {
                    snprintf(to, sizeof to, BYTE "comp\t1\nmember\tboost\t0\t0%s\ncomp\t1\nmember\tbank\t0\t1%s\ncomp\t1\nmember\tengine\t0\t2%s\n",
                             words[boost], words[bank], words[engine]);
                    word = boost != SILENT ? boost : bank != SILENT ? bank : engine;
                    expect_by(call, from, to, 2, "\0\7\1\x2c", 4, stops(word, call) ? NULL : "\7\xff", 2, 1, 1, 0, 300, "the innermost word");
                }
}

/* Three elements of two numbers, below a word and with words of their own. */
static void test_words_of_arrays(void) {
#define CELLS(base, size, pair, whole, above, a, b) \
    base "comp\t" pair "\nmember\ta\t0\t0" a "\nmember\tb\t" size "\t0" b "\narray\t1\t3\ncomp\t" whole "\nmember\tcells\t0\t2" above "\n"
    static const char from[] = CELLS(PAIR, "2", "4", "12", "", "", "");
    static const char all[] = CELLS(BYTE, "1", "2", "6", "\tstop", "", ""), none[] = CELLS(BYTE, "1", "2", "6", "\tclamp", "", "");
    static const char but_b[] = CELLS(BYTE, "1", "2", "6", "\tstop", "", "\tclamp"), only_a[] = CELLS(BYTE, "1", "2", "6", "\tclamp", "\tstop", "");
    static const char marked[] = PAIR "comp\t4\nmember\toil\t0\t0\tstop\nmember\tboost\t2\t0\tclamp\n";
    char log[12], clamped[6];
    uint64_t leaf;
    int call;
    for (call = 0; call < EACH; call++) {
        for (leaf = 0; leaf < 6; leaf++) {
            memset(log, 0, sizeof log), log[2 * leaf] = 2;
            memset(clamped, 0, sizeof clamped), clamped[leaf] = '\xff';
            expect_by(call, from, all, 1, log, 12, NULL, 0, 0, 0, leaf, 512, "a word above an array");
            expect_by(call, from, none, 1, log, 12, clamped, 6, 1, 0, 0, 0, "a clamping word above an array");
        }
        expect_by(call, from, but_b, 1, "\0\1\1\0\0\2\0\3\0\4\0\5", 12, "\1\xff\2\3\4\5", 6, 1, 0, 0, 0, "a word in an element clamps");
        expect_by(call, from, but_b, 1, "\0\1\1\0\0\2\0\3\3\4\0\5", 12, NULL, 0, 0, 0, 4, 772, "a leaf beside it stops");
        expect_by(call, from, only_a, 1, "\0\1\1\0\0\2\0\3\3\4\0\5", 12, NULL, 0, 0, 0, 4, 772, "a word in an element stops");
        expect_by(call, marked, two_bytes(SILENT, SILENT), 1, "\0\5\1\0", 4, call == CLAMPS ? "\5\xff" : NULL, 2, 1, 0, 1, 256, "words of a source");
    }
}

/* A word that is none is a fault of its line; so is a field behind a word. */
static void test_faulty_words(void) {
    static const char *const faulty[] = {"\t", "\tClamp", "\tstops", "\tclam", "\tstop ", "\t0", "\tclamp\tstop", "\tstop\t", "\t\tstop"};
    uint8_t out[1] = {0x77};
    char sheet[160];
    size_t i;
    for (i = 0; i < sizeof faulty / sizeof faulty[0]; i++) {
        snprintf(sheet, sizeof sheet, BYTE "comp\t1\nmember\ta\t0\t0%s\n", faulty[i]);
        expect_size(sheet, strlen(sheet), YIRVAGUL_TABLE_WORDS, YIRVAGUL_SOURCE, 0, 3, faulty[i]);
        expect_answer(copying(BYTE, sheet, 1, 0, "\5", 1, out, 1), 4, 0, 3, 0, 0, 0, faulty[i]);
    }
    expect(out[0] == 0x77, "a faulty word leaves the destination");
    expect_size_of(BYTE "comp\t1\nmember\tstop\t0\t0\tstop\n", 1);
}

static void test_names(void) {
    static const char *const names[] = {"DONE", "HANDLING", "TABLE", "SOURCE", "DESTINATION", "PATH", "COUNT", "ROOM", "STOP", "RANGE", "CHANNEL", "FULL",
                                        "SYMBOLS"};
    uint32_t number;
    for (number = 0; number <= YIRVAGUL_SYMBOLS; number++) expect(strcmp(yirvagul_name(number), names[number]) == 0, names[number]);
    expect(strcmp(yirvagul_name(4294967295u), "UNKNOWN") == 0, "the name of a number that is none");
}

#if YIRVAGUL_VERSION < 100
#error "YIRVAGUL_VERSION is no number that #if can compare"
#endif

int main(void) {
    test_copying();
    test_in_place();
    test_many();
    test_reals();
    test_given();
    test_symbols();
    test_report();
    test_plain();
    test_largest_report();
    test_compare();
    test_longest_lines();
    test_reach();
    test_list();
    test_table();
    test_record_size();
    test_setters();
    test_faulty_layouts();
    test_null();
    test_words();
    test_nested_words();
    test_words_of_arrays();
    test_faulty_words();
    test_names();
    return failed;
}
