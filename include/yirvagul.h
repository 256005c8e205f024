/* Yirvagul: converts records of instrument logs from one binary layout to another, in place or copying, reports on the numbers of many logs, compares two
 * logs, tells which bits of a source record a result can turn on, lists a layout's leaves, tells a record's size, and edits atomic layouts.
 *
 * Link with libcapi.a. Every call is proved against a definition of what it answers and of every byte that it leaves; it keeps nothing between calls,
 * allocates nothing and can be called from several threads at once, each with its own buffers.
 *
 * What a caller owes, since C cannot say it in a type:
 *   - each pointer points at as many elements as the length beside it says; a sheet, a buffer, a memory or a table of length 0 may be NULL;
 *   - answer and layout point at eight words each, and are never NULL;
 *   - a buffer that is written (destination, buffer, log, memory, output, mask, list, table, answer, layout) overlaps no other argument. Those that are only
 *     read may overlap each other.
 *
 * Sheets are text: lines ended by byte 10, fields parted by one tab, for example a compound of one 12-bit pressure:
 *
 *     int	2	BE	4	12	zero	zero	unsigned
 *     comp	2
 *     member	boost	0	0
 *
 * A member line may end in one more field, `clamp` or `stop`, as `member	boost	0	0	stop`: the handling of the numbers in that member, whatever the call's
 * is. A leaf obeys the innermost member on its way in the destination that has the word; where none has, it obeys the call. A word above an array is for every
 * element. Only the four converting calls obey words, the destination's alone: a source sheet may have them without effect.
 */
#ifndef YIRVAGUL_H
#define YIRVAGUL_H

/* The version of this header, for #if: major * 10,000 + minor * 100 + patch. */
#define YIRVAGUL_VERSION 100

#include <stddef.h>
#include <stdint.h>

#ifdef __cplusplus
extern "C" {
#endif

/* The working table that a call reads sheets into: lend at least this many 32-bit words. What it held does not matter. Its first 8,192 words are zero
 * after every call, except after HANDLING and TABLE, which leave it as it was; words beyond never change. */
#define YIRVAGUL_TABLE_WORDS 8192

/* The most bytes that a call takes of its thread's stack: any call; and one that converts, reports or compares where the destination record (the reader's, the
 * second log's) has at most 128 bytes, or that does none of these (the leaf list, the size, the mask, the setters). A call that is refused with HANDLING,
 * TABLE, SOURCE or DESTINATION takes at most 16,384. */
#define YIRVAGUL_STACK_BYTES 163840
#define YIRVAGUL_SMALL_STACK_BYTES 49152

/* ---- what a call answers ---- */

/* The number that each call returns: done, or the first check that fails. A refusal leaves the data buffers, the list, the report and the layout
 * unchanged. The checks stand in the order of their numbers, but for SYMBOLS, which stands between PATH and COUNT; the order is told beside each call that
 * reads records. */
enum {
    /* Done. */
    YIRVAGUL_DONE = 0,
    /* handling is neither 0 nor 1. Pass YIRVAGUL_CLAMP or YIRVAGUL_STOP_FIRST. */
    YIRVAGUL_HANDLING = 1,
    /* The table has fewer than YIRVAGUL_TABLE_WORDS words. Lend a longer one. */
    YIRVAGUL_TABLE = 2,
    /* The source sheet, the first log's, or the only one, is faulty at `line`, counted from 1. Correct that line: a line is judged by itself and the lines
     * before it. Line 0: the sheet is longer than 16,384 bytes. A last line without byte 10 is faulty at its own number. */
    YIRVAGUL_SOURCE = 3,
    /* The destination sheet, the reader's, or the second log's, is faulty at `line`, likewise. */
    YIRVAGUL_DESTINATION = 4,
    /* The source type has no path to the destination type, or the first log's to the second's. Give members of one name the same class, or make one an int
     * and the other a real; and arrays the same dimensions, as many and in the same order. */
    YIRVAGUL_PATH = 5,
    /* count is above 65,536. Go in parts. */
    YIRVAGUL_COUNT = 6,
    /* A buffer is too short, with S and D for the sizes of a source and a destination record: the source or the first log for count * S bytes, the
     * destination, the background or the second log for count * D, the in-place buffer or the log for count * max(S, D), the report's memory for its words,
     * the mask for S bytes, a list, or the report's output. Lend a longer one. */
    YIRVAGUL_ROOM = 7,
    /* A number does not fit a leaf that obeys stop, by the word of a member or, where no member on its way has one, by the call, as of every plain form: the
     * first such leaf is `at` bytes into destination record `record`, `kind` says why, and `given` and `magnitude` are the number. Give the destination a
     * layout there that holds it, correct the log, or let the leaf clamp: by the word of its member, or, where none has one, by YIRVAGUL_CLAMP. */
    YIRVAGUL_STOP = 8,
    /* A setter's argument or result is outside its rule, or the layout already was. Pass a valid layout and an argument within the rule. */
    YIRVAGUL_RANGE = 9,
    /* An int leaf of the reader's sheet has more than 32 bits, matched or not. Narrow it, or take it out of that sheet. */
    YIRVAGUL_CHANNEL = 10,
    /* The report would have more than 1,048,576 records; or its memory holds a negative number of records, exceptions or samples, or a word above 2^52 in
     * magnitude, which no report has that began with zeros. Begin a new one. */
    YIRVAGUL_FULL = 11,
    /* An enum of the source has a symbol that the destination's enum, or the reader's, under the same member lacks: its number would have no meaning there.
     * It goes by the two sheets alone, by the names of the symbols and not their numbers, so a count of 0 is refused too. Enums of members that only one of
     * the sheets has don't count, and neither does a symbol more in the destination. Give the destination's enum that symbol. */
    YIRVAGUL_SYMBOLS = 12
};

/* The answer's eight words. Each call that reads sheets writes all of them; a word that the number does not name is 0. */
enum {
    YIRVAGUL_ANSWER_NUMBER = 0,   /* what the call returned */
    YIRVAGUL_ANSWER_COUNT = 1,    /* done: how many leaves raised an exception, and were clamped; of the leaf list, the report, the list of differences or
                                      the mask, its length in bytes; of the record size, that size in bytes */
    YIRVAGUL_ANSWER_LINE = 2,     /* SOURCE, DESTINATION: the first faulty line */
    YIRVAGUL_ANSWER_RECORD = 3,   /* STOP: the record, from 0 */
    YIRVAGUL_ANSWER_AT = 4,       /* STOP: the leaf's first byte in its destination record, from 0 */
    YIRVAGUL_ANSWER_KIND = 5,     /* STOP: the kind of exception */
    YIRVAGUL_ANSWER_GIVEN = 6,    /* STOP: what the magnitude is, YIRVAGUL_GIVEN_PLUS, _MINUS or _REAL */
    YIRVAGUL_ANSWER_MAGNITUDE = 7 /* STOP: the number that the leaf was given, without its sign; or the 64 bits of a real */
};

/* STOP carries the number as it stood in the source leaf, before it was clamped: an enum's is the source's number, not the destination's. Where the source
 * leaf is a real it is given as its 64 bits, whatever it goes to; everywhere else, also on the way to a real, as a whole number from -2^63 to 2^64 - 1. */
enum {
    YIRVAGUL_GIVEN_PLUS = 0,  /* the number is the magnitude: 0 to 2^64 - 1 */
    YIRVAGUL_GIVEN_MINUS = 1, /* it is minus the magnitude: -2^63 to -1 */
    YIRVAGUL_GIVEN_REAL = 2   /* the magnitude is the 64 bits of a double, those of a not-a-number too */
};

/* Kinds of exception, and what clamping writes. A leaf raises at most one. */
enum {
    YIRVAGUL_ABOVE = 1,        /* the number is above the destination's range, or is +infinity: the largest is written */
    YIRVAGUL_BELOW = 2,        /* it is below it, or is -infinity: the smallest is written */
    YIRVAGUL_NO_SYMBOL = 3,    /* an enum's number has no symbol in the source: all significant bits are one */
    YIRVAGUL_NOT_A_NUMBER = 4, /* a real for an int is a not-a-number (NaN), quiet or signalling: 0 is written */
    YIRVAGUL_TRUNCATED = 5,    /* a real for an int has a fraction, or is a negative zero: the fraction is dropped toward zero, or the sign is */
    YIRVAGUL_ROUNDED = 6       /* an int for a real is no double: the nearest double is written, of two as near the even one */
};

/* The name of a number that a call returns, as "DONE" or "SOURCE", for messages; "UNKNOWN" of a number that is none of them. C89 has no inline
 * functions, and so not this one. */
#if defined(__cplusplus) || (defined(__STDC_VERSION__) && __STDC_VERSION__ >= 199901L)
static inline const char *yirvagul_name(uint32_t number) {
    switch (number) {
    case YIRVAGUL_DONE: return "DONE";
    case YIRVAGUL_HANDLING: return "HANDLING";
    case YIRVAGUL_TABLE: return "TABLE";
    case YIRVAGUL_SOURCE: return "SOURCE";
    case YIRVAGUL_DESTINATION: return "DESTINATION";
    case YIRVAGUL_PATH: return "PATH";
    case YIRVAGUL_COUNT: return "COUNT";
    case YIRVAGUL_ROOM: return "ROOM";
    case YIRVAGUL_STOP: return "STOP";
    case YIRVAGUL_RANGE: return "RANGE";
    case YIRVAGUL_CHANNEL: return "CHANNEL";
    case YIRVAGUL_FULL: return "FULL";
    case YIRVAGUL_SYMBOLS: return "SYMBOLS";
    default: return "UNKNOWN";
    }
}
#endif

/* ---- converting ---- */

/* What handling says of numbers that do not fit, in the leaves where no word of a member says it. So YIRVAGUL_CLAMP can answer STOP, where a member of the
 * destination says `stop`, and YIRVAGUL_STOP_FIRST can be done with a count, of numbers where one says `clamp`. */
enum {
    YIRVAGUL_CLAMP = 0,     /* write what the kind of the exception says, and count it */
    YIRVAGUL_STOP_FIRST = 1 /* refuse with STOP before anything is written */
};

/* Converts count records of source into destination. The destination's own bytes are the background: bits that no matched leaf fixes stay, and so do
 * pads that are `keep`. Bytes behind the count records stay. The checks, in this order, are HANDLING, TABLE, SOURCE, DESTINATION, PATH, SYMBOLS, COUNT, ROOM
 * and STOP, for the four converting calls alike, but that a plain one has no HANDLING. Where members of the destination have words, handling 0 can answer STOP
 * and handling 1 can be done with a count. */
uint32_t yirvagul_convert_copying(const uint8_t *source_sheet, size_t source_sheet_len, const uint8_t *destination_sheet, size_t destination_sheet_len,
                                  uint64_t count, uint32_t handling, const uint8_t *source, size_t source_len, uint8_t *destination,
                                  size_t destination_len, uint32_t *table, size_t table_len, uint64_t answer[8]);

/* The same with YIRVAGUL_STOP_FIRST. At a STOP nothing was written, and the answer names the record, the byte, the kind and the number: correct the sheet or
 * the log there, or name YIRVAGUL_CLAMP in yirvagul_convert_copying. Done has a count above 0 where a member's word clamps. */
uint32_t yirvagul_convert_copying_plain(const uint8_t *source_sheet, size_t source_sheet_len, const uint8_t *destination_sheet,
                                        size_t destination_sheet_len, uint64_t count, const uint8_t *source, size_t source_len, uint8_t *destination,
                                        size_t destination_len, uint32_t *table, size_t table_len, uint64_t answer[8]);

/* Converts count records where they lie. With S and D for the sizes of a source and a destination record, the buffer holds count * S bytes of source
 * before the call; after it bytes 0 to count * D - 1 are the converted records, bytes up to count * S - 1 (if S is larger) are zero, and later ones
 * stay. The background, count * D bytes, gives the bits that no matched leaf fixes. Handling and words are as of yirvagul_convert_copying: handling 0 can
 * answer STOP, and handling 1 can be done with a count. */
uint32_t yirvagul_convert_in_place(const uint8_t *source_sheet, size_t source_sheet_len, const uint8_t *destination_sheet, size_t destination_sheet_len,
                                   uint64_t count, uint32_t handling, uint8_t *buffer, size_t buffer_len, const uint8_t *background,
                                   size_t background_len, uint32_t *table, size_t table_len, uint64_t answer[8]);

/* The same with YIRVAGUL_STOP_FIRST. At a STOP nothing was written, and the answer names the record, the byte, the kind and the number: correct the sheet or
 * the log there, or name YIRVAGUL_CLAMP in yirvagul_convert_in_place. Done has a count above 0 where a member's word clamps. */
uint32_t yirvagul_convert_in_place_plain(const uint8_t *source_sheet, size_t source_sheet_len, const uint8_t *destination_sheet,
                                         size_t destination_sheet_len, uint64_t count, uint8_t *buffer, size_t buffer_len, const uint8_t *background,
                                         size_t background_len, uint32_t *table, size_t table_len, uint64_t answer[8]);

/* ---- the report ---- */

/* A memory of so many words, and an output of so many bytes, serve any reader's sheet: 4,096 int leaves of one byte. */
#define YIRVAGUL_REPORT_WORDS (2 + 4 * 4096)
#define YIRVAGUL_REPORT_BYTES (30 + 4096 * 76)

/* Where a report's words lie in its memory: two for all, then four for each int leaf of the reader's sheet, in byte order. */
enum {
    YIRVAGUL_REPORT_RECORDS = 0,    /* the records of all logs */
    YIRVAGUL_REPORT_EXCEPTIONS = 1, /* the leaves in them that raised an exception, of every class */
    YIRVAGUL_REPORT_LEAVES = 2,     /* the first word of the first leaf */
    YIRVAGUL_REPORT_LEAF_WORDS = 4  /* a leaf's words: lowest, highest, sum, samples */
};

/* Adds a log to a report and writes what the report then says. The memory is the report: zeros before its first log, and afterwards as the last call left
 * it, always with the same reader's sheet. Each log may have a source sheet of its own.
 *
 * The count records of the log are converted to the reader's layout as yirvagul_convert_in_place does it with YIRVAGUL_CLAMP and without the words of the
 * reader's members: every number that does not fit is clamped, and no report answers STOP. The buffer is left as that call leaves it. The numbers that then
 * stand in a matched int leaf are its samples: its lowest, highest, sum and number of samples follow them. A number that was clamped is a sample too, as is
 * the 0 of a not-a-number, and one exception more. A leaf that the log does not match gets none. Reals of the reader's sheet have no line and no words of the
 * memory, as bits and enums have none; their exceptions are counted.
 *
 * The output has a header, `at`, `lowest`, `highest`, `sum` and `samples` parted by tabs, and a line for each int leaf of the reader's sheet, in byte order,
 * in decimal; `-` stands for lowest and highest where there is no sample. Done gives the output's length; bytes past it stay. A count of 0 adds nothing and
 * writes what the report says.
 *
 * A log may be cut between records, anywhere: where no call is refused, memory and last output are the same. So a log of any length goes in parts.
 *
 * With L int leaves in the reader's sheet, the memory has at least 2 + 4 * L words; words behind them are neither read nor changed. The checks, in this
 * order, are TABLE, SOURCE, DESTINATION (the reader's sheet), CHANNEL, PATH, SYMBOLS, COUNT, ROOM (log, background, memory), FULL, ROOM (output). A refusal
 * leaves log, memory and output as they were. */
uint32_t yirvagul_report(const uint8_t *source_sheet, size_t source_sheet_len, const uint8_t *reader_sheet, size_t reader_sheet_len, uint64_t count,
                         uint8_t *log, size_t log_len, const uint8_t *background, size_t background_len, int64_t *memory, size_t memory_len,
                         uint8_t *output, size_t output_len, uint32_t *table, size_t table_len, uint64_t answer[8]);

/* ---- comparing two logs ---- */

/* A list of k differences has at most YIRVAGUL_COMPARE_HEADER_BYTES + k * YIRVAGUL_COMPARE_LINE_BYTES bytes: a record's number is at most 65,535, a byte at
 * most 4,095, a number has at most 20 characters with its minus, and four separators stand in a line. Of count records there are at most count differences
 * for each leaf of the second sheet. */
#define YIRVAGUL_COMPARE_HEADER_BYTES 23
#define YIRVAGUL_COMPARE_LINE_BYTES 53

/* Lists where two logs of count records differ, each with a sheet of its own. Compared are the leaves of the second sheet that the first one matches, each
 * with the leaf that a conversion from the first sheet to the second would give it; nothing is converted:
 *   - ints and bits by their numbers, exactly, whatever their sizes, orders, offsets, precisions and signs;
 *   - enums by symbol. A number without a symbol equals only the same number without one, and differs from every number that has one. A symbol that the
 *     second sheet lacks differs from every number there: no comparison answers SYMBOLS;
 *   - a real and a real by their 64 bits: a not-a-number equals one of the same bits, and -0.0 differs from 0.0;
 *   - a real and an int by exact worth: -0.0 equals 0, and a fraction, an infinity or a not-a-number differs from every int.
 * Pads, gaps, and members that only one of the sheets has, are not looked at.
 *
 * The list has a header, `record`, `at`, `first` and `second` parted by tabs, and a line for each difference, by record and then by byte: the record's number,
 * from 0, the leaf's first byte in the second log's record, and the two numbers, in decimal with a minus where they are negative; a real's is its 64 bits,
 * as an unsigned number. Every difference is there, and none twice. Done gives the list's length, which is YIRVAGUL_COMPARE_HEADER_BYTES exactly if nothing
 * differs; bytes past the list stay.
 *
 * Neither log is written; they may be one buffer. The checks, in this order, are TABLE, SOURCE (the first sheet), DESTINATION (the second), PATH, COUNT, ROOM
 * (the first log under count * S bytes, or the second under count * D), ROOM (the list). A refusal leaves the list as it was. Logs may be cut between records,
 * both at the same one: the lists of the parts have the same lines, with records counted from each part's first. */
uint32_t yirvagul_compare(const uint8_t *first_sheet, size_t first_sheet_len, const uint8_t *second_sheet, size_t second_sheet_len, uint64_t count,
                          const uint8_t *first, size_t first_len, const uint8_t *second, size_t second_len, uint8_t *list, size_t list_len,
                          uint32_t *table, size_t table_len, uint64_t answer[8]);

/* ---- which bits of the source show ---- */

/* A mask of this many bytes serves any two sheets. */
#define YIRVAGUL_MASK_BYTES 4096

/* Tells which bits of a source record a conversion between the two sheets can turn on: the significant bits of the matched source leaves. It writes one
 * source record's bytes into the mask. Bit q of mask byte j is one if bit q of byte j of a source record is such a bit, and zero if it is a pad bit, a bit
 * of a leaf that is not matched, or in no leaf. Bit 0 is the lowest bit of a byte, whatever the byte order of the leaf: a little-endian leaf of 12 bits at
 * offset 4 has f0 ff, a big-endian one ff f0. All 64 bits of a real are in the mask.
 *
 * Two sources with the same bits under the mask, in every record, convert alike: the same answer, and over the same background the same converted bytes.
 * And, where no word makes a matched leaf obey stop, each bit of the mask shows: there are two sources that differ in it alone and that convert otherwise
 * with YIRVAGUL_CLAMP, in the count or in the converted bytes. Only the bits of an enum without a value do not, where each number raises alike; in a leaf that
 * obeys stop its number can be what STOP names. The mask itself is the same whatever the words are.
 *
 * Done gives the mask's length, which is the size of a source record; bytes behind it stay. The checks, in this order, are TABLE, SOURCE, DESTINATION, PATH,
 * SYMBOLS and ROOM (a mask under one source record). A refusal leaves the mask as it was. The mask overlaps no other argument. */
uint32_t yirvagul_reach(const uint8_t *source_sheet, size_t source_sheet_len, const uint8_t *destination_sheet, size_t destination_sheet_len, uint8_t *mask,
                        size_t mask_len, uint32_t *table, size_t table_len, uint64_t answer[8]);

/* ---- the leaf list ---- */

/* A list buffer of this many bytes holds the list of any sheet: the header, and a line for each of 4,096 one-byte leaves. */
#define YIRVAGUL_LIST_BYTES (14 + 4096 * 12)

/* Writes every leaf of the sheet's type in byte order, a line each, under a header: `at`, `size` and `class` parted by tabs. Done gives the list's
 * length; bytes past it stay. Answers DONE, TABLE, SOURCE or ROOM. */
uint32_t yirvagul_leaf_list(const uint8_t *sheet, size_t sheet_len, uint8_t *list, size_t list_len, uint32_t *table, size_t table_len,
                            uint64_t answer[8]);

/* ---- the size of a record ---- */

/* Gives the size in bytes, 1 to 4,096, of one record of the sheet's type: n records take n times as many. Answers DONE, TABLE or SOURCE. */
uint32_t yirvagul_record_size(const uint8_t *sheet, size_t sheet_len, uint32_t *table, size_t table_len, uint64_t answer[8]);

/* ---- setters ---- */

/* A layout of an int or bits type as eight words. */
enum {
    YIRVAGUL_LAYOUT_CLASS = 0,     /* YIRVAGUL_INT or YIRVAGUL_BITS */
    YIRVAGUL_LAYOUT_SIZE = 1,      /* 1 to 8 bytes */
    YIRVAGUL_LAYOUT_ORDER = 2,     /* YIRVAGUL_LE or YIRVAGUL_BE */
    YIRVAGUL_LAYOUT_OFFSET = 3,    /* in bits; offset + precision is at most 8 * size */
    YIRVAGUL_LAYOUT_PRECISION = 4, /* 1 to 64 bits */
    YIRVAGUL_LAYOUT_LSB = 5,       /* the pad of the lower bits: YIRVAGUL_PAD_ZERO, _ONE or _KEEP */
    YIRVAGUL_LAYOUT_MSB = 6,       /* the pad of the higher bits */
    YIRVAGUL_LAYOUT_SIGN = 7       /* YIRVAGUL_UNSIGNED or YIRVAGUL_SIGNED; of a bits type, YIRVAGUL_UNSIGNED */
};

enum { YIRVAGUL_INT = 0, YIRVAGUL_BITS = 1 };
enum { YIRVAGUL_LE = 0, YIRVAGUL_BE = 1 };
enum { YIRVAGUL_PAD_ZERO = 0, YIRVAGUL_PAD_ONE = 1, YIRVAGUL_PAD_KEEP = 2 };
enum { YIRVAGUL_UNSIGNED = 0, YIRVAGUL_SIGNED = 1 };

/* Each setter edits the layout's words and returns DONE; or it returns RANGE and leaves them. RANGE is returned too where the given layout breaks the
 * rules above, or where a word or an argument is none of its codes. */

/* 1 to 8. Precision and offset shrink to what the size holds. */
uint32_t yirvagul_set_size(uint32_t layout[8], uint32_t size);
/* YIRVAGUL_LE or YIRVAGUL_BE. */
uint32_t yirvagul_set_order(uint32_t layout[8], uint32_t order);
/* Any offset, and a precision of 1 to 64: the layout has exactly these. Where they end past its size, that grows to the least that holds them; RANGE if it
 * would pass 8. */
uint32_t yirvagul_set_field(uint32_t layout[8], uint32_t offset, uint32_t precision);
/* YIRVAGUL_PAD_ZERO, YIRVAGUL_PAD_ONE or YIRVAGUL_PAD_KEEP, for the lower bits and for the higher ones. */
uint32_t yirvagul_set_pads(uint32_t layout[8], uint32_t lsb, uint32_t msb);
/* YIRVAGUL_UNSIGNED or YIRVAGUL_SIGNED; RANGE on a bits layout. */
uint32_t yirvagul_set_sign(uint32_t layout[8], uint32_t sign);

#ifdef __cplusplus
}
#endif

#endif
