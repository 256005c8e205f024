/* A season of three logs of two rigs, for a reader who wants the boost pressure and the oil temperature. */
#include <stdio.h>
#include <string.h>

#include "yirvagul.h"

static const char reader[] = "int\t2\tLE\t0\t16\tzero\tzero\tunsigned\n"
                             "int\t1\tLE\t0\t8\tzero\tzero\tsigned\n"
                             "comp\t3\n"
                             "member\tboost\t0\t0\n"
                             "member\toil\t2\t1\n";

/* The old rig has no oil sensor; the new one has a wider one. */
static const char old_rig[] = "int\t2\tBE\t4\t12\tzero\tzero\tunsigned\n"
                              "comp\t2\n"
                              "member\tboost\t0\t0\n";
static const char new_rig[] = "int\t2\tBE\t0\t16\tzero\tzero\tunsigned\n"
                              "int\t2\tBE\t0\t16\tzero\tzero\tsigned\n"
                              "comp\t4\n"
                              "member\toil\t0\t1\n"
                              "member\tboost\t2\t0\n";

static uint32_t table[YIRVAGUL_TABLE_WORDS];
static int64_t memory[YIRVAGUL_REPORT_WORDS]; /* the report: zeros at first */
static uint8_t output[YIRVAGUL_REPORT_BYTES];

/* Adds count records, in a buffer with room for as many of the reader's. Gives the output's length, or 0 if it was refused. */
static int add(const char *sheet, uint64_t count, uint8_t *log, size_t log_len) {
    static const uint8_t background[64]; /* no report turns on it */
    uint64_t answer[8];
    uint32_t number = yirvagul_report((const uint8_t *)sheet, strlen(sheet), (const uint8_t *)reader, strlen(reader), count, log, log_len, background,
                                      sizeof background, memory, YIRVAGUL_REPORT_WORDS, output, sizeof output, table, YIRVAGUL_TABLE_WORDS, answer);
    if (number != YIRVAGUL_DONE) {
        fprintf(stderr, "%s\n", yirvagul_name(number));
        return 0;
    }
    return (int)answer[YIRVAGUL_ANSWER_COUNT];
}

int main(void) {
    uint8_t first[6] = {0x06, 0x40, 0x7d, 0x00};                         /* 100, 2000 */
    uint8_t second[8] = {0x00, 0x5a, 0x03, 0xe8, 0x00, 0x91, 0x04, 0xb0}; /* 90 with 1000, and 145, which no signed byte holds, with 1200 */
    uint8_t third[3] = {0xff, 0xf0};                                     /* 4095 */
    int len;
    if (!add(old_rig, 2, first, sizeof first) || !add(new_rig, 2, second, sizeof second)) return 1;
    len = add(old_rig, 1, third, sizeof third);
    if (!len) return 1;
    printf("%d records, %d exception\n", (int)memory[YIRVAGUL_REPORT_RECORDS], (int)memory[YIRVAGUL_REPORT_EXCEPTIONS]);
    printf("%.*s", len, (const char *)output);
    return 0;
}
