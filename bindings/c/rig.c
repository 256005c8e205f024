/* Two records of a rig's log: three pressures of 12 bits and a valve, converted for a customer who wants whole bytes. */
#include <inttypes.h>
#include <stdio.h>

#include "yirvagul.h"

static const char rig[] = "int\t2\tBE\t4\t12\tzero\tzero\tunsigned\n"
                          "int\t1\tLE\t0\t8\tzero\tzero\tsigned\n"
                          "enum\t1\n"
                          "value\topen\t0\n"
                          "value\tshut\t1\n"
                          "array\t0\t3\n"
                          "comp\t8\n"
                          "member\tboost\t0\t3\n"
                          "member\tvalve\t7\t2\n";

static const char customer[] = "int\t2\tLE\t0\t16\tzero\tzero\tunsigned\n"
                               "int\t1\tLE\t0\t8\tzero\tzero\tunsigned\n"
                               "enum\t1\n"
                               "value\tshut\t0\n"
                               "value\topen\t1\n"
                               "array\t0\t3\n"
                               "comp\t7\n"
                               "member\tvalve\t0\t2\n"
                               "member\tboost\t1\t3\n";

static uint32_t table[YIRVAGUL_TABLE_WORDS];

int main(void) {
    /* The pressures 100, 2000 and 4095 with the valve open; then 0, 1 and 2 with a valve number that no symbol has. */
    const uint8_t log[16] = {0x06, 0x40, 0x7d, 0x00, 0xff, 0xf0, 0x00, 0x00, 0x00, 0x00, 0x00, 0x10, 0x00, 0x20, 0x00, 0x07};
    uint8_t out[14] = {0};
    uint64_t answer[8];
    int handling, i;
    for (handling = YIRVAGUL_STOP_FIRST; handling >= YIRVAGUL_CLAMP; handling--) {
        uint32_t number = yirvagul_convert_copying((const uint8_t *)rig, sizeof rig - 1, (const uint8_t *)customer, sizeof customer - 1, 2,
                                                   (uint32_t)handling, log, sizeof log, out, sizeof out, table, YIRVAGUL_TABLE_WORDS, answer);
        if (number == YIRVAGUL_STOP)
            printf("stopped at record %d, byte %d by the number %s%" PRIu64 "\n", (int)answer[YIRVAGUL_ANSWER_RECORD], (int)answer[YIRVAGUL_ANSWER_AT],
                   answer[YIRVAGUL_ANSWER_GIVEN] == YIRVAGUL_GIVEN_MINUS ? "-" : "", answer[YIRVAGUL_ANSWER_MAGNITUDE]);
        else if (number != YIRVAGUL_DONE) {
            fprintf(stderr, "%s\n", yirvagul_name(number));
            return 1;
        }
    }
    printf("%d exception\n", (int)answer[YIRVAGUL_ANSWER_COUNT]);
    for (i = 0; i < 14; i++) printf("%02x%s", out[i], i % 7 == 6 ? "\n" : " ");
    return 0;
}
