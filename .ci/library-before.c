/* A program that was written with the first header, DF1_VERSION 0x000100, and knows no later one: it is compiled with that header,
 * which .ci/header-0.1.0.h keeps, and has to run on each later library of the same number. Two ends talk over a line that loses nothing,
 * and what is told has to be what the header says. Ends with 0 where it is. */
#include <stdio.h>
#include <string.h>

#include "df1.h"

#define MUST(holds)                                        \
    do {                                                   \
        if (!(holds)) {                                    \
            printf("library-before.c:%d fails\n", __LINE__); \
            return 1;                                      \
        }                                                  \
    } while (0)

/* All that one end has to give goes to the other one. */
static int carry(df1_end *from, df1_end *to, df1_step *step)
{
    uint8_t bytes[64];
    df1_given given = {0, false, false};
    size_t at, used;

    while (!given.quiet) {
        MUST(df1_end_take_bytes(from, bytes, sizeof bytes, &given) == DF1_DONE);
        for (at = 0; at < given.length; at += used)
            MUST(df1_end_bytes(to, bytes + at, given.length - at, &used, step) == DF1_DONE);
    }
    return 0;
}

/* A command of the first end is executed at the second, and answered. */
static int talk(df1_end *near, df1_end *far)
{
    static const uint8_t write_1234[] = {0x0F, 0xAA, 2, 7, DF1_INTEGER, 0, 0, 0x34, 0x12};
    df1_step step;
    df1_turn turn;
    uint8_t bytes[250];
    uint32_t number, outcome, gone[16];
    uint16_t value, values[2];
    size_t length;
    bool quiet;

    MUST(df1_end_issue(near, 1, write_1234, sizeof write_1234, &number) == DF1_DONE && number == 1);
    MUST(df1_end_tick(near, &turn, gone, 16) == DF1_DONE && turn.turn == DF1_TURN_STILL && turn.gone_count == 0);
    MUST(carry(near, far, &step) == 0 && step.act == DF1_ACT_ACCEPT && step.did == DF1_EXECUTED && step.whole);
    MUST(df1_end_body(far, bytes, sizeof bytes, &length) == DF1_DONE && length == 14);
    MUST(carry(far, near, &step) == 0 && step.did == DF1_ANSWERED && step.did_command == 1);
    MUST(carry(near, far, &step) == 0 && step.act == DF1_ACT_PEER_ACK);
    MUST(df1_end_quiet(near, &quiet) == DF1_DONE && quiet);
    MUST(df1_end_outcome(near, 1, &outcome) == DF1_DONE && outcome == DF1_REPLIED);
    MUST(df1_end_reply(near, 1, bytes, sizeof bytes, &length) == DF1_DONE && length == 6 && bytes[3] == 0);
    MUST(df1_end_word(far, 7, 0, &value) == DF1_DONE && value == 0x1234);
    MUST(df1_end_set_word(far, 7, 1, 0x5678) == DF1_DONE && df1_end_words(far, 7, 0, values, 2) == DF1_DONE);
    MUST(values[0] == 0x1234 && values[1] == 0x5678);
    return 0;
}

int main(void)
{
    static const df1_file n7 = {7, DF1_INTEGER, 16};
    df1_duplex link = DF1_DUPLEX_INIT;
    df1_node near_node = DF1_NODE_INIT(0), far_node = DF1_NODE_INIT(1);
    df1_end near = DF1_NOTHING, far = DF1_NOTHING;
    df1_decoder decoder = DF1_NOTHING;
    df1_hearing hearing;
    char text[80];
    size_t length;

    MUST(df1_version() >= DF1_VERSION && df1_version() >> 8 == DF1_VERSION >> 8);
    MUST(df1_duplex_make(&link, &near_node, NULL, 0, NULL, 0, NULL, 0, &near) == DF1_DONE);
    MUST(df1_duplex_make(&link, &far_node, &n7, 1, NULL, 0, NULL, 0, &far) == DF1_DONE);
    MUST(talk(&near, &far) == 0);
    MUST(df1_decoder_make(false, &decoder) == DF1_DONE && df1_decoder_byte(&decoder, 0x55, &hearing) == DF1_DONE);
    MUST(hearing.heard == DF1_HEARD_STRAY && hearing.byte == 0x55 && df1_decoder_free(&decoder) == DF1_DONE);
    MUST(df1_code_text(DF1_NO_WORD, text, sizeof text, &length) == DF1_DONE && strcmp(text, "there is no such file or word") == 0);
    MUST(df1_end_free(&near) == DF1_DONE && df1_end_free(&far) == DF1_DONE && df1_end_free(&far) == DF1_NO_HANDLE);
    printf("a program of 0.1.0: ok\n");
    return 0;
}
