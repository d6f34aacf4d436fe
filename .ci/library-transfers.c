/* Transfers: files and words at the edges of their ranges, memory that is refused, and two ends between which files move. */
#include <stdio.h>
#include <string.h>

#include "library-rows.h"

/* Whether the transfer from a number on came to this. */
static bool came_to(df1_end *end, uint32_t first, uint32_t words, uint32_t state, uint32_t number)
{
    df1_transfer pulled, pushed;
    uint8_t bytes[1];
    size_t length = 9;

    return df1_end_pulled(end, first, words, bytes, 0, &length, &pulled) == DF1_DONE && length == 0 && pulled.state == state &&
           pulled.number == number && pulled.sts == 0 && pulled.ext == 0 && df1_end_pushed(end, first, words, &pushed) == DF1_DONE &&
           pushed.state == state && pushed.number == number && pushed.sts == 0 && pushed.ext == 0;
}

/* Files and words at the edges of their ranges, and transfers for which numbers are left or not. */
static int edges(int kind)
{
    static const uint8_t command[1] = {0x06}, data[6002] = {0};
    static const uint32_t wrong[] = {0, 3001, 65536 + 1, 0xFFFFFFFF};
    df1_end end = DF1_NOTHING;
    df1_transfer came = {9, 9, 9, 9};
    uint32_t first = 9, number, at;
    uint8_t bytes[2] = {0xA5, 0xA5};
    size_t length = 9;

    ROW(made(kind, &end) == DF1_DONE);
    ROW(df1_end_pull(&end, 20, 1000, 0, &first) == DF1_BAD_FILE && df1_end_pull(&end, 20, 65535, 1, &first) == DF1_BAD_FILE);
    ROW(df1_end_push(&end, 20, 1000, data, 0, &first) == DF1_BAD_FILE);
    for (at = 0; at < COUNT(wrong); at++) {
        ROW(df1_end_pull(&end, 20, 999, wrong[at], &first) == DF1_BAD_WORDS);
        ROW(df1_end_pulled(&end, 1, wrong[at], bytes, 2, &length, &came) == DF1_BAD_WORDS);
        ROW(df1_end_pushed(&end, 1, wrong[at], &came) == DF1_BAD_WORDS);
    }
    ROW(df1_end_push(&end, 20, 999, data, 0, &first) == DF1_BAD_WORDS && df1_end_push(&end, 20, 999, data, 1, &first) == DF1_BAD_WORDS);
    ROW(df1_end_push(&end, 20, 999, data, 5999, &first) == DF1_BAD_WORDS);
    ROW(df1_end_push(&end, 20, 999, data, 6001, &first) == DF1_BAD_WORDS);
    ROW(df1_end_push(&end, 20, 999, data, 6002, &first) == DF1_BAD_WORDS);
    ROW(first == 9 && length == 9 && bytes[0] == 0xA5 && bytes[1] == 0xA5 && came.state == 9 && came.number == 9 && came.sts == 9 && came.ext == 9);
    ROW(came_to(&end, 0, 1, DF1_MISSING, 0) && came_to(&end, 1, 3000, DF1_MISSING, 1));
    ROW(came_to(&end, 0xFFFFFFFF, 3000, DF1_MISSING, 0xFFFFFFFF));
    ROW(df1_end_pull(&end, 20, 0, 1, &first) == DF1_DONE && first == 1 && came_to(&end, 1, 1, DF1_UNDER_WAY, 1));
    ROW(df1_end_pull(&end, 20, 999, 100, &first) == DF1_DONE && first == 2);
    ROW(df1_end_pull(&end, 20, 999, 101, &first) == DF1_DONE && first == 3);
    ROW(df1_end_pull(&end, 20, 999, 3000, &first) == DF1_DONE && first == 5 && came_to(&end, 5, 3000, DF1_UNDER_WAY, 5));
    ROW(df1_end_push(&end, 20, 0, data, 2, &first) == DF1_DONE && first == 35 && came_to(&end, 35, 1, DF1_UNDER_WAY, 35));
    ROW(df1_end_push(&end, 20, 999, data, 202, &first) == DF1_DONE && first == 36);
    ROW(df1_end_push(&end, 20, 999, data, 6000, &first) == DF1_DONE && first == 38 && came_to(&end, 38, 3000, DF1_UNDER_WAY, 38));
    for (at = 68; at <= 65506; at++)
        ROW(df1_end_issue(&end, 20, command, 1, &number) == DF1_DONE && number == at);
    ROW(df1_end_pull(&end, 20, 7, 2901, &first) == DF1_SPENT && df1_end_push(&end, 20, 7, data, 5802, &first) == DF1_SPENT);
    ROW(df1_end_pull(&end, 20, 1000, 2901, &first) == DF1_BAD_FILE && df1_end_pull(&end, 20, 7, 3001, &first) == DF1_BAD_WORDS);
    ROW(first == 38 && df1_end_outcome(&end, 65507, &number) == DF1_NO_COMMAND);
    ROW(df1_end_pull(&end, 20, 7, 2900, &first) == DF1_DONE && first == 65507 && came_to(&end, 65507, 2900, DF1_UNDER_WAY, 65507));
    ROW(df1_end_pull(&end, 20, 7, 1, &first) == DF1_SPENT && first == 65507);
    return df1_end_free(&end) == DF1_DONE ? 0 : __LINE__;
}

/* Each allocation of a transfer is refused in turn: none of its orders is issued then, and all of them once there is memory. */
static int without_memory(void)
{
    static const uint8_t data[6000] = {0};
    df1_end end = DF1_NOTHING;
    uint32_t first = 0, outcome = 9, code, round;
    long granted;

    ROW(made(0, &end) == DF1_DONE);
    for (round = 0; round < 20; round++) {
        code = DF1_NO_MEMORY;
        for (granted = 0; code == DF1_NO_MEMORY; granted++) {
            ROW(df1_end_outcome(&end, 30 * round + 1, &outcome) == DF1_NO_COMMAND && first == (round == 0 ? 0 : 30 * round - 29));
            grants = granted;
            code = round % 2 == 0 ? df1_end_pull(&end, 2, 7, 3000, &first) : df1_end_push(&end, 2, 7, data, 6000, &first);
            grants = -1;
        }
        ROW(code == DF1_DONE && first == 30 * round + 1 && (round != 0 || granted > 1));
        ROW(df1_end_outcome(&end, 30 * round + 30, &outcome) == DF1_DONE && outcome == DF1_WAITING);
    }
    return df1_end_free(&end) == DF1_DONE ? 0 : __LINE__;
}

/* ---- Two ends ---- */

#define WORDS 150

/* Takes the bytes that one end has to give to the other, and those of the other to the one, until both are quiet. */
static int carry(df1_end *ends)
{
    df1_step step;
    df1_out out;
    bool quiet[2] = {false, false};
    int who;

    while (!quiet[0] || !quiet[1]) {
        for (who = 0; who < 2; who++) {
            ROW(df1_end_take(&ends[who], &out) == DF1_DONE);
            ROW(!out.there || df1_end_byte(&ends[1 - who], out.byte, &step) == DF1_DONE);
        }
        for (who = 0; who < 2; who++)
            ROW(df1_end_quiet(&ends[who], &quiet[who]) == DF1_DONE);
    }
    return 0;
}

/* End 0 is node 1, and end 1 is node 2 with a file N7 of 150 words; the same 150 words go there and back. */
static int make_two(df1_end *ends)
{
    static const df1_duplex link = {false, false, 10, 3, 3, {0}};
    static const df1_file file = {7, DF1_INTEGER, WORDS};
    static const df1_word no_word = {0, 0, 0};
    df1_node node = {1, 1, 100, 2, false, 0, 0, 0, {0}};
    uint8_t no_block = 0;

    ROW(df1_duplex_make(&link, &node, &file, 0, &no_word, 0, &no_block, 0, &ends[0]) == DF1_DONE);
    node.address = 2;
    ROW(df1_duplex_make(&link, &node, &file, 1, &no_word, 0, &no_block, 0, &ends[1]) == DF1_DONE);
    return 0;
}

/* Whether a transfer is told to be in this state. */
static bool is_told(const df1_transfer *came, uint32_t state, uint32_t number, uint8_t sts, uint8_t ext)
{
    return came->state == state && came->number == number && came->sts == sts && came->ext == ext;
}

/* An echo goes first, so that the orders of the first transfer are the commands 2 and 3. */
static int there_and_back(df1_end *ends)
{
    static const uint8_t echo[] = {0x06, 0x00, 0x55};
    df1_transfer came = {9, 9, 9, 9};
    uint8_t data[2 * WORDS], read[2 * WORDS];
    uint32_t first = 9, number;
    uint16_t value;
    size_t at, length = 9;

    for (at = 0; at < 2 * WORDS; at++)
        data[at] = (uint8_t)(at * 7 + at / 256);
    memset(read, 0xA5, sizeof read);
    ROW(df1_end_issue(&ends[0], 2, echo, 3, &number) == DF1_DONE && number == 1);
    ROW(df1_end_push(&ends[0], 2, 7, data, 2 * WORDS, &first) == DF1_DONE && first == 2);
    ROW(df1_end_pushed(&ends[0], 2, WORDS, &came) == DF1_DONE && is_told(&came, DF1_UNDER_WAY, 2, 0, 0));
    ROW(carry(ends) == 0);
    ROW(df1_end_pushed(&ends[0], 2, WORDS, &came) == DF1_DONE && is_told(&came, DF1_WHOLE, 0, 0, 0));
    ROW(df1_end_pushed(&ends[0], 3, WORDS, &came) == DF1_DONE && is_told(&came, DF1_MISSING, 4, 0, 0));
    for (at = 0; at < WORDS; at++)
        ROW(df1_end_word(&ends[1], 7, (uint32_t)at, &value) == DF1_DONE && value == data[2 * at] + 256 * data[2 * at + 1]);
    ROW(df1_end_pull(&ends[0], 2, 7, WORDS, &first) == DF1_DONE && first == 4);
    ROW(df1_end_pulled(&ends[0], 4, WORDS, read, 0, &length, &came) == DF1_DONE && length == 0);
    ROW(is_told(&came, DF1_UNDER_WAY, 4, 0, 0) && carry(ends) == 0);
    memset(&came, 9, sizeof came);
    ROW(df1_end_pulled(&ends[0], 4, WORDS, read, 2 * WORDS - 1, &length, &came) == DF1_NO_ROOM && length == 2 * WORDS);
    ROW(read[0] == 0xA5 && read[2 * WORDS - 2] == 0xA5 && is_told(&came, 0x09090909, 0x09090909, 9, 9));
    ROW(df1_end_pulled(&ends[0], 4, WORDS, read, 2 * WORDS, &length, &came) == DF1_DONE && length == 2 * WORDS);
    ROW(is_told(&came, DF1_WHOLE, 0, 0, 0) && memcmp(read, data, sizeof data) == 0);
    ROW(df1_end_pushed(&ends[0], 4, WORDS, &came) == DF1_DONE && is_told(&came, DF1_ODD, 4, 0, 0));
    ROW(df1_end_pulled(&ends[0], 2, WORDS, read, 0, &length, &came) == DF1_DONE && is_told(&came, DF1_ODD, 2, 0, 0));
    return 0;
}

/* There is no file 9, and no word 150; and a line that carries nothing. */
static int refused_and_missing(df1_end *ends)
{
    df1_transfer came;
    df1_turn turn;
    uint8_t read[302];
    uint32_t first, gone[16];
    size_t length;
    int tick;

    ROW(df1_end_pull(&ends[0], 2, 9, WORDS, &first) == DF1_DONE && first == 6 && carry(ends) == 0);
    ROW(df1_end_pulled(&ends[0], 6, WORDS, read, 0, &length, &came) == DF1_DONE && length == 0);
    ROW(is_told(&came, DF1_REFUSED, 6, 0xF0, 0x06));
    ROW(df1_end_pull(&ends[0], 2, 7, WORDS + 1, &first) == DF1_DONE && first == 8 && carry(ends) == 0);
    ROW(df1_end_pulled(&ends[0], 8, WORDS + 1, read, 302, &length, &came) == DF1_DONE && length == 0);
    ROW(is_told(&came, DF1_REFUSED, came.number, 0xF0, 0x0A) && (came.number == 8 || came.number == 9));
    ROW(df1_end_pull(&ends[0], 2, 7, WORDS, &first) == DF1_DONE && first == 10);
    for (tick = 0; tick < 100; tick++) {
        df1_out out;

        do
            ROW(df1_end_take(&ends[0], &out) == DF1_DONE);
        while (out.there);
        ROW(df1_end_tick(&ends[0], &turn, gone, 16) == DF1_DONE && turn.gone_count == 0);
    }
    ROW(df1_end_pulled(&ends[0], 10, WORDS, read, 0, &length, &came) == DF1_DONE && is_told(&came, DF1_MISSING, 10, 0, 0));
    return 0;
}

static int moves(void)
{
    df1_end ends[2] = {DF1_NOTHING, DF1_NOTHING};

    ROW(make_two(ends) == 0 && there_and_back(ends) == 0 && refused_and_missing(ends) == 0);
    return df1_end_free(&ends[0]) == DF1_DONE && df1_end_free(&ends[1]) == DF1_DONE ? 0 : __LINE__;
}

int transfers(void)
{
    int kind, failed = moves();

    for (kind = 0; kind < 3 && failed == 0; kind++)
        failed = edges(kind);
    failed = failed != 0 ? failed : without_memory();
    if (failed != 0)
        printf("a transfer fails at library-transfers.c:%d\n", failed);
    return failed;
}
