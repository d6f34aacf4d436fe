/* Reads N7:0 of node 1 once a second, and prints it on standard error. The line is standard input and output. */
#include <poll.h>
#include <stdio.h>
#include <unistd.h>

#include "df1.h"

/* Prints the word of a reply, or the status with which the controller refused. */
static void print_reply(const uint8_t *reply, size_t length)
{
    df1_answer answer;

    if (df1_reply_read(reply, length, &answer) != DF1_DONE)
        return;
    if (answer.sts == 0 && answer.data_length == 2)
        fprintf(stderr, "N7:0 = %d\n", (int16_t)(reply[answer.data] | reply[answer.data + 1] << 8));
    else
        fprintf(stderr, "N7:0: STS %02X, EXT STS %02X\n", answer.sts, answer.ext);
}

int main(void)
{
    df1_duplex link = DF1_DUPLEX_INIT;
    df1_node node = DF1_NODE_INIT(0); /* the first TNS is 1; docs/LIBRARY.md has what a restart does */
    df1_end end = DF1_NOTHING;
    df1_address n7_0;
    uint32_t number = 0, outcome, gone[16], ticks = 0;
    uint8_t byte, read_n7_0[245], reply[250];
    size_t read_length, length;
    df1_step step;
    df1_turn turn;
    df1_out out;

    if (df1_address_read("N7:0", 4, &n7_0) != DF1_DONE
        || df1_payload_read(DF1_LOGICAL_3, &n7_0, 1, read_n7_0, sizeof read_n7_0, &read_length) != DF1_DONE
        || df1_duplex_make(&link, &node, NULL, 0, NULL, 0, NULL, 0, &end) != DF1_DONE)
        return 1;
    for (;;) {
        struct pollfd line = {STDIN_FILENO, POLLIN, 0};

        if (poll(&line, 1, 100) > 0) {
            if (read(STDIN_FILENO, &byte, 1) != 1)
                return 0;
            df1_end_byte(&end, byte, &step);
            if (step.did == DF1_ANSWERED && df1_end_reply(&end, step.did_command, reply, 250, &length) == DF1_DONE)
                print_reply(reply, length);
        } else { /* a tick is 100 ms without a byte; with a clock it would be 100 ms */
            /* once a second, where the last one has its outcome, since one that waits can't be withdrawn */
            bool ended = number == 0 || (df1_end_outcome(&end, number, &outcome) == DF1_DONE && outcome > DF1_OUT);
            if (ticks++ % 10 == 0 && ended)
                df1_end_issue(&end, 1, read_n7_0, read_length, &number);
            df1_end_tick(&end, &turn, gone, 16);
        }
        while (df1_end_take(&end, &out) == DF1_DONE && out.there)
            if (write(STDOUT_FILENO, &out.byte, 1) != 1)
                return 1;
    }
}
