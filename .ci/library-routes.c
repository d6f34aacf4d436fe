/* A master and two stations on a polled line: messages that are carried from station to station, and ticks of stations. */
#include <stdio.h>
#include <string.h>

#include "library-rows.h"

/* What three ends did: end 0 is the master, at address 0; end 1 is station 3, and end 2 station 5. */
struct line {
    df1_end ends[3];
    int did[3][5];    /* how often each did each of df1_did */
    uint32_t gone[3]; /* the last command that each left unanswered */
    bool is_cut;      /* whether station 5 hears nothing */
};

static int make_line(struct line *line, uint32_t routes)
{
    static const uint8_t stations[] = {3, 5};
    static const df1_file file = {7, DF1_INTEGER, 16};
    static const df1_word no_word = {0, 0, 0};
    static const df1_slave slave = {false, 3, {0}};
    df1_master master = {false, 10, 1, 10, 0, {0}};
    df1_node node = {0, 1, 100, 2, false, 0, 0, 0, {0}};
    uint8_t no_block = 0;
    int who;

    memset(line, 0, sizeof *line);
    master.routes = routes;
    ROW(df1_master_make(&master, stations, 2, &node, &file, 0, &no_word, 0, &no_block, 0, &line->ends[0]) == DF1_DONE);
    for (who = 1; who < 3; who++) {
        node.address = stations[who - 1];
        ROW(df1_slave_make(&slave, &node, &file, 1, &no_word, 0, &no_block, 0, &line->ends[who]) == DF1_DONE);
    }
    return 0;
}

static int hears(struct line *line, int who, uint8_t byte)
{
    df1_step step;

    ROW(df1_end_byte(&line->ends[who], byte, &step) == DF1_DONE);
    ROW((step.did == DF1_NOT_ACCEPTED) == (step.act != DF1_ACT_ACCEPT) && step.did <= DF1_ROUTED);
    ROW(step.did != DF1_ROUTED || (who == 0 && step.did_command == 0));
    line->did[who][step.did]++;
    return 0;
}

/* The master's bytes go to both stations, and a station's to the master, until all are quiet. */
static int carry(struct line *line)
{
    df1_out out;
    bool quiet = false, is_quiet;
    int who;

    while (!quiet) {
        quiet = true;
        for (who = 0; who < 3; who++) {
            ROW(df1_end_take(&line->ends[who], &out) == DF1_DONE);
            if (out.there && who == 0)
                ROW(hears(line, 1, out.byte) == 0 && (line->is_cut || hears(line, 2, out.byte) == 0));
            if (out.there && who != 0)
                ROW(hears(line, 0, out.byte) == 0);
        }
        for (who = 0; who < 3; who++) {
            ROW(df1_end_quiet(&line->ends[who], &is_quiet) == DF1_DONE);
            quiet = quiet && is_quiet;
        }
    }
    return 0;
}

static int pass(struct line *line, int ticks)
{
    df1_turn turn;
    uint32_t gone[16];
    int at, who;

    for (at = 0; at < ticks; at++) {
        for (who = 0; who < 3; who++) {
            ROW(df1_end_tick(&line->ends[who], &turn, gone, 16) == DF1_DONE && turn.gone_count <= 1);
            ROW(who == 0 || (turn.turn == DF1_TURN_STILL && turn.news == DF1_NO_NEWS && turn.news_command == 0));
            line->gone[who] = turn.gone_count == 1 ? gone[0] : line->gone[who];
        }
        ROW(carry(line) == 0);
    }
    return 0;
}

/* Whether a command of station 3 came to this. */
static bool has_come_to(struct line *line, uint32_t number, uint32_t wanted)
{
    uint32_t outcome;

    return df1_end_outcome(&line->ends[1], number, &outcome) == DF1_DONE && outcome == wanted;
}

static int let_go(struct line *line)
{
    int who;

    for (who = 0; who < 3; who++)
        ROW(df1_end_free(&line->ends[who]) == DF1_DONE);
    return 0;
}

static const uint8_t echo[] = {0x06, 0x00, 0x55};

/* Station 3 asks station 5 for an echo: the command and its reply are carried. */
static int carried(void)
{
    static const uint8_t wanted[] = {0x03, 0x05, 0x46, 0x00, 0x01, 0x00, 0x55};
    struct line line;
    uint8_t reply[7];
    uint32_t number;
    size_t length;

    ROW(make_line(&line, 1) == 0 && df1_end_issue(&line.ends[1], 5, echo, 3, &number) == DF1_DONE && pass(&line, 40) == 0);
    ROW(line.did[0][DF1_ROUTED] == 2 && line.did[0][DF1_STRAY] == 0 && line.did[0][DF1_EXECUTED] == 0);
    ROW(line.did[2][DF1_EXECUTED] == 1 && line.did[1][DF1_ANSWERED] == 1 && has_come_to(&line, 1, DF1_REPLIED));
    ROW(df1_end_reply(&line.ends[1], 1, reply, 7, &length) == DF1_DONE && length == 7 && memcmp(reply, wanted, 7) == 0);
    return let_go(&line);
}

/* A master that carries nothing takes each message as its node's. */
static int not_carried(void)
{
    struct line line;
    uint32_t number;

    ROW(make_line(&line, 0) == 0 && df1_end_issue(&line.ends[1], 5, echo, 3, &number) == DF1_DONE && pass(&line, 40) == 0);
    ROW(line.did[0][DF1_ROUTED] == 0 && line.did[0][DF1_EXECUTED] == 1 && line.did[2][DF1_EXECUTED] == 0);
    return let_go(&line);
}

/* A command whose message never comes to station 5 is unanswered at the 100th tick of station 3, and the next one goes. */
static int lost(void)
{
    struct line line;
    uint32_t number;

    ROW(make_line(&line, 1) == 0);
    line.is_cut = true;
    ROW(df1_end_issue(&line.ends[1], 5, echo, 3, &number) == DF1_DONE && number == 1);
    ROW(df1_end_issue(&line.ends[1], 0, echo, 3, &number) == DF1_DONE && number == 2 && pass(&line, 40) == 0);
    ROW(has_come_to(&line, 1, DF1_OUT) && has_come_to(&line, 2, DF1_WAITING) && line.gone[1] == 0 && pass(&line, 110) == 0);
    ROW(line.gone[0] == 0 && line.gone[1] == 1 && line.gone[2] == 0 && line.did[0][DF1_ROUTED] == 1);
    ROW(has_come_to(&line, 1, DF1_UNANSWERED) && has_come_to(&line, 2, DF1_REPLIED) && line.did[0][DF1_EXECUTED] == 1);
    return let_go(&line);
}

int routes(void)
{
    int failed = carried();

    failed = failed != 0 ? failed : not_carried();
    failed = failed != 0 ? failed : lost();
    if (failed != 0)
        printf("a route fails at library-routes.c:%d\n", failed);
    return failed;
}
