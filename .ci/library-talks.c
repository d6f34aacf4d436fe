/* Ends that talk, row by row: what each hears and gives, in bytes that docs/PROTOCOL.md's tables make, computed by hand. */
#include <stdio.h>
#include <string.h>

#include "library-rows.h"

struct row {
    int who;           /* the place of the end */
    int ticks;         /* that pass first */
    uint32_t turn;     /* what the last of them did */
    const char *hears; /* the bytes that it hears then */
    uint32_t act, did; /* what it made of the last of them */
    uint32_t news;     /* what became known at that byte, or where there is none at that tick */
    uint32_t command;  /* which command `did` or `news` names, or 0 */
    bool whole;        /* whether the last byte ended a good frame */
    const char *gives; /* all that it gives then */
};

#define STILL 0, DF1_TURN_STILL
#define NOTHING DF1_ACT_NOTHING, DF1_NOT_ACCEPTED, DF1_NO_NEWS, 0, false
#define ACK DF1_ACT_PEER_ACK, DF1_NOT_ACCEPTED, DF1_NO_NEWS, 0, false
#define NAK DF1_ACT_PEER_NAK, DF1_NOT_ACCEPTED, DF1_NO_NEWS, 0, false
#define ENQ DF1_ACT_PEER_ENQ, DF1_NOT_ACCEPTED, DF1_NO_NEWS, 0, false
#define DAMAGED DF1_ACT_DAMAGED, DF1_NOT_ACCEPTED, DF1_NO_NEWS, 0, false
#define EXECUTED DF1_ACT_ACCEPT, DF1_EXECUTED, DF1_NO_NEWS, 0, true
#define ANSWERED(command) DF1_ACT_ACCEPT, DF1_ANSWERED, DF1_NO_NEWS, command, true
#define STRAY DF1_ACT_ACCEPT, DF1_STRAY, DF1_NO_NEWS, 0, true
#define REPEAT DF1_ACT_REPEAT, DF1_NOT_ACCEPTED, DF1_NO_NEWS, 0, true
#define REFUSE DF1_ACT_REFUSE, DF1_NOT_ACCEPTED, DF1_NO_NEWS, 0, true
#define DROPPED(act) act, DF1_NOT_ACCEPTED, DF1_NEWS_DROPPED, 0, false
#define UNDELIVERED(act, command) act, DF1_NOT_ACCEPTED, DF1_NEWS_UNDELIVERED, command, false

/* What each end of the talk that is played has counted. */
static df1_counts counted[4];

/* The ticks of a row. */
static int pass(df1_end *end, const struct row *row)
{
    df1_turn turn;
    uint32_t gone[16];
    int at;

    for (at = 1; at <= row->ticks; at++) {
        bool is_last = at == row->ticks, is_news = is_last && row->hears[0] == 0;

        ROW(df1_end_tick(end, &turn, gone, 16) == DF1_DONE && turn.gone_count == 0);
        df1_count_turn(&counted[row->who], &turn);
        ROW(turn.turn == (is_last ? row->turn : (uint32_t)DF1_TURN_STILL));
        ROW(turn.news == (is_news ? row->news : (uint32_t)DF1_NO_NEWS) && turn.news_command == (is_news ? row->command : 0));
    }
    return 0;
}

/* Whether bytes are heard and given by the calls for runs, or one by one. */
static bool by_runs;

/* Hears the first of these bytes, and says how many. */
static uint32_t hear_some(df1_end *end, const uint8_t *bytes, size_t count, size_t *used, df1_step *step)
{
    *used = 1;
    return by_runs ? df1_end_bytes(end, bytes, count, used, step) : df1_end_byte(end, *bytes, step);
}

/* The bytes that are heard at a row. */
static int hear(df1_end *end, const struct row *row)
{
    df1_step step;
    uint8_t bytes[300];
    bool was_quiet;
    size_t at, used, count = bytes_of(row->hears, bytes);

    ROW(df1_end_quiet(end, &was_quiet) == DF1_DONE);
    for (at = 0; at < count; at += used) {
        bool is_last;

        ROW(hear_some(end, bytes + at, count - at, &used, &step) == DF1_DONE && used >= 1 && at + used <= count);
        df1_count_step(&counted[row->who], &step);
        is_last = at + used == count;
        ROW(!by_runs || is_last || !was_quiet);
        ROW(is_last || (step.act == DF1_ACT_NOTHING && step.news == DF1_NO_NEWS && !step.whole));
        ROW(!is_last || (step.act == row->act && step.did == row->did && step.news == row->news && step.whole == row->whole));
        ROW(step.did_command == (step.did == DF1_ANSWERED ? row->command : 0));
        ROW(step.news_command == (step.news == DF1_NEWS_UNDELIVERED ? row->command : 0));
    }
    return 0;
}

/* The bytes that are given at a row, one by one. */
static int give_bytes(df1_end *end, const uint8_t *bytes, size_t count, df1_counts *counts)
{
    df1_out out;
    size_t at;

    for (at = 0; at < count; at++) {
        ROW(df1_end_take(end, &out) == DF1_DONE && out.there && out.byte == bytes[at]);
        df1_count_sent(counts, out.last);
    }
    ROW(df1_end_take(end, &out) == DF1_DONE && !out.there && out.byte == 0);
    return 0;
}

/* The same by runs of at most 7 bytes. */
static int give_runs(df1_end *end, const uint8_t *bytes, size_t count, df1_counts *counts)
{
    uint8_t into[8];
    df1_given given;
    size_t at;

    for (at = 0; at < count; at += given.length) {
        memset(into, 0xA5, sizeof into);
        ROW(df1_end_take_bytes(end, into, 7, &given) == DF1_DONE && given.length >= 1 && given.length <= 7);
        ROW(at + given.length <= count && memcmp(into, bytes + at, given.length) == 0 && into[given.length] == 0xA5);
        df1_count_sent(counts, given.last);
        ROW(given.quiet == (at + given.length == count) && (given.quiet || given.last || given.length == 7));
    }
    ROW(df1_end_take_bytes(end, into, 7, &given) == DF1_DONE && given.length == 0 && !given.last && given.quiet);
    return 0;
}

/* The bytes that are given at a row. */
static int give(df1_end *end, const struct row *row)
{
    uint8_t bytes[300];
    bool quiet;
    size_t count = bytes_of(row->gives, bytes);
    int failed;

    ROW(df1_end_quiet(end, &quiet) == DF1_DONE && quiet == (count == 0));
    failed = by_runs ? give_runs(end, bytes, count, &counted[row->who]) : give_bytes(end, bytes, count, &counted[row->who]);
    if (failed != 0)
        return failed;
    ROW(df1_end_quiet(end, &quiet) == DF1_DONE && quiet);
    return 0;
}

/* Whether an end that has nothing to give holds a message, and polls this station, or none where it is 0. */
static bool has_state(df1_end *end, bool holds, uint8_t station)
{
    df1_state state;

    return df1_end_state(end, &state) == DF1_DONE && state.quiet && state.holds == holds && state.polls == (station != 0) && state.station == station;
}

/* Plays rows over ends, and answers the line of what failed. */
static int play(const char *name, df1_end *ends, const struct row *rows, size_t count)
{
    size_t at;
    int failed = 0;

    for (at = 0; at < count && failed == 0; at++) {
        df1_end *end = &ends[rows[at].who];

        failed = pass(end, &rows[at]);
        failed = failed != 0 ? failed : hear(end, &rows[at]);
        failed = failed != 0 ? failed : give(end, &rows[at]);
    }
    if (failed != 0)
        printf("%s: row %u fails, by library-talks.c:%d\n", name, (unsigned)at, failed);
    return failed;
}

/* ---- Ends ---- */

static const df1_file n7 = {7, DF1_INTEGER, 16};
static const df1_word no_word = {0, 0, 0};

static df1_node node_of(uint8_t address)
{
    df1_node node = {0, 1, 100, 2, false, 0, 0, 0, {0}};

    node.address = address;
    return node;
}

static uint32_t duplex(df1_duplex link, uint8_t address, df1_end *end)
{
    df1_node node = node_of(address);

    return df1_duplex_make(&link, &node, &n7, 1, &no_word, 0, &address, 0, end);
}

static uint32_t slave(uint32_t max_sends, uint8_t address, df1_end *end)
{
    df1_slave link = {false, 0, {0}};
    df1_node node = node_of(address);

    link.max_sends = max_sends;
    return df1_slave_make(&link, &node, &n7, 1, &no_word, 0, &address, 0, end);
}

static uint32_t master(df1_master link, const uint8_t *stations, size_t count, df1_end *end)
{
    df1_node node = node_of(0);

    return df1_master_make(&link, stations, count, &node, &n7, 1, &no_word, 0, stations, 0, end);
}

/* Whether word 0 of N7 has this value. */
static bool has_word(df1_end *end, uint16_t wanted)
{
    uint16_t value;

    return df1_end_word(end, 7, 0, &value) == DF1_DONE && value == wanted;
}

/* Whether the reply to a command is these bytes, which go into just the room that they need and no less. */
static bool has_reply(df1_end *end, uint32_t number, const char *wanted)
{
    uint8_t bytes[250], into[250];
    size_t length = 0, count = bytes_of(wanted, bytes);

    memset(into, 0xA5, sizeof into);
    if (df1_end_reply(end, number, into, count - 1, &length) != DF1_NO_ROOM || length != count || into[0] != 0xA5)
        return false;
    length = 0;
    return df1_end_reply(end, number, into, count, &length) == DF1_DONE && length == count && memcmp(into, bytes, count) == 0 &&
           into[count] == 0xA5;
}

/* Whether the body that an end lends is these bytes. */
static bool has_body(df1_end *end, const char *wanted)
{
    uint8_t bytes[250], into[250];
    size_t length = 0, count = bytes_of(wanted, bytes);

    memset(into, 0xA5, sizeof into);
    if (count > 0 && (df1_end_body(end, into, count - 1, &length) != DF1_NO_ROOM || length != count || into[0] != 0xA5))
        return false;
    return df1_end_body(end, into, count, &length) == DF1_DONE && length == count && memcmp(into, bytes, count) == 0;
}

static bool has_outcome(df1_end *end, uint32_t number, uint32_t wanted)
{
    uint32_t outcome;

    return df1_end_outcome(end, number, &outcome) == DF1_DONE && outcome == wanted;
}

/* ---- Full duplex ---- */

static const uint8_t write_1234[] = {0x0F, 0xAA, 0x02, 0x07, 0x89, 0x00, 0x00, 0x34, 0x12};
static const uint8_t echo_55[] = {0x06, 0x00, 0x55};

#define WRITE "10 02 01 00 0F 00 01 00 AA 02 07 89 00 00 34 12 10 03 6D"
#define WRITTEN "10 02 00 01 4F 00 01 00 10 03 AF"

/* End 0 writes to end 1. The whole first frame is lost; at the last of ten ticks an ENQ asks for its response, which is NAK, so
 * the frame comes again. The ACK to the reply is lost as well. */
static int lost_frame(void)
{
    static const df1_duplex link = {false, false, 10, 3, 3, {0}};
    static const struct row rows[] = {
        {0, STILL, "", NOTHING, WRITE},
        {0, 10, DF1_TURN_ASK, "", NOTHING, "10 05"},
        {1, STILL, "10 05", ENQ, "10 15"},
        {0, STILL, "10 15", NAK, WRITE},
        {1, STILL, WRITE, EXECUTED, "10 06 " WRITTEN},
        {0, STILL, "10 06", ACK, ""},
        {0, STILL, WRITTEN, ANSWERED(1), "10 06"},
        {1, 10, DF1_TURN_ASK, "", NOTHING, "10 05"},
        {0, STILL, "10 05", ENQ, "10 06"},
        {1, STILL, "10 06", ACK, ""},
    };
    static const df1_counts wanted[] = {{1, 1, 0, 0, 0, 0, 1, 1, 1, 2, 1, 0, 0}, {1, 1, 0, 0, 0, 0, 1, 0, 1, 1, 1, 0, 0}};
    df1_end ends[2] = {DF1_NOTHING, DF1_NOTHING};
    uint32_t number;

    memset(counted, 0, sizeof counted);
    ROW(duplex(link, 0, &ends[0]) == DF1_DONE && duplex(link, 1, &ends[1]) == DF1_DONE);
    ROW(df1_end_issue(&ends[0], 1, write_1234, sizeof write_1234, &number) == DF1_DONE && has_outcome(&ends[0], 1, DF1_WAITING));
    ROW(play("a lost frame", ends, rows, 1) == 0 && has_outcome(&ends[0], 1, DF1_OUT));
    ROW(play("a lost frame", ends, rows + 1, COUNT(rows) - 1) == 0);
    ROW(has_outcome(&ends[0], 1, DF1_REPLIED) && has_reply(&ends[0], 1, "00 01 4F 00 01 00"));
    ROW(has_word(&ends[1], 0x1234) && has_word(&ends[0], 0));
    ROW(memcmp(counted, wanted, sizeof wanted) == 0);
    return df1_end_free(&ends[0]) == DF1_DONE && df1_end_free(&ends[1]) == DF1_DONE ? 0 : __LINE__;
}

#define ECHO(tns, check) "10 02 01 00 06 00 " tns " 00 00 55 10 03 " check
#define ECHOED(tns, check) "10 02 00 01 46 00 " tns " 00 55 10 03 " check

/* What an end with one NAK, one ENQ and two ticks makes of each thing that it hears. */
static int acts_of_duplex(void)
{
    static const df1_duplex link = {false, false, 2, 1, 1, {0}};
    static const struct row rows[] = {
        {0, STILL, WRITE, EXECUTED, "10 06 " WRITTEN},
        {0, STILL, WRITE, REPEAT, "10 06"},
        {0, STILL, "10 05", ENQ, "10 06"},
        {0, STILL, "10 15", NAK, WRITTEN},
        {0, STILL, "10 15", DROPPED(DF1_ACT_PEER_NAK), ""},
        {0, STILL, ECHO("02", "A3"), DAMAGED, "10 15"},
        {0, STILL, "10 02 01 00 06 00 02 10 03 F7", DAMAGED, "10 15"},
        {0, STILL, "10 02 01 10 41", DAMAGED, "10 15"},
        {0, STILL, "10 02 01 10 02", DF1_ACT_FORGOT, DF1_NOT_ACCEPTED, DF1_NO_NEWS, 0, false, ""},
        {0, STILL, "01 00 06 00 02 00 00 55 10 03 A2", EXECUTED, "10 06 " ECHOED("02", "62")},
        {0, 2, DF1_TURN_ASK, "", NOTHING, "10 05"},
        {0, 2, DF1_TURN_FAILED, "", DROPPED(DF1_ACT_NOTHING), ""},
        {0, STILL, ECHO("03", "A1"), EXECUTED, "10 06 " ECHOED("03", "61")},
        {0, STILL, ECHO("04", "A0"), EXECUTED, "10 06"},
        {0, STILL, ECHO("05", "9F"), EXECUTED, "10 06"},
        {0, STILL, ECHO("06", "9E"), REFUSE, "10 15"},
        {0, STILL, "10 06", ACK, ECHOED("04", "60")},
        {0, STILL, "10 02 01 00 46 00 09 00 55 10 03 5B", STRAY, "10 06"},
        {0, STILL, "55", NOTHING, ""},
        {0, STILL, "10 99", NOTHING, ""},
    };
    df1_end end = DF1_NOTHING;

    ROW(duplex(link, 1, &end) == DF1_DONE);
    ROW(play("a duplex end", &end, rows, 1) == 0 && has_body(&end, "01 00 0F 00 01 00 AA 02 07 89 00 00 34 12"));
    ROW(play("a duplex end", &end, rows + 1, 5) == 0 && has_body(&end, "01 00 06 00 02 00 00 55"));
    ROW(play("a duplex end", &end, rows + 6, 1) == 0 && has_body(&end, "01 00 06 00 02"));
    ROW(play("a duplex end", &end, rows + 7, COUNT(rows) - 7) == 0 && has_body(&end, ""));
    ROW(has_word(&end, 0x1234));
    return df1_end_free(&end) == DF1_DONE ? 0 : __LINE__;
}

/* A command that comes while an end has given eight bytes of its own: where it may embed, the ACK goes into its frame. */
static int embedding(void)
{
    static const df1_duplex links[] = {{false, false, 10, 3, 3, {0}}, {false, true, 10, 3, 3, {0}}};
    static const struct row rows[] = {
        {0, STILL, "10 02 00 01 06 00 01 00 00 55 10 03 A3", EXECUTED, "AA 02 07 89 00 00 34 12 10 03 6D 10 06"},
        {0, STILL, "10 02 00 01 06 00 01 00 00 55 10 03 A3", EXECUTED, "10 06 AA 02 07 89 00 00 34 12 10 03 6D"},
    };
    df1_end end = DF1_NOTHING;
    df1_out out;
    uint32_t number;
    size_t at, taken;

    for (at = 0; at < 2; at++) {
        ROW(duplex(links[at], 0, &end) == DF1_DONE);
        ROW(df1_end_issue(&end, 1, write_1234, sizeof write_1234, &number) == DF1_DONE);
        for (taken = 0; taken < 8; taken++)
            ROW(df1_end_take(&end, &out) == DF1_DONE && out.there);
        ROW(play("a response in a frame", &end, rows + at, 1) == 0 && df1_end_free(&end) == DF1_DONE);
    }
    return 0;
}

/* The CRC of the echo's body and 03 is 0129, that of its reply's CB60. */
static int crc_line(void)
{
    static const df1_duplex link = {true, false, 10, 3, 3, {0}};
    static const struct row rows[] = {
        {0, STILL, ECHO("01", "29 01"), EXECUTED, "10 06 " ECHOED("01", "60 CB")},
        {0, STILL, ECHO("02", "29 01"), DAMAGED, "10 15"},
    };
    df1_end end = DF1_NOTHING;

    ROW(duplex(link, 1, &end) == DF1_DONE && play("a line with CRCs", &end, rows, COUNT(rows)) == 0);
    return df1_end_free(&end) == DF1_DONE ? 0 : __LINE__;
}

/* An echo is told as unanswered at the third tick from its first byte on; a room of 15 takes no tick. */
static int unanswered(void)
{
    static const df1_duplex link = {false, false, 10, 3, 3, {0}};
    static const struct row sent = {0, STILL, "", NOTHING, ECHO("01", "A3")}, heard = {0, STILL, "10 06", ACK, ""};
    df1_node node = node_of(0);
    df1_end end = DF1_NOTHING;
    df1_turn turn = {7, 7, 7, 7};
    uint32_t number, tick, gone[16] = {7, 7, 7};

    node.reply_ticks = 3;
    ROW(df1_duplex_make(&link, &node, &n7, 0, &no_word, 0, echo_55, 0, &end) == DF1_DONE);
    ROW(df1_end_issue(&end, 1, echo_55, sizeof echo_55, &number) == DF1_DONE);
    ROW(play("an unanswered command", &end, &sent, 1) == 0 && play("an unanswered command", &end, &heard, 1) == 0);
    ROW(df1_end_tick(&end, &turn, gone, 15) == DF1_NO_ROOM && turn.turn == 7 && turn.gone_count == 7);
    for (tick = 1; tick <= 3; tick++) {
        ROW(gone[0] == 7 && has_outcome(&end, 1, DF1_OUT));
        ROW(df1_end_tick(&end, &turn, gone, 16) == DF1_DONE && turn.turn == DF1_TURN_STILL && turn.gone_count == (tick == 3));
    }
    ROW(gone[0] == 1 && gone[1] == 7 && has_outcome(&end, 1, DF1_UNANSWERED));
    return df1_end_free(&end) == DF1_DONE ? 0 : __LINE__;
}

#define SECOND_WRITE "10 02 01 00 0F 00 02 00 AA 02 07 89 01 00 78 56 10 03 E3"
#define FROM_9 "10 02 01 09 06 00 03 00 00 55 10 03 98"
#define TO_9 "10 02 09 01 46 00 03 00 55 10 03 58"

/* End 0 has two commands out, one of a source: the command of node 9 passes its own second one. */
static int two_sources(void)
{
    static const df1_duplex link = {false, false, 10, 3, 3, {0}};
    static const uint8_t write_5678[] = {0x0F, 0xAA, 0x02, 0x07, 0x89, 0x01, 0x00, 0x78, 0x56};
    static const struct row rows[] = {
        {0, STILL, "", NOTHING, WRITE},
        {1, STILL, WRITE, EXECUTED, "10 06 " WRITTEN},
        {0, STILL, "10 06", ACK, FROM_9},
        {1, STILL, FROM_9, EXECUTED, "10 06"},
        {0, STILL, WRITTEN, ANSWERED(1), "10 06"},
        {0, STILL, "10 06", ACK, SECOND_WRITE},
        {1, STILL, "10 06", ACK, TO_9},
        {1, STILL, SECOND_WRITE, EXECUTED, "10 06"},
        {0, STILL, TO_9, ANSWERED(3), "10 06"},
        {0, STILL, "10 06", ACK, ""},
        {1, STILL, "10 06", ACK, "10 02 00 01 4F 00 02 00 10 03 AE"},
        {0, STILL, "10 02 00 01 4F 00 02 00 10 03 AE", ANSWERED(2), "10 06"},
    };
    df1_node node = node_of(0);
    df1_end ends[2] = {DF1_NOTHING, DF1_NOTHING};
    uint32_t number;

    node.window = 2;
    node.per_source = 1;
    ROW(df1_duplex_make(&link, &node, &n7, 1, &no_word, 0, echo_55, 0, &ends[0]) == DF1_DONE);
    ROW(duplex(link, 1, &ends[1]) == DF1_DONE);
    ROW(df1_end_issue(&ends[0], 1, write_1234, sizeof write_1234, &number) == DF1_DONE && number == 1);
    ROW(df1_end_issue(&ends[0], 1, write_5678, sizeof write_5678, &number) == DF1_DONE && number == 2);
    ROW(df1_end_issue_from(&ends[0], 9, 1, echo_55, sizeof echo_55, &number) == DF1_DONE && number == 3);
    ROW(df1_end_issue_from(&ends[0], 9, 1, echo_55, 0, &number) == DF1_NO_PAYLOAD && number == 3);
    ROW(play("two sources", ends, rows, 3) == 0 && has_outcome(&ends[0], 1, DF1_OUT));
    ROW(has_outcome(&ends[0], 2, DF1_WAITING) && has_outcome(&ends[0], 3, DF1_OUT));
    ROW(play("two sources", ends, rows + 3, COUNT(rows) - 3) == 0 && has_reply(&ends[0], 3, "09 01 46 00 03 00 55"));
    return df1_end_free(&ends[0]) == DF1_DONE && df1_end_free(&ends[1]) == DF1_DONE ? 0 : __LINE__;
}

/* ---- Half duplex ---- */

#define STN3_WRITE "10 01 03 10 02 03 00 0F 00 01 00 AA 02 07 89 00 00 34 12 10 03 68"
#define STN3_WRITTEN "10 02 00 03 4F 00 01 00 10 03 AD"
#define STN3_ECHO(tns, check) "10 01 03 10 02 03 00 06 00 " tns " 00 00 55 10 03 " check
#define STN3_ECHOED(tns, check) "10 02 00 03 46 00 " tns " 00 55 10 03 " check
#define POLL3 "10 05 03 FD"
#define POLL5 "10 05 05 FB"

/* The worked exchange of a master with the stations 3 and 5. */
static int polled(void)
{
    static const uint8_t stations[] = {3, 5};
    static const df1_master link = {false, 10, 3, 10, 0, {0}};
    static const struct row rows[] = {
        {0, STILL, "", NOTHING, STN3_WRITE},
        {1, STILL, STN3_WRITE, EXECUTED, "10 06"},
        {2, STILL, STN3_WRITE, DF1_ACT_NOTHING, DF1_NOT_ACCEPTED, DF1_NO_NEWS, 0, true, ""},
        {0, STILL, "10 06", ACK, ""},
        {0, 1, DF1_TURN_STILL, "", NOTHING, POLL3},
        {1, STILL, POLL3, NOTHING, STN3_WRITTEN},
        {2, STILL, POLL3, NOTHING, ""},
        {0, STILL, STN3_WRITTEN, ANSWERED(1), "10 06"},
        {1, STILL, "10 06", ACK, ""},
        {2, STILL, "10 06", ACK, ""},
        {0, 1, DF1_TURN_STILL, "", NOTHING, POLL5},
        {1, STILL, POLL5, NOTHING, ""},
        {2, STILL, POLL5, NOTHING, "10 04"},
        {0, STILL, "10 04", NOTHING, ""},
        {0, 1, DF1_TURN_STILL, "", NOTHING, POLL3},
        {1, STILL, POLL3, NOTHING, "10 04"},
    };
    df1_end ends[3] = {DF1_NOTHING, DF1_NOTHING, DF1_NOTHING};
    uint32_t number, gone[16];
    df1_turn turn;
    int at;

    ROW(master(link, stations, 2, &ends[0]) == DF1_DONE && slave(3, 3, &ends[1]) == DF1_DONE && slave(3, 5, &ends[2]) == DF1_DONE);
    ROW(df1_end_issue(&ends[0], 3, write_1234, sizeof write_1234, &number) == DF1_DONE);
    ROW(play("a polled line", ends, rows, 3) == 0 && has_state(&ends[0], true, 0) && has_state(&ends[1], false, 0));
    ROW(has_body(&ends[2], "03 00 0F 00 01 00 AA 02 07 89 00 00 34 12"));
    ROW(play("a polled line", ends, rows + 3, 1) == 0 && has_state(&ends[0], false, 0));
    ROW(play("a polled line", ends, rows + 4, 3) == 0 && has_state(&ends[0], false, 3) && has_state(&ends[1], true, 0));
    ROW(play("a polled line", ends, rows + 7, 2) == 0 && has_state(&ends[0], false, 0) && has_state(&ends[1], false, 0));
    ROW(play("a polled line", ends, rows + 9, 4) == 0 && has_state(&ends[0], false, 5));
    ROW(play("a polled line", ends, rows + 13, 1) == 0 && has_state(&ends[0], false, 0));
    ROW(play("a polled line", ends, rows + 14, COUNT(rows) - 14) == 0 && has_state(&ends[0], false, 3));
    /* The poll that nobody answers is over at its tenth tick. */
    for (at = 1; at <= 10; at++)
        ROW(df1_end_tick(&ends[0], &turn, gone, 16) == DF1_DONE && has_state(&ends[0], false, at < 10 ? 3 : 0));
    ROW(has_outcome(&ends[0], 1, DF1_REPLIED) && has_reply(&ends[0], 1, "00 03 4F 00 01 00"));
    ROW(has_word(&ends[0], 0) && has_word(&ends[1], 0x1234) && has_word(&ends[2], 0));
    for (at = 0; at < 3; at++)
        ROW(df1_end_free(&ends[at]) == DF1_DONE);
    return 0;
}

/* All that an end gives: so many bytes, of which this one, counted from 1, is the last of a message, or none where it is 0. */
static bool gives(df1_end *end, size_t count, size_t last)
{
    df1_out out;
    size_t at;

    for (at = 1; at <= count; at++)
        if (df1_end_take(end, &out) != DF1_DONE || !out.there || out.last != (at == last))
            return false;
    return df1_end_take(end, &out) == DF1_DONE && !out.there && !out.last;
}

/* A slave hears a message: at its last byte the station is told that it names. */
static bool names_station(df1_end *end, const char *message, uint8_t station)
{
    df1_step step;
    uint8_t bytes[300];
    size_t at, count = bytes_of(message, bytes);

    for (at = 0; at < count; at++)
        if (df1_end_byte(end, bytes[at], &step) != DF1_DONE || step.station != (at + 1 == count ? station : 0))
            return false;
    return true;
}

/* A frame and a message have a last byte, a response and an EOT have none; slave 5 hears a message to station 3. */
static int ends_of_messages(void)
{
    static const df1_duplex link = {false, false, 10, 3, 3, {0}};
    static const struct row echo = {0, STILL, "10 02 00 01 06 00 01 00 00 55 10 03 A3", EXECUTED, ""};
    static const struct row poll = {0, STILL, POLL3, NOTHING, ""};
    df1_end ends[3] = {DF1_NOTHING, DF1_NOTHING, DF1_NOTHING};
    uint32_t number;
    int at;

    ROW(duplex(link, 0, &ends[0]) == DF1_DONE && slave(3, 3, &ends[1]) == DF1_DONE && slave(3, 5, &ends[2]) == DF1_DONE);
    ROW(df1_end_issue(&ends[0], 1, write_1234, sizeof write_1234, &number) == DF1_DONE && gives(&ends[0], 19, 19));
    ROW(hear(&ends[0], &echo) == 0 && gives(&ends[0], 2, 0));
    ROW(names_station(&ends[1], STN3_WRITE, 3) && gives(&ends[1], 2, 0));
    ROW(hear(&ends[1], &poll) == 0 && gives(&ends[1], 11, 11));
    ROW(names_station(&ends[2], STN3_WRITE, 3) && gives(&ends[2], 0, 0));
    for (at = 0; at < 3; at++)
        ROW(df1_end_free(&ends[at]) == DF1_DONE);
    return 0;
}

/* What slave 3, which may send a message twice, makes of each thing that it hears. */
static int acts_of_slave(void)
{
    static const struct row rows[] = {
        {0, STILL, STN3_WRITE, EXECUTED, "10 06"},
        {0, STILL, POLL3, NOTHING, STN3_WRITTEN},
        {0, STILL, POLL5, NOTHING, ""},
        {0, STILL, "10 06", ACK, ""},
        {0, STILL, POLL3, NOTHING, STN3_WRITTEN},
        {0, STILL, POLL3, DROPPED(DF1_ACT_NOTHING), "10 04"},
        {0, STILL, STN3_WRITE, REPEAT, "10 06"},
        {0, STILL, STN3_ECHO("02", "9E"), DAMAGED, ""},
        {0, STILL, STN3_ECHO("02", "9D"), EXECUTED, "10 06"},
        {0, STILL, POLL3, NOTHING, STN3_ECHOED("02", "60")},
        {0, STILL, "10 15", DROPPED(DF1_ACT_PEER_NAK), ""},
        {0, STILL, POLL3, NOTHING, "10 04"},
        {0, 3, DF1_TURN_STILL, "", NOTHING, ""},
        {0, STILL, STN3_ECHO("03", "9C"), EXECUTED, "10 06"},
        {0, STILL, STN3_ECHO("04", "9B"), EXECUTED, "10 06"},
        {0, STILL, STN3_ECHO("05", "9A"), REFUSE, "10 15"},
        {0, STILL, POLL3, NOTHING, STN3_ECHOED("03", "5F")},
        {0, STILL, "10 06", ACK, ""},
        {0, STILL, "10 05 03 FE", NOTHING, ""},
        {0, STILL, POLL3, NOTHING, STN3_ECHOED("04", "5E")},
    };
    df1_end end = DF1_NOTHING;
    df1_turn turn = {7, 7, 7, 7};
    uint32_t gone[16];

    ROW(slave(2, 3, &end) == DF1_DONE);
    ROW(play("a slave", &end, rows, 1) == 0 && has_body(&end, "03 00 0F 00 01 00 AA 02 07 89 00 00 34 12"));
    ROW(play("a slave", &end, rows + 1, 7) == 0 && has_body(&end, ""));
    ROW(play("a slave", &end, rows + 8, COUNT(rows) - 8) == 0);
    ROW(df1_end_tick(&end, &turn, gone, 15) == DF1_NO_ROOM && turn.turn == 7);
    return df1_end_free(&end) == DF1_DONE ? 0 : __LINE__;
}

/* What a master of station 3, which gives a message once more and waits two ticks, makes of each thing that it hears. */
static int acts_of_master(void)
{
    static const uint8_t stations[] = {3};
    static const df1_master link = {false, 2, 1, 2, 0, {0}};
    static const struct row rows[] = {
        {0, STILL, "", NOTHING, STN3_ECHO("01", "9E")},
        {0, 2, DF1_TURN_STILL, "", NOTHING, STN3_ECHO("01", "9E")},
        {0, STILL, "10 15", UNDELIVERED(DF1_ACT_PEER_NAK, 1), STN3_ECHO("02", "9D")},
        {0, 2, DF1_TURN_STILL, "", NOTHING, STN3_ECHO("02", "9D")},
        {0, 2, DF1_TURN_FAILED, "", UNDELIVERED(DF1_ACT_NOTHING, 2), ""},
        {0, 1, DF1_TURN_STILL, "", NOTHING, POLL3},
        {0, STILL, "10 02 00 03 4F 00 01 00 10 03 AE", DAMAGED, ""},
        {0, STILL, "10 02 00 05 4F 00 01 00 10 03 AB", DF1_ACT_NOTHING, DF1_NOT_ACCEPTED, DF1_NO_NEWS, 0, true, ""},
        {0, STILL, STN3_WRITTEN, STRAY, "10 06"},
        {0, 1, DF1_TURN_STILL, "", NOTHING, POLL3},
        {0, STILL, STN3_WRITTEN, REPEAT, "10 06"},
        {0, 1, DF1_TURN_STILL, "", NOTHING, POLL3},
        {0, 2, DF1_TURN_STILL, "", NOTHING, ""},
        {0, 1, DF1_TURN_STILL, "", NOTHING, POLL3},
        {0, STILL, "10 04", NOTHING, ""},
    };
    df1_end end = DF1_NOTHING;
    df1_out out;
    uint32_t number;
    bool quiet;

    ROW(master(link, stations, 1, &end) == DF1_DONE);
    ROW(df1_end_issue(&end, 3, echo_55, sizeof echo_55, &number) == DF1_DONE);
    ROW(df1_end_issue(&end, 3, echo_55, sizeof echo_55, &number) == DF1_DONE);
    ROW(play("a master", &end, rows, COUNT(rows)) == 0);
    ROW(has_outcome(&end, 1, DF1_UNDELIVERED) && has_outcome(&end, 2, DF1_UNDELIVERED));
    /* A command or a transfer for no station of the list is refused, whatever else is wrong with it. */
    ROW(df1_end_issue(&end, 9, echo_55, sizeof echo_55, &number) == DF1_NO_STATION && df1_end_issue(&end, 9, echo_55, 0, &number) == DF1_NO_STATION);
    ROW(df1_end_issue_from(&end, 5, 9, echo_55, sizeof echo_55, &number) == DF1_NO_STATION && df1_end_pull(&end, 9, 1000, 0, &number) == DF1_NO_STATION);
    ROW(df1_end_push(&end, 9, 7, echo_55, 2, &number) == DF1_NO_STATION && number == 2);
    ROW(df1_end_quiet(&end, &quiet) == DF1_DONE && quiet && df1_end_take(&end, &out) == DF1_DONE && !out.there);
    return df1_end_free(&end) == DF1_DONE ? 0 : __LINE__;
}

int talks(void)
{
    static int (*const all[])(void) = {lost_frame,  acts_of_duplex, embedding,        crc_line,      unanswered,
                                       two_sources, polled,         ends_of_messages, acts_of_slave, acts_of_master};
    int failed = 0;
    size_t at;

    for (at = 0; at < 2 * COUNT(all) && failed == 0; at++) {
        by_runs = at >= COUNT(all);
        failed = all[at % COUNT(all)]();
        if (failed != 0)
            printf("talk %u fails at library-talks.c:%d\n", (unsigned)at, failed);
    }
    return failed;
}
