/* A polled line of a master and two stations, in one program: memory is in the place of the wires. The master reads N7:0 of each
 * station every 20 ticks, and prints what it receives. Station 5 is cut off from tick 25 to tick 60. A station that doesn't answer its
 * poll is away and gets no command; when it is back it gets an echo (06/00) first, until one is answered. */
#include <stdio.h>

#include "df1.h"

#define STATIONS 2
#define READ_TICKS 20
#define CUT_TICK 25
#define JOINED_TICK 61
#define LAST_TICK 70

/* What the master knows of a station. */
struct known {
    uint8_t number;
    bool answers;       /* its latest poll was answered */
    bool echoed;        /* an echo was answered since it was away */
    uint32_t command;   /* its outstanding command, or 0 */
    bool is_echo;       /* and whether that is an echo */
    unsigned next_read; /* the tick */
};

static df1_end master = DF1_NOTHING, ends[STATIONS] = {DF1_NOTHING, DF1_NOTHING};
static struct known stations[STATIONS] = {{.number = 3}, {.number = 5}};
static unsigned now;

/* ---- What the master does ---- */

static struct known *asked(uint32_t command)
{
    return &stations[stations[1].command == command];
}

/* A command ended without a reply. It may have been executed all the same. */
static void no_reply(uint32_t command)
{
    struct known *station = asked(command);

    printf("station %d: no reply\n", station->number);
    station->command = 0;
    station->echoed = false;
}

static void replied(uint32_t command)
{
    struct known *station = asked(command);
    uint8_t reply[250];
    size_t length;
    df1_answer answer = {0xF0, 0, 0, 0}; /* that of a reply that is cut off after STS F0 */

    station->command = 0;
    if (df1_end_reply(&master, command, reply, sizeof reply, &length) == DF1_DONE)
        df1_reply_read(reply, length, &answer);
    if (station->is_echo)
        station->echoed = true;
    else if (answer.sts == 0 && answer.data_length == 2)
        printf("station %d: N7:0 = %d\n", station->number, (int16_t)(reply[answer.data] | reply[answer.data + 1] << 8));
    else
        printf("station %d: N7:0: STS %02X, EXT STS %02X\n", station->number, answer.sts, answer.ext);
}

/* A reply whose command has its outcome already. */
static void late_reply(void)
{
    uint8_t body[250];
    size_t length;

    if (df1_end_body(&master, body, sizeof body, &length) == DF1_DONE)
        printf("station %d: a late reply\n", body[1]); /* SRC */
}

/* Reports the end of a poll: at a byte it was answered, at a tick it wasn't. A poll that noise hit ends so too. */
static void polled(const df1_state *before, bool is_answer)
{
    df1_state after = *before;
    struct known *station = &stations[before->station == stations[1].number];

    df1_end_state(&master, &after);
    if (!before->polls || after.polls)
        return;
    if (station->answers != is_answer)
        printf("station %d %s\n", station->number, is_answer ? "answers" : "is away");
    station->answers = is_answer;
    station->echoed = station->echoed && is_answer;
}

static void hear(uint8_t byte)
{
    df1_state before;
    df1_step step;

    df1_end_state(&master, &before);
    df1_end_byte(&master, byte, &step);
    polled(&before, true);
    if (step.did == DF1_ANSWERED)
        replied(step.did_command);
    if (step.did == DF1_STRAY)
        late_reply();
    if (step.news == DF1_NEWS_UNDELIVERED)
        no_reply(step.news_command);
}

static void tick(void)
{
    df1_state before;
    df1_turn turn;
    uint32_t gone[16], at;

    df1_end_state(&master, &before);
    df1_end_tick(&master, &turn, gone, 16);
    polled(&before, false);
    if (turn.news == DF1_NEWS_UNDELIVERED)
        no_reply(turn.news_command);
    for (at = 0; at < turn.gone_count; at++)
        no_reply(gone[at]);
}

/* Issues what is due at a station that answers its polls and has no command outstanding. */
static void ask(struct known *station)
{
    static const df1_address n7_0 = {DF1_INTEGER, 7, 0, 0, false, 0};
    static const uint8_t echoed[] = {0x55};
    uint8_t payload[245];
    size_t length = 0;

    if (!station->answers || station->command != 0 || (station->echoed && now < station->next_read))
        return;
    station->is_echo = !station->echoed;
    if (station->is_echo) {
        df1_payload_echo(echoed, sizeof echoed, payload, sizeof payload, &length);
    } else {
        df1_payload_read(DF1_LOGICAL_3, &n7_0, 1, payload, sizeof payload, &length);
        station->next_read = now + READ_TICKS;
    }
    df1_end_issue(&master, station->number, payload, length, &station->command); /* without memory the number stays 0 */
}

/* ---- The line ---- */

static bool is_cut_off(unsigned at)
{
    return stations[at].number == 5 && now >= CUT_TICK && now < JOINED_TICK;
}

/* Carries bytes until no end has one to send: those of the master to each station, as on four wires, and theirs to the master. */
static void carry(void)
{
    bool moved = true;
    df1_out out;
    df1_step step;
    unsigned at;

    while (moved) {
        for (moved = false; df1_end_take(&master, &out) == DF1_DONE && out.there; moved = true)
            for (at = 0; at < STATIONS; at++)
                if (!is_cut_off(at))
                    df1_end_byte(&ends[at], out.byte, &step);
        for (at = 0; at < STATIONS; at++)
            for (; df1_end_take(&ends[at], &out) == DF1_DONE && out.there; moved = true)
                if (!is_cut_off(at))
                    hear(out.byte);
    }
}

static bool make_ends(void)
{
    df1_master link = DF1_MASTER_INIT;
    df1_slave slave = DF1_SLAVE_INIT;
    df1_node node = DF1_NODE_INIT(0);
    df1_file n7 = {7, DF1_INTEGER, 1};
    uint8_t numbers[STATIONS];
    unsigned at;

    for (at = 0; at < STATIONS; at++) {
        df1_node own = DF1_NODE_INIT(stations[at].number);

        numbers[at] = stations[at].number;
        if (df1_slave_make(&slave, &own, &n7, 1, NULL, 0, NULL, 0, &ends[at]) != DF1_DONE)
            return false;
    }
    link.poll_ticks = 3;
    node.window = STATIONS; /* so a command to a station that is away doesn't hold up those to the others */
    node.reply_ticks = 10;  /* ticks at which it polls; more than window times the number of stations */
    return df1_master_make(&link, numbers, STATIONS, &node, NULL, 0, NULL, 0, NULL, 0, &master) == DF1_DONE;
}

int main(void)
{
    unsigned at;
    bool is_well = make_ends();

    for (now = 1; is_well && now <= LAST_TICK; now++) {
        for (at = 0; at < STATIONS; at++) /* the stations' own programs */
            df1_end_set_word(&ends[at], 7, 0, (uint16_t)(100 * stations[at].number + now / 20));
        tick();
        carry();
        for (at = 0; at < STATIONS; at++)
            ask(&stations[at]);
        carry();
    }
    df1_end_free(&master);
    for (at = 0; at < STATIONS; at++)
        df1_end_free(&ends[at]);
    return is_well ? 0 : 1;
}
