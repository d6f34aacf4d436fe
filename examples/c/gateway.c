/* A gateway in front of a controller: gateway DEVICE, or gateway DEVICE crc on a line with CRCs. Twice a second it reads N7:0 to
 * N7:15 of node 1, and writes each word that has changed to standard output as a line, N7:3=42. Such a line on standard input sets
 * the word, and standard error reports what became of that. No command is issued a second time. The gateway begins with an echo
 * (06/00), which changes nothing, and returns to that whenever no answer came: a first command may be taken for a duplicate of an
 * earlier one. Lines of standard input wait until an echo is answered, and a read after it. If the device goes away, the gateway
 * tries each second to open it again. It ends with 0 when standard input ends and all that was to be set has an outcome. It ends
 * with 1 if the device can't be opened at the beginning, or the library has no memory. */
#define _POSIX_C_SOURCE 200809L
#include <errno.h>
#include <poll.h>
#include <stdio.h>
#include <stdlib.h>
#include <string.h>
#include <unistd.h>

#include "df1.h"
#include "serial.h"

#define SPEED B19200
#define TICK_MILLISECONDS 50
#define READ_MILLISECONDS 500
#define OPEN_MILLISECONDS 1000
#define CONTROLLER 1 /* the node that is read and written */
#define WORDS 16     /* of N7 */
#define ASKED 64     /* how many commands may wait for their outcomes */
#define MOST 65000   /* commands of one end, which may issue 65,535; then a new end continues with the next numbers */

enum kind { ASKS_ECHO, ASKS_READ, ASKS_WRITE };

/* The address of the first word. */
static const df1_address first = {DF1_INTEGER, 7, 0, 0, false, 0};

/* What a command asks for. */
struct asked {
    enum kind kind;
    unsigned word;
    int value;
};

struct gateway {
    df1_end end;
    const char *name; /* of the device */
    int device;       /* -1 while there is none */
    bool crc;
    uint16_t tns;                 /* of the end's first command */
    uint32_t issued, settled;     /* the numbers of the last command, and of the last one whose outcome was reported */
    struct asked asked[ASKED];    /* the commands, by their numbers */
    bool answers;                 /* the latest outcome was a reply */
    bool fresh;                   /* and a read was answered since the latest outcome that was no reply */
    bool known[WORDS];            /* which words were read */
    uint16_t values[WORDS];       /* their latest values */
    char line[64];                /* of standard input, as far as it was read */
    size_t length;
    bool ended; /* standard input has ended */
    long long next_tick, next_read, next_open;
};

/* ---- The device ---- */

static bool open_device(struct gateway *g)
{
    g->device = open_raw(g->name, O_NONBLOCK, SPEED);
    return g->device >= 0;
}

/* The device is gone. What the end sends until it is back is lost, as on any line. */
static void close_device(struct gateway *g)
{
    fprintf(stderr, "%s is gone\n", g->name);
    close(g->device);
    g->device = -1;
    g->next_open = now() + OPEN_MILLISECONDS;
}

static void put(struct gateway *g, const uint8_t *bytes, size_t count)
{
    while (g->device >= 0 && count > 0) {
        struct pollfd wait = {g->device, POLLOUT, 0};
        ssize_t wrote = write(g->device, bytes, count);

        if (wrote >= 0) {
            bytes += wrote;
            count -= (size_t)wrote;
        } else if (errno == EAGAIN) {
            poll(&wait, 1, OPEN_MILLISECONDS);
        } else if (errno != EINTR) {
            close_device(g);
        }
    }
}

/* Writes all that the end has to send. */
static void give(struct gateway *g)
{
    uint8_t bytes[512];
    df1_given given = {0, false, false};

    while (!given.quiet && df1_end_take_bytes(&g->end, bytes, sizeof bytes, &given) == DF1_DONE)
        put(g, bytes, given.length);
}

static void hear(struct gateway *g)
{
    uint8_t bytes[256];
    df1_step step;
    size_t at, used;
    ssize_t count = read(g->device, bytes, sizeof bytes);

    if (count == 0 || (count < 0 && errno != EAGAIN && errno != EINTR))
        close_device(g);
    for (at = 0; count > 0 && at < (size_t)count; at += used) {
        df1_end_bytes(&g->end, bytes + at, (size_t)count - at, &used, &step);
        give(g);
    }
}

/* ---- Commands ---- */

/* Makes a new end, whose first command has this transaction number. Returns whether that succeeded. */
static bool make_end(struct gateway *g, uint16_t tns)
{
    df1_duplex link = DF1_DUPLEX_INIT;
    df1_node node = DF1_NODE_INIT(0);

    link.crc = g->crc;
    link.max_naks = link.max_enqs = 5;
    node.reply_ticks = 120; /* over the 105 that one message may take, so what is given up isn't sent again */
    node.tns = g->tns = tns;
    g->issued = g->settled = 0;
    return df1_duplex_make(&link, &node, NULL, 0, NULL, 0, NULL, 0, &g->end) == DF1_DONE;
}

static void issue(struct gateway *g, struct asked asked, const uint8_t *payload, size_t length)
{
    uint32_t number;

    if (df1_end_issue(&g->end, CONTROLLER, payload, length, &number) != DF1_DONE) {
        fprintf(stderr, "no memory for a command\n");
        exit(1);
    }
    g->asked[number % ASKED] = asked;
    g->issued = number;
    give(g);
}

static void ask(struct gateway *g)
{
    static const uint8_t echoed[] = {0x55};
    uint8_t payload[245];
    size_t length = 0;

    if (g->answers) {
        df1_payload_read(DF1_LOGICAL_3, &first, WORDS, payload, sizeof payload, &length);
        issue(g, (struct asked){ASKS_READ, 0, 0}, payload, length);
    } else {
        df1_payload_echo(echoed, sizeof echoed, payload, sizeof payload, &length);
        issue(g, (struct asked){ASKS_ECHO, 0, 0}, payload, length);
    }
}

/* Does what a line of standard input asks for. */
static void obey(struct gateway *g)
{
    struct asked asked = {ASKS_WRITE, 0, 0};
    df1_address at = first;
    uint8_t payload[245];
    size_t length = 0;
    uint16_t value;
    char more;

    if (sscanf(g->line, "N7:%u=%d%c", &asked.word, &asked.value, &more) != 2 || asked.word >= WORDS || asked.value < -32768 || asked.value > 65535) {
        fprintf(stderr, "%s: this is no N7:0=VALUE to N7:%d=VALUE\n", g->line, WORDS - 1);
        return;
    }
    at.element = (uint16_t)asked.word;
    value = (uint16_t)asked.value;
    df1_payload_write(DF1_LOGICAL_3, &at, &value, 1, payload, sizeof payload, &length);
    issue(g, asked, payload, length);
}

/* Reads what standard input has, and obeys each line that is complete. */
static void listen(struct gateway *g)
{
    char text[ASKED / 2]; /* the shortest line has 6 characters, so there is room for all commands */
    ssize_t at, count = read(STDIN_FILENO, text, sizeof text);

    g->ended = count == 0 || (count < 0 && errno != EINTR);
    for (at = 0; at < count; at++) {
        if (text[at] == '\n') {
            g->line[g->length] = 0;
            obey(g);
            g->length = 0;
        } else if (g->length + 1 < sizeof g->line) {
            g->line[g->length++] = text[at];
        }
    }
}

/* ---- Outcomes ---- */

/* Writes the words that have changed. */
static void changed(struct gateway *g, const uint8_t *data)
{
    unsigned word;

    for (word = 0; word < WORDS; word++) {
        uint16_t value = (uint16_t)(data[2 * word] | data[2 * word + 1] << 8);

        if (!g->known[word] || g->values[word] != value)
            printf("N7:%u=%d\n", word, (int16_t)value);
        g->known[word] = true;
        g->values[word] = value;
    }
    fflush(stdout);
}

/* A reply was accepted. */
static void replied(struct gateway *g, struct asked asked, uint32_t number)
{
    uint8_t reply[250];
    size_t length = 0;
    df1_answer answer = {0xF0, 0, 0, 0}; /* that of a reply that is cut off after STS F0 */

    if (df1_end_reply(&g->end, number, reply, sizeof reply, &length) != DF1_DONE)
        return;
    g->fresh = g->fresh || asked.kind == ASKS_READ;
    df1_reply_read(reply, length, &answer);
    if (asked.kind == ASKS_WRITE && answer.sts == 0)
        fprintf(stderr, "N7:%u=%d: set\n", asked.word, asked.value);
    else if (answer.sts != 0)
        fprintf(stderr, "%s: refused, STS %02X\n", asked.kind == ASKS_WRITE ? "a word to be set" : "a read", answer.sts);
    else if (asked.kind == ASKS_READ && answer.data_length == 2 * WORDS)
        changed(g, reply + answer.data);
}

/* Reports what became of the commands, in their order. */
static void settle(struct gateway *g)
{
    uint32_t outcome;

    while (g->settled < g->issued && df1_end_outcome(&g->end, g->settled + 1, &outcome) == DF1_DONE) {
        struct asked asked = g->asked[(g->settled + 1) % ASKED];

        if (outcome == DF1_WAITING || outcome == DF1_OUT)
            return;
        g->settled++;
        g->answers = outcome == DF1_REPLIED;
        g->fresh = g->fresh && g->answers;
        if (outcome == DF1_REPLIED)
            replied(g, asked, g->settled);
        else if (asked.kind == ASKS_WRITE)
            fprintf(stderr, "N7:%u=%d: no answer, it may have been set\n", asked.word, asked.value);
    }
}

/* ---- The loop ---- */

static void tick(struct gateway *g)
{
    uint32_t gone[16];
    df1_turn turn;

    df1_end_tick(&g->end, &turn, gone, 16);
    give(g);
}

/* Does what is due by now. */
static void on_time(struct gateway *g)
{
    long long time = now();

    if (time >= g->next_tick) {
        g->next_tick = time + TICK_MILLISECONDS; /* a tick that is late is one tick */
        tick(g);
    }
    if (g->device < 0 && time >= g->next_open && !open_device(g))
        g->next_open = time + OPEN_MILLISECONDS;
    if (time >= g->next_read && g->settled == g->issued && g->issued < MOST) {
        g->next_read = time + READ_MILLISECONDS;
        ask(g);
    }
}

static void wait(struct gateway *g)
{
    bool has_room = !g->ended && g->fresh && g->issued - g->settled < ASKED / 2 && g->issued < MOST;
    struct pollfd on[2] = {{has_room ? STDIN_FILENO : -1, POLLIN, 0}, {g->device, POLLIN, 0}};
    long long left = g->next_tick - now();

    if (poll(on, 2, left > 0 ? (int)left : 0) <= 0)
        return;
    if (on[1].revents != 0)
        hear(g);
    if (on[0].revents != 0)
        listen(g);
}

static bool run(struct gateway *g)
{
    while (!g->ended || g->settled < g->issued) {
        wait(g);
        on_time(g);
        settle(g);
        if (g->issued >= MOST && g->settled == g->issued) {
            df1_end_free(&g->end);
            if (!make_end(g, (uint16_t)(g->tns + g->issued)))
                return false;
        }
    }
    return true;
}

int main(int argc, char **argv)
{
    static struct gateway g = {.end = DF1_NOTHING, .device = -1};
    bool is_well;

    if (argc < 2 || argc > 3 || (argc == 3 && strcmp(argv[2], "crc") != 0)) {
        fprintf(stderr, "gateway DEVICE [crc]\n");
        return 2;
    }
    g.name = argv[1];
    g.crc = argc == 3;
    if (!open_device(&g)) {
        perror(g.name);
        return 1;
    }
    /* Other transaction numbers than those of a run before: the controller knows the last one. */
    is_well = make_end(&g, (uint16_t)(time(NULL) * 16)) && run(&g);
    df1_end_free(&g.end);
    if (g.device >= 0)
        close(g.device);
    return is_well ? 0 : 1;
}
