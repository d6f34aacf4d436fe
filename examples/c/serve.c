/* Serves a full-duplex end with one Integer file, N7, on a serial device or a pseudo-terminal: serve DEVICE, or serve DEVICE crc on
 * a line with CRCs. It ends with 0 when the device does, and with 1 if the device can't be read or written. */
#define _POSIX_C_SOURCE 200809L
#include <errno.h>
#include <poll.h>
#include <stdio.h>
#include <string.h>
#include <unistd.h>

#include "df1.h"
#include "serial.h"

/* The line and the end: file 7 as in examples/served.toml, and for the rest the default values of a plan. */
#define SPEED B19200
#define TICK_MILLISECONDS 100
static const df1_duplex full_duplex = DF1_DUPLEX_INIT;
static const df1_node node = DF1_NODE_INIT(1);
static const df1_file files[] = {{7, DF1_INTEGER, 16}};
static const df1_word words[] = {{7, 0, 0x1234}};

static int status = 0;

/* The device can't be read or written any more. If that isn't because it ended, it is reported, and the program's status is 1. */
static bool lost(const char *what)
{
    if (errno != EIO) {
        perror(what);
        status = 1;
    }
    return false;
}

/* Writes these bytes, and returns whether that succeeded. */
static bool put(int device, const uint8_t *bytes, size_t count)
{
    while (count > 0) {
        ssize_t wrote = write(device, bytes, count);

        if (wrote >= 0) {
            bytes += wrote;
            count -= (size_t)wrote;
        } else if (errno != EINTR) {
            return lost("write");
        }
    }
    return true;
}

/* Writes all that the end has to send, and returns whether that succeeded. */
static bool give(df1_end *end, int device)
{
    uint8_t bytes[512];
    df1_given given = {0, false, false};

    while (!given.quiet)
        if (df1_end_take_bytes(end, bytes, sizeof bytes, &given) != DF1_DONE || !put(device, bytes, given.length))
            return false;
    return true;
}

/* Receives what the device has, and returns whether to go on. */
static bool hear(df1_end *end, int device)
{
    uint8_t bytes[256];
    df1_step step;
    size_t at, used;
    ssize_t count = read(device, bytes, sizeof bytes);

    if (count < 0)
        return errno == EINTR || lost("read");
    for (at = 0; at < (size_t)count; at += used) {
        if (df1_end_bytes(end, bytes + at, (size_t)count - at, &used, &step) != DF1_DONE || !give(end, device))
            return false;
        if (step.did == DF1_EXECUTED)
            fprintf(stderr, "a command was executed\n");
    }
    return count > 0;
}

/* A tick has passed at the end. Returns whether all is well. */
static bool tick(df1_end *end, int device)
{
    uint32_t gone[16];
    df1_turn turn;

    if (df1_end_tick(end, &turn, gone, 16) != DF1_DONE)
        return false;
    if (turn.turn == DF1_TURN_FAILED)
        fprintf(stderr, "a message was given up\n");
    return give(end, device);
}

static void serve(df1_end *end, int device)
{
    struct pollfd wait = {device, POLLIN, 0};
    long long next = now() + TICK_MILLISECONDS;
    bool goes_on = true;

    while (goes_on) {
        long long left = next - now();

        if (left <= 0) {
            next = now() + TICK_MILLISECONDS; /* a tick that is late is one tick */
            goes_on = tick(end, device);
        } else if (poll(&wait, 1, (int)left) > 0) {
            goes_on = hear(end, device);
        }
    }
}

int main(int argc, char **argv)
{
    static const uint8_t block[1] = {0};
    df1_duplex link = full_duplex;
    df1_end end = DF1_NOTHING;
    int device;

    if (argc < 2 || argc > 3 || (argc == 3 && strcmp(argv[2], "crc") != 0)) {
        fprintf(stderr, "serve DEVICE [crc]\n");
        return 2;
    }
    link.crc = argc == 3;
    device = open_raw(argv[1], 0, SPEED);
    if (device < 0) {
        perror(argv[1]);
        return 1;
    }
    if (df1_duplex_make(&link, &node, files, 1, words, 1, block, 0, &end) != DF1_DONE) {
        fprintf(stderr, "no end was made\n");
        return 1;
    }
    serve(&end, device);
    df1_end_free(&end);
    close(device);
    return status;
}
