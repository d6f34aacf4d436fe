/* A serial device or a pseudo-terminal, and a clock that only goes on: what the examples share. Their first line defines
 * _POSIX_C_SOURCE as 200809L. */
#ifndef SERIAL_H
#define SERIAL_H

#include <fcntl.h>
#include <stdbool.h>
#include <termios.h>
#include <time.h>
#include <unistd.h>

/* Milliseconds since some time. */
static inline long long now(void)
{
    struct timespec time;

    clock_gettime(CLOCK_MONOTONIC, &time);
    return time.tv_sec * 1000LL + time.tv_nsec / 1000000;
}

/* Makes a device raw: bytes go through it as they are, eight bits each. */
static inline bool make_raw(int device, speed_t speed)
{
    struct termios line;

    if (tcgetattr(device, &line) != 0)
        return false;
    line.c_iflag = 0;
    line.c_oflag = 0;
    line.c_lflag = 0;
    line.c_cflag = CS8 | CREAD | CLOCAL;
    line.c_cc[VMIN] = 1;
    line.c_cc[VTIME] = 0;
    cfsetispeed(&line, speed);
    cfsetospeed(&line, speed);
    return tcsetattr(device, TCSANOW, &line) == 0;
}

/* Opens a device and makes it raw; -1 where it isn't there or is no such device. */
static inline int open_raw(const char *name, int flags, speed_t speed)
{
    int device = open(name, O_RDWR | O_NOCTTY | flags);

    if (device >= 0 && !make_raw(device, speed)) {
        close(device);
        device = -1;
    }
    return device;
}

#endif
