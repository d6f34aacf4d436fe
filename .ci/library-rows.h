/* What the files of rows share. */
#ifndef LIBRARY_ROWS_H
#define LIBRARY_ROWS_H

#include "df1.h"

/* Ends the function with the line of a row that fails. */
#define ROW(holds)           \
    do {                     \
        if (!(holds))        \
            return __LINE__; \
    } while (0)

#define COUNT(rows) (sizeof(rows) / sizeof(rows)[0])

/* The bytes of a hexadecimal text with blanks, and how many they are. */
size_t bytes_of(const char *text, uint8_t *into);

/* A block of memory of just these bytes, so that a checker of memory sees a byte that is read or written beside them. */
uint8_t *block_of(const void *bytes, size_t length);

/* Whether `length` bytes at `bytes` are all `value`. */
bool are_all(const void *bytes, uint8_t value, size_t length);

/* How many more allocations are granted; all where it is negative. */
extern long grants;

/* Fills a handle with an end of parts in range, at address 1: 0 of a full-duplex link, 1 a master, 2 a slave. Answers the code. */
uint32_t made(int kind, df1_end *end);

/* Transfers: the line of the first row that fails, or 0. */
int transfers(void);

/* Messages between stations: the line of the first row that fails, or 0. */
int routes(void);

/* Sides of a half-duplex line without an end: the line of the first row that fails, or 0. */
int sides(void);

/* Ends that talk: the line of the first row that fails, or 0. */
int talks(void);

#endif
