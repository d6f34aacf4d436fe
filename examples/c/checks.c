/* Prints the two checks of the manual's example message, 08 09 06 00 02 04 03, and its frame with each. */
#include <stdio.h>

#include "df1.h"

static void print_frame(bool crc, const uint8_t *body, size_t length)
{
    uint8_t frame[506];
    size_t at, count;

    if (df1_spell(crc, body, length, frame, sizeof frame, &count) != DF1_DONE)
        return;
    for (at = 0; at < count; at++)
        printf(at + 1 < count ? "%02X " : "%02X\n", frame[at]);
}

int main(void)
{
    static const uint8_t message[] = {0x08, 0x09, 0x06, 0x00, 0x02, 0x04, 0x03, 0x03};
    uint16_t crc = df1_crc(message, 8);

    printf("BCC %02X, CRC %02X %02X\n", df1_bcc(message, 7), crc % 256, crc / 256);
    print_frame(false, message, 7);
    print_frame(true, message, 7);
    return 0;
}
