/* The two sides of a half-duplex line without an end: what a decoder hears of each, and messages and polls that are spelled. The bytes
 * are worked by hand after docs/PROTOCOL.md, "Half duplex". */
#include <stdlib.h>
#include <string.h>

#include "library-rows.h"

/* What is heard at the byte of this place, from 1; a place of 0 is behind the last. */
struct thing {
    size_t place;
    uint32_t heard;
    uint8_t byte, station;
};

/* That a decoder hears these things in a text of bytes, each at its place and nothing elsewhere, and then lends this body. */
static int hears(df1_decoder *decoder, const char *text, const struct thing *wanted, const char *body)
{
    uint8_t bytes[64], lent[250];
    size_t at, length, count = bytes_of(text, bytes);
    df1_hearing heard;

    for (at = 1; at <= count; at++) {
        ROW(df1_decoder_byte(decoder, bytes[at - 1], &heard) == DF1_DONE);
        if (wanted->place == at) {
            ROW(heard.heard == wanted->heard && heard.byte == wanted->byte && heard.station == wanted->station);
            wanted++;
        } else {
            ROW(heard.heard == DF1_HEARD_NOTHING && heard.byte == 0 && heard.station == 0);
        }
    }
    ROW(wanted->place == 0);
    ROW(df1_decoder_body(decoder, lent, sizeof lent, &length) == DF1_DONE);
    ROW(length == bytes_of(body, bytes) && memcmp(lent, bytes, length) == 0);
    return 0;
}

/* Rows of one decoder, each after the one before. */
struct row {
    const char *bytes;
    struct thing wanted[4];
    const char *body;
};

static int hears_rows(uint32_t side, bool crc, const struct row *rows, size_t count)
{
    df1_decoder decoder = DF1_NOTHING;
    int failed;

    ROW(df1_decoder_make_side(side, crc, &decoder) == DF1_DONE);
    for (; count > 0; count--, rows++) {
        failed = hears(&decoder, rows->bytes, rows->wanted, rows->body);
        if (failed != 0)
            return failed;
    }
    return df1_decoder_free(&decoder) == DF1_DONE ? 0 : __LINE__;
}

static int hearing(void)
{
    static const struct row of_master[] = {
        {"10 01 03 10 02 03 00 0F 00 01 00 AA 02 07 89 00 00 34 12 10 03 68",
         {{5, DF1_HEARD_HEADER, 0, 3}, {22, DF1_HEARD_GOOD, 0, 3}},
         "03 00 0F 00 01 00 AA 02 07 89 00 00 34 12"},
        {"10 05 03 FD", {{4, DF1_HEARD_POLL, 0, 3}}, ""},
        {"10 05 03 FC", {{4, DF1_HEARD_BAD_POLL, 0, 0}}, ""},
        {"10 05 F0 10", {{4, DF1_HEARD_POLL, 0, 0xF0}}, ""},
        {"10 05 10 F0", {{4, DF1_HEARD_POLL, 0, 0x10}}, ""},
        {"10 01 03 10 02 03 00 06 00 01 00 10 03 F3", {{5, DF1_HEARD_HEADER, 0, 3}, {14, DF1_HEARD_GOOD, 0, 3}}, "03 00 06 00 01 00"},
        {"10 01 03 10 02 03 00 06 00 01 00 10 03 F2", {{5, DF1_HEARD_HEADER, 0, 3}, {14, DF1_HEARD_DAMAGED, 0, 3}}, ""},
        {"10 01 03 10 02 03 00 06 00 01 10 03 F3", {{5, DF1_HEARD_HEADER, 0, 3}, {13, DF1_HEARD_DAMAGED, 0, 3}}, ""},
        {"10 01 03 10 02 41 10 05 05 FB",
         {{5, DF1_HEARD_HEADER, 0, 3}, {8, DF1_HEARD_DAMAGED, 0, 3}, {10, DF1_HEARD_POLL, 0, 5}},
         ""},
        {"10 01 03 41", {{4, DF1_HEARD_DAMAGED, 0, 3}}, ""},
        {"10 01 10 10 02 10 15", {{5, DF1_HEARD_HEADER, 0, 0x10}, {7, DF1_HEARD_DAMAGED, 0, 0x10}}, ""},
        {"10 06", {{2, DF1_HEARD_ACK, 0, 0}}, ""},
        {"10 15", {{2, DF1_HEARD_NAK, 0, 0}}, ""},
        {"10 0F", {{2, DF1_HEARD_NAK, 0, 0}}, ""},
        {"10 04", {{2, DF1_HEARD_STRAY_PAIR, 4, 0}}, ""},
        {"55", {{1, DF1_HEARD_STRAY, 0x55, 0}}, ""},
    };
    static const struct row of_master_by_crc[] = {
        {"10 01 03 10 02 03 00 06 00 01 00 00 55 10 03 9E EF",
         {{5, DF1_HEARD_HEADER, 0, 3}, {17, DF1_HEARD_GOOD, 0, 3}},
         "03 00 06 00 01 00 00 55"},
        {"10 05 03 FD", {{4, DF1_HEARD_POLL, 0, 3}}, ""},
    };
    static const struct row of_slaves[] = {
        {"10 02 00 03 4F 00 01 00 10 03 AD", {{11, DF1_HEARD_GOOD, 0, 0}}, "00 03 4F 00 01 00"},
        {"10 02 00 03 4F 00 01 00 10 03 AE", {{11, DF1_HEARD_DAMAGED, 0, 0}}, ""},
        {"10 02 00 03 4F 00 01 10 03 AD", {{10, DF1_HEARD_DAMAGED, 0, 0}}, ""},
        {"10 04", {{2, DF1_HEARD_EOT, 0, 0}}, ""},
        {"10 06", {{2, DF1_HEARD_ACK, 0, 0}}, ""},
        {"10 15", {{2, DF1_HEARD_NAK, 0, 0}}, ""},
        {"10 0F", {{2, DF1_HEARD_NAK, 0, 0}}, ""},
        {"10 05", {{2, DF1_HEARD_STRAY_PAIR, 5, 0}}, ""},
        {"10 02 00 10 02 00 03 4F 00 01 00 10 03 AD", {{5, DF1_HEARD_DAMAGED, 0, 0}, {14, DF1_HEARD_GOOD, 0, 0}}, "00 03 4F 00 01 00"},
        {"10 02 00 10 41", {{5, DF1_HEARD_DAMAGED, 0, 0}}, ""},
        {"55", {{1, DF1_HEARD_STRAY, 0x55, 0}}, ""},
    };
    static const struct row of_slaves_by_crc[] = {
        {"10 02 08 09 06 00 02 04 03 10 03 98 48", {{13, DF1_HEARD_GOOD, 0, 0}}, "08 09 06 00 02 04 03"},
    };
    static const struct row full[] = {
        {"10 02 08 09 06 00 02 04 03 10 03 E0", {{12, DF1_HEARD_GOOD, 0, 0}}, "08 09 06 00 02 04 03"},
        {"10 05", {{2, DF1_HEARD_ENQ, 0, 0}}, ""},
    };
    int failed = hears_rows(DF1_SIDE_MASTER, false, of_master, COUNT(of_master));

    if (failed == 0)
        failed = hears_rows(DF1_SIDE_MASTER, true, of_master_by_crc, COUNT(of_master_by_crc));
    if (failed == 0)
        failed = hears_rows(DF1_SIDE_SLAVE, false, of_slaves, COUNT(of_slaves));
    if (failed == 0)
        failed = hears_rows(DF1_SIDE_SLAVE, true, of_slaves_by_crc, COUNT(of_slaves_by_crc));
    return failed == 0 ? hears_rows(DF1_SIDE_FULL, false, full, COUNT(full)) : failed;
}

/* Messages to station 3, and of a slave, of 250 and of 251 zeros: the BCC of a 3 is FD, and that of zeros 00. */
static int longest_bodies(uint32_t side)
{
    df1_decoder decoder = DF1_NOTHING;
    df1_hearing heard = {0, 0, 0};
    uint8_t head[5], body[250];
    size_t at, zeros, length, begun = bytes_of(side == DF1_SIDE_MASTER ? "10 01 03 10 02" : "10 02", head);
    uint8_t check = side == DF1_SIDE_MASTER ? 0xFD : 0x00;

    ROW(df1_decoder_make_side(side, false, &decoder) == DF1_DONE);
    for (zeros = 250; zeros <= 251; zeros++) {
        for (at = 0; at < begun + zeros; at++)
            ROW(df1_decoder_byte(&decoder, at < begun ? head[at] : 0, &heard) == DF1_DONE);
        ROW(df1_decoder_byte(&decoder, 0x10, &heard) == DF1_DONE && df1_decoder_byte(&decoder, 0x03, &heard) == DF1_DONE);
        ROW(df1_decoder_byte(&decoder, check, &heard) == DF1_DONE);
        ROW(heard.heard == (zeros == 250 ? (uint32_t)DF1_HEARD_GOOD : (uint32_t)DF1_HEARD_DAMAGED));
        ROW(heard.byte == 0 && heard.station == (side == DF1_SIDE_MASTER ? 3 : 0));
        if (zeros == 250)
            ROW(df1_decoder_body(&decoder, body, 249, &length) == DF1_NO_ROOM && length == 250);
        ROW(df1_decoder_body(&decoder, body, 250, &length) == DF1_DONE && length == (zeros == 250 ? 250u : 0u));
    }
    return df1_decoder_free(&decoder) == DF1_DONE ? 0 : __LINE__;
}

/* Numbers that are no side's, handles that aren't empty, and no memory. */
static int refusals(void)
{
    df1_decoder decoder = DF1_NOTHING;
    df1_hearing heard;
    uint32_t side, code;

    ROW(df1_decoder_make_side(3, false, &decoder) == DF1_BAD_SIDE && df1_decoder_make_side(0xFFFFFFFF, true, &decoder) == DF1_BAD_SIDE);
    ROW(df1_decoder_byte(&decoder, 0x10, &heard) == DF1_NO_HANDLE);
    for (side = DF1_SIDE_FULL; side <= DF1_SIDE_SLAVE; side++) {
        grants = 0;
        code = df1_decoder_make_side(side, true, &decoder);
        grants = -1;
        ROW(code == DF1_NO_MEMORY && df1_decoder_free(&decoder) == DF1_NO_HANDLE);
        ROW(df1_decoder_make_side(side, true, &decoder) == DF1_DONE);
        ROW(df1_decoder_make_side(side, true, &decoder) == DF1_NO_HANDLE && df1_decoder_make_side(3, true, &decoder) == DF1_NO_HANDLE);
        ROW(df1_decoder_free(&decoder) == DF1_DONE && df1_decoder_free(&decoder) == DF1_NO_HANDLE);
    }
    return 0;
}

/* ---- Spelling ---- */

enum spelled { MESSAGE, REPLY, POLL };

static uint32_t spell(enum spelled what, uint8_t station, bool crc, const uint8_t *body, size_t count, uint8_t *into, size_t room, size_t *length)
{
    if (what == MESSAGE)
        return df1_spell_message(station, crc, body, count, into, room, length);
    if (what == REPLY)
        return df1_spell_reply(crc, body, count, into, room, length);
    return df1_spell_poll(station, into, room, length);
}

/* Each into just the room that it needs, and into one byte less. */
static int spelling(void)
{
    static const struct {
        enum spelled what;
        uint8_t station;
        bool crc;
        const char *body, *bytes;
    } rows[] = {
        {MESSAGE, 3, false, "03 00 0F 00 01 00 AA 02 07 89 00 00 34 12", "10 01 03 10 02 03 00 0F 00 01 00 AA 02 07 89 00 00 34 12 10 03 68"},
        {MESSAGE, 3, true, "03 00 06 00 01 00 00 55", "10 01 03 10 02 03 00 06 00 01 00 00 55 10 03 9E EF"},
        {MESSAGE, 3, false, "10 00 06 00 01 00", "10 01 03 10 02 10 10 00 06 00 01 00 10 03 E6"},
        {MESSAGE, 0, false, "", "10 01 00 10 02 10 03 00"},
        {MESSAGE, 254, false, "", "10 01 FE 10 02 10 03 02"},
        {REPLY, 0, false, "00 03 4F 00 01 00", "10 02 00 03 4F 00 01 00 10 03 AD"},
        {REPLY, 0, false, "07 00 06 00 01 00 00 E2", "10 02 07 00 06 00 01 00 00 E2 10 03 10"},
        {REPLY, 0, true, "08 09 06 00 02 04 03", "10 02 08 09 06 00 02 04 03 10 03 98 48"},
        {REPLY, 0, true, "", "10 02 10 03 40 01"},
        {POLL, 3, false, "", "10 05 03 FD"},
        {POLL, 0xF0, false, "", "10 05 F0 10"},
        {POLL, 0, false, "", "10 05 00 00"},
        {POLL, 254, false, "", "10 05 FE 02"},
    };
    uint8_t body[32], bytes[32];
    size_t at, needed;

    for (at = 0; at < COUNT(rows); at++) {
        size_t count = bytes_of(rows[at].body, body), length = bytes_of(rows[at].bytes, bytes);
        uint8_t *block = block_of(body, count), *into = block_of(bytes, length);

        memset(into, 0xA5, length);
        needed = 0;
        ROW(spell(rows[at].what, rows[at].station, rows[at].crc, block, count, into, length - 1, &needed) == DF1_NO_ROOM && needed == length);
        ROW(are_all(into, 0xA5, length));
        needed = 0;
        ROW(spell(rows[at].what, rows[at].station, rows[at].crc, block, count, into, length, &needed) == DF1_DONE && needed == length);
        ROW(memcmp(into, bytes, length) == 0);
        free(block);
        free(into);
    }
    return 0;
}

/* Stations that none may have before bodies that are too long before no room, the longest of each, and null pointers. */
static int edges_of_spelling(void)
{
    uint8_t body[251], bytes[509];
    size_t length = 7;

    memset(body, 0x10, sizeof body);
    memset(bytes, 0xA5, sizeof bytes);
    ROW(df1_spell_message(16, false, body, 251, bytes, 0, &length) == DF1_BAD_STATION && df1_spell_message(255, true, body, 6, bytes, 509, &length) == DF1_BAD_STATION);
    ROW(df1_spell_poll(16, bytes, 509, &length) == DF1_BAD_STATION && df1_spell_poll(255, bytes, 0, &length) == DF1_BAD_STATION);
    ROW(df1_spell_message(17, false, body, 251, bytes, 0, &length) == DF1_LONG_BODY && df1_spell_reply(true, body, 251, bytes, 509, &length) == DF1_LONG_BODY);
    ROW(length == 7 && are_all(bytes, 0xA5, sizeof bytes));
    ROW(df1_spell_message(17, true, body, 250, bytes, 508, &length) == DF1_NO_ROOM && length == 509 && are_all(bytes, 0xA5, sizeof bytes));
    ROW(df1_spell_message(17, true, body, 250, bytes, 509, &length) == DF1_DONE && length == 509);
    ROW(df1_spell_reply(true, body, 250, bytes, 505, &length) == DF1_NO_ROOM && length == 506);
    ROW(df1_spell_reply(true, body, 250, bytes, 506, &length) == DF1_DONE && length == 506);
    ROW(df1_spell_message(3, false, NULL, 0, NULL, 0, &length) == DF1_NO_ROOM && length == 8);
    ROW(df1_spell_reply(true, NULL, 0, NULL, 0, &length) == DF1_NO_ROOM && length == 6);
    ROW(df1_spell_poll(3, NULL, 0, &length) == DF1_NO_ROOM && length == 4);
    return 0;
}

int sides(void)
{
    int failed = hearing();

    if (failed == 0)
        failed = longest_bodies(DF1_SIDE_MASTER);
    if (failed == 0)
        failed = longest_bodies(DF1_SIDE_SLAVE);
    if (failed == 0)
        failed = refusals();
    if (failed == 0)
        failed = spelling();
    return failed == 0 ? edges_of_spelling() : failed;
}
