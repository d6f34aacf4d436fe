/* A row for each edge of the library's calls, in C99 and C++. Memory comes through the wrapped malloc and
 * realloc below (the linker's --wrap), so that it can be refused. Ends with 0, or tells the line of the first row that fails. */
#include <stdio.h>
#include <stdlib.h>
#include <string.h>

#include "library-rows.h"

/* ---- Memory that is refused ---- */

long grants = -1; /* how many more allocations are granted; all where it is negative */

#ifdef __cplusplus
extern "C" {
#endif
void *__real_malloc(size_t size);
void *__real_realloc(void *at, size_t size);
void *__wrap_malloc(size_t size);
void *__wrap_realloc(void *at, size_t size);

void *__wrap_malloc(size_t size)
{
    return grants >= 0 && grants-- == 0 ? (grants = 0, (void *)NULL) : __real_malloc(size);
}

void *__wrap_realloc(void *at, size_t size)
{
    return grants >= 0 && grants-- == 0 ? (grants = 0, (void *)NULL) : __real_realloc(at, size);
}
#ifdef __cplusplus
}
#endif

/* ---- Bytes ---- */

size_t bytes_of(const char *text, uint8_t *into)
{
    size_t count = 0;

    for (; *text != 0; text += text[2] == 0 ? 2 : 3) {
        char pair[3] = {text[0], text[1], 0};

        into[count++] = (uint8_t)strtoul(pair, NULL, 16);
    }
    return count;
}

uint8_t *block_of(const void *bytes, size_t length)
{
    uint8_t *block = (uint8_t *)malloc(length + (length == 0));

    if (block == NULL)
        abort();
    memcpy(block, bytes, length);
    return block;
}

bool are_all(const void *bytes, uint8_t value, size_t length)
{
    const uint8_t *at = (const uint8_t *)bytes;

    for (; length > 0 && *at == value; at++)
        length--;
    return length == 0;
}

/* ---- Checks, frames and texts ---- */

static int checks(void)
{
    static const struct {
        const char *bytes;
        uint8_t bcc;
        uint16_t crc;
    } rows[] = {
        {"", 0x00, 0x0000},
        {"00", 0x00, 0x0000},
        {"01", 0xFF, 0xC0C1},
        {"10", 0xF0, 0xCC01},
        {"31 32 33 34 35 36 37 38 39", 0x23, 0xBB3D},
        {"08 09 06 00 02 04 03 03", 0xDD, 0x4898},
    };
    uint8_t bytes[16];
    size_t at;

    ROW(df1_version() == DF1_VERSION);
    for (at = 0; at < COUNT(rows); at++) {
        size_t length = bytes_of(rows[at].bytes, bytes);
        uint8_t *block = block_of(bytes, length);

        ROW(df1_bcc(block, length) == rows[at].bcc);
        ROW(df1_crc(block, length) == rows[at].crc);
        free(block);
    }
    return 0;
}

/* The values at first, and null pointers that go with a length of 0. */
static int firsts_and_nulls(void)
{
    static const df1_duplex link = DF1_DUPLEX_INIT;
    static const df1_master polling = DF1_MASTER_INIT;
    static const df1_slave polled = DF1_SLAVE_INIT;
    static const df1_node node = DF1_NODE_INIT(1);
    static const uint8_t body[] = {1, 0, 6, 0, 1, 0};
    df1_end end = DF1_NOTHING;
    df1_turn turn;
    uint32_t number;
    size_t length;

    ROW(link.ack_ticks == 10 && link.max_naks == 3 && link.max_enqs == 3 && !link.crc && !link.embed);
    ROW(polling.ack_ticks == 10 && polling.max_resends == 3 && polling.poll_ticks == 10 && polling.routes == 0 && polled.max_sends == 3);
    ROW(node.address == 1 && node.tns == 1 && node.reply_ticks == 100 && node.room == 2 && !node.has_compat && node.window == 1 && node.per_source == 16);
    ROW(df1_master_make(&polling, NULL, 0, &node, NULL, 0, NULL, 0, NULL, 0, &end) == DF1_DONE && df1_end_free(&end) == DF1_DONE);
    ROW(df1_slave_make(&polled, &node, NULL, 0, NULL, 0, NULL, 0, &end) == DF1_DONE && df1_end_free(&end) == DF1_DONE);
    ROW(df1_bcc(NULL, 0) == 0 && df1_crc(NULL, 0) == 0);
    ROW(df1_spell(false, NULL, 0, NULL, 0, &length) == DF1_NO_ROOM && length == 5);
    ROW(df1_spell(false, body, sizeof body, NULL, 0, &length) == DF1_NO_ROOM && length == 11);
    ROW(df1_code_text(0, NULL, 0, &length) == DF1_NO_ROOM);
    ROW(df1_duplex_make(&link, &node, NULL, 0, NULL, 0, NULL, 0, &end) == DF1_DONE);
    ROW(df1_end_body(&end, NULL, 0, &length) == DF1_DONE && length == 0);
    ROW(df1_end_tick(&end, &turn, NULL, 0) == DF1_NO_ROOM);
    ROW(df1_end_issue(&end, 1, NULL, 0, &number) == DF1_NO_PAYLOAD && df1_end_issue_from(&end, 1, 1, NULL, 0, &number) == DF1_NO_PAYLOAD);
    ROW(df1_end_push(&end, 1, 7, NULL, 0, &number) == DF1_BAD_WORDS);
    return df1_end_free(&end) == DF1_DONE ? 0 : __LINE__;
}

/* Spells a body into just the room that its frame needs, and into one byte less. */
static int spells(bool crc, const uint8_t *body, size_t length, const uint8_t *frame, size_t frame_length)
{
    uint8_t *block = block_of(body, length), *into = block_of(frame, frame_length);
    size_t needed = 0;

    memset(into, 0xA5, frame_length);
    ROW(df1_spell(crc, block, length, into, 0, &needed) == DF1_NO_ROOM && needed == frame_length);
    needed = 0;
    ROW(df1_spell(crc, block, length, into, frame_length - 1, &needed) == DF1_NO_ROOM && needed == frame_length);
    ROW(are_all(into, 0xA5, frame_length));
    needed = 0;
    ROW(df1_spell(crc, block, length, into, frame_length, &needed) == DF1_DONE && needed == frame_length);
    ROW(memcmp(into, frame, frame_length) == 0);
    free(block);
    free(into);
    return 0;
}

static int spelling(void)
{
    static const struct {
        bool crc;
        const char *body, *frame;
    } rows[] = {
        {false, "", "10 02 10 03 00"},
        {true, "", "10 02 10 03 40 01"},
        {false, "10", "10 02 10 10 10 03 F0"},
        {false, "F0", "10 02 F0 10 03 10"},
        {false, "08 09 06 00 02 04 03", "10 02 08 09 06 00 02 04 03 10 03 E0"},
        {true, "08 09 06 00 02 04 03", "10 02 08 09 06 00 02 04 03 10 03 98 48"},
    };
    uint8_t body[251], frame[506];
    size_t at, length = 7;
    int failed;

    for (at = 0; at < COUNT(rows); at++) {
        size_t body_length = bytes_of(rows[at].body, body);

        failed = spells(rows[at].crc, body, body_length, frame, bytes_of(rows[at].frame, frame));
        ROW(failed == 0);
    }
    /* 250 zeros, whose BCC is 0; 251 of them, also into no room; and 250 bytes 10, which make the longest frame. */
    memset(body, 0, sizeof body);
    memset(frame, 0, sizeof frame);
    bytes_of("10 02", frame);
    bytes_of("10 03", frame + 252);
    ROW(spells(false, body, 250, frame, 255) == 0);
    memset(frame, 0xA5, sizeof frame);
    ROW(df1_spell(false, body, 251, frame, 506, &length) == DF1_LONG_BODY);
    ROW(df1_spell(true, body, 251, frame, 0, &length) == DF1_LONG_BODY);
    ROW(length == 7 && are_all(frame, 0xA5, sizeof frame));
    memset(body, 0x10, 250);
    ROW(df1_spell(true, body, 250, frame, 505, &length) == DF1_NO_ROOM && length == 506);
    ROW(df1_spell(true, body, 250, frame, 506, &length) == DF1_DONE && length == 506);
    return 0;
}

static int texts(void)
{
    char text[81];
    uint32_t code;
    size_t last;

    for (code = 0; code <= DF1_NO_TYPED_DATA + 1; code++) {
        size_t length = 0, again = 0;

        ROW(df1_code_text(code, text, 0, &length) == DF1_NO_ROOM && length >= 2 && length <= 80);
        memset(text, 'x', sizeof text);
        ROW(df1_code_text(code, text, length - 1, &again) == DF1_NO_ROOM && again == length && are_all(text, 'x', sizeof text));
        ROW(df1_code_text(code, text, length, &again) == DF1_DONE && again == length);
        ROW(strlen(text) + 1 == length && text[length] == 'x');
        ROW((strcmp(text, "no code of df1") == 0) == (code > DF1_NO_TYPED_DATA));
    }
    ROW(df1_code_text(0xFFFFFFFF, text, 80, &last) == DF1_DONE && strcmp(text, "no code of df1") == 0);
    return 0;
}

/* ---- The decoder ---- */

/* What is heard at the last byte of a row's bytes, the body that a decoder then lends, and nothing at the bytes before. */
static int hearing(void)
{
    static const struct {
        const char *bytes;
        uint32_t heard;
        uint8_t byte;
        const char *body;
    } rows[] = {
        {"10 02 08 09 06 00 02 04 03 10 03 E0", DF1_HEARD_GOOD, 0, "08 09 06 00 02 04 03"},
        {"10 02 08 09 06 00 02 10 03 E7", DF1_HEARD_SHORT, 0, "08 09 06 00 02"},
        {"10 02 10 03 00", DF1_HEARD_SHORT, 0, ""},
        {"10 02 08 09 06 00 02 04 03 10 03 E1", DF1_HEARD_BAD_CHECK, 0, "08 09 06 00 02 04 03"},
        {"10 02 08 10 10 06 00 02 04 03 10 03 D9", DF1_HEARD_GOOD, 0, "08 10 06 00 02 04 03"},
        {"10 02 01 10 41", DF1_HEARD_BROKEN, 0x41, ""},
        {"10 06", DF1_HEARD_ACK, 0, ""},
        {"10 15", DF1_HEARD_NAK, 0, ""},
        {"10 0F", DF1_HEARD_NAK, 0, ""},
        {"10 05", DF1_HEARD_ENQ, 0, ""},
        {"55", DF1_HEARD_STRAY, 0x55, ""},
        {"10 99", DF1_HEARD_STRAY_PAIR, 0x99, ""},
        {"10 02 01 10 02", DF1_HEARD_RESTART, 0, ""},
        {"08 09 06 00 02 04 03 10 03 E0", DF1_HEARD_GOOD, 0, "08 09 06 00 02 04 03"},
    };
    df1_decoder decoder = DF1_NOTHING;
    df1_hearing heard;
    uint8_t bytes[300], body[300];
    size_t row, at, count, length;

    ROW(df1_decoder_make(false, &decoder) == DF1_DONE && df1_decoder_make(false, &decoder) == DF1_NO_HANDLE);
    for (row = 0; row < COUNT(rows); row++) {
        count = bytes_of(rows[row].bytes, bytes);
        for (at = 0; at < count; at++) {
            ROW(df1_decoder_byte(&decoder, bytes[at], &heard) == DF1_DONE);
            ROW(at + 1 == count || (heard.heard == DF1_HEARD_NOTHING && heard.byte == 0));
        }
        ROW(heard.heard == rows[row].heard && heard.byte == rows[row].byte);
        ROW(df1_decoder_body(&decoder, body, sizeof body, &length) == DF1_DONE);
        ROW(length == bytes_of(rows[row].body, bytes) && memcmp(body, bytes, length) == 0);
    }
    ROW(df1_decoder_free(&decoder) == DF1_DONE && df1_decoder_free(&decoder) == DF1_NO_HANDLE);
    return 0;
}

/* Frames of 250 and of 251 zeros, whose BCC is 00: the first is good, the second long. */
static int longest_bodies(void)
{
    df1_decoder decoder = DF1_NOTHING;
    df1_hearing heard;
    uint8_t frame[256] = {0}, *body = block_of(frame, 250);
    size_t at, zeros, length;

    ROW(df1_decoder_make(false, &decoder) == DF1_DONE);
    for (zeros = 250; zeros <= 251; zeros++) {
        memset(frame, 0, sizeof frame);
        bytes_of("10 02", frame);
        bytes_of("10 03", frame + 2 + zeros);
        for (at = 0; at < zeros + 5; at++)
            ROW(df1_decoder_byte(&decoder, frame[at], &heard) == DF1_DONE);
        ROW(heard.heard == (zeros == 250 ? (uint32_t)DF1_HEARD_GOOD : (uint32_t)DF1_HEARD_LONG));
        memset(body, 0xA5, 250);
        length = 7;
        if (zeros == 250) {
            ROW(df1_decoder_body(&decoder, body, 249, &length) == DF1_NO_ROOM && length == 250 && are_all(body, 0xA5, 250));
            ROW(df1_decoder_body(&decoder, body, 250, &length) == DF1_DONE && length == 250 && are_all(body, 0, 250));
        } else {
            ROW(df1_decoder_body(&decoder, body, 0, &length) == DF1_DONE && length == 0);
        }
    }
    free(body);
    return df1_decoder_free(&decoder) == DF1_DONE ? 0 : __LINE__;
}

/* ---- Handles that hold nothing ---- */

/* What the calls write. */
struct written {
    uint8_t bytes[8];
    size_t length;
    df1_hearing hearing;
    df1_step step;
    df1_turn turn;
    uint32_t gone[16];
    df1_out out;
    bool quiet;
    df1_given given;
    df1_state state;
    uint32_t number;
    uint16_t values[2];
    uint16_t value;
    df1_file file;
    df1_transfer transfer;
};

/* That no call on an end does anything with a handle that holds none. */
static int no_end(df1_end *end)
{
    static const uint8_t payload[] = {0x06, 0x00, 0x55};
    struct written now, then;

    memset(&now, 0xA5, sizeof now);
    memset(&then, 0xA5, sizeof then);
    ROW(df1_end_byte(end, 0x10, &now.step) == DF1_NO_HANDLE);
    ROW(df1_end_body(end, now.bytes, 0, &now.length) == DF1_NO_HANDLE);
    ROW(df1_end_body(end, now.bytes, 8, &now.length) == DF1_NO_HANDLE);
    ROW(df1_end_tick(end, &now.turn, now.gone, 16) == DF1_NO_HANDLE);
    ROW(df1_end_tick(end, &now.turn, now.gone, 15) == DF1_NO_HANDLE);
    ROW(df1_end_take(end, &now.out) == DF1_NO_HANDLE);
    ROW(df1_end_quiet(end, &now.quiet) == DF1_NO_HANDLE && df1_end_state(end, &now.state) == DF1_NO_HANDLE);
    ROW(df1_end_bytes(end, payload, 3, &now.length, &now.step) == DF1_NO_HANDLE);
    ROW(df1_end_take_bytes(end, now.bytes, 8, &now.given) == DF1_NO_HANDLE);
    ROW(df1_end_issue(end, 1, payload, 3, &now.number) == DF1_NO_HANDLE);
    ROW(df1_end_issue(end, 1, payload, 0, &now.number) == DF1_NO_HANDLE);
    ROW(df1_end_outcome(end, 1, &now.number) == DF1_NO_HANDLE);
    ROW(df1_end_reply(end, 1, now.bytes, 8, &now.length) == DF1_NO_HANDLE);
    ROW(df1_end_pull(end, 1, 1000, 0, &now.number) == DF1_NO_HANDLE);
    ROW(df1_end_push(end, 1, 7, payload, 2, &now.number) == DF1_NO_HANDLE);
    ROW(df1_end_push(end, 1, 1000, payload, 3, &now.number) == DF1_NO_HANDLE);
    ROW(df1_end_pulled(end, 1, 1, now.bytes, 8, &now.length, &now.transfer) == DF1_NO_HANDLE);
    ROW(df1_end_pulled(end, 1, 0, now.bytes, 0, &now.length, &now.transfer) == DF1_NO_HANDLE);
    ROW(df1_end_pushed(end, 1, 1, &now.transfer) == DF1_NO_HANDLE);
    ROW(df1_end_pushed(end, 1, 0, &now.transfer) == DF1_NO_HANDLE);
    ROW(df1_end_word(end, 7, 0, &now.value) == DF1_NO_HANDLE);
    ROW(df1_end_set_word(end, 7, 0, 1) == DF1_NO_HANDLE);
    ROW(df1_end_words(end, 7, 0, now.values, 2) == DF1_NO_HANDLE && df1_end_words(end, 9, 0, now.values, 0) == DF1_NO_HANDLE);
    ROW(df1_end_changed(end, 7, 0, now.values, 2, &now.length) == DF1_NO_HANDLE);
    ROW(df1_end_set_words(end, 7, 0, now.values, 2) == DF1_NO_HANDLE && df1_end_set_words(end, 9, 0, NULL, 0) == DF1_NO_HANDLE);
    ROW(df1_end_files(end, &now.number) == DF1_NO_HANDLE);
    ROW(df1_end_file(end, 0, &now.file) == DF1_NO_HANDLE);
    ROW(df1_end_free(end) == DF1_NO_HANDLE);
    ROW(memcmp(&now, &then, sizeof now) == 0);
    return 0;
}

/* That no call on a decoder does anything with a handle that holds none. */
static int no_decoder(df1_decoder *decoder)
{
    struct written now, then;

    memset(&now, 0xA5, sizeof now);
    memset(&then, 0xA5, sizeof then);
    ROW(df1_decoder_byte(decoder, 0x10, &now.hearing) == DF1_NO_HANDLE);
    ROW(df1_decoder_body(decoder, now.bytes, 0, &now.length) == DF1_NO_HANDLE);
    ROW(df1_decoder_body(decoder, now.bytes, 8, &now.length) == DF1_NO_HANDLE);
    ROW(df1_decoder_free(decoder) == DF1_NO_HANDLE);
    ROW(memcmp(&now, &then, sizeof now) == 0);
    return 0;
}

/* ---- Setups ---- */

enum kind { DUPLEX, MASTER, SLAVE };

/* All that an end of any kind may be made of. */
struct parts {
    df1_duplex duplex;
    df1_master master;
    df1_slave slave;
    df1_node node;
    uint8_t stations[33];
    size_t station_count;
    df1_file files[257];
    size_t file_count;
    df1_word words[3];
    size_t word_count;
    uint8_t block[245];
    size_t block_length;
};

/* Parts in range: at address 1, three files and two words. */
static void set_parts(struct parts *parts)
{
    static const df1_duplex duplex = {false, false, 10, 3, 3, {0}};
    static const df1_master master = {false, 10, 3, 10, 0, {0}};
    static const df1_slave slave = {false, 3, {0}};
    static const df1_node node = {1, 1, 100, 2, true, 7, 0, 0, {0}};
    static const df1_file files[] = {{7, DF1_INTEGER, 16}, {3, DF1_BIT, 4}, {4, DF1_TIMER, 2}};
    static const df1_word words[] = {{7, 0, 0x1234}, {4, 5, 0x00FF}};
    size_t at;

    memset(parts, 0, sizeof *parts);
    parts->duplex = duplex;
    parts->master = master;
    parts->slave = slave;
    parts->node = node;
    for (at = 0; at < 33; at++)
        parts->stations[at] = (uint8_t)(at + 20);
    parts->station_count = 2;
    for (at = 0; at < 257; at++) {
        df1_file file = {(uint16_t)(at + 1000), DF1_INTEGER, 1};

        parts->files[at] = at < COUNT(files) ? files[at] : file;
    }
    parts->file_count = COUNT(files);
    memcpy(parts->words, words, sizeof words);
    parts->word_count = COUNT(words);
    parts->block_length = 2;
}

/* The code of making an end of these parts. */
static uint32_t make(enum kind kind, const struct parts *parts, df1_end *end)
{
    if (kind == DUPLEX)
        return df1_duplex_make(&parts->duplex, &parts->node, parts->files, parts->file_count, parts->words, parts->word_count,
                               parts->block, parts->block_length, end);
    if (kind == MASTER)
        return df1_master_make(&parts->master, parts->stations, parts->station_count, &parts->node, parts->files, parts->file_count,
                               parts->words, parts->word_count, parts->block, parts->block_length, end);
    return df1_slave_make(&parts->slave, &parts->node, parts->files, parts->file_count, parts->words, parts->word_count,
                          parts->block, parts->block_length, end);
}

uint32_t made(int kind, df1_end *end)
{
    static struct parts parts;

    set_parts(&parts);
    return make((enum kind)kind, &parts, end);
}

/* Puts a part out of range, so that this code tells of it. */
static void spoil(struct parts *parts, uint32_t code)
{
    switch (code) {
    case DF1_BAD_ACK_TICKS:
        parts->duplex.ack_ticks = parts->master.ack_ticks = 0;
        break;
    case DF1_BAD_MAX_NAKS:
        parts->duplex.max_naks = 256;
        break;
    case DF1_BAD_MAX_ENQS:
        parts->duplex.max_enqs = 256;
        break;
    case DF1_BAD_MAX_RESENDS:
        parts->master.max_resends = 256;
        break;
    case DF1_BAD_POLL_TICKS:
        parts->master.poll_ticks = 0;
        break;
    case DF1_BAD_ROUTES:
        parts->master.routes = 2;
        break;
    case DF1_BAD_MAX_SENDS:
        parts->slave.max_sends = 0;
        break;
    case DF1_TOO_MANY_STATIONS:
        parts->station_count = 33;
        break;
    case DF1_BAD_STATION:
        parts->stations[1] = parts->node.address = 16;
        break;
    case DF1_STATION_TWICE:
        parts->stations[1] = parts->stations[0];
        break;
    case DF1_BAD_REPLY_TICKS:
        parts->node.reply_ticks = 0;
        break;
    case DF1_BAD_ROOM:
        parts->node.room = 65;
        break;
    case DF1_BAD_WINDOW:
        parts->node.window = 17;
        break;
    case DF1_BAD_PER_SOURCE:
        parts->node.per_source = 17;
        break;
    case DF1_NOT_RESERVED:
        parts->node.reserved[3] = 1;
        break;
    case DF1_TOO_MANY_FILES:
        parts->file_count = 257;
        break;
    case DF1_BAD_TYPE:
        parts->files[2].type = 0x8B;
        break;
    case DF1_EMPTY_FILE:
        parts->files[1].elements = 0;
        break;
    case DF1_LARGE_FILE:
        parts->files[1].elements = 1001;
        break;
    case DF1_FILE_TWICE:
        parts->files[1].number = 7;
        break;
    case DF1_BAD_COMPAT:
        parts->node.compat = 4;
        break;
    case DF1_NO_WORD:
        parts->words[0].index = 16;
        break;
    case DF1_LONG_BLOCK:
        parts->block_length = 245;
        break;
    default:
        break;
    }
}

/* The refusals of each kind, in the order of the header; those of one part, of which only one can be told, are one after another. */
static const uint32_t refusals[3][18] = {
    {DF1_BAD_ACK_TICKS, DF1_BAD_MAX_NAKS, DF1_BAD_MAX_ENQS, DF1_BAD_REPLY_TICKS, DF1_BAD_ROOM, DF1_BAD_WINDOW, DF1_BAD_PER_SOURCE,
     DF1_NOT_RESERVED, DF1_TOO_MANY_FILES, DF1_BAD_TYPE, DF1_EMPTY_FILE, DF1_BAD_COMPAT, DF1_NO_WORD, DF1_LONG_BLOCK, DF1_DONE},
    {DF1_BAD_ACK_TICKS, DF1_BAD_MAX_RESENDS, DF1_BAD_POLL_TICKS, DF1_BAD_ROUTES, DF1_TOO_MANY_STATIONS, DF1_BAD_STATION, DF1_BAD_REPLY_TICKS,
     DF1_BAD_ROOM, DF1_BAD_WINDOW, DF1_NOT_RESERVED, DF1_TOO_MANY_FILES, DF1_BAD_TYPE, DF1_LARGE_FILE, DF1_BAD_COMPAT, DF1_NO_WORD,
     DF1_LONG_BLOCK, DF1_DONE},
    {DF1_BAD_MAX_SENDS, DF1_BAD_STATION, DF1_BAD_REPLY_TICKS, DF1_BAD_ROOM, DF1_BAD_PER_SOURCE, DF1_NOT_RESERVED,
     DF1_TOO_MANY_FILES, DF1_BAD_TYPE, DF1_FILE_TWICE, DF1_BAD_COMPAT, DF1_NO_WORD, DF1_LONG_BLOCK, DF1_DONE},
};

/* Each refusal by itself and with each one after it, the full handle before all; the handle stays as it was. */
static int refused(enum kind kind)
{
    static struct parts parts;
    df1_end end = DF1_NOTHING, full = DF1_NOTHING;
    const uint32_t *first, *second;

    set_parts(&parts);
    ROW(make(kind, &parts, &full) == DF1_DONE);
    ROW(make(kind, &parts, &full) == DF1_NO_HANDLE);
    for (first = refusals[kind]; *first != DF1_DONE; first++) {
        for (second = first; *second != DF1_DONE; second++) {
            set_parts(&parts);
            spoil(&parts, *first);
            spoil(&parts, *second);
            if (make(kind, &parts, &end) != *first) {
                printf("kind %d: %u before %u\n", (int)kind, (unsigned)*first, (unsigned)*second);
                return __LINE__;
            }
            ROW(make(kind, &parts, &full) == DF1_NO_HANDLE);
        }
    }
    ROW(no_end(&end) == 0);
    return df1_end_free(&full) == DF1_DONE ? 0 : __LINE__;
}

/* Makes an end, lets it go where it was made, and answers the code. */
static uint32_t tried(enum kind kind, const struct parts *parts)
{
    df1_end end = DF1_NOTHING;
    uint32_t code = make(kind, parts, &end);

    return df1_end_free(&end) == (code == DF1_DONE ? (uint32_t)DF1_DONE : (uint32_t)DF1_NO_HANDLE) ? code : 1000;
}

static int edges_of_links(void)
{
    static struct parts parts;
    static const uint8_t right[] = {0, 15, 17, 254}, wrong[] = {16, 255};
    size_t at;

    set_parts(&parts);
    parts.duplex.ack_ticks = parts.master.ack_ticks = parts.master.poll_ticks = parts.slave.max_sends = 1;
    parts.node.reply_ticks = 1;
    parts.node.room = 64;
    ROW(tried(DUPLEX, &parts) == DF1_DONE && tried(MASTER, &parts) == DF1_DONE && tried(SLAVE, &parts) == DF1_DONE);
    parts.duplex.ack_ticks = parts.master.ack_ticks = parts.master.poll_ticks = parts.node.reply_ticks = 1000000;
    parts.duplex.max_naks = parts.duplex.max_enqs = parts.master.max_resends = parts.slave.max_sends = 255;
    ROW(tried(DUPLEX, &parts) == DF1_DONE && tried(MASTER, &parts) == DF1_DONE && tried(SLAVE, &parts) == DF1_DONE);
    parts.node.reply_ticks = 1000001;
    ROW(tried(DUPLEX, &parts) == DF1_BAD_REPLY_TICKS);
    parts.master.poll_ticks = 1000001;
    ROW(tried(MASTER, &parts) == DF1_BAD_POLL_TICKS);
    parts.duplex.ack_ticks = parts.master.ack_ticks = 1000001;
    parts.slave.max_sends = 256;
    ROW(tried(DUPLEX, &parts) == DF1_BAD_ACK_TICKS && tried(MASTER, &parts) == DF1_BAD_ACK_TICKS && tried(SLAVE, &parts) == DF1_BAD_MAX_SENDS);
    set_parts(&parts);
    for (at = 0; at < COUNT(right); at++) {
        parts.node.address = parts.stations[1] = right[at];
        ROW(tried(SLAVE, &parts) == DF1_DONE && tried(MASTER, &parts) == DF1_DONE);
    }
    for (at = 0; at < COUNT(wrong); at++) {
        parts.node.address = wrong[at];
        ROW(tried(SLAVE, &parts) == DF1_BAD_STATION && tried(MASTER, &parts) == DF1_DONE && tried(DUPLEX, &parts) == DF1_DONE);
        parts.stations[1] = wrong[at];
        ROW(tried(MASTER, &parts) == DF1_BAD_STATION);
        parts.stations[1] = 20;
        ROW(tried(MASTER, &parts) == DF1_STATION_TWICE);
        parts.stations[1] = 21;
    }
    parts.station_count = 3;
    parts.stations[1] = 16;
    parts.stations[2] = 20;
    ROW(tried(MASTER, &parts) == DF1_BAD_STATION);
    parts.stations[1] = 20;
    parts.stations[2] = 16;
    ROW(tried(MASTER, &parts) == DF1_STATION_TWICE);
    set_parts(&parts);
    parts.station_count = 0;
    ROW(tried(MASTER, &parts) == DF1_DONE);
    parts.station_count = 32;
    ROW(tried(MASTER, &parts) == DF1_DONE);
    parts.stations[31] = 20;
    ROW(tried(MASTER, &parts) == DF1_STATION_TWICE);
    parts.node.room = 1;
    ROW(tried(DUPLEX, &parts) == DF1_BAD_ROOM);
    return 0;
}

/* Members that came later: 0 is the value at first; what is kept for later is 0. */
static int edges_of_later_members(void)
{
    static struct parts parts;
    static const uint32_t right[] = {0, 1, 16};
    size_t at;

    set_parts(&parts);
    for (at = 0; at < COUNT(right); at++) {
        parts.node.window = parts.node.per_source = right[at];
        ROW(tried(DUPLEX, &parts) == DF1_DONE && tried(MASTER, &parts) == DF1_DONE && tried(SLAVE, &parts) == DF1_DONE);
    }
    parts.master.routes = 1;
    ROW(tried(MASTER, &parts) == DF1_DONE);
    parts.master.routes = 0xFFFFFFFF;
    ROW(tried(MASTER, &parts) == DF1_BAD_ROUTES);
    parts.master.routes = 0;
    parts.node.window = 17;
    ROW(tried(DUPLEX, &parts) == DF1_BAD_WINDOW);
    parts.node.window = 0xFFFFFFFF;
    ROW(tried(MASTER, &parts) == DF1_BAD_WINDOW);
    parts.node.window = 1;
    parts.node.per_source = 17;
    ROW(tried(SLAVE, &parts) == DF1_BAD_PER_SOURCE);
    for (at = 0; at < 4; at++) {
        set_parts(&parts);
        parts.duplex.reserved[at] = parts.slave.reserved[at] = 1;
        parts.master.reserved[at % 3] = 1;
        parts.node.room = 1;
        ROW(tried(DUPLEX, &parts) == DF1_NOT_RESERVED && tried(MASTER, &parts) == DF1_NOT_RESERVED);
        ROW(tried(SLAVE, &parts) == DF1_NOT_RESERVED);
        set_parts(&parts);
        parts.node.reserved[at] = 0x80000000;
        ROW(tried(DUPLEX, &parts) == DF1_NOT_RESERVED);
    }
    return 0;
}

static int edges_of_nodes(enum kind kind)
{
    static struct parts parts;
    unsigned type;

    set_parts(&parts);
    parts.word_count = parts.block_length = parts.file_count = 0;
    ROW(tried(kind, &parts) == DF1_BAD_COMPAT);
    parts.node.has_compat = false;
    ROW(tried(kind, &parts) == DF1_DONE);
    parts.file_count = 256;
    ROW(tried(kind, &parts) == DF1_DONE);
    for (type = 0; type <= 255; type++) {
        bool is_one = type >= DF1_STATUS && type <= DF1_FLOAT, holds_words = type == DF1_BIT || type == DF1_INTEGER;

        parts.files[255].type = (uint8_t)type;
        parts.node.has_compat = false;
        ROW(tried(kind, &parts) == (is_one ? (uint32_t)DF1_DONE : (uint32_t)DF1_BAD_TYPE));
        parts.node.has_compat = true;
        parts.node.compat = parts.files[255].number;
        ROW(!is_one || tried(kind, &parts) == (holds_words ? (uint32_t)DF1_DONE : (uint32_t)DF1_BAD_COMPAT));
    }
    set_parts(&parts);
    parts.files[2].elements = 1000;
    parts.block_length = 244;
    parts.words[0].index = 15;
    ROW(tried(kind, &parts) == DF1_DONE);
    parts.words[0].file = 9;
    ROW(tried(kind, &parts) == DF1_NO_WORD);
    parts.words[0].file = 7;
    parts.words[1].index = 3000;
    ROW(tried(kind, &parts) == DF1_NO_WORD);
    parts.words[1].index = 0xFFFFFFFF;
    ROW(tried(kind, &parts) == DF1_NO_WORD);
    parts.files[0].elements = 1001;
    parts.files[1].elements = 0;
    ROW(tried(kind, &parts) == DF1_LARGE_FILE);
    parts.files[0].elements = 16;
    parts.files[1].number = 7;
    ROW(tried(kind, &parts) == DF1_EMPTY_FILE);
    parts.files[1].elements = 4;
    parts.files[2].elements = 0;
    ROW(tried(kind, &parts) == DF1_FILE_TWICE);
    return 0;
}

/* ---- Files and words ---- */

static int words(enum kind kind)
{
    static struct parts parts;
    static const df1_word further = {7, 0, 0xABCD};
    df1_end end = DF1_NOTHING;
    df1_file file;
    uint32_t count;
    uint16_t value;
    size_t at;

    set_parts(&parts);
    parts.words[2] = further;
    parts.word_count = 3;
    ROW(make(kind, &parts, &end) == DF1_DONE);
    ROW(df1_end_word(&end, 7, 0, &value) == DF1_DONE && value == 0xABCD);
    ROW(df1_end_word(&end, 4, 5, &value) == DF1_DONE && value == 0x00FF);
    ROW(df1_end_word(&end, 7, 15, &value) == DF1_DONE && value == 0);
    value = 7;
    ROW(df1_end_word(&end, 7, 16, &value) == DF1_NO_WORD && df1_end_word(&end, 4, 6, &value) == DF1_NO_WORD);
    ROW(df1_end_word(&end, 9, 0, &value) == DF1_NO_WORD && df1_end_word(&end, 7, 0xFFFFFFFF, &value) == DF1_NO_WORD && value == 7);
    ROW(df1_end_set_word(&end, 7, 15, 0x8001) == DF1_DONE && df1_end_set_word(&end, 7, 16, 1) == DF1_NO_WORD);
    ROW(df1_end_set_word(&end, 9, 0, 1) == DF1_NO_WORD);
    ROW(df1_end_word(&end, 7, 15, &value) == DF1_DONE && value == 0x8001);
    ROW(df1_end_word(&end, 3, 0, &value) == DF1_DONE && value == 0);
    ROW(df1_end_files(&end, &count) == DF1_DONE && count == 3);
    for (at = 0; at < 3; at++) {
        ROW(df1_end_file(&end, (uint32_t)at, &file) == DF1_DONE && file.number == parts.files[at].number);
        ROW(file.type == parts.files[at].type && file.elements == parts.files[at].elements);
    }
    ROW(df1_end_file(&end, 3, &file) == DF1_NO_FILE && df1_end_file(&end, 0xFFFFFFFF, &file) == DF1_NO_FILE && file.number == 4);
    ROW(df1_end_free(&end) == DF1_DONE);
    parts.file_count = 256;
    ROW(make(kind, &parts, &end) == DF1_DONE);
    ROW(df1_end_files(&end, &count) == DF1_DONE && count == 256);
    ROW(df1_end_file(&end, 255, &file) == DF1_DONE && file.number == 1255 && df1_end_file(&end, 256, &file) == DF1_NO_FILE);
    ROW(df1_end_free(&end) == DF1_DONE && no_end(&end) == 0);
    return 0;
}

/* No command of the line writes a locked file, whose words the program sets. */
static int locked_files(enum kind kind)
{
    static const uint16_t locked[1] = {7}, unknown[2] = {7, 9}, many[257] = {7};
    static struct parts parts;
    df1_end end = DF1_NOTHING;
    uint16_t value;

    set_parts(&parts);
    ROW(make(kind, &parts, &end) == DF1_DONE);
    ROW(df1_end_lock(&end, locked, 1) == DF1_DONE && df1_end_set_word(&end, 7, 1, 0x1234) == DF1_DONE);
    ROW(df1_end_word(&end, 7, 1, &value) == DF1_DONE && value == 0x1234);
    ROW(df1_end_lock(&end, unknown, 2) == DF1_NO_WORD && df1_end_lock(&end, many, 257) == DF1_TOO_MANY_FILES);
    ROW(df1_end_lock(&end, NULL, 0) == DF1_DONE);
    df1_end_free(&end);
    ROW(df1_end_lock(&end, locked, 1) == DF1_NO_HANDLE);
    return 0;
}

/* Runs of words: all of them are told or set, or none. */
static int word_runs(enum kind kind)
{
    static const uint16_t first[16] = {1, 2, 3, 4, 5, 6, 7, 8, 9, 10, 11, 12, 13, 14, 15, 16}, other[] = {0x8001, 0xFFFF};
    static struct parts parts;
    df1_end end = DF1_NOTHING;
    uint16_t told[17];
    size_t at;

    set_parts(&parts);
    ROW(make(kind, &parts, &end) == DF1_DONE);
    ROW(df1_end_set_words(&end, 7, 0, first, 16) == DF1_DONE && df1_end_words(&end, 7, 0, told, 16) == DF1_DONE);
    ROW(memcmp(told, first, sizeof first) == 0);
    ROW(df1_end_set_words(&end, 7, 14, other, 2) == DF1_DONE && df1_end_words(&end, 7, 13, told, 3) == DF1_DONE);
    ROW(told[0] == 14 && told[1] == 0x8001 && told[2] == 0xFFFF && told[3] == 4);
    ROW(df1_end_set_words(&end, 7, 15, first, 2) == DF1_NO_WORD && df1_end_set_words(&end, 7, 0xFFFFFFFF, first, 2) == DF1_NO_WORD);
    ROW(df1_end_set_words(&end, 9, 0, first, 1) == DF1_NO_WORD && df1_end_set_words(&end, 9, 0, NULL, 0) == DF1_NO_WORD);
    ROW(df1_end_set_words(&end, 7, 16, NULL, 0) == DF1_DONE && df1_end_set_words(&end, 7, 17, NULL, 0) == DF1_NO_WORD);
    ROW(df1_end_words(&end, 7, 0, told, 17) == DF1_NO_WORD && df1_end_words(&end, 7, 1, told, 16) == DF1_NO_WORD);
    ROW(df1_end_words(&end, 9, 0, told, 1) == DF1_NO_WORD && df1_end_words(&end, 7, 16, NULL, 0) == DF1_DONE);
    ROW(told[0] == 14 && told[1] == 0x8001 && told[2] == 0xFFFF && told[3] == 4);
    ROW(df1_end_words(&end, 7, 0, told, 16) == DF1_DONE);
    for (at = 0; at < 16; at++)
        ROW(told[at] == (at < 14 ? first[at] : other[at - 14]));
    /* Of what was seen the words 3 and 15 have changed since. */
    told[3] = told[15] = 0;
    ROW(df1_end_changed(&end, 7, 0, told, 16, &at) == DF1_DONE && at == 3 && told[3] == 4 && told[15] == 0);
    ROW(df1_end_changed(&end, 7, 0, told, 16, &at) == DF1_DONE && at == 15 && told[15] == 0xFFFF);
    ROW(df1_end_changed(&end, 7, 0, told, 16, &at) == DF1_DONE && at == 16 && memcmp(told, first, 14 * sizeof *told) == 0);
    ROW(df1_end_changed(&end, 7, 14, told, 2, &at) == DF1_DONE && at == 0 && told[0] == 0x8001 && told[1] == 2);
    ROW(df1_end_changed(&end, 7, 0, told, 17, &at) == DF1_NO_WORD && df1_end_changed(&end, 9, 0, told, 1, &at) == DF1_NO_WORD && at == 0);
    ROW(df1_end_changed(&end, 7, 16, NULL, 0, &at) == DF1_DONE && at == 0 && told[1] == 2);
    ROW(df1_end_free(&end) == DF1_DONE);
    return 0;
}

/* ---- Commands ---- */

static int issuing(enum kind kind)
{
    static struct parts parts;
    static const uint8_t reply[246] = {0x46, 0x00}, command[246] = {0x06};
    df1_end end = DF1_NOTHING;
    uint32_t number = 9, outcome = 9, at;
    uint8_t bytes[8];
    size_t length = 9;

    set_parts(&parts);
    ROW(make(kind, &parts, &end) == DF1_DONE);
    ROW(df1_end_issue(&end, 20, command, 0, &number) == DF1_NO_PAYLOAD);
    ROW(df1_end_issue(&end, 20, command, 246, &number) == DF1_LONG_PAYLOAD);
    ROW(df1_end_issue(&end, 20, reply, 246, &number) == DF1_LONG_PAYLOAD);
    ROW(df1_end_issue(&end, 20, reply, 1, &number) == DF1_NOT_COMMAND && number == 9);
    ROW(df1_end_outcome(&end, 0, &outcome) == DF1_NO_COMMAND && df1_end_outcome(&end, 1, &outcome) == DF1_NO_COMMAND && outcome == 9);
    ROW(df1_end_reply(&end, 1, bytes, 8, &length) == DF1_NO_COMMAND && length == 9);
    ROW(df1_end_issue(&end, 20, command, 245, &number) == DF1_DONE && number == 1);
    ROW(df1_end_issue(&end, 20, command, 1, &number) == DF1_DONE && number == 2);
    ROW(df1_end_outcome(&end, 2, &outcome) == DF1_DONE && outcome == DF1_WAITING);
    ROW(df1_end_outcome(&end, 0, &outcome) == DF1_NO_COMMAND && df1_end_outcome(&end, 3, &outcome) == DF1_NO_COMMAND);
    ROW(df1_end_reply(&end, 0, bytes, 8, &length) == DF1_NO_COMMAND && df1_end_reply(&end, 2, bytes, 0, &length) == DF1_NOT_ANSWERED);
    for (at = 3; at <= 65535; at++)
        ROW(df1_end_issue(&end, 20, command, 1, &number) == DF1_DONE && number == at);
    number = 9;
    ROW(df1_end_issue(&end, 20, command, 1, &number) == DF1_SPENT && df1_end_issue(&end, 20, reply, 1, &number) == DF1_NOT_COMMAND);
    ROW(number == 9 && df1_end_outcome(&end, 65535, &outcome) == DF1_DONE && outcome == DF1_WAITING);
    return df1_end_free(&end) == DF1_DONE ? 0 : __LINE__;
}

/* ---- Memory ---- */

/* Each allocation of a make is refused in turn. */
static int makes_without_memory(enum kind kind)
{
    static struct parts parts;
    df1_end end = DF1_NOTHING;
    uint32_t code = DF1_NO_MEMORY;
    long granted;

    set_parts(&parts);
    for (granted = 0; code == DF1_NO_MEMORY; granted++) {
        grants = granted;
        code = make(kind, &parts, &end);
        grants = -1;
        ROW(code == DF1_DONE || no_end(&end) == 0);
    }
    ROW(code == DF1_DONE && granted > 1);
    grants = 0;
    parts.block_length = 245;
    code = tried(kind, &parts);
    grants = -1;
    ROW(code == DF1_LONG_BLOCK);
    return df1_end_free(&end) == DF1_DONE ? 0 : __LINE__;
}

/* A decoder and commands for which there is no memory at first; nothing else that is done to an end asks for some. */
static int calls_without_memory(void)
{
    static struct parts parts;
    static const uint8_t echo[] = {0x06, 0x00, 0x55};
    df1_decoder decoder = DF1_NOTHING;
    df1_end end = DF1_NOTHING;
    uint32_t number = 0, code, at, refused_count = 0;

    grants = 0;
    code = df1_decoder_make(true, &decoder);
    grants = -1;
    ROW(code == DF1_NO_MEMORY && no_decoder(&decoder) == 0);
    set_parts(&parts);
    ROW(make(DUPLEX, &parts, &end) == DF1_DONE);
    for (at = 1; at <= 1000; at++) {
        grants = 0;
        code = df1_end_issue(&end, 2, echo, 3, &number);
        grants = -1;
        refused_count += code == DF1_NO_MEMORY;
        ROW(code == DF1_DONE ? number == at : code == DF1_NO_MEMORY && number == at - 1);
        ROW(code == DF1_DONE || (df1_end_issue(&end, 2, echo, 3, &number) == DF1_DONE && number == at));
    }
    ROW(refused_count > 0);
    return df1_end_free(&end) == DF1_DONE ? 0 : __LINE__;
}

/* Handles that were let go, of the other kind, and made again. */
static int handles(void)
{
    static struct parts parts;
    df1_decoder decoder = DF1_NOTHING;
    df1_end end = DF1_NOTHING;
    int kind;

    ROW(no_end(&end) == 0 && no_decoder(&decoder) == 0);
    set_parts(&parts);
    for (kind = DUPLEX; kind <= SLAVE; kind++) {
        ROW(make((enum kind)kind, &parts, &end) == DF1_DONE);
        ROW(no_decoder((df1_decoder *)(void *)&end) == 0 && df1_decoder_make(false, (df1_decoder *)(void *)&end) == DF1_NO_HANDLE);
        ROW(df1_end_free(&end) == DF1_DONE && no_end(&end) == 0 && no_decoder((df1_decoder *)(void *)&end) == 0);
    }
    ROW(df1_decoder_make(false, &decoder) == DF1_DONE && no_end((df1_end *)(void *)&decoder) == 0);
    for (kind = DUPLEX; kind <= SLAVE; kind++)
        ROW(make((enum kind)kind, &parts, (df1_end *)(void *)&decoder) == DF1_NO_HANDLE);
    ROW(df1_decoder_free(&decoder) == DF1_DONE && no_decoder(&decoder) == 0);
    return 0;
}

static int of_each_kind(int (*rows)(enum kind))
{
    int kind, failed = 0;

    for (kind = DUPLEX; kind <= SLAVE && failed == 0; kind++)
        failed = rows((enum kind)kind);
    return failed;
}

/* ---- Addresses, payloads and replies ---- */

/* The texts of addresses, each with that which it has again. */
static int addresses(void)
{
    static const struct {
        const char *text;
        df1_address at;
        const char *told;
    } rows[] = {
        {"N7:3", {DF1_INTEGER, 7, 3, 0, false, 0}, "N7:3"},
        {"N007:03/015", {DF1_INTEGER, 7, 3, 0, true, 15}, "N7:3/15"},
        {"F8:0", {DF1_FLOAT, 8, 0, 0, false, 0}, "F8:0"},
        {"T4:1.ACC", {DF1_TIMER, 4, 1, 2, false, 0}, "T4:1.2"},
        {"C5:999.CTL/13", {DF1_COUNTER, 5, 999, 0, true, 13}, "C5:999/13"},
        {"R6:0.LEN", {DF1_CONTROL, 6, 0, 1, false, 0}, "R6:0.1"},
        {"S:1/0", {DF1_STATUS, 2, 1, 0, true, 0}, "S2:1/0"},
        {"B999:0", {DF1_BIT, 999, 0, 0, false, 0}, "B999:0"},
    };
    size_t at, length, told;

    for (at = 0; at < COUNT(rows); at++) {
        df1_address address = {1, 1, 1, 1, true, 1};
        uint8_t *text = block_of(rows[at].text, strlen(rows[at].text)), *into;

        ROW(df1_address_read((const char *)text, strlen(rows[at].text), &address) == DF1_DONE);
        ROW(address.type == rows[at].at.type && address.file == rows[at].at.file && address.element == rows[at].at.element);
        ROW(address.sub == rows[at].at.sub && address.has_bit == rows[at].at.has_bit && address.bit == rows[at].at.bit);
        free(text);
        length = strlen(rows[at].told) + 1;
        into = block_of(rows[at].told, length);
        memset(into, 0xA5, length);
        ROW(df1_address_text(&address, (char *)into, length - 1, &told) == DF1_NO_ROOM && told == length && are_all(into, 0xA5, length));
        ROW(df1_address_text(&address, (char *)into, length, &told) == DF1_DONE && told == length && memcmp(into, rows[at].told, length) == 0);
        free(into);
    }
    return 0;
}

static int no_addresses(void)
{
    static const struct {
        const char *text;
        uint32_t code;
    } rows[] = {
        {"", DF1_NO_ADDRESS_TYPE},        {"O:0", DF1_NO_ADDRESS_TYPE},     {"n7:0", DF1_NO_ADDRESS_TYPE},
        {"N:0", DF1_NO_ADDRESS_FILE},     {"N1000:0", DF1_NO_ADDRESS_FILE}, {"N7", DF1_NO_ADDRESS_COLON},
        {"N7;0", DF1_NO_ADDRESS_COLON},   {"N7:", DF1_NO_ADDRESS_ELEMENT},  {"N7:1000", DF1_NO_ADDRESS_ELEMENT},
        {"T4:1.LEN", DF1_NO_ADDRESS_SUB}, {"N7:0.1", DF1_NO_ADDRESS_SUB},   {"N7:3/16", DF1_NO_ADDRESS_BIT},
        {"F8:0/1", DF1_NO_ADDRESS_BIT},   {"N7:3 ", DF1_NO_ADDRESS_END},    {"T4:1.ACCX", DF1_NO_ADDRESS_END},
    };
    df1_address address = {1, 2, 3, 4, true, 5};
    size_t at, length = 99;
    char into[32];

    for (at = 0; at < COUNT(rows); at++)
        ROW(df1_address_read(rows[at].text, strlen(rows[at].text), &address) == rows[at].code);
    ROW(address.type == 1 && address.file == 2 && address.element == 3 && address.sub == 4 && address.has_bit && address.bit == 5);
    ROW(df1_address_text(&address, into, sizeof into, &length) == DF1_BAD_TYPE && length == 99);
    address.type = DF1_INTEGER;
    address.file = address.element = address.sub = 65535;
    address.bit = 255;
    ROW(df1_address_text(&address, into, sizeof into, &length) == DF1_DONE && length == 23 && strcmp(into, "N65535:65535.65535/255") == 0);
    ROW(df1_address_read(NULL, 0, &address) == DF1_NO_ADDRESS_TYPE && df1_address_text(&address, NULL, 0, &length) == DF1_NO_ROOM);
    return 0;
}

static df1_address place(const char *text)
{
    df1_address address = {0, 0, 0, 0, false, 0};

    df1_address_read(text, strlen(text), &address);
    return address;
}

/* What a call spelled, and its code. */
struct spelled {
    uint8_t bytes[250];
    size_t length;
    uint32_t code;
};

/* Whether the bytes of a hexadecimal text were spelled. */
static bool is_spelled(const struct spelled *got, const char *text)
{
    uint8_t wanted[32];
    size_t length = bytes_of(text, wanted);

    return got->code == DF1_DONE && got->length == length && memcmp(got->bytes, wanted, length) == 0;
}

/* Whether a code was told, and nothing changed. */
static bool is_refused(const struct spelled *got, uint32_t code)
{
    return got->code == code && got->length == 99 && are_all(got->bytes, 0xA5, sizeof got->bytes);
}

static struct spelled nothing_spelled(void)
{
    struct spelled got;

    memset(got.bytes, 0xA5, sizeof got.bytes);
    got.length = 99;
    got.code = DF1_DONE;
    return got;
}

static struct spelled spelled_read(uint32_t command, const char *text, uint16_t count)
{
    struct spelled got = nothing_spelled();
    df1_address at = place(text);

    got.code = df1_payload_read(command, &at, count, got.bytes, sizeof got.bytes, &got.length);
    return got;
}

static struct spelled spelled_write(uint32_t command, const char *text, const uint16_t *words, size_t count)
{
    struct spelled got = nothing_spelled();
    df1_address at = place(text);

    got.code = df1_payload_write(command, &at, words, count, got.bytes, sizeof got.bytes, &got.length);
    return got;
}

/* Reads: each row has its bytes, or its code. The bit of an address makes no difference. */
static int payloads_that_read(void)
{
    static const struct {
        uint32_t command;
        const char *at;
        uint16_t count;
        const char *bytes;
        uint32_t code;
    } rows[] = {
        {DF1_WORD_RANGE, "N7:0", 2, "0F 01 00 00 02 00 06 07 00 04", DF1_DONE},
        {DF1_WORD_RANGE, "T4:1.ACC", 122, "0F 01 00 00 7A 00 0E 04 01 02 F4", DF1_DONE},
        {DF1_TYPED, "F8:0", 1, "0F 68 00 00 01 00 06 08 00 01 00", DF1_DONE},
        {DF1_TYPED, "F8:0", 59, "0F 68 00 00 3B 00 06 08 00 3B 00", DF1_DONE},
        {DF1_LOGICAL_2, "N7:1", 1, "0F A1 02 07 89 01", DF1_DONE},
        {DF1_LOGICAL_3, "N7:0", 1, "0F A2 02 07 89 00 00", DF1_DONE},
        {DF1_LOGICAL_3, "N7:16/3", 16, "0F A2 20 07 89 10 00", DF1_DONE},
        {DF1_LOGICAL_3, "N255:256", 1, "0F A2 02 FF FF 00 89 FF 00 01 00", DF1_DONE},
        {4, "", 0, NULL, DF1_BAD_COMMAND},
        {DF1_LOGICAL_3, "", 0, NULL, DF1_BAD_TYPE},
        {DF1_WORD_RANGE, "N7:0", 0, NULL, DF1_NO_DATA},
        {DF1_WORD_RANGE, "N7:0", 123, NULL, DF1_TOO_MUCH_DATA},
        {DF1_TYPED, "T4:1.ACC", 0, NULL, DF1_NO_ELEMENT_TYPE},
        {DF1_TYPED, "F8:0.1", 0, NULL, DF1_NO_SUB},
        {DF1_TYPED, "F8:0", 60, NULL, DF1_TOO_MUCH_DATA},
        {DF1_LOGICAL_2, "T4:1.ACC", 0, NULL, DF1_NO_SUB},
    };
    size_t at;

    for (at = 0; at < COUNT(rows); at++) {
        struct spelled got = spelled_read(rows[at].command, rows[at].at, rows[at].count);

        ROW(rows[at].code == DF1_DONE ? is_spelled(&got, rows[at].bytes) : is_refused(&got, rows[at].code));
    }
    return 0;
}

static int payloads_that_write(void)
{
    static const uint16_t one[] = {0xABCD}, two[] = {0xABCD, 1}, float_of_1_5[] = {0, 0x3FC0};
    static uint16_t many[123];
    struct spelled got;

    got = spelled_write(DF1_WORD_RANGE, "T4:1.ACC", one, 1);
    ROW(is_spelled(&got, "0F 00 00 00 01 00 0E 04 01 02 CD AB"));
    got = spelled_write(DF1_TYPED, "N7:0", two, 2);
    ROW(is_spelled(&got, "0F 67 00 00 02 00 06 07 00 99 09 05 42 CD AB 01 00"));
    got = spelled_write(DF1_TYPED, "F8:0", float_of_1_5, 2);
    ROW(is_spelled(&got, "0F 67 00 00 01 00 06 08 00 99 09 06 94 08 00 00 C0 3F"));
    got = spelled_write(DF1_LOGICAL_2, "N7:2", one, 1);
    ROW(is_spelled(&got, "0F A9 02 07 89 02 CD AB"));
    got = spelled_write(DF1_LOGICAL_3, "N7:2", one, 1);
    ROW(is_spelled(&got, "0F AA 02 07 89 02 00 CD AB"));
    got = spelled_write(DF1_WORD_RANGE, "N7:0", many, 118);
    ROW(got.code == DF1_DONE && got.length == 245 && are_all(got.bytes + 245, 0xA5, 5));
    got = spelled_write(DF1_WORD_RANGE, "N7:0", many, 119);
    ROW(is_refused(&got, DF1_TOO_MUCH_DATA));
    got = spelled_write(DF1_TYPED, "F8:0", many, 123);
    ROW(is_refused(&got, DF1_TOO_MUCH_DATA));
    got = spelled_write(DF1_TYPED, "F8:0", many, 3);
    ROW(is_refused(&got, DF1_HALF_ELEMENT));
    got = spelled_write(DF1_LOGICAL_3, "N7:0", NULL, 0);
    ROW(is_refused(&got, DF1_NO_DATA));
    got = spelled_write(DF1_LOGICAL_3, "", NULL, 0);
    ROW(is_refused(&got, DF1_BAD_TYPE));
    got = spelled_write(4, "", NULL, 0);
    ROW(is_refused(&got, DF1_BAD_COMMAND));
    return 0;
}

static int payloads_of_bits(void)
{
    static const uint16_t words[] = {0xABCD};
    df1_address at = place("N7:0"), bit = place("N7:3/5"), last = place("N7:3/15"), none = place("");
    struct spelled got = nothing_spelled();

    got.code = df1_payload_masked(&at, 0x00FF, words, 1, got.bytes, 11, &got.length);
    ROW(is_spelled(&got, "0F AB 02 07 89 00 00 FF 00 CD AB"));
    got.code = df1_payload_modify(&at, 0x00FF, 0x5600, got.bytes, 9, &got.length);
    ROW(is_spelled(&got, "0F 26 06 07 00 FF 00 00 56"));
    got.code = df1_payload_bit(&bit, true, got.bytes, 9, &got.length);
    ROW(is_spelled(&got, "0F 26 06 07 03 DF FF 20 00"));
    got.code = df1_payload_bit(&last, false, got.bytes, 9, &got.length);
    ROW(is_spelled(&got, "0F 26 06 07 03 FF 7F 00 00"));
    got = nothing_spelled();
    got.code = df1_payload_masked(&at, 1, NULL, 0, got.bytes, sizeof got.bytes, &got.length);
    ROW(is_refused(&got, DF1_NO_DATA));
    got.code = df1_payload_masked(&none, 1, NULL, 0, got.bytes, sizeof got.bytes, &got.length);
    ROW(is_refused(&got, DF1_BAD_TYPE));
    got.code = df1_payload_modify(&none, 1, 1, got.bytes, sizeof got.bytes, &got.length);
    ROW(is_refused(&got, DF1_BAD_TYPE));
    got.code = df1_payload_bit(&at, true, got.bytes, sizeof got.bytes, &got.length);
    ROW(is_refused(&got, DF1_NO_BIT));
    bit.bit = 16;
    got.code = df1_payload_bit(&bit, true, got.bytes, sizeof got.bytes, &got.length);
    ROW(is_refused(&got, DF1_NO_BIT));
    got.code = df1_payload_bit(&none, true, got.bytes, sizeof got.bytes, &got.length);
    ROW(is_refused(&got, DF1_BAD_TYPE));
    return 0;
}

/* Words of a compatibility file, from a byte on. */
static int payloads_of_bytes(void)
{
    static const uint16_t two[] = {0xABCD, 1};
    static uint16_t many[123];
    struct spelled got = nothing_spelled();

    got.code = df1_payload_unprotected_read(0x0102, 122, got.bytes, 4, &got.length);
    ROW(is_spelled(&got, "01 02 01 F4"));
    got.code = df1_payload_unprotected_write(2, two, 2, got.bytes, 7, &got.length);
    ROW(is_spelled(&got, "08 02 00 CD AB 01 00"));
    got.code = df1_payload_unprotected_write(0xFFFF, many, 121, got.bytes, sizeof got.bytes, &got.length);
    ROW(got.code == DF1_DONE && got.length == 245 && got.bytes[1] == 0xFF && got.bytes[2] == 0xFF && are_all(got.bytes + 245, 0xA5, 5));
    ROW(df1_payload_unprotected_read(0, 1, NULL, 0, &got.length) == DF1_NO_ROOM && got.length == 4);
    got = nothing_spelled();
    got.code = df1_payload_unprotected_read(0, 0, got.bytes, sizeof got.bytes, &got.length);
    ROW(is_refused(&got, DF1_NO_DATA));
    got.code = df1_payload_unprotected_read(0, 123, got.bytes, sizeof got.bytes, &got.length);
    ROW(is_refused(&got, DF1_TOO_MUCH_DATA));
    got.code = df1_payload_unprotected_read(0, 0x10001, got.bytes, sizeof got.bytes, &got.length);
    ROW(is_refused(&got, DF1_TOO_MUCH_DATA));
    got.code = df1_payload_unprotected_write(0, NULL, 0, got.bytes, sizeof got.bytes, &got.length);
    ROW(is_refused(&got, DF1_NO_DATA));
    got.code = df1_payload_unprotected_write(0, many, 122, got.bytes, sizeof got.bytes, &got.length);
    ROW(is_refused(&got, DF1_TOO_MUCH_DATA));
    got.code = df1_payload_unprotected_write(0, many, 123, got.bytes, sizeof got.bytes, &got.length);
    ROW(is_refused(&got, DF1_TOO_MUCH_DATA));
    return 0;
}

/* The payloads without an address, and the room that one needs. */
static int payloads_of_all(void)
{
    static const uint8_t byte[] = {0xE2}, many[244] = {0};
    df1_address at = place("N7:3");
    struct spelled got = nothing_spelled();
    size_t room;

    got.code = df1_payload_echo(many, 244, got.bytes, sizeof got.bytes, &got.length);
    ROW(is_refused(&got, DF1_TOO_MUCH_DATA));
    got.code = df1_payload_echo(byte, 1, got.bytes, 3, &got.length);
    ROW(is_spelled(&got, "06 00 E2"));
    got.code = df1_payload_echo(many, 243, got.bytes, sizeof got.bytes, &got.length);
    ROW(got.code == DF1_DONE && got.length == 245 && are_all(got.bytes + 245, 0xA5, 5));
    got.code = df1_payload_echo(NULL, 0, NULL, 0, &got.length);
    ROW(got.code == DF1_NO_ROOM && got.length == 2);
    got.code = df1_payload_status(got.bytes, 2, &got.length);
    ROW(is_spelled(&got, "06 03"));
    ROW(df1_payload_status(NULL, 0, &got.length) == DF1_NO_ROOM && got.length == 2);
    for (room = 0; room <= 7; room++) {
        uint8_t *into = block_of(many, room);

        memset(into, 0xA5, room);
        ROW(df1_payload_read(DF1_LOGICAL_3, &at, 1, into, room, &got.length) == (room < 7 ? DF1_NO_ROOM : DF1_DONE) && got.length == 7);
        ROW(room < 7 ? are_all(into, 0xA5, room) : into[5] == 3 && into[6] == 0);
        free(into);
    }
    return 0;
}

/* What replies tell: each row has STS, EXT STS, where the data begins, and how many bytes it has. */
static int replies(void)
{
    static const struct {
        const char *reply;
        uint8_t sts, ext;
        size_t data, data_length;
    } rows[] = {
        {"00 01 4F 00 01 00 34 12", 0, 0, 6, 2},
        {"00 01 4F 00 01 00", 0, 0, 6, 0},
        {"00 01 48 50 01 00", 0x50, 0, 6, 0},
        {"00 01 4F F0 01 00 0A", 0xF0, 0x0A, 7, 0},
        {"00 01 4F F0 01 00 0A 34 12", 0xF0, 0x0A, 7, 2},
    };
    df1_answer answer = {1, 1, 1, 1};
    uint8_t bytes[16];
    size_t at;

    for (at = 0; at < COUNT(rows); at++) {
        size_t length = bytes_of(rows[at].reply, bytes);
        uint8_t *block = block_of(bytes, length);

        ROW(df1_reply_read(block, length, &answer) == DF1_DONE && answer.sts == rows[at].sts && answer.ext == rows[at].ext);
        ROW(answer.data == rows[at].data && answer.data_length == rows[at].data_length);
        free(block);
    }
    ROW(df1_reply_read(bytes, 6, &answer) == DF1_NO_REPLY && df1_reply_read(NULL, 0, &answer) == DF1_NO_REPLY);
    bytes[3] = 0;
    ROW(df1_reply_read(bytes, 5, &answer) == DF1_NO_REPLY && answer.sts == 0xF0 && answer.ext == 0x0A && answer.data == 7);
    return 0;
}

static int texts_of_statuses(void)
{
    static const struct {
        uint8_t sts, ext;
        const char *text;
    } rows[] = {
        {0x00, 0x0A, "the command was executed"},
        {0x10, 0x00, "the command or its format is unknown there"},
        {0x1F, 0x00, "the command or its format is unknown there"},
        {0x07, 0x00, "the station is offline"},
        {0xF0, 0x06, "there is no such file, element or sub-element"},
        {0xF0, 0x1C, "see the manual of the controller"},
        {0xE0, 0x00, "see the manual of the controller"},
        {0x02, 0x00, "delivery can't be guaranteed: the remote node doesn't acknowledge the command"},
    };
    size_t at, length, told;

    for (at = 0; at < COUNT(rows); at++) {
        uint8_t *into;

        length = strlen(rows[at].text) + 1;
        into = block_of(rows[at].text, length);
        memset(into, 0xA5, length);
        ROW(df1_status_text(rows[at].sts, rows[at].ext, (char *)into, length - 1, &told) == DF1_NO_ROOM && told == length);
        ROW(are_all(into, 0xA5, length));
        ROW(df1_status_text(rows[at].sts, rows[at].ext, (char *)into, length, &told) == DF1_DONE && told == length);
        ROW(memcmp(into, rows[at].text, length) == 0);
        free(into);
    }
    ROW(df1_status_text(0, 0, NULL, 0, &told) == DF1_NO_ROOM && told == 25);
    return 0;
}

/* Typed data: an element alone, and arrays of words and of floats. */
static int typed_data(void)
{
    static const struct {
        const char *bytes;
        uint16_t kind, size;
        bool is_array;
        size_t data, data_length;
    } rows[] = {
        {"42 34 12", 4, 2, false, 1, 2},
        {"99 09 05 42 34 12 78 56", 4, 2, true, 4, 4},
        {"99 09 06 94 08 00 00 C0 3F", 8, 4, true, 5, 4},
        {"99 09 01 42", 4, 2, true, 4, 0},
    };
    df1_typed typed = {1, 1, false, 1, 1};
    uint8_t bytes[16];
    size_t at;

    for (at = 0; at < COUNT(rows); at++) {
        size_t length = bytes_of(rows[at].bytes, bytes);
        uint8_t *block = block_of(bytes, length);

        ROW(df1_typed_read(block, length, &typed) == DF1_DONE && typed.kind == rows[at].kind && typed.size == rows[at].size);
        ROW(typed.is_array == rows[at].is_array && typed.data == rows[at].data && typed.data_length == rows[at].data_length);
        free(block);
    }
    ROW(df1_typed_read(bytes, bytes_of("99 09 05 42 34 12", bytes), &typed) == DF1_NO_TYPED_DATA);
    ROW(df1_typed_read(NULL, 0, &typed) == DF1_NO_TYPED_DATA && typed.data == 4 && typed.is_array);
    return 0;
}

int main(void)
{
    static int (*const all[])(void) = {checks,         firsts_and_nulls, spelling,       texts,  hearing, longest_bodies,
                                       edges_of_links, edges_of_later_members, calls_without_memory, handles, transfers,
                                       routes, sides, talks, addresses, no_addresses, payloads_that_read, payloads_that_write,
                                       payloads_of_bits, payloads_of_bytes, payloads_of_all, replies, texts_of_statuses, typed_data};
    static int (*const each[])(enum kind) = {refused, edges_of_nodes, words, word_runs, locked_files, issuing, makes_without_memory};
    int failed = 0;
    size_t at;

    for (at = 0; at < COUNT(all) && failed == 0; at++)
        failed = all[at]();
    for (at = 0; at < COUNT(each) && failed == 0; at++)
        failed = of_each_kind(each[at]);
    printf(failed == 0 ? "all rows: ok\n" : "the row at line %d fails\n", failed);
    /* What a failed row leaves unfreed ends the program before its text goes out by itself. */
    fflush(stdout);
    return failed != 0;
}
