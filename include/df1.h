/* df1: the proved parts of a DF1 link (Allen-Bradley PLC-5 and SLC), for C and C++.
 *
 * Handles: a df1_end is one end of a link. A df1_decoder decodes one side of a line without an end. A handle is a plain struct of
 * yours that starts as DF1_NOTHING, `= DF1_NOTHING;`, which is all zeros. A call with _make in its name fills it, and a call whose
 * name ends in _free empties it. In between, pass its address to the other calls. Only the library uses its members. Once a handle
 * was copied and one of the two copies was changed, what a call does with the other isn't defined; this includes freeing twice
 * through a copy. An empty handle, or one of another kind, is refused with DF1_NO_HANDLE.
 * Codes: each call that can be refused returns a df1_code, DF1_DONE if it did what it is for. With any other code the handle and
 * what the pointers lead to are unchanged, except that with DF1_NO_ROOM `*length` is how many bytes there are to write.
 * Threads: a call keeps no state besides the handle, so calls on two handles may run at the same time. A handle may go from thread
 * to thread. Two calls on one handle must not run at the same time, and each must see what the one before it did, as under a lock
 * of yours.
 * Memory: a call reads and writes what it is handed only while it runs, and keeps no pointer to it. A handle takes its memory from
 * malloc: the calls with _make in their names, df1_end_issue, df1_end_issue_from, df1_end_pull and df1_end_push allocate some, and
 * report if there is none.
 * Time is the caller's: one call of df1_end_tick is one tick, as long as you like.
 * Outside: no call blocks, prints, reads a clock or ends the program.
 * Pointers: a pointer with a length of 0 may be null, as that of an empty vector is; no other may be. For a caller that breaks
 * this, or passes a length beyond the memory that it owns, nothing is promised. What a call writes must not overlap anything else
 * that it is handed, and each pointer must be aligned for its type. The calls themselves take no null pointer: the macros at the
 * end of this header replace it by another one. A caller without these macros (in another language, or by a pointer to a function)
 * has to do that itself.
 */
#ifndef DF1_H
#define DF1_H

#include <stddef.h>
#include <stdint.h>
#ifndef __cplusplus
#include <stdbool.h>
#endif

#ifdef __cplusplus
extern "C" {
#endif

/* The version of this header: 0x010203 is 1.2.3. A program that was built with it runs with any library whose version isn't lower
 * and has the same first number and, as long as that number is 0, the same second number too. */
#define DF1_VERSION 0x000100

/* Returns the version of the library, in the same form. */
uint32_t df1_version(void);

/* Codes that the calls return, with their texts. */
enum df1_code {
    DF1_DONE = 0,              /* the call did what it is for */
    DF1_NO_HANDLE = 1,         /* the handle holds nothing that the call is for */
    DF1_NO_MEMORY = 2,         /* malloc gave no memory */
    DF1_NO_ROOM = 3,           /* the buffer is too small */
    DF1_BAD_ACK_TICKS = 4,     /* ack_ticks is out of its range */
    DF1_BAD_POLL_TICKS = 5,    /* poll_ticks is out of its range */
    DF1_BAD_MAX_SENDS = 6,     /* max_sends is out of its range */
    DF1_BAD_STATION = 7,       /* a station's number is 16 or 255 */
    DF1_TOO_MANY_STATIONS = 8, /* over 32 stations */
    DF1_STATION_TWICE = 9,     /* a station is listed twice */
    DF1_BAD_REPLY_TICKS = 10,  /* reply_ticks is out of its range */
    DF1_BAD_ROOM = 11,         /* room is out of its range */
    DF1_TOO_MANY_FILES = 12,   /* over 256 data files */
    DF1_BAD_TYPE = 13,         /* a file's type is none of df1_file_type */
    DF1_EMPTY_FILE = 14,       /* a file has no elements */
    DF1_LARGE_FILE = 15,       /* a file has over 1,000 elements */
    DF1_FILE_TWICE = 16,       /* two files have one number */
    DF1_NO_WORD = 17,          /* there is no such file or word */
    DF1_BAD_COMPAT = 18,       /* compat names no Bit or Integer file of the end */
    DF1_LONG_BLOCK = 19,       /* a block of over 244 bytes */
    DF1_LONG_BODY = 20,        /* a body of over 250 bytes */
    DF1_NO_PAYLOAD = 21,       /* a payload of no bytes */
    DF1_LONG_PAYLOAD = 22,     /* a payload of over 245 bytes */
    DF1_NOT_COMMAND = 23,      /* bit 6 of CMD is set, so the payload is that of a reply */
    DF1_SPENT = 24,            /* 65,535 commands were issued already */
    DF1_NO_COMMAND = 25,       /* no command of this number was issued */
    DF1_NOT_ANSWERED = 26,     /* no reply to it was accepted */
    DF1_NO_FILE = 27,          /* there is no file at this place */
    DF1_BAD_MAX_NAKS = 28,     /* max_naks is out of its range */
    DF1_BAD_MAX_ENQS = 29,     /* max_enqs is out of its range */
    DF1_BAD_MAX_RESENDS = 30,  /* max_resends is out of its range */
    DF1_BAD_WINDOW = 31,       /* window is out of its range */
    DF1_BAD_PER_SOURCE = 32,   /* per_source is out of its range */
    DF1_NOT_RESERVED = 33,     /* a reserved member isn't 0 */
    DF1_BAD_FILE = 34,         /* a transfer's file is over 999 */
    DF1_BAD_WORDS = 35,        /* a transfer's words are none, over 3,000, or not whole */
    DF1_BAD_ROUTES = 36,       /* routes is neither 0 nor 1 */
    DF1_NO_STATION = 37,       /* the master has no such station */
    DF1_BAD_SIDE = 38,         /* a side is none of df1_side */
    DF1_BAD_COMMAND = 39,      /* the command is none of df1_command */
    DF1_NO_ADDRESS_TYPE = 40,  /* the address doesn't begin with the letter of a file's type */
    DF1_NO_ADDRESS_FILE = 41,  /* the address's file isn't a number 0 to 999 */
    DF1_NO_ADDRESS_COLON = 42, /* no colon follows the address's file */
    DF1_NO_ADDRESS_ELEMENT = 43, /* the address's element isn't a number 0 to 999 */
    DF1_NO_ADDRESS_SUB = 44,   /* the address's sub-element is no word of the element */
    DF1_NO_ADDRESS_BIT = 45,   /* the address's bit isn't a number 0 to 15, or it is a float's */
    DF1_NO_ADDRESS_END = 46,   /* something else follows the address */
    DF1_NO_DATA = 47,          /* no word is read or written */
    DF1_TOO_MUCH_DATA = 48,    /* the data is more than a message has room for */
    DF1_NO_ELEMENT_TYPE = 49,  /* elements of the file have no type for a typed command */
    DF1_NO_SUB = 50,           /* the command has no room for a sub-element */
    DF1_HALF_ELEMENT = 51,     /* the words are no whole elements */
    DF1_NO_BIT = 52,           /* the address has no bit 0 to 15 */
    DF1_NO_REPLY = 53,         /* a reply is cut off */
    DF1_NO_TYPED_DATA = 54     /* the data is no typed data */
};

/* ---- Checks and frames ---- */

/* Returns the BCC of the `length` bytes at `bytes`: the two's complement of their 8-bit sum, 0 if there are none. It is the check
 * of a frame that has these bytes as its body, with each DLE counted once. */
uint8_t df1_bcc(const uint8_t *bytes, size_t length);

/* Returns the CRC-16 of the `length` bytes at `bytes`, 0 if there are none: the polynomial x^16 + x^15 + x^2 + 1, reflected, from a
 * register of 0. It is the check of a frame if the bytes are its body with the byte ETX (03) after it. On the line its low byte is
 * sent first. */
uint16_t df1_crc(const uint8_t *bytes, size_t length);

/* Encodes the full-duplex frame of a body of at most 250 bytes into the `room` bytes at `into`: DLE STX, the body with each DLE
 * doubled, DLE ETX, and the CRC if `crc` is set, otherwise the BCC. `*length` is how many bytes the frame has, at most 506.
 * Codes: DF1_LONG_BODY, DF1_NO_ROOM. */
uint32_t df1_spell(bool crc, const uint8_t *body, size_t body_length, uint8_t *into, size_t room, size_t *length);

/* Encodes a half-duplex master's message to a station, with a body of at most 250 bytes, into the `room` bytes at `into`: DLE SOH,
 * the station, DLE STX, the body with each DLE doubled, DLE ETX, and the CRC if `crc` is set, otherwise the BCC. Both checks cover
 * the station too, and the CRC also STX and ETX. `*length` is how many bytes the message has, at most 509.
 * Codes: the first of DF1_BAD_STATION, DF1_LONG_BODY, DF1_NO_ROOM. */
uint32_t df1_spell_message(uint8_t station, bool crc, const uint8_t *body, size_t body_length, uint8_t *into, size_t room,
                           size_t *length);

/* Encodes a slave's message with a body of at most 250 bytes into the `room` bytes at `into`. It has no station, so its bytes are
 * those of df1_spell, at most 506. Codes: DF1_LONG_BODY, DF1_NO_ROOM. */
uint32_t df1_spell_reply(bool crc, const uint8_t *body, size_t body_length, uint8_t *into, size_t room, size_t *length);

/* Encodes a half-duplex master's poll of a station into the `room` bytes at `into`: DLE ENQ, the station, and its BCC, whichever
 * check the line has. `*length` is 4. Codes: the first of DF1_BAD_STATION, DF1_NO_ROOM. */
uint32_t df1_spell_poll(uint8_t station, uint8_t *into, size_t room, size_t *length);

/* Copies the text of a code, for example "the handle holds nothing that the call is for", with a zero byte at its end, into the
 * `room` bytes at `into`. `*length` is how many bytes the text has with that zero, at most 80. A number that is no code has the
 * text "no code of df1". Codes: DF1_NO_ROOM. */
uint32_t df1_code_text(uint32_t code, char *into, size_t room, size_t *length);

/* A decoder of one side of a line. */
typedef struct df1_decoder {
    void *at;
    bool holds;
} df1_decoder;

/* An end of a link: a full-duplex end, the master of a half-duplex link, or a slave of one. */
typedef struct df1_end {
    void *at;
    bool holds;
} df1_end;

#define DF1_NOTHING {NULL, false}

/* Whose bytes a decoder receives. If both directions of a line are seen, each has a decoder of its own. */
enum df1_side {
    DF1_SIDE_FULL = 0,   /* those of an end of a full-duplex line */
    DF1_SIDE_MASTER = 1, /* those that the master of a half-duplex line sends, as a slave receives them */
    DF1_SIDE_SLAVE = 2   /* those that the slaves of a half-duplex line send, as the master receives them */
};

/* What is decoded at a byte. F: of a full-duplex line; M: of the master of a half-duplex line; S: of its slaves. */
enum df1_heard {
    DF1_HEARD_NOTHING = 0,     /* F, M, S: nothing is decoded at this byte: the decoder is inside an item. It is inside one also
                                * after a header, a response in a frame, and an item that another one cut off */
    DF1_HEARD_GOOD = 1,        /* F, M, S: a frame or message with the right check and a body of 6 to 250 bytes; M: to `station` */
    DF1_HEARD_SHORT = 2,       /* F: a frame with the right check and a body of under 6 bytes */
    DF1_HEARD_BAD_CHECK = 3,   /* F: a frame with a wrong check and a body of at most 250 bytes */
    DF1_HEARD_LONG = 4,        /* F: a frame with a longer body */
    DF1_HEARD_BROKEN = 5,      /* F: a frame that was broken off by DLE and `byte` */
    DF1_HEARD_RESTART = 6,     /* F: a frame that was cut off by the DLE STX of the next */
    DF1_HEARD_ACK = 7,         /* F, M, S: DLE ACK */
    DF1_HEARD_NAK = 8,         /* F, M, S: DLE NAK, and DLE 0F too; M: it asks the slaves to drop what they keep */
    DF1_HEARD_ENQ = 9,         /* F: DLE ENQ, outside a frame */
    DF1_HEARD_STRAY = 10,      /* F, M, S: `byte`, outside frames, messages and polls */
    DF1_HEARD_STRAY_PAIR = 11, /* F, M, S: DLE and `byte`, outside frames, messages and polls */
    DF1_HEARD_HEADER = 12,     /* M: a message to `station` has begun, with DLE SOH, its number and DLE STX */
    DF1_HEARD_POLL = 13,       /* M: a poll of `station` */
    DF1_HEARD_BAD_POLL = 14,   /* M: a poll with a wrong BCC */
    DF1_HEARD_DAMAGED = 15,    /* M, S: a message that didn't end as one, or has a wrong check or a body of under 6 or over 250
                                * bytes; M: to `station` */
    DF1_HEARD_EOT = 16         /* S: DLE EOT, by which a polled slave says that it has no message */
};

typedef struct df1_hearing {
    uint32_t heard;  /* enum df1_heard */
    uint8_t byte;    /* 0 if `heard` names none */
    uint8_t station; /* 0 if `heard` names none */
} df1_hearing;

/* Fills an empty handle with a decoder of a full-duplex line, which has received nothing. The line has CRCs if `crc` is set,
 * otherwise BCCs. Codes: DF1_NO_MEMORY; DF1_NO_HANDLE if the handle isn't empty. */
uint32_t df1_decoder_make(bool crc, df1_decoder *decoder);

/* The same for a side of a line, a df1_side. Codes: DF1_NO_MEMORY; DF1_NO_HANDLE if the handle isn't empty; DF1_BAD_SIDE. */
uint32_t df1_decoder_make_side(uint32_t side, bool crc, df1_decoder *decoder);

/* Frees the decoder and its memory. The handle is then empty. Codes: DF1_NO_HANDLE. */
uint32_t df1_decoder_free(df1_decoder *decoder);

/* The decoder receives a byte, and reports what is decoded at it. Codes: DF1_NO_HANDLE. */
uint32_t df1_decoder_byte(df1_decoder *decoder, uint8_t byte, df1_hearing *hearing);

/* Copies the body of the frame or message that ended at the latest byte, at most 250 bytes, into the `room` bytes at `into`: that
 * of a full-duplex frame if it is good, too short or has a wrong check, that of a half-duplex message only if it is good.
 * `*length` is how many bytes the body has: 0 after every other byte. Codes: DF1_NO_HANDLE, DF1_NO_ROOM. */
uint32_t df1_decoder_body(df1_decoder *decoder, uint8_t *into, size_t room, size_t *length);

/* ---- How an end is set up ----
 *
 * Reserved members must be 0. A member that comes in a later version takes the place of a reserved one, and 0 then stands for its
 * default value. So a program that was built with this header still works with a later library. One that was built with a later
 * header, and sets a member that this library doesn't know, is refused with DF1_NOT_RESERVED. An initializer leaves reserved
 * members 0. DF1_DUPLEX_INIT and its like have the default values of a script of df1: use one, then set the members that differ. */

/* A full-duplex link. */
typedef struct df1_duplex {
    bool crc;           /* a CRC, and not a BCC, ends its frames */
    bool embed;         /* responses may stand inside the frames that the end sends */
    uint32_t ack_ticks; /* ticks without a response, from where the frame's last byte was taken, until it asks for one by an ENQ:
                         * 1 to 1,000,000. They have to cover your own buffer, the line, and a frame of up to 506 bytes that the
                         * other end is sending before its response */
    uint32_t max_naks;  /* maximum retransmissions of one message after NAK: 0 to 255 */
    uint32_t max_enqs;  /* maximum ENQs for one message: 0 to 255 */
    uint32_t reserved[4];
} df1_duplex;

#define DF1_DUPLEX_INIT {false, false, 10, 3, 3, {0, 0, 0, 0}}

/* The link of a half-duplex master. */
typedef struct df1_master {
    bool crc;             /* a CRC, and not a BCC, ends its messages */
    uint32_t ack_ticks;   /* ticks that it waits for an ACK, from where the message's last byte was taken, until it sends the message
                           * again or gives it up: 1 to 1,000,000 */
    uint32_t max_resends; /* maximum retransmissions of one message, after NAKs and timeouts together: 0 to 255 */
    uint32_t poll_ticks;  /* ticks that it waits after a poll, from where its last byte was taken: 1 to 1,000,000. The station's
                           * whole message, of up to 506 bytes, has to come in that time; otherwise another station may be polled
                           * while it still sends */
    uint32_t routes;      /* 1: it carries each message whose DST is a station's number to that station, so its node needs an
                           * address that no station has; 0: each message is its node's */
    uint32_t reserved[3];
} df1_master;

#define DF1_MASTER_INIT {false, 10, 3, 10, 0, {0, 0, 0}}

/* The link of a half-duplex slave. Its station number is the address of its node, neither 16 nor 255. It is to receive the
 * master's bytes alone, as on four wires. */
typedef struct df1_slave {
    bool crc;           /* a CRC, and not a BCC, ends its messages */
    uint32_t max_sends; /* maximum transmissions of one message before it is given up: 1 to 255 */
    uint32_t reserved[4];
} df1_slave;

#define DF1_SLAVE_INIT {false, 3, {0, 0, 0, 0}}

/* The node behind an end: it executes the commands that are received, and issues its own. */
typedef struct df1_node {
    uint8_t address;      /* SRC of its own commands, DST of what is sent to it */
    uint16_t tns;         /* the transaction number of its first command; each further command has the next */
    uint32_t reply_ticks; /* ticks without a reply, from where the first byte of the command was taken, until the command is
                             unanswered: 1 to 1,000,000. At a full-duplex end and at a slave each df1_end_tick counts. At a
                             master only one at which it polls counts, so none while it sends or waits, nor while a message is
                             to be sent. While no station answers its polls, that is one tick in poll_ticks + 1 */
    uint32_t room;        /* how many replies may wait to be sent: 2 to 64. A command that comes while so many wait is refused, by a
                           * NAK; a master sends nothing then, and the station sends it again at its next poll. So let it be at
                           * least what the other side may have outstanding */
    bool has_compat;      /* whether there is a compatibility file, for the unprotected reads and writes */
    uint16_t compat;      /* its number: a Bit or Integer file */
    uint32_t window;      /* how many of its commands may be outstanding at a time: 1 to 16; 0 is 1 */
    uint32_t per_source;  /* how many of those of one source, by SRC: 1 to 16; 0 is 16 */
    uint32_t reserved[4];
} df1_node;

#define DF1_NODE_INIT(address) {address, 1, 100, 2, false, 0, 1, 16, {0, 0, 0, 0}}

/* The types of data files, by their type bytes. */
enum df1_file_type {
    DF1_STATUS = 0x84,
    DF1_BIT = 0x85,
    DF1_TIMER = 0x86,
    DF1_COUNTER = 0x87,
    DF1_CONTROL = 0x88,
    DF1_INTEGER = 0x89,
    DF1_FLOAT = 0x8A
};

/* A data file. Elements of timers, counters and controls have three words, those of floats two, and all others one. */
typedef struct df1_file {
    uint16_t number;   /* 0 to 65,535; the text of an address and a transfer name only 0 to 999 */
    uint8_t type;      /* enum df1_file_type */
    uint16_t elements; /* 1 to 1,000 */
} df1_file;

/* A word of a data file and its value. The words of a file are counted from 0. */
typedef struct df1_word {
    uint16_t file;
    uint32_t index;
    uint16_t value;
} df1_word;

/* Besides its link and its node an end has, each by a pointer and a length: `files`, at most 256; `words`, their initial values
 * (all others are 0; of two for one word the later counts); `block`, the data of the reply to a diagnostic status command, at most
 * 244 bytes.
 *
 * Each call fills an empty handle with an end to which nothing has happened yet. If several parts are out of range, the code is
 * that of the first of these:
 * - the handle (DF1_NO_HANDLE if it isn't empty);
 * - the link's members in their order;
 * - for a master its stations (DF1_TOO_MANY_STATIONS, then the first that is bad or listed twice), for a slave its number;
 * - the node's reply_ticks, room, window, per_source and reserved members;
 * - the files (DF1_TOO_MANY_FILES, then the first of the wrong type, then the first that is empty, large, or there twice);
 * - compat;
 * - the words (DF1_NO_WORD);
 * - the block.
 * DF1_NO_MEMORY comes only if all of them are in range. */
uint32_t df1_duplex_make(const df1_duplex *link, const df1_node *node, const df1_file *files, size_t file_count,
                         const df1_word *words, size_t word_count, const uint8_t *block, size_t block_length, df1_end *end);
uint32_t df1_master_make(const df1_master *link, const uint8_t *stations, size_t station_count, const df1_node *node,
                         const df1_file *files, size_t file_count, const df1_word *words, size_t word_count,
                         const uint8_t *block, size_t block_length, df1_end *end);
uint32_t df1_slave_make(const df1_slave *link, const df1_node *node, const df1_file *files, size_t file_count,
                        const df1_word *words, size_t word_count, const uint8_t *block, size_t block_length, df1_end *end);

/* Frees the end and its memory. The handle is then empty. Codes: DF1_NO_HANDLE. */
uint32_t df1_end_free(df1_end *end);

/* ---- Bytes and ticks ---- */

/* What an end made of a byte. */
enum df1_act {
    DF1_ACT_NOTHING = 0,  /* none of these */
    DF1_ACT_ACCEPT = 1,   /* a message was accepted */
    DF1_ACT_REPEAT = 2,   /* a message was received again, and is acknowledged again */
    DF1_ACT_REFUSE = 3,   /* there was no room for a message */
    DF1_ACT_DAMAGED = 4,  /* a frame or message was damaged; at a slave only one to its own station, at a master only one that comes
                           * while it waits after a poll */
    DF1_ACT_FORGOT = 5,   /* a frame was cut off by a new one */
    DF1_ACT_PEER_ACK = 6, /* DLE ACK, also one that is ignored, as a master's to another station: df1_end_state shows whose it was */
    DF1_ACT_PEER_NAK = 7, /* DLE NAK */
    DF1_ACT_PEER_ENQ = 8  /* DLE ENQ */
};

/* What was done with an accepted message. */
enum df1_did {
    DF1_NOT_ACCEPTED = 0, /* the act isn't DF1_ACT_ACCEPT */
    DF1_EXECUTED = 1,     /* a command was executed, and its reply waits */
    DF1_ANSWERED = 2,     /* it is the reply to command `did_command`, whose outcome is DF1_REPLIED then */
    DF1_STRAY = 3,        /* it is a reply to no outstanding command */
    DF1_ROUTED = 4        /* it is for a station; a master with `routes` keeps it until it sends it to that station */
};

/* What became known of a message that the end sent. */
enum df1_news {
    DF1_NO_NEWS = 0,
    DF1_NEWS_UNDELIVERED = 1, /* command `news_command` was given up */
    DF1_NEWS_DROPPED = 2      /* a reply, or a message that a master carries, was given up */
};

/* What a byte did. */
typedef struct df1_step {
    uint32_t act;          /* enum df1_act */
    uint32_t did;          /* enum df1_did */
    uint32_t did_command;  /* 0 if `did` names none */
    uint32_t news;         /* enum df1_news */
    uint32_t news_command; /* 0 if `news` names none */
    bool whole;            /* a good frame or message was received, whatever the act */
    uint8_t station;       /* at a slave the station that a good message names, which may be another one; otherwise 0 */
} df1_step;

/* What a tick did besides leaving commands unanswered. */
enum df1_turn_kind {
    DF1_TURN_STILL = 0, /* nothing to report, also where a master sends its message again or begins a poll: df1_end_quiet is false
                         * then, and `polls` of df1_end_state is set for a poll */
    DF1_TURN_ASK = 1,   /* the end asks for a response by an ENQ */
    DF1_TURN_FAILED = 2 /* it gave up a message; `news` reports which, unless it is a command that has its outcome already */
};

typedef struct df1_turn {
    uint32_t turn;         /* enum df1_turn_kind */
    uint32_t news;         /* enum df1_news */
    uint32_t news_command; /* 0 if `news` names none */
    uint32_t gone_count;   /* how many commands it left unanswered, at most 16 */
} df1_turn;

/* The next byte to send. */
typedef struct df1_out {
    bool there;   /* whether there is one */
    uint8_t byte; /* 0 if there is none */
    bool last;    /* it is the last byte of a frame or message; responses, ENQs, polls and EOTs don't set it */
} df1_out;

/* The end receives a byte of the line. At a slave DLE NAK from the master is a reset: the slave's commands that wait to be handed
 * out are DF1_UNDELIVERED from then on, and its replies that wait are dropped. No news reports either of them; `news` is of the
 * message that the slave held. So after DF1_ACT_PEER_NAK at a slave ask df1_end_outcome. Codes: DF1_NO_HANDLE. */
uint32_t df1_end_byte(df1_end *end, uint8_t byte, df1_step *step);

/* Copies the body of the frame or message that ended at the latest byte, at most 250 bytes, DST first, into the `room` bytes at
 * `into`: that of a full-duplex frame if it is good, too short or has a wrong check, that of a half-duplex message only if it is
 * good. `*length` is how many bytes the body has: 0 after every other byte. Codes: DF1_NO_HANDLE, DF1_NO_ROOM. */
uint32_t df1_end_body(df1_end *end, uint8_t *into, size_t room, size_t *length);

/* A tick has passed. The numbers of the commands that it left unanswered are put at the front of the `room` numbers at `gone`,
 * which are at least 16. At a slave a tick counts only for its own outstanding commands, so it reports DF1_TURN_STILL. This is an
 * addition of the library: a slave of a polled line has no ticks. If the caller passes none there, a command waits for its reply
 * forever. Codes: DF1_NO_HANDLE; DF1_NO_ROOM if `room` is under 16. */
uint32_t df1_end_tick(df1_end *end, df1_turn *turn, uint32_t *gone, size_t room);

/* Takes the next byte to send, if there is one. After each byte, each tick and each command that is issued, take bytes until the
 * end has none to send, as df1_end_quiet reports. Codes: DF1_NO_HANDLE. */
uint32_t df1_end_take(df1_end *end, df1_out *out);

/* Reports whether the end has nothing to send, so that df1_end_take has no byte. Codes: DF1_NO_HANDLE. */
uint32_t df1_end_quiet(df1_end *end, bool *quiet);

/* The state of an end. */
typedef struct df1_state {
    bool quiet;      /* it has nothing to send now, also where it waits for an ACK */
    bool holds;      /* a message of its own was begun, at a slave loaded at a poll, and is neither acknowledged nor given up; a
                      * reply or a command that only waits doesn't count */
    bool polls;      /* it is a master that sends a poll, or waits for the answer to one: up to the answer's last byte */
    uint8_t station; /* the station that it polls; 0 if `polls` isn't set */
} df1_state;

/* Reports the state of the end. A DLE ACK was that of a message if `holds` was set before the last byte of the ACK and isn't after
 * it. A poll is over when `polls` is no longer set: it was answered if that happens at a byte, and wasn't answered in time if it
 * happens at a tick. Codes: DF1_NO_HANDLE. */
uint32_t df1_end_state(df1_end *end, df1_state *state);

/* ---- Runs of bytes ----
 *
 * These two calls do what df1_end_byte and df1_end_take do for one byte after another. A loop over bytes that were read:
 *
 *     for (size_t at = 0; at < count; at += used) {
 *         df1_end_bytes(&end, bytes + at, count - at, &used, &step);
 *         ... act on step ...
 *         do {
 *             df1_end_take_bytes(&end, out, sizeof out, &given);
 *             ... write given.length bytes of out ...
 *         } while (!given.quiet);
 *     }
 */

/* The end receives the first of the `length` bytes, up to and including one at which there is something to do: a member of its
 * step isn't 0, or the end then has something to send. If there is no such byte, it receives all of them. `*used` is how many it
 * received, and `*step` is what the last of them did: all zeros if there was none. Codes: DF1_NO_HANDLE. */
uint32_t df1_end_bytes(df1_end *end, const uint8_t *bytes, size_t length, size_t *used, df1_step *step);

/* A run of bytes to send. */
typedef struct df1_given {
    size_t length; /* how many bytes it has */
    bool last;     /* the last of them is the last byte of a frame or message; responses, ENQs, polls and EOTs don't set it, so a
                    * driver that switches an RS-485 transmitter goes by `quiet` */
    bool quiet;    /* the end has nothing more to send */
} df1_given;

/* Takes the next bytes to send into the `room` bytes at `into`: as many as there is room for, at most 512, up to the first that
 * ends a frame or message. Responses and an ENQ in front of it are in the same run, as the ACK of a command and its reply. Take until
 * `quiet` is set. If `room` is 0, no byte is taken. Codes: DF1_NO_HANDLE. */
uint32_t df1_end_take_bytes(df1_end *end, uint8_t *into, size_t room, df1_given *given);

/* ---- Commands that the end issues ---- */

/* What became of a command. */
enum df1_outcome {
    DF1_WAITING = 1,     /* it was not handed out yet */
    DF1_OUT = 2,         /* it is outstanding: it was handed out, and nothing became of it yet */
    DF1_REPLIED = 3,     /* its reply was accepted; a df1_step calls that DF1_ANSWERED */
    DF1_UNDELIVERED = 4, /* it was given up on its way, or dropped before it was handed out */
    DF1_UNANSWERED = 5   /* no reply came in time */
};

/* Issues a command to the node `dst`. The payload, 1 to 245 bytes, is CMD and what follows TNS. `*number` is then the command's
 * number, from 1. Codes: DF1_NO_HANDLE; DF1_NO_STATION if a master has no station `dst`; DF1_NO_PAYLOAD, DF1_LONG_PAYLOAD,
 * DF1_NOT_COMMAND, DF1_SPENT, DF1_NO_MEMORY. */
uint32_t df1_end_issue(df1_end *end, uint8_t dst, const uint8_t *payload, size_t length, uint32_t *number);

/* The same in the name of the source `src`, which is SRC of the command and DST of its reply: a gateway issues commands for several
 * nodes. All sources of an end share its transaction numbers. The command with the lowest number is sent first, but a source with
 * per_source outstanding commands doesn't hold up the others. */
uint32_t df1_end_issue_from(df1_end *end, uint8_t src, uint8_t dst, const uint8_t *payload, size_t length, uint32_t *number);

/* Reports what became of command `number`, as a df1_outcome. Codes: DF1_NO_HANDLE, DF1_NO_COMMAND. */
uint32_t df1_end_outcome(df1_end *end, uint32_t number, uint32_t *outcome);

/* Copies the accepted reply to command `number`, 6 to 250 bytes, DST first, into the `room` bytes at `into`. Codes: DF1_NO_HANDLE,
 * DF1_NO_COMMAND, DF1_NOT_ANSWERED, DF1_NO_ROOM. */
uint32_t df1_end_reply(df1_end *end, uint32_t number, uint8_t *into, size_t room, size_t *length);

/* ---- Transfers ----
 *
 * A transfer moves the words 0 to `words` - 1 of a data file, 1 to 3,000 words, by word range reads or writes of 100 words each.
 * There is an order for each 100 words, and one for what is left; each has its own OFFSET, and the whole number of words as TOTAL.
 * These are commands of a PLC-5: an SLC refuses them. The orders are commands of the end, numbered `*first`,
 * `*first` + 1 and so on; the calls above report their outcomes and replies too. A word is two bytes, the low one first. */

/* Issues the orders of a transfer that reads `words` words of file `file` of the node `dst`, with the end's own address as SRC: all
 * of them or none. Codes, with which none is issued: DF1_NO_HANDLE, DF1_NO_STATION, DF1_BAD_FILE, DF1_BAD_WORDS; DF1_SPENT if fewer
 * numbers are left than there are orders; DF1_NO_MEMORY. */
uint32_t df1_end_pull(df1_end *end, uint8_t dst, uint16_t file, uint32_t words, uint32_t *first);

/* The same for a transfer that writes the `length` bytes at `bytes`, 2 for each word, to the file. DF1_BAD_WORDS if `length` is 0,
 * odd, or over 6,000. */
uint32_t df1_end_push(df1_end *end, uint8_t dst, uint16_t file, const uint8_t *bytes, size_t length, uint32_t *first);

/* What a transfer came to so far. Of several orders that weren't done the lowest is reported. In the last three states later orders
 * may still wait or be outstanding. */
enum df1_transfer_state {
    DF1_UNDER_WAY = 0, /* command `number` waits or is outstanding, and each order before it was done */
    DF1_WHOLE = 1,     /* each order was done */
    DF1_MISSING = 2,   /* command `number` isn't answered, and won't be; or it was never issued */
    DF1_REFUSED = 3,   /* command `number` was refused, with `sts` and `ext` */
    DF1_ODD = 4        /* the reply to command `number` has other data than its order asks for */
};

typedef struct df1_transfer {
    uint32_t state;  /* enum df1_transfer_state */
    uint32_t number; /* 0 if `state` names none */
    uint8_t sts;     /* STS of a refusal, or 0 */
    uint8_t ext;     /* EXT STS of a refusal, or 0 if STS isn't F0 */
} df1_transfer;

/* Reports what the transfer that reads `words` words by the commands from number `first` on came to so far. If it is whole, its
 * words are copied into the `room` bytes at `into`, and `*length` is how many bytes they have; otherwise `*length` is 0.
 * Codes: DF1_NO_HANDLE, DF1_BAD_WORDS; DF1_NO_ROOM, only if it is whole, and then `*came` isn't written. */
uint32_t df1_end_pulled(df1_end *end, uint32_t first, uint32_t words, uint8_t *into, size_t room, size_t *length,
                        df1_transfer *came);

/* Reports what the transfer that writes `words` words by the commands from number `first` on came to so far.
 * Codes: DF1_NO_HANDLE, DF1_BAD_WORDS. */
uint32_t df1_end_pushed(df1_end *end, uint32_t first, uint32_t words, df1_transfer *came);

/* ---- Data files ---- */

/* Reports the value of a word. Codes: DF1_NO_HANDLE, DF1_NO_WORD. */
uint32_t df1_end_word(df1_end *end, uint16_t file, uint32_t index, uint16_t *value);

/* Sets a word, as a program in the controller would. Codes: DF1_NO_HANDLE, DF1_NO_WORD. */
uint32_t df1_end_set_word(df1_end *end, uint16_t file, uint32_t index, uint16_t value);

/* Reports the values of `count` words, from word `first` of the file on. Codes: DF1_NO_HANDLE; DF1_NO_WORD if there is no such file
 * or it doesn't have them all, and with a `count` of 0 if `first` is beyond its end. */
uint32_t df1_end_words(df1_end *end, uint16_t file, uint32_t first, uint16_t *values, size_t count);

/* Sets `count` words, from word `first` of the file on, as a program in the controller would: all of them or none.
 * Codes: DF1_NO_HANDLE; DF1_NO_WORD if the file doesn't have them all. */
uint32_t df1_end_set_words(df1_end *end, uint16_t file, uint32_t first, const uint16_t *values, size_t count);

/* Looks for a word, from word `first` of the file on, whose value differs from the one that `seen` has for it. `*place` is the
 * place of the first such word in `seen`, where its value is put, or `count` if there is none. So calls until `*place` is `count`
 * report each word that changed since the last such calls, by a command of the line or by the caller. Codes: DF1_NO_HANDLE;
 * DF1_NO_WORD if the file doesn't have them all. */
uint32_t df1_end_changed(df1_end *end, uint16_t file, uint32_t first, uint16_t *seen, size_t count, size_t *place);

/* Locks the data files of these numbers, and unlocks all others: from now on no command of the line may write a locked file. By
 * default none is locked. A write whose fields can be read and that names a locked file is refused before any other test, with STS
 * F0 and EXT STS 0B (access denied), an unprotected write with STS 50 (memory protected), and changes nothing. df1_end_set_word
 * and df1_end_set_words still write it. Codes, with which nothing is changed: DF1_NO_HANDLE; DF1_TOO_MANY_FILES for over 256
 * numbers; DF1_NO_WORD if a number is no file's. */
uint32_t df1_end_lock(df1_end *end, const uint16_t *files, size_t count);

/* Reports how many data files the end has. Codes: DF1_NO_HANDLE. */
uint32_t df1_end_files(df1_end *end, uint32_t *count);

/* Reports the data file at a place, from 0, in the order of the `files` that the end was made with. Codes: DF1_NO_HANDLE,
 * DF1_NO_FILE. */
uint32_t df1_end_file(df1_end *end, uint32_t place, df1_file *file);

/* ---- Payloads and replies ----
 *
 * With these calls a program needn't know the bytes of commands and replies. They read an address from its text, make the payload
 * of a command for df1_end_issue from it, and report what the reply of df1_end_reply says. Words are numbers; of their bytes the
 * low one comes first.
 *
 *     df1_address_read("N7:3", 4, &address);
 *     df1_payload_read(DF1_LOGICAL_3, &address, 1, payload, sizeof payload, &length);
 *     df1_end_issue(&end, 1, payload, length, &number);
 *     ... at DF1_ANSWERED ...
 *     df1_end_reply(&end, number, reply, sizeof reply, &length);
 *     df1_reply_read(reply, length, &answer);
 *     ... with answer.sts 0 the word is reply[answer.data] | reply[answer.data + 1] << 8 ...
 */

/* The address of a word in the data files of a controller, or of one of its bits. */
typedef struct df1_address {
    uint8_t type;     /* enum df1_file_type */
    uint16_t file;    /* at most 999 if df1_address_read read it */
    uint16_t element; /* from 0; at most 999 if df1_address_read read it */
    uint16_t sub;     /* the word of the element, from 0; 0 if none is given */
    bool has_bit;     /* whether it names a bit */
    uint8_t bit;      /* 0 to 15 if df1_address_read read it; 0 if has_bit isn't set */
} df1_address;

/* Reads the text of an address of `length` characters: the letter S, B, T, C, R, N or F of a file's type, the file, a colon and the
 * element; then perhaps a point and a word of the element, by its number or as CTL, PRE, ACC, LEN or POS; then perhaps a slash and
 * a bit, but not of a float. Examples are N7:3, F8:0, T4:1.ACC and N7:3/5; S:1 is S2:1. Codes: the first of DF1_NO_ADDRESS_TYPE,
 * _FILE, _COLON, _ELEMENT, _SUB, _BIT, _END. */
uint32_t df1_address_read(const char *text, size_t length, df1_address *address);

/* Copies the text of an address, with a zero byte at its end, into the `room` bytes at `into`: its numbers without zeros in
 * front, a sub-element by its number if it isn't 0, and a bit if there is one. If df1_address_read read the address, it reads it
 * back from this text. `*length` is how many bytes the text has with that zero, at most 25. Codes: DF1_BAD_TYPE, DF1_NO_ROOM. */
uint32_t df1_address_text(const df1_address *address, char *into, size_t room, size_t *length);

/* The commands that read and write words of data files. */
enum df1_command {
    DF1_WORD_RANGE = 0, /* 0F 01 and 0F 00: words of a PLC-5; 122 can be read; 118 can be written, fewer with a long address */
    DF1_TYPED = 1,      /* 0F 68 and 0F 67: elements of a PLC-5, not of a Timer, Counter or Control file, without a sub-element;
                         * 120 of one word or 59 floats can be read; 116 of one word or 57 floats can be written, fewer with a
                         * long address */
    DF1_LOGICAL_2 = 2,  /* 0F A1 and 0F A9: words of an SLC, without a sub-element; 122 can be read; 119 can be written, fewer
                         * with a long address */
    DF1_LOGICAL_3 = 3   /* 0F A2 and 0F AA: words of an SLC; 122 can be read; 119 can be written, fewer with a long address */
};

/* Puts the payload that reads `count` words from an address on, with a typed command `count` elements, into the `room` bytes at
 * `into`. The bit of the address is ignored. `*length` is how many bytes the payload has, at most 245, here and in the calls below.
 * Codes: the first of DF1_BAD_COMMAND, DF1_BAD_TYPE, DF1_NO_ELEMENT_TYPE, DF1_NO_SUB, DF1_NO_DATA, DF1_TOO_MUCH_DATA,
 * DF1_NO_ROOM. */
uint32_t df1_payload_read(uint32_t command, const df1_address *address, uint32_t count, uint8_t *into, size_t room, size_t *length);

/* The payload that writes the `count` words at `words` from an address on; a float is two of them, the low one first. Codes: the
 * first of DF1_BAD_COMMAND, DF1_BAD_TYPE, DF1_NO_ELEMENT_TYPE, DF1_NO_SUB, DF1_NO_DATA, DF1_TOO_MUCH_DATA for over 122 words,
 * DF1_HALF_ELEMENT for half a float of a typed command, DF1_TOO_MUCH_DATA for a payload of over 245 bytes, DF1_NO_ROOM. */
uint32_t df1_payload_write(uint32_t command, const df1_address *address, const uint16_t *words, size_t count, uint8_t *into,
                           size_t room, size_t *length);

/* The payload that writes bits of the words from an address on (0F AB): in each word the bits that are set in `mask` get their
 * new values, and those that are clear in it keep their old ones. Codes: DF1_BAD_TYPE, DF1_NO_DATA, DF1_TOO_MUCH_DATA,
 * DF1_NO_ROOM. */
uint32_t df1_payload_masked(const df1_address *address, uint16_t mask, const uint16_t *words, size_t count, uint8_t *into,
                            size_t room, size_t *length);

/* The payload that makes a word of a PLC-5 its old value AND `and_mask`, OR `or_mask` (0F 26). Codes: DF1_BAD_TYPE, DF1_NO_ROOM. */
uint32_t df1_payload_modify(const df1_address *address, uint16_t and_mask, uint16_t or_mask, uint8_t *into, size_t room,
                            size_t *length);

/* The payload that sets the bit of an address, or clears it, and leaves the other bits of the word unchanged (0F 26). This call and
 * those above don't check whether the controller has the place.
 * Codes: DF1_BAD_TYPE; DF1_NO_BIT if the address has none, or one over 15; DF1_NO_ROOM. */
uint32_t df1_payload_bit(const df1_address *address, bool on, uint8_t *into, size_t room, size_t *length);

/* The payload that asks for the `count` bytes at `bytes` back (06 00), at most 243. Codes: DF1_TOO_MUCH_DATA, DF1_NO_ROOM. */
uint32_t df1_payload_echo(const uint8_t *bytes, size_t count, uint8_t *into, size_t room, size_t *length);

/* The payload that reads `count` words of a station's compatibility file from the byte `address` of that file on (01). Word w is
 * the bytes 2w and 2w + 1; a station of this library refuses an odd address. 122 can be read. Codes: DF1_NO_DATA,
 * DF1_TOO_MUCH_DATA, DF1_NO_ROOM. */
uint32_t df1_payload_unprotected_read(uint16_t address, uint32_t count, uint8_t *into, size_t room, size_t *length);

/* The payload that writes the `count` words at `words` to a station's compatibility file, from the byte `address` of that file on
 * (08). 121 can be written. Codes: DF1_NO_DATA, DF1_TOO_MUCH_DATA, DF1_NO_ROOM. */
uint32_t df1_payload_unprotected_write(uint16_t address, const uint16_t *words, size_t count, uint8_t *into, size_t room,
                                       size_t *length);

/* The payload that asks for the status of a station (06 03): 2 bytes. Codes: DF1_NO_ROOM. */
uint32_t df1_payload_status(uint8_t *into, size_t room, size_t *length);

/* What a reply says. */
typedef struct df1_answer {
    uint8_t sts;        /* 0 if the command was executed */
    uint8_t ext;        /* EXT STS if sts is 0xF0, otherwise 0 */
    size_t data;        /* where the data begins in the reply: at 6, or at 7 if sts is 0xF0 */
    size_t data_length; /* how many bytes of data it has, which may be more or fewer than were asked for */
} df1_answer;

/* Reports what the `length` bytes of a reply say, DST first; its CMD is ignored. Codes: DF1_NO_REPLY if there are under 6 of them,
 * or under 7 with STS F0. */
uint32_t df1_reply_read(const uint8_t *reply, size_t length, df1_answer *answer);

/* Copies the text of STS and EXT STS, for example "there is no such file, element or sub-element", with a zero byte at its end,
 * into the `room` bytes at `into`. EXT STS is ignored if STS isn't F0. What the manual doesn't list has the text "see the manual of
 * the controller". `*length` is how many bytes the text has with that zero, at most 80. Codes: DF1_NO_ROOM. */
uint32_t df1_status_text(uint8_t sts, uint8_t ext, char *into, size_t room, size_t *length);

/* What the data of a typed read is. */
typedef struct df1_typed {
    uint16_t kind;      /* of an element, as received: 2 bit string, 4 integer and 8 floating point are those of df1's files */
    uint16_t size;      /* bytes of an element, as received; it may be 0 */
    bool is_array;      /* whether it is an array of elements */
    size_t data;        /* where the words of the elements begin in what was read */
    size_t data_length; /* how many bytes they have, each word low byte first; perhaps no whole elements */
} df1_typed;

/* Reports what the `length` bytes of data of a reply to a typed read are. The words follow the parameter of an element, which
 * stands alone or follows that of an array. Codes: DF1_NO_TYPED_DATA if a parameter can't be read, or an array has another number
 * of bytes than it says. */
uint32_t df1_typed_read(const uint8_t *data, size_t length, df1_typed *typed);

/* ---- Counts of a line ----
 *
 * Counts of what the calls above reported. The caller keeps them, and sets them to 0 at the beginning. */
typedef struct df1_counts {
    uint64_t good;       /* good frames or messages that were received, at a slave also those for other stations */
    uint64_t accepted;   /* those of them that were accepted */
    uint64_t repeated;   /* those that were received again: the other end missed an ACK */
    uint64_t refused;    /* those for which there was no room */
    uint64_t damaged;    /* frames or messages that were damaged, those that DF1_ACT_DAMAGED counts */
    uint64_t cut_off;    /* frames that were cut off by a new one */
    uint64_t acks;       /* DLE ACK that was received, also one that was ignored */
    uint64_t naks;       /* DLE NAK */
    uint64_t enquiries;  /* DLE ENQ */
    uint64_t sent;       /* frames or messages that were sent, each as often as it was */
    uint64_t asked;      /* DLE ENQ by which the end asked for a response */
    uint64_t given_up;   /* messages of the end that were given up; not one that is given up at a NAK when its command has its
                          * outcome already */
    uint64_t unanswered; /* commands of the end to which no reply came in time */
} df1_counts;

/* Counts what a byte did, or the last one of a run. */
static inline void df1_count_step(df1_counts *counts, const df1_step *step)
{
    counts->good += step->whole;
    counts->accepted += step->act == DF1_ACT_ACCEPT;
    counts->repeated += step->act == DF1_ACT_REPEAT;
    counts->refused += step->act == DF1_ACT_REFUSE;
    counts->damaged += step->act == DF1_ACT_DAMAGED;
    counts->cut_off += step->act == DF1_ACT_FORGOT;
    counts->acks += step->act == DF1_ACT_PEER_ACK;
    counts->naks += step->act == DF1_ACT_PEER_NAK;
    counts->enquiries += step->act == DF1_ACT_PEER_ENQ;
    counts->given_up += step->news != DF1_NO_NEWS;
}

/* Counts what a tick did. */
static inline void df1_count_turn(df1_counts *counts, const df1_turn *turn)
{
    counts->asked += turn->turn == DF1_TURN_ASK;
    counts->given_up += turn->turn == DF1_TURN_FAILED;
    counts->unanswered += turn->gone_count;
}

/* Counts a byte that was sent, or a run of bytes, by its `last`. */
static inline void df1_count_sent(df1_counts *counts, bool last)
{
    counts->sent += last;
}

/* ---- Null pointers ---- */

/* Returns the pointer, or a pointer to nothing if it is null. */
#define DF1_NOT_NULL(name, type)                      \
    static inline type *name(type *at)                \
    {                                                 \
        static uint64_t nothing;                      \
                                                      \
        return at != NULL ? at : (type *)&nothing;    \
    }
DF1_NOT_NULL(df1_read_bytes, const uint8_t)
DF1_NOT_NULL(df1_read_files, const df1_file)
DF1_NOT_NULL(df1_read_words, const df1_word)
DF1_NOT_NULL(df1_write_bytes, uint8_t)
DF1_NOT_NULL(df1_write_text, char)
DF1_NOT_NULL(df1_read_text, const char)
DF1_NOT_NULL(df1_write_numbers, uint32_t)
DF1_NOT_NULL(df1_read_values, const uint16_t)
DF1_NOT_NULL(df1_write_values, uint16_t)
#undef DF1_NOT_NULL

#define df1_bcc(bytes, length) df1_bcc(df1_read_bytes(bytes), length)
#define df1_crc(bytes, length) df1_crc(df1_read_bytes(bytes), length)
#define df1_spell(crc, body, body_length, into, room, length) \
    df1_spell(crc, df1_read_bytes(body), body_length, df1_write_bytes(into), room, length)
#define df1_spell_message(station, crc, body, body_length, into, room, length) \
    df1_spell_message(station, crc, df1_read_bytes(body), body_length, df1_write_bytes(into), room, length)
#define df1_spell_reply(crc, body, body_length, into, room, length) \
    df1_spell_reply(crc, df1_read_bytes(body), body_length, df1_write_bytes(into), room, length)
#define df1_spell_poll(station, into, room, length) df1_spell_poll(station, df1_write_bytes(into), room, length)
#define df1_code_text(code, into, room, length) df1_code_text(code, df1_write_text(into), room, length)
#define df1_decoder_body(decoder, into, room, length) df1_decoder_body(decoder, df1_write_bytes(into), room, length)
#define df1_duplex_make(link, node, files, file_count, words, word_count, block, block_length, end) \
    df1_duplex_make(link, node, df1_read_files(files), file_count, df1_read_words(words), word_count, \
                    df1_read_bytes(block), block_length, end)
#define df1_master_make(link, stations, station_count, node, files, file_count, words, word_count, block, block_length, end) \
    df1_master_make(link, df1_read_bytes(stations), station_count, node, df1_read_files(files), file_count, \
                    df1_read_words(words), word_count, df1_read_bytes(block), block_length, end)
#define df1_slave_make(link, node, files, file_count, words, word_count, block, block_length, end) \
    df1_slave_make(link, node, df1_read_files(files), file_count, df1_read_words(words), word_count, \
                   df1_read_bytes(block), block_length, end)
#define df1_end_body(end, into, room, length) df1_end_body(end, df1_write_bytes(into), room, length)
#define df1_end_bytes(end, bytes, length, used, step) df1_end_bytes(end, df1_read_bytes(bytes), length, used, step)
#define df1_end_take_bytes(end, into, room, given) df1_end_take_bytes(end, df1_write_bytes(into), room, given)
#define df1_end_tick(end, turn, gone, room) df1_end_tick(end, turn, df1_write_numbers(gone), room)
#define df1_end_issue(end, dst, payload, length, number) df1_end_issue(end, dst, df1_read_bytes(payload), length, number)
#define df1_end_issue_from(end, src, dst, payload, length, number) \
    df1_end_issue_from(end, src, dst, df1_read_bytes(payload), length, number)
#define df1_end_reply(end, number, into, room, length) df1_end_reply(end, number, df1_write_bytes(into), room, length)
#define df1_end_push(end, dst, file, bytes, length, first) df1_end_push(end, dst, file, df1_read_bytes(bytes), length, first)
#define df1_end_pulled(end, first, words, into, room, length, came) \
    df1_end_pulled(end, first, words, df1_write_bytes(into), room, length, came)
#define df1_end_words(end, file, first, values, count) df1_end_words(end, file, first, df1_write_values(values), count)
#define df1_end_changed(end, file, first, seen, count, place) \
    df1_end_changed(end, file, first, df1_write_values(seen), count, place)
#define df1_end_set_words(end, file, first, values, count) \
    df1_end_set_words(end, file, first, df1_read_values(values), count)
#define df1_end_lock(end, files, count) df1_end_lock(end, df1_read_values(files), count)
#define df1_address_read(text, length, address) df1_address_read(df1_read_text(text), length, address)
#define df1_address_text(address, into, room, length) df1_address_text(address, df1_write_text(into), room, length)
#define df1_payload_read(command, address, count, into, room, length) \
    df1_payload_read(command, address, count, df1_write_bytes(into), room, length)
#define df1_payload_write(command, address, words, count, into, room, length) \
    df1_payload_write(command, address, df1_read_values(words), count, df1_write_bytes(into), room, length)
#define df1_payload_masked(address, mask, words, count, into, room, length) \
    df1_payload_masked(address, mask, df1_read_values(words), count, df1_write_bytes(into), room, length)
#define df1_payload_modify(address, and_mask, or_mask, into, room, length) \
    df1_payload_modify(address, and_mask, or_mask, df1_write_bytes(into), room, length)
#define df1_payload_bit(address, on, into, room, length) df1_payload_bit(address, on, df1_write_bytes(into), room, length)
#define df1_payload_echo(bytes, count, into, room, length) \
    df1_payload_echo(df1_read_bytes(bytes), count, df1_write_bytes(into), room, length)
#define df1_payload_unprotected_read(address, count, into, room, length) \
    df1_payload_unprotected_read(address, count, df1_write_bytes(into), room, length)
#define df1_payload_unprotected_write(address, words, count, into, room, length) \
    df1_payload_unprotected_write(address, df1_read_values(words), count, df1_write_bytes(into), room, length)
#define df1_payload_status(into, room, length) df1_payload_status(df1_write_bytes(into), room, length)
#define df1_reply_read(reply, length, answer) df1_reply_read(df1_read_bytes(reply), length, answer)
#define df1_status_text(sts, ext, into, room, length) df1_status_text(sts, ext, df1_write_text(into), room, length)
#define df1_typed_read(data, length, typed) df1_typed_read(df1_read_bytes(data), length, typed)

#ifdef __cplusplus
}
#endif

#endif
