/* Calls of the library by whatever bytes say: three ends, one of each kind, and a decoder of any side, with buffers of just the size that is told.
 * By libFuzzer: clang -fsanitize=fuzzer,address -Iinclude .ci/library-fuzz.c libdf1.a. By bytes of a generator, as under valgrind, which
 * sees each access of the library too: cc -DGENERATED -pthread -Iinclude .ci/library-fuzz.c libdf1.a; its word is how many rounds each of
 * two threads makes, on handles of its own. Before that the two use one handle under a lock. */
#include <stdio.h>
#include <stdlib.h>
#include <string.h>

#include "df1.h"

#define MUST(holds)                                                  \
    do {                                                             \
        if (!(holds)) {                                              \
            fprintf(stderr, "line %d: not so: %s\n", __LINE__, #holds); \
            abort();                                                 \
        }                                                            \
    } while (0)

/* What a call answers or reports on a line. libFuzzer doesn't see into the library: it keeps the inputs that reach another answer. */
#ifdef GENERATED
#define TOLD(kind) (kind)
#else
__attribute__((section("__libfuzzer_extra_counters"))) static uint8_t reached[1024 * 64];

static uint32_t noted(unsigned line, uint32_t kind)
{
    reached[line % 1024 * 64 + kind % 64] = 1;
    return kind;
}
#define TOLD(kind) noted(__LINE__, kind)
#endif

/* ---- What bytes say ---- */

struct said {
    const uint8_t *at;
    size_t left;
};

static uint8_t byte_of(struct said *said)
{
    if (said->left == 0)
        return 0;
    said->left--;
    return *said->at++;
}

static uint32_t number_of(struct said *said)
{
    uint32_t high = byte_of(said);

    return high < 128 ? high : high << 8 | byte_of(said);
}

/* A file that an end may have, or any. */
static uint16_t file_of(struct said *said)
{
    unsigned byte = byte_of(said);

    return byte < 192 ? (uint16_t)(6 + byte % 4) : (uint16_t)number_of(said);
}

/* So many bytes, in a block of their own: null where there are none. */
static void *block_of(struct said *said, size_t length)
{
    uint8_t *block = length > 0 ? malloc(length) : NULL;
    size_t at;

    for (at = 0; at < length; at++)
        block[at] = byte_of(said);
    return block;
}

/* What a call that fills a buffer may answer. */
static void look(uint32_t code, const size_t *length, size_t room, size_t most)
{
    MUST(code <= DF1_NO_TYPED_DATA);
    MUST(code != DF1_DONE || (*length <= room && *length <= most));
    MUST(code != DF1_NO_ROOM || (*length > room && *length <= most));
}

/* ---- Ends, and bytes between them ---- */

/* An end of a kind, whose parts are perhaps out of range. */
static void make(struct said *said, unsigned kind, df1_end *end)
{
    df1_duplex duplex = DF1_DUPLEX_INIT;
    df1_master master = DF1_MASTER_INIT;
    df1_slave slave = DF1_SLAVE_INIT;
    df1_node node = DF1_NODE_INIT((uint8_t)(1 + kind));
    df1_file files[2] = {{7, DF1_INTEGER, 16}, {8, DF1_FLOAT, 4}};
    df1_word words[1] = {{7, 0, 0x1234}};
    uint8_t stations[2] = {2, 3};
    size_t block_length = number_of(said) % 300;
    uint8_t *block = block_of(said, block_length);
    uint32_t code;

    duplex.embed = byte_of(said) % 2;
    duplex.max_naks = number_of(said) % 300;
    master.routes = byte_of(said) % 3;
    master.poll_ticks = slave.max_sends = 1 + byte_of(said) % 4;
    node.window = number_of(said) % 20;
    node.reply_ticks = 1 + byte_of(said);
    node.room = 2 + byte_of(said) % 70;
    node.has_compat = byte_of(said) % 4 > 0;
    node.compat = 7;
    files[1].number = (uint16_t)(6 + byte_of(said) % 4);
    words[0].index = number_of(said) % 20;
    if (kind % 3 == 0)
        code = TOLD(df1_duplex_make(&duplex, &node, files, 2, words, 1, block, block_length, end));
    else if (kind % 3 == 1)
        code = TOLD(df1_master_make(&master, stations, byte_of(said) % 3, &node, files, 2, words, 1, block, block_length, end));
    else
        code = TOLD(df1_slave_make(&slave, &node, files, 2, words, 1, block, block_length, end));
    MUST(code <= DF1_NO_STATION);
    free(block);
}

/* Bytes of an end go to another one, as far as it gives any. */
static void carry(df1_end *from, df1_end *to, unsigned count)
{
    df1_step step;
    df1_out out;

    for (; count > 0 && df1_end_take(from, &out) == DF1_DONE && out.there; count--)
        MUST(TOLD(df1_end_byte(to, out.byte, &step)) <= DF1_NO_HANDLE);
}

static bool is_told(const df1_step *step)
{
    return TOLD(step->act) != 0 || TOLD(step->did) != 0 || step->did_command != 0 || TOLD(step->news) != 0 || step->news_command != 0 ||
           step->whole || step->station != 0;
}

/* An end hears bytes run by run, each up to one after which there is something to do, or to the last. */
static void hear_runs(df1_end *end, const uint8_t *bytes, size_t length)
{
    df1_step step;
    bool quiet = true;
    size_t used = 0;

    for (; length > 0; bytes += used, length -= used) {
        if (TOLD(df1_end_bytes(end, bytes, length, &used, &step)) != DF1_DONE)
            return;
        MUST(used > 0 && used <= length && df1_end_quiet(end, &quiet) == DF1_DONE);
        MUST(is_told(&step) || !quiet || used == length);
    }
}

/* Runs of bytes of an end go to another one, as far as it gives any. */
static void carry_runs(df1_end *from, df1_end *to, size_t room)
{
    df1_given given = {0, false, false};
    uint8_t *bytes = malloc(room);
    unsigned runs;

    for (runs = 0; runs < 8 && !given.quiet; runs++) {
        if (bytes == NULL || TOLD(df1_end_take_bytes(from, bytes, room, &given)) != DF1_DONE)
            break;
        MUST(given.length <= room && given.length <= 512 && (given.length > 0 || !given.last));
        MUST(given.length == room || given.length == 512 || given.last || given.quiet);
        hear_runs(to, bytes, given.length);
    }
    free(bytes);
}

static void tick(df1_end *end)
{
    uint32_t gone[16];
    df1_turn turn;

    if (df1_end_tick(end, &turn, gone, 16) == DF1_DONE)
        MUST(TOLD(turn.gone_count) <= 16 && TOLD(turn.turn) <= DF1_TURN_FAILED);
}

/* Two ends talk for some ticks of the first. */
static void talk(struct said *said, df1_end *near, df1_end *far)
{
    size_t room = 1 + number_of(said) % 600;
    unsigned count = byte_of(said) % 16;

    for (; count > 0; count--) {
        carry_runs(near, far, room);
        carry_runs(far, near, room);
        tick(near);
    }
}

/* ---- Commands, payloads and replies ---- */

static void command(struct said *said, df1_end *end, unsigned what)
{
    size_t length = number_of(said) % 260, count = 0;
    uint8_t *bytes = block_of(said, length);
    uint32_t number = number_of(said), into = 0;
    df1_transfer came;

    if (what == 0)
        MUST(TOLD(df1_end_issue(end, (uint8_t)number, bytes, length, &into)) <= DF1_NO_STATION);
    else if (what == 1)
        MUST(TOLD(df1_end_issue_from(end, byte_of(said), (uint8_t)number, bytes, length, &into)) <= DF1_NO_STATION);
    else if (what == 2)
        MUST(TOLD(df1_end_pull(end, (uint8_t)number, (uint16_t)(number_of(said) % 1100), number_of(said) % 3100, &into)) <= DF1_NO_STATION);
    else if (what == 3)
        MUST(TOLD(df1_end_push(end, (uint8_t)number, (uint16_t)(number_of(said) % 1100), bytes, length, &into)) <= DF1_NO_STATION);
    else if (what == 4)
        MUST(TOLD(df1_end_outcome(end, number, &into)) <= DF1_NO_STATION && TOLD(into) <= DF1_UNANSWERED);
    else if (what == 5)
        look(TOLD(df1_end_reply(end, number, bytes, length, &count)), &count, length, 250);
    else if (what == 6)
        look(TOLD(df1_end_pulled(end, number, 1 + length / 2, bytes, length, &count, &came)), &count, length, 6000);
    else
        MUST(TOLD(df1_end_pushed(end, number, length, &came)) <= DF1_NO_STATION);
    free(bytes);
}

/* A frame, a message or a poll of a body, into a room of its own. */
static void spell(struct said *said, const uint8_t *body, size_t length)
{
    unsigned what = byte_of(said);
    bool crc = what % 2;
    uint8_t station = byte_of(said);
    size_t count = 0, room = number_of(said) % 512;
    uint8_t *into = block_of(said, room);

    if (what / 2 % 4 == 0)
        look(TOLD(df1_spell(crc, body, length, into, room, &count)), &count, room, 506);
    else if (what / 2 % 4 == 1)
        look(TOLD(df1_spell_message(station, crc, body, length, into, room, &count)), &count, room, 509);
    else if (what / 2 % 4 == 2)
        look(TOLD(df1_spell_reply(crc, body, length, into, room, &count)), &count, room, 506);
    else
        look(TOLD(df1_spell_poll(station, into, room, &count)), &count, room, 4);
    free(into);
}

/* An address of a text, of which a character may be another one; where it is none, of what bytes say. */
static df1_address address_of(struct said *said)
{
    static const char *const texts[] = {"N7:3", "T4:1.ACC/13", "S:1/15", "F8:0.1", "R6:999.LEN", "C005:010.2"};
    static const char letters[] = "SBTCRNF:./0123456789";
    const char *like = texts[byte_of(said) % 6];
    df1_address address = {0, 0, 0, 0, false, 0};
    size_t place = byte_of(said) % 24, length = strlen(like), count = 0;
    char *text = block_of(said, length), again[25];

    memcpy(text, like, length);
    if (place < length)
        text[place] = letters[byte_of(said) % (sizeof letters - 1)];
    if (TOLD(df1_address_read(text, length, &address)) == DF1_DONE) {
        MUST(address.file <= 999 && address.element <= 999 && address.sub <= 2 && address.bit <= 15);
    } else {
        address.type = (uint8_t)(DF1_STATUS + byte_of(said) % 8);
        address.file = (uint16_t)(number_of(said) * 3);
        address.element = (uint16_t)(number_of(said) * 3);
        address.sub = byte_of(said) % 3;
        address.has_bit = byte_of(said) % 2;
        address.bit = byte_of(said) % 20;
    }
    free(text);
    look(TOLD(df1_address_text(&address, again, sizeof again, &count)), &count, sizeof again, sizeof again);
    return address;
}

/* What bytes tell as a reply lies in them, as typed data too, and each status has a text. */
static void read_reply(const uint8_t *bytes, size_t length)
{
    df1_answer answer;
    df1_typed typed;
    char text[80];
    size_t count = 0;

    if (TOLD(df1_reply_read(bytes, length, &answer)) == DF1_DONE) {
        MUST(answer.data + answer.data_length == length);
        MUST(df1_status_text(TOLD(answer.sts), answer.ext, text, sizeof text, &count) == DF1_DONE && count >= 2 && count <= sizeof text);
        if (TOLD(df1_typed_read(bytes + answer.data, answer.data_length, &typed)) == DF1_DONE)
            MUST(TOLD(typed.data) + typed.data_length == answer.data_length);
    }
    if (TOLD(df1_typed_read(bytes, length, &typed)) == DF1_DONE)
        MUST(TOLD(typed.data) + typed.data_length == length);
}

/* A payload is issued to another end, the two talk, and the reply is read in a block of its own size. */
static void ask(struct said *said, df1_end *end, df1_end *other, const uint8_t *bytes, size_t length)
{
    uint32_t number = 0, code = TOLD(df1_end_issue(end, byte_of(said) % 4, bytes, length, &number));
    uint8_t reply[250], *block;
    size_t count = 0;

    MUST(code <= DF1_NO_MEMORY || code == DF1_NO_STATION || code == DF1_SPENT);
    if (code != DF1_DONE)
        return;
    talk(said, end, other);
    code = TOLD(df1_end_reply(end, number, reply, sizeof reply, &count));
    look(code, &count, sizeof reply, sizeof reply);
    if (code != DF1_DONE || (block = malloc(count)) == NULL)
        return;
    memcpy(block, reply, count);
    read_reply(block, count);
    free(block);
}

/* The payload of a command into a room of its own, which an end takes where it is done. */
static void payload(struct said *said, df1_end *end, df1_end *other, const uint8_t *bytes, size_t length)
{
    unsigned what = byte_of(said) % 9;
    df1_address at = address_of(said);
    size_t told = 0, room = number_of(said) % 256, count = number_of(said) % 130;
    uint8_t *into = block_of(said, room);
    uint16_t *words = block_of(said, 2 * count);
    uint32_t code, command = byte_of(said) % 5;

    if (what == 0)
        code = TOLD(df1_payload_read(command, &at, (uint32_t)count, into, room, &told));
    else if (what == 1)
        code = TOLD(df1_payload_write(command, &at, words, count, into, room, &told));
    else if (what == 2)
        code = TOLD(df1_payload_masked(&at, (uint16_t)number_of(said), words, count, into, room, &told));
    else if (what == 3)
        code = TOLD(df1_payload_modify(&at, (uint16_t)number_of(said), (uint16_t)number_of(said), into, room, &told));
    else if (what == 4)
        code = TOLD(df1_payload_bit(&at, byte_of(said) % 2, into, room, &told));
    else if (what == 5)
        code = TOLD(df1_payload_echo(bytes, length, into, room, &told));
    else if (what == 6)
        code = TOLD(df1_payload_unprotected_read((uint16_t)number_of(said), (uint32_t)count, into, room, &told));
    else if (what == 7)
        code = TOLD(df1_payload_unprotected_write((uint16_t)number_of(said), words, count, into, room, &told));
    else
        code = TOLD(df1_payload_status(into, room, &told));
    look(code, &told, room, 245);
    if (code == DF1_DONE)
        ask(said, end, other, into, told);
    free(words);
    free(into);
}

/* ---- Words ---- */

/* Calls until none differs tell each word that isn't what `seen` has for it, and leave the words there. */
static void see_changes(df1_end *end, uint16_t file, uint32_t first, uint16_t *seen, uint16_t *words, size_t count)
{
    size_t place = 0, before;
    uint32_t code = TOLD(df1_end_changed(end, file, first, seen, count, &place));

    while (code == DF1_DONE && place < count) {
        before = place;
        code = df1_end_changed(end, file, first, seen, count, &place);
        MUST(code == DF1_DONE && place > before && place <= count);
    }
    if (code == DF1_DONE)
        MUST(df1_end_words(end, file, first, words, count) == DF1_DONE && (count == 0 || memcmp(words, seen, 2 * count) == 0));
}

/* Words are set, told, or looked at for changes, in blocks of just their size. */
static void word_runs(struct said *said, df1_end *end)
{
    unsigned what = byte_of(said) % 4;
    uint16_t file = file_of(said), value = 0;
    uint32_t first = byte_of(said) % 8 > 0 ? byte_of(said) % 20 : 0xFFFFFFFF - byte_of(said);
    size_t count = byte_of(said) % 20;
    uint16_t *values = block_of(said, 2 * count), *again = block_of(said, 2 * count);

    if (byte_of(said) % 8 == 0)
        TOLD(df1_end_lock(end, values, count));
    if (what == 0 && TOLD(df1_end_set_words(end, file, first, values, count)) == DF1_DONE) {
        MUST(df1_end_words(end, file, first, again, count) == DF1_DONE);
        MUST(count == 0 || memcmp(values, again, 2 * count) == 0);
    } else if (what == 1 && TOLD(df1_end_set_word(end, file, first, (uint16_t)count)) == DF1_DONE) {
        MUST(df1_end_word(end, file, first, &value) == DF1_DONE && value == count);
    } else if (what == 2) {
        MUST(TOLD(df1_end_words(end, file, first, values, count)) <= DF1_NO_WORD);
    } else {
        see_changes(end, file, first, values, again, count);
    }
    free(values);
    free(again);
}

/* ---- All calls ---- */

static void look_at(struct said *said, df1_end *end, df1_end *other, unsigned what)
{
    uint32_t count = 0;
    df1_file file;
    df1_given given;
    df1_state state;
    size_t told = 0, room = number_of(said) % 260;
    uint8_t *into = block_of(said, room);
    bool quiet;

    if (what == 0)
        tick(end);
    else if (what == 1)
        look(TOLD(df1_end_body(end, into, room, &told)), &told, room, 250);
    else if (what == 2)
        MUST(df1_end_quiet(end, &quiet) == df1_end_state(end, &state) && (df1_end_quiet(end, &quiet) != DF1_DONE || quiet == state.quiet));
    else if (what == 3)
        MUST(TOLD(df1_end_files(end, &count)) != DF1_DONE || count <= 256);
    else if (what == 4)
        MUST(TOLD(df1_end_file(end, number_of(said), &file)) <= DF1_NO_STATION);
    else if (what == 5)
        hear_runs(end, into, room);
    else if (what == 6)
        MUST(TOLD(df1_end_take_bytes(end, into, room, &given)) != DF1_DONE || given.length <= room);
    else if (what == 7)
        spell(said, into, room);
    else if (what == 8)
        read_reply(into, room);
    else if (what == 9)
        talk(said, end, other);
    else if (what < 12)
        word_runs(said, end);
    else
        payload(said, end, other, into, room);
    free(into);
}

static void hear(struct said *said, df1_decoder *decoder, df1_end *end)
{
    df1_hearing hearing;
    df1_step step;
    unsigned count = byte_of(said) % 64;
    size_t told = 0;
    uint8_t body[250];

    for (; count > 0; count--) {
        uint8_t byte = byte_of(said);

        MUST(df1_decoder_byte(decoder, byte, &hearing) != DF1_DONE || TOLD(hearing.heard) <= DF1_HEARD_EOT);
        MUST(df1_end_byte(end, byte, &step) != DF1_DONE || TOLD(step.did) <= DF1_ROUTED);
    }
    look(df1_decoder_body(decoder, body, sizeof body, &told), &told, sizeof body, 250);
}

int LLVMFuzzerTestOneInput(const uint8_t *data, size_t size)
{
    struct said said = {data, size};
    df1_end ends[3] = {DF1_NOTHING, DF1_NOTHING, DF1_NOTHING};
    df1_decoder decoder = DF1_NOTHING;
    unsigned at;

    for (at = 0; at < 3; at++)
        make(&said, at, &ends[at]);
    MUST(TOLD(df1_decoder_make_side(byte_of(&said) % 4, byte_of(&said) % 2, &decoder)) == DF1_DONE || decoder.holds == false);
    while (said.left > 0) {
        unsigned what = byte_of(&said), which = what / 32 % 3, other = (which + what % 2 + 1) % 3;

        if (what % 32 < 8)
            command(&said, &ends[which], what % 8);
        else if (what % 32 < 20)
            look_at(&said, &ends[which], &ends[other], byte_of(&said) % 16);
        else if (what % 32 < 26)
            carry(&ends[which], &ends[other], byte_of(&said));
        else if (what % 32 < 31)
            hear(&said, &decoder, &ends[which]);
        else if (df1_end_free(&ends[which]) != DF1_DONE || what < 224)
            make(&said, which + byte_of(&said), &ends[which]);
    }
    for (at = 0; at < 3; at++)
        MUST(df1_end_free(&ends[at]) <= DF1_NO_HANDLE);
    MUST(df1_decoder_free(&decoder) <= DF1_NO_HANDLE);
    return 0;
}

#ifdef GENERATED
#include <pthread.h>

/* The rounds of one thread, with bytes of a generator of its own. */
struct rounds {
    unsigned long count;
    uint32_t seed;
};

static uint32_t next(uint32_t *seed)
{
    *seed = *seed * 1664525 + 1013904223;
    return *seed >> 16;
}

static void *play(void *given)
{
    struct rounds *rounds = given;
    uint8_t *data = malloc(4096);
    unsigned long round;
    size_t at;

    for (round = 0; round < rounds->count; round++) {
        for (at = 0; at < 4096; at++)
            data[at] = (uint8_t)next(&rounds->seed);
        LLVMFuzzerTestOneInput(data, next(&rounds->seed) % 4096);
    }
    free(data);
    return NULL;
}

/* An end of two threads, each of which takes the lock for its calls. */
struct shared {
    pthread_mutex_t lock;
    df1_end end;
};

static void *use(void *given)
{
    static const uint8_t echo[] = {0x06, 0x00, 0x55};
    struct shared *shared = given;
    unsigned round;
    uint32_t number;

    for (round = 0; round < 50; round++) {
        MUST(pthread_mutex_lock(&shared->lock) == 0);
        MUST(df1_end_issue(&shared->end, 2, echo, sizeof echo, &number) == DF1_DONE);
        carry_runs(&shared->end, &shared->end, 64);
        tick(&shared->end);
        MUST(pthread_mutex_unlock(&shared->lock) == 0);
    }
    return NULL;
}

/* Two threads, and the end of both. */
static void run_two(void *(*of)(void *), void *first, void *second)
{
    pthread_t threads[2];

    MUST(pthread_create(&threads[0], NULL, of, first) == 0 && pthread_create(&threads[1], NULL, of, second) == 0);
    MUST(pthread_join(threads[0], NULL) == 0 && pthread_join(threads[1], NULL) == 0);
}

int main(int argc, char **argv)
{
    unsigned long runs = argc > 1 ? strtoul(argv[1], NULL, 10) : 100;
    struct rounds rounds[2] = {{runs, 1770}, {runs, 1771}};
    struct shared shared = {PTHREAD_MUTEX_INITIALIZER, DF1_NOTHING};
    df1_duplex link = DF1_DUPLEX_INIT;
    df1_node node = DF1_NODE_INIT(1);

    MUST(df1_duplex_make(&link, &node, NULL, 0, NULL, 0, NULL, 0, &shared.end) == DF1_DONE);
    run_two(use, &shared, &shared);
    MUST(df1_end_free(&shared.end) == DF1_DONE);
    run_two(play, &rounds[0], &rounds[1]);
    printf("%lu rounds: ok\n", runs);
    return 0;
}
#endif
