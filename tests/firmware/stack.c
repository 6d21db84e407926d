/* The deepest stack of each C call. A call runs on a stack of its own that holds a
 * pattern; how far down the pattern is gone afterwards is what the call took, from the
 * caller's stack pointer on, so with return address and arguments. What a function
 * reserves and never writes is not seen: stack_bound.sh counts that. For x86-64. */

#include "checks.h"
#include "cinder.h"
#include "list_cases.h"
#include "packets.h"

#include <stdbool.h>
#include <stdio.h>
#include <stdlib.h>
#include <string.h>
#include <ucontext.h>

enum { STACK_WORDS = 2048, BYTES_ROOM = 2 * LIST_LIMIT };

#define PATTERN UINT64_C(0xa7b6c5d4e3f20918)

enum call {
    PACKET_DECODE,
    LIST_DECODE,
    STREAM_NEXT,
    HUB_RECEIVE,
    HUB_DETACH,
    HUB_PUBLISH,
    HUB_READ,
    PACKET_ENCODE,
    LIST_ENCODE,
    TEXT_ENCODE,
    TEXT_DECODE,
    SETTING_FIND,
    LINE_PUSH,
    CALLS
};

static const char *const call_names[CALLS] = {
    "cinder_packet_decode", "cinder_list_decode", "cinder_stream_next",
    "cinder_hub_receive",   "cinder_hub_detach",  "cinder_hub_publish",
    "cinder_hub_read",      "cinder_packet_encode", "cinder_list_encode",
    "cinder_text_encode",   "cinder_text_decode", "cinder_setting_find",
    "cinder_line_push"};

struct deepest {
    size_t bytes;
    uint64_t error;
    const char *input;
    unsigned long calls;
};

static struct deepest deepest[CALLS];

/* The call to make; a context's function takes no pointers. */
static struct {
    enum call call;
    /* What is read: bytes, a payload, rows, a text, the guest's list or a scrap. */
    const uint8_t *bytes;
    size_t length;
    /* The offset, the type, or the socket. */
    uint64_t number;
    uint64_t index;
    const uint8_t *catalogue;
    size_t catalogue_length;
    uint8_t *table;
    const uint8_t *stored;
    size_t stored_length;
    const uint8_t *house;
    size_t house_length;
    const uint8_t *key;
    size_t key_length;
    uint8_t line[CINDER_LINE_ROOM];
    size_t first_room;
    size_t store_room;
    cinder_list_result answer;
    size_t written;
    const uint8_t *stack_pointer;
} given;

static uint64_t stack[STACK_WORDS] __attribute__((aligned(64)));
static uint8_t first[CINDER_TEXT_ROOM];
static uint8_t store[STORE_ROOM];
static ucontext_t caller, callee;

/* Runs on the painted stack. */
static void make_call(void)
{
    const uint8_t *catalogue = given.catalogue;
    size_t catalogue_length = given.catalogue_length;
    __asm__ volatile("mov %%rsp, %0" : "=m"(given.stack_pointer));
    switch (given.call) {
    case PACKET_DECODE:
        given.answer.error =
            cinder_packet_decode(given.bytes, given.length, first, given.first_room).error;
        break;
    case LIST_DECODE:
        given.answer = cinder_list_decode(given.bytes, given.length, first, given.first_room,
                                          store, given.store_room);
        break;
    case STREAM_NEXT:
        given.answer = cinder_stream_next(given.bytes, given.length, given.number, first,
                                          given.first_room, store, given.store_room);
        break;
    case HUB_RECEIVE:
        given.answer.error =
            cinder_hub_receive(catalogue, catalogue_length, given.table, CINDER_TABLE_ROOM,
                               given.number, given.bytes, given.length)
                .error;
        break;
    case HUB_DETACH:
        given.answer.error = cinder_hub_detach(catalogue, catalogue_length, given.table,
                                               CINDER_TABLE_ROOM, given.number);
        break;
    case HUB_PUBLISH:
        given.answer.error = cinder_hub_publish(catalogue, catalogue_length, given.table,
                                                CINDER_TABLE_ROOM, first, given.first_room)
                                 .error;
        break;
    case HUB_READ:
        given.answer.error = cinder_hub_read(catalogue, catalogue_length, given.table,
                                             CINDER_TABLE_ROOM, given.number, given.index)
                                 .error;
        break;
    case PACKET_ENCODE:
        given.answer.error = cinder_packet_encode(given.number, given.bytes, given.length, first,
                                                  given.first_room)
                                 .error;
        break;
    case LIST_ENCODE:
        given.answer.error = cinder_list_encode(given.bytes, given.length, given.stored,
                                                given.stored_length, first, given.first_room)
                                 .error;
        break;
    case TEXT_ENCODE: {
        cinder_write_result written = cinder_text_encode(given.bytes, given.length, given.stored,
                                                         given.stored_length, first,
                                                         given.first_room);
        given.answer.error = written.error;
        given.written = written.written;
        break;
    }
    case TEXT_DECODE:
        given.answer.error = cinder_text_decode(given.bytes, given.length, first,
                                                given.first_room, store, given.store_room)
                                 .error;
        break;
    case SETTING_FIND:
        given.answer.error = cinder_setting_find(given.bytes, given.length, given.house,
                                                 given.house_length, given.key, given.key_length)
                                 .error;
        break;
    default: {
        cinder_line_result pushed = cinder_line_push(given.line, sizeof given.line, given.bytes,
                                                     given.length, first, given.first_room);
        given.answer.error = pushed.error;
        given.answer.consumed = pushed.consumed;
    }
    }
}

static void measure(const char *input)
{
    for (size_t at = 0; at < STACK_WORDS; at++)
        stack[at] = PATTERN;
    if (getcontext(&callee) != 0)
        exit(2);
    callee.uc_stack.ss_sp = stack;
    callee.uc_stack.ss_size = sizeof stack;
    callee.uc_link = &caller;
    makecontext(&callee, make_call, 0);
    if (swapcontext(&caller, &callee) != 0)
        exit(2);
    const uint64_t *lowest = stack;
    while (*lowest == PATTERN)
        lowest++;
    if (lowest == stack) {
        fprintf(stderr, "%s: more stack than the %zu bytes here\n", input, sizeof stack);
        exit(1);
    }
    struct deepest *most = &deepest[given.call];
    size_t taken = (size_t)(given.stack_pointer - (const uint8_t *)lowest);
    most->calls++;
    if (taken > most->bytes) {
        most->bytes = taken;
        most->error = given.answer.error;
        most->input = input;
    }
}

static void packet(const uint8_t *bytes, size_t length, size_t room, const char *input)
{
    given.call = PACKET_DECODE;
    given.bytes = bytes;
    given.length = length;
    given.first_room = room;
    measure(input);
}

/* Hands a scrap in until it is taken, once if it is empty. */
static void scrap(const uint8_t *bytes, size_t length, const char *input)
{
    given.call = LINE_PUSH;
    given.first_room = CINDER_PACKET_ROOM;
    given.bytes = bytes;
    given.length = length;
    do {
        measure(input);
        given.bytes += given.answer.consumed;
        given.length -= given.answer.consumed;
    } while (given.length > 0 && given.answer.consumed > 0);
}

/* A line in two scraps, an empty one between them. */
static void line(const uint8_t *bytes, size_t length, size_t cut, const char *input)
{
    memset(given.line, 0, sizeof given.line);
    scrap(bytes, cut, input);
    scrap(NULL, 0, "empty scrap");
    check(given.answer.error == 0, "line", "empty scrap");
    scrap(bytes + cut, length - cut, input);
}

/* Both writers of a list. The text is written last, so that it stands in the area. */
static void encode(const uint8_t *rows, size_t length, const uint8_t *stored,
                   size_t stored_length, const char *input)
{
    given.bytes = rows;
    given.length = length;
    given.stored = stored;
    given.stored_length = stored_length;
    given.call = LIST_ENCODE;
    given.first_room = CINDER_LIST_ROOM;
    measure(input);
    given.call = TEXT_ENCODE;
    given.first_room = CINDER_TEXT_ROOM;
    measure(input);
}

static void text(const uint8_t *bytes, size_t length, const char *input)
{
    given.call = TEXT_DECODE;
    given.bytes = bytes;
    given.length = length;
    given.first_room = ROWS_ROOM;
    given.store_room = STORE_ROOM;
    measure(input);
}

/* The text that was written, read again: whole, cut, and with each of a few characters
 * replaced by others. */
static void read_back(const char *input)
{
    static const char others[] = "()[]{}\"\\ -0xp1z";
    static uint8_t copy[CINDER_TEXT_ROOM];
    size_t length = given.written;
    memcpy(copy, first, length);
    text(copy, length, input);
    check(given.answer.error == 0, "text", "read back");
    for (size_t at = 0; at < length; at += length < 100 ? 1 : 1 + length / 8) {
        uint8_t old = copy[at];
        text(copy, at, input);
        for (size_t other = 0; other + 1 < sizeof others; other++) {
            copy[at] = (uint8_t)others[other];
            text(copy, length, input);
        }
        copy[at] = old;
    }
}

/* The rows that were read, written again as bytes and as text: whole, short of a row, and
 * with a number of each of a few rows replaced. */
static void written_back(const char *input)
{
    static const uint32_t others[] = {0, 1, 4, 12, 256, 0xffffffff};
    static uint8_t rows[ROWS_ROOM];
    static uint8_t stored[STORE_ROOM];
    size_t length = ROW_BYTES * given.answer.rows;
    size_t stored_length = given.answer.stored;
    memcpy(rows, first, length);
    memcpy(stored, store, stored_length);
    encode(rows, length, stored, stored_length, input);
    if (given.answer.error == 0)
        read_back(input);
    encode(rows, length - ROW_BYTES, stored, stored_length, input);
    for (size_t at = 0; at < length; at += length < 100 ? 4 : 460) {
        uint8_t old[4];
        memcpy(old, rows + at, 4);
        for (size_t other = 0; other < sizeof others / sizeof others[0]; other++) {
            put_words(rows + at, &others[other], 1);
            encode(rows, length, stored, stored_length, input);
        }
        memcpy(rows + at, old, 4);
    }
}

/* A list as the guest's, as the house's and as both, beside one with an entry. */
static void setting(const uint8_t *bytes, size_t length, const char *input)
{
    /* The zero that closes the literal closes the value. */
    static const uint8_t other[] =
        "\0\1\0\0\1\0\0\0\4\1\0\0\2\0\0\0\2\0\0\0b\0\2\0\0\0c";
    static const char *const keys[] = {"aaa", "b"};
    given.call = SETTING_FIND;
    for (size_t at = 0; at < sizeof keys / sizeof keys[0]; at++) {
        given.key = (const uint8_t *)keys[at];
        given.key_length = strlen(keys[at]);
        for (int sides = 1; sides <= 3; sides++) {
            given.bytes = sides & 1 ? bytes : other;
            given.length = sides & 1 ? length : sizeof other;
            given.house = sides & 2 ? bytes : other;
            given.house_length = sides & 2 ? length : sizeof other;
            measure(input);
        }
    }
}

/* The last answer is that of reading the list alone. */
static void list(const uint8_t *bytes, size_t length, const char *input)
{
    setting(bytes, length, input);
    given.bytes = bytes;
    given.length = length;
    given.number = 0;
    given.first_room = ROWS_ROOM;
    given.store_room = STORE_ROOM;
    given.call = STREAM_NEXT;
    measure(input);
    given.call = LIST_DECODE;
    measure(input);
}

/* An empty list before it, and offsets at the end and past it. */
static void behind_another(const uint8_t *bytes, size_t length, const char *input)
{
    static uint8_t both[8 + BYTES_ROOM];
    static const uint32_t empty_list[2] = {256, 0};
    put_words(both, empty_list, 2);
    memcpy(both + 8, bytes, length);
    given.call = STREAM_NEXT;
    given.bytes = both;
    given.length = length + 8;
    given.first_room = ROWS_ROOM;
    given.store_room = STORE_ROOM;
    for (given.number = 0; given.number <= 8; given.number += 8)
        measure(input);
    given.number = given.length;
    measure("the end of the stream");
    given.number = UINT64_MAX;
    measure("past the end of the stream");
}

static void too_small(void)
{
    static const uint8_t ping[] = {0x00, 0x04, 0x02, 0x01, 0x02, 0x01};
    packet(ping, sizeof ping, CINDER_PACKET_ROOM - 1, "buffer too small");
    given.call = LINE_PUSH;
    measure("buffer too small");
    given.first_room = CINDER_ROWS_ROOM - 1;
    given.store_room = CINDER_STORE_ROOM;
    given.call = LIST_DECODE;
    measure("buffer too small");
    given.call = STREAM_NEXT;
    measure("buffer too small");
    given.call = TEXT_DECODE;
    measure("buffer too small");
    given.first_room = CINDER_LIST_ROOM - 1;
    given.call = LIST_ENCODE;
    measure("buffer too small");
    given.first_room = CINDER_TEXT_ROOM - 1;
    given.call = TEXT_ENCODE;
    measure("buffer too small");
}

/* The list whole, cut at every byte, and with every number replaced by others. */
static void list_and_damaged(const uint8_t *bytes, size_t length, const char *input)
{
    static const uint32_t others[] = {0,   1,   4,    7,   9,          10,         12,        256,
                                      257, 260, 4096, 266, 0x7fffffff, 0x80000000, 0xffffffff};
    static uint8_t changed[BYTES_ROOM];
    list(bytes, length, input);
    if (given.answer.error == 0)
        written_back(input);
    behind_another(bytes, length, input);
    size_t step = length < 300 ? 1 : 61;
    for (size_t there = 0; there < length; there += step)
        list(bytes, there, input);
    memcpy(changed, bytes, length);
    for (size_t at = 0; at + 4 <= length; at += length < 300 ? 4 : 244) {
        for (size_t other = 0; other < sizeof others / sizeof others[0]; other++) {
            put_words(changed + at, &others[other], 1);
            list(changed, length, input);
        }
        memcpy(changed + at, bytes + at, 4);
    }
}

/* One element behind its code, if it is to have one; answers its size. */
static size_t put_element(uint8_t *at, uint32_t kind, bool with_code, uint32_t length)
{
    uint32_t words[3] = {kind, length, 0};
    size_t code = with_code ? 4 : 0;
    put_words(at, words, with_code ? 1 : 0);
    at += code;
    switch (kind) {
    case 10:
        put_words(at, words, 2);
        return code + 8;
    case 4:
        words[1] = length + 1;
        put_words(at, words + 1, 1);
        memset(at + 4, 'a', length);
        at[4 + length] = 0;
        return code + 4 + length + 1;
    case 12:
        put_words(at, words + 1, 1);
        memset(at + 4, 0, length);
        return code + 4 + length;
    default:
        put_words(at, words + 1, 1);
        return code + 4;
    }
}

/* Lists in each other to this depth; the innermost is typed, or has a vocabulary word
 * first, and as many elements of a kind as `limit` bytes allow. */
static size_t nested(uint8_t *bytes, unsigned depth, uint32_t kind, bool typed, uint32_t length,
                     size_t limit)
{
    size_t at = 0;
    for (unsigned level = 1; level < depth; level++, at += 8)
        put_words(bytes + at, (uint32_t[]){256, 1}, 2);
    size_t inner = at;
    uint32_t count = 0;
    at += 8;
    if (!typed) {
        at += put_element(bytes + at, kind == 9 ? 1 : 9, true, 'a');
        count++;
    }
    size_t size = put_element(bytes + at, kind, !typed, length);
    do {
        at += put_element(bytes + at, kind, !typed, length);
        count++;
    } while (at + size <= limit);
    put_words(bytes + inner, (uint32_t[]){typed ? 256 + kind : 256, count}, 2);
    return at;
}

static void all_lists(void)
{
    static const uint32_t kinds[] = {1, 9, 10, 4, 12};
    static const uint32_t lengths[] = {0, 1, 3, 7, 15, 16, 31, 33, 64, 100, 1000, 3900};
    static const size_t limits[] = {0, 200, LIST_LIMIT};
    static uint8_t bytes[BYTES_ROOM];
    for (size_t at = 0; at < list_case_count; at++) {
        size_t length;
        uint8_t *whole = list_bytes(&list_cases[at], &length);
        list_and_damaged(whole, length, list_cases[at].name);
        free(whole);
    }
    for (unsigned depth = 1; depth <= 9; depth++)
        for (size_t kind = 0; kind < 5; kind++)
            for (int typed = 0; typed < 2; typed++)
                for (size_t at = 0; at < sizeof lengths / sizeof lengths[0]; at++)
                    for (size_t limit = 0; limit < 3; limit++) {
                        if (kinds[kind] != 4 && kinds[kind] != 12 && at > 0)
                            continue;
                        uint32_t content = kinds[kind] == 9 ? 'a' : lengths[at];
                        size_t length =
                            nested(bytes, depth, kinds[kind], typed, content, limits[limit]);
                        list_and_damaged(bytes, length,
                                         depth == 9   ? "nine nested lists"
                                         : depth == 8 ? "eight nested lists"
                                                      : "fewer nested lists");
                    }
}

/* Full lists of entries whose keys have all lengths up to this one, whole and cut. */
static void all_settings(void)
{
    static uint8_t bytes[BYTES_ROOM];
    for (uint32_t longest = 0; longest < 60; longest++) {
        uint32_t count = 0;
        size_t at = 8;
        while (at + 18 + 2 * longest <= LIST_LIMIT) {
            put_words(bytes + at, (uint32_t[]){260, 2}, 2);
            at += 8;
            at += put_element(bytes + at, 4, false, longest - count % (longest + 1));
            at += put_element(bytes + at, 4, false, longest);
            count++;
        }
        put_words(bytes, (uint32_t[]){256, count}, 2);
        for (size_t there = at % 61; there <= at; there += 61) {
            setting(bytes, there, "a list of entries");
            /* The last key is in neither of two such lists. */
            check(given.answer.error == (there < at ? 21 : 33), "setting", "a list of entries");
        }
    }
}

/* Rows of lists in each other, more of them than may be. */
static void deep_rows(void)
{
    static uint8_t rows[ROWS_ROOM];
    for (size_t depth = 1; depth <= ROWS_ROOM / ROW_BYTES; depth += depth < 12 ? 1 : 101) {
        for (size_t row = 0; row < depth; row++)
            put_words(rows + ROW_BYTES * row, (uint32_t[]){256, row + 1 < depth, 0}, 3);
        encode(rows, ROW_BYTES * depth, NULL, 0, "rows of nested lists");
    }
}

/* Brackets in each other, far more of them than may be, and one of them lost. */
static void deep_texts(void)
{
    enum { DEEPEST = 100000 };
    static uint8_t brackets[2 * DEEPEST];
    for (size_t depth = 1; depth <= DEEPEST; depth *= depth < 8 ? 2 : 5) {
        memset(brackets, '(', depth);
        memset(brackets + depth, ')', depth);
        text(brackets, 2 * depth, "nested brackets");
        check(given.answer.error == (depth < 8 ? 0 : 27), "text", "nested brackets");
        text(brackets, 2 * depth - 1, "nested brackets, one lost");
        check(given.answer.error == 32, "text", "nested brackets, one lost");
    }
}

/* Every type and payload length, whole, cut at every byte, and with each byte changed. */
static void all_packets(void)
{
    uint8_t payload[PAYLOAD_LIMIT];
    uint8_t bytes[CINDER_PACKET_ROOM + 1];
    for (uint8_t type = 0; type <= 6; type++)
        for (size_t length = 0; length <= sizeof payload; length += type == 5 ? 1 : 5) {
            for (size_t at = 0; at < length; at++)
                payload[at] = type % 2 == 0 ? 0 : (uint8_t)(at % 5);
            size_t size = packet_with(type, payload, length, bytes);
            for (size_t there = 0; there <= size; there++) {
                packet(bytes, there, CINDER_PACKET_ROOM, "packet");
                line(bytes, size, there, "packet");
            }
            for (size_t at = 0; at < size; at++) {
                uint8_t old = bytes[at];
                bytes[at] ^= 1;
                packet(bytes, size, CINDER_PACKET_ROOM, "packet with a byte changed");
                line(bytes, size, size - at, "packet with a byte changed");
                bytes[at] = 0;
                packet(bytes, size, CINDER_PACKET_ROOM, "packet with a byte 0");
                line(bytes, size, size - at, "packet with a byte 0");
                bytes[at] = old;
            }
            given.call = PACKET_ENCODE;
            given.bytes = payload;
            given.length = length;
            given.number = type;
            measure("type and payload");
            given.number = type + UINT64_C(256);
            measure("type above a byte");
            given.number = type;
            given.first_room = CINDER_PACKET_ROOM - 1;
            measure("buffer too small");
        }
}

/* Noise, many 00s, and areas that are no line state. */
static void all_noise(void)
{
    static uint8_t bytes[BYTES_ROOM];
    line(bytes, 100, 50, "many 00s");
    memset(bytes, 7, sizeof bytes);
    line(bytes, sizeof bytes, 1, "noise");
    for (size_t at = 0; at < CINDER_LINE_ROOM; at++) {
        memset(given.line, 0, sizeof given.line);
        given.line[at] = 0xff;
        scrap(bytes, 1, "no line state");
        check(given.answer.error == 9, "line", "no line state");
    }
}

enum { TABLES = 4, TYPES = 32, PARAMETERS = 32 };

/* So many types, each with 32 readable parameters of the kinds in turn. */
static size_t put_catalogue(uint8_t *catalogue, unsigned types)
{
    size_t at = 1;
    catalogue[0] = (uint8_t)types;
    for (unsigned type = 0; type < types; type++, at += 2) {
        catalogue[at] = (uint8_t)(type + 1);
        catalogue[at + 1] = PARAMETERS;
    }
    catalogue[at++] = (uint8_t)(types * PARAMETERS);
    catalogue[at++] = (uint8_t)(types * PARAMETERS >> 8);
    for (unsigned index = 0; index < types * PARAMETERS; index++)
        catalogue[at++] = (uint8_t)(4 + index % PARAMETERS % 3);
    return at;
}

/* The hub's calls from each socket, with this packet, on copies of the table. */
static void hub_calls(const uint8_t *table, const uint8_t *bytes, size_t length,
                      const char *input)
{
    static uint8_t changed[CINDER_TABLE_ROOM];
    given.table = changed;
    given.bytes = bytes;
    given.length = length;
    given.first_room = CINDER_LIST_ROOM;
    for (given.number = 0; given.number <= 8; given.number++) {
        for (given.index = 0; given.index <= PARAMETERS; given.index += 8) {
            memcpy(changed, table, sizeof changed);
            given.call = HUB_READ;
            measure(input);
        }
        given.call = HUB_RECEIVE;
        measure(input);
        given.call = HUB_PUBLISH;
        measure(input);
        given.call = HUB_DETACH;
        measure(input);
    }
    given.call = HUB_PUBLISH;
    given.first_room = CINDER_LIST_ROOM - 1;
    measure("list area too small");
}

/* A data packet for all 32 parameters, as a device of this year sends them. */
static size_t put_data(uint8_t *bytes, uint8_t year)
{
    const size_t widths[] = {year < LONG_INT_YEAR ? 2 : 4, 4, 1};
    uint8_t payload[132] = {0xff, 0xff, 0xff, 0xff};
    size_t at = 4;
    for (unsigned index = 0; index < PARAMETERS; index++) {
        if (index % 3 == 2)
            payload[at] = 1;
        else
            put_words(payload + at, (uint32_t[]){0x7f800001 + index}, 1);
        at += widths[index % 3];
    }
    return packet_with(DEVICE_DATA, payload, at, bytes);
}

/* An ACK, and the data of a device with long INTs and of one with short ones. */
enum { AN_ACK, LONG_INTS, SHORT_INTS, TELLING };

static const char *const telling_names[] = {"an ACK", "32 values", "32 values, short ints"};

static size_t put_telling(uint8_t *bytes, int which, uint8_t device_type)
{
    uint8_t payload[10] = {device_type, LONG_INT_YEAR, 99};
    if (which == AN_ACK)
        return packet_with(ACK, payload, sizeof payload, bytes);
    return put_data(bytes, which == LONG_INTS ? LONG_INT_YEAR : LONG_INT_YEAR - 1);
}

/* The table that so many devices make, with long INTs and with short ones in turn. */
static void fill(uint8_t *table, unsigned devices)
{
    uint8_t bytes[CINDER_PACKET_ROOM];
    given.call = HUB_RECEIVE;
    given.table = table;
    given.bytes = bytes;
    for (unsigned at = 0; at < devices; at++) {
        uint8_t year = LONG_INT_YEAR - at % 2;
        uint8_t payload[10] = {(uint8_t)(at + 1), year, (uint8_t)at};
        given.number = 2 * at;
        given.length = packet_with(ACK, payload, sizeof payload, bytes);
        measure("an ACK");
        check(given.answer.error == 0, "hub", "an ACK");
        given.length = put_data(bytes, year);
        measure("32 values");
        check(given.answer.error == 0, "hub", "32 values");
    }
}

/* Empty, half full, full and unlawful tables; packets of every type, those for the hub also
 * cut at every byte and with each byte changed; few types and many, and no catalogue. */
static void all_hub_calls(void)
{
    static uint8_t catalogue[3 + TYPES * (2 + PARAMETERS)];
    static uint8_t tables[TABLES][CINDER_TABLE_ROOM];
    uint8_t bytes[CINDER_PACKET_ROOM];
    given.catalogue = catalogue;
    for (unsigned types = 4; types <= TYPES; types += TYPES - 4) {
        given.catalogue_length = put_catalogue(catalogue, types);
        memset(tables, 0, sizeof tables);
        fill(tables[1], 2);
        fill(tables[2], 4);
        fill(tables[3], 4);
        tables[3][CINDER_TABLE_ROOM - 1] = 0xff;
        for (int table = 0; table < TABLES; table++) {
            for (uint8_t type = 0; type <= 6; type++)
                for (size_t length = 0; length <= 140; length += 10) {
                    uint8_t payload[140];
                    put_payload(payload, length);
                    size_t size = packet_with(type, payload, length, bytes);
                    hub_calls(tables[table], bytes, size, "packet");
                }
            for (int which = 0; which < TELLING; which++) {
                size_t size = put_telling(bytes, which, (uint8_t)types);
                for (size_t at = 0; at <= size; at++) {
                    hub_calls(tables[table], bytes, at, telling_names[which]);
                    bytes[at == size ? 0 : at] ^= 1;
                    hub_calls(tables[table], bytes, size, "packet with a byte changed");
                    bytes[at == size ? 0 : at] ^= 1;
                }
            }
        }
    }
    given.catalogue_length--;
    hub_calls(tables[2], bytes, 0, "catalogue cut short");
}

int main(void)
{
    too_small();
    all_packets();
    all_noise();
    all_lists();
    all_settings();
    deep_rows();
    deep_texts();
    all_hub_calls();
    printf("%-22s %8s %9s  %s\n", "call", "measured", "calls", "deepest with");
    for (int call = 0; call < CALLS; call++) {
        check(deepest[call].calls > 0, call_names[call], "measured");
        printf("%-22s %8zu %9lu  %s, error %u\n", call_names[call], deepest[call].bytes,
               deepest[call].calls, deepest[call].input, (unsigned)deepest[call].error);
    }
    return finish();
}
