/* A line as it arrives: every byte in every phase, a line with all findings cut at every place,
 * packets of every type and payload length, a 00 at every place of a part, areas that are no
 * line state, areas of every size, and the packets found handed to the hub. */

#include "checks.h"
#include "cinder.h"
#include "packets.h"

#include <stdlib.h>
#include <string.h>

enum { LINE = CINDER_LINE_ROOM };
enum { FRESH, SKIPPING, LENGTH, INSIDE };
enum { MORE_WANTED, A_PACKET, A_REFUSAL };

#define COUNT(array) (sizeof(array) / sizeof((array)[0]))

/* Bytes and how many; the zero that closes a literal is none of them. */
struct bytes {
    const uint8_t *at;
    size_t length;
};

#define BYTES(literal) {(const uint8_t *)(literal), sizeof(literal) - 1}

static const struct bytes nothing = {NULL, 0};
static const struct bytes ping = BYTES("\0\4\2\1\2\1");

struct state {
    uint8_t bytes[LINE];
};

static struct state in_phase(uint8_t phase)
{
    return (struct state){{phase}};
}

/* Inside the packet of which so many bytes have come, 00 and length byte among them. */
static struct state inside(const uint8_t *packet, size_t come)
{
    struct state state = {{INSIDE, (uint8_t)(come - 2)}};
    memcpy(state.bytes + 2, packet, come);
    return state;
}

static cinder_line_result more_wanted(uint64_t consumed)
{
    return (cinder_line_result){MORE_WANTED, 0, consumed};
}

static cinder_line_result refusal(uint64_t error, uint64_t consumed)
{
    return (cinder_line_result){A_REFUSAL, error, consumed};
}

/* What a call owes: its answer, and what line and packet area hold afterwards. No packet leaves
 * its area as it was. */
struct owed {
    cinder_line_result answer;
    struct state line;
    struct bytes packet;
};

/* One call on this line, with a scrap and a packet area of exactly their lengths. */
static void push_onto(uint8_t *line, struct bytes scrap, size_t room, const struct owed *owed,
                      const char *name)
{
    uint8_t *bytes = copy_of(scrap.at, scrap.length);
    uint8_t *packet = new_buffer(room);
    cinder_line_result answer = cinder_line_push(line, LINE, bytes, scrap.length, packet, room);
    check(answer.found == owed->answer.found, name, "found");
    check(answer.error == owed->answer.error, name, "error");
    check(answer.consumed == owed->answer.consumed, name, "consumed");
    check(memcmp(line, owed->line.bytes, LINE) == 0, name, "line");
    check(holds(packet, room, owed->packet.at, owed->packet.length), name, "packet");
    check(holds(bytes, scrap.length, scrap.at, scrap.length), name, "scrap");
    free(packet);
    free(bytes);
}

static void push_into(const struct state *line, struct bytes scrap, size_t room,
                      const struct owed *owed, const char *name)
{
    uint8_t *given = copy_of(line->bytes, LINE);
    push_onto(given, scrap, room, owed, name);
    free(given);
}

static void push(const struct state *line, struct bytes scrap, const struct owed *owed,
                 const char *name)
{
    push_into(line, scrap, PACKET_ROOM, owed, name);
}

/* The answer to one byte where it is no last byte of a packet, and the state behind it. */
static struct owed owed_for(const struct state *line, uint8_t byte)
{
    uint8_t phase = line->bytes[0];
    struct owed owed = {.answer = more_wanted(1), .line = in_phase(LENGTH)};
    if (phase <= SKIPPING && byte != 0) {
        if (phase == FRESH)
            owed.answer = refusal(2, 1);
        owed.line = in_phase(SKIPPING);
    } else if (phase == LENGTH && byte <= 3) {
        owed.answer = refusal(3, 1);
        owed.line = in_phase(byte == 0 ? LENGTH : SKIPPING);
    } else if (phase == LENGTH) {
        owed.line = inside((const uint8_t[]){0, byte}, 2);
    } else if (phase == INSIDE && byte == 0) {
        owed.answer = refusal(4, 1);
    } else if (phase == INSIDE) {
        owed.line = *line;
        owed.line.bytes[4 + owed.line.bytes[1]++] = byte;
    }
    return owed;
}

/* Every byte in every phase, alone and, where it decides, with bytes behind it. */
static void check_each_byte(void)
{
    const uint8_t part[] = {0, 8, 1, 2, 3, 4, 5, 6};
    const struct state states[] = {in_phase(FRESH),  in_phase(SKIPPING), in_phase(LENGTH),
                                   inside(part, 2), inside(part, 3),    inside(part, 8)};
    for (size_t at = 0; at < COUNT(states); at++)
        for (unsigned byte = 0; byte < 256; byte++) {
            const uint8_t scrap[] = {(uint8_t)byte, 0, 4, 9};
            struct owed owed = owed_for(&states[at], (uint8_t)byte);
            push(&states[at], (struct bytes){scrap, 1}, &owed, "one byte");
            for (size_t length = 2; length <= sizeof scrap; length++)
                if (owed.answer.found != MORE_WANTED)
                    push(&states[at], (struct bytes){scrap, length}, &owed, "bytes behind it");
        }
}

/* A piece of a line: noise, or a packet from its 00 on, whole or cut short by the next piece. */
struct piece {
    struct bytes bytes;
    /* What its first and its last byte give: nothing, a good packet, or the error. */
    uint64_t first, last;
};

enum { NOTHING = 0, GOOD = 256 };

static const struct piece pieces[] = {
    /* One 2 for the stretch at the start; a 00 behind a 00. */
    {BYTES("\7\11\377"), 2, NOTHING},
    {BYTES("\0"), NOTHING, NOTHING},
    {BYTES("\0"), 3, NOTHING},
    {BYTES("\0\4\2\1\2\1"), 3, GOOD},
    {BYTES("\0\16\16\2\12\7\6\1\2\3\4\5\6\7\10\1"), NOTHING, GOOD},
    /* Another behind a good packet; lengths 1 to 3, and stretches behind them. */
    {BYTES("\1\1"), 2, NOTHING},
    {BYTES("\0\3"), NOTHING, 3},
    {BYTES("\2\1\2\1"), NOTHING, NOTHING},
    {BYTES("\0\2"), NOTHING, 3},
    {BYTES("\0\1"), NOTHING, 3},
    {BYTES("\4\2\1\2\1"), NOTHING, NOTHING},
    /* Packets cut short by a 00: after length byte, within the part, before its last byte. */
    {BYTES("\0\4"), NOTHING, NOTHING},
    {BYTES("\0\15\4\4\11\5"), 4, NOTHING},
    {BYTES("\0\4\2\1\2"), 4, NOTHING},
    {BYTES("\0\15\4\4\11\5\1\1\2\7\1\1\3\1\16"), 4, GOOD},
    /* 5 to 8, two of each but 7; what follows them is skipped or a packet. */
    {BYTES("\0\4\11\1\1\1"), NOTHING, 5},
    {BYTES("\0\4\2\1\3\1"), NOTHING, 5},
    {BYTES("\1\4\2\1"), NOTHING, NOTHING},
    {BYTES("\0\4\4\6\1\11"), NOTHING, 6},
    {BYTES("\377"), NOTHING, NOTHING},
    {BYTES("\0\4\2\6\2\11"), NOTHING, 7},
    {BYTES("\0\4\2\1\2\1"), NOTHING, GOOD},
    {BYTES("\0\4\2\6\2\6"), NOTHING, 8},
    {BYTES("\0\5\5\1\1\5\5"), NOTHING, 8},
    {BYTES("\0\4\2\5\2\5"), NOTHING, GOOD},
    {BYTES("\0\4\2\1\2\1"), NOTHING, GOOD},
    /* Each refusal straight behind a good packet, where the line is fresh. */
    {BYTES("\0\3"), NOTHING, 3},
    {BYTES("\0\4\2\1\2\1"), NOTHING, GOOD},
    {BYTES("\0\1"), NOTHING, 3},
    {BYTES("\0\4\2\1\2\1"), NOTHING, GOOD},
    {BYTES("\0"), NOTHING, NOTHING},
    {BYTES("\0\4\2\1\2\1"), 3, GOOD},
    {BYTES("\0\4"), NOTHING, NOTHING},
    {BYTES("\0\4\2\1\2\1"), 4, GOOD},
    {BYTES("\0\4\2\1\3\1"), NOTHING, 5},
    {BYTES("\0\4\2\1\2\1"), NOTHING, GOOD},
    {BYTES("\0\4\4\6\1\11"), NOTHING, 6},
    {BYTES("\0\4\2\1\2\1"), NOTHING, GOOD},
    {BYTES("\0\4\2\6\2\11"), NOTHING, 7},
    {BYTES("\0\4\2\1\2\1"), NOTHING, GOOD},
    {BYTES("\0\4\2\6\2\6"), NOTHING, 8},
    {BYTES("\0\4\2\1\2\1"), NOTHING, GOOD},
    /* A length byte that is not the packet's: what seems its end is none. */
    {BYTES("\0\5\2\1\2\1"), NOTHING, NOTHING},
    {BYTES("\0\4\2\1\2\1"), 4, GOOD},
    {BYTES("\1"), 2, NOTHING},
    {BYTES("\0\16\16\2\12\7"), NOTHING, NOTHING},
};

enum { WHOLE_LIMIT = 300 };

/* The pieces end to end. For each byte what it gives and where its piece begins; for each number
 * of bytes the state behind them. */
static struct {
    size_t length;
    uint8_t bytes[WHOLE_LIMIT];
    uint64_t gives[WHOLE_LIMIT];
    size_t begins[WHOLE_LIMIT];
    struct state behind[WHOLE_LIMIT + 1];
} whole;

/* The state behind the first bytes of a piece, at least one. */
static struct state behind(const struct piece *piece, size_t come)
{
    const uint8_t *bytes = piece->bytes.at;
    if (bytes[0] != 0)
        return in_phase(SKIPPING);
    if (come == 1)
        return in_phase(LENGTH);
    if (bytes[1] <= 3)
        return in_phase(SKIPPING);
    if (come < 2U + bytes[1])
        return inside(bytes, come);
    return in_phase(piece->last == GOOD ? FRESH : SKIPPING);
}

static void put_together(void)
{
    for (size_t at = 0; at < COUNT(pieces); at++) {
        size_t begins = whole.length;
        for (size_t come = 1; come <= pieces[at].bytes.length; come++) {
            whole.bytes[whole.length] = pieces[at].bytes.at[come - 1];
            whole.begins[whole.length] = begins;
            whole.behind[++whole.length] = behind(&pieces[at], come);
        }
        whole.gives[whole.length - 1] = pieces[at].last;
        if (pieces[at].first != NOTHING)
            whole.gives[begins] = pieces[at].first;
    }
}

/* What a call owes for the bytes of the whole line from one place to another. */
static struct owed owed_between(size_t from, size_t to)
{
    size_t end = from;
    while (end < to && whole.gives[end] == NOTHING)
        end++;
    if (end == to)
        return (struct owed){more_wanted(to - from), whole.behind[to], nothing};
    uint64_t gives = whole.gives[end];
    struct owed owed = {refusal(gives, end + 1 - from), whole.behind[end + 1], nothing};
    if (gives == GOOD) {
        size_t begins = whole.begins[end];
        owed.answer = (cinder_line_result){A_PACKET, 0, end + 1 - from};
        owed.packet = (struct bytes){whole.bytes + begins, end + 1 - begins};
    }
    return owed;
}

/* A scrap from every place to every other. */
static void check_cuts(void)
{
    for (size_t from = 0; from <= whole.length; from++)
        for (size_t to = from; to <= whole.length; to++) {
            struct owed owed = owed_between(from, to);
            push(&whole.behind[from], (struct bytes){whole.bytes + from, to - from}, &owed,
                 "a line cut at every place");
        }
}

/* The whole line on one line area, in scraps of this size with empty ones between them. The rest
 * of a scrap is handed in alone, or with the bytes that follow. */
static void feed(size_t size, int alone)
{
    const char *name = alone ? "a line in scraps" : "a line in scraps, rests with what follows";
    uint8_t *line = copy_of(whole.behind[0].bytes, LINE);
    size_t findings = 0, at = 0, to = 0;
    while (at < whole.length) {
        if (at == to || !alone)
            to = at + size < whole.length ? at + size : whole.length;
        struct owed owed = owed_between(at, to), still = owed_between(at, at);
        push_onto(line, nothing, PACKET_ROOM, &still, name);
        push_onto(line, (struct bytes){whole.bytes + at, to - at}, PACKET_ROOM, &owed, name);
        findings += owed.answer.found != MORE_WANTED;
        at += owed.answer.consumed;
    }
    check(findings == 41, name, "findings");
    free(line);
}

static void check_scraps(void)
{
    for (size_t size = 1; size <= whole.length; size++) {
        feed(size, 0);
        feed(size, 1);
    }
}

/* A packet in two scraps, and what its last byte gives; fresh before it or skipping. */
static void packet_in_two(const uint8_t *packet, size_t length, size_t cut, uint64_t error)
{
    const char *name = "every type and payload length";
    struct state start = in_phase(cut % 2 == 0 ? FRESH : SKIPPING);
    struct owed first = {more_wanted(cut), start, nothing};
    struct owed second = {refusal(error, length - cut), in_phase(SKIPPING), nothing};
    if (cut > 0)
        first.line = cut == 1 ? in_phase(LENGTH) : inside(packet, cut);
    if (error == 0)
        second = (struct owed){{A_PACKET, 0, length - cut}, in_phase(FRESH), {packet, length}};
    uint8_t *line = copy_of(start.bytes, LINE);
    push_onto(line, (struct bytes){packet, cut}, PACKET_ROOM, &first, name);
    push_onto(line, (struct bytes){packet + cut, length - cut}, PACKET_ROOM, &second, name);
    free(line);
}

/* Every type and payload length, whole and without the last byte, the longest cut at every
 * place; then with another checksum. */
static void check_types_and_lengths(void)
{
    for (uint8_t type = 0; type <= 6; type++)
        for (size_t length = 0; length <= PAYLOAD_LIMIT; length++) {
            uint8_t payload[PAYLOAD_LIMIT];
            uint8_t message[PACKET_ROOM];
            uint8_t packet[PACKET_ROOM];
            put_payload(payload, length);
            size_t message_length = message_with(type, payload, length, message);
            size_t size = packet_of(message, message_length, packet);
            uint64_t error = payload_allowed(type, length) ? 0 : 8;
            size_t step = length == PAYLOAD_LIMIT ? 1 : size - 1;
            for (size_t cut = 0; cut < size; cut += step)
                packet_in_two(packet, size, cut, error);
            message[message_length - 1] ^= 0x80;
            packet_of(message, message_length, packet);
            packet_in_two(packet, size, 0, 7);
            packet_in_two(packet, size, size / 2, 7);
        }
}

/* LOG with 251 bytes of 11: one block of code 255, which is the whole part. */
static void check_whole_block(void)
{
    uint8_t payload[PAYLOAD_LIMIT];
    uint8_t packet[PACKET_ROOM];
    memset(payload, 11, PAYLOAD_LIMIT);
    size_t length = packet_with(LOG, payload, PAYLOAD_LIMIT, packet);
    check(length == PACKET_ROOM && packet[2] == 255, "one block of code 255", "packet");
    for (size_t cut = 0; cut < length; cut++)
        packet_in_two(packet, length, cut, 0);
}

/* A 00 at every place of a long part. It starts a packet, which is found. */
static void check_zero_in_part(void)
{
    const char *name = "a 00 in a part";
    uint8_t bytes[PACKET_ROOM + 6];
    const struct state fresh = in_phase(FRESH);
    struct owed owed = {.line = in_phase(LENGTH)};
    struct owed found = {{A_PACKET, 0, ping.length - 1}, fresh, ping};
    memset(bytes, 7, sizeof bytes);
    bytes[0] = 0;
    bytes[1] = 255;
    for (size_t at = 2; at < PACKET_ROOM; at++) {
        uint8_t *line = copy_of(fresh.bytes, LINE);
        memcpy(bytes + at, ping.at, ping.length);
        owed.answer = refusal(4, at + 1);
        push_onto(line, (struct bytes){bytes, at + ping.length}, PACKET_ROOM, &owed, name);
        push_onto(line, (struct bytes){ping.at + 1, ping.length - 1}, PACKET_ROOM, &found, name);
        free(line);
        const struct state before = inside(bytes, at);
        owed.answer = refusal(4, 1);
        push(&before, ping, &owed, name);
        memset(bytes + at, 7, ping.length);
    }
}

/* Bytes without a 00, many of them: one 2 on a fresh line, nothing while it skips. */
static void check_noise(void)
{
    uint8_t noise[1024];
    const struct state fresh = in_phase(FRESH), skipping = in_phase(SKIPPING);
    struct owed owed = {refusal(2, 1), skipping, nothing};
    for (size_t at = 0; at < sizeof noise; at++)
        noise[at] = (uint8_t)(at % 255 + 1);
    push(&fresh, (struct bytes){noise, sizeof noise}, &owed, "noise");
    for (size_t length = 0; length <= sizeof noise; length += length < 80 ? 1 : 59) {
        owed.answer = more_wanted(length);
        push(&skipping, (struct bytes){noise, length}, &owed, "noise, skipped");
    }
    for (size_t at = 0; at < 80; at++) {
        uint8_t byte = noise[at];
        noise[at] = 0;
        noise[at + 1] = 1;
        owed.answer = refusal(3, at + 2);
        push(&skipping, (struct bytes){noise, sizeof noise}, &owed, "a 00 in noise");
        noise[at] = byte;
    }
}

/* Whether these bytes are a line state. */
static int is_state(const uint8_t *line)
{
    size_t held = line[1], zeros = 1;
    if (line[0] > INSIDE)
        return 0;
    if (line[0] == INSIDE) {
        if (line[2] != 0 || line[3] < 4 || held >= line[3])
            return 0;
        for (size_t at = 4; at < 4 + held; at++)
            if (line[at] == 0)
                return 0;
        zeros = 4 + held;
    }
    for (size_t at = zeros; at < LINE; at++)
        if (line[at] != 0)
            return 0;
    return 1;
}

/* 9 for no line state, whatever the scrap is, and 20 before it. */
static int judge(const struct state *line)
{
    static const size_t small[] = {0, PACKET_ROOM - 1};
    int lawful = is_state(line->bytes);
    struct owed owed = {more_wanted(0), *line, nothing};
    if (!lawful) {
        owed.answer = refusal(9, 0);
        push(line, ping, &owed, "no line state");
    }
    push(line, nothing, &owed, "a state with a byte changed");
    owed.answer = refusal(20, 0);
    for (size_t at = 0; at < COUNT(small); at++)
        push_into(line, ping, small[at], &owed, "packet area too small");
    return lawful;
}

/* Each byte of a state replaced by others, the first four by all. */
static void change_bytes(struct state state, size_t *accepted, size_t *refused)
{
    for (size_t at = 0; at < LINE; at++) {
        uint8_t old = state.bytes[at];
        unsigned step = at < 4 ? 1 : at < 20 || at > LINE - 3 ? 51 : 255;
        for (unsigned byte = 0; byte < 256; byte += step) {
            state.bytes[at] = (uint8_t)byte;
            ++*(judge(&state) ? accepted : refused);
        }
        state.bytes[at] = old;
    }
}

static void check_states(void)
{
    uint8_t packet[PACKET_ROOM];
    size_t accepted = 0, refused = 0;
    memset(packet, 9, sizeof packet);
    packet[0] = 0;
    for (uint8_t phase = FRESH; phase <= INSIDE; phase++)
        change_bytes(in_phase(phase), &accepted, &refused);
    packet[1] = 4;
    for (size_t come = 2; come < 6; come++)
        change_bytes(inside(packet, come), &accepted, &refused);
    packet[1] = 14;
    change_bytes(inside(packet, 9), &accepted, &refused);
    packet[1] = 255;
    change_bytes(inside(packet, 130), &accepted, &refused);
    change_bytes(inside(packet, 256), &accepted, &refused);
    check(accepted > 0 && refused > 0, "line states", "both kinds");
}

/* Line areas of other lengths hold no line state, also where all their bytes are zeros. */
static void check_lengths(void)
{
    static const size_t lengths[] = {0, 1, 4, 257, LINE - 1, LINE + 1, LINE + 5, 2 * LINE};
    static const uint8_t zeros[2 * LINE];
    for (size_t at = 0; at < COUNT(lengths); at++)
        for (size_t room = PACKET_ROOM - 1; room <= PACKET_ROOM; room++) {
            uint8_t *line = copy_of(zeros, lengths[at]);
            uint8_t *packet = new_buffer(room);
            cinder_line_result answer =
                cinder_line_push(line, lengths[at], ping.at, ping.length, packet, room);
            check(answer.found == A_REFUSAL && answer.consumed == 0, "line length", "answer");
            check(answer.error == (room < PACKET_ROOM ? 20 : 9), "line length", "error");
            check(holds(line, lengths[at], zeros, lengths[at]), "line length", "line");
            check(holds(packet, room, NULL, 0), "line length", "packet");
            free(packet);
            free(line);
        }
}

/* Packet areas of every size, with more wanted, a packet, and a refusal. */
static void check_rooms(void)
{
    static const size_t rooms[] = {0, 1, 6, PACKET_ROOM - 1, PACKET_ROOM, PACKET_ROOM + 1, 300};
    static const struct bytes wrong = BYTES("\0\4\2\1\2\2");
    const struct state fresh = in_phase(FRESH), skipping = in_phase(SKIPPING);
    for (size_t at = 0; at < COUNT(rooms); at++) {
        const char *name = "packet areas";
        struct owed more = {more_wanted(5), inside(ping.at, 5), nothing};
        struct owed good = {{A_PACKET, 0, ping.length}, fresh, ping};
        struct owed refused = {refusal(7, wrong.length), skipping, nothing};
        struct owed still = {more_wanted(0), fresh, nothing};
        if (rooms[at] < PACKET_ROOM)
            more = good = refused = still = (struct owed){refusal(20, 0), fresh, nothing};
        push_into(&fresh, (struct bytes){ping.at, 5}, rooms[at], &more, name);
        push_into(&fresh, ping, rooms[at], &good, name);
        push_into(&fresh, wrong, rooms[at], &refused, name);
        push_into(&fresh, nothing, rooms[at], &still, name);
    }
}

/* "A pointer with length 0 may be null." */
static void check_null(void)
{
    uint8_t *packet = new_buffer(PACKET_ROOM);
    cinder_line_result answer = cinder_line_push(NULL, 0, NULL, 0, NULL, 0);
    check(answer.found == A_REFUSAL && answer.error == 20 && answer.consumed == 0, "null areas",
          "answer");
    answer = cinder_line_push(NULL, 0, NULL, 0, packet, PACKET_ROOM);
    check(answer.found == A_REFUSAL && answer.error == 9 && answer.consumed == 0, "null line",
          "answer");
    check(holds(packet, PACKET_ROOM, NULL, 0), "null line", "packet");
    for (size_t at = 0; at <= whole.length; at++) {
        uint8_t *line = copy_of(whole.behind[at].bytes, LINE);
        answer = cinder_line_push(line, LINE, NULL, 0, packet, PACKET_ROOM);
        check(answer.found == MORE_WANTED && answer.error == 0 && answer.consumed == 0,
              "null scrap", "answer");
        check(memcmp(line, whole.behind[at].bytes, LINE) == 0, "null scrap", "line");
        check(holds(packet, PACKET_ROOM, NULL, 0), "null scrap", "packet");
        free(line);
    }
    free(packet);
}

/* The hub of two sockets: a line state for each, one table. */
struct hub {
    uint8_t *lines[2];
    uint8_t *table;
    uint8_t *packet;
};

/* Hands a scrap in until it is taken. The hub must receive each packet found; answers how many. */
static unsigned arrive(struct hub *hub, unsigned socket, struct bytes scrap)
{
    static const uint8_t catalogue[] = {0x01, 0x07, 0x03, 0x03, 0x00, 0x04, 0x09, 0x06};
    unsigned packets = 0;
    while (scrap.length > 0) {
        cinder_line_result found = cinder_line_push(hub->lines[socket], LINE, scrap.at,
                                                    scrap.length, hub->packet, PACKET_ROOM);
        check(found.consumed > 0 && found.consumed <= scrap.length, "two sockets", "consumed");
        if (found.consumed == 0 || found.consumed > scrap.length)
            return packets;
        scrap.at += found.consumed;
        scrap.length -= found.consumed;
        if (found.found != A_PACKET)
            continue;
        size_t length = 2 + (size_t)hub->packet[1];
        /* The area itself is received, whatever is left behind the packet. */
        cinder_packet_result received =
            cinder_hub_receive(catalogue, sizeof catalogue, hub->table, CINDER_TABLE_ROOM, socket,
                               hub->packet, PACKET_ROOM);
        check(received.error == 0 && received.consumed == length, "two sockets", "received");
        packets++;
    }
    return packets;
}

/* An ACK and data arrive at two sockets, byte after byte in turn and noise before them. */
static void check_received(void)
{
    static const uint8_t zeros[CINDER_TABLE_ROOM];
    static const struct bytes lines[2] = {
        BYTES("\5\0\16\16\2\12\7\6\1\2\3\4\5\6\7\10\1\0\15\4\4\11\5\1\1\2\7\1\1\3\1\16"),
        BYTES("\0\0\16\16\2\12\7\6\1\2\3\4\5\6\7\12\0\16\16\2\12\7\6\1\2\3\4\5\6\7\12\3")};
    unsigned packets[2] = {0, 0};
    struct hub hub = {{copy_of(zeros, LINE), copy_of(zeros, LINE)},
                      copy_of(zeros, CINDER_TABLE_ROOM),
                      new_buffer(PACKET_ROOM)};
    for (size_t at = 0; at < lines[0].length || at < lines[1].length; at++)
        for (unsigned socket = 0; socket < 2; socket++)
            if (at < lines[socket].length)
                packets[socket] += arrive(&hub, socket, (struct bytes){lines[socket].at + at, 1});
    check(packets[0] == 2 && packets[1] == 1, "two sockets", "packets");
    check(hub.table[0] == 1 && hub.table[1] == 0 && hub.table[44] == 7, "two sockets", "table");
    check(hub.table[172] == 1 && hub.table[173] == 1 && hub.table[183] == 10, "two sockets",
          "second row");
    free(hub.packet);
    free(hub.table);
    free(hub.lines[1]);
    free(hub.lines[0]);
}

int main(void)
{
    put_together();
    check_null();
    check_lengths();
    check_rooms();
    check_each_byte();
    check_cuts();
    check_scraps();
    check_types_and_lengths();
    check_whole_block();
    check_zero_in_part();
    check_noise();
    check_states();
    check_received();
    return finish();
}
