/* The hub firmware's use of the table: document 01's bench case, every error of each call
 * in the order in which errors are judged, tables that are none, INTs of both widths, and
 * areas of exact length. */

#include "checks.h"
#include "cinder.h"
#include "list_cases.h"
#include "packets.h"

#include <stdlib.h>
#include <string.h>

enum { TABLE = CINDER_TABLE_ROOM, SLOT = 172, YEAR = 3, PRESENT = 12, BITS = 44, PARAMETERS = 32 };

/* Type 7: INT readable, FLOAT writable, BOOL readable. */
static const uint8_t bench_catalogue[] = {0x01, 0x07, 0x03, 0x03, 0x00, 0x04, 0x09, 0x06};

/* A catalogue and a table, between calls. */
struct hub {
    const uint8_t *catalogue;
    size_t catalogue_length;
    uint8_t table[2 * TABLE];
    size_t table_length;
};

static struct hub new_hub(void)
{
    return (struct hub){bench_catalogue, sizeof bench_catalogue, {0}, TABLE};
}

struct packet {
    uint8_t bytes[PACKET_ROOM];
    size_t length;
};

static struct packet packet(uint8_t type, const void *payload, size_t length)
{
    struct packet packet;
    packet.length = packet_with(type, payload, length, packet.bytes);
    return packet;
}

static struct packet ack_of_year(uint8_t device_type, uint8_t year, uint8_t last_of_uid)
{
    uint8_t payload[10] = {device_type, year, 1, 2, 3, 4, 5, 6, 7, last_of_uid};
    return packet(ACK, payload, sizeof payload);
}

static struct packet ack(uint8_t device_type, uint8_t last_of_uid)
{
    return ack_of_year(device_type, LONG_INT_YEAR, last_of_uid);
}

static struct packet data(uint32_t map, const void *values, size_t length)
{
    uint8_t payload[132];
    put_words(payload, &map, 1);
    if (length > 0)
        memcpy(payload + 4, values, length);
    return packet(DEVICE_DATA, payload, 4 + length);
}

/* The areas of one call, each of exactly its length. */
struct lent {
    uint8_t *catalogue;
    uint8_t *table;
};

static struct lent lend(const struct hub *hub)
{
    return (struct lent){copy_of(hub->catalogue, hub->catalogue_length),
                         copy_of(hub->table, hub->table_length)};
}

/* The table must be what `wanted` says, or as it was; it is the hub's from here on. */
static void take_back(struct hub *hub, struct lent lent, const uint8_t *wanted, const char *name)
{
    check(hub->catalogue_length == 0 ||
              memcmp(lent.catalogue, hub->catalogue, hub->catalogue_length) == 0,
          name, "catalogue");
    if (hub->table_length > 0) {
        const uint8_t *owed = wanted == NULL ? hub->table : wanted;
        check(memcmp(lent.table, owed, hub->table_length) == 0, name, "table");
        memcpy(hub->table, lent.table, hub->table_length);
    }
    free(lent.table);
    free(lent.catalogue);
}

static void receive_bytes(struct hub *hub, uint64_t socket, const uint8_t *bytes, size_t length,
                          uint64_t error, const uint8_t *wanted, const char *name)
{
    struct lent lent = lend(hub);
    uint8_t *given = copy_of(bytes, length);
    cinder_packet_result answer =
        cinder_hub_receive(lent.catalogue, hub->catalogue_length, lent.table, hub->table_length,
                           socket, given, length);
    check(answer.error == error, name, "error");
    check(answer.consumed == (error == 0 ? length : 0), name, "consumed");
    free(given);
    take_back(hub, lent, wanted, name);
}

/* The table afterwards must be `wanted`, or as it was. */
static void receive(struct hub *hub, uint64_t socket, struct packet packet, uint64_t error,
                    const uint8_t *wanted, const char *name)
{
    receive_bytes(hub, socket, packet.bytes, packet.length, error, wanted, name);
}

static void detach(struct hub *hub, uint64_t socket, uint64_t error, const uint8_t *wanted,
                   const char *name)
{
    struct lent lent = lend(hub);
    uint64_t answer = cinder_hub_detach(lent.catalogue, hub->catalogue_length, lent.table,
                                        hub->table_length, socket);
    check(answer == error, name, "error");
    take_back(hub, lent, wanted, name);
}

static void read_value(struct hub *hub, uint64_t socket, uint64_t index,
                       cinder_value_result owed, const char *name)
{
    struct lent lent = lend(hub);
    cinder_value_result answer = cinder_hub_read(lent.catalogue, hub->catalogue_length, lent.table,
                                                 hub->table_length, socket, index);
    check(answer.error == owed.error, name, "error");
    check(answer.kind == owed.kind, name, "kind");
    check(answer.bits == owed.bits, name, "bits");
    take_back(hub, lent, NULL, name);
}

/* Publishes into a buffer of this size; on success it must be `wanted`. */
static void publish(struct hub *hub, size_t room, uint64_t error, const uint8_t *wanted,
                    size_t length, const char *name)
{
    struct lent lent = lend(hub);
    uint8_t *list = new_buffer(room);
    size_t written = error == 0 ? length : 0;
    cinder_write_result answer = cinder_hub_publish(lent.catalogue, hub->catalogue_length,
                                                    lent.table, hub->table_length, list, room);
    check(answer.error == error, name, "error");
    check(answer.written == written, name, "written");
    check(holds(list, room, wanted, written), name, "list buffer");
    free(list);
    take_back(hub, lent, NULL, name);
}

/* Every call refuses with this error whatever else is wrong, and leaves all as it was. */
static void all_refuse(struct hub *hub, uint64_t error, const char *name)
{
    receive_bytes(hub, 8, NULL, 0, error, NULL, name);
    receive(hub, 3, ack(8, 1), error, NULL, name);
    detach(hub, 8, error, NULL, name);
    read_value(hub, 8, 99, (cinder_value_result){.error = error}, name);
    publish(hub, 0, error, NULL, 0, name);
    publish(hub, CINDER_LIST_ROOM, error, NULL, 0, name);
}

/* ACK and DEVICE_DATA on socket 3, the list posted, values read, and the device gone. */
static void check_bench_case(void)
{
    static const uint32_t words[] = {256, 1, 256, 5, 1, 3, 1, 7, 12, 8, 0x04030201, 0x08070605,
                                     257, 2, 0, 7, 257, 2, 2, 1};
    static const uint8_t ack_bytes[] = {0x00, 0x0e, 0x0e, 0x02, 0x0a, 0x07, 0x06, 0x01,
                                        0x02, 0x03, 0x04, 0x05, 0x06, 0x07, 0x08, 0x01};
    static const uint8_t data_bytes[] = {0x00, 0x0d, 0x04, 0x04, 0x09, 0x05, 0x01, 0x01,
                                         0x02, 0x07, 0x01, 0x01, 0x03, 0x01, 0x0e};
    static const uint64_t absent[] = {1,   3,   31,  32, 33,
                                      255, 256, 258, UINT64_C(1) << 32, UINT64_MAX};
    struct hub hub = new_hub();
    uint8_t wanted[TABLE] = {1, 3, 7, 6, 1, 2, 3, 4, 5, 6, 7, 8};
    uint8_t list[sizeof words];
    put_words(list, words, sizeof words / sizeof words[0]);
    publish(&hub, CINDER_LIST_ROOM, 0, (const uint8_t *)"\0\1\0\0\0\0\0\0", 8, "empty table");
    receive_bytes(&hub, 3, ack_bytes, sizeof ack_bytes, 0, wanted, "ACK");
    wanted[PRESENT] = 1;
    wanted[PRESENT + 2] = 1;
    wanted[BITS] = 7;
    wanted[BITS + 8] = 1;
    receive_bytes(&hub, 3, data_bytes, sizeof data_bytes, 0, wanted, "DEVICE_DATA");
    for (size_t room = CINDER_LIST_ROOM; room <= CINDER_LIST_ROOM + 9; room += 9)
        publish(&hub, room, 0, list, 80, "posted list");
    publish(&hub, CINDER_LIST_ROOM - 1, 20, NULL, 0, "list area too small");
    publish(&hub, 80, 20, NULL, 0, "list area as long as the list");
    publish(&hub, 0, 20, NULL, 0, "no list area");
    read_value(&hub, 3, 0, (cinder_value_result){.kind = 1, .bits = 7}, "INT");
    read_value(&hub, 3, 2, (cinder_value_result){.kind = 3, .bits = 1}, "BOOL");
    for (size_t at = 0; at < sizeof absent / sizeof absent[0]; at++)
        read_value(&hub, 3, absent[at], (cinder_value_result){.error = 0}, "absent");
    receive(&hub, 3, packet(LOG, "warm", 4), 0, NULL, "LOG");
    memset(wanted, 0, sizeof wanted);
    detach(&hub, 3, 0, wanted, "leaving");
    detach(&hub, 3, 15, NULL, "leaving again");
    read_value(&hub, 3, 0, (cinder_value_result){.error = 15}, "nobody to read");
}

static void check_sockets(void)
{
    static const uint64_t above[] = {8,   9,   255, 256, 256 + 3,
                                     UINT64_C(1) << 32, (UINT64_C(1) << 32) + 3, UINT64_MAX};
    struct hub hub = new_hub();
    uint8_t wanted[TABLE] = {1, 3, 7, 6, 1, 2, 3, 4, 5, 6, 7, 8};
    receive(&hub, 3, ack(7, 8), 0, wanted, "ACK");
    for (size_t at = 0; at < sizeof above / sizeof above[0]; at++) {
        receive_bytes(&hub, above[at], NULL, 0, 10, NULL, "socket above 7");
        receive(&hub, above[at], ack(7, 8), 10, NULL, "socket above 7");
        receive(&hub, above[at], packet(LOG, "warm", 4), 10, NULL, "socket above 7");
        detach(&hub, above[at], 10, NULL, "socket above 7");
        read_value(&hub, above[at], 0, (cinder_value_result){.error = 10}, "socket above 7");
    }
}

/* The packet's own errors, then those of a PING, an ACK and data. */
static void check_order_of_receiving(void)
{
    static const struct {
        uint64_t error;
        size_t length;
        uint8_t bytes[7];
    } packets[] = {
        {1, 0, {0}},
        {2, 1, {1}},
        {1, 1, {0}},
        {3, 2, {0, 3}},
        {4, 4, {0, 4, 2, 0}},
        {1, 4, {0, 4, 2, 1}},
        {5, 6, {0, 4, 9, 1, 1, 1}},
        {6, 6, {0, 4, 4, 6, 1, 9}},
        {7, 6, {0, 4, 2, 6, 2, 9}},
        {8, 6, {0, 4, 2, 6, 2, 6}},
    };
    struct hub hub = new_hub();
    uint8_t wanted[TABLE] = {0};
    for (size_t at = 0; at < sizeof packets / sizeof packets[0]; at++)
        receive_bytes(&hub, 0, packets[at].bytes, packets[at].length, packets[at].error, NULL,
                      "errors of the packet");
    receive(&hub, 0, packet(PING, NULL, 0), 19, NULL, "PING");
    receive(&hub, 0, packet(DEVICE_WRITE, "\0\0\0\0", 4), 19, NULL, "DEVICE_WRITE");
    receive(&hub, 0, data(2, "\0", 1), 15, NULL, "data of nobody");
    for (uint8_t slot = 0; slot < 4; slot++) {
        uint8_t row[] = {1, (uint8_t)(7 - slot), 7, 6, 1, 2, 3, 4, 5, 6, 7, slot};
        memcpy(wanted + SLOT * slot, row, sizeof row);
        receive(&hub, (uint64_t)(7 - slot), ack(7, slot), 0, wanted, "slots in turn");
    }
    receive(&hub, 0, ack(8, 0), 12, NULL, "type not in the catalogue");
    receive(&hub, 0, ack(7, 0), 14, NULL, "UID seated elsewhere");
    receive(&hub, 0, ack(7, 9), 13, NULL, "no slot");
    receive(&hub, 6, ack(7, 0), 14, NULL, "another's UID");
    receive(&hub, 7, data(2, "\1\0\0\0\2\0", 6), 16, NULL, "parameter that is not readable");
    receive(&hub, 7, data(8, NULL, 0), 16, NULL, "parameter that is not there");
    receive(&hub, 7, data(0x80000005, "\1\0\0\0\2", 5), 16, NULL, "the last bit");
    receive(&hub, 7, data(5, "\1\0\0\0", 4), 17, NULL, "values too short");
    receive(&hub, 7, data(5, "\1\0\0\0\2\0", 6), 17, NULL, "values too long");
    receive(&hub, 7, data(5, "\1\0\0\0\2", 5), 18, NULL, "flag of 2");
    receive(&hub, 7, data(0, NULL, 0), 0, NULL, "no bit");
    wanted[PRESENT + 2] = 1;
    wanted[BITS + 8] = 1;
    receive(&hub, 7, data(4, "\1", 1), 0, wanted, "a flag");
    wanted[PRESENT] = 1;
    memset(wanted + BITS, 0xff, 4);
    receive(&hub, 7, data(1, "\377\377\377\377", 4), 0, wanted, "an int");
    read_value(&hub, 7, 0, (cinder_value_result){.kind = 1, .bits = 0xffffffff}, "an int");
    memset(wanted + PRESENT, 0, SLOT - PRESENT);
    receive(&hub, 7, ack(7, 0), 0, wanted, "its own UID again");
    wanted[11] = 77;
    receive(&hub, 7, ack(7, 77), 0, wanted, "another UID on a full table");
    memset(wanted + SLOT, 0, SLOT);
    detach(&hub, 6, 0, wanted, "leaving");
    memcpy(wanted + SLOT, (uint8_t[]){1, 0, 7, 6, 1, 2, 3, 4, 5, 6, 7, 1}, PRESENT);
    receive(&hub, 0, ack(7, 1), 0, wanted, "the slot used again");
}

/* "A pointer with length 0 may be null", and what is no catalogue and no table. */
static void check_no_table(void)
{
    static const size_t lengths[] = {0,         1,         SLOT,         TABLE - SLOT,
                                     TABLE - 1, TABLE + 1, TABLE + 2,    TABLE + SLOT - 1,
                                     TABLE + SLOT, 2 * TABLE};
    static const uint8_t flags[] = {0, PRESENT, PRESENT + 1, PRESENT + PARAMETERS - 1};
    struct hub hub = new_hub();
    uint8_t *table = new_buffer(TABLE);
    check(cinder_hub_receive(NULL, 0, NULL, 0, 0, NULL, 0).error == 11, "null", "receive");
    check(cinder_hub_detach(NULL, 0, NULL, 0, 0) == 11, "null", "detach");
    check(cinder_hub_read(NULL, 0, NULL, 0, 0, 0).error == 11, "null", "read");
    check(cinder_hub_publish(NULL, 0, NULL, 0, NULL, 0).error == 11, "null", "publish");
    check(cinder_hub_detach(bench_catalogue, sizeof bench_catalogue, NULL, 0, 0) == 9,
          "null table", "detach");
    check(cinder_hub_detach(bench_catalogue, sizeof bench_catalogue, table, TABLE, 0) == 9,
          "a pattern", "detach");
    check(holds(table, TABLE, NULL, 0), "a pattern", "table");
    memset(table, 0, TABLE);
    check(cinder_hub_publish(bench_catalogue, sizeof bench_catalogue, table, TABLE, NULL, 0)
                  .error == 20,
          "null list", "publish");
    check(cinder_hub_receive(bench_catalogue, sizeof bench_catalogue, table, TABLE, 0, NULL, 0)
                  .error == 1,
          "null packet", "receive");
    free(table);
    for (size_t at = 0; at < sizeof lengths / sizeof lengths[0]; at++) {
        hub.table_length = lengths[at];
        all_refuse(&hub, 9, "a table of another length");
        for (hub.catalogue_length = 0; hub.catalogue_length < sizeof bench_catalogue;
             hub.catalogue_length++)
            all_refuse(&hub, 11, "a catalogue cut short");
    }
    hub.table_length = TABLE;
    for (size_t at = 0; at < TABLE; at++) {
        hub.table[at] = at % SLOT == 0 ? 2 : 1;
        all_refuse(&hub, 9, "one byte in an empty table");
        hub.table[at] = 0;
    }
    receive(&hub, 3, ack(7, 8), 0, (uint8_t[TABLE]){1, 3, 7, 6, 1, 2, 3, 4, 5, 6, 7, 8}, "ACK");
    for (size_t at = 0; at < sizeof flags; at++)
        for (int value = 2; value < 256; value += 84) {
            uint8_t old = hub.table[flags[at]];
            hub.table[flags[at]] = (uint8_t)value;
            all_refuse(&hub, 9, "yes or no above 1");
            hub.table[flags[at]] = old;
        }
    memcpy(hub.table + SLOT, hub.table, SLOT);
    all_refuse(&hub, 9, "socket and UID twice");
    hub.table[SLOT + 1] = 4;
    all_refuse(&hub, 9, "UID twice");
    hub.table[SLOT + 11] = 9;
    hub.table[SLOT + 1] = 3;
    all_refuse(&hub, 9, "socket twice");
    hub.table[SLOT + 1] = 8;
    all_refuse(&hub, 9, "socket 8 in a row");
    hub.table[SLOT + 1] = 4;
    hub.table[SLOT + 2] = 8;
    all_refuse(&hub, 9, "type not in the catalogue");
    hub.table[SLOT + 2] = 7;
    detach(&hub, 5, 15, NULL, "lawful again");
}

/* Four devices of 32 floats each: the longest list that is posted. */
static void check_floats(void)
{
    static const uint32_t singles[] = {0x3f800000, 0x7f800001, 0xff800000, 0x80000000};
    static const uint32_t doubles[][2] = {
        {0, 0x3ff00000}, {0x20000000, 0x7ff00000}, {0, 0xfff00000}, {0, 0x80000000}};
    uint8_t catalogue[5 + PARAMETERS] = {1, 9, PARAMETERS, PARAMETERS, 0};
    memset(catalogue + 5, 5, PARAMETERS);
    struct hub hub = {catalogue, sizeof catalogue, {0}, TABLE};
    uint8_t wanted[TABLE] = {0};
    uint8_t values[4 * PARAMETERS];
    uint8_t list[3752];
    size_t at = 8;
    put_words(list, (uint32_t[]){256, 4}, 2);
    for (uint8_t socket = 0; socket < 4; socket++) {
        uint8_t *row = wanted + SLOT * socket;
        memcpy(row, (uint8_t[]){1, socket, 9, 6, 1, 2, 3, 4, 5, 6, 7, socket}, PRESENT);
        receive(&hub, socket, ack(9, socket), 0, wanted, "ACK");
        for (size_t index = 0; index < PARAMETERS; index++)
            put_words(values + 4 * index, &singles[index % 4], 1);
        memset(row + PRESENT, 1, PARAMETERS);
        memcpy(row + BITS, values, sizeof values);
        receive(&hub, socket, data(0xffffffff, values, sizeof values), 0, wanted, "32 floats");
        put_words(list + at, (uint32_t[]){256, 3 + PARAMETERS, 1, socket, 1, 9, 12, 8}, 8);
        memcpy(list + at + 32, row + 4, 8);
        at += 40;
        for (uint32_t index = 0; index < PARAMETERS; index++, at += 28) {
            const uint32_t *value = doubles[index % 4];
            put_words(list + at, (uint32_t[]){256, 2, 1, index, 10, value[0], value[1]}, 7);
            read_value(&hub, socket, index,
                       (cinder_value_result){.kind = 2, .bits = singles[index % 4]}, "FLOAT");
        }
    }
    check(at == sizeof list, "the longest list", "length");
    publish(&hub, CINDER_LIST_ROOM, 0, list, sizeof list, "the longest list");
    publish(&hub, CINDER_LIST_ROOM - 1, 20, NULL, 0, "the longest list, area too small");
}

/* What socket 3's device of the bench catalogue holds for its INT, read and posted alone. */
static void check_held_int(struct hub *hub, uint32_t bits, const char *name)
{
    uint32_t words[] = {256, 1, 256, 4, 1, 3, 1, 7, 12, 8, 0x04030201, 0x08070605,
                        257, 2, 0, bits};
    uint8_t list[sizeof words];
    put_words(list, words, sizeof words / sizeof words[0]);
    read_value(hub, 3, 0, (cinder_value_result){.kind = 1, .bits = bits}, name);
    publish(hub, CINDER_LIST_ROOM, 0, list, sizeof list, name);
}

/* An old device's INTs, held with their sign; then the same device with long ones. */
static void check_short_ints(void)
{
    static const struct {
        uint8_t bytes[2];
        uint8_t held[4];
        uint32_t bits;
    } ints[] = {
        {{0xff, 0xff}, {0xff, 0xff, 0xff, 0xff}, UINT32_C(0xffffffff)},
        {{0x00, 0x80}, {0x00, 0x80, 0xff, 0xff}, UINT32_C(0xffff8000)},
        {{0xff, 0x7f}, {0xff, 0x7f, 0x00, 0x00}, 32767},
        {{0x80, 0x00}, {0x80, 0x00, 0x00, 0x00}, 128},
    };
    struct hub hub = new_hub();
    uint8_t wanted[TABLE] = {1, 3, 7, LONG_INT_YEAR - 1, 1, 2, 3, 4, 5, 6, 7, 8};
    receive(&hub, 3, ack_of_year(7, LONG_INT_YEAR - 1, 8), 0, wanted, "an old device's ACK");
    wanted[PRESENT] = 1;
    for (size_t at = 0; at < sizeof ints / sizeof ints[0]; at++) {
        memcpy(wanted + BITS, ints[at].held, 4);
        receive(&hub, 3, data(1, ints[at].bytes, 2), 0, wanted, "a short int");
        check_held_int(&hub, ints[at].bits, "a short int");
        receive(&hub, 3, data(1, ints[at].held, 4), 17, NULL, "a long int from an old device");
    }
    receive(&hub, 3, data(13, "\1\0\2", 3), 16, NULL, "parameter that is not there");
    receive(&hub, 3, data(5, "\1\0\0\0\2", 5), 17, NULL, "a long int and a flag of 2");
    receive(&hub, 3, data(5, "\1\0\2", 3), 18, NULL, "a short int and a flag of 2");
    wanted[YEAR] = LONG_INT_YEAR;
    memset(wanted + PRESENT, 0, SLOT - PRESENT);
    receive(&hub, 3, ack(7, 8), 0, wanted, "the same device of the first year with long ints");
    receive(&hub, 3, data(1, "\377\377", 2), 17, NULL, "a short int from a new device");
    wanted[PRESENT] = 1;
    memcpy(wanted + BITS, "\376\377\377\377", 4);
    receive(&hub, 3, data(1, "\376\377\377\377", 4), 0, wanted, "a long int");
    check_held_int(&hub, UINT32_C(0xfffffffe), "a long int");
}

/* Each year with an INT in two bytes and in four, and an INT beyond two bytes in its row. */
static void check_years(void)
{
    for (unsigned year = 0; year <= UINT8_MAX; year++) {
        int is_long = year >= LONG_INT_YEAR;
        struct hub hub = new_hub();
        uint8_t wanted[TABLE] = {1, 3, 7, (uint8_t)year, 1, 2, 3, 4, 5, 6, 7, 8};
        receive(&hub, 3, ack_of_year(7, (uint8_t)year, 8), 0, wanted, "every year");
        receive(&hub, 3, data(1, "\1\0\1\0", is_long ? 2 : 4), 17, NULL, "the other width");
        wanted[PRESENT] = 1;
        memcpy(wanted + BITS, is_long ? "\1\0\1\0" : "\1\0\0\0", 4);
        receive(&hub, 3, data(1, "\1\0\1\0", is_long ? 4 : 2), 0, wanted, "its own width");
        memcpy(wanted + BITS, "\1\2\3\200", 4);
        memcpy(hub.table, wanted, TABLE);
        check_held_int(&hub, UINT32_C(0x80030201), "an int beyond two bytes");
        wanted[PRESENT + 2] = 1;
        receive(&hub, 3, data(4, "\0", 1), 0, wanted, "a flag beside it");
    }
}

/* New and old devices of one type side by side: each is asked for its own width. */
static void check_widths_side_by_side(void)
{
    struct hub hub = new_hub();
    uint8_t wanted[TABLE] = {0};
    for (uint8_t slot = 0; slot < 4; slot++) {
        uint8_t year = LONG_INT_YEAR - slot % 2;
        uint8_t row[] = {1, slot, 7, year, 1, 2, 3, 4, 5, 6, 7, slot};
        memcpy(wanted + SLOT * slot, row, sizeof row);
        receive(&hub, slot, ack_of_year(7, year, slot), 0, wanted, "new and old");
    }
    for (uint8_t slot = 0; slot < 4; slot++) {
        size_t own = slot % 2 == 0 ? 4 : 2;
        size_t other = 6 - own;
        receive(&hub, slot, data(1, "\377\377\377\377", other), 17, NULL, "a neighbour's width");
        wanted[SLOT * slot + PRESENT] = 1;
        memset(wanted + SLOT * slot + BITS, 0xff, 4);
        receive(&hub, slot, data(1, "\377\377\377\377", own), 0, wanted, "new and old");
    }
}

int main(void)
{
    check_bench_case();
    check_sockets();
    check_order_of_receiving();
    check_no_table();
    check_floats();
    check_short_ints();
    check_years();
    check_widths_side_by_side();
    return finish();
}
