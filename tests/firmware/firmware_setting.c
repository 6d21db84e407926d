/* Settings: found in the guest's list, in the house list and in neither, behind elements that
 * are nearly entries; the table of list cases on either side; lists that are cut, followed by
 * bytes, and at the limit of 4,096 bytes. Nothing is written. */

#include "checks.h"
#include "cinder.h"
#include "list_cases.h"

#include <stdlib.h>
#include <string.h>

enum { GUEST = 1, HOUSE = 2, AREA_ROOM = LIST_LIMIT + 100, HEADER = 8 };

#define COUNT(array) (sizeof(array) / sizeof((array)[0]))

/* Bytes and how many; the zero that closes a literal is none of them. */
struct bytes {
    const uint8_t *at;
    size_t length;
};

#define BYTES(literal) {(const uint8_t *)(literal), sizeof(literal) - 1}
#define AREA(literal) ((struct bytes)BYTES(literal))

/* Parts of a list as literals. The length of a TEXT counts the zero that closes it. */
#define INT "\1\0\0\0"
#define STRING "\4\0\0\0"
#define BLOB "\14\0\0\0"
#define LIST(count) "\0\1\0\0" count "\0\0\0"
#define STRINGS(count) "\4\1\0\0" count "\0\0\0"
#define BLOBS(count) "\14\1\0\0" count "\0\0\0"
#define TEXT(length, text) length "\0\0\0" text "\0"
#define RUN(length, bytes) length "\0\0\0" bytes
#define ENTRY STRINGS("\2")

/* 55 bytes: `lamp` is `on`, `cups` is `4`. */
static const char guest_list[] = LIST("\2")
    ENTRY TEXT("\5", "lamp") TEXT("\3", "on")
    ENTRY TEXT("\5", "cups") TEXT("\2", "4");

/* 81 bytes: `lamp` is `off`, `door` is empty, the empty key is `nameless`. */
static const char house_list[] = LIST("\3")
    ENTRY TEXT("\5", "lamp") TEXT("\4", "off")
    ENTRY TEXT("\5", "door") TEXT("\1", "")
    ENTRY TEXT("\1", "") TEXT("\11", "nameless");

static const cinder_setting_result in_neither = {.error = 33};

/* Looks up a key in areas of exactly their lengths, which must hold the same afterwards. */
static void look_up(struct bytes guest, struct bytes house, struct bytes key,
                    cinder_setting_result owed, const char *name)
{
    uint8_t *given_guest = copy_of(guest.at, guest.length);
    uint8_t *given_house = copy_of(house.at, house.length);
    uint8_t *given_key = copy_of(key.at, key.length);
    cinder_setting_result found = cinder_setting_find(given_guest, guest.length, given_house,
                                                      house.length, given_key, key.length);
    check(found.error == owed.error, name, "error");
    check(found.list == owed.list, name, "list");
    check(found.offset == owed.offset, name, "offset");
    check(found.length == owed.length, name, "length");
    check(found.depth == owed.depth, name, "depth");
    check(holds(given_guest, guest.length, guest.at, guest.length), name, "guest's area");
    check(holds(given_house, house.length, house.at, house.length), name, "house area");
    check(holds(given_key, key.length, key.at, key.length), name, "key's area");
    free(given_key);
    free(given_house);
    free(given_guest);
}

/* Each key in the lists above, and with the house list as the guest's. */
static void check_keys(void)
{
    static const struct {
        const char *name;
        struct bytes key;
        cinder_setting_result owed, exchanged;
    } cases[] = {
        {"in both", BYTES("lamp"), {0, GUEST, 29, 2, 0}, {0, GUEST, 29, 3, 0}},
        {"in one", BYTES("cups"), {0, GUEST, 53, 1, 0}, {0, HOUSE, 53, 1, 0}},
        {"with an empty value", BYTES("door"), {0, HOUSE, 54, 0, 0}, {0, GUEST, 54, 0, 0}},
        {"empty key", BYTES(""), {0, HOUSE, 72, 8, 0}, {0, GUEST, 72, 8, 0}},
        {"in neither", BYTES("seat"), {.error = 33}, {.error = 33}},
        {"a value", BYTES("on"), {.error = 33}, {.error = 33}},
        {"the beginning of a key", BYTES("lam"), {.error = 33}, {.error = 33}},
        {"longer than a key", BYTES("lamps"), {.error = 33}, {.error = 33}},
        {"a key with its zero", BYTES("lamp\0"), {.error = 33}, {.error = 33}},
        {"a zero within", BYTES("la\0p"), {.error = 33}, {.error = 33}},
        {"a zero", BYTES("\0"), {.error = 33}, {.error = 33}},
        {"in other letters", BYTES("Lamp"), {.error = 33}, {.error = 33}},
    };
    struct bytes guest = BYTES(guest_list), house = BYTES(house_list);
    for (size_t at = 0; at < COUNT(cases); at++) {
        look_up(guest, house, cases[at].key, cases[at].owed, cases[at].name);
        look_up(house, guest, cases[at].key, cases[at].exchanged, cases[at].name);
    }
}

/* Elements that are no entries with the key `k`; most have it in another way. */
static const struct {
    const char *name;
    struct bytes bytes;
} others[] = {
    {"a list of one string", BYTES(STRINGS("\1") TEXT("\2", "k"))},
    {"a list of three strings",
     BYTES(STRINGS("\3") TEXT("\2", "k") TEXT("\2", "v") TEXT("\2", "v"))},
    {"a string and an int", BYTES(LIST("\2") STRING TEXT("\2", "k") INT "\5\0\0\0")},
    {"an int and a string", BYTES(LIST("\2") INT "\5\0\0\0" STRING TEXT("\2", "k"))},
    {"two blobs", BYTES(BLOBS("\2") RUN("\1", "k") RUN("\1", "v"))},
    {"two blobs with zeros", BYTES(BLOBS("\2") RUN("\2", "k\0") RUN("\2", "v\0"))},
    {"a string and a blob", BYTES(LIST("\2") STRING TEXT("\2", "k") BLOB RUN("\1", "v"))},
    {"a string and a list", BYTES(LIST("\2") STRING TEXT("\2", "k") LIST("\0"))},
    {"an entry one deeper", BYTES(LIST("\1") ENTRY TEXT("\2", "k") TEXT("\2", "v"))},
    {"an entry two deeper", BYTES(LIST("\1") LIST("\1") ENTRY TEXT("\2", "k") TEXT("\2", "v"))},
    {"the key as value", BYTES(ENTRY TEXT("\2", "v") TEXT("\2", "k"))},
    {"the key alone", BYTES(STRING TEXT("\2", "k"))},
    {"an int of 260", BYTES(INT "\4\1\0\0")},
    {"the bytes of an entry", BYTES(BLOB RUN("\24", ENTRY TEXT("\2", "k") TEXT("\2", "v")))},
    {"an entry with another key", BYTES(ENTRY TEXT("\2", "l") TEXT("\2", "v"))},
    {"an entry with a longer key", BYTES(ENTRY TEXT("\3", "kk") TEXT("\2", "v"))},
    {"an entry with an empty key", BYTES(ENTRY TEXT("\1", "") TEXT("\2", "k"))},
    {"an empty list", BYTES(LIST("\0"))},
};

/* A list of two elements. */
static struct bytes pair(uint8_t *area, struct bytes first, struct bytes second)
{
    put_words(area, (uint32_t[]){256, 2}, 2);
    memcpy(area + HEADER, first.at, first.length);
    memcpy(area + HEADER + first.length, second.at, second.length);
    return (struct bytes){area, HEADER + first.length + second.length};
}

/* None of the others is taken for an entry, before and behind one that is and alone. */
static void check_others(void)
{
    const struct bytes key = BYTES("k"), empty = BYTES(LIST("\0"));
    const struct bytes entry = BYTES(ENTRY TEXT("\2", "k") TEXT("\4", "www"));
    const struct bytes strings = BYTES(STRINGS("\2") TEXT("\2", "k") TEXT("\2", "v"));
    uint8_t before_area[AREA_ROOM], behind_area[AREA_ROOM], alone_area[AREA_ROOM];
    for (size_t at = 0; at < COUNT(others); at++) {
        const char *name = others[at].name;
        struct bytes other = others[at].bytes;
        struct bytes before = pair(before_area, other, entry);
        struct bytes behind = pair(behind_area, entry, other);
        struct bytes alone = pair(alone_area, other, empty);
        uint64_t offset = HEADER + other.length + 18;
        look_up(before, empty, key, (cinder_setting_result){0, GUEST, offset, 3, 0}, name);
        look_up(alone, before, key, (cinder_setting_result){0, HOUSE, offset, 3, 0}, name);
        look_up(behind, before, key, (cinder_setting_result){0, GUEST, 26, 3, 0}, name);
        look_up(alone, alone, key, in_neither, name);
    }
    /* The outermost list of two strings is no element. */
    look_up(strings, strings, key, in_neither, "two strings");
    look_up(strings, pair(behind_area, entry, empty), key,
            (cinder_setting_result){0, HOUSE, 26, 3, 0}, "two strings");
    /* The first of two entries counts. */
    look_up(pair(before_area, entry, AREA(ENTRY TEXT("\2", "k") TEXT("\2", "v"))), empty, key,
            (cinder_setting_result){0, GUEST, 26, 3, 0}, "two entries");
}

/* The answer where this case is the list of an area: its error, or 29 for bytes behind it. */
static cinder_setting_result owed_for(const struct list_case *given, size_t length, uint64_t list,
                                      cinder_setting_result else_owed)
{
    if (given->error != 0)
        return (cinder_setting_result){given->error, list, given->offset, 0, given->depth};
    if (given->consumed < length)
        return (cinder_setting_result){29, list, given->consumed, 0, 0};
    return else_owed;
}

/* Each list of the table as guest's list, as house list, and as both; the other list has the
 * key. */
static void check_table(void)
{
    struct bytes guest = BYTES(guest_list), house = BYTES(house_list), key = BYTES("lamp");
    for (size_t at = 0; at < list_case_count; at++) {
        const struct list_case *given = &list_cases[at];
        size_t length;
        uint8_t *whole = list_bytes(given, &length);
        struct bytes area = {whole, length};
        look_up(area, house, key,
                owed_for(given, length, GUEST, (cinder_setting_result){0, HOUSE, 29, 3, 0}),
                given->name);
        look_up(guest, area, key,
                owed_for(given, length, HOUSE, (cinder_setting_result){0, GUEST, 29, 2, 0}),
                given->name);
        look_up(area, area, key, owed_for(given, length, GUEST, in_neither), given->name);
        free(whole);
    }
}

/* One of the two lists cut at every byte ends inside an item, at the depth that is counted
 * there. */
static void check_cut(uint64_t list)
{
    struct bytes guest = BYTES(guest_list), house = BYTES(house_list), key = BYTES("lamp");
    struct bytes *cut = list == GUEST ? &guest : &house;
    while (cut->length > 0) {
        cut->length--;
        uint8_t *guest_area = copy_of(guest.at, guest.length);
        uint8_t *house_area = copy_of(house.at, house.length);
        cinder_setting_result found = cinder_setting_find(guest_area, guest.length, house_area,
                                                          house.length, key.at, key.length);
        check(found.error == 21 && found.list == list && found.length == 0, "cut", "answer");
        check(found.offset <= cut->length, "cut", "offset");
        check(found.offset <= cut->length && found.depth == lists_open(cut->at, found.offset),
              "cut", "depth");
        free(house_area);
        free(guest_area);
    }
}

/* Bytes behind a list come last for it, and the guest's list comes before the house list. */
static void check_bytes_left(void)
{
    static const cinder_setting_result of_guest = {29, GUEST, sizeof guest_list - 1, 0, 0};
    static const cinder_setting_result of_house = {29, HOUSE, sizeof house_list - 1, 0, 0};
    struct bytes guest = BYTES(guest_list), house = BYTES(house_list), key = BYTES("lamp");
    struct bytes guest_cut = {guest.at, guest.length - 1};
    struct bytes house_cut = {house.at, house.length - 1};
    uint8_t guest_area[AREA_ROOM] = {0}, house_area[AREA_ROOM] = {0};
    memcpy(guest_area, guest.at, guest.length);
    memcpy(house_area, house.at, house.length);
    for (size_t more = 1; more <= 20; more++) {
        struct bytes guest_more = {guest_area, guest.length + more};
        struct bytes house_more = {house_area, house.length + more};
        look_up(guest_more, house, key, of_guest, "bytes behind the guest's list");
        look_up(guest, house_more, key, of_house, "bytes behind the house list");
        look_up(guest_more, house_more, key, of_guest, "bytes behind both lists");
        look_up(guest_more, house_cut, key, of_guest, "bytes behind, and the house list cut");
        look_up(guest_cut, house_more, key, (cinder_setting_result){21, GUEST, 53, 0, 2},
                "the guest's list cut, and bytes behind the house list");
    }
}

/* A list of so many bytes with one entry: `k`, and as many bytes as are left. */
static struct bytes of_size(uint8_t *area, uint32_t size)
{
    put_words(area, (uint32_t[]){256, 1, 260, 2, 2}, 5);
    memcpy(area + 20, "k", 2);
    put_words(area + 22, (uint32_t[]){size - 26}, 1);
    memset(area + 26, 'v', size - 27);
    area[size - 1] = 0;
    return (struct bytes){area, size};
}

static void check_limit(void)
{
    static const cinder_setting_result beyond = {28, GUEST, 26, 0, 2};
    struct bytes guest = BYTES(guest_list), key = BYTES("k");
    uint8_t full_area[AREA_ROOM] = {0}, longer_area[AREA_ROOM];
    struct bytes full = of_size(full_area, LIST_LIMIT);
    struct bytes longer = of_size(longer_area, LIST_LIMIT + 1);
    struct bytes more = {full_area, LIST_LIMIT + 1};
    uint64_t length = LIST_LIMIT - 27;
    look_up(full, guest, key, (cinder_setting_result){0, GUEST, 26, length, 0},
            "full guest's list");
    look_up(guest, full, key, (cinder_setting_result){0, HOUSE, 26, length, 0}, "full house list");
    look_up(full, full, key, (cinder_setting_result){0, GUEST, 26, length, 0}, "two full lists");
    look_up(full, full, AREA("l"), in_neither, "two full lists");
    look_up(longer, full, key, beyond, "guest's list too long");
    look_up(longer, longer, key, beyond, "both lists too long");
    look_up(full, longer, key, (cinder_setting_result){28, HOUSE, 26, 0, 2}, "house list too long");
    look_up(more, full, key, (cinder_setting_result){29, GUEST, 4096, 0, 0},
            "one byte behind 4,096");
    look_up(full, more, key, (cinder_setting_result){29, HOUSE, 4096, 0, 0},
            "one byte behind 4,096");
    put_ints(longer_area, LIST_LIMIT, 1022);
    longer.length = LIST_LIMIT;
    look_up(longer, full, key, (cinder_setting_result){0, HOUSE, 26, length, 0}, "1,022 ints");
    put_ints(longer_area, LIST_LIMIT + 4, 1023);
    longer.length = LIST_LIMIT + 4;
    look_up(longer, full, key, (cinder_setting_result){28, GUEST, 4096, 0, 1}, "1,023 ints");
}

/* Every byte as a key of its own, and one that differs from it in a bit. */
static void check_bytes(void)
{
    uint8_t area[] = LIST("\1") ENTRY TEXT("\2", "k") TEXT("\2", "v");
    struct bytes list = {area, sizeof area - 1}, empty = BYTES(LIST("\0"));
    for (unsigned byte = 1; byte < 256; byte++) {
        uint8_t keys[2] = {(uint8_t)byte, (uint8_t)(byte ^ 1)};
        area[20] = keys[0];
        look_up(list, empty, (struct bytes){keys, 1}, (cinder_setting_result){0, GUEST, 26, 1, 0},
                "a key of one byte");
        look_up(empty, list, (struct bytes){keys, 1}, (cinder_setting_result){0, HOUSE, 26, 1, 0},
                "a key of one byte");
        look_up(list, list, (struct bytes){keys + 1, 1}, in_neither, "another key of one byte");
        look_up(list, list, (struct bytes){keys, 2}, in_neither, "a key of two bytes");
    }
}

/* "A pointer with length 0 may be null." */
static void check_null(void)
{
    const struct bytes none = {NULL, 0}, guest = BYTES(guest_list), house = BYTES(house_list);
    cinder_setting_result found = cinder_setting_find(NULL, 0, NULL, 0, NULL, 0);
    check(found.error == 21 && found.list == GUEST && found.offset == 0 && found.length == 0 &&
              found.depth == 0,
          "null areas", "answer");
    found = cinder_setting_find(guest.at, guest.length, NULL, 0, NULL, 0);
    check(found.error == 21 && found.list == HOUSE && found.offset == 0 && found.length == 0 &&
              found.depth == 0,
          "null house list", "answer");
    found = cinder_setting_find(guest.at, guest.length, house.at, house.length, NULL, 0);
    check(found.error == 0 && found.list == HOUSE && found.offset == 72 && found.length == 8 &&
              found.depth == 0,
          "null key", "answer");
    look_up(none, house, none, (cinder_setting_result){21, GUEST, 0, 0, 0}, "no guest's list");
    look_up(guest, none, AREA("lamp"), (cinder_setting_result){21, HOUSE, 0, 0, 0},
            "no house list");
}

/* Areas that are only read may share bytes: one list for both, and a key that stands in it. */
static void check_shared(void)
{
    enum { KEY = 20, KEY_LENGTH = 4 };
    const struct bytes house = BYTES(house_list);
    uint8_t *list = copy_of(house.at, house.length);
    cinder_setting_result found = cinder_setting_find(list, house.length, list, house.length,
                                                      list + KEY, KEY_LENGTH);
    check(found.error == 0 && found.list == GUEST && found.offset == 29 && found.length == 3 &&
              found.depth == 0,
          "shared areas", "answer");
    check(holds(list, house.length, house.at, house.length), "shared areas", "list");
    free(list);
}

int main(void)
{
    check_null();
    check_shared();
    check_keys();
    check_others();
    check_table();
    check_cut(GUEST);
    check_cut(HOUSE);
    check_bytes_left();
    check_limit();
    check_bytes();
    return finish();
}
