#include <stdio.h>
#include <string.h>
#include "cinder.h"

/* Lists of two strings within a list; a length counts the zero that closes its string. */
#define LIST(count) "\0\1\0\0" count "\0\0\0"
#define ENTRY "\4\1\0\0\2\0\0\0"
#define STRING(length, text) length "\0\0\0" text "\0"

static const char guest[] = LIST("\2")
    ENTRY STRING("\5", "lamp") STRING("\5", "warm")
    ENTRY STRING("\5", "song") STRING("\1", "");

static const char house[] = LIST("\3")
    ENTRY STRING("\5", "lamp") STRING("\6", "white")
    ENTRY STRING("\5", "song") STRING("\6", "polka")
    ENTRY STRING("\7", "volume") STRING("\2", "3");

/* The zero that C adds to a literal is no part of a list. */
enum { GUEST_LENGTH = sizeof guest - 1, HOUSE_LENGTH = sizeof house - 1 };

enum { IN_NEITHER = 33 };

static void show(const char *key, size_t guest_length)
{
    static const char *const names[] = {"neither list", "the guest's list", "the house list"};
    const char *const lists[] = {NULL, guest, house};
    cinder_setting_result r =
        cinder_setting_find((const uint8_t *)guest, guest_length, (const uint8_t *)house,
                            HOUSE_LENGTH, (const uint8_t *)key, strlen(key));
    if (r.error == IN_NEITHER)
        printf("%s is in %s\n", key, names[r.list]);
    else if (r.error != 0)
        printf("%s is refused: %llu in %s at %llu depth %llu\n", key, (unsigned long long)r.error,
               names[r.list], (unsigned long long)r.offset, (unsigned long long)r.depth);
    else /* The value is that part of the list itself, not a copy. */
        printf("%s is \"%.*s\" in %s\n", key, (int)r.length, lists[r.list] + r.offset,
               names[r.list]);
}

int main(void)
{
    show("lamp", GUEST_LENGTH);
    show("song", GUEST_LENGTH);
    show("volume", GUEST_LENGTH);
    show("door", GUEST_LENGTH);
    /* The last byte of the guest's list has not come. */
    show("lamp", GUEST_LENGTH - 1);
    return 0;
}
