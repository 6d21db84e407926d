#include "checks.h"

#include <stdio.h>
#include <stdlib.h>
#include <string.h>

static unsigned long checks_made;
static unsigned long checks_failed;

static uint8_t pattern_at(size_t at)
{
    return (uint8_t)(at * 37 + 11);
}

uint8_t *new_buffer(size_t length)
{
    uint8_t *buffer = malloc(length);
    if (buffer == NULL && length > 0) {
        fprintf(stderr, "no memory\n");
        exit(2);
    }
    for (size_t at = 0; at < length; at++)
        buffer[at] = pattern_at(at);
    return buffer;
}

uint8_t *copy_of(const uint8_t *bytes, size_t length)
{
    uint8_t *buffer = new_buffer(length);
    if (length > 0)
        memcpy(buffer, bytes, length);
    return buffer;
}

int holds(const uint8_t *buffer, size_t length, const uint8_t *front, size_t front_length)
{
    if (front_length > length)
        return 0;
    for (size_t at = 0; at < length; at++) {
        uint8_t wanted = at < front_length ? front[at] : pattern_at(at);
        if (buffer[at] != wanted)
            return 0;
    }
    return 1;
}

void check(int passed, const char *case_name, const char *what)
{
    checks_made++;
    if (!passed) {
        checks_failed++;
        printf("failed: %s: %s\n", case_name, what);
    }
}

int finish(void)
{
    printf("%lu checks, %lu failed\n", checks_made, checks_failed);
    return checks_made > 0 && checks_failed == 0 ? 0 : 1;
}
