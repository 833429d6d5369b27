// Makes the calls on standard input through libcronsim, and prints each answer on a line: the
// status and the JSON. Each call is made with no room for the answer, with a byte too few and with
// some more, and writes to no byte but the answer's.
#include "cronsim.h"
#include <stdio.h>
#include <stdlib.h>
#include <string.h>

static long line_number;

static void want(const char *what, unsigned long long got, unsigned long long wanted) {
    if (got == wanted) return;
    fprintf(stderr, "library: C: call %ld: %s: %llu, not %llu\n", line_number, what, got, wanted);
    exit(1);
}

struct text {
    uint8_t *bytes;
    size_t length;
};

// The bytes of hexadecimal digits, in their place.
static struct text bytes_of(char *digits) {
    struct text it = {(uint8_t *)digits, 0};
    if (strcmp(digits, ".") == 0) return it;
    for (const char *at = digits; at[0] && at[1]; at += 2) {
        char pair[3] = {at[0], at[1], 0};
        it.bytes[it.length++] = (uint8_t)strtoul(pair, NULL, 16);
    }
    return it;
}

struct call {
    const char *name;
    struct text zones, text;
    uint64_t numbers[3];
};

static uint32_t made(const struct call *c, uint8_t *answer, size_t capacity, size_t *length) {
    const uint8_t *text = c->text.bytes, *zones = c->zones.bytes;
    size_t size = c->text.length, many = c->zones.length;
    const uint64_t *n = c->numbers;
    if (strcmp(c->name, "plan") == 0)
        return cronsim_plan(text, size, n[0], answer, capacity, length);
    if (strcmp(c->name, "check") == 0)
        return cronsim_check(text, size, zones, many, answer, capacity, length);
    if (strcmp(c->name, "why") == 0)
        return cronsim_why(text, size, zones, many, n[0], answer, capacity, length);
    if (strcmp(c->name, "upcoming") == 0)
        return cronsim_upcoming(text, size, zones, many, n[0], n[1], (uint32_t)n[2], answer,
                                capacity, length);
    if (strcmp(c->name, "describe") == 0)
        return cronsim_describe(text, size, zones, many, n[0], (uint16_t)n[1], answer, capacity,
                                length);
    return cronsim_audit(text, size, zones, many, answer, capacity, length);
}

static void answer(const struct call *c) {
    uint8_t one = 7;
    size_t length = 0, room = 0, same = 0;
    want("with no room", made(c, &one, 0, &length), CRONSIM_ROOM);
    want("no byte written", one, 7);
    room = length + 8;
    uint8_t *bytes = malloc(room);
    memset(bytes, 7, room);
    want("a byte too few", made(c, bytes, length - 1, &same), CRONSIM_ROOM);
    want("the same length", same, length);
    want("no byte written", bytes[0] == 7 && memcmp(bytes, bytes + 1, room - 1) == 0, 1);
    same = 0;
    uint32_t status = made(c, bytes, room - 1, &same);
    want("the same length", same, length);
    for (size_t at = length; at < room; at++) want("no byte after it", bytes[at], 7);
    printf("%u %.*s\n", status, (int)length, bytes);
    free(bytes);
}

int main(void) {
    static char line[1 << 22];
    while (fgets(line, sizeof line, stdin)) {
        line_number++;
        struct call c = {strtok(line, "\t\n"), {NULL, 0}, {NULL, 0}, {0, 0, 0}};
        char *zones = strtok(NULL, "\t\n"), *text = strtok(NULL, "\t\n"), *number;
        for (int at = 0; at < 3 && (number = strtok(NULL, "\t\n")); at++)
            c.numbers[at] = strtoull(number, NULL, 10);
        c.zones = bytes_of(zones);
        c.text = bytes_of(text);
        answer(&c);
    }
    return line_number ? 0 : 1;
}
