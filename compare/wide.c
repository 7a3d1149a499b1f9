/* wide.c: reads durations with numbers of up to 64 bits by calls of our C functions, and writes them back. `compare/c` builds and runs it.
 *
 * What has to come out is reckoned here, from the request: a part's number is at most 18,446,744,073,709,551,615, whatever zeros stand before
 * it, and one above that is number 2, whatever follows; its slot has the number's 64 bits. The parts that are not 0 are written without
 * leading zeros, with T before time parts, and PT0S where there are none. Every seven slots hold a duration, and the longest text has 149
 * bytes.
 *
 * Exit status: 0 all calls did so, and their number is printed; 1 one did not.
 */
#include <inttypes.h>
#include <stdint.h>
#include <stdio.h>
#include <stdlib.h>
#include <string.h>

#include "tirozhbar.h"

enum { PARTS = 7, ROOM = 512, FILLING = 0xA5, FIRST = TIROZHBAR_DURATION_YEARS, SLOTS = TIROZHBAR_DURATION_SLOTS };

static const char letters[] = "YMWDHMS";

/* The numbers at which something could go wrong: one bit more, one digit more, a sign. */
static const uint64_t numbers[] = {
    0, 1, 9, 10, 99, 100, 4294967294U, 4294967295U, 4294967296U, 9999999999U, 10000000000U, 9223372036854775806U, 9223372036854775807U,
    9223372036854775808U, 9223372036854775809U, 9999999999999999999U, 10000000000000000000U, 18446744073709551614U, 18446744073709551615U,
};
enum { NUMBERS = sizeof numbers / sizeof *numbers };

static const char *const too_big[] = {"18446744073709551616", "18446744073709551620", "20000000000000000000", "100000000000000000000"};

static unsigned long calls = 0;

static void expect(int holds, const char *what, const char *text)
{
    calls++;
    if (!holds) {
        fprintf(stderr, "wide.c: %s: %s\n", what, text);
        exit(1);
    }
}

/* The one spelling of seven numbers, with so many zeros before each where it is to be read. */
static size_t spell(const uint64_t *parts, int zeros, char *text)
{
    int length = sprintf(text, "P"), time = 0, part;

    for (part = 0; part < PARTS; part++) {
        if (parts[part] == 0)
            continue;
        if (part > 3 && !time)
            time = 1, text[length++] = 'T';
        length += sprintf(text + length, "%.*s%" PRIu64 "%c", zeros, "0000000000", parts[part], letters[part]);
    }
    return (size_t)(length > 1 ? length : sprintf(text, "PT0S"));
}

static void fill(int64_t *slots)
{
    int slot;

    for (slot = 0; slot < SLOTS; slot++)
        slots[slot] = FILLING;
}

/* Both readers leave these numbers. Behind seconds nothing can follow, and behind any other part something can. */
static void reads(const uint64_t *parts, const char *text)
{
    int64_t slots[SLOTS];
    size_t length = strlen(text);
    int verdict = text[length - 1] == 'S' ? TIROZHBAR_SETTLED : TIROZHBAR_OPEN;
    int part;

    fill(slots);
    expect(tirozhbar_parse_duration((const uint8_t *)text, length, slots, SLOTS) == TIROZHBAR_RECORD, "read", text);
    expect(slots[TIROZHBAR_COUNT] == (int64_t)length && slots[TIROZHBAR_VERDICT] == TIROZHBAR_NO_VERDICT, "its count", text);
    for (part = 0; part < PARTS; part++)
        expect((uint64_t)slots[FIRST + part] == parts[part], "a number", text);
    fill(slots);
    expect(tirozhbar_duration((const uint8_t *)text, length, slots, SLOTS) == TIROZHBAR_RECORD, "begun", text);
    expect(slots[TIROZHBAR_COUNT] == (int64_t)length && slots[TIROZHBAR_VERDICT] == verdict, "its count and verdict", text);
    for (part = 0; part < PARTS; part++)
        expect((uint64_t)slots[FIRST + part] == parts[part], "a number of what is begun", text);
    expect(tirozhbar_duration((const uint8_t *)text, length, slots, SLOTS - 1) == TIROZHBAR_TOO_FEW, "few slots", text);
}

static int untouched(const uint8_t *from, const uint8_t *to)
{
    while (from < to)
        if (*from++ != FILLING)
            return 0;
    return 1;
}

/* And they are written as this text, into a buffer that is just long enough, and into none that is shorter. */
static void writes(const uint64_t *parts, const char *text)
{
    uint8_t buffer[ROOM];
    int64_t slots[SLOTS];
    size_t length = strlen(text);
    int part;

    memset(buffer, FILLING, sizeof buffer);
    fill(slots);
    for (part = 0; part < PARTS; part++)
        slots[FIRST + part] = (int64_t)parts[part];
    expect(tirozhbar_write_duration(slots, SLOTS, buffer, length - 1) == TIROZHBAR_TOO_SHORT && slots[TIROZHBAR_COUNT] == 0, "too short", text);
    expect(untouched(buffer, buffer + ROOM), "too short, and written", text);
    expect(tirozhbar_write_duration(slots, SLOTS, buffer, length) == TIROZHBAR_RECORD && slots[TIROZHBAR_COUNT] == (int64_t)length, "written", text);
    expect(memcmp(buffer, text, length) == 0, "what is written", text);
    expect(untouched(buffer + length, buffer + ROOM), "behind what is written", text);
}

static void both(const uint64_t *parts)
{
    char text[ROOM];

    spell(parts, 0, text);
    reads(parts, text);
    writes(parts, text);
    spell(parts, 7, text);
    reads(parts, text);
}

/* A number above the limit at one part, all others at the limit: number 2, and the slots of a record are as they were. */
static void refuses(const uint64_t *parts, int big, const char *run)
{
    int64_t slots[SLOTS];
    char text[ROOM];
    int length = sprintf(text, "P"), part;

    for (part = 0; part < PARTS; part++) {
        if (part == 4)
            text[length++] = 'T';
        length += part == big ? sprintf(text + length, "%s%c", run, letters[part])
                              : sprintf(text + length, "%" PRIu64 "%c", parts[part], letters[part]);
    }
    fill(slots);
    expect(tirozhbar_duration((const uint8_t *)text, (size_t)length, slots, SLOTS) == TIROZHBAR_TOO_BIG, "too big", text);
    expect(slots[TIROZHBAR_COUNT] == 0 && slots[TIROZHBAR_VERDICT] == TIROZHBAR_SETTLED, "too big, and its verdict", text);
    for (part = 0; part < PARTS; part++)
        expect(slots[FIRST + part] == FILLING, "too big, and a number", text);
    expect(tirozhbar_parse_duration((const uint8_t *)text, (size_t)length, slots, SLOTS) == TIROZHBAR_TOO_BIG, "too big, whole", text);
}

int main(void)
{
    uint64_t parts[PARTS] = {0}, draw = 20261116;
    char text[ROOM];
    int part, other;
    size_t one, two;
    long drawn;

    for (part = 0; part < PARTS; part++)
        for (other = 0; other < PARTS; other++)
            for (one = 0; one < NUMBERS; one++)
                for (two = 0; two < NUMBERS; two++) {
                    memset(parts, 0, sizeof parts);
                    parts[part] = numbers[one];
                    parts[other] = numbers[two];
                    both(parts);
                }
    for (drawn = 0; drawn < 20000; drawn++) {
        for (part = 0; part < PARTS; part++) {
            draw = draw * 6364136223846793005U + 1442695040888963407U;
            parts[part] = (draw ^ draw >> 29) >> (draw >> 58);
        }
        both(parts);
    }
    for (part = 0; part < PARTS; part++)
        parts[part] = UINT64_MAX;
    expect(spell(parts, 0, text) == TIROZHBAR_DURATION_LONGEST, "the longest", text);
    both(parts);
    for (part = 0; part < PARTS; part++)
        for (one = 0; one < sizeof too_big / sizeof *too_big; one++)
            refuses(parts, part, too_big[one]);
    printf("%lu checks of durations, all as they have to be\n", calls);
    return 0;
}
