/* digits.c: writes times and date-times with fractions of every number of digits by calls of our C functions, right ones and such as no
 * reader gives, and reads back what was written. `compare/c` builds and runs it.
 *
 * What has to come out is reckoned here, from the request: DIGITS is 0 to 9, the fraction's nine digits have only zeros behind the first
 * DIGITS, and these are written, behind a point if there are any; else the number is 4. A text with more than nine digits is read as one
 * with nine. With one slot fewer than there are nothing is read or written. So it is under all choices; one more names none.
 *
 * Then texts with a fraction behind the minute and behind the hour: in the standard reading its nine digits are that many times 60 or 3,600
 * nanoseconds, and DIGITS is 0 or 9; in the old one they are nanoseconds behind the minute, and behind the hour bytes left over.
 *
 * Exit status: 0 all calls did so, and their number is printed; 1 one did not.
 */
#include <inttypes.h>
#include <stdint.h>
#include <stdio.h>
#include <stdlib.h>
#include <string.h>

#include "tirozhbar.h"

enum { ROOM = 64, FILLING = 0x5A };

/* A kind: its reader, its writer, how many slots it has, the slots of its record, and the text in front of the fraction. */
struct kind {
    uint32_t (*read)(const uint8_t *text, size_t length, int64_t *slots, size_t room, uint32_t choices);
    uint32_t (*write)(int64_t *slots, size_t room, uint8_t *text, size_t length, uint32_t choices);
    size_t slots;
    size_t nanosecond; /* in front of it stand the second, and the minute */
    size_t digits;
    const char *front;
};

static const struct kind kinds[] = {
    {tirozhbar_parse_time, tirozhbar_write_time, TIROZHBAR_TIME_SLOTS, TIROZHBAR_TIME_NANOSECOND, TIROZHBAR_TIME_DIGITS, "21:56:42"},
    {tirozhbar_parse_datetime, tirozhbar_write_datetime, TIROZHBAR_DATETIME_SLOTS, TIROZHBAR_DATETIME_NANOSECOND,
     TIROZHBAR_DATETIME_DIGITS, "2015-11-02T21:56:42"},
};

static unsigned long calls = 0;

static void expect(int holds, const char *what, int64_t nanosecond, int64_t digits)
{
    calls++;
    if (!holds) {
        fprintf(stderr, "digits.c: %s: nanosecond %" PRId64 ", digits %" PRId64 "\n", what, nanosecond, digits);
        exit(1);
    }
}

/* Whether a reader gives so many nanoseconds with so many digits. */
static int fits(int64_t nanosecond, int64_t digits)
{
    int64_t unit = 1;

    if (digits < 0 || digits > 9 || nanosecond < 0 || nanosecond > 999999999)
        return 0;
    for (; digits < 9; digits++)
        unit *= 10;
    return nanosecond % unit == 0;
}

/* The kind's one spelling with a fraction of so many digits: `extra` zeros more than there are, and a comma, where it is to be read. */
static size_t spell(const struct kind *kind, int64_t nanosecond, int64_t digits, const char *point, int extra, char *text)
{
    char nine[32];
    int length;

    snprintf(nine, sizeof nine, "%09" PRId64, nanosecond);
    length = snprintf(text, ROOM, "%s%s%.*s", kind->front, digits > 0 ? point : "", (int)digits, nine);
    for (; extra > 0; extra--)
        text[length++] = '0';
    text[length] = 0;
    return (size_t)length;
}

/* The slots of the kind's front, with a fraction. */
static void fill(const struct kind *kind, int64_t nanosecond, int64_t digits, int64_t *slots, uint32_t choices)
{
    size_t at;

    for (at = 0; at < ROOM; at++)
        slots[at] = FILLING;
    expect(kind->read((const uint8_t *)kind->front, strlen(kind->front), slots, kind->slots, choices) == 0, "the front", 0, 0);
    slots[kind->nanosecond] = nanosecond;
    slots[kind->digits] = digits;
}

static void read_back(const struct kind *kind, const char *text, int64_t nanosecond, int64_t digits, uint32_t choices)
{
    int64_t slots[ROOM], wanted[ROOM];

    fill(kind, nanosecond, digits, wanted, choices);
    fill(kind, -1, -1, slots, choices);
    expect(kind->read((const uint8_t *)text, strlen(text), slots, kind->slots, choices) == 0, "read", nanosecond, digits);
    wanted[0] = (int64_t)strlen(text);
    wanted[1] = TIROZHBAR_NO_VERDICT;
    expect(memcmp(slots, wanted, sizeof slots) == 0, "the slots", nanosecond, digits);
    expect(kind->read((const uint8_t *)text, strlen(text), wanted, kind->slots - 1, choices) == TIROZHBAR_TOO_FEW, "few slots", nanosecond, digits);
    expect(memcmp(slots, wanted, sizeof slots) == 0, "few slots, and written", nanosecond, digits);
}

/* Reads a fraction of so many digits behind the kind's hour, or minute, with nothing behind that. */
static void behind_unit(const struct kind *kind, int64_t nanosecond, int64_t digits, int by_hour, const char *point, uint32_t choices)
{
    int64_t slots[ROOM], at, all, unit = 1;
    char text[ROOM], nine[32];
    size_t front = strlen(kind->front) - (by_hour ? 6 : 3);
    int standard = choices >= TIROZHBAR_STANDARD;
    int left_over = by_hour && !standard;
    uint32_t number;

    snprintf(nine, sizeof nine, "%09" PRId64, nanosecond);
    snprintf(text, sizeof text, "%.*s%s%.*s", (int)front, kind->front, point, (int)digits, nine);
    for (at = digits; at < 9; at++)
        unit *= 10;
    all = nanosecond / unit * unit * (standard ? by_hour ? 3600 : 60 : 1);
    number = kind->read((const uint8_t *)text, strlen(text), slots, kind->slots, choices);
    expect(number == (left_over ? TIROZHBAR_LEFT_OVER : TIROZHBAR_RECORD), "behind a unit", nanosecond, digits);
    expect(slots[0] == (int64_t)(left_over ? front : strlen(text)), "its count", nanosecond, digits);
    if (left_over)
        return;
    expect(slots[kind->nanosecond - 2] == (by_hour ? 0 : 56) + all / 60000000000, "its minute", nanosecond, digits);
    expect(slots[kind->nanosecond - 1] == all / 1000000000 % 60, "its second", nanosecond, digits);
    expect(slots[kind->nanosecond] == all % 1000000000, "its nanosecond", nanosecond, digits);
    expect(slots[kind->digits] == (!standard ? digits : all % 1000000000 == 0 ? 0 : 9), "its digits", nanosecond, digits);
}

static void try(const struct kind *kind, int64_t nanosecond, int64_t digits, uint32_t choices)
{
    int64_t slots[ROOM];
    char wanted[ROOM];
    uint8_t text[ROOM];
    size_t length = 0, at;
    int extra;

    memset(text, FILLING, sizeof text);
    fill(kind, nanosecond, digits, slots, choices);
    if (fits(nanosecond, digits))
        length = spell(kind, nanosecond, digits, ".", 0, wanted);
    expect(kind->write(slots, kind->slots - 1, text, ROOM, choices) == TIROZHBAR_TOO_FEW, "few slots to write", nanosecond, digits);
    expect(kind->write(slots, kind->slots, text, ROOM, choices) == (length ? 0u : TIROZHBAR_NO_READER), "written", nanosecond, digits);
    expect(slots[0] == (int64_t)length && memcmp(text, wanted, length) == 0, "the text", nanosecond, digits);
    for (at = length; at < ROOM; at++)
        expect(text[at] == FILLING, "a byte behind the text", nanosecond, digits);
    if (length == 0)
        return;
    read_back(kind, wanted, nanosecond, digits, choices);
    spell(kind, nanosecond, digits, ",", 0, wanted);
    read_back(kind, wanted, nanosecond, digits, choices);
    for (extra = 1; digits == 9 && extra < 5; extra++) {
        spell(kind, nanosecond, digits, ".", extra, wanted);
        read_back(kind, wanted, nanosecond, digits, choices);
    }
}

int main(void)
{
    static const int64_t parts[] = {0, 1, 5, 9, 12, 90, 123, 500, 120000, 999, 1000000, 123456789, 999999999, 1000000000, 4294967296, -1};
    static const int64_t counts[] = {INT64_MIN, -1, 0, 1, 2, 3, 4, 5, 6, 7, 8, 9, 10, 11, 4294967296, 4294967299, INT64_MAX};
    const uint32_t last = TIROZHBAR_STANDARD | TIROZHBAR_2004;
    size_t k, p, c;
    uint32_t choices;
    int64_t scale;

    for (k = 0; k < sizeof kinds / sizeof *kinds; k++)
        for (choices = TIROZHBAR_2019; choices <= last; choices++)
            for (p = 0; p < sizeof parts / sizeof *parts; p++)
                for (scale = 1; scale <= 1000000000; scale *= 10) {
                    for (c = 0; c < sizeof counts / sizeof *counts; c++)
                        try(&kinds[k], parts[p] * scale, counts[c], choices);
                    for (c = 1; c <= 9 && parts[p] >= 0 && parts[p] * scale <= 999999999; c++) {
                        behind_unit(&kinds[k], parts[p] * scale, (int64_t)c, 0, ".", choices);
                        behind_unit(&kinds[k], parts[p] * scale, (int64_t)c, 1, ",", choices);
                    }
                }
    for (k = 0; k < sizeof kinds / sizeof *kinds; k++) {
        int64_t slots[ROOM] = {0};
        uint32_t number = kinds[k].read((const uint8_t *)kinds[k].front, strlen(kinds[k].front), slots, ROOM, last + 1);

        expect(number == TIROZHBAR_NO_SUCH_CHOICE, "no choice", 0, 0);
    }
    printf("%lu checks, all as they have to be\n", calls);
    return 0;
}
