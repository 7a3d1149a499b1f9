/* spans.c: reads intervals by calls of our C functions, and has the writers write their sides. `compare/c` builds and runs it.
 *
 * What has to come out of each text was written down by hand, from the request and document 01: the number, the count, whether a longer text
 * could get another answer, how often it repeats, its shape and its sides. A text of which bytes are left over gets number 3 and the same
 * count from the whole reader, which has no verdict. With too few slots, or a number that names no choices, nothing is written, and so is
 * never a slot behind the last one. One answer is written down slot by slot, as numbers.
 *
 * Each text stands in a block of exactly its length, so that valgrind sees a read outside it. What a writer makes of a side, which it takes
 * from where it stands, is read back as that side, and no other slot has changed.
 *
 * Exit status: 0 all calls did so, and their number is printed; 1 one did not, 2 there is no memory.
 */
#include <inttypes.h>
#include <stdint.h>
#include <stdio.h>
#include <stdlib.h>
#include <string.h>

#include "tirozhbar.h"

enum { SLOTS = TIROZHBAR_INTERVAL_SLOTS, ROOM = 40, FILLING = 0x5A5A, TEXT = 160, CHOICES = 4, ALL = -1 };
enum { SETTLED = TIROZHBAR_SETTLED, OPEN = TIROZHBAR_OPEN };

/* The choices that an answer is right under: a bit for each number. */
enum { ANY = 15, OF_2019 = 1 | 4, OF_2004 = 2 | 8, OLD = 1 | 2, STANDARD = 4 | 8 };

struct stamp {
    int64_t form, year, part, day, hour, minute, second, nanosecond, given, hours, minutes, digits;
};

struct lasting {
    uint64_t years, months, weeks, days, hours, minutes, seconds;
};

struct row {
    const char *text;
    unsigned under;
    uint32_t number;
    int64_t count, verdict, repeat, times, shape;
    const struct stamp *start, *end;
    const struct lasting *lasting;
};

#define DAY(YEAR, MONTH, DAY) 0, YEAR, MONTH, DAY
#define WEEK(YEAR, WEEK, DAY) 1, YEAR, WEEK, DAY
#define ORDINAL(YEAR, DAY) 2, YEAR, 0, DAY
#define CLOCK(HOUR, MINUTE, SECOND) HOUR, MINUTE, SECOND
#define LOCAL 0, 0, 0
#define UTC 1, 0, 0
#define OFFSET(HOURS, MINUTES) 1, HOURS, MINUTES
#define STAMP(...) (&(const struct stamp){__VA_ARGS__})
#define AT(DATE, TIME, OF) STAMP(DATE, TIME, 0, OF, 0)
#define FINE(DATE, TIME, NANOSECOND, OF, DIGITS) STAMP(DATE, TIME, NANOSECOND, OF, DIGITS)
#define LASTING(...) (&(const struct lasting){__VA_ARGS__})

#define ONCE 0, 0
#define UNLIMITED 1, 0
#define TIMES(NUMBER) 2, NUMBER
#define CLOSED(TEXT, UNDER, COUNT, VERDICT, OFTEN, START, END) {TEXT, UNDER, 0, COUNT, VERDICT, OFTEN, 0, START, END, NULL}
#define UNTIL(TEXT, UNDER, COUNT, VERDICT, OFTEN, LONG, END) {TEXT, UNDER, 0, COUNT, VERDICT, OFTEN, 1, NULL, END, LONG}
#define FROM(TEXT, UNDER, COUNT, VERDICT, OFTEN, START, LONG) {TEXT, UNDER, 0, COUNT, VERDICT, OFTEN, 2, START, NULL, LONG}
#define ALONE(TEXT, UNDER, COUNT, VERDICT, OFTEN, LONG) {TEXT, UNDER, 0, COUNT, VERDICT, OFTEN, 3, NULL, NULL, LONG}
#define REFUSED(TEXT, UNDER, NUMBER, VERDICT) {TEXT, UNDER, NUMBER, 0, VERDICT, 0, 0, 0, NULL, NULL, NULL}

/* Dates and durations that many texts have. */
#define NOV2 DAY(2015, 11, 2)
#define NOV3 DAY(2015, 11, 3)
#define NINE AT(NOV2, CLOCK(21, 0, 0), LOCAL)
#define NINE_UTC AT(NOV2, CLOCK(21, 0, 0), UTC)
#define LATE_UTC AT(NOV2, CLOCK(21, 56, 42), UTC)
#define A_YEAR LASTING(1, 0, 0, 0, 0, 0, 0)
#define A_DAY LASTING(0, 0, 0, 1, 0, 0, 0)
#define ALL_PARTS LASTING(1, 2, 0, 3, 4, 5, 6)

static const struct row rows[] = {
    /* a date-time, /, another */
    CLOSED("2015-11-02T21:56:42Z/2015-11-03T21:56:42Z", ANY, ALL, SETTLED, ONCE, LATE_UTC, AT(NOV3, CLOCK(21, 56, 42), UTC)),
    CLOSED("2015-11-02T21:56:42/2015-11-03T21:56:42", ANY, ALL, OPEN, ONCE, AT(NOV2, CLOCK(21, 56, 42), LOCAL),
           AT(NOV3, CLOCK(21, 56, 42), LOCAL)),
    CLOSED("2015-11-02T21:56:42+01:30/2015-W45-1T05", ANY, ALL, OPEN, ONCE, AT(NOV2, CLOCK(21, 56, 42), OFFSET(1, 30)),
           AT(WEEK(2015, 45, 1), CLOCK(5, 0, 0), LOCAL)),
    CLOSED("20151102T2156/2015306T2200Z", ANY, ALL, SETTLED, ONCE, AT(NOV2, CLOCK(21, 56, 0), LOCAL),
           AT(ORDINAL(2015, 306), CLOCK(22, 0, 0), UTC)),
    CLOSED("-0100-01-01T00:00:00-00:30/+9999-12-31T23:59:60.123456789+23:59", ANY, ALL, SETTLED, ONCE,
           AT(DAY(-100, 1, 1), CLOCK(0, 0, 0), OFFSET(0, -30)),
           FINE(DAY(9999, 12, 31), CLOCK(23, 59, 60), 123456789, OFFSET(23, 59), 9)),
    CLOSED("2015-11-02T21:56:42,5/2015-11-03T00", ANY, ALL, OPEN, ONCE, FINE(NOV2, CLOCK(21, 56, 42), 500000000, LOCAL, 1),
           AT(NOV3, CLOCK(0, 0, 0), LOCAL)),
    CLOSED("2015-11-02T21:56:42.500/2015-11-03T21:56:42.000", ANY, ALL, OPEN, ONCE,
           FINE(NOV2, CLOCK(21, 56, 42), 500000000, LOCAL, 3), FINE(NOV3, CLOCK(21, 56, 42), 0, LOCAL, 3)),
    CLOSED("2015-11-02T21/2015-11-03T22", ANY, ALL, OPEN, ONCE, NINE, AT(NOV3, CLOCK(22, 0, 0), LOCAL)),
    CLOSED("2015-11T21/2015-W45T22:00", ANY, ALL, OPEN, ONCE, AT(DAY(2015, 11, 1), CLOCK(21, 0, 0), LOCAL),
           AT(WEEK(2015, 45, 1), CLOCK(22, 0, 0), LOCAL)),
    CLOSED("2015-11-03T21Z/2015-11-02T21Z", ANY, ALL, SETTLED, ONCE, AT(NOV3, CLOCK(21, 0, 0), UTC), NINE_UTC),
    CLOSED("2015-11-02T21:56:42Z/2015-11-03T21:56:42Zx", ANY, 41, SETTLED, ONCE, LATE_UTC, AT(NOV3, CLOCK(21, 56, 42), UTC)),
    CLOSED("2015-11-02T21Z/2015-11-03T21:56:4", ANY, 31, OPEN, ONCE, NINE_UTC, AT(NOV3, CLOCK(21, 56, 0), LOCAL)),
    CLOSED("2015-11-02T21Z/2015-11-03T21:56:7", ANY, 31, SETTLED, ONCE, NINE_UTC, AT(NOV3, CLOCK(21, 56, 0), LOCAL)),
    CLOSED("2015-11-02T21Z/2015-11-03T21:5", ANY, 28, OPEN, ONCE, NINE_UTC, AT(NOV3, CLOCK(21, 0, 0), LOCAL)),
    CLOSED("2015-11-02T21Z/2015-11-03T21-00:00", ANY, 28, SETTLED, ONCE, NINE_UTC, AT(NOV3, CLOCK(21, 0, 0), LOCAL)),
    CLOSED("2015-11-02T21Z/2015-11-03T21/P1D", ANY, 28, SETTLED, ONCE, NINE_UTC, AT(NOV3, CLOCK(21, 0, 0), LOCAL)),
    /* not to its end yet */
    REFUSED("", ANY, 1, OPEN),
    REFUSED("+", ANY, 1, OPEN),
    REFUSED("-", ANY, 1, OPEN),
    REFUSED("2", ANY, 1, OPEN),
    REFUSED("2015-11-02", ANY, 1, OPEN),
    REFUSED("2015-11-02T21:56:42", ANY, 1, OPEN),
    REFUSED("2015-11-02T21:56:42Z", ANY, 1, OPEN),
    REFUSED("2015-11-02T21:56:42Z/", ANY, 1, OPEN),
    REFUSED("2015-11-02T21:56:42Z/2015-11-03", ANY, 1, OPEN),
    REFUSED("2015-11-02T21:56:42Z/2015-11-03T", ANY, 1, OPEN),
    REFUSED("2015-11-02T21:56:42Z/2015-11-03T2", ANY, 1, OPEN),
    /* the lone + with fourteen bytes behind it, and with one fewer */
    FROM("+2015001T21/P1Y", ANY, ALL, OPEN, ONCE, AT(ORDINAL(2015, 1), CLOCK(21, 0, 0), LOCAL), A_YEAR),
    REFUSED("+2015001T21/P1", ANY, 1, OPEN),
    /* nor ever */
    REFUSED("x", ANY, 1, SETTLED),
    REFUSED("/", ANY, 1, SETTLED),
    REFUSED("\xFF", ANY, 1, SETTLED),
    REFUSED("++", ANY, 1, SETTLED),
    REFUSED("/2015-11-02T21", ANY, 1, SETTLED),
    REFUSED("21:56/22:56", ANY, 1, SETTLED),
    REFUSED("0099-01-01T21/P1D", ANY, 1, SETTLED),
    REFUSED("2015-11-02 21:56:42Z/2015-11-03T21", ANY, 1, SETTLED),
    REFUSED("2015-11-02T/2015-11-03T21", ANY, 1, SETTLED),
    REFUSED("2015-11-02T21:56:42Zx", ANY, 1, SETTLED),
    REFUSED("2015-11-02T21:56:42x", ANY, 1, SETTLED),
    REFUSED("2015-11-02T21:5/2015-11-03T21", ANY, 1, SETTLED),
    REFUSED("2015-11-02T21Z//2015-11-03T21", ANY, 1, SETTLED),
    REFUSED("2015-11-02T21Z/2015-11-03x", ANY, 1, SETTLED),
    REFUSED("2015-11-02T21Z/2015-11-03T25", ANY, 1, SETTLED),
    /* a side that is less than a full date-time */
    REFUSED("2015-11-02/2015-11-03", ANY, 1, SETTLED),
    REFUSED("2015-11T21/2015T21", ANY, 1, SETTLED),
    REFUSED("2015-11-02T21/21:30", ANY, 1, SETTLED),

    /* a duration, /, a date-time */
    UNTIL("P1Y2M3DT4H5M6S/2015-11-02T21:56:42Z", ANY, ALL, SETTLED, ONCE, ALL_PARTS, LATE_UTC),
    UNTIL("P1W/2015-11-02T21", ANY, ALL, OPEN, ONCE, LASTING(0, 0, 1, 0, 0, 0, 0), NINE),
    UNTIL("PT0S/20151102T21Z", ANY, ALL, SETTLED, ONCE, LASTING(0, 0, 0, 0, 0, 0, 0), NINE_UTC),
    UNTIL("P18446744073709551615Y/2015-11-02T21Z", ANY, ALL, SETTLED, ONCE, LASTING(UINT64_MAX, 0, 0, 0, 0, 0, 0), NINE_UTC),
    UNTIL("P1Y/2015-11-02T21:56:4", ANY, 20, OPEN, ONCE, A_YEAR, AT(NOV2, CLOCK(21, 56, 0), LOCAL)),
    UNTIL("P1Y/2015-11-02T21:56:42Z/P1D", ANY, 24, SETTLED, ONCE, A_YEAR, LATE_UTC),
    UNTIL("P1Y/2015-11-02T21Z/2015-11-03T21Z", ANY, 18, SETTLED, ONCE, A_YEAR, NINE_UTC),
    /* the duration alone, where no date-time stands behind it */
    ALONE("P1Y/2015-11-02T2", ANY, 3, OPEN, ONCE, A_YEAR),
    ALONE("P1Y/2015-11-02", ANY, 3, OPEN, ONCE, A_YEAR),
    ALONE("P1Y/-", ANY, 3, OPEN, ONCE, A_YEAR),
    ALONE("P1Y/", ANY, 3, OPEN, ONCE, A_YEAR),
    ALONE("P1Y/x", ANY, 3, SETTLED, ONCE, A_YEAR),
    ALONE("P1Y//", ANY, 3, SETTLED, ONCE, A_YEAR),
    ALONE("P1Y/P1M", ANY, 3, SETTLED, ONCE, A_YEAR),
    ALONE("P1Y/R5/2015-11-02T21", ANY, 3, SETTLED, ONCE, A_YEAR),
    ALONE("P1Y/2015-13-02T21Z", ANY, 3, SETTLED, ONCE, A_YEAR),
    ALONE("P1Y/2015-11-02T25", ANY, 3, SETTLED, ONCE, A_YEAR),

    /* a date-time, /, a duration */
    FROM("2015-11-02T21:56:42Z/P1Y2M3DT4H5M6S", ANY, ALL, SETTLED, ONCE, LATE_UTC, ALL_PARTS),
    FROM("2015-11-02T21:56:42Z/P1Y", ANY, ALL, OPEN, ONCE, LATE_UTC, A_YEAR),
    FROM("2015-11-02T21/PT5M", ANY, ALL, OPEN, ONCE, NINE, LASTING(0, 0, 0, 0, 0, 5, 0)),
    FROM("2015-11-02T21/P5H", ANY, ALL, OPEN, ONCE, NINE, LASTING(0, 0, 0, 0, 5, 0, 0)),
    FROM("2015-11-02T21/P1D5M", ANY, ALL, OPEN, ONCE, NINE, LASTING(0, 0, 0, 1, 0, 5, 0)),
    FROM("2015-11-02T21/P0000000000000000000001Y", ANY, ALL, OPEN, ONCE, NINE, A_YEAR),
    FROM("2015-11-02T21/P9223372036854775808D", ANY, ALL, OPEN, ONCE, NINE, LASTING(0, 0, 0, UINT64_C(9223372036854775808), 0, 0, 0)),
    FROM("2015-11-02T21/P1YT", ANY, 17, OPEN, ONCE, NINE, A_YEAR),
    FROM("2015-11-02T21/P1D2Y", ANY, 17, SETTLED, ONCE, NINE, A_DAY),
    FROM("2015-11-02T21/P1Y/P1Y", ANY, 17, SETTLED, ONCE, NINE, A_YEAR),
    FROM("2015-11-02T21/P1Y/2015-11-03T21", ANY, 17, SETTLED, ONCE, NINE, A_YEAR),
    REFUSED("2015-11-02T21/P", ANY, 1, OPEN),
    REFUSED("2015-11-02T21/PT", ANY, 1, OPEN),
    REFUSED("2015-11-02T21/P1", ANY, 1, OPEN),
    REFUSED("2015-11-02T21/Px", ANY, 1, SETTLED),
    REFUSED("2015-11-02T21/p1Y", ANY, 1, SETTLED),

    /* a duration alone: something could always follow but where something else does */
    ALONE("P1Y2M3DT4H5M6S", ANY, ALL, OPEN, ONCE, ALL_PARTS),
    ALONE("PT0S", ANY, ALL, OPEN, ONCE, LASTING(0, 0, 0, 0, 0, 0, 0)),
    ALONE("P5W", ANY, ALL, OPEN, ONCE, LASTING(0, 0, 5, 0, 0, 0, 0)),
    ALONE("P4294967296S", ANY, ALL, OPEN, ONCE, LASTING(0, 0, 0, 0, 0, 0, 4294967296)),
    ALONE("P1YT", ANY, 3, OPEN, ONCE, A_YEAR),
    ALONE("P1Y2", ANY, 3, OPEN, ONCE, A_YEAR),
    ALONE("P1Yx", ANY, 3, SETTLED, ONCE, A_YEAR),
    ALONE("P1YTx", ANY, 3, SETTLED, ONCE, A_YEAR),
    ALONE("P1D2Y", ANY, 3, SETTLED, ONCE, A_DAY),
    ALONE("PT5Sx", ANY, 4, SETTLED, ONCE, LASTING(0, 0, 0, 0, 0, 0, 5)),
    REFUSED("P", ANY, 1, OPEN),
    REFUSED("PT", ANY, 1, OPEN),
    REFUSED("P1", ANY, 1, OPEN),
    REFUSED("Px", ANY, 1, SETTLED),
    REFUSED("PTx", ANY, 1, SETTLED),
    REFUSED("P1x", ANY, 1, SETTLED),
    REFUSED("P,5Y", ANY, 1, SETTLED),

    /* how often */
    ALONE("R/P1Y", ANY, ALL, OPEN, UNLIMITED, A_YEAR),
    ALONE("R0/P1Y", ANY, ALL, OPEN, TIMES(0), A_YEAR),
    ALONE("R5/P1Y", ANY, ALL, OPEN, TIMES(5), A_YEAR),
    ALONE("R007/P1Y", ANY, ALL, OPEN, TIMES(7), A_YEAR),
    ALONE("R4294967295/P1Y", ANY, ALL, OPEN, TIMES(4294967295), A_YEAR),
    ALONE("R00000000000000000004294967295/P1Y", ANY, ALL, OPEN, TIMES(4294967295), A_YEAR),
    ALONE("R1/P1Y/", ANY, 6, OPEN, TIMES(1), A_YEAR),
    ALONE("R1/P1Yx", ANY, 6, SETTLED, TIMES(1), A_YEAR),
    CLOSED("R/2015-11-02T21:56:42Z/2015-11-03T21:56:42Z", ANY, ALL, SETTLED, UNLIMITED, LATE_UTC, AT(NOV3, CLOCK(21, 56, 42), UTC)),
    CLOSED("R12/2015-11-02T21Z/2015-11-03T21", ANY, ALL, OPEN, TIMES(12), NINE_UTC, AT(NOV3, CLOCK(21, 0, 0), LOCAL)),
    UNTIL("R5/P1D/2015-11-02T21Z", ANY, ALL, SETTLED, TIMES(5), A_DAY, NINE_UTC),
    FROM("R5/2015-11-02T21Z/P1D", ANY, ALL, OPEN, TIMES(5), NINE_UTC, A_DAY),
    FROM("R/2015-11-02T21/PT6S", ANY, ALL, SETTLED, UNLIMITED, NINE, LASTING(0, 0, 0, 0, 0, 0, 6)),
    REFUSED("R", ANY, 1, OPEN),
    REFUSED("R/", ANY, 1, OPEN),
    REFUSED("R5", ANY, 1, OPEN),
    REFUSED("R5/", ANY, 1, OPEN),
    REFUSED("R4294967295", ANY, 1, OPEN),
    REFUSED("R5/2015-11-02T21Z", ANY, 1, OPEN),
    REFUSED("Rx", ANY, 1, SETTLED),
    REFUSED("R5x", ANY, 1, SETTLED),
    REFUSED("R5/x", ANY, 1, SETTLED),
    REFUSED("R5P1Y", ANY, 1, SETTLED),
    REFUSED("R//P1Y", ANY, 1, SETTLED),
    REFUSED("R-5/P1Y", ANY, 1, SETTLED),
    REFUSED("R5/R5/P1Y", ANY, 1, SETTLED),
    REFUSED("RR/P1Y", ANY, 1, SETTLED),
    REFUSED("r/P1Y", ANY, 1, SETTLED),

    /* a number above its limit, whatever follows */
    REFUSED("R4294967296", ANY, 2, SETTLED),
    REFUSED("R4294967296/P1Y", ANY, 2, SETTLED),
    REFUSED("R4294967296x", ANY, 2, SETTLED),
    REFUSED("R18446744073709551616/", ANY, 2, SETTLED),
    REFUSED("R99999999999999999999999999999999/x", ANY, 2, SETTLED),
    REFUSED("P18446744073709551616", ANY, 2, SETTLED),
    REFUSED("P18446744073709551616Y/2015-11-02T21Z", ANY, 2, SETTLED),
    REFUSED("P1Y18446744073709551616", ANY, 2, SETTLED),
    REFUSED("R5/P18446744073709551616S", ANY, 2, SETTLED),
    REFUSED("2015-11-02T21/P18446744073709551616S", ANY, 2, SETTLED),
    REFUSED("2015-11-02T21/P1YT18446744073709551616x", ANY, 2, SETTLED),

    /* hour 24: a date-time of no form fails, and what comes next is tried */
    FROM("2015-11-02T24:00/P1D", OF_2004, ALL, OPEN, ONCE, AT(NOV2, CLOCK(24, 0, 0), LOCAL), A_DAY),
    REFUSED("2015-11-02T24:00/P1D", OF_2019, 1, SETTLED),
    CLOSED("2015-11-02T23/2015-11-02T24Z", OF_2004, ALL, SETTLED, ONCE, AT(NOV2, CLOCK(23, 0, 0), LOCAL), AT(NOV2, CLOCK(24, 0, 0), UTC)),
    REFUSED("2015-11-02T23/2015-11-02T24Z", OF_2019, 1, SETTLED),
    UNTIL("P1D/2015-11-02T24:00", OF_2004, ALL, OPEN, ONCE, A_DAY, AT(NOV2, CLOCK(24, 0, 0), LOCAL)),
    ALONE("P1D/2015-11-02T24:00", OF_2019, 3, SETTLED, ONCE, A_DAY),
    ALONE("P1D/2015-11-02T24:30", ANY, 3, SETTLED, ONCE, A_DAY),
    REFUSED("2015-11-02T24:30/P1D", ANY, 1, SETTLED),
    REFUSED("2015-11-02T24:3/P1D", ANY, 1, SETTLED),
    REFUSED("2015-11-02T24:3", ANY, 1, SETTLED),
    REFUSED("2015-11-02T24:0", OF_2004, 1, OPEN),
    REFUSED("2015-11-02T24:0", OF_2019, 1, SETTLED),

    /* fractions in both readings */
    FROM("2015-11-02T21:56:42.1234567891/P1D", ANY, ALL, OPEN, ONCE, FINE(NOV2, CLOCK(21, 56, 42), 123456789, LOCAL, 9), A_DAY),
    FROM("2015-11-02T21:56.5/P1D", OLD, ALL, OPEN, ONCE, FINE(NOV2, CLOCK(21, 56, 0), 500000000, LOCAL, 1), A_DAY),
    FROM("2015-11-02T21:56.5/P1D", STANDARD, ALL, OPEN, ONCE, AT(NOV2, CLOCK(21, 56, 30), LOCAL), A_DAY),
    FROM("2015-11-02T21.5Z/P1D", STANDARD, ALL, OPEN, ONCE, AT(NOV2, CLOCK(21, 30, 0), UTC), A_DAY),
    REFUSED("2015-11-02T21.5Z/P1D", OLD, 1, SETTLED),
    UNTIL("P1D/2015-11-02T21.5", STANDARD, ALL, OPEN, ONCE, A_DAY, AT(NOV2, CLOCK(21, 30, 0), LOCAL)),
    UNTIL("P1D/2015-11-02T21.5", OLD, 17, SETTLED, ONCE, A_DAY, NINE),
};

/* One answer, slot by slot. */
static const char laid_out[] = "R5/2015-11-02T21:56:42.25+01:30/P1Y2M3W4DT5H6M7S";
static const int64_t layout[33] = {
    48, -1, 2, 5, 2,                                                /* all bytes, no verdict, 5 times, a date-time and a duration */
    0, 0, 0, 2015, 11, 2, 21, 56, 42, 250000000, 1, 1, 30, 2,       /* the date-time, with its offset and its two digits */
    0, 0, 1, 2, 3, 4, 5, 6, 7, 0, 0, 0, 0, 0,                       /* the duration */
};

static unsigned long calls = 0;

static void expect(int holds, const char *what, const char *text, uint32_t choices)
{
    calls++;
    if (!holds) {
        fprintf(stderr, "spans.c: %s: %s, under %" PRIu32 "\n", what, text, choices);
        exit(1);
    }
}

static void fill(int64_t *slots)
{
    int slot;

    for (slot = 0; slot < ROOM; slot++)
        slots[slot] = FILLING;
}

static int same(const int64_t *slots, const int64_t *wanted)
{
    return memcmp(slots, wanted, ROOM * sizeof *slots) == 0;
}

static void want_stamp(int64_t *side, const struct stamp *x)
{
    side[TIROZHBAR_DATETIME_FORM] = x->form;
    side[TIROZHBAR_DATETIME_YEAR] = x->year;
    side[TIROZHBAR_DATETIME_PART] = x->part;
    side[TIROZHBAR_DATETIME_DAY] = x->day;
    side[TIROZHBAR_DATETIME_HOUR] = x->hour;
    side[TIROZHBAR_DATETIME_MINUTE] = x->minute;
    side[TIROZHBAR_DATETIME_SECOND] = x->second;
    side[TIROZHBAR_DATETIME_NANOSECOND] = x->nanosecond;
    side[TIROZHBAR_DATETIME_OFFSET_GIVEN] = x->given;
    side[TIROZHBAR_DATETIME_OFFSET_HOURS] = x->hours;
    side[TIROZHBAR_DATETIME_OFFSET_MINUTES] = x->minutes;
    side[TIROZHBAR_DATETIME_DIGITS] = x->digits;
}

static void want_lasting(int64_t *side, const struct lasting *d)
{
    side[TIROZHBAR_DURATION_YEARS] = (int64_t)d->years;
    side[TIROZHBAR_DURATION_MONTHS] = (int64_t)d->months;
    side[TIROZHBAR_DURATION_WEEKS] = (int64_t)d->weeks;
    side[TIROZHBAR_DURATION_DAYS] = (int64_t)d->days;
    side[TIROZHBAR_DURATION_HOURS] = (int64_t)d->hours;
    side[TIROZHBAR_DURATION_MINUTES] = (int64_t)d->minutes;
    side[TIROZHBAR_DURATION_SECONDS] = (int64_t)d->seconds;
}

static int begins_with_stamp(int64_t shape)
{
    return shape == TIROZHBAR_DATETIME_DATETIME || shape == TIROZHBAR_DATETIME_DURATION;
}

/* The slots of a record. */
static void want_record(int64_t *slots, const struct row *row)
{
    int64_t *first = slots + TIROZHBAR_INTERVAL_FIRST, *second = slots + TIROZHBAR_INTERVAL_SECOND;

    memset(slots, 0, SLOTS * sizeof *slots);
    slots[TIROZHBAR_INTERVAL_REPEAT] = row->repeat;
    slots[TIROZHBAR_INTERVAL_TIMES] = row->times;
    slots[TIROZHBAR_INTERVAL_SHAPE] = row->shape;
    if (row->start)
        want_stamp(first, row->start);
    if (row->end)
        want_stamp(second, row->end);
    if (row->lasting)
        want_lasting(begins_with_stamp(row->shape) ? second : first, row->lasting);
}

/* A side that a writer takes from where it stands, and a reader gives back. */
static void written(int64_t *slots, size_t at, int is_stamp, const char *of, uint32_t choices)
{
    int64_t before[ROOM], back[TIROZHBAR_DATETIME_SLOTS] = {0};
    uint8_t text[TEXT];
    uint32_t number;

    memcpy(before, slots, sizeof before);
    number = is_stamp ? tirozhbar_write_datetime(slots + at, TIROZHBAR_DATETIME_SLOTS, text, sizeof text, choices)
                      : tirozhbar_write_duration(slots + at, TIROZHBAR_DURATION_SLOTS, text, sizeof text);
    expect(number == TIROZHBAR_RECORD, "a side that is written", of, choices);
    before[at + TIROZHBAR_COUNT] = slots[at + TIROZHBAR_COUNT];
    expect(same(slots, before), "what a side's writer leaves", of, choices);
    number = is_stamp ? tirozhbar_parse_datetime(text, (size_t)slots[at], back, TIROZHBAR_DATETIME_SLOTS, choices)
                      : tirozhbar_parse_duration(text, (size_t)slots[at], back, TIROZHBAR_DATETIME_SLOTS);
    expect(number == TIROZHBAR_RECORD && memcmp(back + 2, slots + at + 2, sizeof back - 2 * sizeof *back) == 0, "a side read back", of, choices);
}

static void sides_written(int64_t *slots, const struct row *row, uint32_t choices)
{
    written(slots, TIROZHBAR_INTERVAL_FIRST, begins_with_stamp(row->shape), row->text, choices);
    if (row->shape != TIROZHBAR_DURATION_ALONE)
        written(slots, TIROZHBAR_INTERVAL_SECOND, row->end != NULL, row->text, choices);
}

/* No slot is written where there are too few, or where a number names no choices. */
static void untouched(const uint8_t *text, size_t length, const char *of, uint32_t choices)
{
    int64_t slots[ROOM], wanted[ROOM];
    size_t room;

    fill(slots);
    fill(wanted);
    for (room = 0; room < SLOTS; room++) {
        expect(tirozhbar_interval(text, length, slots, room, choices) == TIROZHBAR_TOO_FEW, "few slots", of, choices);
        expect(tirozhbar_parse_interval(text, length, slots, room, choices) == TIROZHBAR_TOO_FEW, "few slots, whole", of, choices);
    }
    for (room = 0; room <= ROOM; room += SLOTS - 1) {
        expect(tirozhbar_interval(text, length, slots, room, CHOICES) == TIROZHBAR_NO_SUCH_CHOICE, "no choice", of, CHOICES);
        expect(tirozhbar_parse_interval(text, length, slots, room, UINT32_MAX) == TIROZHBAR_NO_SUCH_CHOICE, "no choice, whole", of, UINT32_MAX);
    }
    expect(same(slots, wanted), "a slot that was written", of, choices);
}

static void reads(const struct row *row, uint32_t choices)
{
    int64_t slots[ROOM], wanted[ROOM];
    size_t length = strlen(row->text);
    uint8_t *text = malloc(length ? length : 1);
    int64_t count = row->count == ALL ? (int64_t)length : row->count;
    int left_over = row->number == 0 && count < (int64_t)length;

    if (!text)
        exit(2);
    memcpy(text, row->text, length);
    fill(slots);
    fill(wanted);
    if (row->number == 0)
        want_record(wanted, row);
    wanted[TIROZHBAR_COUNT] = count;
    wanted[TIROZHBAR_VERDICT] = row->verdict;
    expect(tirozhbar_interval(text, length, slots, SLOTS, choices) == row->number, "the number", row->text, choices);
    expect(same(slots, wanted), "the slots", row->text, choices);
    if (row->number == 0)
        sides_written(slots, row, choices);

    fill(slots);
    if (left_over)
        fill(wanted);
    wanted[TIROZHBAR_COUNT] = count;
    wanted[TIROZHBAR_VERDICT] = TIROZHBAR_NO_VERDICT;
    expect(tirozhbar_parse_interval(text, length, slots, ROOM, choices) == (left_over ? TIROZHBAR_LEFT_OVER : row->number), "the number, whole",
           row->text, choices);
    expect(same(slots, wanted), "the slots, whole", row->text, choices);
    untouched(text, length, row->text, choices);
    expect(memcmp(text, row->text, length) == 0, "the text", row->text, choices);
    free(text);
}

int main(void)
{
    int64_t slots[ROOM], wanted[ROOM];
    size_t row;
    uint32_t choices;

    fill(slots);
    fill(wanted);
    memcpy(wanted, layout, sizeof layout);
    expect(sizeof layout == SLOTS * sizeof *layout, "the number of slots", laid_out, 0);
    expect(tirozhbar_parse_interval((const uint8_t *)laid_out, strlen(laid_out), slots, SLOTS, 0) == TIROZHBAR_RECORD, "one answer", laid_out, 0);
    expect(same(slots, wanted), "its slots, one by one", laid_out, 0);
    for (row = 0; row < sizeof rows / sizeof *rows; row++)
        for (choices = 0; choices < CHOICES; choices++)
            if (rows[row].under >> choices & 1)
                reads(&rows[row], choices);
    printf("%lu checks of intervals, all as they have to be\n", calls);
    return 0;
}
