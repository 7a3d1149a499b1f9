/* tirozhbar.h: ISO 8601 offsets, times, dates, date-times and durations, read from bytes and written to them; intervals, read from bytes;
 * what broke a text; and how far apart two stamps are.
 *
 * Link with libexports.a, which `rt lib` in crates/exports writes into out/ there; for tirozhbar_interval and tirozhbar_parse_interval with
 * libspans.a, which it writes in crates/spans, for tirozhbar_why with libwhys.a, in crates/whys, and for tirozhbar_apart with libaparts.a,
 * in crates/aparts. The code is proved to do what is said here on every input, where the bytes at TEXT and the slots lie apart. A reader
 * reads the LENGTH bytes at TEXT and writes at most the slots that its kind has; a writer reads those slots, and writes slot 0 and at most
 * the LENGTH bytes at TEXT. No function keeps a state or calls anything.
 *
 * A reader fills an array of ROOM slots and returns a number:
 *
 *     TIROZHBAR_RECORD            0  a record
 *     TIROZHBAR_NO_FORM           1  the bytes begin with no such form
 *     TIROZHBAR_TOO_BIG           2  a number of a duration is above 18446744073709551615, or how often an interval repeats above 4294967295
 *     TIROZHBAR_LEFT_OVER         3  tirozhbar_parse_* alone: a record, but bytes are left over
 *     TIROZHBAR_NO_SUCH_CHOICE  254  CHOICES names none; nothing was written
 *     TIROZHBAR_TOO_FEW         255  ROOM is below the kind's number of slots; nothing was written
 *
 * Slot 0 holds the bytes that the record takes (0 after 1 and 2, the form's bytes after 3). Slot 1 holds the verdict:
 *
 *     TIROZHBAR_SETTLED    0  every longer text gets the same answer
 *     TIROZHBAR_OPEN       1  some longer text gets another
 *     TIROZHBAR_NO_VERDICT -1 always, after tirozhbar_parse_*
 *
 * Where it is open, another answer is not far: with some 2 bytes behind it, or fewer (offsets and times), 3 (durations), 7 (dates), 10
 * (date-times) or 14 (intervals), the text gets one. These numbers are the least that serve every text.
 *
 * The record stands from slot 2 on. After anything but 0 the slots from 2 on are left as they were, and so always are the slots past
 * the kind's number.
 *
 * A writer takes the record from slot 2 on, where a reader leaves it; it does not look at slot 1. It puts the record's one spelling at
 * the front of the LENGTH bytes at TEXT, the text's length into slot 0, and returns a number:
 *
 *     TIROZHBAR_RECORD            0  written
 *     TIROZHBAR_NO_READER         4  no reader leaves such slots; slot 0 is 0
 *     TIROZHBAR_TOO_SHORT         5  LENGTH is below the text's length; slot 0 is 0
 *     TIROZHBAR_NO_SUCH_CHOICE  254  CHOICES names none; no slot was written
 *     TIROZHBAR_TOO_FEW         255  ROOM is below the kind's number of slots; no slot was written
 *
 * After anything but 0 all bytes at TEXT are as they were, and the bytes behind the text always are. No 0 byte is put behind it.
 *
 * Times and date-times are read and written, and intervals read, under CHOICES, a number that names the edition of ISO 8601 and what a
 * fraction counts as:
 *
 *     TIROZHBAR_2019              0  hours are 00 to 23
 *     TIROZHBAR_2004              1  so is 24, the end of a day
 *     TIROZHBAR_STANDARD          2  added to one of these: a fraction is one of the smallest unit written
 *
 * Any other number gets 254, before ROOM is looked at. Without TIROZHBAR_STANDARD a fraction is one of a second, also where no second was
 * written, and none may follow an hour. With it 21:56.5 is 21:56:30, and 21.5 is 21:30:00: the digits are cut or padded with zeros to nine,
 * and count that many times 60 nanoseconds after a minute and 3600 after an hour. DIGITS is then 0 where the nanosecond is 0, and 9
 * elsewhere. After a second nothing differs. What either leaves is written alike, with its second, and is read back by both.
 *
 * Under 2004 hour 24 is a record if the minute and the second that are read and every digit of the fraction are 0; else the number is 1.
 * The record's hour is 24, and a date-time keeps the date that stands before it. Such a record is written for 2004 alone: for 2019 no
 * reader leaves it, and the number is 4.
 *
 * tirozhbar_why says what broke a text, under TIROZHBAR_2019: it reads the LENGTH bytes at TEXT, writes a number to PLACE, which lies apart
 * from them, and returns another:
 *
 *     TIROZHBAR_OK                0  tirozhbar_parse_* gives a record; PLACE is LENGTH
 *     TIROZHBAR_EARLY             1  it does not, but it would with some more bytes behind the text; PLACE is LENGTH
 *     TIROZHBAR_BAD               2  it would not, whatever bytes follow. PLACE is the index of the first bad byte: the bytes before it could
 *                                    still be completed, or are a record, and with that byte nothing completes them
 *     TIROZHBAR_NO_SUCH_KIND    253  KIND is none of the five letters; nothing was written
 *
 * tirozhbar_apart says how far apart two stamps are. It reads the FIRST_LENGTH bytes at FIRST and the SECOND_LENGTH bytes at SECOND, which may
 * be the same bytes, as tirozhbar_parse_datetime does under CHOICES, fills three slots, which lie apart from both, and returns a number:
 *
 *     TIROZHBAR_RECORD            0  the second minus the first stands in SECONDS and NANOSECONDS
 *     TIROZHBAR_NO_FORM           1  a text begins with no date-time
 *     TIROZHBAR_LEFT_OVER         3  it does, but bytes are left over
 *     TIROZHBAR_NO_DAY            8  a month or a year lacks the day
 *     TIROZHBAR_NO_OFFSET         9  a stamp has no offset
 *     TIROZHBAR_NO_SUCH_CHOICE  254  CHOICES names none; nothing was written
 *     TIROZHBAR_TOO_FEW         255  ROOM is below 3; nothing was written
 *
 * The difference is exact, and SECONDS lies from -631107763081 to 631107763080. NANOSECONDS is 0 to 999999999, also where SECONDS is below 0,
 * the second lying before the first: half a second earlier is -1 and 500000000. No leap second is counted. Days are Gregorian throughout,
 * with a year 0 between -1 and 1; weeks begin on Monday, and week 1 holds 4 January. Second 60 is the next minute's second 0, and hour 24 is
 * the next day. Where more than one thing is the matter, the number is the first of these: 1 or 3 of the first text, 1 or 3 of the second, 8
 * of the first, 9 of the first, 8 of the second, 9 of the second. REFUSED then says which text it is of, and SECONDS and NANOSECONDS are 0.
 * The slots past the third are always left as they were.
 */
#ifndef TIROZHBAR_H
#define TIROZHBAR_H

#include <stddef.h>
#include <stdint.h>

#ifdef __cplusplus
extern "C" {
#endif

enum {
    TIROZHBAR_RECORD = 0,
    TIROZHBAR_NO_FORM = 1,
    TIROZHBAR_TOO_BIG = 2,
    TIROZHBAR_LEFT_OVER = 3,
    TIROZHBAR_NO_READER = 4,
    TIROZHBAR_TOO_SHORT = 5,
    TIROZHBAR_NO_DAY = 8,
    TIROZHBAR_NO_OFFSET = 9,
    TIROZHBAR_NO_SUCH_KIND = 253,
    TIROZHBAR_NO_SUCH_CHOICE = 254,
    TIROZHBAR_TOO_FEW = 255
};

/* The choices. */
enum { TIROZHBAR_2019 = 0, TIROZHBAR_2004 = 1, TIROZHBAR_STANDARD = 2 };

enum { TIROZHBAR_SETTLED = 0, TIROZHBAR_OPEN = 1, TIROZHBAR_NO_VERDICT = -1 };

/* The slots of every kind. */
enum { TIROZHBAR_COUNT = 0, TIROZHBAR_VERDICT = 1 };

/* An offset from UTC. Hours and minutes carry the same sign, or are zero: -00:30 is 0 and -30. */
enum { TIROZHBAR_OFFSET_HOURS = 2, TIROZHBAR_OFFSET_MINUTES = 3, TIROZHBAR_OFFSET_SLOTS = 4 };

/* A time. Without an offset its three slots are 0; with one, GIVEN is 1. DIGITS is the number of digits that the fraction was written with,
 * 9 where they were more; without a fraction it is 0. (After a minute or an hour with TIROZHBAR_STANDARD: see above.) */
enum {
    TIROZHBAR_TIME_HOUR = 2,
    TIROZHBAR_TIME_MINUTE = 3,
    TIROZHBAR_TIME_SECOND = 4,
    TIROZHBAR_TIME_NANOSECOND = 5,
    TIROZHBAR_TIME_OFFSET_GIVEN = 6,
    TIROZHBAR_TIME_OFFSET_HOURS = 7,
    TIROZHBAR_TIME_OFFSET_MINUTES = 8,
    TIROZHBAR_TIME_DIGITS = 9,
    TIROZHBAR_TIME_SLOTS = 10
};

/* A date: FORM says which of the three it is. PART is the month of a calendar date, the week of a week date, and 0 of an ordinal
 * date, whose DAY is the day of the year. */
enum { TIROZHBAR_CALENDAR = 0, TIROZHBAR_WEEK = 1, TIROZHBAR_ORDINAL = 2 };
enum {
    TIROZHBAR_DATE_FORM = 2,
    TIROZHBAR_DATE_YEAR = 3,
    TIROZHBAR_DATE_PART = 4,
    TIROZHBAR_DATE_DAY = 5,
    TIROZHBAR_DATE_SLOTS = 6
};

/* A date-time: the date's slots, and the time's four further on. */
enum {
    TIROZHBAR_DATETIME_FORM = 2,
    TIROZHBAR_DATETIME_YEAR = 3,
    TIROZHBAR_DATETIME_PART = 4,
    TIROZHBAR_DATETIME_DAY = 5,
    TIROZHBAR_DATETIME_HOUR = 6,
    TIROZHBAR_DATETIME_MINUTE = 7,
    TIROZHBAR_DATETIME_SECOND = 8,
    TIROZHBAR_DATETIME_NANOSECOND = 9,
    TIROZHBAR_DATETIME_OFFSET_GIVEN = 10,
    TIROZHBAR_DATETIME_OFFSET_HOURS = 11,
    TIROZHBAR_DATETIME_OFFSET_MINUTES = 12,
    TIROZHBAR_DATETIME_DIGITS = 13,
    TIROZHBAR_DATETIME_SLOTS = 14
};

/* A duration. An absent part is 0. A number has 64 bits and no sign, and its slot has the same bits: it is (uint64_t)slots[i], and a
 * writer is handed (int64_t)n. A slot that is below 0 is a number from 9223372036854775808 on, so that every seven slots hold a duration. */
enum {
    TIROZHBAR_DURATION_YEARS = 2,
    TIROZHBAR_DURATION_MONTHS = 3,
    TIROZHBAR_DURATION_WEEKS = 4,
    TIROZHBAR_DURATION_DAYS = 5,
    TIROZHBAR_DURATION_HOURS = 6,
    TIROZHBAR_DURATION_MINUTES = 7,
    TIROZHBAR_DURATION_SECONDS = 8,
    TIROZHBAR_DURATION_SLOTS = 9
};

/* An interval. REPEAT says how often: once, where no R stands in front; without a number, after R/; or TIMES times, after R5/. In the other
 * two cases TIMES is 0. SHAPE says what the sides are, in the order of the text. A side has the slots of its kind, from FIRST and from SECOND
 * on: the first side's year is slots[TIROZHBAR_INTERVAL_FIRST + TIROZHBAR_DATETIME_YEAR]. Its own COUNT and VERDICT are 0, and so are the
 * slots behind a duration's, and all of the second side where a duration stands alone. So a writer takes a side from where it stands, as
 * tirozhbar_write_datetime(slots + TIROZHBAR_INTERVAL_SECOND, TIROZHBAR_DATETIME_SLOTS, ..) does, and leaves the text's length in the side's
 * own COUNT. */
enum { TIROZHBAR_ONCE = 0, TIROZHBAR_UNLIMITED = 1, TIROZHBAR_TIMES = 2 };
enum {
    TIROZHBAR_DATETIME_DATETIME = 0,
    TIROZHBAR_DURATION_DATETIME = 1,
    TIROZHBAR_DATETIME_DURATION = 2,
    TIROZHBAR_DURATION_ALONE = 3
};
enum {
    TIROZHBAR_INTERVAL_REPEAT = 2,
    TIROZHBAR_INTERVAL_TIMES = 3,
    TIROZHBAR_INTERVAL_SHAPE = 4,
    TIROZHBAR_INTERVAL_FIRST = 5,
    TIROZHBAR_INTERVAL_SECOND = 19,
    TIROZHBAR_INTERVAL_SLOTS = 33
};

/* The offset that the text begins with: Z, or a sign, hours and perhaps minutes. 4 slots. */
uint32_t tirozhbar_offset(const uint8_t *text, size_t length, int64_t *slots, size_t room);
/* A text that is one offset from its first byte to its last. 4 slots. */
uint32_t tirozhbar_parse_offset(const uint8_t *text, size_t length, int64_t *slots, size_t room);

/* The time that the text begins with: T21:56:42.123+01:00, or less of it. 10 slots. */
uint32_t tirozhbar_time(const uint8_t *text, size_t length, int64_t *slots, size_t room, uint32_t choices);
/* A text that is one time from its first byte to its last. 10 slots. */
uint32_t tirozhbar_parse_time(const uint8_t *text, size_t length, int64_t *slots, size_t room, uint32_t choices);

/* The date that the text begins with: 2015-11-02, 20151102, 2015-W45-1, 2015-306. 6 slots. */
uint32_t tirozhbar_date(const uint8_t *text, size_t length, int64_t *slots, size_t room);
/* A text that is one date from its first byte to its last. 6 slots. */
uint32_t tirozhbar_parse_date(const uint8_t *text, size_t length, int64_t *slots, size_t room);

/* The date-time that the text begins with: a date, T, a time. 14 slots. */
uint32_t tirozhbar_datetime(const uint8_t *text, size_t length, int64_t *slots, size_t room, uint32_t choices);
/* A text that is one date-time from its first byte to its last. 14 slots. */
uint32_t tirozhbar_parse_datetime(const uint8_t *text, size_t length, int64_t *slots, size_t room, uint32_t choices);

/* The duration that the text begins with: P1Y2M3DT4H5M6S, P5W. 9 slots. */
uint32_t tirozhbar_duration(const uint8_t *text, size_t length, int64_t *slots, size_t room);
/* A text that is one duration from its first byte to its last. 9 slots. */
uint32_t tirozhbar_parse_duration(const uint8_t *text, size_t length, int64_t *slots, size_t room);

/* The interval that the text begins with: date-time/date-time, duration/date-time, date-time/duration or a duration alone, with R/ or R5/ in
 * front or not. 33 slots. */
uint32_t tirozhbar_interval(const uint8_t *text, size_t length, int64_t *slots, size_t room, uint32_t choices);
/* A text that is one interval from its first byte to its last. 33 slots. */
uint32_t tirozhbar_parse_interval(const uint8_t *text, size_t length, int64_t *slots, size_t room, uint32_t choices);

/* The longest spelling of each kind that is written, in bytes. */
enum {
    TIROZHBAR_OFFSET_LONGEST = 6,
    TIROZHBAR_TIME_LONGEST = 24,
    TIROZHBAR_DATE_LONGEST = 11,
    TIROZHBAR_DATETIME_LONGEST = 36,
    TIROZHBAR_DURATION_LONGEST = 149
};

/* Z, or a sign and HH:MM. 4 slots. */
uint32_t tirozhbar_write_offset(int64_t *slots, size_t room, uint8_t *text, size_t length);
/* HH:MM:SS, a point and the first DIGITS of the nine digits of NANOSECOND if DIGITS is not 0, then nothing or the offset. DIGITS is
 * at most 9 and the digits behind are 0, or no reader leaves such slots. 10 slots. */
uint32_t tirozhbar_write_time(int64_t *slots, size_t room, uint8_t *text, size_t length, uint32_t choices);
/* YYYY-MM-DD, YYYY-Www-D or YYYY-DDD by the form, with - in front of a negative year. 6 slots. */
uint32_t tirozhbar_write_date(int64_t *slots, size_t room, uint8_t *text, size_t length);
/* The date, T and the time. 14 slots. */
uint32_t tirozhbar_write_datetime(int64_t *slots, size_t room, uint8_t *text, size_t length, uint32_t choices);
/* The parts that are not 0, with T before time parts; PT0S where all are 0. 9 slots. */
uint32_t tirozhbar_write_duration(int64_t *slots, size_t room, uint8_t *text, size_t length);

/* What tirozhbar_why returns, beside TIROZHBAR_NO_SUCH_KIND. */
enum { TIROZHBAR_OK = 0, TIROZHBAR_EARLY = 1, TIROZHBAR_BAD = 2 };

/* What broke the text, of the kind that KIND names: 'd' date, 't' time, 'o' offset, 's' date-time, 'p' duration. */
uint32_t tirozhbar_why(uint8_t kind, const uint8_t *text, size_t length, uint64_t *place);

/* How far apart two stamps are: REFUSED is the text that the number is of. */
enum { TIROZHBAR_REFUSED_NEITHER = 0, TIROZHBAR_REFUSED_FIRST = 1, TIROZHBAR_REFUSED_SECOND = 2 };
enum {
    TIROZHBAR_APART_SECONDS = 0,
    TIROZHBAR_APART_NANOSECONDS = 1,
    TIROZHBAR_APART_REFUSED = 2,
    TIROZHBAR_APART_SLOTS = 3
};

/* The second text's stamp minus the first's. 3 slots. */
uint32_t tirozhbar_apart(const uint8_t *first, size_t first_length, const uint8_t *second, size_t second_length, int64_t *slots, size_t room,
                         uint32_t choices);

#ifdef __cplusplus
}
#endif

#endif
