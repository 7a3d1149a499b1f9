/* calls READER TEXT N: calls a reader N times on a text. With N = 0 it is called once, and what it answers is printed.
 * calls READER -TEXT N: the same, and each call is made of one on each beginning of the text, from no byte to all.
 * calls WRITER TEXT N: reads the text once, and calls a writer N times on what was read. With N = 0 it is called once, and has to
 * write that text. Exit status: 1 where it doesn't, 2 where the call can't be made.
 * calls COUNTER TEXT N: calls a function of pieces, or one that it is held against, N times on a text behind the letter of its kind, as
 * sTEXT for a date-time. With N = 0 it is called once, and its count is printed.
 * calls DIFFER 'TEXT TEXT' N: calls what tells how far apart two stamps are, N times on these. With N = 0 it is called once, and what it
 * answers is printed, in seconds and 0 to 999,999,999 nanoseconds. */
#define _XOPEN_SOURCE 700
#include <stdio.h>
#include <stdlib.h>
#include <string.h>
#include <time.h>
#include "tirozhbar.h"

/* Every reader is called in one way, and leaves what it read in the slots. */
typedef uint32_t reader(const uint8_t *text, size_t length, int64_t *slots, size_t room);
/* So is every writer. It finds what was read from slot 2 on, and leaves the length of its text in slot 0. */
typedef uint32_t writer(int64_t *slots, size_t room, uint8_t *text, size_t length);
/* A counter gives a count of bytes alone. */
typedef size_t counter(uint8_t letter, const uint8_t *text, size_t length);
/* What tells how far apart two stamps are leaves seconds in slot 0, and nanoseconds in 32 bits of slot 1, perhaps both below zero. */
typedef uint32_t differ(const uint8_t *first, size_t first_length, const uint8_t *second, size_t second_length, int64_t *slots, size_t room,
                        uint32_t choices);

#define PEERS(X)                                                                                                       \
    X(original_date) X(original_time) X(original_offset) X(original_datetime) X(original_duration)                     \
    X(chrono_date) X(chrono_basic) X(chrono_week) X(chrono_ordinal) X(chrono_time) X(chrono_datetime) X(chrono_stamp)  \
    X(time_date) X(time_basic) X(time_week) X(time_ordinal) X(time_time) X(time_offset) X(time_datetime) X(time_stamp) \
    X(iso8601_date) X(iso8601_time) X(iso8601_datetime) X(iso8601_duration)
#define OURS(X)                                                                                                        \
    X(tirozhbar_date) X(tirozhbar_offset) X(tirozhbar_duration)                                                        \
    X(tirozhbar_parse_date) X(tirozhbar_parse_offset) X(tirozhbar_parse_duration)
/* Those of ours that take the caller's choices too. */
#define OURS_CHOOSING(X)                                                                                               \
    X(tirozhbar_time) X(tirozhbar_datetime) X(tirozhbar_parse_time) X(tirozhbar_parse_datetime)
/* Each writer with the reader of what it writes, and the slot that this reader starts at: ours leaves two for its answer. */
#define OUR_WRITERS(X)                                                                                                 \
    X(tirozhbar_write_date, tirozhbar_date, 0) X(tirozhbar_write_offset, tirozhbar_offset, 0)                          \
    X(tirozhbar_write_duration, tirozhbar_duration, 0)
#define OUR_WRITERS_CHOOSING(X)                                                                                        \
    X(tirozhbar_write_time, tirozhbar_time, 0) X(tirozhbar_write_datetime, tirozhbar_datetime, 0)
#define PEER_WRITERS(X)                                                                                                \
    X(chrono_write_date, chrono_date, 2) X(chrono_write_time, chrono_time, 2) X(chrono_write_stamp, chrono_stamp, 2)   \
    X(time_write_date, time_date, 2) X(time_write_time, time_time, 2) X(time_write_stamp, time_stamp, 2)               \
    X(write_nothing, nothing, 2)
#define COUNTERS(X)                                                                                                    \
    X(tirozhbar_one_piece) X(tirozhbar_at_once) X(tirozhbar_byte_by_byte) X(tirozhbar_afresh)
#define PEER_DIFFERS(X)                                                                                                \
    X(chrono_apart) X(time_apart) X(nothing_apart)

#define DECLARE(NAME) reader NAME;
PEERS(DECLARE)
void peers_start(void);
reader nothing;
#define DECLARE_WRITER(NAME, READER, START) writer NAME;
PEER_WRITERS(DECLARE_WRITER)
#define DECLARE_COUNTER(NAME) counter NAME;
COUNTERS(DECLARE_COUNTER)
#define DECLARE_DIFFER(NAME) differ NAME;
PEER_DIFFERS(DECLARE_DIFFER)

/* Document 01's choices are made here: that takes a call two instructions, which are counted as ours. */
#define CHOOSE(NAME)                                                                                                   \
    static uint32_t NAME##_2019(const uint8_t *text, size_t length, int64_t *slots, size_t room) {                    \
        return NAME(text, length, slots, room, TIROZHBAR_2019);                                                        \
    }
OURS_CHOOSING(CHOOSE)
#define CHOOSE_WRITER(NAME, READER, START)                                                                             \
    static uint32_t NAME##_2019(int64_t *slots, size_t room, uint8_t *text, size_t length) {                          \
        return NAME(slots, room, text, length, TIROZHBAR_2019);                                                        \
    }
OUR_WRITERS_CHOOSING(CHOOSE_WRITER)

/* glibc's strptime, at the one form that each of these names. */
static uint32_t by_strptime(const char *form, const uint8_t *text, int64_t *slots) {
    return strptime((const char *)text, form, (struct tm *)slots) ? 0 : 1;
}
#define STRPTIME(NAME, FORM)                                                                                           \
    static uint32_t NAME(const uint8_t *text, size_t length, int64_t *slots, size_t room) {                           \
        (void)length, (void)room;                                                                                      \
        return by_strptime(FORM, text, slots);                                                                         \
    }
STRPTIME(strptime_date, "%Y-%m-%d")
STRPTIME(strptime_basic, "%Y%m%d")
STRPTIME(strptime_week, "%G-W%V-%u")
STRPTIME(strptime_ordinal, "%Y-%j")
STRPTIME(strptime_time, "%H:%M:%S")
STRPTIME(strptime_datetime, "%Y-%m-%dT%H:%M:%S")

/* A counter that does nothing: what its call costs by itself. It is called through the table alone, so the call is made. */
static size_t count_nothing(uint8_t letter, const uint8_t *text, size_t length) {
    (void)letter, (void)text, (void)length;
    return 0;
}

#define ROW(NAME) {#NAME, NAME},
#define ROW_2019(NAME) {#NAME, NAME##_2019},
static const struct {
    const char *name;
    reader *reader;
} readers[] = {OURS(ROW) OURS_CHOOSING(ROW_2019) PEERS(ROW) ROW(nothing) ROW(strptime_date) ROW(strptime_basic)
                   ROW(strptime_week) ROW(strptime_ordinal) ROW(strptime_time) ROW(strptime_datetime)};

#define WRITER_ROW(NAME, READER, START) {#NAME, NAME, READER, START},
#define WRITER_ROW_2019(NAME, READER, START) {#NAME, NAME##_2019, READER##_2019, START},
static const struct {
    const char *name;
    writer *writer;
    reader *reader;
    size_t start;
} writers[] = {OUR_WRITERS(WRITER_ROW) OUR_WRITERS_CHOOSING(WRITER_ROW_2019) PEER_WRITERS(WRITER_ROW)};

static const struct {
    const char *name;
    counter *counter;
} counters[] = {COUNTERS(ROW) ROW(count_nothing)};

static const struct {
    const char *name;
    differ *differ;
} differs[] = {ROW(tirozhbar_apart) PEER_DIFFERS(ROW)};

enum { ROOM = 64 };
static int64_t slots[ROOM];

static int read_once(reader *read, const char *text) {
    uint32_t number = read((const uint8_t *)text, strlen(text), slots, ROOM);
    printf("%u:", number);
    for (int i = 0; i < 14; i++) printf(" %lld", (long long)slots[i]);
    puts("");
    return 0;
}

/* The beginnings are made before the calls, each with a zero behind it for strptime. */
static int read_beginnings(reader *read, const char *text, long n) {
    size_t length = strlen(text);
    char *beginnings = calloc(length + 1, length + 1);
    if (!beginnings) return 2;
    for (size_t k = 0; k <= length; k++) memcpy(beginnings + k * (length + 1), text, k);
    for (long i = 0; i < n; i++)
        for (size_t k = 0; k <= length; k++)
            read((const uint8_t *)beginnings + k * (length + 1), k, slots, ROOM);
    free(beginnings);
    return 0;
}

static int read_text(reader *read, const char *text, long n) {
    int cut = text[0] == '-';
    size_t length = strlen(text);
    if (n == 0) return read_once(read, text + cut);
    if (cut) return read_beginnings(read, text + cut, n);
    for (long i = 0; i < n; i++) read((const uint8_t *)text, length, slots, ROOM);
    return 0;
}

static int write_text(writer *write, reader *read, size_t start, const char *text, long n) {
    static uint8_t written[ROOM];
    size_t length = strlen(text);
    if (length > ROOM || read((const uint8_t *)text, length, slots + start, ROOM - start)) return 2;
    if (n == 0)
        return write(slots, ROOM, written, ROOM) || slots[0] != (int64_t)length || memcmp(written, text, length);
    for (long i = 0; i < n; i++) write(slots, ROOM, written, ROOM);
    return 0;
}

static int count_text(counter *count, const char *text, long n) {
    if (!text[0]) return 2;
    uint8_t letter = (uint8_t)text[0];
    const uint8_t *bytes = (const uint8_t *)text + 1;
    size_t length = strlen(text + 1);
    if (n == 0) printf("%zu\n", count(letter, bytes, length));
    for (long i = 0; i < n; i++) count(letter, bytes, length);
    return 0;
}

static int differ_once(uint32_t number) {
    int64_t seconds = slots[0];
    int32_t nanoseconds = (int32_t)slots[1];
    if (nanoseconds < 0) seconds--, nanoseconds += 1000000000;
    printf("%u:", number);
    if (number == 0) printf(" %lld %d", (long long)seconds, nanoseconds);
    puts("");
    return 0;
}

static int differ_texts(differ *differ, const char *texts, long n) {
    const char *space = strchr(texts, ' ');
    if (!space) return 2;
    const uint8_t *first = (const uint8_t *)texts, *second = (const uint8_t *)space + 1;
    size_t first_length = (size_t)(space - texts), second_length = strlen(space + 1);
    if (n == 0) return differ_once(differ(first, first_length, second, second_length, slots, ROOM, TIROZHBAR_2019));
    for (long i = 0; i < n; i++) differ(first, first_length, second, second_length, slots, ROOM, TIROZHBAR_2019);
    return 0;
}

int main(int argc, char **argv) {
    if (argc != 4) return 2;
    peers_start();
    long n = atol(argv[3]);
    for (size_t i = 0; i < sizeof readers / sizeof *readers; i++)
        if (!strcmp(argv[1], readers[i].name)) return read_text(readers[i].reader, argv[2], n);
    for (size_t i = 0; i < sizeof writers / sizeof *writers; i++)
        if (!strcmp(argv[1], writers[i].name))
            return write_text(writers[i].writer, writers[i].reader, writers[i].start, argv[2], n);
    for (size_t i = 0; i < sizeof counters / sizeof *counters; i++)
        if (!strcmp(argv[1], counters[i].name)) return count_text(counters[i].counter, argv[2], n);
    for (size_t i = 0; i < sizeof differs / sizeof *differs; i++)
        if (!strcmp(argv[1], differs[i].name)) return differ_texts(differs[i].differ, argv[2], n);
    return 2;
}
