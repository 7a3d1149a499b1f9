/* apart.c: answers the lines of standard input as our program `apart` does, by calls of tirozhbar_apart. `compare/c` builds and runs it.
 *
 * A line is `s`, `s4`, `ss` or `s4s`, a space, a text, a space and a text, with no space in the texts and at most 200 bytes in each. A line of
 * any other form is `unknown` without a call.
 *
 * Each text is copied into a new block of exactly its length, so that valgrind sees a read outside it, and then to the end of blocks where it
 * stands at other alignments. All these calls have to answer the same, over slots that held something else before, and to leave as they were
 * the texts, the bytes before them and the slots past the third. With too few slots, or a number that names no choices, they have to leave all
 * slots. Exchanged texts have to give the negated difference, and a text that stands on both sides 0 and 0, or its own refusal.
 *
 * Before the lines come pairs whose answers were written down by hand, and each two of six texts, five of them to be refused: there the third
 * slot is seen too, which a line of `apart` does not tell.
 *
 * Exit status: 0 answered, and the number of checks is told on standard error; 1 a call did not do so, 2 there is no memory, or the lines
 * can't be read or the answers written.
 */
#include <inttypes.h>
#include <stdint.h>
#include <stdio.h>
#include <stdlib.h>
#include <string.h>

#include "tirozhbar.h"

enum { LONGEST = 200, ALIGNMENTS = 16, FILLING = 0xA5, SLOTS = TIROZHBAR_APART_SLOTS, MORE = 8 };
enum { OF_2019 = TIROZHBAR_2019, OF_2004 = TIROZHBAR_2004, STANDARD = TIROZHBAR_STANDARD };

/* What the slots hold before: no answer has it. */
static const int64_t UNTOUCHED[] = {INT64_C(0x5A5A5A5A5A5A5A5A), INT64_MIN};

struct text {
    const uint8_t *bytes;
    size_t length;
};

struct answer {
    uint32_t number;
    int64_t seconds, nanoseconds, refused;
};

static size_t line_number = 0; /* 0 before the first line */
static unsigned long checks = 0;

static void give_up(const char *what)
{
    fprintf(stderr, "apart.c: %s\n", what);
    exit(2);
}

static void expect(int holds, const char *what)
{
    checks++;
    if (!holds) {
        fflush(stdout);
        fprintf(stderr, "apart.c: line %zu: %s\n", line_number, what);
        exit(1);
    }
}

static void *block_of(size_t size)
{
    void *block = malloc(size);

    if (block == NULL)
        give_up("there is no memory for a call");
    return block;
}

/* A copy of a text with some bytes before it in its block and none behind it; and whether it is still that. */
static uint8_t *copy(struct text text, size_t before)
{
    uint8_t *block = block_of(before + text.length);

    memset(block, FILLING, before);
    memcpy(block + before, text.bytes, text.length);
    return block;
}

static int is_copy(const uint8_t *block, struct text text, size_t before)
{
    size_t at;

    for (at = 0; at < before; at++)
        if (block[at] != FILLING)
            return 0;
    return memcmp(block + before, text.bytes, text.length) == 0;
}

/* One call, on copies of both texts. */
static uint32_t call(struct text first, struct text second, size_t before, int64_t *slots, size_t room, uint32_t choices)
{
    size_t other = ALIGNMENTS - 1 - before;
    uint8_t *one = copy(first, before), *two = copy(second, other);
    uint32_t number = tirozhbar_apart(one + before, first.length, two + other, second.length, slots, room, choices);

    expect(is_copy(one, first, before) && is_copy(two, second, other), "a text was changed, or a byte before it");
    free(one);
    free(two);
    return number;
}

/* Whether a call with so many slots leaves all of them, and has the number. */
static void leaves_all(struct text first, struct text second, size_t room, uint32_t choices, uint32_t number)
{
    int64_t *slots = block_of(room * sizeof *slots);
    size_t at;

    for (at = 0; at < room; at++)
        slots[at] = UNTOUCHED[0];
    expect(call(first, second, 0, slots, room, choices) == number, "the number where nothing is to be written");
    for (at = 0; at < room; at++)
        expect(slots[at] == UNTOUCHED[0], "a slot was written where nothing is to be");
    free(slots);
}

static struct answer ask(struct text first, struct text second, size_t before, uint32_t choices, int64_t untouched, size_t room)
{
    int64_t *slots = block_of(room * sizeof *slots);
    struct answer answer;
    size_t at;

    for (at = 0; at < room; at++)
        slots[at] = untouched;
    answer.number = call(first, second, before, slots, room, choices);
    answer.seconds = slots[TIROZHBAR_APART_SECONDS];
    answer.nanoseconds = slots[TIROZHBAR_APART_NANOSECONDS];
    answer.refused = slots[TIROZHBAR_APART_REFUSED];
    for (at = SLOTS; at < room; at++)
        expect(slots[at] == untouched, "a slot past the third was written");
    free(slots);
    return answer;
}

static int same(struct answer a, struct answer b)
{
    return a.number == b.number && a.seconds == b.seconds && a.nanoseconds == b.nanoseconds && a.refused == b.refused;
}

/* The answer at every alignment, over other slots and more of them, which has to be one. */
static struct answer ask_everywhere(struct text first, struct text second, uint32_t choices)
{
    struct answer answer = ask(first, second, 0, choices, UNTOUCHED[0], SLOTS);
    size_t before;

    for (before = 1; before < ALIGNMENTS; before++)
        expect(same(answer, ask(first, second, before, choices, UNTOUCHED[before % 2], SLOTS + before % MORE)),
               "the answer is another at another alignment");
    return answer;
}

/* One text on both sides, its bytes standing in one place alone. */
static struct answer ask_beside_itself(struct text text, uint32_t choices)
{
    int64_t slots[SLOTS] = {UNTOUCHED[1], UNTOUCHED[1], UNTOUCHED[1]};
    uint8_t *block = copy(text, 0);
    struct answer answer;

    answer.number = tirozhbar_apart(block, text.length, block, text.length, slots, SLOTS, choices);
    answer.seconds = slots[TIROZHBAR_APART_SECONDS];
    answer.nanoseconds = slots[TIROZHBAR_APART_NANOSECONDS];
    answer.refused = slots[TIROZHBAR_APART_REFUSED];
    expect(is_copy(block, text, 0), "a text was changed that stands on both sides");
    free(block);
    return answer;
}

/* Whether the slots go with the number. */
static void expect_in_range(struct answer answer)
{
    switch (answer.number) {
    case TIROZHBAR_RECORD:
        expect(answer.refused == TIROZHBAR_REFUSED_NEITHER, "a text is refused, and the number is 0");
        expect(answer.nanoseconds >= 0 && answer.nanoseconds <= 999999999, "so many nanoseconds");
        break;
    case TIROZHBAR_NO_FORM:
    case TIROZHBAR_LEFT_OVER:
    case TIROZHBAR_NO_DAY:
    case TIROZHBAR_NO_OFFSET:
        expect(answer.refused == TIROZHBAR_REFUSED_FIRST || answer.refused == TIROZHBAR_REFUSED_SECOND, "no text is refused");
        expect(answer.seconds == 0 && answer.nanoseconds == 0, "a difference, and a refusal");
        break;
    default:
        expect(0, "the number is none of the five");
    }
}

/* What two texts get, with all that has to hold of it. */
static struct answer difference(struct text first, struct text second, uint32_t choices)
{
    static const uint32_t unknown[] = {4, 5, 6, 7, 254, 255, 256, UINT32_C(1) << 31, UINT32_MAX};
    struct answer answer = ask_everywhere(first, second, choices), alone;
    size_t at;

    expect_in_range(answer);
    if (answer.number == TIROZHBAR_RECORD) {
        struct answer back = ask(second, first, 0, choices, UNTOUCHED[1], SLOTS);
        expect(back.number == TIROZHBAR_RECORD && back.seconds == -answer.seconds - (answer.nanoseconds > 0)
                   && back.nanoseconds == (1000000000 - answer.nanoseconds) % 1000000000,
               "exchanged texts do not give the negated difference");
    }
    alone = ask_beside_itself(answer.refused == TIROZHBAR_REFUSED_SECOND ? second : first, choices);
    expect(alone.number == answer.number && alone.seconds == 0 && alone.nanoseconds == 0
               && alone.refused == (answer.number == TIROZHBAR_RECORD ? TIROZHBAR_REFUSED_NEITHER : TIROZHBAR_REFUSED_FIRST),
           "a text that stands on both sides gets another answer");
    for (at = 0; at < SLOTS; at++)
        leaves_all(first, second, at, choices, TIROZHBAR_TOO_FEW);
    for (at = 0; at < sizeof unknown / sizeof *unknown; at++) {
        leaves_all(first, second, SLOTS, unknown[at], TIROZHBAR_NO_SUCH_CHOICE);
        leaves_all(first, second, 0, unknown[at], TIROZHBAR_NO_SUCH_CHOICE);
    }
    return answer;
}

/* ---- written down by hand */

static const struct {
    const char *first, *second;
    uint32_t choices;
    struct answer answer;
} pairs[] = {
    {"2015-11-02T21:56:42Z", "2015-11-02T21:56:42.5Z", OF_2019, {0, 0, 500000000, 0}},
    {"2015-11-02T21:56:42.5Z", "2015-11-02T21:56:42Z", OF_2019, {0, -1, 500000000, 0}},
    {"2015-11-02T21:56:42Z", "2015-11-02T21:56:41.999999999Z", OF_2019, {0, -1, 999999999, 0}},
    {"2015-11-02T21:56:42+01:00", "2015-11-02T21:56:42Z", OF_2019, {0, 3600, 0, 0}},
    {"2015-11-02T21:56:42-00:30", "2015-11-02T21:56:42Z", OF_2019, {0, -1800, 0, 0}},
    {"2015-11-02T00Z", "2015-W45-1T00Z", OF_2019, {0, 0, 0, 0}},
    {"2015-306T00Z", "20151103T00Z", OF_2019, {0, 86400, 0, 0}},
    {"2016-02-29T23:59:60Z", "2016-03-01T00:00:00Z", OF_2019, {0, 0, 0, 0}},
    {"1900-02-28T00Z", "1900-03-01T00Z", OF_2019, {0, 86400, 0, 0}},
    {"2000-02-28T00Z", "2000-03-01T00Z", OF_2019, {0, 172800, 0, 0}},
    {"-0100-12-31T00Z", "0100-01-01T00Z", OF_2019, {0, 6279984000, 0, 0}},
    {"2015-11-02T24:00Z", "2015-11-03T00:00Z", OF_2004, {0, 0, 0, 0}},
    {"2015-11-02T24:00Z", "2015-11-03T00:00Z", OF_2019, {1, 0, 0, 1}},
    {"2015-11-03T00:00Z", "2015-11-02T24:00Z", STANDARD, {1, 0, 0, 2}},
    {"2015-11-02T21:56.5Z", "2015-11-02T21:56:00Z", OF_2019, {0, -1, 500000000, 0}},
    {"2015-11-02T21:56.5Z", "2015-11-02T21:56:00Z", STANDARD, {0, -30, 0, 0}},
    {"2015-11-02T21.5Z", "2015-11-02T21:30Z", OF_2004 + STANDARD, {0, 0, 0, 0}},
    {"2015-11-02T21.5Z", "2015-11-02T21:30Z", OF_2004, {3, 0, 0, 1}},
};

/* The last has neither such a day nor an offset. */
static const struct {
    const char *text;
    uint32_t number;
} stamps[] = {
    {"2015-11-02T21:56:42Z", 0},
    {"yesterday", 1},
    {"2015-11-02T21:56:42Z!", 3},
    {"2015-02-29T00Z", 8},
    {"2015-11-02T21:56:42", 9},
    {"2015-366T00", 8},
};

static struct text text_of(const char *string)
{
    struct text text = {(const uint8_t *)string, strlen(string)};

    return text;
}

/* Texts before days and offsets, the first before the second. */
static struct answer refusal(uint32_t first, uint32_t second)
{
    struct answer of_first = {first, 0, 0, TIROZHBAR_REFUSED_FIRST}, of_second = {second, 0, 0, TIROZHBAR_REFUSED_SECOND}, neither = {0, 0, 0, 0};

    if (first == TIROZHBAR_NO_FORM || first == TIROZHBAR_LEFT_OVER)
        return of_first;
    if (second == TIROZHBAR_NO_FORM || second == TIROZHBAR_LEFT_OVER)
        return of_second;
    return first != 0 ? of_first : second != 0 ? of_second : neither;
}

static void by_hand(void)
{
    size_t one, two;

    for (one = 0; one < sizeof pairs / sizeof *pairs; one++)
        expect(same(difference(text_of(pairs[one].first), text_of(pairs[one].second), pairs[one].choices), pairs[one].answer), pairs[one].first);
    for (one = 0; one < sizeof stamps / sizeof *stamps; one++)
        for (two = 0; two < sizeof stamps / sizeof *stamps; two++)
            expect(same(difference(text_of(stamps[one].text), text_of(stamps[two].text), OF_2019), refusal(stamps[one].number, stamps[two].number)),
                   stamps[one].text);
}

/* ---- the lines */

/* The part of a line before the first space, or all of it. */
static struct text part(const uint8_t *from, const uint8_t *end)
{
    const uint8_t *space = from < end ? memchr(from, ' ', (size_t)(end - from)) : NULL;
    struct text text = {from, (size_t)((space != NULL ? space : end) - from)};

    return text;
}

static int is_head(struct text head, uint32_t *choices)
{
    static const char *const heads[] = {"s", "s4", "ss", "s4s"};

    for (*choices = 0; *choices < 4; ++*choices)
        if (head.length == strlen(heads[*choices]) && memcmp(head.bytes, heads[*choices], head.length) == 0)
            return 1;
    return 0;
}

/* Whether a line asks for a difference. */
static int asks(const uint8_t *line, const uint8_t *end, struct text *first, struct text *second, uint32_t *choices)
{
    struct text head = part(line, end);

    if (!is_head(head, choices) || line + head.length == end)
        return 0;
    *first = part(line + head.length + 1, end);
    if (first->bytes + first->length == end)
        return 0;
    *second = part(first->bytes + first->length + 1, end);
    return second->bytes + second->length == end && first->length <= LONGEST && second->length <= LONGEST;
}

static void answer_line(const uint8_t *line, const uint8_t *end)
{
    struct text first, second;
    struct answer answer;
    uint32_t choices;

    if (!asks(line, end, &first, &second, &choices)) {
        puts("unknown");
        return;
    }
    answer = difference(first, second, choices);
    if (answer.number == TIROZHBAR_RECORD)
        printf("%" PRId64 " %" PRId64 "\n", answer.seconds, answer.nanoseconds);
    else
        printf("refused %" PRIu32 "\n", answer.number);
}

/* All of standard input. */
static uint8_t *input(size_t *length)
{
    size_t room = 1 << 16, got;
    uint8_t *bytes = malloc(room);

    *length = 0;
    while (bytes != NULL && (got = fread(bytes + *length, 1, room - *length, stdin)) > 0) {
        *length += got;
        if (*length == room)
            bytes = realloc(bytes, room *= 2);
    }
    if (bytes == NULL)
        give_up("there is no memory for the lines");
    if (ferror(stdin))
        give_up("standard input can't be read");
    return bytes;
}

int main(void)
{
    size_t length, start, end;
    uint8_t *bytes = input(&length);

    by_hand();
    /* A line ends with byte 10; a last one without it counts if it is not empty. */
    for (start = 0; start < length; start = end + 1) {
        const uint8_t *newline = memchr(bytes + start, '\n', length - start);
        end = newline != NULL ? (size_t)(newline - bytes) : length;
        line_number++;
        answer_line(bytes + start, bytes + end);
    }
    free(bytes);
    if (fflush(stdout) != 0 || ferror(stdout))
        give_up("standard output can't be written");
    fprintf(stderr, "%lu checks of differences, all as they have to be\n", checks);
    return 0;
}
