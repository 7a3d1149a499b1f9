/* why.c: answers the lines of standard input as our program `why` does, by calls of tirozhbar_why. `compare/c` builds and runs it.
 *
 * A line is a letter, a space and a text of at most 200 bytes. The letter is handed over whatever it is, and the function has to say that
 * it is none of the five. A line of any other form is `unknown` without a call.
 *
 * Each text is copied into a new block of exactly its length, so that valgrind sees a read outside it, and then to the end of blocks where
 * it stands at other alignments. All these calls have to answer the same, and to leave as they were the text's bytes, those before it and
 * the words on both sides of *PLACE; for a letter that is none of the five, *PLACE too. So has a call for every letter with no text.
 *
 * Exit status: 0 answered, 1 a call did not do so, 2 there is no memory, or the lines can't be read or the answers written.
 */
#include <inttypes.h>
#include <stdint.h>
#include <stdio.h>
#include <stdlib.h>
#include <string.h>

#include "tirozhbar.h"

enum { LONGEST = 200, ALIGNMENTS = 16, FILLING = 0xA5 };

/* Longer than any text: a place that was not written is seen. */
static const uint64_t UNTOUCHED = UINT64_C(0xA5A5A5A5A5A5A5A5);

struct answer {
    uint32_t word;
    uint64_t place;
};

static size_t line_number = 0; /* 0 while every letter is tried, before the first line */

static void give_up(const char *what)
{
    fprintf(stderr, "why.c: %s\n", what);
    exit(2);
}

static void expect(int holds, const char *what)
{
    if (!holds) {
        fflush(stdout);
        fprintf(stderr, "why.c: line %zu: %s\n", line_number, what);
        exit(1);
    }
}

static int is_letter_of_five(uint8_t kind)
{
    return kind != 0 && strchr("dtosp", kind) != NULL;
}

/* One call, on a copy of the text with some bytes before it in its block and none behind it. */
static struct answer ask(uint8_t kind, const uint8_t *text, size_t length, size_t before)
{
    uint64_t places[3] = {UNTOUCHED, UNTOUCHED, UNTOUCHED};
    uint8_t *block = malloc(before + length);
    struct answer answer;
    size_t at;

    if (block == NULL)
        give_up("there is no memory for a text");
    memset(block, FILLING, before);
    memcpy(block + before, text, length);
    answer.word = tirozhbar_why(kind, block + before, length, &places[1]);
    answer.place = places[1];
    expect(memcmp(block + before, text, length) == 0, "the text was changed");
    for (at = 0; at < before; at++)
        expect(block[at] == FILLING, "a byte before the text was changed");
    expect(places[0] == UNTOUCHED && places[2] == UNTOUCHED, "more than the place was written");
    free(block);
    return answer;
}

/* Whether the place goes with the word, and the word with the letter. */
static void expect_in_range(struct answer answer, uint8_t kind, size_t length)
{
    expect((answer.word == TIROZHBAR_NO_SUCH_KIND) == !is_letter_of_five(kind), "a letter of the five is refused, or another is not");
    switch (answer.word) {
    case TIROZHBAR_OK:
    case TIROZHBAR_EARLY:
        expect(answer.place == length, "the place is not the text's length");
        break;
    case TIROZHBAR_BAD:
        expect(answer.place < length, "the place is not in the text");
        break;
    case TIROZHBAR_NO_SUCH_KIND:
        expect(answer.place == UNTOUCHED, "the place was written, for no such kind");
        break;
    default:
        expect(0, "the answer is none of the four");
    }
}

/* The answer at every alignment, which has to be one. */
static struct answer ask_everywhere(uint8_t kind, const uint8_t *text, size_t length)
{
    struct answer first = ask(kind, text, length, 0);
    size_t before;

    expect_in_range(first, kind, length);
    for (before = 1; before < ALIGNMENTS; before++) {
        struct answer other = ask(kind, text, length, before);
        expect(other.word == first.word && other.place == first.place, "the answer is another at another alignment");
    }
    return first;
}

static void answer_line(const uint8_t *line, size_t length)
{
    struct answer answer = {TIROZHBAR_NO_SUCH_KIND, 0};

    if (length >= 2 && line[1] == ' ' && length - 2 <= LONGEST)
        answer = ask_everywhere(line[0], line + 2, length - 2);
    switch (answer.word) {
    case TIROZHBAR_OK:
        puts("ok");
        break;
    case TIROZHBAR_EARLY:
        printf("early %" PRIu64 "\n", answer.place);
        break;
    case TIROZHBAR_BAD:
        printf("bad %" PRIu64 "\n", answer.place);
        break;
    default:
        puts("unknown");
    }
}

/* All of standard input. */
static uint8_t *input(size_t *length)
{
    size_t room = 1 << 16, got;
    uint8_t *bytes = malloc(room);

    *length = 0;
    while (bytes != NULL && (got = fread(bytes + *length, 1, room - *length, stdin)) > 0) {
        *length += got;
        if (*length == room)
            bytes = realloc(bytes, room *= 2);
    }
    if (bytes == NULL)
        give_up("there is no memory for the lines");
    if (ferror(stdin))
        give_up("standard input can't be read");
    return bytes;
}

int main(void)
{
    size_t length, start, end;
    uint8_t *bytes = input(&length);
    unsigned kind;

    /* Every letter, with no text. */
    for (kind = 0; kind < 256; kind++)
        ask_everywhere((uint8_t)kind, bytes, 0);
    /* A line ends with byte 10; a last one without it counts if it is not empty. */
    for (start = 0; start < length; start = end + 1) {
        const uint8_t *newline = memchr(bytes + start, '\n', length - start);
        end = newline != NULL ? (size_t)(newline - bytes) : length;
        line_number++;
        answer_line(bytes + start, end - start);
    }
    free(bytes);
    if (fflush(stdout) != 0 || ferror(stdout))
        give_up("standard output can't be written");
    return 0;
}
