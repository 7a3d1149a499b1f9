/* A reader, a writer and a function of two texts that do nothing: what a call costs by itself. In a file of their own, so that the call is
 * made. */
#include <stddef.h>
#include <stdint.h>

uint32_t nothing(const uint8_t *text, size_t length, int64_t *slots, size_t room) {
    (void)text, (void)length, (void)slots, (void)room;
    return 0;
}

uint32_t write_nothing(int64_t *slots, size_t room, uint8_t *text, size_t length) {
    (void)slots, (void)room, (void)text, (void)length;
    return 0;
}

uint32_t nothing_apart(const uint8_t *first, size_t first_length, const uint8_t *second, size_t second_length, int64_t *slots, size_t room,
                       uint32_t choices) {
    (void)first, (void)first_length, (void)second, (void)second_length, (void)slots, (void)room, (void)choices;
    return 0;
}
