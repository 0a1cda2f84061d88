#include "application.h"

#include <stdio.h>
#include <string.h>

enum { MOST_SPEED = 100, MOST_DIGITS = 3 };

static unsigned speed;
static unsigned messages;

/* The number that these digits are; more than MOST_SPEED if they are none, or too many. */
static unsigned number_of(const uint8_t *digits, size_t len) {
    unsigned number = 0;
    size_t i;
    for (i = 0; i < len && i < MOST_DIGITS; i++) {
        if (digits[i] < '0' || digits[i] > '9') {
            return MOST_SPEED + 1;
        }
        number = 10 * number + (unsigned)(digits[i] - '0');
    }
    return len > 0 && len <= MOST_DIGITS ? number : MOST_SPEED + 1;
}

void application_take(const uint8_t *bytes, size_t len) {
    static const char word[] = "fan ";
    size_t word_len = sizeof word - 1;
    messages++;
    if (len > word_len && memcmp(bytes, word, word_len) == 0) {
        unsigned number = number_of(bytes + word_len, len - word_len);
        speed = number <= MOST_SPEED ? number : speed;
    }
}

size_t application_answer(uint8_t answer[APPLICATION_ANSWER]) {
    return (size_t)sprintf((char *)answer, "fan %u after %u", speed, messages);
}
