#ifndef APPLICATION_H
#define APPLICATION_H
/*
 * The application of the device: a fan. `fan N` sets its speed to 0 to 100 percent; every other message only asks. The
 * answer to a message tells the fan as the message left it.
 */
#include <stddef.h>
#include <stdint.h>

enum { APPLICATION_ANSWER = 64 };

/* Takes a message of the controller. */
void application_take(const uint8_t *bytes, size_t len);

/* Writes the answer to the message that was taken last, and gives its length. */
size_t application_answer(uint8_t answer[APPLICATION_ANSWER]);

#endif
