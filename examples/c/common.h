#ifndef COMMON_H
#define COMMON_H
/* What responder.c and requester.c agree on, and how both begin. */
#include "link.h"
#include "spdm.h"

enum { DEVICE = 8, CONTROLLER = 9, UNIT = 64, PACKET = UNIT + 4, TRANSFER = 1024, MAX_MESSAGE = 4096 };

/* Seconds: a session in which the device opened no record for twice so long is gone. */
enum { PERIOD = 2 };

/* The key that both ends know. In a product each device has its own, from a store that nothing else reads. */
struct common_key {
    const uint8_t *hint;
    size_t hint_len;
    const uint8_t *psk;
    size_t psk_len;
};

extern const struct common_key common_key;

/* What both ends announce: all algorithms, heartbeats, key updates and chunks, and measurements where it has them. */
struct spdm_offer common_offer(uint8_t measure);

/*
 * Sees that the header is that of the library, draws a seed, and opens the link that the words of the command line name
 * (link.h). 0: one of these failed, and it is told on standard error behind `name`. `own` is the endpoint ID of this end,
 * and becomes the other one of DEVICE and CONTROLLER where the other side has it.
 */
int common_begin(const char *name, char **words, uint8_t *own, struct link *link, uint8_t seed[32]);

/* Writes bytes to standard error as text, other bytes than printable ones as points. */
void common_show(const char *name, const char *what, const uint8_t *bytes, size_t len);

#endif
