#ifndef LINK_H
#define LINK_H
/*
 * A link between two processes, as the words of a command line name it:
 *
 *   (none)        standard input and output, in frames of docs/FORMATS.md, "Streams of frames"
 *   PATH          a device, as a pseudo-terminal, in the same frames
 *   serial PATH   a serial line, in the frames of DSP0253 (serial.h)
 *   mctp EID      Linux's sockets for MCTP (mctp.h); the other side has this endpoint ID
 */
#include <stddef.h>
#include <stdint.h>

#include "mctp.h"
#include "serial.h"

enum link_kind { LINK_FRAMES, LINK_SERIAL, LINK_MCTP };

struct link {
    enum link_kind kind;
    int in;
    int out;
    uint8_t own;  /* the endpoint ID of this end, in its packets */
    uint8_t peer; /* that of the other one */
    struct serial_reader reader;
    struct mctp mctp;
};

/*
 * Opens the link that these words name, with a null behind the last; null, or why it cannot be opened. `own` and `peer`
 * are the endpoint IDs of this end and of the other one where the words name none. A device answers requests, a controller
 * sends them.
 */
const char *link_open(struct link *link, char **words, uint8_t own, uint8_t peer, int is_device, uint16_t unit);

/* Sends a packet. 0: the other side is gone. */
int link_send(struct link *link, const uint8_t *packet, size_t len);

/*
 * Waits so many milliseconds for a packet. Its length; 0: none came; -1: the other side is gone, or sends no frames. What
 * is no frame on a serial line is passed over.
 */
long link_receive(struct link *link, uint8_t *room, size_t room_len, int milliseconds);

/* Milliseconds of a clock that is never set back. */
uint64_t link_clock(void);

/* 32 secret random bytes. 0: there are none. */
int link_seed(uint8_t seed[32]);

#endif
