#ifndef SERIAL_H
#define SERIAL_H
/*
 * Frames of MCTP on a serial line (DSP0253): the flag 7E, the revision 01, the number of bytes of the packet, the packet,
 * a check sequence of two bytes, the high one first, and the flag 7E. Of the packet the bytes 7E and 7D are sent as 7D 5E
 * and 7D 5D. The check sequence is the FCS-16 of RFC 1662 over revision, number and packet as they are before that, not
 * inverted. Nothing here needs an operating system.
 */
#include <stddef.h>
#include <stdint.h>

enum {
    SERIAL_MOST = 255,                   /* bytes of a packet: the number has one byte */
    SERIAL_FRAME = 2 * SERIAL_MOST + 6, /* bytes of a frame, at most */
    SERIAL_FCS = 0xffff                  /* the check sequence of no bytes */
};

/* The check sequence of what `fcs` is that of, followed by these bytes. */
uint16_t serial_fcs(uint16_t fcs, const uint8_t *bytes, size_t len);

/* Writes the frame of a packet of 1 to SERIAL_MOST bytes, and gives its length. 0: the packet has another length. */
size_t serial_frame(uint8_t frame[SERIAL_FRAME], const uint8_t *packet, size_t len);

/* What a line has brought. Filled with zeros before the first byte. */
struct serial_reader {
    uint8_t packet[SERIAL_MOST];
    uint8_t state;
    uint8_t wanted; /* bytes of the packet that is being read */
    uint8_t len;    /* those of it that have come */
    uint16_t fcs;
    uint16_t told; /* the check sequence that the frame has */
};

/*
 * Takes the next byte. 1: a packet is whole, reader->len bytes of reader->packet, which are there until the next byte is
 * taken. What is no frame is passed over, and so is a frame with a wrong check sequence; the next flag begins again.
 */
int serial_take(struct serial_reader *reader, uint8_t byte);

#endif
