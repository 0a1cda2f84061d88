#include "serial.h"

enum { FLAG = 0x7e, ESCAPE = 0x7d, TURNED = 0x20, REVISION = 0x01, POLYNOMIAL = 0x8408 };

/* Which byte of a frame is awaited. */
enum { FIRST_FLAG, REVISION_BYTE, COUNT, DATA, ESCAPED, FCS_HIGH, FCS_LOW, LAST_FLAG };

uint16_t serial_fcs(uint16_t fcs, const uint8_t *bytes, size_t len) {
    size_t i;
    for (i = 0; i < len; i++) {
        unsigned bit;
        fcs = (uint16_t)(fcs ^ bytes[i]);
        for (bit = 0; bit < 8; bit++) {
            fcs = (uint16_t)(fcs & 1 ? (fcs >> 1) ^ POLYNOMIAL : fcs >> 1);
        }
    }
    return fcs;
}

size_t serial_frame(uint8_t frame[SERIAL_FRAME], const uint8_t *packet, size_t len) {
    size_t at = 0;
    size_t i;
    uint16_t fcs;
    if (len == 0 || len > SERIAL_MOST) {
        return 0;
    }
    frame[at++] = FLAG;
    frame[at++] = REVISION;
    frame[at++] = (uint8_t)len;
    fcs = serial_fcs(serial_fcs(SERIAL_FCS, frame + 1, 2), packet, len);
    for (i = 0; i < len; i++) {
        if (packet[i] == FLAG || packet[i] == ESCAPE) {
            frame[at++] = ESCAPE;
            frame[at++] = packet[i] ^ TURNED;
        } else {
            frame[at++] = packet[i];
        }
    }
    frame[at++] = (uint8_t)(fcs >> 8);
    frame[at++] = (uint8_t)(fcs & 0xff);
    frame[at++] = FLAG;
    return at;
}

/* A byte of the packet. */
static void take_data(struct serial_reader *reader, uint8_t byte) {
    reader->fcs = serial_fcs(reader->fcs, &byte, 1);
    reader->packet[reader->len++] = byte;
    reader->state = reader->len == reader->wanted ? FCS_HIGH : DATA;
}

int serial_take(struct serial_reader *reader, uint8_t byte) {
    /* A flag begins a frame, but where it is the number of bytes or one of the check sequence, which are not escaped. */
    if (byte == FLAG && reader->state <= ESCAPED && reader->state != COUNT) {
        reader->state = REVISION_BYTE;
        return 0;
    }
    switch (reader->state) {
    case REVISION_BYTE:
        reader->fcs = serial_fcs(SERIAL_FCS, &byte, 1);
        reader->state = byte == REVISION ? COUNT : FIRST_FLAG;
        return 0;
    case COUNT:
        reader->fcs = serial_fcs(reader->fcs, &byte, 1);
        reader->wanted = byte;
        reader->len = 0;
        reader->state = byte > 0 ? DATA : FIRST_FLAG;
        return 0;
    case DATA:
        if (byte == ESCAPE) {
            reader->state = ESCAPED;
        } else {
            take_data(reader, byte);
        }
        return 0;
    case ESCAPED:
        take_data(reader, byte ^ TURNED);
        return 0;
    case FCS_HIGH:
        reader->told = (uint16_t)(byte << 8);
        reader->state = FCS_LOW;
        return 0;
    case FCS_LOW:
        reader->told = (uint16_t)(reader->told | byte);
        reader->state = LAST_FLAG;
        return 0;
    case LAST_FLAG:
        /* Between two frames one flag is enough, and behind a frame that lost bytes this may be the next one's. */
        reader->state = byte == FLAG ? REVISION_BYTE : FIRST_FLAG;
        return byte == FLAG && reader->told == reader->fcs;
    default:
        return 0;
    }
}
