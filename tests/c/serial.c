/*
 * The framing of examples/c/serial.c, for tests/c_library to compare with its own. Lines of standard input: `fcs HEX`
 * writes a check sequence, `frame HEX` the frame of a packet, `take HEX` each packet that these bytes hold and then a
 * point.
 */
#include <stdio.h>
#include <string.h>

#include "serial.h"

enum { MOST = 1 << 18 };

static uint8_t bytes[MOST];

static size_t bytes_of(const char *text) {
    size_t len = 0;
    unsigned byte;
    while (len < MOST && sscanf(text + 2 * len, "%2x", &byte) == 1) {
        bytes[len++] = (uint8_t)byte;
    }
    return len;
}

static void show(const uint8_t *shown, size_t len) {
    size_t i;
    for (i = 0; i < len; i++) {
        printf("%02x", shown[i]);
    }
    printf("\n");
}

int main(void) {
    static char line[2 * MOST + 16];
    static struct serial_reader reader;
    while (fgets(line, sizeof line, stdin)) {
        const char *text = strchr(line, ' ');
        size_t len = text ? bytes_of(text + 1) : 0;
        if (strncmp(line, "fcs", 3) == 0) {
            printf("%04x\n", (unsigned)serial_fcs(SERIAL_FCS, bytes, len));
        } else if (strncmp(line, "frame", 5) == 0) {
            uint8_t frame[SERIAL_FRAME];
            show(frame, serial_frame(frame, bytes, len));
        } else {
            size_t i;
            for (i = 0; i < len; i++) {
                if (serial_take(&reader, bytes[i])) {
                    show(reader.packet, reader.len);
                }
            }
            printf(".\n");
        }
    }
    return 0;
}
