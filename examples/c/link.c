#define _POSIX_C_SOURCE 200809L
#include "link.h"

#include <fcntl.h>
#include <poll.h>
#include <stdlib.h>
#include <string.h>
#include <termios.h>
#include <time.h>
#include <unistd.h>

/* Opens a device, and has a terminal pass each byte as it is. */
static int open_device(struct link *link, const char *path) {
    struct termios line;
    link->in = open(path, O_RDWR | O_NOCTTY);
    link->out = link->in;
    if (link->in < 0) {
        return 0;
    }
    if (tcgetattr(link->in, &line) == 0) {
        line.c_iflag &= ~(tcflag_t)(IGNBRK | BRKINT | PARMRK | ISTRIP | INLCR | IGNCR | ICRNL | IXON);
        line.c_oflag &= ~(tcflag_t)OPOST;
        line.c_lflag &= ~(tcflag_t)(ECHO | ECHONL | ICANON | ISIG | IEXTEN);
        line.c_cflag = (line.c_cflag & ~(tcflag_t)(CSIZE | PARENB)) | CS8;
        tcsetattr(link->in, TCSANOW, &line);
    }
    return 1;
}

/* The endpoint ID of a word; 0 if it is none from 8 to 254. */
static uint8_t eid_of(const char *word) {
    char *end;
    unsigned long eid = strtoul(word, &end, 10);
    return *word != 0 && *end == 0 && eid >= 8 && eid <= 254 ? (uint8_t)eid : 0;
}

const char *link_open(struct link *link, char **words, uint8_t own, uint8_t peer, int is_device, uint16_t unit) {
    memset(link, 0, sizeof *link);
    link->own = own;
    link->peer = peer;
    link->in = 0;
    link->out = 1;
    if (words[0] == NULL) {
        return NULL;
    }
    if (words[1] == NULL) {
        return open_device(link, words[0]) ? NULL : "the device cannot be opened";
    }
    if (words[2] == NULL && strcmp(words[0], "serial") == 0) {
        link->kind = LINK_SERIAL;
        return open_device(link, words[1]) ? NULL : "the serial line cannot be opened";
    }
    if (words[2] == NULL && strcmp(words[0], "mctp") == 0 && eid_of(words[1]) != 0) {
        link->kind = LINK_MCTP;
        link->peer = eid_of(words[1]);
        link->own = link->peer == own ? peer : own;
        return mctp_open(&link->mctp, is_device, link->own, link->peer, unit) ? NULL : "this system has no sockets for MCTP";
    }
    return "the words are none, PATH, serial PATH, or mctp EID with an endpoint ID from 8 to 254";
}

static int write_all(int out, const uint8_t *bytes, size_t len) {
    while (len > 0) {
        ssize_t written = write(out, bytes, len);
        if (written <= 0) {
            return 0;
        }
        bytes += written;
        len -= (size_t)written;
    }
    return 1;
}

int link_send(struct link *link, const uint8_t *packet, size_t len) {
    if (link->kind == LINK_MCTP) {
        return mctp_send(&link->mctp, packet, len);
    }
    if (link->kind == LINK_SERIAL) {
        uint8_t frame[SERIAL_FRAME];
        return write_all(link->out, frame, serial_frame(frame, packet, len));
    } else {
        uint8_t head[3];
        head[0] = 1;
        head[1] = (uint8_t)(len & 0xff);
        head[2] = (uint8_t)(len >> 8);
        return write_all(link->out, head, sizeof head) && write_all(link->out, packet, len);
    }
}

static int read_all(int in, uint8_t *bytes, size_t len) {
    while (len > 0) {
        ssize_t got = read(in, bytes, len);
        if (got <= 0) {
            return 0;
        }
        bytes += got;
        len -= (size_t)got;
    }
    return 1;
}

/* Whether bytes come, or the other side goes, within so many milliseconds. */
static int comes(const struct link *link, int milliseconds) {
    struct pollfd ready;
    ready.fd = link->in;
    ready.events = POLLIN;
    ready.revents = 0;
    return poll(&ready, 1, milliseconds) > 0;
}

static long receive_frame(const struct link *link, uint8_t *room, size_t room_len) {
    uint8_t head[3];
    size_t len;
    if (!read_all(link->in, head, sizeof head)) {
        return -1;
    }
    len = (size_t)head[1] | (size_t)head[2] << 8;
    if (head[0] != 1 || len == 0 || len > room_len || !read_all(link->in, room, len)) {
        return -1;
    }
    return (long)len;
}

/* What has come of a frame stays in the reader where the time is over. */
static long receive_serial(struct link *link, uint8_t *room, size_t room_len, int milliseconds) {
    uint64_t now = link_clock();
    uint64_t until = now + (uint64_t)milliseconds;
    do {
        uint8_t byte;
        if (!comes(link, (int)(until - now))) {
            return 0;
        }
        if (!read_all(link->in, &byte, 1)) {
            return -1;
        }
        if (serial_take(&link->reader, byte) && link->reader.len <= room_len) {
            memcpy(room, link->reader.packet, link->reader.len);
            return link->reader.len;
        }
        now = link_clock();
    } while (now < until);
    return 0;
}

long link_receive(struct link *link, uint8_t *room, size_t room_len, int milliseconds) {
    if (link->kind == LINK_MCTP) {
        return mctp_receive(&link->mctp, room, room_len, milliseconds);
    }
    if (link->kind == LINK_SERIAL) {
        return receive_serial(link, room, room_len, milliseconds);
    }
    return comes(link, milliseconds) ? receive_frame(link, room, room_len) : 0;
}

uint64_t link_clock(void) {
    struct timespec now;
    clock_gettime(CLOCK_MONOTONIC, &now);
    return (uint64_t)now.tv_sec * 1000 + (uint64_t)now.tv_nsec / 1000000;
}

int link_seed(uint8_t seed[32]) {
    int source = open("/dev/urandom", O_RDONLY);
    int done = source >= 0 && read_all(source, seed, 32);
    if (source >= 0) {
        close(source);
    }
    return done;
}
