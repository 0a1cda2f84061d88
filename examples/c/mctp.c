#define _POSIX_C_SOURCE 200809L
#include "mctp.h"

#if defined(__linux__) && defined(__has_include)
#if __has_include(<linux/mctp.h>)
#define HAS_MCTP
#endif
#endif

#ifdef HAS_MCTP

#include <poll.h>
#include <string.h>
#include <sys/socket.h>
#include <unistd.h>

#include <linux/mctp.h>

/* The transport header (DSP0236): the version, the destination, the source, and a byte of flags. */
enum { HEADER = 4, VERSION = 1, START = 0x80, END = 0x40, SEQUENCE = 0x10, SEQUENCES = 4, OWNER = 0x08, TAG = 0x07 };

static const uint8_t types[MCTP_TYPES] = {5, 6};

static int new_socket(void) {
    return socket(AF_MCTP, SOCK_DGRAM, 0);
}

static struct sockaddr_mctp address(const struct mctp *mctp, uint8_t eid, uint8_t type, uint8_t tag) {
    struct sockaddr_mctp address;
    memset(&address, 0, sizeof address);
    address.smctp_family = AF_MCTP;
    address.smctp_network = mctp->network;
    address.smctp_addr.s_addr = eid;
    address.smctp_type = type;
    address.smctp_tag = tag;
    return address;
}

/* Requests of a type come to the socket that is bound to it. */
static int bound_socket(const struct mctp *mctp, uint8_t type) {
    struct sockaddr_mctp any = address(mctp, MCTP_ADDR_ANY, type, MCTP_TAG_OWNER);
    int opened = new_socket();
    if (opened >= 0 && bind(opened, (struct sockaddr *)&any, sizeof any) < 0) {
        close(opened);
        return -1;
    }
    return opened;
}

int mctp_open(struct mctp *mctp, int is_device, uint8_t own, uint8_t peer, uint16_t unit) {
    memset(mctp, 0, sizeof *mctp);
    mctp->is_device = is_device;
    mctp->own = own;
    mctp->peer = peer;
    mctp->unit = unit;
    mctp->network = MCTP_NET_ANY;
    if (is_device) {
        mctp->sockets[0] = bound_socket(mctp, types[0]);
        mctp->sockets[1] = mctp->sockets[0] < 0 ? -1 : bound_socket(mctp, types[1]);
    } else {
        mctp->sockets[0] = new_socket();
        mctp->sockets[1] = -1;
    }
    return mctp->sockets[0] >= 0 && (!is_device || mctp->sockets[1] >= 0);
}

static int send_body(struct mctp *mctp) {
    uint8_t type = mctp->sent[0];
    struct sockaddr_mctp to;
    int by;
    if (mctp->is_device) {
        /* An answer has the tag that the kernel told with the request. */
        to = address(mctp, mctp->came_from, type, mctp->sent_flags & TAG);
        by = mctp->sockets[type == types[1]];
    } else {
        /* Each request goes by a socket of its own: what answers an older one finds no reader. */
        close(mctp->sockets[0]);
        mctp->sockets[0] = new_socket();
        to = address(mctp, mctp->peer, type, MCTP_TAG_OWNER);
        by = mctp->sockets[0];
    }
    return sendto(by, mctp->sent + 1, mctp->sent_len - 1, 0, (struct sockaddr *)&to, sizeof to) >= 0;
}

int mctp_send(struct mctp *mctp, const uint8_t *packet, size_t len) {
    if (len >= HEADER && packet[3] & START) {
        mctp->sent_len = 0;
        mctp->sent_flags = packet[3];
    }
    if (len < HEADER || mctp->sent_len + len > MCTP_BODY) {
        return 0;
    }
    memcpy(mctp->sent + mctp->sent_len, packet + HEADER, len - HEADER);
    mctp->sent_len += len - HEADER;
    return !(packet[3] & END) || (mctp->sent_len > 0 && send_body(mctp));
}

/* The next packet of the body that came. */
static long next_packet(struct mctp *mctp, uint8_t *room, size_t room_len) {
    size_t left = mctp->came_len - mctp->came_at;
    size_t part = left < mctp->unit ? left : mctp->unit;
    size_t number = mctp->came_at / mctp->unit;
    if (left == 0 || HEADER + part > room_len) {
        return left == 0 ? 0 : -1;
    }
    room[0] = VERSION;
    room[1] = mctp->own;
    room[2] = mctp->came_from;
    room[3] = (uint8_t)(mctp->came_flags | number % SEQUENCES * SEQUENCE | (number == 0 ? START : 0)
                        | (part == left ? END : 0));
    memcpy(room + HEADER, mctp->came + mctp->came_at, part);
    mctp->came_at += part;
    return (long)(HEADER + part);
}

static int take_body(struct mctp *mctp, int by) {
    struct sockaddr_mctp from;
    socklen_t from_len = sizeof from;
    ssize_t got = recvfrom(by, mctp->came + 1, sizeof mctp->came - 1, 0, (struct sockaddr *)&from, &from_len);
    if (got < 0) {
        return 0;
    }
    mctp->came[0] = from.smctp_type;
    mctp->came_len = (size_t)got + 1;
    mctp->came_at = 0;
    mctp->came_from = from.smctp_addr.s_addr;
    if (mctp->is_device) {
        mctp->network = from.smctp_network;
        mctp->came_flags = OWNER | (from.smctp_tag & TAG);
    } else {
        /* The kernel chose a tag of its own for the request; the end awaits the one that it chose. */
        mctp->came_flags = mctp->sent_flags & TAG;
    }
    return 1;
}

long mctp_receive(struct mctp *mctp, uint8_t *room, size_t room_len, int milliseconds) {
    long told = next_packet(mctp, room, room_len);
    struct pollfd ready[MCTP_TYPES];
    size_t i;
    if (told != 0) {
        return told;
    }
    for (i = 0; i < MCTP_TYPES; i++) {
        ready[i].fd = mctp->sockets[i];
        ready[i].events = POLLIN;
        ready[i].revents = 0;
    }
    if (poll(ready, MCTP_TYPES, milliseconds) <= 0) {
        return 0;
    }
    for (i = 0; i < MCTP_TYPES; i++) {
        if (ready[i].revents) {
            return take_body(mctp, mctp->sockets[i]) ? next_packet(mctp, room, room_len) : -1;
        }
    }
    return 0;
}

#else

#include <errno.h>

int mctp_open(struct mctp *mctp, int is_device, uint8_t own, uint8_t peer, uint16_t unit) {
    (void)mctp;
    (void)is_device;
    (void)own;
    (void)peer;
    (void)unit;
    errno = ENOSYS;
    return 0;
}

int mctp_send(struct mctp *mctp, const uint8_t *packet, size_t len) {
    (void)mctp;
    (void)packet;
    (void)len;
    return 0;
}

long mctp_receive(struct mctp *mctp, uint8_t *room, size_t room_len, int milliseconds) {
    (void)mctp;
    (void)room;
    (void)room_len;
    (void)milliseconds;
    return -1;
}

#endif
