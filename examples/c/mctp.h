#ifndef MCTP_H
#define MCTP_H
/*
 * Linux's sockets for MCTP (AF_MCTP). They carry the bodies of messages: the kernel cuts them into packets and gathers
 * them, and gives out the tags of requests. An end has packets, so those that it sends are gathered here, and what comes
 * is cut into packets. Where the headers have no linux/mctp.h nothing is opened.
 */
#include <stddef.h>
#include <stdint.h>

enum {
    MCTP_BODY = 4200, /* more bytes than the longest body of an end has */
    MCTP_TYPES = 2    /* types of messages: SPDM, and secured messages */
};

struct mctp {
    int sockets[MCTP_TYPES]; /* a device has one for each type; a controller one for the request that is outstanding */
    int is_device;
    uint8_t own;  /* the endpoint ID of the end, which its packets name */
    uint8_t peer; /* that of the other side */
    uint16_t unit;
    /* the body that is being sent, with its type in front */
    uint8_t sent[MCTP_BODY];
    size_t sent_len;
    uint8_t sent_flags;
    /* the body that came, of which packets up to `came_at` were told */
    uint8_t came[MCTP_BODY];
    size_t came_len;
    size_t came_at;
    uint8_t came_from;
    uint8_t came_flags;
    unsigned network;
};

/* Opens it. 0: it cannot be opened; then errno says why, where the system has such sockets at all. */
int mctp_open(struct mctp *mctp, int is_device, uint8_t own, uint8_t peer, uint16_t unit);

/* Takes a packet to send, and sends the body that ends with it. 0: that failed. */
int mctp_send(struct mctp *mctp, const uint8_t *packet, size_t len);

/* Waits so many milliseconds for a packet. Its length; 0: none came; -1: the socket is of no use any more. */
long mctp_receive(struct mctp *mctp, uint8_t *room, size_t room_len, int milliseconds);

#endif
