/*
 * A stand-in for Linux's sockets for MCTP, where the kernel has none: a library that is loaded in front of a program, and
 * carries their messages between processes as datagrams between files. It keeps what the kernel promises a program
 * (Documentation/networking/mctp.rst of Linux): the byte of the type is no part of a message; a request, sent with
 * MCTP_TAG_OWNER, goes to the socket that is bound to its type, with a tag that the kernel chose; an answer with that tag
 * goes to the socket that sent the request, and to none where that is closed.
 *
 * MCTP_STAND_IN names the folder of the files, MCTP_EID is the endpoint ID of the process.
 */
#define _GNU_SOURCE
#include <dlfcn.h>
#include <errno.h>
#include <stdio.h>
#include <stdlib.h>
#include <string.h>
#include <sys/socket.h>
#include <sys/un.h>
#include <unistd.h>

#include <linux/mctp.h>

enum { SOCKETS = 1024, MOST = 1 << 16, HEAD = 3 };

/* The tag of the request that a socket has sent, and one more; 0: it has sent none. */
static unsigned char asked[SOCKETS];
static unsigned char is_ours[SOCKETS];

static struct sockaddr_un place(unsigned eid, char kind, unsigned number) {
    struct sockaddr_un place;
    memset(&place, 0, sizeof place);
    place.sun_family = AF_UNIX;
    snprintf(place.sun_path, sizeof place.sun_path, "%s/%u.%c%u", getenv("MCTP_STAND_IN"), eid, kind, number);
    return place;
}

static unsigned own_eid(void) {
    return (unsigned)atoi(getenv("MCTP_EID"));
}

static int bind_at(int by, char kind, unsigned number) {
    static int (*real)(int, const struct sockaddr *, socklen_t);
    struct sockaddr_un at = place(own_eid(), kind, number);
    if (!real) {
        *(void **)&real = dlsym(RTLD_NEXT, "bind");
    }
    unlink(at.sun_path);
    return real(by, (struct sockaddr *)&at, sizeof at);
}

int socket(int family, int kind, int protocol) {
    static int (*real)(int, int, int);
    int opened;
    if (!real) {
        *(void **)&real = dlsym(RTLD_NEXT, "socket");
    }
    opened = real(family == AF_MCTP ? AF_UNIX : family, kind, protocol);
    if (opened >= 0 && opened < SOCKETS) {
        is_ours[opened] = family == AF_MCTP;
        asked[opened] = 0;
    }
    return opened;
}

int bind(int by, const struct sockaddr *address, socklen_t len) {
    const struct sockaddr_mctp *at = (const struct sockaddr_mctp *)address;
    if (!is_ours[by] || len != sizeof *at || at->smctp_family != AF_MCTP) {
        errno = EINVAL;
        return -1;
    }
    return bind_at(by, 'y', at->smctp_type);
}

ssize_t sendto(int by, const void *bytes, size_t len, int flags, const struct sockaddr *address, socklen_t address_len) {
    static ssize_t (*real)(int, const void *, size_t, int, const struct sockaddr *, socklen_t);
    static unsigned tag = 4;
    const struct sockaddr_mctp *at = (const struct sockaddr_mctp *)address;
    unsigned char message[MOST];
    struct sockaddr_un to;
    int is_request = at->smctp_tag == MCTP_TAG_OWNER;
    if (!real) {
        *(void **)&real = dlsym(RTLD_NEXT, "sendto");
    }
    if (!is_ours[by] || address_len != sizeof *at || len + HEAD > MOST
        || (!is_request && at->smctp_tag & ~MCTP_TAG_MASK)) {
        errno = EINVAL;
        return -1;
    }
    if (is_request) {
        tag = (tag + 3) % 8;
        asked[by] = (unsigned char)(tag + 1);
        if (bind_at(by, 't', tag) < 0) {
            return -1;
        }
    }
    message[0] = (unsigned char)own_eid();
    message[1] = at->smctp_type;
    message[2] = (unsigned char)(is_request ? MCTP_TAG_OWNER | tag : at->smctp_tag);
    memcpy(message + HEAD, bytes, len);
    to = is_request ? place(at->smctp_addr.s_addr, 'y', at->smctp_type)
                    : place(at->smctp_addr.s_addr, 't', at->smctp_tag);
    /* Where nobody waits for it, it is gone. */
    real(by, message, len + HEAD, flags, (struct sockaddr *)&to, sizeof to);
    return (ssize_t)len;
}

ssize_t recvfrom(int by, void *bytes, size_t len, int flags, struct sockaddr *address, socklen_t *address_len) {
    static ssize_t (*real)(int, void *, size_t, int, struct sockaddr *, socklen_t *);
    unsigned char message[MOST];
    struct sockaddr_mctp from;
    ssize_t got;
    if (!real) {
        *(void **)&real = dlsym(RTLD_NEXT, "recvfrom");
    }
    got = real(by, message, sizeof message, flags, NULL, NULL);
    if (got < HEAD || *address_len < sizeof from) {
        return -1;
    }
    memset(&from, 0, sizeof from);
    from.smctp_family = AF_MCTP;
    from.smctp_network = 1;
    from.smctp_addr.s_addr = message[0];
    from.smctp_type = message[1];
    from.smctp_tag = message[2];
    memcpy(address, &from, sizeof from);
    *address_len = sizeof from;
    got -= HEAD;
    len = (size_t)got < len ? (size_t)got : len;
    memcpy(bytes, message + HEAD, len);
    return (ssize_t)len;
}
