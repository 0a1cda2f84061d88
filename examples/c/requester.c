/*
 * A management controller: a requester behind a link. `requester [PATH | serial PATH | mctp EID]` (link.h) opens a session
 * with the device of responder.c, measures it, has it turn its fan, keeps the session alive by the clock, and ends it. What
 * comes of it is told on standard error; status 0 if all is done.
 */
#include <stdio.h>
#include <string.h>

#include "common.h"
#include "link.h"
#include "spdm.h"

/* Milliseconds that an answer may take, and how often a request is sent. */
enum { PATIENCE = 500, TRIES = 4 };

static const char name[] = "controller";

static struct spdm_requester requester;

/* When the session wants its next heartbeat: half a period after a record of it was sent. 0: there is no session. */
static uint64_t beat_due;

static uint32_t open_requester(uint8_t own, uint8_t device, const uint8_t seed[32]) {
    struct spdm_requester_config config;
    memset(&config, 0, sizeof config);
    config.eid = own;
    config.responder = device;
    config.offer = common_offer(0);
    config.transfer = TRANSFER;
    config.max = MAX_MESSAGE;
    config.unit = UNIT;
    config.hint = common_key.hint;
    config.hint_len = common_key.hint_len;
    config.psk = common_key.psk;
    config.psk_len = common_key.psk_len;
    config.opaque = SPDM_NOTHING;
    config.seed = seed;
    return spdm_requester_open(&requester, &config);
}

static int send_packets(struct link *link) {
    uint8_t room[PACKET];
    size_t len;
    size_t index;
    for (index = 0; spdm_requester_packet(&requester, index, room, sizeof room, &len) == SPDM_OK; index++) {
        if (!link_send(link, room, len)) {
            return 0;
        }
    }
    return 1;
}

/* Whether the command is over by what a packet led to. */
static int is_over(const struct spdm_told *told) {
    return told->kind == SPDM_REQ_DONE || told->kind == SPDM_REQ_REFUSED || told->kind == SPDM_REQ_STOPPED
        || told->kind == SPDM_REQ_LOST;
}

/* Waits for the outcome of a command. Where no answer comes the request is sent again. */
static int await(struct link *link, struct spdm_told *told) {
    int tries = TRIES;
    while (tries > 0) {
        uint8_t packet[1028];
        long len = link_receive(link, packet, sizeof packet, PATIENCE);
        if (len < 0) {
            return 0;
        }
        if (len == 0) {
            tries--;
            if (spdm_requester_command(&requester, SPDM_RETRY, 0, 0, SPDM_NOTHING, 0) != SPDM_OK) {
                return 0;
            }
        } else {
            spdm_requester_on_packet(&requester, packet, (size_t)len, told);
            if (is_over(told)) {
                return 1;
            }
        }
        if (!send_packets(link)) {
            return 0;
        }
    }
    return 0;
}

static int run(struct link *link, uint32_t command, uint8_t session, uint8_t number, const char *bytes,
               uint32_t outcome) {
    struct spdm_told told;
    uint64_t sent = link_clock();
    uint32_t code =
        spdm_requester_command(&requester, command, session, number, (const uint8_t *)bytes, strlen(bytes));
    memset(&told, 0, sizeof told);
    if (code != SPDM_OK || !send_packets(link) || !await(link, &told) || told.kind != SPDM_REQ_DONE
        || told.cause != outcome) {
        fprintf(stderr, "%s: command %u: answer %u, kind %u, cause %u, number %u\n", name, (unsigned)command,
                (unsigned)code, (unsigned)told.kind, (unsigned)told.cause, (unsigned)told.number);
        return 0;
    }
    beat_due = outcome == SPDM_ENDED || outcome == SPDM_CONNECTED ? 0 : sent + PERIOD * 500;
    return 1;
}

/* Lets milliseconds go by. The session stays, since it has a heartbeat whenever one is due. */
static int rest(struct link *link, uint64_t milliseconds) {
    uint64_t until = link_clock() + milliseconds;
    uint64_t now;
    while ((now = link_clock()) < until) {
        uint64_t next = beat_due > 0 && beat_due < until ? beat_due : until;
        if (next <= now) {
            if (!run(link, SPDM_BEAT, 1, 0, "", SPDM_ALIVE)) {
                return 0;
            }
            fprintf(stderr, "%s: heartbeat\n", name);
        } else {
            /* No request is outstanding, so a packet that comes now is one that is late. */
            uint8_t packet[1028];
            struct spdm_told told;
            long len = link_receive(link, packet, sizeof packet, (int)(next - now));
            if (len < 0) {
                return 0;
            }
            if (len > 0) {
                spdm_requester_on_packet(&requester, packet, (size_t)len, &told);
            }
        }
    }
    return 1;
}

static int show_measurements(void) {
    uint8_t room[4096];
    size_t len;
    size_t i;
    if (spdm_requester_data(&requester, room, sizeof room, &len) != SPDM_OK) {
        return 0;
    }
    fprintf(stderr, "%s: measurements ", name);
    for (i = 0; i < len; i++) {
        fprintf(stderr, "%02x", room[i]);
    }
    fprintf(stderr, "\n");
    return 1;
}

/* Sends a message to the application of the device, and shows its answer. */
static int ask(struct link *link, const char *text) {
    uint8_t room[1024];
    size_t len;
    if (!run(link, SPDM_SEND, 1, 0, text, SPDM_DATA_ANSWERED)
        || spdm_requester_data(&requester, room, sizeof room, &len) != SPDM_OK) {
        return 0;
    }
    common_show(name, "answer: ", room, len);
    return 1;
}

static int whole_session(struct link *link) {
    return run(link, SPDM_CONNECT, 0, 0, "", SPDM_CONNECTED) && run(link, SPDM_OPEN_SESSION, 0, 0, "", SPDM_OPENED)
        && run(link, SPDM_MEASURE, 1, 255, "", SPDM_MEASURED) && show_measurements()
        && ask(link, "fan 40")
        /* longer than a session lasts in silence */
        && rest(link, 1000 * (2 * PERIOD + 1)) && ask(link, "fan 60")
        && run(link, SPDM_UPDATE, 1, 1, "", SPDM_KEYS_UPDATED) && ask(link, "how fast?")
        && run(link, SPDM_END, 1, 0, "", SPDM_ENDED);
}

int main(int argc, char **argv) {
    struct link link;
    uint8_t own = CONTROLLER;
    uint8_t seed[32];
    uint32_t code;
    int done;
    if (!common_begin(name, argv + (argc > 0), &own, &link, seed)) {
        return 1;
    }
    code = open_requester(own, link.peer, seed);
    memset(seed, 0, sizeof seed);
    if (code != SPDM_OK) {
        fprintf(stderr, "%s: answer %u\n", name, (unsigned)code);
        return 1;
    }
    done = whole_session(&link);
    spdm_requester_close(&requester);
    fprintf(stderr, "%s: %s\n", name, done ? "done" : "failed");
    return done ? 0 : 1;
}
