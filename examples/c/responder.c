/*
 * A device: a responder behind a link, and an application that answers. `responder [PATH | serial PATH | mctp EID]`
 * (link.h) serves until the other side is gone. What it takes is told on standard error.
 */
#include <stdio.h>
#include <string.h>

#include "application.h"
#include "common.h"
#include "link.h"
#include "spdm.h"

static const char name[] = "device";

/* The digest of the firmware that runs. */
static const uint8_t firmware[32] = {0x00, 0x01, 0x02, 0x03, 0x04, 0x05, 0x06, 0x07, 0x08, 0x09, 0x0a,
                                     0x0b, 0x0c, 0x0d, 0x0e, 0x0f, 0x10, 0x11, 0x12, 0x13, 0x14, 0x15,
                                     0x16, 0x17, 0x18, 0x19, 0x1a, 0x1b, 0x1c, 0x1d, 0x1e, 0x1f};

static struct spdm_responder responder;

static uint32_t open_responder(uint8_t own, uint8_t controller, const uint8_t seed[32]) {
    struct spdm_responder_config config;
    struct spdm_known known;
    struct spdm_block block;
    memset(&config, 0, sizeof config);
    config.eid = own;
    config.beat = PERIOD;
    config.offer = common_offer(1);
    config.transfer = TRANSFER;
    config.max = MAX_MESSAGE;
    config.unit = UNIT;
    config.opaque = SPDM_NOTHING;
    config.seed = seed;
    known.eid = controller;
    known.hint = common_key.hint;
    known.hint_len = common_key.hint_len;
    known.psk = common_key.psk;
    known.psk_len = common_key.psk_len;
    block.index = 1;
    block.value_type = 0;
    block.tcb = 1;
    block.value = firmware;
    block.value_len = sizeof firmware;
    return spdm_responder_open(&responder, &config, &known, 1, &block, 1);
}

/* Has the application answer the message that a packet brings, if it brings one, before the packet is given. */
static void answer_message(const uint8_t *packet, size_t len) {
    struct spdm_message message;
    uint8_t room[1024];
    size_t room_len;
    if (spdm_responder_peek(&responder, packet, len, &message, room, sizeof room, &room_len) == SPDM_OK) {
        uint8_t answer[APPLICATION_ANSWER];
        common_show(name, "", room, room_len);
        application_take(room, room_len);
        spdm_responder_queue(&responder, (uint8_t)message.eid, answer, application_answer(answer));
    }
}

/* Tells what became of the sessions with the controller. */
static void tell_changes(uint8_t controller) {
    static const char *const words[] = {"", "began", "is established", "is gone", "is gone, for another"};
    static struct spdm_watch watch;
    struct spdm_change changes[4];
    size_t i;
    if (spdm_responder_changes(&responder, controller, &watch, changes) != SPDM_OK) {
        return;
    }
    for (i = 0; i < 4; i++) {
        if (changes[i].kind != SPDM_CHANGE_NONE) {
            fprintf(stderr, "%s: session %lx %s\n", name, (unsigned long)changes[i].session, words[changes[i].kind]);
        }
    }
}

static int send_packets(struct link *link) {
    uint8_t room[PACKET];
    size_t len;
    size_t index;
    for (index = 0; spdm_responder_packet(&responder, index, room, sizeof room, &len) == SPDM_OK; index++) {
        if (!link_send(link, room, len)) {
            return 0;
        }
    }
    return 1;
}

static void serve(struct link *link) {
    uint64_t last = link_clock() / 1000;
    for (;;) {
        uint8_t packet[1028];
        struct spdm_told told;
        long len = link_receive(link, packet, sizeof packet, 500);
        uint64_t now = link_clock() / 1000;
        /* Time first: a record that comes late must not find a session that is over. */
        spdm_responder_tick(&responder, (uint32_t)(now - last));
        last = now;
        tell_changes(link->peer);
        if (len < 0) {
            return;
        }
        if (len > 0) {
            answer_message(packet, (size_t)len);
            spdm_responder_on_packet(&responder, packet, (size_t)len, &told);
            tell_changes(link->peer);
            if (!send_packets(link)) {
                return;
            }
        }
    }
}

int main(int argc, char **argv) {
    struct link link;
    uint8_t own = DEVICE;
    uint8_t seed[32];
    uint32_t code;
    if (!common_begin(name, argv + (argc > 0), &own, &link, seed)) {
        return 1;
    }
    code = open_responder(own, link.peer, seed);
    memset(seed, 0, sizeof seed);
    if (code != SPDM_OK) {
        fprintf(stderr, "%s: answer %u\n", name, (unsigned)code);
        return 1;
    }
    serve(&link);
    spdm_responder_close(&responder);
    return 0;
}
