/*
 * A session between both ends in one process: negotiation, a session, application data both ways, a heartbeat, a key
 * update, measurements and the end of the session. It writes each packet, and what came of it. The same session as a
 * script is session.script, and `spdm run` sends the same packets.
 */
#include <stdio.h>
#include <string.h>

#include "spdm.h"

#define REQUESTER 9
#define RESPONDER 8
#define UNIT 64
#define PACKET (UNIT + 4)

/* Both ends know this key. In a product each device has its own, from a store that nothing else reads. */
static const uint8_t psk[] = "1234567890123456";
#define PSK_LEN (sizeof psk - 1)
static const uint8_t hint[] = {0x71};

/*
 * The seeds are fixed, so that each run sends the same packets. A product draws 32 secret random bytes for each end,
 * or counts its boots: the same seed with the same boot number must never be used twice.
 */
static const uint8_t responder_seed[32] = {
    0xfb, 0xbd, 0xb2, 0x84, 0x44, 0x37, 0xeb, 0xa0, 0x04, 0x70, 0x0d, 0xfc, 0x47, 0xa8, 0x5c, 0xd6,
    0xa6, 0xa5, 0x1a, 0x71, 0x8e, 0x04, 0x14, 0xe7, 0xae, 0x50, 0xea, 0xba, 0x81, 0x61, 0x97, 0xed};
static const uint8_t requester_seed[32] = {
    0xc7, 0xed, 0x71, 0xf5, 0xa3, 0x79, 0xce, 0xce, 0x47, 0xfe, 0x2f, 0x6b, 0x45, 0x9e, 0xaf, 0xc9,
    0x06, 0x12, 0xcb, 0xae, 0x1e, 0xcb, 0x7e, 0x91, 0xd6, 0x4f, 0x27, 0xf3, 0x72, 0x3f, 0x9f, 0xae};

/* The measurement of the device: a digest of its firmware. */
static const uint8_t firmware[32] = {
    0x00, 0x11, 0x22, 0x33, 0x44, 0x55, 0x66, 0x77, 0x88, 0x99, 0xaa, 0xbb, 0xcc, 0xdd, 0xee, 0xff,
    0x00, 0x11, 0x22, 0x33, 0x44, 0x55, 0x66, 0x77, 0x88, 0x99, 0xaa, 0xbb, 0xcc, 0xdd, 0xee, 0xff};

/* Filled with zeros, as they have to be before they are opened. */
static struct spdm_responder responder;
static struct spdm_requester requester;

static int failed(const char *what, uint32_t code) {
    printf("%s: answer %u\n", what, (unsigned)code);
    return 0;
}

static void show(const char *what, const uint8_t *bytes, size_t len) {
    size_t i;
    printf("%s ", what);
    for (i = 0; i < len; i++) {
        printf("%02x", bytes[i]);
    }
    printf("%s\n", len == 0 ? "-" : "");
}

static int open_responder(void) {
    struct spdm_responder_config config;
    struct spdm_known known;
    struct spdm_block block;
    uint32_t code;
    memset(&config, 0, sizeof config);
    config.eid = RESPONDER;
    config.beat = 30;
    config.offer.hash = SPDM_BOTH_HASHES;
    config.offer.aead = SPDM_BOTH_AEADS;
    config.offer.measure = 1;
    config.offer.heartbeat = 1;
    config.offer.key_update = 1;
    config.offer.chunk = 1;
    config.transfer = 1024;
    config.max = 4096;
    config.unit = UNIT;
    config.boot = 0;
    config.opaque = SPDM_NOTHING;
    config.opaque_len = 0;
    config.seed = responder_seed;
    known.eid = REQUESTER;
    known.hint = hint;
    known.hint_len = sizeof hint;
    known.psk = psk;
    known.psk_len = PSK_LEN;
    block.index = 1;
    block.value_type = 0;
    block.tcb = 1;
    block.value = firmware;
    block.value_len = sizeof firmware;
    code = spdm_responder_open(&responder, &config, &known, 1, &block, 1);
    return code == SPDM_OK || failed("spdm_responder_open", code);
}

static int open_requester(void) {
    static const uint8_t opaque[] = {0xca, 0xfe};
    struct spdm_requester_config config;
    uint32_t code;
    memset(&config, 0, sizeof config);
    config.eid = REQUESTER;
    config.responder = RESPONDER;
    config.pad = 3;
    config.offer.hash = SPDM_BOTH_HASHES;
    config.offer.aead = SPDM_AES_256_GCM;
    config.offer.heartbeat = 1;
    config.offer.key_update = 1;
    config.offer.chunk = 1;
    config.transfer = 1024;
    config.max = 4096;
    config.unit = UNIT;
    config.boot = 0;
    config.hint = hint;
    config.hint_len = sizeof hint;
    config.psk = psk;
    config.psk_len = PSK_LEN;
    config.opaque = opaque;
    config.opaque_len = sizeof opaque;
    config.seed = requester_seed;
    code = spdm_requester_open(&requester, &config);
    return code == SPDM_OK || failed("spdm_requester_open", code);
}

/* The link: packets wait in order, and each is given to the end that its second byte names. */
static uint8_t waiting[128][PACKET];
static size_t lengths[128];
static size_t first;
static size_t last;

static int send(int by_responder) {
    size_t index;
    for (index = 0;; index++) {
        uint8_t *room = waiting[last % 128];
        size_t *len = &lengths[last % 128];
        uint32_t code = by_responder ? spdm_responder_packet(&responder, index, room, PACKET, len)
                                     : spdm_requester_packet(&requester, index, room, PACKET, len);
        if (code == SPDM_NONE) {
            return 1;
        }
        if (code != SPDM_OK || last - first == 127) {
            return failed("a packet to send", code);
        }
        show("packet", room, *len);
        last++;
    }
}

/* Carries packets until none waits. `told` is what the requester was told last. */
static int carry(struct spdm_told *told) {
    while (first != last) {
        const uint8_t *packet = waiting[first % 128];
        size_t len = lengths[first % 128];
        int to_responder = packet[1] == RESPONDER;
        struct spdm_told heard;
        uint32_t code = to_responder ? spdm_responder_on_packet(&responder, packet, len, &heard)
                                     : spdm_requester_on_packet(&requester, packet, len, told);
        if (code != SPDM_OK) {
            return failed("a packet", code);
        }
        first++;
        if (!send(to_responder)) {
            return 0;
        }
    }
    return 1;
}

/* Runs a command up to its outcome, which has to be this one. */
static int run(uint32_t command, uint8_t session, uint8_t number, const char *bytes, uint32_t outcome) {
    struct spdm_told told;
    uint32_t code =
        spdm_requester_command(&requester, command, session, number, (const uint8_t *)bytes, strlen(bytes));
    if (code != SPDM_OK) {
        return failed("spdm_requester_command", code);
    }
    memset(&told, 0, sizeof told);
    if (!send(0) || !carry(&told)) {
        return 0;
    }
    if (told.kind != SPDM_REQ_DONE || told.cause != outcome) {
        printf("kind %u, cause %u\n", (unsigned)told.kind, (unsigned)told.cause);
        return 0;
    }
    return 1;
}

static int show_data(int of_responder) {
    uint8_t room[4096];
    size_t len;
    uint32_t code = of_responder ? spdm_responder_data(&responder, room, sizeof room, &len)
                                 : spdm_requester_data(&requester, room, sizeof room, &len);
    if (code != SPDM_OK) {
        return failed("data", code);
    }
    show(of_responder ? "data r" : "data q1", room, len);
    return 1;
}

static int show_session(int of_responder) {
    struct spdm_session session;
    uint32_t code = of_responder ? spdm_responder_session(&responder, REQUESTER, 0, &session)
                                 : spdm_requester_session(&requester, 0, &session);
    if (code != SPDM_OK) {
        return failed("session", code);
    }
    printf("session %s %u %u epochs %u %u numbers %u %u taken %u", of_responder ? "r" : "q1",
           (unsigned)(session.id & 0xffff), (unsigned)(session.id >> 16), (unsigned)session.request_epoch,
           (unsigned)session.response_epoch, (unsigned)session.request_next, (unsigned)session.response_next,
           (unsigned)session.taken);
    show("", session.hash, session.hash_len);
    return 1;
}

static int whole_session(void) {
    if (!run(SPDM_CONNECT, 0, 0, "", SPDM_CONNECTED) || !run(SPDM_OPEN_SESSION, 0, 255, "", SPDM_OPENED)) {
        return 0;
    }
    /* The answer of the application has to wait before the data come. */
    if (spdm_responder_queue(&responder, REQUESTER, (const uint8_t *)"hi", 2) != SPDM_OK) {
        return 0;
    }
    if (!run(SPDM_SEND, 1, 0, "hello", SPDM_DATA_ANSWERED) || !show_data(1) || !show_data(0)) {
        return 0;
    }
    /* 45 seconds go by; after 60 without a heartbeat the session would be gone. */
    if (spdm_responder_tick(&responder, 45) != SPDM_OK) {
        return 0;
    }
    return run(SPDM_BEAT, 1, 0, "", SPDM_ALIVE) && run(SPDM_UPDATE, 1, 1, "", SPDM_KEYS_UPDATED)
        && run(SPDM_MEASURE, 1, 255, "", SPDM_MEASURED) && show_data(0) && show_session(0) && show_session(1)
        && run(SPDM_END, 1, 0, "", SPDM_ENDED);
}

int main(void) {
    int done;
    if (spdm_header_fits() != SPDM_OK) {
        printf("the header is not that of the library\n");
        return 1;
    }
    done = open_responder() && open_requester() && whole_session();
    spdm_requester_close(&requester);
    spdm_responder_close(&responder);
    return done ? 0 : 1;
}
