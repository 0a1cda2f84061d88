/*
 * Packets of anyone: `packets COUNT SEED` gives each end so many random packets, from plain noise to altered packets
 * of its own sessions, and the session goes on behind them.
 */
#include "ends.h"

static uint64_t state;

/* xorshift64*: the same packets for the same seed */
static uint32_t next_number(void) {
    state ^= state >> 12;
    state ^= state << 25;
    state ^= state >> 27;
    return (uint32_t)((state * 0x2545f4914f6cdd1dULL) >> 32);
}

/* A packet that resets a connection needs no secret: GET_VERSION in the clear. None is sent. */
static int is_get_version(const uint8_t *packet, size_t len) { return len >= 7 && packet[4] == 5 && packet[6] == 0x84; }

static size_t random_packet(uint8_t *packet, const uint8_t *real, size_t real_len, uint8_t to, uint8_t from) {
    size_t len = next_number() % 80;
    size_t i;
    uint32_t kind = next_number() % 3;
    for (i = 0; i < len; i++) {
        packet[i] = (uint8_t)next_number();
    }
    if (kind == 1 && len >= 5) {
        /* a sound header, and a record or a clear message */
        packet[0] = 1;
        packet[1] = to;
        packet[2] = from;
        packet[3] = (uint8_t)(next_number() % 2 ? 0xc8 | (packet[3] & 7) : packet[3]);
        packet[4] = (uint8_t)(5 + next_number() % 2);
    }
    if (kind == 2) {
        /* one of its own packets, altered or cut */
        len = real_len;
        memcpy(packet, real, len);
        packet[next_number() % len] ^= (uint8_t)(1 + next_number() % 255);
        if (next_number() % 4 == 0) {
            len = next_number() % len;
        }
    }
    return is_get_version(packet, len) ? 0 : len;
}

int main(int argc, char **argv) {
    unsigned long count = argc > 1 ? strtoul(argv[1], NULL, 10) : 1000000;
    unsigned long i;
    unsigned long taken = 0;
    struct ends ends;
    uint8_t asked[ROOM];
    uint8_t answered[ROOM];
    size_t asked_len;
    size_t answered_len;
    state = (argc > 2 ? strtoul(argv[2], NULL, 10) : 1) * 0x9e3779b97f4a7c15ULL + 1;
    open_ends(&ends);
    run(&ends, SPDM_CONNECT, 0, 0, "", SPDM_CONNECTED);
    run(&ends, SPDM_OPEN_SESSION, 0, 0, "", SPDM_OPENED);
    /* a record of each direction */
    CHECK(spdm_requester_command(&ends.requester, SPDM_BEAT, 1, 0, SPDM_NOTHING, 0) == SPDM_OK);
    CHECK(spdm_requester_packet(&ends.requester, 0, asked, ROOM, &asked_len) == SPDM_OK);
    carry(&ends);
    CHECK(spdm_responder_packet(&ends.responder, 0, answered, ROOM, &answered_len) == SPDM_OK);
    for (i = 0; i < count; i++) {
        uint8_t packet[ROOM + 80];
        struct spdm_told told;
        size_t len = random_packet(packet, asked, asked_len, RESPONDER, REQUESTER);
        CHECK(spdm_responder_on_packet(&ends.responder, packet, len, &told) == SPDM_OK);
        CHECK(told.kind != SPDM_TAKEN);
        len = random_packet(packet, answered, answered_len, REQUESTER, RESPONDER);
        CHECK(spdm_requester_on_packet(&ends.requester, packet, len, &told) == SPDM_OK);
        CHECK(told.kind == SPDM_REQ_IGNORED || told.kind == SPDM_REQ_MORE || told.kind == SPDM_REQ_WARNED);
        if (i % 1000 == 999) {
            struct spdm_session session;
            run(&ends, SPDM_SEND, 1, 0, "still here", SPDM_DATA_ANSWERED);
            taken++;
            CHECK(spdm_responder_session(&ends.responder, REQUESTER, 0, &session) == SPDM_OK);
            CHECK(session.taken == taken && session.stage == SPDM_ESTABLISHED);
        }
    }
    close_ends(&ends);
    printf("%lu packets to each end, and %lu messages between them\n", count, taken);
    return 0;
}
