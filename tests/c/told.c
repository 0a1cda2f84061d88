/*
 * What PSK_EXCHANGE_RSP told a requester of its sessions: the HeartbeatPeriod, the measurement summary and the opaque
 * data of the responder. The summary is the hash over the one block, as a program without this library computes it.
 */
#include "ends.h"

static struct ends ends;

static const uint8_t opaque[5] = {1, 0, 254, 255, 3};

/* SHA-256 and SHA-384 over index, MeasurementSpecification, size, value type, size and value. */
static const uint8_t summary_256[32] = {
        0x51, 0x70, 0xa0, 0xe9, 0xd2, 0xac, 0x38, 0x9a, 0xe9, 0x14, 0xf8, 0x70, 0x42, 0x44, 0x32, 0xa4,
        0xe7, 0x25, 0x59, 0x35, 0xcb, 0x56, 0x36, 0x53, 0x84, 0xb9, 0x92, 0xba, 0xfa, 0x70, 0x18, 0x1e};
static const uint8_t summary_384[48] = {
        0xab, 0x3b, 0x7b, 0xe8, 0xd4, 0x37, 0xbc, 0xd3, 0x36, 0xdd, 0xfd, 0x12, 0x40, 0x84, 0xc2, 0x95,
        0x4d, 0xce, 0x23, 0x03, 0x2f, 0xc9, 0x7e, 0x5e, 0xb3, 0x0c, 0x68, 0x56, 0x36, 0x05, 0x0b, 0xad,
        0x2f, 0x4d, 0xa7, 0x8e, 0xa2, 0x4e, 0x3e, 0x3f, 0x56, 0x8e, 0xe1, 0xba, 0x99, 0x4c, 0xc5, 0x3b};

static void open_with_opaque(void) {
    struct spdm_responder_config responder = responder_config();
    struct spdm_requester_config requester = requester_config();
    struct spdm_known known = known_requester();
    struct spdm_block block = measured_block();
    responder.opaque = opaque;
    responder.opaque_len = sizeof opaque;
    memset(&ends, 0, sizeof ends);
    CHECK(spdm_responder_open(&ends.responder, &responder, &known, 1, &block, 1) == SPDM_OK);
    CHECK(spdm_requester_open(&ends.requester, &requester) == SPDM_OK);
}

/* Nothing is told of a session that is not there, nor by a requester that is closed. */
static void nothing(uint16_t req_id, uint32_t code) {
    uint8_t room[8] = {9, 9, 9, 9, 9, 9, 9, 9};
    size_t len = 77;
    uint32_t period = 99;
    CHECK(spdm_requester_period(&ends.requester, req_id, &period) == code && period == 99);
    CHECK(spdm_requester_summary(&ends.requester, req_id, room, sizeof room, &len) == code && len == 77);
    CHECK(spdm_requester_opaque(&ends.requester, req_id, room, sizeof room, &len) == code && len == 77);
    CHECK(room[0] == 9 && room[7] == 9);
}

static void told(uint16_t req_id, int has_summary) {
    struct spdm_session session;
    uint8_t room[64];
    size_t len = 77;
    uint32_t period = 99;
    CHECK(spdm_requester_session(&ends.requester, (size_t)req_id - 1, &session) == SPDM_OK);
    CHECK((session.id & 0xffff) == req_id);
    CHECK(spdm_requester_period(&ends.requester, req_id, &period) == SPDM_OK && period == 30);
    CHECK(spdm_requester_opaque(&ends.requester, req_id, room, sizeof room, &len) == SPDM_OK);
    CHECK(len == sizeof opaque && memcmp(room, opaque, len) == 0);
    CHECK(spdm_requester_opaque(&ends.requester, req_id, room, 4, &len) == SPDM_ROOM && len == sizeof opaque);
    CHECK(spdm_requester_summary(&ends.requester, req_id, room, sizeof room, &len) == SPDM_OK);
    if (!has_summary) {
        CHECK(len == 0);
        return;
    }
    CHECK(len == session.hash_len);
    CHECK(memcmp(room, len == 32 ? summary_256 : summary_384, len) == 0);
}

int main(void) {
    nothing(1, SPDM_CLOSED);
    open_with_opaque();
    nothing(1, SPDM_NONE);
    run(&ends, SPDM_CONNECT, 0, 0, "", SPDM_CONNECTED);
    run(&ends, SPDM_OPEN_SESSION, 0, 255, "", SPDM_OPENED);
    run(&ends, SPDM_OPEN_SESSION, 0, 0, "", SPDM_OPENED);
    run(&ends, SPDM_OPEN_SESSION, 0, 1, "", SPDM_OPENED);
    told(1, 1);
    told(2, 0);
    told(3, 1);
    run(&ends, SPDM_UPDATE, 1, 1, "", SPDM_KEYS_UPDATED);
    told(1, 1);
    nothing(0, SPDM_NONE);
    nothing(4, SPDM_NONE);
    nothing(5, SPDM_NONE);
    nothing(65535, SPDM_NONE);
    run(&ends, SPDM_END, 3, 0, "", SPDM_ENDED);
    nothing(3, SPDM_NONE);
    run(&ends, SPDM_CONNECT, 0, 0, "", SPDM_CONNECTED);
    nothing(1, SPDM_NONE);
    close_ends(&ends);
    nothing(1, SPDM_CLOSED);
    printf("what three sessions were told\n");
    return 0;
}
