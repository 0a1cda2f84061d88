/* Every misuse that a call can test has its answer, and changes nothing. */
#include "ends.h"

static uint8_t room[4096];
static uint8_t before[4096];
static size_t len;

static void fill(void) {
    memset(room, 0x5a, sizeof room);
    memset(before, 0x5a, sizeof before);
    len = 77;
}

static int untouched(void) { return memcmp(room, before, sizeof room) == 0; }

/* An end that is not open: filled with zeros, closed again, or never filled. */
static void closed(struct ends *ends) {
    struct spdm_told told;
    struct spdm_told old;
    struct spdm_session session;
    struct spdm_session shown;
    uint32_t phase = 99;
    memset(&told, 0x5a, sizeof told);
    memset(&old, 0x5a, sizeof old);
    memset(&session, 0x5a, sizeof session);
    memset(&shown, 0x5a, sizeof shown);
    fill();
    CHECK(spdm_responder_on_packet(&ends->responder, room, 9, &told) == SPDM_CLOSED);
    CHECK(spdm_responder_packet(&ends->responder, 0, room, sizeof room, &len) == SPDM_CLOSED);
    CHECK(spdm_responder_queue(&ends->responder, REQUESTER, room, 1) == SPDM_CLOSED);
    CHECK(spdm_responder_queue(&ends->responder, 0, room, 1) == SPDM_CLOSED);
    CHECK(spdm_responder_tick(&ends->responder, 1) == SPDM_CLOSED);
    CHECK(spdm_responder_reset(&ends->responder, REQUESTER) == SPDM_CLOSED);
    CHECK(spdm_responder_phase(&ends->responder, REQUESTER, &phase) == SPDM_CLOSED);
    CHECK(spdm_responder_session(&ends->responder, REQUESTER, 0, &session) == SPDM_CLOSED);
    CHECK(spdm_responder_data(&ends->responder, room, sizeof room, &len) == SPDM_CLOSED);
    CHECK(spdm_requester_command(&ends->requester, SPDM_CONNECT, 0, 0, room, 0) == SPDM_CLOSED);
    CHECK(spdm_requester_command(&ends->requester, 99, 0, 0, room, 0) == SPDM_CLOSED);
    CHECK(spdm_requester_on_packet(&ends->requester, room, 9, &told) == SPDM_CLOSED);
    CHECK(spdm_requester_packet(&ends->requester, 0, room, sizeof room, &len) == SPDM_CLOSED);
    CHECK(spdm_requester_phase(&ends->requester, &phase) == SPDM_CLOSED);
    CHECK(spdm_requester_session(&ends->requester, 0, &session) == SPDM_CLOSED);
    CHECK(spdm_requester_data(&ends->requester, room, sizeof room, &len) == SPDM_CLOSED);
    CHECK(untouched() && len == 77 && phase == 99);
    CHECK(memcmp(&told, &old, sizeof told) == 0 && memcmp(&session, &shown, sizeof session) == 0);
    close_ends(ends);
}

static uint32_t opens(struct spdm_responder_config config, const struct spdm_known *known, size_t count,
                      const struct spdm_block *blocks, size_t block_count) {
    struct spdm_responder responder;
    uint32_t code;
    memset(&responder, 0, sizeof responder);
    code = spdm_responder_open(&responder, &config, known, count, blocks, block_count);
    spdm_responder_close(&responder);
    return code;
}

static void responder_words(void) {
    struct spdm_responder_config config = responder_config();
    struct spdm_known known[9];
    struct spdm_block blocks[2];
    static uint8_t keys[9][65];
    static uint8_t long_value[4096];
    size_t i;
    for (i = 0; i < 9; i++) {
        known[i] = known_requester();
        known[i].eid = (uint8_t)(REQUESTER + i);
        keys[i][0] = (uint8_t)i;
        known[i].psk = keys[i];
        known[i].psk_len = 32;
    }
    blocks[0] = blocks[1] = measured_block();
    blocks[1].index = 2;
    CHECK(opens(config, known, 0, blocks, 0) == SPDM_OK);
    CHECK(opens(config, known, 8, blocks, 2) == SPDM_OK);
    CHECK(opens(config, known, 9, blocks, 2) == SPDM_TOO_MANY_REQUESTERS);
    config.eid = 7;
    CHECK(opens(config, known, 9, blocks, 2) == SPDM_BAD_EID);
    config.eid = 255;
    CHECK(opens(config, known, 1, blocks, 2) == SPDM_BAD_EID);
    config.eid = 254;
    CHECK(opens(config, known, 1, blocks, 2) == SPDM_OK);
    config.eid = RESPONDER;
    known[1].eid = 0;
    known[0].psk_len = 0;
    CHECK(opens(config, known, 2, blocks, 2) == SPDM_BAD_EID);
    known[1].eid = 10;
    CHECK(opens(config, known, 2, blocks, 2) == SPDM_BAD_PSK);
    known[0].psk_len = 65;
    CHECK(opens(config, known, 2, blocks, 2) == SPDM_BAD_PSK);
    config.offer.hash = 0;
    CHECK(opens(config, known, 2, blocks, 2) == SPDM_BAD_PSK);
    known[0].psk_len = 64;
    CHECK(opens(config, known, 2, blocks, 2) == SPDM_BAD_ALGORITHMS);
    config.offer.hash = 3;
    config.offer.aead = 4;
    config.boot = 16777215;
    CHECK(opens(config, known, 2, blocks, 2) == SPDM_BAD_ALGORITHMS);
    config.offer.aead = 2;
    CHECK(opens(config, known, 2, blocks, 2) == SPDM_BAD_BOOT);
    config.boot = 16777214;
    CHECK(opens(config, known, 2, blocks, 2) == SPDM_OK);
    known[1].eid = REQUESTER;
    CHECK(opens(config, known, 2, blocks, 2) == SPDM_SAME_EID);
    known[1].eid = RESPONDER;
    CHECK(opens(config, known, 2, blocks, 2) == SPDM_SAME_EID);
    known[1].eid = 10;
    known[0].psk_len = known[1].psk_len = 32;
    known[1].psk = keys[0];
    CHECK(opens(config, known, 2, blocks, 2) == SPDM_SAME_PSK);
    known[1].psk = keys[1];
    config.transfer = 41;
    CHECK(opens(config, known, 2, blocks, 2) == SPDM_SIZE_RANGE);
    config.transfer = 1024;
    config.unit = 63;
    CHECK(opens(config, known, 2, blocks, 2) == SPDM_SIZE_RANGE);
    config.unit = 64;
    config.opaque = long_value;
    config.opaque_len = 1025;
    CHECK(opens(config, known, 2, blocks, 2) == SPDM_SIZE_RANGE);
    config.opaque_len = 1024;
    known[0].hint = long_value;
    known[0].hint_len = 65;
    CHECK(opens(config, known, 2, blocks, 2) == SPDM_SIZE_RANGE);
    known[0].hint_len = 64;
    CHECK(opens(config, known, 2, blocks, 2) == SPDM_OK);
    blocks[0].index = 0;
    CHECK(opens(config, known, 2, blocks, 2) == SPDM_BLOCK_INDEX);
    blocks[0].index = 2;
    CHECK(opens(config, known, 2, blocks, 2) == SPDM_BLOCK_INDEX_TAKEN);
    blocks[0].index = 1;
    blocks[0].value = long_value;
    blocks[0].value_len = 4096;
    CHECK(opens(config, known, 2, blocks, 2) == SPDM_BLOCKS_TOO_LONG);
}

static uint32_t asks(struct spdm_requester_config config) {
    struct spdm_requester requester;
    uint32_t code;
    memset(&requester, 0, sizeof requester);
    code = spdm_requester_open(&requester, &config);
    spdm_requester_close(&requester);
    return code;
}

static void requester_words(void) {
    struct spdm_requester_config config = requester_config();
    CHECK(asks(config) == SPDM_OK);
    config.responder = 255;
    config.psk_len = 0;
    CHECK(asks(config) == SPDM_BAD_EID);
    config.responder = REQUESTER;
    CHECK(asks(config) == SPDM_BAD_PSK);
    config.psk_len = sizeof psk;
    config.offer.aead = 0;
    CHECK(asks(config) == SPDM_BAD_ALGORITHMS);
    config.offer.aead = 1;
    config.boot = 16777215;
    CHECK(asks(config) == SPDM_BAD_BOOT);
    config.boot = 0;
    config.pad = 17;
    CHECK(asks(config) == SPDM_SAME_EID);
    config.responder = RESPONDER;
    CHECK(asks(config) == SPDM_SIZE_RANGE);
    config.pad = 16;
    CHECK(asks(config) == SPDM_OK);
}

/* What an open end answers to calls that cannot be done, and that a session goes on behind them. */
static void open_ends_refuse(void) {
    struct ends ends;
    struct spdm_responder_config responder = responder_config();
    struct spdm_requester_config requester = requester_config();
    struct spdm_known known = known_requester();
    struct spdm_session session;
    struct spdm_told told;
    uint32_t phase = 99;
    size_t i;
    open_ends(&ends);
    CHECK(spdm_responder_open(&ends.responder, &responder, &known, 1, NULL, 0) == SPDM_OPEN);
    responder.eid = 0;
    CHECK(spdm_responder_open(&ends.responder, &responder, &known, 1, NULL, 0) == SPDM_OPEN);
    CHECK(spdm_requester_open(&ends.requester, &requester) == SPDM_OPEN);
    CHECK(spdm_requester_command(&ends.requester, 0, 0, 0, SPDM_NOTHING, 0) == SPDM_BAD_COMMAND);
    CHECK(spdm_requester_command(&ends.requester, 9, 0, 0, SPDM_NOTHING, 0) == SPDM_BAD_COMMAND);
    CHECK(spdm_requester_command(&ends.requester, SPDM_RETRY, 0, 0, SPDM_NOTHING, 0) == SPDM_NOTHING_TO_RETRY);
    CHECK(spdm_requester_command(&ends.requester, SPDM_OPEN_SESSION, 0, 0, SPDM_NOTHING, 0) == SPDM_NOT_CONNECTED);
    run(&ends, SPDM_CONNECT, 0, 0, "", SPDM_CONNECTED);
    CHECK(spdm_requester_command(&ends.requester, SPDM_OPEN_SESSION, 0, 2, SPDM_NOTHING, 0) == SPDM_BAD_SUMMARY);
    CHECK(spdm_requester_command(&ends.requester, SPDM_SEND, 1, 0, SPDM_NOTHING, 0) == SPDM_NO_SUCH_SESSION);
    CHECK(spdm_responder_session(&ends.responder, REQUESTER, 0, &session) == SPDM_NONE);
    CHECK(spdm_responder_session(&ends.responder, 77, 0, &session) == SPDM_NONE);
    CHECK(spdm_responder_session(&ends.responder, 7, 0, &session) == SPDM_BAD_EID);
    CHECK(spdm_requester_session(&ends.requester, 0, &session) == SPDM_NONE);
    for (i = 0; i < 4; i++) {
        run(&ends, SPDM_OPEN_SESSION, 0, 0, "", SPDM_OPENED);
    }
    CHECK(spdm_requester_command(&ends.requester, SPDM_OPEN_SESSION, 0, 0, SPDM_NOTHING, 0) == SPDM_SESSION_LIMIT);
    CHECK(spdm_responder_session(&ends.responder, REQUESTER, 3, &session) == SPDM_OK && session.id == 0x40004);
    CHECK(spdm_responder_session(&ends.responder, REQUESTER, 4, &session) == SPDM_NONE);
    CHECK(spdm_requester_session(&ends.requester, 3, &session) == SPDM_OK && session.stage == SPDM_ESTABLISHED);
    CHECK(spdm_requester_session(&ends.requester, 4, &session) == SPDM_NONE && session.id == 0x40004);
    CHECK(spdm_responder_phase(&ends.responder, 7, &phase) == SPDM_BAD_EID && phase == 99);
    CHECK(spdm_responder_phase(&ends.responder, 77, &phase) == SPDM_UNKNOWN_PEER && phase == 99);
    CHECK(spdm_responder_phase(&ends.responder, REQUESTER, &phase) == SPDM_OK && phase == SPDM_NEGOTIATED);
    CHECK(spdm_responder_reset(&ends.responder, 7) == SPDM_BAD_EID);
    CHECK(spdm_responder_reset(&ends.responder, 77) == SPDM_UNKNOWN_PEER);
    CHECK(spdm_responder_queue(&ends.responder, 255, room, 1) == SPDM_BAD_EID);
    CHECK(spdm_responder_queue(&ends.responder, 77, room, 1) == SPDM_UNKNOWN_PEER);
    CHECK(spdm_responder_queue(&ends.responder, REQUESTER, room, 1025) == SPDM_REPLY_TOO_LONG);
    for (i = 0; i < 16; i++) {
        CHECK(spdm_responder_queue(&ends.responder, REQUESTER, room, i) == SPDM_OK);
    }
    CHECK(spdm_responder_queue(&ends.responder, REQUESTER, room, 1) == SPDM_REPLY_FULL);
    CHECK(spdm_requester_command(&ends.requester, SPDM_SEND, 1, 0, room, 1025) == SPDM_TOO_LONG);
    /* Pointers to nothing that are null: the header forbids them, and this build takes them as no bytes. */
    CHECK(spdm_requester_command(&ends.requester, SPDM_SEND, 1, 0, NULL, 0) == SPDM_OK);
    CHECK(spdm_requester_on_packet(&ends.requester, NULL, 0, &told) == SPDM_OK && told.cause == SPDM_REQ_IGNORED_PACKET
          && told.detail == SPDM_PACKET_SHORT);
    CHECK(spdm_requester_command(&ends.requester, SPDM_BEAT, 1, 0, SPDM_NOTHING, 0) == SPDM_BUSY);
    /* A fault of a command leaves nothing to send; the request is sent again. */
    fill();
    CHECK(spdm_requester_packet(&ends.requester, 0, room, sizeof room, &len) == SPDM_NONE && untouched() && len == 77);
    run(&ends, SPDM_RETRY, 0, 0, "", SPDM_DATA_ANSWERED);
    run(&ends, SPDM_BEAT, 4, 0, "", SPDM_ALIVE);
    close_ends(&ends);
}

/* A room that is too small by one byte stays as it was; in one that fits nothing behind the bytes is written. */
static void rooms(void) {
    struct ends ends;
    size_t need;
    open_ends(&ends);
    run(&ends, SPDM_CONNECT, 0, 0, "", SPDM_CONNECTED);
    run(&ends, SPDM_OPEN_SESSION, 0, 0, "", SPDM_OPENED);
    CHECK(spdm_responder_queue(&ends.responder, REQUESTER, (const uint8_t *)"answer", 6) == SPDM_OK);
    CHECK(spdm_requester_command(&ends.requester, SPDM_SEND, 1, 0, (const uint8_t *)"hello", 5) == SPDM_OK);
    fill();
    CHECK(spdm_requester_packet(&ends.requester, 0, room, 0, &need) == SPDM_ROOM && untouched());
    CHECK(spdm_requester_packet(&ends.requester, 0, room, need - 1, &len) == SPDM_ROOM && len == need && untouched());
    CHECK(spdm_requester_packet(&ends.requester, 0, room, need, &len) == SPDM_OK && len == need);
    CHECK(memcmp(room + need, before, sizeof room - need) == 0 && room[0] == 1);
    fill();
    CHECK(spdm_requester_packet(&ends.requester, 0, room, sizeof room, &len) == SPDM_OK && len == need);
    CHECK(memcmp(room + need, before, sizeof room - need) == 0);
    fill();
    CHECK(spdm_requester_packet(&ends.requester, 1, room, sizeof room, &len) == SPDM_NONE && untouched() && len == 77);
    CHECK(spdm_requester_packet(&ends.requester, (size_t)-1, room, sizeof room, &len) == SPDM_NONE && untouched());
    carry(&ends);
    CHECK(spdm_responder_data(&ends.responder, room, 4, &len) == SPDM_ROOM && len == 5 && untouched());
    CHECK(spdm_requester_data(&ends.requester, room, 5, &len) == SPDM_ROOM && len == 6 && untouched());
    CHECK(spdm_responder_data(&ends.responder, room, 5, &len) == SPDM_OK && len == 5);
    CHECK(memcmp(room, "hello", 5) == 0 && memcmp(room + 5, before, sizeof room - 5) == 0);
    CHECK(spdm_requester_data(&ends.requester, room, sizeof room, &len) == SPDM_OK && len == 6);
    CHECK(memcmp(room, "answer", 6) == 0 && memcmp(room + 6, before, sizeof room - 6) == 0);
    close_ends(&ends);
}

static void other_header(void) {
    struct spdm_sizes sizes;
    size_t *each = (size_t *)&sizes;
    size_t i;
    sizes.responder = sizeof(struct spdm_responder);
    sizes.requester = sizeof(struct spdm_requester);
    sizes.attestor = sizeof(struct spdm_attestor);
    sizes.responder_config = sizeof(struct spdm_responder_config);
    sizes.requester_config = sizeof(struct spdm_requester_config);
    sizes.known = sizeof(struct spdm_known);
    sizes.block = sizeof(struct spdm_block);
    sizes.told = sizeof(struct spdm_told);
    sizes.session = sizeof(struct spdm_session);
    sizes.message = sizeof(struct spdm_message);
    sizes.watch = sizeof(struct spdm_watch);
    sizes.change = sizeof(struct spdm_change);
    sizes.verdict = sizeof(struct spdm_verdict);
    CHECK(spdm_sizes_fit(&sizes) == SPDM_OK);
    for (i = 0; i < sizeof sizes / sizeof *each; i++) {
        each[i]++;
        CHECK(spdm_sizes_fit(&sizes) == SPDM_HEADER);
        each[i]--;
    }
}

/* Boot numbers rise by one through both slots, and end at the last; a gate that is closed counts for nothing. */
static void boots(void) {
    static const uint8_t after_two[18] = {1, 0, 0, 0, 0, 0, 0, 0, 1, 2, 0, 0, 0, 0, 0, 0, 0, 1};
    uint8_t device[18] = {0};
    uint8_t left[18];
    uint32_t boot = 99;
    CHECK(spdm_next_boot(device, &boot) == SPDM_OK && boot == 1);
    CHECK(spdm_next_boot(device, &boot) == SPDM_OK && boot == 2);
    CHECK(memcmp(device, after_two, sizeof device) == 0);
    device[17] = 0;
    CHECK(spdm_next_boot(device, &boot) == SPDM_OK && boot == 2);
    device[0] = 0xfe;
    device[1] = device[2] = 0xff;
    memcpy(left, device, sizeof device);
    boot = 99;
    CHECK(spdm_next_boot(device, &boot) == SPDM_BOOTS_SPENT && boot == 99);
    CHECK(memcmp(device, left, sizeof device) == 0);
}

int main(void) {
    struct ends ends;
    other_header();
    boots();
    memset(&ends, 0, sizeof ends);
    closed(&ends);
    memset(&ends, 0xa5, sizeof ends);
    closed(&ends);
    open_ends(&ends);
    close_ends(&ends);
    closed(&ends);
    responder_words();
    requester_words();
    open_ends_refuse();
    rooms();
    printf("each misuse has its answer\n");
    return 0;
}
