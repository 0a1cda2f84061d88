/*
 * What a responder tells beside what it does: the message of a packet before it is taken, at each packet of sessions
 * with everything in them, and what became of sessions, beside what the list of sessions says.
 */
#include "ends.h"

static struct ends ends;
static struct spdm_watch watch;

/* The sessions by RspSessionID, from 1, as the list of sessions has them; id 0 where there is none. */
static struct spdm_session listed[4];

static uint8_t answer[64];
static size_t answer_len;
static unsigned peeked;
static unsigned changed[5];

static void list(struct spdm_session sessions[4]) {
    struct spdm_session session;
    size_t i;
    memset(sessions, 0, 4 * sizeof *sessions);
    for (i = 0; spdm_responder_session(&ends.responder, REQUESTER, i, &session) == SPDM_OK; i++) {
        sessions[(session.id >> 16) - 1] = session;
    }
}

static struct spdm_change expected(struct spdm_session before, struct spdm_session after) {
    struct spdm_change change = {SPDM_CHANGE_NONE, 0, 0};
    int was = before.stage != SPDM_HANDSHAKE;
    int is = after.stage != SPDM_HANDSHAKE;
    if (before.id == 0 && after.id != 0) {
        change.kind = is ? SPDM_CHANGE_ESTABLISHED : SPDM_CHANGE_BEGAN;
        change.session = after.id;
    } else if (before.id != 0 && after.id == 0) {
        change.kind = SPDM_CHANGE_GONE;
        change.session = before.id;
    } else if (before.id != after.id || (was && !is)) {
        change.kind = SPDM_CHANGE_REPLACED;
        change.session = before.id;
        change.by = after.id;
    } else if (before.id != 0 && !was && is) {
        change.kind = SPDM_CHANGE_ESTABLISHED;
        change.session = after.id;
    }
    return change;
}

/* What became of the sessions is what two lists of them say. */
static void look_at_changes(void) {
    struct spdm_session now[4];
    struct spdm_change changes[4];
    size_t i;
    list(now);
    CHECK(spdm_responder_changes(&ends.responder, REQUESTER, &watch, changes) == SPDM_OK);
    for (i = 0; i < 4; i++) {
        struct spdm_change wanted = expected(listed[i], now[i]);
        CHECK(changes[i].kind == wanted.kind && changes[i].session == wanted.session && changes[i].by == wanted.by);
        changed[changes[i].kind]++;
        listed[i] = now[i];
    }
}

/* Gives the responder a packet: what was told of it before is what it took. An answer waits for each message. */
static struct spdm_told give(const uint8_t *packet, size_t len) {
    struct spdm_message message;
    struct spdm_told told;
    uint8_t told_data[1024];
    uint8_t data[1024];
    size_t told_len = 77;
    size_t data_len;
    uint32_t code;
    memset(&message, 0x5a, sizeof message);
    memset(told_data, 0x5a, sizeof told_data);
    code = spdm_responder_peek(&ends.responder, packet, len, &message, told_data, sizeof told_data, &told_len);
    CHECK(code == SPDM_OK || code == SPDM_NONE);
    if (code == SPDM_OK) {
        answer[0] = (uint8_t)peeked;
        answer_len = 1;
        CHECK(spdm_responder_queue(&ends.responder, (uint8_t)message.eid, answer, answer_len) == SPDM_OK);
        peeked++;
    }
    CHECK(spdm_responder_on_packet(&ends.responder, packet, len, &told) == SPDM_OK);
    CHECK((told.kind == SPDM_TAKEN) == (code == SPDM_OK));
    if (code == SPDM_OK) {
        CHECK(message.eid == REQUESTER && message.session == told.session);
        CHECK(spdm_responder_data(&ends.responder, data, sizeof data, &data_len) == SPDM_OK);
        CHECK(data_len == told_len && memcmp(data, told_data, data_len) == 0);
    } else {
        CHECK(message.eid == 0x5a5a5a5a && message.session == 0x5a5a5a5a && told_len == 77 && told_data[0] == 0x5a);
    }
    look_at_changes();
    return told;
}

/* Runs a command. A message of one packet comes twice. */
static struct spdm_told ask(uint32_t command, uint8_t session, uint8_t number, const uint8_t *bytes, size_t bytes_len) {
    struct spdm_told told;
    memset(&told, 0, sizeof told);
    CHECK(spdm_requester_command(&ends.requester, command, session, number, bytes, bytes_len) == SPDM_OK);
    while (told.kind != SPDM_REQ_DONE) {
        uint8_t asked[64][ROOM];
        size_t lens[64];
        size_t count = 0;
        size_t i;
        while (count < 64
               && spdm_requester_packet(&ends.requester, count, asked[count], ROOM, &lens[count]) == SPDM_OK) {
            count++;
        }
        CHECK(count > 0);
        for (i = 0; i < count; i++) {
            uint8_t packet[ROOM];
            size_t len;
            size_t index;
            give(asked[i], lens[i]);
            if (i + 1 == count && count == 1) {
                give(asked[i], lens[i]);
            }
            for (index = 0; spdm_responder_packet(&ends.responder, index, packet, ROOM, &len) == SPDM_OK; index++) {
                struct spdm_told heard;
                CHECK(spdm_requester_on_packet(&ends.requester, packet, len, &heard) == SPDM_OK);
                if (heard.kind != SPDM_REQ_IGNORED) {
                    told = heard;
                }
            }
        }
    }
    return told;
}

static void send(uint8_t session, size_t len) {
    static uint8_t data[1024];
    uint8_t room[1024];
    size_t room_len;
    memset(data, (int)peeked, sizeof data);
    ask(SPDM_SEND, session, 0, data, len);
    CHECK(spdm_requester_data(&ends.requester, room, sizeof room, &room_len) == SPDM_OK);
    CHECK(room_len == answer_len && memcmp(room, answer, room_len) == 0);
}

/* Rooms and endpoint IDs that do not do. */
static void misuse(void) {
    struct spdm_message message = {1, 2};
    struct spdm_change changes[4];
    struct spdm_watch old;
    uint8_t packet[ROOM];
    uint8_t room[8] = {9, 9, 9, 9, 9, 9, 9, 9};
    size_t packet_len;
    size_t len = 77;
    memset(changes, 0x5a, sizeof changes);
    memset(&old, 0x5a, sizeof old);
    CHECK(spdm_responder_changes(&ends.responder, 7, &old, changes) == SPDM_BAD_EID);
    CHECK(spdm_responder_changes(&ends.responder, 77, &old, changes) == SPDM_UNKNOWN_PEER);
    CHECK(changes[0].kind == 0x5a5a5a5a && old.first.req == 0x5a5a && old.fourth.standing == 0x5a5a5a5a);
    /* A watch of any bytes: sessions that stood somehow. */
    CHECK(spdm_responder_changes(&ends.responder, REQUESTER, &old, changes) == SPDM_OK);
    CHECK(changes[0].kind == SPDM_CHANGE_REPLACED && changes[0].session == 0x5a5a5a5a && changes[0].by == 0x10001);
    CHECK(changes[3].kind == SPDM_CHANGE_REPLACED && changes[3].session == 0x5a5a5a5a && changes[3].by == 0x40004);
    CHECK(spdm_responder_peek(&ends.responder, room, 0, &message, room, sizeof room, &len) == SPDM_NONE && len == 77);
    CHECK(spdm_requester_command(&ends.requester, SPDM_SEND, 1, 0, (const uint8_t *)"hello", 5) == SPDM_OK);
    CHECK(spdm_requester_packet(&ends.requester, 0, packet, sizeof packet, &packet_len) == SPDM_OK);
    CHECK(spdm_responder_peek(&ends.responder, packet, packet_len, &message, room, 4, &len) == SPDM_ROOM);
    CHECK(len == 5 && room[0] == 9 && message.eid == 1 && message.session == 2);
    CHECK(spdm_responder_peek(&ends.responder, packet, packet_len, &message, room, 5, &len) == SPDM_OK);
    CHECK(len == 5 && memcmp(room, "hello\11\11\11", 8) == 0 && message.eid == REQUESTER && message.session == 0x10001);
    /* Altered in one bit, or to another end: it brings none. */
    packet[packet_len - 1] ^= 1;
    CHECK(spdm_responder_peek(&ends.responder, packet, packet_len, &message, room, 5, &len) == SPDM_NONE);
    packet[packet_len - 1] ^= 1;
    packet[1] ^= 1;
    CHECK(spdm_responder_peek(&ends.responder, packet, packet_len, &message, room, 5, &len) == SPDM_NONE);
    packet[1] ^= 1;
    give(packet, packet_len);
    CHECK(spdm_responder_peek(&ends.responder, packet, packet_len, &message, room, 5, &len) == SPDM_NONE);
    carry(&ends);
}

static void closed(void) {
    struct spdm_message message = {1, 2};
    struct spdm_change changes[4];
    struct spdm_watch old;
    uint8_t room[8] = {9};
    size_t len = 77;
    memset(changes, 0x5a, sizeof changes);
    memset(&old, 0x5a, sizeof old);
    CHECK(spdm_responder_peek(&ends.responder, room, 8, &message, room, 0, &len) == SPDM_CLOSED);
    CHECK(spdm_responder_changes(&ends.responder, REQUESTER, &old, changes) == SPDM_CLOSED);
    CHECK(spdm_responder_changes(&ends.responder, 0, &old, changes) == SPDM_CLOSED);
    CHECK(message.eid == 1 && message.session == 2 && len == 77 && room[0] == 9);
    CHECK(changes[3].by == 0x5a5a5a5a && old.second.rsp == 0x5a5a);
}

int main(void) {
    uint8_t id;
    closed();
    open_ends(&ends);
    ask(SPDM_CONNECT, 0, 0, SPDM_NOTHING, 0);
    for (id = 1; id <= 4; id++) {
        CHECK(ask(SPDM_OPEN_SESSION, 0, 255, SPDM_NOTHING, 0).cause == SPDM_OPENED);
        send(id, 0);
        send(id, 5);
        send(id, 300);
        send(id, 1024);
        ask(SPDM_BEAT, id, 0, SPDM_NOTHING, 0);
        ask(SPDM_UPDATE, id, 1, SPDM_NOTHING, 0);
        ask(SPDM_MEASURE, id, 255, SPDM_NOTHING, 0);
        send(id, 7);
    }
    misuse();
    ask(SPDM_END, 2, 0, SPDM_NOTHING, 0);
    /* Another session takes the place that is free, and a handshake that of another. */
    ask(SPDM_OPEN_SESSION, 0, 0, SPDM_NOTHING, 0);
    CHECK(changed[SPDM_CHANGE_GONE] == 1 && changed[SPDM_CHANGE_ESTABLISHED] == 5);
    CHECK(spdm_responder_tick(&ends.responder, 59) == SPDM_OK);
    look_at_changes();
    CHECK(changed[SPDM_CHANGE_GONE] == 1);
    ask(SPDM_BEAT, 1, 0, SPDM_NOTHING, 0);
    CHECK(spdm_responder_tick(&ends.responder, 1) == SPDM_OK);
    look_at_changes();
    CHECK(changed[SPDM_CHANGE_GONE] == 4);
    ask(SPDM_CONNECT, 0, 0, SPDM_NOTHING, 0);
    CHECK(changed[SPDM_CHANGE_GONE] == 5 && changed[SPDM_CHANGE_BEGAN] == 5 && peeked > 16);
    close_ends(&ends);
    closed();
    printf("%u messages told before they were taken, and each change of sessions\n", peeked);
    return 0;
}
