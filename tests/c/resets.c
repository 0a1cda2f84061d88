/*
 * A requester that is gone: its connection is reset, so that none of its records opens any more, and it comes back. The
 * session of another requester goes on, with the message that it was in the midst of.
 */
#include "ends.h"

enum { OTHER = REQUESTER + 1, MOST = 32 };

static const uint8_t other_psk[] = {16, 15, 14, 13, 12, 11, 10, 9, 8, 7, 6, 5, 4, 3, 2, 1};
static const uint8_t other_seed[32] = {3};
static const uint8_t text[300] = "hello, and more";

static struct spdm_responder responder;
static struct spdm_requester gone;
static struct spdm_requester other;

/* The packets of a request. */
struct request {
    uint8_t packets[MOST][ROOM];
    size_t lens[MOST];
    size_t count;
};

static void sent_by(struct spdm_requester *requester, struct request *request) {
    size_t *count = &request->count;
    for (*count = 0; *count < MOST; (*count)++) {
        if (spdm_requester_packet(requester, *count, request->packets[*count], ROOM, &request->lens[*count])
            != SPDM_OK) {
            break;
        }
    }
}

static void begin(struct spdm_requester *requester, uint32_t command, uint8_t session, size_t len,
                  struct request *request) {
    CHECK(spdm_requester_command(requester, command, session, 0, text, len) == SPDM_OK);
    sent_by(requester, request);
    CHECK(request->count > 0);
}

/* Gives the responder the packets of these places. What it told of the last one. */
static struct spdm_told give(const struct request *request, size_t from, size_t to) {
    struct spdm_told told;
    size_t i;
    memset(&told, 0, sizeof told);
    for (i = from; i < to; i++) {
        CHECK(spdm_responder_on_packet(&responder, request->packets[i], request->lens[i], &told) == SPDM_OK);
    }
    return told;
}

/* Gives a requester what the responder sends. What it told of the last packet. */
static struct spdm_told take(struct spdm_requester *requester) {
    struct spdm_told told;
    uint8_t packet[ROOM];
    size_t len;
    size_t i;
    memset(&told, 0, sizeof told);
    for (i = 0; spdm_responder_packet(&responder, i, packet, ROOM, &len) == SPDM_OK; i++) {
        CHECK(spdm_requester_on_packet(requester, packet, len, &told) == SPDM_OK);
    }
    return told;
}

/* Runs a command up to this outcome. The request that it was done with is left. */
static void whole(struct spdm_requester *requester, uint32_t command, uint8_t session, uint32_t outcome,
                  struct request *request) {
    struct spdm_told told;
    begin(requester, command, session, command == SPDM_SEND ? 5 : 0, request);
    for (;;) {
        give(request, 0, request->count);
        told = take(requester);
        if (told.kind != SPDM_REQ_PROGRESS) {
            break;
        }
        sent_by(requester, request);
    }
    CHECK(told.kind == SPDM_REQ_DONE && told.cause == outcome);
}

static void open_all(void) {
    struct spdm_responder_config own = responder_config();
    struct spdm_requester_config config = requester_config();
    struct spdm_known known[2];
    struct spdm_block block = measured_block();
    known[0] = known[1] = known_requester();
    known[1].eid = OTHER;
    known[1].psk = other_psk;
    CHECK(spdm_responder_open(&responder, &own, known, 2, &block, 1) == SPDM_OK);
    CHECK(spdm_requester_open(&gone, &config) == SPDM_OK);
    config.eid = OTHER;
    config.psk = other_psk;
    config.seed = other_seed;
    CHECK(spdm_requester_open(&other, &config) == SPDM_OK);
}

static int is_in(uint8_t eid, uint32_t wanted) {
    uint32_t phase = 99;
    return spdm_responder_phase(&responder, eid, &phase) == SPDM_OK && phase == wanted;
}

/* Whether the responder has packets to send. */
static int sends(void) {
    uint8_t packet[ROOM];
    size_t len;
    return spdm_responder_packet(&responder, 0, packet, ROOM, &len) == SPDM_OK;
}

static struct spdm_session first_with(uint8_t eid) {
    struct spdm_session session;
    CHECK(spdm_responder_session(&responder, eid, 0, &session) == SPDM_OK && session.stage == SPDM_ESTABLISHED);
    return session;
}

static int is_still(struct spdm_session before, uint8_t eid) {
    struct spdm_session now = first_with(eid);
    return memcmp(&before, &now, sizeof before) == 0;
}

/* One that was never filled, one of zeros, and one that was closed again. */
static void closed(void) {
    struct spdm_responder noise;
    memset(&noise, 0xa5, sizeof noise);
    CHECK(spdm_responder_reset(&noise, REQUESTER) == SPDM_CLOSED);
    CHECK(spdm_responder_reset(&responder, REQUESTER) == SPDM_CLOSED);
    CHECK(spdm_responder_reset(&responder, 77) == SPDM_CLOSED);
    CHECK(spdm_responder_reset(&responder, 0) == SPDM_CLOSED);
}

/* Before the requester sent anything. */
static void at_first(void) {
    CHECK(spdm_responder_reset(&responder, REQUESTER) == SPDM_OK && !sends());
    CHECK(is_in(REQUESTER, SPDM_VERSIONED) && is_in(OTHER, SPDM_FRESH));
}

static void sessions(void) {
    struct request request;
    whole(&gone, SPDM_CONNECT, 0, SPDM_CONNECTED, &request);
    whole(&gone, SPDM_OPEN_SESSION, 0, SPDM_OPENED, &request);
    whole(&gone, SPDM_OPEN_SESSION, 0, SPDM_OPENED, &request);
    whole(&other, SPDM_CONNECT, 0, SPDM_CONNECTED, &request);
    whole(&other, SPDM_OPEN_SESSION, 0, SPDM_OPENED, &request);
}

/* Endpoint IDs that no requester has: no session changes. After a number that is none, also packets to send are left. */
static void no_such_requester(void) {
    struct spdm_session one = first_with(REQUESTER);
    struct spdm_session two = first_with(OTHER);
    CHECK(sends());
    CHECK(spdm_responder_reset(&responder, 7) == SPDM_BAD_EID && sends());
    CHECK(spdm_responder_reset(&responder, 255) == SPDM_BAD_EID && sends());
    CHECK(spdm_responder_reset(&responder, 77) == SPDM_UNKNOWN_PEER && !sends());
    CHECK(spdm_responder_reset(&responder, RESPONDER) == SPDM_UNKNOWN_PEER && !sends());
    CHECK(is_still(one, REQUESTER) && is_in(REQUESTER, SPDM_NEGOTIATED));
    CHECK(is_still(two, OTHER) && is_in(OTHER, SPDM_NEGOTIATED));
}

/* All sessions with the requester are gone, and nothing is to be sent. */
static void all_sessions_go(void) {
    struct spdm_watch watch;
    struct spdm_change changes[4];
    struct spdm_session session;
    memset(&watch, 0, sizeof watch);
    CHECK(spdm_responder_changes(&responder, REQUESTER, &watch, changes) == SPDM_OK);
    CHECK(changes[0].kind == SPDM_CHANGE_ESTABLISHED && changes[1].kind == SPDM_CHANGE_ESTABLISHED);
    CHECK(spdm_responder_reset(&responder, REQUESTER) == SPDM_OK && !sends());
    CHECK(spdm_responder_session(&responder, REQUESTER, 0, &session) == SPDM_NONE);
    CHECK(spdm_responder_changes(&responder, REQUESTER, &watch, changes) == SPDM_OK);
    CHECK(changes[0].kind == SPDM_CHANGE_GONE && changes[0].session == 0x10001);
    CHECK(changes[1].kind == SPDM_CHANGE_GONE && changes[1].session == 0x20002);
    CHECK(changes[2].kind == SPDM_CHANGE_NONE && changes[3].kind == SPDM_CHANGE_NONE);
    CHECK(is_in(REQUESTER, SPDM_VERSIONED));
}

/* Both requesters are in the midst of a message when one of them is given up. */
static void one_is_gone(void) {
    struct request answered;
    struct request cut;
    struct request going_on;
    struct spdm_session session;
    struct spdm_told told;
    CHECK(spdm_responder_queue(&responder, REQUESTER, (const uint8_t *)"one", 3) == SPDM_OK);
    CHECK(spdm_responder_queue(&responder, REQUESTER, (const uint8_t *)"two", 3) == SPDM_OK);
    whole(&gone, SPDM_SEND, 1, SPDM_DATA_ANSWERED, &answered);
    CHECK(give(&answered, 0, answered.count).kind == SPDM_SAME && sends());
    begin(&gone, SPDM_SEND, 2, sizeof text, &cut);
    begin(&other, SPDM_SEND, 1, sizeof text, &going_on);
    CHECK(give(&cut, 0, 1).kind == SPDM_MORE && give(&going_on, 0, 1).kind == SPDM_MORE);
    session = first_with(OTHER);
    all_sessions_go();
    CHECK(is_still(session, OTHER) && is_in(OTHER, SPDM_NEGOTIATED));
    /* Of the unfinished message nothing is left, and no record opens, not even one that was answered before. */
    told = give(&cut, 1, 2);
    CHECK(told.kind == SPDM_IGNORED && told.cause == SPDM_IGNORED_DROPPED && told.detail == SPDM_DROP_NO_START);
    CHECK(give(&answered, 0, answered.count).kind == SPDM_UNOPENED);
    CHECK(give(&cut, 0, cut.count).kind == SPDM_UNOPENED && sends());
    CHECK(take(&gone).kind == SPDM_REQ_WARNED);
    /* The other one's goes on where it was. */
    CHECK(give(&going_on, 1, going_on.count).kind == SPDM_TAKEN);
    told = take(&other);
    CHECK(told.kind == SPDM_REQ_DONE && told.cause == SPDM_DATA_ANSWERED);
}

/* A second reset changes nothing. The requester comes back, and is answered with what is queued for it still. */
static void it_comes_back(void) {
    struct request request;
    uint8_t room[8];
    size_t len;
    CHECK(spdm_responder_reset(&responder, REQUESTER) == SPDM_OK && is_in(REQUESTER, SPDM_VERSIONED));
    whole(&gone, SPDM_CONNECT, 0, SPDM_CONNECTED, &request);
    whole(&gone, SPDM_OPEN_SESSION, 0, SPDM_OPENED, &request);
    whole(&gone, SPDM_SEND, 1, SPDM_DATA_ANSWERED, &request);
    CHECK(spdm_requester_data(&gone, room, sizeof room, &len) == SPDM_OK && len == 3 && memcmp(room, "two", 3) == 0);
    CHECK(first_with(REQUESTER).id == 0x10001);
    whole(&other, SPDM_BEAT, 1, SPDM_ALIVE, &request);
}

int main(void) {
    closed();
    open_all();
    at_first();
    sessions();
    no_such_requester();
    one_is_gone();
    it_comes_back();
    spdm_responder_close(&responder);
    closed();
    spdm_requester_close(&gone);
    spdm_requester_close(&other);
    printf("a requester was given up, and came back; another one's session went on\n");
    return 0;
}
