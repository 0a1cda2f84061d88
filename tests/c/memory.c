/*
 * Memory: each request refused in turn at open, where the end stays closed and nothing is lost; no request and
 * nothing given back between open and close; all given back at close. It writes what an end takes.
 */
#include "ends.h"

static long left = -1;
static long calls;
static long blocks;
static size_t held;
static size_t most;

struct head {
    size_t size;
    size_t pad;
};

static struct rattle_block refused(void) {
    static uint64_t nothing;
    struct rattle_block block = {0, &nothing};
    return block;
}

struct rattle_block rattle_alloc(size_t size, size_t align) {
    struct rattle_block block = {1, NULL};
    struct head *head;
    CHECK(align <= 16 && (align & (align - 1)) == 0);
    calls++;
    if (left == 0 || (head = (struct head *)malloc(size + sizeof *head)) == NULL) {
        return refused();
    }
    left--;
    blocks++;
    head->size = size;
    held += size;
    most = held > most ? held : most;
    block.at = head + 1;
    return block;
}

void rattle_dealloc(void *block) {
    struct head *head = (struct head *)block - 1;
    calls++;
    blocks--;
    held -= head->size;
    free(head);
}

struct rattle_block rattle_realloc(void *block, size_t old_size, size_t size, size_t align) {
    struct rattle_block moved = rattle_alloc(size, align);
    CHECK(((struct head *)block - 1)->size == old_size);
    if (moved.is_some) {
        memcpy(moved.at, block, old_size < size ? old_size : size);
        rattle_dealloc(block);
    }
    return moved;
}

static void responders(size_t count) {
    static uint8_t keys[8][16];
    struct spdm_responder_config config = responder_config();
    struct spdm_known known[8];
    struct spdm_block block = measured_block();
    struct spdm_responder responder;
    long refusals;
    uint32_t code;
    size_t i;
    for (i = 0; i < count; i++) {
        known[i] = known_requester();
        known[i].eid = (uint8_t)(REQUESTER + i);
        keys[i][0] = (uint8_t)i;
        known[i].psk = keys[i];
    }
    memset(&responder, 0, sizeof responder);
    for (refusals = 0;; refusals++) {
        most = 0;
        left = refusals;
        code = spdm_responder_open(&responder, &config, known, count, &block, 1);
        if (code == SPDM_OK) {
            break;
        }
        CHECK(code == SPDM_MEMORY && blocks == 0 && held == 0);
        CHECK(spdm_responder_tick(&responder, 1) == SPDM_CLOSED);
        CHECK(refusals < 1000);
    }
    left = -1;
    CHECK(refusals > 0);
    CHECK(most <= spdm_responder_size(count, 1, count * sizeof hint + sizeof digest));
    CHECK(held + 2000 >= spdm_responder_size(count, 1, count * sizeof hint + sizeof digest));
    printf("responder, requesters %u: bytes %u, blocks %ld, at open %u\n", (unsigned)count, (unsigned)held, blocks,
           (unsigned)most);
    spdm_responder_close(&responder);
    CHECK(blocks == 0 && held == 0);
}

static void requesters(void) {
    struct spdm_requester_config config = requester_config();
    struct spdm_requester requester;
    long refusals;
    uint32_t code;
    memset(&requester, 0, sizeof requester);
    for (refusals = 0;; refusals++) {
        most = 0;
        left = refusals;
        code = spdm_requester_open(&requester, &config);
        if (code == SPDM_OK) {
            break;
        }
        CHECK(code == SPDM_MEMORY && blocks == 0 && held == 0);
        CHECK(refusals < 1000);
    }
    left = -1;
    CHECK(refusals > 0);
    CHECK(held == spdm_requester_size(sizeof hint) && most == held);
    printf("requester: bytes %u, blocks %ld, at open %u\n", (unsigned)held, blocks, (unsigned)most);
    spdm_requester_close(&requester);
    CHECK(blocks == 0 && held == 0);
}

/* A policy of so many rules, each with a value of 32 bytes. */
static size_t policy_text(char *text, unsigned rules) {
    size_t len = 0;
    unsigned i;
    unsigned j;
    for (i = 1; i <= rules; i++) {
        len += (size_t)sprintf(text + len, "expect %u 0 ", i);
        for (j = 0; j < 32; j++) {
            len += (size_t)sprintf(text + len, "%02x", j);
        }
        text[len++] = '\n';
    }
    return len + (size_t)sprintf(text + len, "go\n");
}

static void attestors(unsigned rules) {
    static char text[32768];
    struct spdm_requester_config config = requester_config();
    struct spdm_attestor attestor;
    struct spdm_verdict verdict;
    size_t len = policy_text(text, rules);
    size_t size = spdm_attestor_size(sizeof hint, rules, 32 * rules);
    long refusals;
    long before;
    uint32_t code;
    memset(&attestor, 0, sizeof attestor);
    for (refusals = 0;; refusals++) {
        most = 0;
        left = refusals;
        code = spdm_attestor_open(&attestor, &config, (const uint8_t *)text, len);
        if (code == SPDM_OK) {
            break;
        }
        CHECK(code == SPDM_MEMORY && blocks == 0 && held == 0);
        CHECK(spdm_attestor_on_time(&attestor) == SPDM_CLOSED);
        CHECK(refusals < 10000);
    }
    left = -1;
    CHECK(refusals > 0);
    CHECK(most <= size);
    printf("attestor, rules %u: bytes %u, blocks %ld, at open %u\n", rules, (unsigned)held, blocks, (unsigned)most);
    before = calls;
    CHECK(spdm_attestor_start(&attestor) == SPDM_OK && spdm_attestor_on_time(&attestor) == SPDM_OK);
    CHECK(spdm_attestor_on_packet(&attestor, digest, sizeof digest, &verdict) == SPDM_OK && calls == before);
    spdm_attestor_close(&attestor);
    CHECK(blocks == 0 && held == 0);
}

static void still_after_open(void) {
    struct ends ends;
    struct spdm_watch watch;
    struct spdm_change changes[4];
    struct spdm_message message;
    uint8_t packet[ROOM];
    uint8_t room[64];
    size_t packet_len;
    size_t len;
    long before;
    int i;
    open_ends(&ends);
    before = calls;
    run(&ends, SPDM_CONNECT, 0, 0, "", SPDM_CONNECTED);
    for (i = 0; i < 4; i++) {
        run(&ends, SPDM_OPEN_SESSION, 0, 255, "", SPDM_OPENED);
        CHECK(spdm_responder_queue(&ends.responder, REQUESTER, digest, sizeof digest) == SPDM_OK);
        run(&ends, SPDM_SEND, (uint8_t)(i + 1), 0, "hello", SPDM_DATA_ANSWERED);
        run(&ends, SPDM_UPDATE, (uint8_t)(i + 1), 1, "", SPDM_KEYS_UPDATED);
        run(&ends, SPDM_MEASURE, (uint8_t)(i + 1), 255, "", SPDM_MEASURED);
    }
    memset(&watch, 0, sizeof watch);
    CHECK(spdm_responder_changes(&ends.responder, REQUESTER, &watch, changes) == SPDM_OK);
    CHECK(changes[3].kind == SPDM_CHANGE_ESTABLISHED);
    CHECK(spdm_requester_command(&ends.requester, SPDM_SEND, 1, 0, digest, 9) == SPDM_OK);
    CHECK(spdm_requester_packet(&ends.requester, 0, packet, sizeof packet, &packet_len) == SPDM_OK);
    CHECK(spdm_responder_peek(&ends.responder, packet, packet_len, &message, room, sizeof room, &len) == SPDM_OK);
    carry(&ends);
    CHECK(spdm_responder_tick(&ends.responder, 30) == SPDM_OK);
    run(&ends, SPDM_BEAT, 1, 0, "", SPDM_ALIVE);
    run(&ends, SPDM_END, 2, 0, "", SPDM_ENDED);
    CHECK(spdm_responder_reset(&ends.responder, REQUESTER) == SPDM_OK);
    run(&ends, SPDM_CONNECT, 0, 0, "", SPDM_CONNECTED);
    CHECK(calls == before);
    close_ends(&ends);
    CHECK(blocks == 0 && held == 0);
}

int main(void) {
    size_t count;
    for (count = 1; count <= 8; count++) {
        responders(count);
    }
    requesters();
    attestors(0);
    attestors(1);
    attestors(12);
    attestors(254);
    still_after_open();
    return 0;
}
