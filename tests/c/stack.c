/*
 * How deep each call goes: a whole session in a thread with a stack of its own, which is filled with a pattern before
 * each call; what no longer has it was used. `stack REQUESTERS` lets the responder know so many.
 */
#define _DEFAULT_SOURCE
#include <pthread.h>
#include <stdint.h>

#include "ends.h"

enum { STACK = 4 << 20, NEAR = 512, PATTERN = 0xa5 };

static uint8_t stack[STACK] __attribute__((aligned(4096)));
static size_t count = 1;

static struct {
    const char *name;
    size_t deepest;
} calls[32];

__attribute__((noinline)) static void paint(void) {
    volatile uint8_t here = 0;
    uintptr_t at = (uintptr_t)stack;
    uintptr_t end = (uintptr_t)&here - NEAR;
    while (at < end) {
        *(volatile uint8_t *)at = PATTERN;
        at++;
    }
}

__attribute__((noinline)) static void note(const char *name) {
    volatile uint8_t here = 0;
    uintptr_t at = (uintptr_t)stack;
    size_t i = 0;
    while (*(volatile uint8_t *)at == PATTERN) {
        at++;
    }
    while (calls[i].name != NULL && strcmp(calls[i].name, name) != 0) {
        i++;
    }
    calls[i].name = name;
    if ((uintptr_t)&here - at > calls[i].deepest) {
        calls[i].deepest = (uintptr_t)&here - at;
    }
}

static uint32_t noted(const char *name, uint32_t code) {
    note(name);
    return code;
}

#define DEEP(name, arguments) (paint(), noted(#name, name arguments))

/* What a packet would bring, told before it is given. */
static uint32_t peek(struct ends *ends, const uint8_t *packet, size_t len) {
    struct spdm_message message;
    uint8_t room[1024];
    size_t room_len;
    return DEEP(spdm_responder_peek, (&ends->responder, packet, len, &message, room, sizeof room, &room_len));
}

static void session(struct ends *ends, uint32_t command, uint8_t id, uint8_t number, const uint8_t *bytes, size_t len) {
    struct spdm_told told;
    struct spdm_session shown;
    uint8_t asked[256][ROOM];
    size_t lens[256];
    CHECK(DEEP(spdm_requester_command, (&ends->requester, command, id, number, bytes, len)) == SPDM_OK);
    for (;;) {
        size_t n = 0;
        size_t i;
        while (DEEP(spdm_requester_packet, (&ends->requester, n, asked[n], ROOM, &lens[n])) == SPDM_OK) {
            n++;
        }
        if (n == 0) {
            break;
        }
        for (i = 0; i < n; i++) {
            uint8_t answer[ROOM];
            size_t answer_len;
            size_t index;
            uint32_t brings = peek(ends, asked[i], lens[i]);
            CHECK(DEEP(spdm_responder_on_packet, (&ends->responder, asked[i], lens[i], &told)) == SPDM_OK);
            CHECK((brings == SPDM_OK) == (told.kind == SPDM_TAKEN));
            for (index = 0;
                 DEEP(spdm_responder_packet, (&ends->responder, index, answer, ROOM, &answer_len)) == SPDM_OK;
                 index++) {
                CHECK(DEEP(spdm_requester_on_packet, (&ends->requester, answer, answer_len, &told)) == SPDM_OK);
            }
        }
    }
    CHECK(told.kind == SPDM_REQ_DONE);
    DEEP(spdm_responder_session, (&ends->responder, REQUESTER, 0, &shown));
    DEEP(spdm_requester_session, (&ends->requester, 0, &shown));
}

static void attest(struct ends *ends, const struct spdm_requester_config *config) {
    static const char policy[] = "skip 1\nexpect 2 0 -\ngo\n";
    static struct spdm_attestor attestor;
    struct spdm_verdict verdict = {SPDM_VERDICT_GOING, 0};
    uint8_t asked[256][ROOM];
    size_t lens[256];
    size_t n;
    CHECK(DEEP(spdm_attestor_open, (&attestor, config, (const uint8_t *)policy, strlen(policy))) == SPDM_OK);
    CHECK(DEEP(spdm_attestor_start, (&attestor)) == SPDM_OK);
    CHECK(DEEP(spdm_attestor_on_time, (&attestor)) == SPDM_OK);
    do {
        size_t i;
        n = 0;
        while (DEEP(spdm_attestor_packet, (&attestor, n, asked[n], ROOM, &lens[n])) == SPDM_OK) {
            n++;
        }
        for (i = 0; i < n; i++) {
            struct spdm_told told;
            uint8_t answer[ROOM];
            size_t len;
            size_t index;
            CHECK(spdm_responder_on_packet(&ends->responder, asked[i], lens[i], &told) == SPDM_OK);
            for (index = 0; spdm_responder_packet(&ends->responder, index, answer, ROOM, &len) == SPDM_OK; index++) {
                struct spdm_verdict decided;
                CHECK(DEEP(spdm_attestor_on_packet, (&attestor, answer, len, &decided)) == SPDM_OK);
                if (decided.kind != SPDM_VERDICT_GOING) {
                    verdict = decided;
                }
            }
        }
    } while (n > 0);
    CHECK(verdict.kind == SPDM_VERDICT_MISSING && verdict.number == 2);
    paint();
    spdm_attestor_close(&attestor);
    note("spdm_attestor_close");
}

static void *all_calls(void *nothing) {
    static struct ends ends;
    static struct spdm_watch watch;
    struct spdm_change changes[4];
    static uint8_t keys[8][16];
    static uint8_t data[1024];
    static uint8_t room[4096];
    static uint8_t value[3000];
    struct spdm_responder_config config = responder_config();
    struct spdm_requester_config own = requester_config();
    struct spdm_known known[8];
    struct spdm_block block = measured_block();
    size_t len;
    size_t i;
    uint32_t phase;
    uint8_t id;
    (void)nothing;
    for (i = 0; i < count; i++) {
        known[i] = known_requester();
        known[i].eid = (uint8_t)(REQUESTER + i);
        if (i > 0) {
            keys[i][0] = (uint8_t)i;
            known[i].psk = keys[i];
        }
    }
    /* a record that takes chunks */
    block.value = value;
    block.value_len = sizeof value;
    CHECK(DEEP(spdm_responder_open, (&ends.responder, &config, known, count, &block, 1)) == SPDM_OK);
    CHECK(DEEP(spdm_requester_open, (&ends.requester, &own)) == SPDM_OK);
    session(&ends, SPDM_CONNECT, 0, 0, SPDM_NOTHING, 0);
    session(&ends, SPDM_MEASURE, 0, 255, SPDM_NOTHING, 0);
    for (id = 1; id <= 4; id++) {
        session(&ends, SPDM_OPEN_SESSION, 0, 255, SPDM_NOTHING, 0);
        CHECK(DEEP(spdm_responder_queue, (&ends.responder, REQUESTER, data, sizeof data)) == SPDM_OK);
        session(&ends, SPDM_SEND, id, 0, data, sizeof data);
        session(&ends, SPDM_BEAT, id, 0, SPDM_NOTHING, 0);
        session(&ends, SPDM_UPDATE, id, 1, SPDM_NOTHING, 0);
        session(&ends, SPDM_MEASURE, id, 255, SPDM_NOTHING, 0);
        CHECK(DEEP(spdm_responder_tick, (&ends.responder, 1)) == SPDM_OK);
        CHECK(DEEP(spdm_responder_changes, (&ends.responder, REQUESTER, &watch, changes)) == SPDM_OK);
        CHECK(DEEP(spdm_responder_data, (&ends.responder, room, sizeof room, &len)) == SPDM_OK);
        CHECK(DEEP(spdm_requester_data, (&ends.requester, room, sizeof room, &len)) == SPDM_OK);
        CHECK(DEEP(spdm_responder_phase, (&ends.responder, REQUESTER, &phase)) == SPDM_OK);
        CHECK(DEEP(spdm_requester_phase, (&ends.requester, &phase)) == SPDM_OK);
    }
    session(&ends, SPDM_END, 1, 0, SPDM_NOTHING, 0);
    CHECK(DEEP(spdm_responder_reset, (&ends.responder, REQUESTER)) == SPDM_OK);
    session(&ends, SPDM_CONNECT, 0, 0, SPDM_NOTHING, 0);
    attest(&ends, &own);
    paint();
    spdm_responder_close(&ends.responder);
    note("spdm_responder_close");
    paint();
    spdm_requester_close(&ends.requester);
    note("spdm_requester_close");
    return NULL;
}

int main(int argc, char **argv) {
    pthread_attr_t attributes;
    pthread_t thread;
    size_t i;
    count = argc > 1 ? strtoul(argv[1], NULL, 10) : 1;
    CHECK(pthread_attr_init(&attributes) == 0 && pthread_attr_setstack(&attributes, stack, STACK) == 0);
    CHECK(pthread_create(&thread, &attributes, all_calls, NULL) == 0 && pthread_join(thread, NULL) == 0);
    for (i = 0; calls[i].name != NULL; i++) {
        printf("stack %s %u\n", calls[i].name, (unsigned)calls[i].deepest);
    }
    return 0;
}
