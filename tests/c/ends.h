#ifndef ENDS_H
#define ENDS_H
/* Two ends as the tests set them up, and what carries packets between them. */
#include <stdio.h>
#include <stdlib.h>
#include <string.h>

#include "spdm.h"

enum { RESPONDER = 8, REQUESTER = 9, UNIT = 64, ROOM = UNIT + 4 };

static const uint8_t psk[] = {1, 2, 3, 4, 5, 6, 7, 8, 9, 10, 11, 12, 13, 14, 15, 16};
static const uint8_t hint[] = {0x71};
static const uint8_t seeds[2][32] = {{1}, {2}};
static const uint8_t digest[32] = {7, 7, 7};

#define CHECK(fact)                                                                                                    \
    do {                                                                                                               \
        if (!(fact)) {                                                                                                 \
            printf("%s:%d: %s\n", __FILE__, __LINE__, #fact);                                                          \
            exit(1);                                                                                                   \
        }                                                                                                              \
    } while (0)

struct ends {
    struct spdm_responder responder;
    struct spdm_requester requester;
};

static struct spdm_responder_config responder_config(void) {
    struct spdm_responder_config config;
    memset(&config, 0, sizeof config);
    config.eid = RESPONDER;
    config.beat = 30;
    config.offer.hash = SPDM_BOTH_HASHES;
    config.offer.aead = SPDM_BOTH_AEADS;
    config.offer.measure = config.offer.heartbeat = config.offer.key_update = config.offer.chunk = 1;
    config.transfer = 1024;
    config.max = 4096;
    config.unit = UNIT;
    config.opaque = SPDM_NOTHING;
    config.seed = seeds[0];
    return config;
}

static struct spdm_requester_config requester_config(void) {
    struct spdm_requester_config config;
    memset(&config, 0, sizeof config);
    config.eid = REQUESTER;
    config.responder = RESPONDER;
    config.offer.hash = SPDM_BOTH_HASHES;
    config.offer.aead = SPDM_BOTH_AEADS;
    config.offer.heartbeat = config.offer.key_update = config.offer.chunk = 1;
    config.transfer = 1024;
    config.max = 4096;
    config.unit = UNIT;
    config.hint = hint;
    config.hint_len = sizeof hint;
    config.psk = psk;
    config.psk_len = sizeof psk;
    config.opaque = SPDM_NOTHING;
    config.seed = seeds[1];
    return config;
}

static struct spdm_known known_requester(void) {
    struct spdm_known known;
    known.eid = REQUESTER;
    known.hint = hint;
    known.hint_len = sizeof hint;
    known.psk = psk;
    known.psk_len = sizeof psk;
    return known;
}

static struct spdm_block measured_block(void) {
    struct spdm_block block;
    block.index = 1;
    block.value_type = 0;
    block.tcb = 1;
    block.value = digest;
    block.value_len = sizeof digest;
    return block;
}

static inline void open_ends(struct ends *ends) {
    struct spdm_responder_config responder = responder_config();
    struct spdm_requester_config requester = requester_config();
    struct spdm_known known = known_requester();
    struct spdm_block block = measured_block();
    memset(ends, 0, sizeof *ends);
    CHECK(spdm_header_fits() == SPDM_OK);
    CHECK(spdm_responder_open(&ends->responder, &responder, &known, 1, &block, 1) == SPDM_OK);
    CHECK(spdm_requester_open(&ends->requester, &requester) == SPDM_OK);
}

static inline void close_ends(struct ends *ends) {
    spdm_responder_close(&ends->responder);
    spdm_requester_close(&ends->requester);
}

/* Carries packets both ways until the requester sends none; what it was told last. */
static inline struct spdm_told carry(struct ends *ends) {
    struct spdm_told told;
    memset(&told, 0, sizeof told);
    for (;;) {
        uint8_t asked[256][ROOM];
        size_t lens[256];
        size_t count = 0;
        size_t i;
        while (count < 256
               && spdm_requester_packet(&ends->requester, count, asked[count], ROOM, &lens[count]) == SPDM_OK) {
            count++;
        }
        if (count == 0) {
            return told;
        }
        for (i = 0; i < count; i++) {
            struct spdm_told heard;
            uint8_t answer[ROOM];
            size_t len;
            size_t index;
            CHECK(spdm_responder_on_packet(&ends->responder, asked[i], lens[i], &heard) == SPDM_OK);
            for (index = 0; spdm_responder_packet(&ends->responder, index, answer, ROOM, &len) == SPDM_OK; index++) {
                CHECK(spdm_requester_on_packet(&ends->requester, answer, len, &told) == SPDM_OK);
            }
        }
        if (told.kind == SPDM_REQ_DONE || told.kind == SPDM_REQ_REFUSED) {
            return told;
        }
    }
}

static inline void run(struct ends *ends, uint32_t command, uint8_t session, uint8_t number, const char *bytes,
                uint32_t outcome) {
    struct spdm_told told;
    CHECK(spdm_requester_command(&ends->requester, command, session, number, (const uint8_t *)bytes, strlen(bytes))
          == SPDM_OK);
    told = carry(ends);
    CHECK(told.kind == SPDM_REQ_DONE && told.cause == outcome);
}

#endif
