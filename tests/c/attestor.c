/* An attestor and a responder in one process: each verdict at its cause, and each misuse that a call can test. */
#include "ends.h"

/* The measured block of ends.h, and others. */
#define VALUE "0707070000000000000000000000000000000000000000000000000000000000"
#define OTHER "0807070000000000000000000000000000000000000000000000000000000000"

static struct spdm_responder responder;
static struct spdm_attestor attestor;

static uint32_t open_attestor(const char *policy) {
    struct spdm_requester_config config = requester_config();
    return spdm_attestor_open(&attestor, &config, (const uint8_t *)policy, strlen(policy));
}

static void open_both(const char *policy, uint8_t measure) {
    struct spdm_responder_config config = responder_config();
    struct spdm_known known = known_requester();
    struct spdm_block block = measured_block();
    config.offer.measure = measure;
    CHECK(spdm_responder_open(&responder, &config, &known, 1, &block, 1) == SPDM_OK);
    CHECK(open_attestor(policy) == SPDM_OK);
    CHECK(open_attestor(policy) == SPDM_OPEN);
}

/* Carries packets both ways until the attestor sends none, and of its first requests `lost` packets are lost. What was
   decided; that it is decided once, and at no other packet, is looked at. */
static struct spdm_verdict attest(const char *policy, uint8_t measure, unsigned lost) {
    struct spdm_verdict decided;
    unsigned count = 0;
    memset(&decided, 0, sizeof decided);
    open_both(policy, measure);
    CHECK(spdm_attestor_start(&attestor) == SPDM_OK);
    for (;;) {
        uint8_t asked[64][ROOM];
        size_t lens[64];
        size_t number = 0;
        size_t i;
        while (number < 64 && spdm_attestor_packet(&attestor, number, asked[number], ROOM, &lens[number]) == SPDM_OK) {
            number++;
        }
        if (number == 0) {
            break;
        }
        if (count++ < lost) {
            CHECK(spdm_attestor_on_time(&attestor) == SPDM_OK);
            continue;
        }
        for (i = 0; i < number; i++) {
            struct spdm_told heard;
            uint8_t answers[64][ROOM];
            size_t answer_lens[64];
            size_t many = 0;
            size_t j;
            CHECK(spdm_responder_on_packet(&responder, asked[i], lens[i], &heard) == SPDM_OK);
            while (spdm_responder_packet(&responder, many, answers[many], ROOM, &answer_lens[many]) == SPDM_OK) {
                many++;
            }
            for (j = 0; j < many; j++) {
                struct spdm_verdict verdict;
                CHECK(spdm_attestor_on_packet(&attestor, answers[j], answer_lens[j], &verdict) == SPDM_OK);
                if (verdict.kind != SPDM_VERDICT_GOING) {
                    CHECK(decided.kind == SPDM_VERDICT_GOING);
                    decided = verdict;
                }
            }
        }
    }
    spdm_attestor_close(&attestor);
    spdm_responder_close(&responder);
    return decided;
}

static void is(const char *policy, uint32_t kind, uint64_t number) {
    unsigned lost;
    for (lost = 0; lost < 3; lost++) {
        struct spdm_verdict verdict = attest(policy, 1, lost);
        CHECK(verdict.kind == kind && verdict.number == number);
    }
}

static void misuse(void) {
    struct spdm_verdict verdict;
    struct spdm_verdict before;
    struct spdm_requester_config config = requester_config();
    uint8_t room[ROOM] = {0};
    size_t len = 77;
    memset(&verdict, 0x5a, sizeof verdict);
    memset(&before, 0x5a, sizeof before);
    CHECK(spdm_attestor_start(&attestor) == SPDM_CLOSED && spdm_attestor_on_time(&attestor) == SPDM_CLOSED);
    CHECK(spdm_attestor_on_packet(&attestor, room, 9, &verdict) == SPDM_CLOSED);
    CHECK(spdm_attestor_packet(&attestor, 0, room, sizeof room, &len) == SPDM_CLOSED && len == 77);
    CHECK(memcmp(&verdict, &before, sizeof verdict) == 0);
    spdm_attestor_close(&attestor);
    CHECK(open_attestor("") == SPDM_BAD_POLICY);
    CHECK(open_attestor("skip 1\n") == SPDM_BAD_POLICY);
    CHECK(open_attestor("skip 1\nskip 1\ngo\n") == SPDM_BAD_POLICY);
    CHECK(open_attestor("skip 0\ngo\n") == SPDM_BAD_POLICY);
    config.eid = 7;
    CHECK(spdm_attestor_open(&attestor, &config, SPDM_NOTHING, 0) == SPDM_BAD_EID);
    config.eid = RESPONDER;
    CHECK(spdm_attestor_open(&attestor, &config, SPDM_NOTHING, 0) == SPDM_SAME_EID);
    CHECK(open_attestor("go") == SPDM_OK);
    CHECK(spdm_attestor_packet(&attestor, 0, room, sizeof room, &len) == SPDM_NONE && len == 77);
    CHECK(spdm_attestor_start(&attestor) == SPDM_OK);
    CHECK(spdm_attestor_packet(&attestor, 0, room, 3, &len) == SPDM_ROOM && len == 9 && room[0] == 0);
    spdm_attestor_close(&attestor);
    spdm_attestor_close(&attestor);
}

int main(void) {
    CHECK(spdm_header_fits() == SPDM_OK);
    misuse();
    is("expect 1 0 " VALUE "\ngo\n", SPDM_VERDICT_TRUSTED, 0);
    is("# any\n\nskip 1\nskip 2\ngo\n", SPDM_VERDICT_TRUSTED, 0);
    is("expect 1 0 " OTHER "\ngo\n", SPDM_VERDICT_DIFFERS, 1);
    is("expect 1 1 " VALUE "\ngo\n", SPDM_VERDICT_DIFFERS, 1);
    is("expect 2 0 " VALUE "\ngo\n", SPDM_VERDICT_UNKNOWN, 1);
    is("skip 1\nexpect 3 0 " VALUE "\nexpect 2 0 -\ngo\n", SPDM_VERDICT_MISSING, 2);
    CHECK(attest("skip 1\ngo\n", 0, 0).kind == SPDM_VERDICT_FAILED);
    printf("each verdict at its cause\n");
    return 0;
}
