/*
 * What both ends and an attestor leave in memory: wiped FOLDER. The library gets its memory from one block here that is
 * never used again, and what stands in it is written to a file of FOLDER at each stage: while a session is open, after a
 * key update, after END_SESSION, and after both ends are closed; and then while an attestor is open, and after it is
 * closed. Each message of the session is written to standard output. tests/wiped looks for keys.
 */
#include "ends.h"

enum { BLOCK = 1 << 21, BODY = 1100 };

/* Aligned for each request, of which none asks for more than 16. */
static union {
    uint8_t bytes[BLOCK];
    long double widest;
} memory;
static size_t used;

struct rattle_block rattle_alloc(size_t size, size_t align) {
    struct rattle_block block;
    size_t at = (used + align - 1) / align * align;
    CHECK(align <= 16 && size <= BLOCK - at);
    used = at + size;
    block.is_some = 1;
    block.at = memory.bytes + at;
    return block;
}

/* What is given back stays as it was left, so that it can be looked at. */
void rattle_dealloc(void *block) { (void)block; }

struct rattle_block rattle_realloc(void *block, size_t old_size, size_t size, size_t align) {
    struct rattle_block moved = rattle_alloc(size, align);
    memcpy(moved.at, block, old_size < size ? old_size : size);
    return moved;
}

static const char *folder;

static void stage(const char *name) {
    char path[4096];
    FILE *file;
    CHECK(snprintf(path, sizeof path, "%s/%s", folder, name) < (int)sizeof path);
    file = fopen(path, "wb");
    CHECK(file != NULL);
    CHECK(fwrite(memory.bytes, 1, used, file) == used);
    CHECK(fclose(file) == 0);
}

static void show(const uint8_t *packet, size_t len) {
    size_t i;
    for (i = 4; i < len; i++) {
        printf("%02x", packet[i]);
    }
    printf("\n");
}

/* Runs a command up to its outcome. Each message is one packet. */
static void ask(struct ends *ends, uint32_t command, uint8_t session, uint8_t number, const char *bytes,
                uint32_t outcome) {
    struct spdm_told told;
    uint8_t packet[BODY];
    size_t len;
    CHECK(spdm_requester_command(&ends->requester, command, session, number, (const uint8_t *)bytes, strlen(bytes))
          == SPDM_OK);
    memset(&told, 0, sizeof told);
    while (told.kind != SPDM_REQ_DONE) {
        struct spdm_told heard;
        CHECK(spdm_requester_packet(&ends->requester, 0, packet, sizeof packet, &len) == SPDM_OK);
        show(packet, len);
        CHECK(spdm_responder_on_packet(&ends->responder, packet, len, &heard) == SPDM_OK);
        CHECK(spdm_responder_packet(&ends->responder, 0, packet, sizeof packet, &len) == SPDM_OK);
        show(packet, len);
        CHECK(spdm_requester_on_packet(&ends->requester, packet, len, &told) == SPDM_OK);
    }
    CHECK(told.cause == outcome);
}

/* An attestor that has begun, and is closed. */
static void attest(void) {
    static const uint8_t seed[] = "the seed of one attestor, here!!";
    static const char policy[] = "skip 1\ngo\n";
    static struct spdm_attestor attestor;
    struct spdm_requester_config config = requester_config();
    CHECK(sizeof seed == 33);
    config.seed = seed;
    CHECK(spdm_attestor_open(&attestor, &config, (const uint8_t *)policy, strlen(policy)) == SPDM_OK);
    CHECK(spdm_attestor_start(&attestor) == SPDM_OK);
    stage("attestor");
    spdm_attestor_close(&attestor);
    stage("attestor_closed");
}

int main(int count, char **words) {
    static struct ends ends;
    struct spdm_responder_config responder = responder_config();
    struct spdm_requester_config requester = requester_config();
    struct spdm_known known = known_requester();
    struct spdm_block block = measured_block();
    static const uint8_t responder_seed[] = "the seed of one responder, here!";
    static const uint8_t requester_seed[] = "the seed of one requester, here!";
    CHECK(count == 2 && sizeof responder_seed == 33 && sizeof requester_seed == 33);
    responder.seed = responder_seed;
    requester.seed = requester_seed;
    folder = words[1];
    responder.unit = requester.unit = 1024;
    responder.offer.hash = requester.offer.hash = SPDM_SHA_256;
    responder.offer.aead = requester.offer.aead = SPDM_AES_256_GCM;
    CHECK(spdm_header_fits() == SPDM_OK);
    CHECK(spdm_responder_open(&ends.responder, &responder, &known, 1, &block, 1) == SPDM_OK);
    CHECK(spdm_requester_open(&ends.requester, &requester) == SPDM_OK);
    ask(&ends, SPDM_CONNECT, 0, 0, "", SPDM_CONNECTED);
    ask(&ends, SPDM_OPEN_SESSION, 0, 0, "", SPDM_OPENED);
    CHECK(spdm_responder_queue(&ends.responder, REQUESTER, (const uint8_t *)"an answer that nobody else may read", 35)
          == SPDM_OK);
    ask(&ends, SPDM_SEND, 1, 0, "a question that nobody else may read", SPDM_DATA_ANSWERED);
    stage("open");
    ask(&ends, SPDM_UPDATE, 1, 1, "", SPDM_KEYS_UPDATED);
    stage("updated");
    ask(&ends, SPDM_END, 1, 0, "", SPDM_ENDED);
    stage("ended");
    close_ends(&ends);
    stage("closed");
    attest();
    return 0;
}
