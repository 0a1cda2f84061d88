#include "common.h"

#include <stdio.h>
#include <string.h>

static const uint8_t hint[] = {0x71};
static const uint8_t psk[] = {'1', '2', '3', '4', '5', '6', '7', '8', '9', '0', '1', '2', '3', '4', '5', '6'};

const struct common_key common_key = {hint, sizeof hint, psk, sizeof psk};

struct spdm_offer common_offer(uint8_t measure) {
    struct spdm_offer offer;
    offer.hash = SPDM_BOTH_HASHES;
    offer.aead = SPDM_BOTH_AEADS;
    offer.measure = measure;
    offer.heartbeat = 1;
    offer.key_update = 1;
    offer.chunk = 1;
    return offer;
}

int common_begin(const char *name, char **words, uint8_t *own, struct link *link, uint8_t seed[32]) {
    const char *why;
    if (spdm_header_fits() != SPDM_OK) {
        fprintf(stderr, "%s: the header is not that of the library\n", name);
        return 0;
    }
    if (!link_seed(seed)) {
        fprintf(stderr, "%s: no random bytes\n", name);
        return 0;
    }
    why = link_open(link, words, *own, *own == DEVICE ? CONTROLLER : DEVICE, *own == DEVICE, UNIT);
    if (why != NULL) {
        fprintf(stderr, "%s: %s\n", name, why);
        return 0;
    }
    *own = link->own;
    return 1;
}

void common_show(const char *name, const char *what, const uint8_t *bytes, size_t len) {
    size_t i;
    fprintf(stderr, "%s: %s", name, what);
    for (i = 0; i < len; i++) {
        fprintf(stderr, "%c", bytes[i] >= ' ' && bytes[i] <= '~' ? bytes[i] : '.');
    }
    fprintf(stderr, "\n");
}
