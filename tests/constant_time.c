/* Calls the cryptography with secrets that memcheck takes as undefined, and prints for each call how many reports it led
   to, and how often something was told to be public. tests/constant_time builds and runs it. */
#include <stdbool.h>
#include <stddef.h>
#include <stdint.h>
#include <stdio.h>
#include <string.h>
#include <valgrind/memcheck.h>

#define IN(name) const uint8_t *name, size_t name##_size
#define OUT(name) uint8_t *name, size_t name##_size
size_t secret_record_seal(bool large, IN(psk), IN(inner), IN(pad), OUT(out));
size_t secret_record_open(bool large, IN(psk), IN(sealed), OUT(out));
size_t secret_keys(bool large, IN(psk), OUT(out));
size_t secret_verify_data(bool large, IN(psk), OUT(out));
size_t secret_hmac(bool large, IN(key), IN(text), OUT(out));
bool secret_gcm_seal(IN(key), const uint8_t *iv, IN(aad), OUT(text), OUT(tag));
bool secret_gcm_open(IN(key), const uint8_t *iv, IN(aad), OUT(text), const uint8_t *tag);
bool secret_gcm_verify(IN(key), const uint8_t *iv, IN(aad), IN(text), const uint8_t *tag);
bool secret_same_bytes(IN(a), IN(b));
size_t control_aes_by_tables(IN(key), OUT(out));
size_t control_ghash_by_tables(IN(key), IN(text), OUT(out));
bool control_early_exit(IN(a), IN(b));

enum { MOST = 4200 };
static uint8_t psk[64], key[200], text[MOST], pad[16], out[MOST], more[MOST], tag[16];
static const uint8_t iv[12] = {1, 2, 3}, aad[20] = {4, 5, 6};
static const size_t sizes[] = {0, 1, 15, 16, 30, 31, 32, 45, 46, 47, 48, 49, 64, 100, 255, 256, 1000, 1024, 4000};
static unsigned long told, told_before, reports_before;
static int failed;

/* What is told to be public. */
bool told_answer(bool answer) {
    told++;
    VALGRIND_MAKE_MEM_DEFINED(&answer, sizeof answer);
    return answer;
}
uint16_t told_length(uint16_t length) {
    told++;
    VALGRIND_MAKE_MEM_DEFINED(&length, sizeof length);
    return length;
}

static void secret(void *at, size_t size) { VALGRIND_MAKE_MEM_UNDEFINED(at, size); }
static void public(void *at, size_t size) { VALGRIND_MAKE_MEM_DEFINED(at, size); }

static void want(const char *what, bool holds) {
    if (!holds) {
        fprintf(stderr, "constant_time.c: %s: another answer\n", what);
        failed = 1;
    }
}

/* That each of these bytes hangs on a secret: what was called took the secrets in. */
static void want_secret(const char *what, const uint8_t *at, size_t size) {
    static uint8_t bits[MOST];
    size_t hidden = 0;
    VALGRIND_GET_VBITS(at, bits, size);
    for (size_t i = 0; i < size; i++) hidden += bits[i] != 0;
    if (hidden != size) {
        fprintf(stderr, "constant_time.c: %s: %zu of %zu bytes hang on no secret\n", what, size - hidden, size);
        failed = 1;
    }
}

/* Secrets with the values that they begin with, each other than the next. */
static void fill(void) {
    public(psk, sizeof psk), public(key, sizeof key), public(text, sizeof text), public(pad, sizeof pad);
    public(out, sizeof out), public(more, sizeof more), public(tag, sizeof tag);
    for (size_t i = 0; i < sizeof psk; i++) psk[i] = (uint8_t)(7 * i + 1);
    for (size_t i = 0; i < sizeof key; i++) key[i] = (uint8_t)(5 * i + 2);
    for (size_t i = 0; i < sizeof text; i++) text[i] = (uint8_t)(3 * i + 3);
    memset(pad, 9, sizeof pad), memset(out, 0, sizeof out), memset(more, 0, sizeof more), memset(tag, 0, sizeof tag);
    secret(psk, sizeof psk), secret(key, sizeof key), secret(text, sizeof text), secret(pad, sizeof pad);
}

static void ended(const char *name) {
    unsigned long reports = VALGRIND_COUNT_ERRORS;
    printf("%s %lu %lu\n", name, reports - reports_before, told - told_before);
    fflush(stdout);
    reports_before = VALGRIND_COUNT_ERRORS;
    told_before = told;
}

#define EACH_SIZE(s) for (size_t at = 0, s; at < sizeof sizes / sizeof *sizes && (s = sizes[at], true); at++)

static void records(void) {
    for (int large = 0; large < 2; large++) EACH_SIZE(size) {
        fill();
        size_t sealed = secret_record_seal(large, psk, 32, text, size, pad, at % 17, out, sizeof out);
        want("record_seal", sealed == size + at % 17 + 26);
        want_secret("record_seal", out + 8, sealed - 8);
    }
    ended("record_seal");
    for (int large = 0; large < 2; large++) EACH_SIZE(size) {
        fill();
        size_t sealed = secret_record_seal(large, psk, 32, text, size, pad, at % 17, out, sizeof out);
        /* All but the header, which says the lengths. */
        secret(out + 8, sealed - 8);
        want("record_open", secret_record_open(large, psk, 32, out, sealed, more, sizeof more) == size);
        want_secret("record_open", more, size);
        public(more, size), public(text, size);
        want("record_open", memcmp(more, text, size) == 0);
    }
    ended("record_open");
    for (int large = 0; large < 2; large++) EACH_SIZE(size) {
        fill();
        size_t sealed = secret_record_seal(large, psk, 32, text, size, pad, at % 17, out, sizeof out);
        out[8 + at % (sealed - 8)] ^= 4;
        secret(out + 8, sealed - 8);
        want("record_refused", secret_record_open(large, psk, 32, out, sealed, more, sizeof more) == 0);
    }
    ended("record_refused");
}

static void gcm(void) {
    for (size_t keys = 16; keys <= 32; keys += 16) EACH_SIZE(size) {
        fill();
        want("gcm_seal", secret_gcm_seal(key, keys, iv, aad, at, text, size, tag, sizeof tag));
        want_secret("gcm_seal", text, size), want_secret("gcm_seal", tag, sizeof tag);
    }
    ended("gcm_seal");
    for (size_t keys = 16; keys <= 32; keys += 16) EACH_SIZE(size) {
        fill();
        secret_gcm_seal(key, keys, iv, aad, at, text, size, tag, sizeof tag);
        want("gcm_verify", secret_gcm_verify(key, keys, iv, aad, at, text, size, tag));
        tag[at % 16] ^= 128;
        want("gcm_verify", !secret_gcm_verify(key, keys, iv, aad, at, text, size, tag));
    }
    ended("gcm_verify");
    for (size_t keys = 16; keys <= 32; keys += 16) EACH_SIZE(size) {
        fill();
        secret_gcm_seal(key, keys, iv, aad, at, text, size, tag, sizeof tag);
        tag[at % 16] ^= 1;
        want("gcm_open", !secret_gcm_open(key, keys, iv, aad, at, text, size, tag));
        tag[at % 16] ^= 1;
        want("gcm_open", secret_gcm_open(key, keys, iv, aad, at, text, size, tag));
        want_secret("gcm_open", text, size);
    }
    ended("gcm_open");
}

static void schedule(void) {
    static const size_t lengths[] = {1, 16, 32, 48, 64, 65, 128, 200};
    for (int large = 0; large < 2; large++) EACH_SIZE(size) for (size_t k = 0; k < 8; k++) {
        fill();
        want("hmac", secret_hmac(large, key, lengths[k], text, size, out, sizeof out) == (large ? 48 : 32));
        want_secret("hmac", out, large ? 48 : 32);
    }
    ended("hmac");
    for (int large = 0; large < 2; large++) for (size_t k = 0; k < 5; k++) {
        fill();
        want("keys", secret_keys(large, psk, lengths[k], out, sizeof out) == 6 * (large ? 44 : 28));
        want_secret("keys", out, 6 * (large ? 44 : 28));
    }
    ended("keys");
    for (int large = 0; large < 2; large++) for (size_t k = 0; k < 5; k++) {
        fill();
        want("verify_data", secret_verify_data(large, psk, lengths[k], out, sizeof out) == 2 * (large ? 48 : 32));
        want_secret("verify_data", out, 2 * (large ? 48 : 32));
    }
    ended("verify_data");
}

static void comparisons(void) {
    EACH_SIZE(size) {
        fill();
        memcpy(more, text, size);
        want("same_bytes", secret_same_bytes(more, size, text, size));
        if (size) more[at % size] ^= 1;
        want("same_bytes", secret_same_bytes(more, size, text, size) == (size == 0));
    }
    ended("same_bytes");
}

static void controls(void) {
    fill();
    want("aes_by_tables", control_aes_by_tables(key, 16, out, sizeof out) == 16);
    ended("aes_by_tables");
    fill();
    want("ghash_by_tables", control_ghash_by_tables(key, 16, text, 64, out, sizeof out) == 16);
    ended("ghash_by_tables");
    fill();
    memcpy(more, text, 64);
    more[40] ^= 1;
    bool same = control_early_exit(more, 64, text, 64);
    public(&same, sizeof same);
    want("early_exit", !same);
    ended("early_exit");
}

int main(void) {
    want("RUNNING_ON_VALGRIND", RUNNING_ON_VALGRIND);
    reports_before = VALGRIND_COUNT_ERRORS;
    records();
    gcm();
    schedule();
    comparisons();
    controls();
    return failed;
}
