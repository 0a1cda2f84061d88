/* Seals COUNT messages of SIZE bytes by the AES-128-GCM of mbed TLS 2.28 and prints the last tag in
 * hexadecimal: the work of `spdm_bench gcm SIZE COUNT`, as something to compare its time with. Each message is
 * the one before it sealed, under a key of zeros, with eight bytes of zeros as associated data; the IV is the
 * number of the message in eight bytes, the lowest first, and four zeros.
 *
 * Built with -DSOFT and -rdynamic, the library asks the function below whether the processor has instructions
 * for AES, is told that it has none, and takes its portable tables.
 */
#include <mbedtls/gcm.h>
#include <mbedtls/version.h>
#include <stdint.h>
#include <stdio.h>
#include <stdlib.h>

#if MBEDTLS_VERSION_MAJOR != 2 || MBEDTLS_VERSION_MINOR != 28
#error "mbed TLS 2.28 is wanted"
#endif

#ifdef SOFT
int mbedtls_aesni_has_support(unsigned int what);

int mbedtls_aesni_has_support(unsigned int what) {
    (void)what;
    return 0;
}
#endif

int main(int argc, char **argv) {
    if (argc != 3) {
        fprintf(stderr, "usage: gcm_mbedtls SIZE COUNT\n");
        return 1;
    }
    size_t size = strtoul(argv[1], NULL, 10);
    uint64_t count = strtoull(argv[2], NULL, 10);
    unsigned char key[16] = {0}, iv[12] = {0}, aad[8] = {0}, tag[16] = {0};
    unsigned char *text = calloc(size + 1, 1);
    mbedtls_gcm_context gcm;

    mbedtls_gcm_init(&gcm);
    if (text == NULL || mbedtls_gcm_setkey(&gcm, MBEDTLS_CIPHER_ID_AES, key, 128) != 0) {
        return 1;
    }
    for (uint64_t number = 0; number < count; number++) {
        for (int i = 0; i < 8; i++) {
            iv[i] = (unsigned char)(number >> (8 * i));
        }
        if (mbedtls_gcm_crypt_and_tag(&gcm, MBEDTLS_GCM_ENCRYPT, size, iv, sizeof iv, aad, sizeof aad,
                                      text, text, sizeof tag, tag) != 0) {
            return 1;
        }
    }
    for (size_t i = 0; i < sizeof tag; i++) {
        printf("%02x", tag[i]);
    }
    printf("\n");
    mbedtls_gcm_free(&gcm);
    free(text);
    return 0;
}
