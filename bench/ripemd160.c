// Times RIPEMD-160 of 1 MiB by the workspace's static library and by OpenSSL, in turns, and prints both rates and
// their ratio. Each rate is that of the fastest of the rounds.
#include <openssl/evp.h>
#include <openssl/provider.h>
#include <stdio.h>
#include <string.h>
#include <time.h>

void digest_ripemd160(const unsigned char *message, size_t length, unsigned char (*out)[20]);

enum { LENGTH = 1 << 20, CALLS = 20, ROUNDS = 25 };

static unsigned char message[LENGTH];

static double now(void) {
    struct timespec t;
    clock_gettime(CLOCK_MONOTONIC, &t);
    return t.tv_sec + t.tv_nsec / 1e9;
}

int main(void) {
    OSSL_PROVIDER_load(NULL, "default");
    OSSL_PROVIDER_load(NULL, "legacy");
    EVP_MD *md = EVP_MD_fetch(NULL, "RIPEMD160", NULL);
    if (md == NULL) {
        fprintf(stderr, "this OpenSSL has no RIPEMD-160\n");
        return 1;
    }
    for (size_t i = 0; i < LENGTH; i++) {
        message[i] = (unsigned char)(i * 131 + (i >> 8));
    }
    unsigned char ours[20], theirs[20];
    double best_ours = 1e9, best_theirs = 1e9;
    for (int round = 0; round < ROUNDS; round++) {
        double start = now();
        for (int i = 0; i < CALLS; i++) {
            digest_ripemd160(message, LENGTH, &ours);
        }
        double middle = now();
        for (int i = 0; i < CALLS; i++) {
            EVP_Digest(message, LENGTH, theirs, NULL, md, NULL);
        }
        double end = now();
        if (middle - start < best_ours) {
            best_ours = middle - start;
        }
        if (end - middle < best_theirs) {
            best_theirs = end - middle;
        }
        if (memcmp(ours, theirs, 20) != 0) {
            fprintf(stderr, "the two digests differ\n");
            return 1;
        }
        message[round] ^= 0x55;
    }
    double bytes = (double)LENGTH * CALLS;
    printf("digest   %8.1f MB/s\n", bytes / best_ours / 1e6);
    printf("OpenSSL  %8.1f MB/s  (%s)\n", bytes / best_theirs / 1e6, OpenSSL_version(OPENSSL_VERSION));
    printf("ratio    %8.2f\n", best_theirs / best_ours);
    return 0;
}
