/* The proved hashes beside portable C and OpenSSL, in one run: first that they agree, then how long they take. */
#include "portable.h"
#include <openssl/evp.h>
#include <stdbool.h>
#include <stdio.h>
#include <string.h>
#include <time.h>

bool covasluk_sha256(const uint8_t *, size_t, const uint8_t *, size_t, uint8_t *, size_t);
bool covasluk_sha3_256(const uint8_t *, size_t, const uint8_t *, size_t, uint8_t *, size_t);

typedef struct {
    const char *name;
    bool (*proved)(const uint8_t *, size_t, const uint8_t *, size_t, uint8_t *, size_t);
    void (*portable)(const uint8_t *, size_t, uint8_t *);
    EVP_MD *openssl;
} Hash;

static uint8_t message[1 << 15];
static EVP_MD_CTX *context;

static void by_openssl(const Hash *h, size_t n, uint8_t *out) {
    EVP_DigestInit_ex(context, h->openssl, NULL);
    EVP_DigestUpdate(context, message, n);
    EVP_DigestFinal_ex(context, out, NULL);
}

static void run(const Hash *h, int which, size_t n, uint8_t *out) {
    if (which == 0) h->proved(message, n, message, 0, out, 32);
    if (which == 1) h->portable(message, n, out);
    if (which == 2) by_openssl(h, n, out);
}

static bool agree(const Hash *h, size_t n, size_t cut) {
    uint8_t a[32], b[32], c[32];
    h->proved(message, cut, message + cut, n - cut, a, 32);
    run(h, 1, n, b);
    run(h, 2, n, c);
    return !memcmp(a, b, 32) && !memcmp(b, c, 32);
}

static double seconds(void) {
    struct timespec t;
    clock_gettime(CLOCK_MONOTONIC, &t);
    return t.tv_sec + 1e-9 * t.tv_nsec;
}

static double best(const Hash *h, int which, size_t n, long turns) {
    double least = 1e9;
    uint8_t out[32];
    for (int round = 0; round < 9; round++) {
        double start = seconds();
        for (long i = 0; i < turns; i++) {
            run(h, which, n, out);
            message[0] = out[0];
        }
        double took = seconds() - start;
        if (took < least) least = took;
    }
    return least / turns;
}

int main(void) {
    context = EVP_MD_CTX_new();
    Hash hashes[] = {{"SHA-256", covasluk_sha256, portable_sha256, EVP_MD_fetch(NULL, "SHA2-256", NULL)},
                     {"SHA3-256", covasluk_sha3_256, portable_sha3_256, EVP_MD_fetch(NULL, "SHA3-256", NULL)}};
    for (size_t i = 0; i < sizeof message; i++) message[i] = (i * 7 + 13) % 251;
    for (int k = 0; k < 2; k++) {
        const Hash *h = &hashes[k];
        for (size_t n = 0; n < 1200; n++)
            for (size_t cut = 0; cut <= n; cut += 1 + n / 16)
                if (!agree(h, n, cut)) {
                    printf("%s: %zu bytes cut at %zu differ\n", h->name, n, cut);
                    return 1;
                }
        size_t sizes[] = {64, 1024, 16384};
        for (int s = 0; s < 3; s++) {
            size_t n = sizes[s];
            long turns = 20000000 / (n + 200);
            double proved = best(h, 0, n, turns), portable = best(h, 1, n, turns), openssl = best(h, 2, n, turns);
            printf("%-8s %5zu bytes: %7.0f MB/s; speed as a ratio to portable C %.2f, to OpenSSL %.2f\n", h->name, n,
                   n / proved / 1e6, portable / proved, openssl / proved);
        }
    }
    return 0;
}
