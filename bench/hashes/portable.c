/* SHA-256 (FIPS 180-4) and SHA3-256 (FIPS 202) in plain C, to measure beside. */
#include "portable.h"
#include <string.h>

#define ROR32(x, n) (((x) >> (n)) | ((x) << (32 - (n))))
#define ROL64(x, n) (((x) << (n)) | ((x) >> (64 - (n))))

static const uint32_t K[64] = {
    0x428a2f98, 0x71374491, 0xb5c0fbcf, 0xe9b5dba5, 0x3956c25b, 0x59f111f1, 0x923f82a4, 0xab1c5ed5,
    0xd807aa98, 0x12835b01, 0x243185be, 0x550c7dc3, 0x72be5d74, 0x80deb1fe, 0x9bdc06a7, 0xc19bf174,
    0xe49b69c1, 0xefbe4786, 0x0fc19dc6, 0x240ca1cc, 0x2de92c6f, 0x4a7484aa, 0x5cb0a9dc, 0x76f988da,
    0x983e5152, 0xa831c66d, 0xb00327c8, 0xbf597fc7, 0xc6e00bf3, 0xd5a79147, 0x06ca6351, 0x14292967,
    0x27b70a85, 0x2e1b2138, 0x4d2c6dfc, 0x53380d13, 0x650a7354, 0x766a0abb, 0x81c2c92e, 0x92722c85,
    0xa2bfe8a1, 0xa81a664b, 0xc24b8b70, 0xc76c51a3, 0xd192e819, 0xd6990624, 0xf40e3585, 0x106aa070,
    0x19a4c116, 0x1e376c08, 0x2748774c, 0x34b0bcb5, 0x391c0cb3, 0x4ed8aa4a, 0x5b9cca4f, 0x682e6ff3,
    0x748f82ee, 0x78a5636f, 0x84c87814, 0x8cc70208, 0x90befffa, 0xa4506ceb, 0xbef9a3f7, 0xc67178f2};

static void compress(uint32_t *h, const uint8_t *p) {
    uint32_t w[64];
    for (int i = 0; i < 16; i++)
        w[i] = (uint32_t)p[4 * i] << 24 | (uint32_t)p[4 * i + 1] << 16 | (uint32_t)p[4 * i + 2] << 8 | p[4 * i + 3];
    for (int i = 16; i < 64; i++) {
        uint32_t s0 = ROR32(w[i - 15], 7) ^ ROR32(w[i - 15], 18) ^ (w[i - 15] >> 3);
        uint32_t s1 = ROR32(w[i - 2], 17) ^ ROR32(w[i - 2], 19) ^ (w[i - 2] >> 10);
        w[i] = w[i - 16] + s0 + w[i - 7] + s1;
    }
    uint32_t a = h[0], b = h[1], c = h[2], d = h[3], e = h[4], f = h[5], g = h[6], k = h[7];
    for (int i = 0; i < 64; i++) {
        uint32_t t1 = k + (ROR32(e, 6) ^ ROR32(e, 11) ^ ROR32(e, 25)) + ((e & f) ^ (~e & g)) + K[i] + w[i];
        uint32_t t2 = (ROR32(a, 2) ^ ROR32(a, 13) ^ ROR32(a, 22)) + ((a & b) ^ (a & c) ^ (b & c));
        k = g, g = f, f = e, e = d + t1, d = c, c = b, b = a, a = t1 + t2;
    }
    h[0] += a, h[1] += b, h[2] += c, h[3] += d, h[4] += e, h[5] += f, h[6] += g, h[7] += k;
}

void portable_sha256(const uint8_t *m, size_t n, uint8_t *out) {
    uint32_t h[8] = {0x6a09e667, 0xbb67ae85, 0x3c6ef372, 0xa54ff53a, 0x510e527f, 0x9b05688c, 0x1f83d9ab, 0x5be0cd19};
    uint64_t bits = (uint64_t)n * 8;
    for (; n >= 64; m += 64, n -= 64) compress(h, m);
    uint8_t last[128] = {0};
    memcpy(last, m, n);
    last[n] = 0x80;
    size_t end = n < 56 ? 64 : 128;
    for (int k = 0; k < 8; k++) last[end - 1 - k] = bits >> (8 * k);
    for (size_t at = 0; at < end; at += 64) compress(h, last + at);
    for (int k = 0; k < 32; k++) out[k] = h[k / 4] >> (24 - 8 * (k % 4));
}

static const uint64_t RC[24] = {
    0x0000000000000001, 0x0000000000008082, 0x800000000000808a, 0x8000000080008000, 0x000000000000808b, 0x0000000080000001,
    0x8000000080008081, 0x8000000000008009, 0x000000000000008a, 0x0000000000000088, 0x0000000080008009, 0x000000008000000a,
    0x000000008000808b, 0x800000000000008b, 0x8000000000008089, 0x8000000000008003, 0x8000000000008002, 0x8000000000000080,
    0x000000000000800a, 0x800000008000000a, 0x8000000080008081, 0x8000000000008080, 0x0000000080000001, 0x8000000080008008};

#define MOVE(to, from, by) b[to] = ROL64(a[from] ^ d[(from) % 5], by)

static void keccak(uint64_t *a) {
    uint64_t b[25], c[5], d[5];
    for (int r = 0; r < 24; r++) {
        for (int x = 0; x < 5; x++) c[x] = a[x] ^ a[x + 5] ^ a[x + 10] ^ a[x + 15] ^ a[x + 20];
        for (int x = 0; x < 5; x++) d[x] = c[(x + 4) % 5] ^ ROL64(c[(x + 1) % 5], 1);
        b[0] = a[0] ^ d[0];
        MOVE(10, 1, 1); MOVE(20, 2, 62); MOVE(5, 3, 28); MOVE(15, 4, 27); MOVE(16, 5, 36); MOVE(1, 6, 44);
        MOVE(11, 7, 6); MOVE(21, 8, 55); MOVE(6, 9, 20); MOVE(7, 10, 3); MOVE(17, 11, 10); MOVE(2, 12, 43);
        MOVE(12, 13, 25); MOVE(22, 14, 39); MOVE(23, 15, 41); MOVE(8, 16, 45); MOVE(18, 17, 15); MOVE(3, 18, 21);
        MOVE(13, 19, 8); MOVE(14, 20, 18); MOVE(24, 21, 2); MOVE(9, 22, 61); MOVE(19, 23, 56); MOVE(4, 24, 14);
        for (int y = 0; y < 25; y += 5)
            for (int x = 0; x < 5; x++) a[y + x] = b[y + x] ^ (~b[y + (x + 1) % 5] & b[y + (x + 2) % 5]);
        a[0] ^= RC[r];
    }
}

static void absorb(uint64_t *state, const uint8_t *block) {
    for (int l = 0; l < 17; l++) {
        uint64_t lane;
        memcpy(&lane, block + 8 * l, 8);
        state[l] ^= lane;
    }
    keccak(state);
}

void portable_sha3_256(const uint8_t *m, size_t n, uint8_t *out) {
    uint64_t state[25] = {0};
    for (; n >= 136; m += 136, n -= 136) absorb(state, m);
    uint8_t last[136] = {0};
    memcpy(last, m, n);
    last[n] = 0x06;
    last[135] |= 0x80;
    absorb(state, last);
    memcpy(out, state, 32);
}
