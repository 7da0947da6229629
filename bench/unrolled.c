// SHA-256 in C, unrolled, with a window of sixteen words: a baseline.
#include "baseline.h"

#define ROTR(x, n) (((x) >> (n)) | ((x) << (32 - (n))))
#define ROUND(a, b, c, d, e, f, g, h, k, word) \
    { \
        uint32_t t1 = h + (ROTR(e, 6) ^ ROTR(e, 11) ^ ROTR(e, 25)) + (g ^ (e & (f ^ g))) + k + word; \
        d += t1; \
        h = t1 + (ROTR(a, 2) ^ ROTR(a, 13) ^ ROTR(a, 22)) + ((a & b) | (c & (a | b))); \
    }
#define W(i) w[(i) & 15]
#define NEXT(i) \
    (W(i) += (ROTR(W(i + 14), 17) ^ ROTR(W(i + 14), 19) ^ (W(i + 14) >> 10)) + W(i + 9) + \
             (ROTR(W(i + 1), 7) ^ ROTR(W(i + 1), 18) ^ (W(i + 1) >> 3)))

void COMPRESS(uint32_t v[8], const uint8_t *p) {
    uint32_t w[16];
    for (int t = 0; t < 16; t++)
        w[t] = (uint32_t)p[4 * t] << 24 | (uint32_t)p[4 * t + 1] << 16 | (uint32_t)p[4 * t + 2] << 8 | p[4 * t + 3];
    uint32_t a = v[0], b = v[1], c = v[2], d = v[3], e = v[4], f = v[5], g = v[6], h = v[7];
    ROUND(a, b, c, d, e, f, g, h, 0x428a2f98, w[0])
    ROUND(h, a, b, c, d, e, f, g, 0x71374491, w[1])
    ROUND(g, h, a, b, c, d, e, f, 0xb5c0fbcf, w[2])
    ROUND(f, g, h, a, b, c, d, e, 0xe9b5dba5, w[3])
    ROUND(e, f, g, h, a, b, c, d, 0x3956c25b, w[4])
    ROUND(d, e, f, g, h, a, b, c, 0x59f111f1, w[5])
    ROUND(c, d, e, f, g, h, a, b, 0x923f82a4, w[6])
    ROUND(b, c, d, e, f, g, h, a, 0xab1c5ed5, w[7])
    ROUND(a, b, c, d, e, f, g, h, 0xd807aa98, w[8])
    ROUND(h, a, b, c, d, e, f, g, 0x12835b01, w[9])
    ROUND(g, h, a, b, c, d, e, f, 0x243185be, w[10])
    ROUND(f, g, h, a, b, c, d, e, 0x550c7dc3, w[11])
    ROUND(e, f, g, h, a, b, c, d, 0x72be5d74, w[12])
    ROUND(d, e, f, g, h, a, b, c, 0x80deb1fe, w[13])
    ROUND(c, d, e, f, g, h, a, b, 0x9bdc06a7, w[14])
    ROUND(b, c, d, e, f, g, h, a, 0xc19bf174, w[15])
    ROUND(a, b, c, d, e, f, g, h, 0xe49b69c1, NEXT(0))
    ROUND(h, a, b, c, d, e, f, g, 0xefbe4786, NEXT(1))
    ROUND(g, h, a, b, c, d, e, f, 0x0fc19dc6, NEXT(2))
    ROUND(f, g, h, a, b, c, d, e, 0x240ca1cc, NEXT(3))
    ROUND(e, f, g, h, a, b, c, d, 0x2de92c6f, NEXT(4))
    ROUND(d, e, f, g, h, a, b, c, 0x4a7484aa, NEXT(5))
    ROUND(c, d, e, f, g, h, a, b, 0x5cb0a9dc, NEXT(6))
    ROUND(b, c, d, e, f, g, h, a, 0x76f988da, NEXT(7))
    ROUND(a, b, c, d, e, f, g, h, 0x983e5152, NEXT(8))
    ROUND(h, a, b, c, d, e, f, g, 0xa831c66d, NEXT(9))
    ROUND(g, h, a, b, c, d, e, f, 0xb00327c8, NEXT(10))
    ROUND(f, g, h, a, b, c, d, e, 0xbf597fc7, NEXT(11))
    ROUND(e, f, g, h, a, b, c, d, 0xc6e00bf3, NEXT(12))
    ROUND(d, e, f, g, h, a, b, c, 0xd5a79147, NEXT(13))
    ROUND(c, d, e, f, g, h, a, b, 0x06ca6351, NEXT(14))
    ROUND(b, c, d, e, f, g, h, a, 0x14292967, NEXT(15))
    ROUND(a, b, c, d, e, f, g, h, 0x27b70a85, NEXT(0))
    ROUND(h, a, b, c, d, e, f, g, 0x2e1b2138, NEXT(1))
    ROUND(g, h, a, b, c, d, e, f, 0x4d2c6dfc, NEXT(2))
    ROUND(f, g, h, a, b, c, d, e, 0x53380d13, NEXT(3))
    ROUND(e, f, g, h, a, b, c, d, 0x650a7354, NEXT(4))
    ROUND(d, e, f, g, h, a, b, c, 0x766a0abb, NEXT(5))
    ROUND(c, d, e, f, g, h, a, b, 0x81c2c92e, NEXT(6))
    ROUND(b, c, d, e, f, g, h, a, 0x92722c85, NEXT(7))
    ROUND(a, b, c, d, e, f, g, h, 0xa2bfe8a1, NEXT(8))
    ROUND(h, a, b, c, d, e, f, g, 0xa81a664b, NEXT(9))
    ROUND(g, h, a, b, c, d, e, f, 0xc24b8b70, NEXT(10))
    ROUND(f, g, h, a, b, c, d, e, 0xc76c51a3, NEXT(11))
    ROUND(e, f, g, h, a, b, c, d, 0xd192e819, NEXT(12))
    ROUND(d, e, f, g, h, a, b, c, 0xd6990624, NEXT(13))
    ROUND(c, d, e, f, g, h, a, b, 0xf40e3585, NEXT(14))
    ROUND(b, c, d, e, f, g, h, a, 0x106aa070, NEXT(15))
    ROUND(a, b, c, d, e, f, g, h, 0x19a4c116, NEXT(0))
    ROUND(h, a, b, c, d, e, f, g, 0x1e376c08, NEXT(1))
    ROUND(g, h, a, b, c, d, e, f, 0x2748774c, NEXT(2))
    ROUND(f, g, h, a, b, c, d, e, 0x34b0bcb5, NEXT(3))
    ROUND(e, f, g, h, a, b, c, d, 0x391c0cb3, NEXT(4))
    ROUND(d, e, f, g, h, a, b, c, 0x4ed8aa4a, NEXT(5))
    ROUND(c, d, e, f, g, h, a, b, 0x5b9cca4f, NEXT(6))
    ROUND(b, c, d, e, f, g, h, a, 0x682e6ff3, NEXT(7))
    ROUND(a, b, c, d, e, f, g, h, 0x748f82ee, NEXT(8))
    ROUND(h, a, b, c, d, e, f, g, 0x78a5636f, NEXT(9))
    ROUND(g, h, a, b, c, d, e, f, 0x84c87814, NEXT(10))
    ROUND(f, g, h, a, b, c, d, e, 0x8cc70208, NEXT(11))
    ROUND(e, f, g, h, a, b, c, d, 0x90befffa, NEXT(12))
    ROUND(d, e, f, g, h, a, b, c, 0xa4506ceb, NEXT(13))
    ROUND(c, d, e, f, g, h, a, b, 0xbef9a3f7, NEXT(14))
    ROUND(b, c, d, e, f, g, h, a, 0xc67178f2, NEXT(15))
    v[0] += a, v[1] += b, v[2] += c, v[3] += d, v[4] += e, v[5] += f, v[6] += g, v[7] += h;
}

#include "digest.h"
