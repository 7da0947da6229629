// The whole hash over a baseline's COMPRESS.
void DIGEST(const uint8_t *m, size_t n, uint8_t out[32]) {
    uint32_t h[8] = {0x6a09e667, 0xbb67ae85, 0x3c6ef372, 0xa54ff53a, 0x510e527f, 0x9b05688c, 0x1f83d9ab, 0x5be0cd19};
    size_t i = 0;
    for (; i + 64 <= n; i += 64)
        COMPRESS(h, m + i);
    uint8_t last[128] = {0};
    size_t rest = n - i, end = rest < 56 ? 64 : 128;
    memcpy(last, m + i, rest);
    last[rest] = 0x80;
    for (int k = 0; k < 8; k++)
        last[end - 1 - k] = (uint8_t)((uint64_t)n * 8 >> (8 * k));
    COMPRESS(h, last);
    if (end == 128)
        COMPRESS(h, last + 64);
    for (int k = 0; k < 8; k++)
        out[4 * k] = h[k] >> 24, out[4 * k + 1] = h[k] >> 16, out[4 * k + 2] = h[k] >> 8, out[4 * k + 3] = h[k];
}
