// A C baseline: compiled with COMPRESS and DIGEST as the names of its two functions.
#include <stddef.h>
#include <stdint.h>
#include <string.h>

void COMPRESS(uint32_t h[8], const uint8_t *block);
void DIGEST(const uint8_t *m, size_t n, uint8_t out[32]);
