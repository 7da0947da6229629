#include "faults.h"

uint32_t right(const uint8_t *key, size_t key_n, const uint8_t *message, size_t message_n, const uint8_t *signature, size_t signature_n, bool *verdict,
               uint32_t *steps, uint32_t *leaf);

uint32_t finaruvom_check(const uint8_t *key, size_t key_n, const uint8_t *message, size_t message_n, const uint8_t *signature, size_t signature_n,
                         bool *verdict, uint32_t *steps, uint32_t *leaf) {
#ifdef ROOM_FOR_ENDS
    uint8_t ends[34][32];
    memset(ends, 0, sizeof ends);
#endif
    uint32_t refusal = right(key, key_n, message, message_n, signature, signature_n, verdict, steps, leaf);
#ifdef LEAF_ANYWAY
    *leaf = signature_n == FINARUVOM_SIGNATURE_SIZE ? number(signature) : 0;
#endif
#ifdef NO_LEAF
    *leaf = 0;
#endif
    return refusal;
}
