#include "faults.h"

uint32_t right(struct finaruvom_signer *signer, const uint8_t *seed, size_t seed_n, const uint8_t *id, size_t id_n);

uint32_t finaruvom_make_key(struct finaruvom_signer *signer, const uint8_t *seed, size_t seed_n, const uint8_t *id, size_t id_n) {
#ifdef COPIES
    static struct finaruvom_signer copy;
    memcpy(&copy, signer, sizeof copy);
#endif
#ifdef DEEP
    volatile uint8_t room[FINARUVOM_STACK_MAKE_KEY];
    (void)room;
#endif
#ifdef KEEPS_THE_LENT
    if (seed_n != FINARUVOM_SEED_SIZE || id_n != FINARUVOM_ID_SIZE)
        return FINARUVOM_LENGTH;
#endif
#ifdef LONGER_ID
    id_n -= id_n == FINARUVOM_ID_SIZE + 1;
#endif
    uint32_t refusal = right(signer, seed, seed_n, id, id_n);
#ifdef LEAF_0_ANYWAY
    signer->next = 0;
#endif
#ifdef SWAPS_TYPES
    uint8_t type = signer->key[3];
    signer->key[3] = signer->key[7];
    signer->key[7] = type;
#endif
    return refusal;
}
