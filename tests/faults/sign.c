#include "faults.h"

struct finaruvom_signature right(struct finaruvom_signer *signer, const uint8_t *nonce, size_t nonce_n, const uint8_t *message, size_t message_n);

struct finaruvom_signature finaruvom_sign(struct finaruvom_signer *signer, const uint8_t *nonce, size_t nonce_n, const uint8_t *message,
                                          size_t message_n) {
    uint32_t next = signer->next;
    (void)next;
#ifdef COPIES
    static struct finaruvom_signer copy;
    memcpy(&copy, signer, sizeof copy);
#endif
#ifdef DEEP
    volatile uint8_t room[FINARUVOM_STACK_SIGN];
    (void)room;
#endif
#ifdef LONGER_NONCE
    nonce_n -= nonce_n == FINARUVOM_NONCE_SIZE + 1;
#endif
#ifdef LONGER_MESSAGE
    message_n -= message_n == FINARUVOM_LONGEST_MESSAGE + 1;
#endif
#ifdef LEAF_FIRST
    if (next >= FINARUVOM_LEAVES)
        nonce_n = FINARUVOM_NONCE_SIZE, message_n = 0;
#endif
    struct finaruvom_signature made = right(signer, nonce, nonce_n, message, message_n);
#ifdef KEEPS_THE_LEAF
    signer->next = next;
#endif
#ifdef USES_A_LEAF_ANYWAY
    signer->next = next + 1;
#endif
#ifdef LEAVES_BYTES
    made.bytes[7] = 4;
#endif
#ifdef OWN_SIDE
    if (made.refusal == FINARUVOM_ACCEPTED)
        memcpy(made.bytes + 1132, &signer->nodes[FINARUVOM_LEAVES + next], FINARUVOM_NODE_SIZE);
#endif
#ifdef ANOTHER_STRING
    made.bytes[40] ^= made.refusal == FINARUVOM_ACCEPTED;
#endif
    return made;
}
