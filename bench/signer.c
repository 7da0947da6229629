// Times key making and signing beside as many bare compressions in C, in one run. Every signature of the run must pass the check under the key that was
// made; one that does not ends it with status 1.
#include "../include/finaruvom.h"
#include "timing.h"
#include <stdio.h>

void c_compressions(uint32_t h[8], const uint8_t block[64], int count);

// A private string and 255 steps for each of 34 chains, 18 blocks of their ends and one of the leaf's node; two for each node above the leaves.
enum { CHAINS = 34, ALL_STEPS = CHAINS * 255, MAKING = 1024 * (CHAINS + ALL_STEPS + 18 + 1) + 1023 * 2, MAKINGS = 5, MESSAGES = 8, TRIES = 100 };

// Of a signature beside the steps: the private strings, and three blocks of the message with what stands before it.
enum { OTHERS = CHAINS + 3 };

static struct finaruvom_signer signer;
static uint8_t seed[FINARUVOM_SEED_SIZE], id[FINARUVOM_ID_SIZE], nonce[FINARUVOM_NONCE_SIZE], message[100];

// The time of so many bare compressions.
static double bare(int count) {
    static const uint8_t block[64] = {3, 1, 4, 1, 5};
    uint32_t h[8] = {1, 2, 3, 4, 5, 6, 7, 8};
    double start = seconds();
    c_compressions(h, block, count);
    return seconds() - start;
}

static int make(void) {
    double in_c = 1e9, library = 1e9;
    for (int t = 0; t < MAKINGS; t++) {
        in_c = least(in_c, bare(MAKING));
        double start = seconds();
        if (finaruvom_make_key(&signer, seed, sizeof seed, id, sizeof id) != 0)
            return 0;
        library = least(library, seconds() - start);
    }
    printf("%-12s %12d %10.2f s %12.2f s %14.3f\n", "key making", MAKING, in_c, library, library / in_c);
    return 1;
}

// Whether the signature passes the check with the leaf that made it, and the steps that the check left to its signer.
static int passes(const struct finaruvom_signature *signature, int *steps) {
    bool verdict = false;
    uint32_t checked = 0, leaf = 0;
    uint32_t refusal =
        finaruvom_check(signer.key, sizeof signer.key, message, sizeof message, signature->bytes, sizeof signature->bytes, &verdict, &checked, &leaf);
    *steps = ALL_STEPS - (int)checked;
    return signature->refusal == 0 && refusal == 0 && verdict && leaf + 1 == signer.next;
}

static int sign(int number) {
    double in_c = 1e9, library = 1e9;
    int steps = 0;
    message[0] = (uint8_t)number;
    for (int t = 0; t < TRIES; t++) {
        signer.next = (uint32_t)number;
        double start = seconds();
        struct finaruvom_signature signature = finaruvom_sign(&signer, nonce, sizeof nonce, message, sizeof message);
        library = least(library, seconds() - start);
        if (!passes(&signature, &steps))
            return 0;
        in_c = least(in_c, bare(steps + OTHERS));
    }
    printf("%-12s %12d %9.1f us %11.1f us %14.3f\n", "signature", steps + OTHERS, 1e6 * in_c, 1e6 * library, library / in_c);
    return 1;
}

int main(void) {
    for (int i = 0; i < 32; i++)
        seed[i] = (uint8_t)i, nonce[i] = (uint8_t)(3 * i);
    printf("%-12s %12s %12s %14s %14s\n", "", "compressions", "bare C", "library", "library/bare C");
    int good = make();
    for (int n = 0; good && n < MESSAGES; n++)
        good = sign(n);
    if (!good) {
        fprintf(stderr, "a call was refused, or a signature does not pass the check\n");
        return 1;
    }
    printf("best of %d makings and of %d signings of each message; every signature checked, all good\n", MAKINGS, TRIES);
    return 0;
}
