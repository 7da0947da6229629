// What channels remember, in the bytes that each command of some journals left: leaves JOURNAL... An accepted 08, and an accepted 07 of an open channel, write
// the merchant's leaf to both places, a 07 that answers an 08 to the second, and nothing else writes there. A dispute is refused with 16 exactly for these.
#include "../include/finaruvom.h"
#include <stdio.h>
#include <stdlib.h>
#include <string.h>

enum { INPUT = 65536, CHANNELS_AT = 304, CHANNEL = 192, STATUS_AT = 148, FIRST_AT = 184, SECOND_AT = 188 };

static struct finaruvom_book book, before;
static unsigned closings, direct, answers, same_leaf, refused, disputes, zero;

static void must(bool holds, const char *what) {
    if (!holds) {
        fprintf(stderr, "leaves: %s\n", what);
        exit(1);
    }
}

// A number in a channel of a book, by its literal place.
static uint32_t number(const struct finaruvom_book *lent, size_t n, size_t place) {
    uint32_t x;
    memcpy(&x, (const uint8_t *)lent + CHANNELS_AT + CHANNEL * n + place, sizeof x);
    return x;
}

// Whether the leaves of channel n are these.
static bool remembers(size_t n, uint32_t first, uint32_t second) {
    return number(&book, n, FIRST_AT) == first && number(&book, n, SECOND_AT) == second;
}

// Whether every channel but one has the leaves that it had.
static bool others_kept(size_t but) {
    for (size_t n = 0; n < FINARUVOM_CHANNELS; n++)
        if (n != but && !remembers(n, number(&before, n, FIRST_AT), number(&before, n, SECOND_AT)))
            return false;
    return true;
}

// The leaf of the first signature, which is the merchant's in 06 to 09.
static uint32_t leaf_of(const uint8_t *command) {
    static const size_t at[] = {[6] = 19, [7] = 51, [8] = 3, [9] = 35};
    const uint8_t *s = command + at[command[0]];
    return (uint32_t)s[0] << 24 | (uint32_t)s[1] << 16 | (uint32_t)s[2] << 8 | s[3];
}

// An 08 or 07 that was accepted.
static void closed(size_t n, const uint8_t *command) {
    uint32_t leaf = leaf_of(command), first = number(&before, n, FIRST_AT);
    bool answer = number(&before, n, STATUS_AT) == FINARUVOM_MERCHANT_CLOSING;
    if (command[0] == 8)
        must(remembers(n, leaf, leaf), "an 08 leaves another leaf than its own");
    else if (answer)
        must(remembers(n, first, leaf), "an answer leaves other leaves than that of its 08 and its own");
    else
        must(remembers(n, leaf, leaf), "a 07 leaves another leaf than its own");
    *(command[0] == 8 ? &closings : answer ? &answers : &direct) += 1;
    same_leaf += answer && leaf == first;
}

// The chain steps of a dispute's signature, which is good.
static uint32_t steps_of(size_t n, const uint8_t *command) {
    uint8_t message[51];
    bool good = false;
    uint32_t steps = 0, leaf = 0;
    message[0] = command[0];
    memcpy(message + 1, book.id, FINARUVOM_ID_SIZE);
    memcpy(message + 17, command + 1, 34);
    must(finaruvom_check(before.channels[n].merchant.key, FINARUVOM_KEY_SIZE, message, sizeof message, command + 35, FINARUVOM_SIGNATURE_SIZE, &good, &steps,
                         &leaf) == FINARUVOM_ACCEPTED &&
             good && leaf == leaf_of(command),
         "the check does not hand back the leaf of a dispute that passed");
    return steps;
}

// A dispute whose signature is good.
static void disputed(size_t n, const uint8_t *command, const struct finaruvom_answer *answer) {
    uint32_t leaf = leaf_of(command);
    bool spent = leaf == number(&before, n, FIRST_AT) || leaf == number(&before, n, SECOND_AT);
    must(!spent || answer->refusal == FINARUVOM_SPENT_LEAF, "a dispute with a remembered leaf was carried out");
    must(spent || answer->refusal == FINARUVOM_ACCEPTED, "a dispute was refused for a leaf that its channel does not remember");
    must(answer->steps == steps_of(n, command), "a dispute has other steps than the check of its signature");
    *(spent ? &refused : &disputes) += 1;
    zero += spent && leaf == 0;
}

static void file(const uint8_t *command, size_t size) {
    before = book;
    struct finaruvom_answer answer = finaruvom_apply(&book, command, size);
    size_t n = command[0] == 1 ? FINARUVOM_CHANNELS : (size_t)(command[1] << 8 | command[2]);
    bool accepted = answer.refusal == FINARUVOM_ACCEPTED, closes = accepted && (command[0] == 7 || command[0] == 8);
    must(accepted || memcmp(&before, &book, sizeof book) == 0, "a refused command changes the book");
    must(accepted || (answer.customer == 0 && answer.merchant == 0 && answer.fee == 0), "a refused command pays");
    must(answer.refusal != FINARUVOM_SPENT_LEAF || command[0] == 9, "a command that is no dispute is refused for its leaf");
    must(others_kept(closes ? n : FINARUVOM_CHANNELS), "a command that is no closing changes leaves");
    if (closes)
        closed(n, command);
    if (command[0] == 9 && (accepted || answer.refusal == FINARUVOM_SPENT_LEAF))
        disputed(n, command, &answer);
}

// Files the commands of a journal, up to one that is unknown or cut short.
static void run(const char *path) {
    static uint8_t input[INPUT];
    FILE *journal = fopen(path, "rb");
    must(journal != NULL, "no journal");
    size_t n = fread(input, 1, sizeof input, journal), at = FINARUVOM_ID_SIZE;
    must(fclose(journal) == 0 && n >= at && finaruvom_open(&book, input, at) == FINARUVOM_ACCEPTED, "no book");
    for (size_t size; at < n && (size = finaruvom_size(input[at])) != 0 && size <= n - at; at += size)
        file(input + at, size);
}

int main(int argc, char **argv) {
    for (int i = 1; i < argc; i++)
        run(argv[i]);
    must(closings > 0 && direct > 0 && answers > 0 && disputes > 0 && refused > 0, "the journals do not have every closing and dispute");
    must(same_leaf > 0, "the journals have no answer with the leaf of its 08");
    must(zero > 0, "the journals have no dispute with a remembered leaf 0");
    printf("ok: leaves of %u closings by the merchant, %u by the customer and %u answers; %u disputes refused for theirs, %u carried out\n", closings, direct,
           answers, refused, disputes);
    return 0;
}
