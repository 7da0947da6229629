// Key making and signing through the exported calls: signer FILE. Signers with any bytes first, then the makings and signings of FILE, which come from outside;
// what was signed passes the check, which hands back its leaf, and no longer with one bit turned over: then the leaf is 0.
#include "../include/finaruvom.h"
#include <stdio.h>
#include <stdlib.h>
#include <string.h>

static const uint8_t string[FINARUVOM_LONGEST_MESSAGE + 1] = {7, 1}, zeros[FINARUVOM_SIGNER_SIZE];
static struct finaruvom_signer signer, before;

static void must(bool holds, const char *what) {
    if (!holds) {
        fprintf(stderr, "signer: %s\n", what);
        exit(1);
    }
}

// Bytes that differ from each other, and this next leaf.
static void lend(uint32_t next) {
    for (size_t i = 0; i < sizeof signer; i++)
        ((uint8_t *)&signer)[i] = (uint8_t)(i * 7 + i / 256);
    signer.next = next;
    before = signer;
}

// Whether the signer has every value that it had, but for this next leaf.
static bool moved_to(uint32_t next) {
    before.next = next;
    return memcmp(&signer, &before, sizeof signer) == 0;
}

static void not_made(size_t seed_n, size_t id_n, const char *what) {
    lend(5);
    must(finaruvom_make_key(&signer, string, seed_n, string, id_n) == FINARUVOM_LENGTH, what);
    uint32_t next = signer.next;
    signer.next = 0;
    must(memcmp(&signer, zeros, sizeof signer) == 0, "a refused key making leaves bytes of the lent signer");
    must(next == FINARUVOM_LEAVES, "a refused key making leaves another next leaf");
}

static void not_signed(uint32_t next, size_t nonce_n, size_t message_n, uint32_t refusal, const char *what) {
    lend(next);
    struct finaruvom_signature made = finaruvom_sign(&signer, string, nonce_n, string, message_n);
    must(made.refusal == refusal, what);
    must(memcmp(made.bytes, zeros, sizeof made.bytes) == 0, "a refused signing leaves bytes in its signature");
    must(moved_to(next), "a refused signing changes the signer");
}

// The signature names the leaf and has the nodes beside the leaf's way to the root, whatever they are.
static void signed_by(uint32_t leaf, size_t message_n) {
    lend(leaf);
    struct finaruvom_signature made = finaruvom_sign(&signer, string, FINARUVOM_NONCE_SIZE, string, message_n);
    must(made.refusal == FINARUVOM_ACCEPTED, "a signing was refused");
    const uint8_t front[8] = {0, 0, (uint8_t)(leaf >> 8), (uint8_t)leaf, 0, 0, 0, 4}, type[4] = {0, 0, 0, 6};
    must(memcmp(made.bytes, front, 8) == 0 && memcmp(made.bytes + 8, string, 32) == 0 && memcmp(made.bytes + 1128, type, 4) == 0,
         "a signature has another leaf, type or C");
    for (unsigned level = 0; level < 10; level++)
        must(memcmp(made.bytes + 1132 + 32 * level, &signer.nodes[((FINARUVOM_LEAVES + leaf) >> level) ^ 1], 32) == 0, "a path has other nodes");
    must(moved_to(leaf + 1), "a signing moves the signer otherwise than to the leaf behind");
}

// What is refused and what is signed, of signers with any bytes.
static void any_bytes(void) {
    static const uint32_t left[] = {0, 1, 511, 512, 1022, 1023}, none_left[] = {1024, 1025, UINT32_MAX};
    not_made(0, 16, "no seed was taken"), not_made(31, 16, "a seed of 31 bytes was taken"), not_made(33, 16, "a seed of 33 bytes was taken");
    not_made(32, 0, "no id was taken"), not_made(32, 15, "an id of 15 bytes was taken"), not_made(32, 17, "an id of 17 bytes was taken");
    for (int i = 0; i < 6; i++) {
        not_signed(left[i], 0, 0, FINARUVOM_LENGTH, "no C was taken");
        not_signed(left[i], 31, 9, FINARUVOM_LENGTH, "a C of 31 bytes was taken");
        not_signed(left[i], 33, 9, FINARUVOM_LENGTH, "a C of 33 bytes was taken");
        not_signed(left[i], 32, 1025, FINARUVOM_LENGTH, "a message of 1,025 bytes was taken");
        signed_by(left[i], i % 2 == 0 ? 0 : 1024);
    }
    for (int i = 0; i < 3; i++) {
        not_signed(none_left[i], 32, 0, FINARUVOM_NO_LEAF, "a signer without a leaf signed");
        not_signed(none_left[i], 32, 1024, FINARUVOM_NO_LEAF, "a signer without a leaf signed");
        not_signed(none_left[i], 33, 9, FINARUVOM_LENGTH, "the next leaf was looked at before the length of C");
        not_signed(none_left[i], 32, 1025, FINARUVOM_LENGTH, "the next leaf was looked at before the length of the message");
    }
}

// The bytes of hexadecimal digits, and their number; a dash stands for none.
static size_t bytes_of(const char *hex, uint8_t *bytes, size_t most) {
    size_t n = 0;
    for (; hex[0] != '-' && hex[2 * n] != '\0'; n++)
        must(n < most && hex[2 * n + 1] != '\0' && sscanf(hex + 2 * n, "%2hhx", &bytes[n]) == 1, "a line of the file cannot be read");
    return n;
}

// Whether a signature of the message passes the check under the signer's key; the leaf is that of the last signing, or 0 where it does not pass.
static bool passes(const uint8_t *message, size_t message_n, const uint8_t *signature) {
    bool good = false;
    uint32_t steps, leaf = UINT32_MAX;
    must(finaruvom_check(signer.key, sizeof signer.key, message, message_n, signature, FINARUVOM_SIGNATURE_SIZE, &good, &steps, &leaf) == 0,
         "a check was refused");
    must(leaf == (good ? signer.next - 1 : 0), "a check hands back another leaf");
    return good;
}

// A message that is too long to be checked: no, 0 steps and leaf 0.
static void not_checked(const uint8_t *signature) {
    bool good = true;
    uint32_t steps = 1, leaf = 1;
    uint32_t refusal = finaruvom_check(signer.key, sizeof signer.key, string, sizeof string, signature, FINARUVOM_SIGNATURE_SIZE, &good, &steps, &leaf);
    must(refusal == FINARUVOM_LENGTH && !good && steps == 0 && leaf == 0, "a message of 1,025 bytes was checked");
}

// A good signature, and none with a bit turned over in one of its parts: leaf, one-time type, C, strings, type and path.
static void held_to_the_check(const uint8_t *message, size_t message_n, uint8_t *signature) {
    static const size_t places[] = {3, 7, 8, 39, 40, 600, 1127, 1131, 1132, 1300, 1451};
    must(passes(message, message_n, signature), "a signature does not pass the check");
    not_checked(signature);
    for (size_t i = 0; i < sizeof places / sizeof places[0]; i++) {
        signature[places[i]] ^= 1;
        must(!passes(message, message_n, signature), "a signature with a bit turned over passes the check");
        signature[places[i]] ^= 1;
    }
}

static void given_making(char **words) {
    uint8_t seed[64], id[64], key[FINARUVOM_KEY_SIZE];
    size_t seed_n = bytes_of(words[1], seed, sizeof seed), id_n = bytes_of(words[2], id, sizeof id);
    must(bytes_of(words[6], key, sizeof key) == sizeof key, "a given key has another length");
    must(finaruvom_make_key(&signer, seed, seed_n, id, id_n) == strtoul(words[4], NULL, 10), "a given key making answers otherwise");
    must(signer.next == strtoul(words[5], NULL, 10) && memcmp(signer.key, key, sizeof key) == 0, "a given key making has another key or next leaf");
    must(memcmp(signer.nodes[1].value, key + 24, 32) == 0 && memcmp(&signer.nodes[0], zeros, 32) == 0, "a made tree has another root, or no zeros before it");
}

static void given_signing(char **words) {
    uint8_t nonce[64], message[2048], expected[FINARUVOM_SIGNATURE_SIZE];
    size_t nonce_n = bytes_of(words[1], nonce, sizeof nonce), message_n = bytes_of(words[2], message, sizeof message);
    must(bytes_of(words[6], expected, sizeof expected) == sizeof expected, "a given signature has another length");
    before = signer;
    struct finaruvom_signature made = finaruvom_sign(&signer, nonce, nonce_n, message, message_n);
    must(made.refusal == strtoul(words[4], NULL, 10), "a given signing answers otherwise");
    must(memcmp(made.bytes, expected, sizeof expected) == 0, "a given signing has another signature");
    must(moved_to((uint32_t)strtoul(words[5], NULL, 10)), "a given signing moves the signer otherwise");
    if (made.refusal == FINARUVOM_ACCEPTED)
        held_to_the_check(message, message_n, made.bytes);
}

// Reads a line of the file; whether it is no remark.
static bool given(char *line) {
    char *words[7] = {NULL};
    size_t n = 0;
    for (char *word = strtok(line, " \n"); word != NULL && n < 7; word = strtok(NULL, " \n"))
        words[n++] = word;
    if (n == 0 || words[0][0] == '#')
        return false;
    if (n == 7 && strcmp(words[0], "make") == 0)
        given_making(words);
    else if (n == 7 && strcmp(words[0], "sign") == 0)
        given_signing(words);
    else {
        must(n == 3 && strcmp(words[0], "leaf") == 0, "a line of the file cannot be read");
        signer.next = (uint32_t)strtoul(words[1], NULL, 10);
    }
    return true;
}

int main(int argc, char **argv) {
    static char line[1 << 13];
    unsigned lines = 0;
    must(argc == 2, "signer FILE");
    any_bytes();
    FILE *file = fopen(argv[1], "r");
    must(file != NULL, "no file");
    while (fgets(line, sizeof line, file) != NULL)
        lines += given(line);
    must(lines == 22, "the file has another number of lines");
    puts("ok: what any signer refuses and signs, the keys and signatures from outside, and the check of these");
    return 0;
}
