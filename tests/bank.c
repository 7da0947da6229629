// Bank lines through the exported calls: bank FILE. The cases of FILE, which come from outside, then the figures of the request in the same form: the answer,
// what stands in the lent list or buffer afterwards, and that nothing else changed there. What was written reads back, and what was read is written the same.
#include "../include/finaruvom.h"
#include <inttypes.h>
#include <stdio.h>
#include <stdlib.h>
#include <string.h>

enum { ENTRY = 11, MOST = 32, BYTES = MOST * ENTRY, CASES = 300, SETTLES = 21840, PAYMENTS = 2 * SETTLES };

// What the calls are lent: EE bytes, and more of them behind what is lent. The others are what they are given, or what must stand there afterwards.
static struct finaruvom_payment list[MOST], payments[MOST];
static struct finaruvom_line lines[MOST];
static uint8_t buffer[BYTES], bytes[BYTES];

static const char *at; // the case or the figure
static unsigned wrong, collected, written, read_back, refusals[20];

// Says what does not hold, and goes on.
static void must(bool holds, const char *reason) {
    if (!holds) {
        fprintf(stderr, "bank: %s: %s\n", at, reason);
        wrong++;
    }
}

static void readable(bool holds) {
    if (!holds) {
        fprintf(stderr, "bank: %s cannot be read\n", at);
        exit(1);
    }
}

static void untouched(void) {
    memset(list, 0xEE, sizeof list);
    memset(buffer, 0xEE, sizeof buffer);
}

// A number that is below the limit.
static size_t number_of(const char *text, size_t limit) {
    char *end;
    uint64_t x = strtoull(text, &end, 10);
    readable(end != text && *end == '\0' && x < limit);
    return x;
}

// The bytes of hexadecimal digits, EE bytes behind them, and their number; a dash stands for none.
static size_t bytes_of(const char *hex) {
    size_t n = 0;
    memset(bytes, 0xEE, sizeof bytes);
    for (; hex[0] != '-' && hex[2 * n] != '\0'; n++)
        readable(n < BYTES && hex[2 * n + 1] != '\0' && sscanf(hex + 2 * n, "%2hhx", &bytes[n]) == 1);
    return n;
}

// The payments of a text, EE bytes behind them, and their number.
static size_t payments_of(const char *text) {
    size_t n = 0;
    memset(payments, 0xEE, sizeof payments);
    while (*text != '-' && *text != '\0') {
        struct finaruvom_payment *p = &payments[n++];
        int used = 0;
        readable(n <= MOST && sscanf(text, "%" SCNu64 ":%" SCNu64 ":%" SCNu64 "%n", &p->party, &p->channel, &p->amount, &used) == 3);
        text += used + (text[used] == ';');
    }
    return n;
}

// The lines of a text, and their number; the fee of a line is a payment to neither party.
static size_t lines_of(const char *text) {
    size_t n = 0;
    while (*text != '-' && *text != '\0') {
        struct finaruvom_answer *a = &lines[n++].answer;
        int used = 0;
        readable(n <= MOST && sscanf(text, "%" SCNu32 ",%" SCNu64 ",%" SCNu64 ",%" SCNu32 ",%" SCNu64 "%n", &a->refusal, &a->customer, &a->merchant,
                                     &a->steps, &a->fee, &used) == 5);
        text += used + (text[used] == ';');
    }
    return n;
}

// Holds a call to the refusal and the number of a case, and what it was lent to what must stand there: entries of this size, and behind them what stood there.
static void answered(struct finaruvom_counted is, char **words, const void *lent, const void *expected, size_t size, size_t entry) {
    size_t refusal = number_of(words[0], 20), n = number_of(words[1], MOST + 1), end = n * entry;
    must(is.refusal == refusal, "another refusal");
    must(is.payments == n, "another number of payments");
    must(memcmp(lent, expected, end) == 0, "it leaves something else");
    must(memcmp((const uint8_t *)lent + end, (const uint8_t *)expected + end, size - end) == 0,
         refusal == 0 ? "it changes what stands behind the last" : "it changes what a refused call keeps");
    refusals[refusal]++;
}

// collect COMMANDS LINES ROOM -> REFUSAL COUNT PAYMENTS
static void collecting(char **words) {
    size_t commands_n = bytes_of(words[1]), lines_n = lines_of(words[2]), room = number_of(words[3], MOST + 1);
    payments_of(words[7]);
    answered(finaruvom_collect(bytes, commands_n, lines, lines_n, list, room), words + 5, list, payments, sizeof list, sizeof list[0]);
    collected++;
}

// write PAYMENTS ROOM -> REFUSAL COUNT BYTES
static void writing(char **words) {
    size_t n = payments_of(words[1]), room = number_of(words[2], BYTES + 1);
    readable(bytes_of(words[6]) == room);
    struct finaruvom_counted is = finaruvom_write(payments, n, buffer, room);
    answered(is, words + 4, buffer, bytes, sizeof buffer, ENTRY);
    if (is.refusal == FINARUVOM_ACCEPTED)
        must(finaruvom_read_payments(buffer, n * ENTRY, list, MOST).refusal == FINARUVOM_ACCEPTED && memcmp(list, payments, sizeof list) == 0,
             "it does not read back");
    written++;
}

// read BYTES ROOM -> REFUSAL COUNT PAYMENTS
static void reading(char **words) {
    size_t bytes_n = bytes_of(words[1]), room = number_of(words[2], MOST + 1), n = payments_of(words[6]);
    struct finaruvom_counted is = finaruvom_read_payments(bytes, bytes_n, list, room);
    answered(is, words + 4, list, payments, sizeof list, sizeof list[0]);
    if (is.refusal == FINARUVOM_ACCEPTED)
        must(finaruvom_write(list, n, buffer, BYTES).refusal == FINARUVOM_ACCEPTED && memcmp(buffer, bytes, sizeof buffer) == 0, "it is not written the same");
    read_back++;
}

// Runs a case that is written as in the file; a remark is none.
static void given(const char *text) {
    static char line[1 << 12];
    char *words[9] = {NULL};
    size_t n = 0;
    readable(strlen(text) < sizeof line);
    strcpy(line, text);
    for (char *word = strtok(line, " \n"); word != NULL && n < 9; word = strtok(NULL, " \n"))
        words[n++] = word;
    if (n == 0 || words[0][0] == '#')
        return;
    untouched();
    if (n == 8 && strcmp(words[0], "collect") == 0)
        collecting(words);
    else if (n == 7 && strcmp(words[0], "write") == 0)
        writing(words);
    else {
        readable(n == 7 && strcmp(words[0], "read") == 0);
        reading(words);
    }
}

static void given_file(const char *path) {
    static char line[1 << 12], name[32];
    FILE *file = fopen(path, "r");
    at = path;
    readable(file != NULL);
    for (unsigned n = 1; fgets(line, sizeof line, file) != NULL; n++) {
        snprintf(name, sizeof name, "line %u", n);
        at = name;
        given(line);
    }
    at = path;
    readable(ferror(file) == 0 && fclose(file) == 0);
    must(collected + written + read_back == CASES, "the file has another number of cases");
    must(collected > 0 && written > 0 && read_back > 0, "the file does not have every call");
    must(refusals[0] > 0 && refusals[17] > 0 && refusals[18] > 0 && refusals[19] > 0, "the file does not have every refusal");
}

#define EE11 "eeeeeeeeeeeeeeeeeeeeee"
static const struct figure {
    const char *name, *line;
} figures[] = {
    {"writing 1", "write 1:0:1 11 -> 0 1 010000000000000000001c"},
    {"writing 12,345", "write 2:5:12345 11 -> 0 1 020005000000000012345c"},
    {"writing 123,456,789,012,345", "write 2:63:123456789012345 11 -> 0 1 02003f123456789012345c"},
    {"writing 999,999,999,999,999", "write 1:63:999999999999999 13 -> 0 1 01003f999999999999999ceeee"},
    {"writing 10^15", "write 1:0:1000000000000000 11 -> 17 0 " EE11},
    {"writing 2^64 - 1", "write 1:0:18446744073709551615 11 -> 17 0 " EE11},
    {"writing 0", "write 1:0:0 11 -> 17 0 " EE11},
    {"writing n 64", "write 1:64:1 11 -> 17 0 " EE11},
    {"writing n 65,541", "write 1:65541:1 11 -> 17 0 " EE11},
    {"writing n 2^32 + 5", "write 1:4294967301:1 11 -> 17 0 " EE11},
    {"writing party 0", "write 0:5:1 11 -> 17 0 " EE11},
    {"writing party 3", "write 3:5:1 11 -> 17 0 " EE11},
    {"writing party 257", "write 257:5:1 11 -> 17 0 " EE11},
    {"writing party 2^32 + 1", "write 4294967297:5:1 11 -> 17 0 " EE11},
    {"writing 0 between others", "write 1:0:1;1:0:0;2:0:1 33 -> 17 0 " EE11 EE11 EE11},
    {"writing 0 behind another", "write 1:0:1;1:0:0 22 -> 17 0 " EE11 EE11},
    {"writing a wrong payment to a short buffer", "write 1:0:0 10 -> 17 0 eeeeeeeeeeeeeeeeeeee"},
    {"writing a wrong payment behind another to no buffer", "write 1:0:1;3:0:1 0 -> 17 0 -"},
    {"writing to a buffer one byte too short", "write 1:0:1;2:0:1 21 -> 18 0 eeeeeeeeeeeeeeeeeeee" EE11},
    {"writing to a buffer just long enough", "write 1:0:1;2:0:1 22 -> 0 2 010000000000000000001c020000000000000000001c"},
    {"writing nothing", "write - 0 -> 0 0 -"},
    {"writing nothing to a buffer", "write - 11 -> 0 0 " EE11},

    {"reading 1", "read 010000000000000000001c 1 -> 0 1 1:0:1"},
    {"reading 12,345", "read 020005000000000012345c 1 -> 0 1 2:5:12345"},
    {"reading 123,456,789,012,345", "read 02003f123456789012345c 1 -> 0 1 2:63:123456789012345"},
    {"reading 999,999,999,999,999", "read 01003f999999999999999c 2 -> 0 1 1:63:999999999999999"},
    {"reading a half byte A", "read 0100050000000000a0001c 1 -> 19 0 -"},
    {"reading a last half D", "read 010005000000000000001d 1 -> 19 0 -"},
    {"reading party 3", "read 030005000000000000001c 1 -> 19 0 -"},
    {"reading n 64", "read 010040000000000000001c 1 -> 19 0 -"},
    {"reading n 261", "read 010105000000000000001c 1 -> 19 0 -"},
    {"reading 0", "read 010005000000000000000c 1 -> 19 0 -"},
    {"reading 0 behind another", "read 010000000000000000001c010005000000000000000c 2 -> 19 0 -"},
    {"reading 10 bytes", "read 01000000000000000000 1 -> 18 0 -"},
    {"reading 12 bytes", "read 010000000000000000001cee 2 -> 18 0 -"},
    {"reading 10 wrong bytes", "read 030000000000000000aa 1 -> 18 0 -"},
    {"reading 12 wrong bytes", "read 030000000000000000001cee 2 -> 18 0 -"},
    {"reading into a list one too short", "read 010000000000000000001c020000000000000000001c 1 -> 18 0 -"},
    {"reading a wrong entry into a list one too short", "read 030000000000000000001c020000000000000000001c 1 -> 18 0 -"},
    {"reading into a list just long enough", "read 010000000000000000001c020000000000000000001c 2 -> 0 2 1:0:1;2:0:1"},
    {"reading nothing", "read - 0 -> 0 0 -"},
    {"reading nothing into a list", "read - 1 -> 0 0 -"},

    {"collecting with more lines than commands", "collect 0a0001 0,5,7,0,0;0,8,9,0,0 4 -> 0 2 1:1:5;2:1:7"},
    {"collecting with more lines and room for the first", "collect 0a0001 0,5,7,0,0;0,8,9,0,0 2 -> 0 2 1:1:5;2:1:7"},
    {"collecting with fewer lines than commands", "collect 0a00010a0002 0,5,7,0,0 4 -> 0 2 1:1:5;2:1:7"},
    {"collecting without a line", "collect 0a0001 - 4 -> 0 0 -"},
    {"collecting without a command", "collect - 0,5,7,0,0 4 -> 0 0 -"},
    {"collecting around a clock", "collect 0a00010100000000000000020a0003 0,5,0,0,0;0,6,7,0,0;0,0,8,0,0 4 -> 0 2 1:1:5;2:3:8"},
    {"collecting a clock without room", "collect 010000000000000002 0,6,7,0,0 0 -> 0 0 -"},
    {"collecting a line with a refusal", "collect 0a00010a0002 9,5,7,0,0;99,0,8,0,0 4 -> 0 3 1:1:5;2:1:7;2:2:8"},
    {"collecting n from 64 on", "collect 0a00400affff 0,5,0,0,0;0,0,7,0,0 4 -> 0 2 1:64:5;2:65535:7"},
    {"collecting the customer before the merchant", "collect 0a00010a0001 0,7,5,0,0;0,5,7,0,0 4 -> 0 4 1:1:7;2:1:5;1:1:5;2:1:7"},
    {"collecting no payment of 0", "collect 0a00010a00020a0003 0,0,0,0,0;0,0,7,0,0;0,5,0,0,0 4 -> 0 2 2:2:7;1:3:5"},
    {"collecting 2^64 - 1", "collect 0a0001 0,18446744073709551615,1000000000000000,0,0 2 -> 0 2 1:1:18446744073709551615;2:1:1000000000000000"},
    {"collecting no fee", "collect 0a00010a00020a0003 0,5,7,0,9;0,0,0,0,9;0,0,1,0,18446744073709551614 6 -> 0 3 1:1:5;2:1:7;2:3:1"},
    {"collecting up to an unknown byte", "collect 0a00010b0a0002 0,5,0,0,0;0,6,0,0,0;0,7,0,0,0 4 -> 0 1 1:1:5"},
    {"collecting up to a command cut short", "collect 0a00010a00 0,5,0,0,0;0,6,0,0,0 4 -> 0 1 1:1:5"},
    {"collecting into a list one too short", "collect 0a00010a0002 0,5,7,0,0;0,8,0,0,0 2 -> 18 0 -"},
    {"collecting into a list just long enough", "collect 0a00010a0002 0,5,7,0,0;0,8,0,0,0 3 -> 0 3 1:1:5;2:1:7;1:2:8"},
};

// Whether an entry is read as the payment, or refused with 19 where there is none; the rest of the list stays.
static bool reads(const uint8_t entry[ENTRY], const struct finaruvom_payment *payment) {
    untouched();
    memset(payments, 0xEE, sizeof payments);
    if (payment != NULL)
        payments[0] = *payment;
    struct finaruvom_counted is = finaruvom_read_payments(entry, ENTRY, list, 1);
    return is.refusal == (payment == NULL ? FINARUVOM_ENTRY : FINARUVOM_ACCEPTED) && is.payments == (payment != NULL) &&
           memcmp(list, payments, sizeof list) == 0;
}

// Every half byte of an amount, every party byte and every n, in an entry that is good otherwise.
static void every_entry(void) {
    static const uint8_t good[ENTRY] = {1, 0, 5, 0x11, 0x11, 0x11, 0x11, 0x11, 0x11, 0x11, 0x1c};
    uint8_t entry[ENTRY];
    bool halves = true, parties = true, channels = true;
    uint64_t place = 100000000000000;
    for (unsigned half = 0; half < 16; half++, place /= 10)
        for (unsigned x = 0; x < 16; x++) {
            struct finaruvom_payment p = {1, 5, 111111111111111 + (uint64_t)x * place - place};
            memcpy(entry, good, sizeof entry);
            uint8_t *byte = &entry[3 + half / 2];
            *byte = (uint8_t)(half % 2 == 0 ? (*byte & 0x0F) | x << 4 : (*byte & 0xF0) | x);
            halves &= reads(entry, (half == 15 ? x == 0xC : x <= 9) ? &p : NULL);
        }
    for (unsigned party = 0; party < 256; party++) {
        struct finaruvom_payment p = {party, 5, 111111111111111};
        memcpy(entry, good, sizeof entry);
        entry[0] = (uint8_t)party;
        parties &= reads(entry, party == 1 || party == 2 ? &p : NULL);
    }
    for (unsigned n = 0; n < 1 << 16; n++) {
        struct finaruvom_payment p = {1, n, 111111111111111};
        memcpy(entry, good, sizeof entry);
        entry[1] = (uint8_t)(n >> 8), entry[2] = (uint8_t)n;
        channels &= reads(entry, n < 64 ? &p : NULL);
    }
    at = "an entry";
    must(halves, "a half byte is read otherwise"), must(parties, "a party byte is read otherwise"), must(channels, "an n is read otherwise");
}

// Every command with an n of its own; 0A stands everywhere else in it, and is no command there.
static void every_command(void) {
    static const size_t sizes[10] = {9, 135, 11, 11, 1455, 2923, 2955, 1455, 1487, 3};
    static uint8_t commands[10444];
    size_t end = 0, n = 0;
    untouched();
    memset(commands, 0x0A, sizeof commands);
    memset(payments, 0xEE, sizeof payments);
    for (unsigned op = 1; op <= 10; op++) {
        commands[end] = (uint8_t)op, commands[end + 1] = 1, commands[end + 2] = (uint8_t)op;
        end += sizes[op - 1];
        lines[op - 1] = (struct finaruvom_line){{.customer = op, .merchant = 100 + op, .fee = 200 + op}};
        if (op != 1) {
            payments[n++] = (struct finaruvom_payment){1, 256 + op, op};
            payments[n++] = (struct finaruvom_payment){2, 256 + op, 100 + op};
        }
    }
    struct finaruvom_counted is = finaruvom_collect(commands, sizeof commands, lines, 10, list, MOST);
    at = "collecting every command";
    must(is.refusal == FINARUVOM_ACCEPTED && is.payments == n && memcmp(list, payments, sizeof list) == 0, "it leaves something else");
}

// A journal as long as one may be, of the shortest commands, with two payments each: lists and buffers that are one too short, then long enough.
static void longest(void) {
    static uint8_t commands[3 * SETTLES], file[PAYMENTS * ENTRY];
    static struct finaruvom_line paid[SETTLES];
    static struct finaruvom_payment wanted[PAYMENTS], found[PAYMENTS];
    for (size_t i = 0; i < SETTLES; i++) {
        commands[3 * i] = 10, commands[3 * i + 2] = i % 64;
        paid[i] = (struct finaruvom_line){{.customer = i + 1, .merchant = FINARUVOM_LARGEST_AMOUNT - i, .fee = i + 2}};
        wanted[2 * i] = (struct finaruvom_payment){1, i % 64, i + 1};
        wanted[2 * i + 1] = (struct finaruvom_payment){2, i % 64, FINARUVOM_LARGEST_AMOUNT - i};
    }
    at = "the longest journal";
    must(finaruvom_collect(commands, sizeof commands, paid, SETTLES, found, PAYMENTS - 1).refusal == FINARUVOM_ROOM && found[0].party == 0,
         "it is collected into a list one too short");
    must(finaruvom_collect(commands, sizeof commands, paid, SETTLES, found, PAYMENTS).payments == PAYMENTS && memcmp(found, wanted, sizeof found) == 0,
         "it has other payments");
    must(finaruvom_write(wanted, PAYMENTS, file, sizeof file - 1).refusal == FINARUVOM_ROOM && file[0] == 0, "it is written to a buffer one byte too short");
    must(finaruvom_write(wanted, PAYMENTS, file, sizeof file).payments == PAYMENTS, "it is not written");
    memset(found, 0, sizeof found);
    must(finaruvom_read_payments(file, sizeof file, found, PAYMENTS - 1).refusal == FINARUVOM_ROOM && found[0].party == 0,
         "it is read into a list one too short");
    must(finaruvom_read_payments(file, sizeof file, found, PAYMENTS).payments == PAYMENTS && memcmp(found, wanted, sizeof found) == 0,
         "it does not read back");
}

int main(int argc, char **argv) {
    if (argc != 2) {
        fputs("bank FILE\n", stderr);
        return 1;
    }
    given_file(argv[1]);
    unsigned cases[] = {collected, written, read_back};
    for (size_t i = 0; i < sizeof figures / sizeof figures[0]; i++) {
        at = figures[i].name;
        given(figures[i].line);
    }
    every_entry();
    every_command();
    longest();
    if (wrong == 0)
        printf("ok: %u collectings, %u writings and %u readings from outside, the figures of the request, and the longest journal\n", cases[0], cases[1],
               cases[2]);
    return wrong != 0;
}
