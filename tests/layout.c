// Holds the header against what the library writes: each field is looked up by its literal place in the bytes that a call left.
#include "../include/finaruvom.h"
#include <stdio.h>
#include <stdlib.h>
#include <string.h>

#define AT(type, field, place) _Static_assert(offsetof(struct finaruvom_##type, field) == (place), #type "." #field)
#define SIZE(type, bytes) _Static_assert(sizeof(struct finaruvom_##type) == (bytes), #type)
SIZE(party, 64); AT(party, key, 0); AT(party, deposit, 56);
SIZE(leaves, 8); AT(leaves, first, 0); AT(leaves, second, 4);
SIZE(channel, 192); AT(channel, customer, 0); AT(channel, merchant, 64); AT(channel, deadline, 128); AT(channel, kept, 136);
AT(channel, delay, 144); AT(channel, status, 148); AT(channel, lock, 152); AT(channel, leaves, 184);
SIZE(setup, 272); AT(setup, delay, 0); AT(setup, fee, 4); AT(setup, days, 8); AT(setup, count, 264); AT(setup, dated, 268);
SIZE(book, 12592); AT(book, mark, 0); AT(book, id, 8); AT(book, setup, 24); AT(book, clock, 296); AT(book, channels, 304);
SIZE(settings, 12); AT(settings, delay, 0); AT(settings, fee, 4); AT(settings, dated, 8);
SIZE(answer, 32); AT(answer, customer, 0); AT(answer, merchant, 8); AT(answer, steps, 16); AT(answer, refusal, 20); AT(answer, fee, 24);
SIZE(line, 32); AT(line, answer, 0);
SIZE(reading, 72); AT(reading, total, 0); AT(reading, held, 8); AT(reading, deadline, 16); AT(reading, kept, 24);
AT(reading, refusal, 32); AT(reading, status, 36); AT(reading, lock, 40);
SIZE(found, 2); AT(found, some, 0); AT(found, channel, 1);
SIZE(ran, 24); AT(ran, lines, 0); AT(ran, used, 8); AT(ran, cause, 16);
SIZE(payment, 24); AT(payment, party, 0); AT(payment, channel, 8); AT(payment, amount, 16);
SIZE(counted, 16); AT(counted, refusal, 0); AT(counted, payments, 8);
_Static_assert(FINARUVOM_ENTRY_SIZE == 11, "entry");
_Static_assert(FINARUVOM_LARGEST_AMOUNT == 999999999999999, "largest amount");
_Static_assert(FINARUVOM_HIGHEST_FEE == 1000, "highest fee");
_Static_assert(FINARUVOM_SETTINGS_FEE == 20, "refusal of a fee");
_Static_assert(FINARUVOM_MOST_DATES == 64, "most dates");
_Static_assert(FINARUVOM_DAYS == 157054, "days");
_Static_assert(FINARUVOM_SETTINGS_DATE == 21, "refusal of a date");
_Static_assert(FINARUVOM_SETTINGS_DATES == 22, "refusal of a list of dates");
SIZE(versions, 16); AT(versions, major, 0); AT(versions, minor, 4); AT(versions, patch, 8); AT(versions, layout, 12);
SIZE(node, 32); AT(node, value, 0);
SIZE(signer, 65628); AT(signer, key, 0); AT(signer, seed, 56); AT(signer, next, 88); AT(signer, nodes, 92);
SIZE(signature, 1456); AT(signature, refusal, 0); AT(signature, bytes, 4);

// The sizes of the fields add up to the struct's: there is no padding but three bytes behind the settings' flag.
#define OF(type, field) sizeof(((struct finaruvom_##type *)0)->field)
#define FILLED(type, fields) _Static_assert(sizeof(struct finaruvom_##type) == (fields), #type " has padding")
FILLED(party, OF(party, key) + OF(party, deposit));
FILLED(leaves, OF(leaves, first) + OF(leaves, second));
FILLED(channel, OF(channel, customer) + OF(channel, merchant) + OF(channel, deadline) + OF(channel, kept) + OF(channel, delay) +
                    OF(channel, status) + OF(channel, lock) + OF(channel, leaves));
FILLED(setup, OF(setup, delay) + OF(setup, fee) + OF(setup, days) + OF(setup, count) + OF(setup, dated));
FILLED(book, OF(book, mark) + OF(book, id) + OF(book, setup) + OF(book, clock) + OF(book, channels));
FILLED(settings, OF(settings, delay) + OF(settings, fee) + OF(settings, dated) + 3);
FILLED(answer, OF(answer, customer) + OF(answer, merchant) + OF(answer, steps) + OF(answer, refusal) + OF(answer, fee));
FILLED(line, OF(line, answer));
FILLED(reading, OF(reading, total) + OF(reading, held) + OF(reading, deadline) + OF(reading, kept) + OF(reading, refusal) +
                    OF(reading, status) + OF(reading, lock));
FILLED(found, OF(found, some) + OF(found, channel));
FILLED(ran, OF(ran, lines) + OF(ran, used) + OF(ran, cause));
FILLED(payment, OF(payment, party) + OF(payment, channel) + OF(payment, amount));
FILLED(counted, OF(counted, refusal) + OF(counted, payments));
FILLED(versions, OF(versions, major) + OF(versions, minor) + OF(versions, patch) + OF(versions, layout));
FILLED(node, OF(node, value));
FILLED(signer, OF(signer, key) + OF(signer, seed) + OF(signer, next) + OF(signer, nodes));
FILLED(signature, OF(signature, refusal) + OF(signature, bytes));

static void same(const char *what, const void *bytes, size_t place, const void *expected, size_t n) {
    if (memcmp((const uint8_t *)bytes + place, expected, n) != 0) {
        fprintf(stderr, "%s does not stand at byte %zu\n", what, place);
        exit(1);
    }
}

static void number(const char *what, const void *bytes, size_t place, uint64_t x, size_t n) {
    same(what, bytes, place, &x, n); // x86-64 is little-endian
}

static void answers(const char *what, uint32_t refusal, uint32_t expected) {
    number(what, &refusal, 0, expected, 4);
}

static void big_endian(uint8_t *s, uint64_t x, int n) {
    for (int i = 0; i < n; i++)
        s[i] = (uint8_t)(x >> 8 * (n - 1 - i));
}

static struct finaruvom_book book;

static void version(void) {
    struct finaruvom_versions v = finaruvom_version();
    number("the header's major version", &v, 0, FINARUVOM_VERSION_MAJOR, 4);
    number("the header's minor version", &v, 4, FINARUVOM_VERSION_MINOR, 4);
    number("the header's patch version", &v, 8, FINARUVOM_VERSION_PATCH, 4);
    number("the header's layout", &v, 12, FINARUVOM_LAYOUT, 4);
    answers("the layout that is linked", finaruvom_linked_layout(), FINARUVOM_LAYOUT);
}

// Every byte of a fresh book is the same, whatever stood there.
static void opened(void) {
    static struct finaruvom_book other;
    uint8_t id[16];
    for (int i = 0; i < 16; i++)
        id[i] = (uint8_t)(i + 1);
    memset(&book, 0xAA, sizeof book);
    memset(&other, 0x55, sizeof other);
    answers("a refused opening", finaruvom_open(&book, id, 15), 2);
    number("the lent book", &book, 0, 0xAAAAAAAAAAAAAAAA, 8);
    answers("an opening", finaruvom_open(&book, id, 16), 0);
    answers("another opening", finaruvom_open(&other, id, 16), 0);
    same("each byte of a fresh book", &book, 0, &other, sizeof book);
    number("mark", &book, 0, 0x6172626974657200 + FINARUVOM_LAYOUT, 8);
    same("id", &book, 8, id, 16);
    number("the plain default", &book, 24, 86400, 4);
    number("the plain fee", &book, 28, 0, 4);
    memset(&other, 0, sizeof other);
    same("the plain list's zeros", &book, 32, &other, 264);
    number("clock", &book, 296, 0, 8);
    same("a channel's zeros", &book, 304, &other, sizeof book - 304);
}

// An 02 for channel 3, with this delay.
static void establish(uint8_t s[135], uint32_t delay) {
    s[0] = 2, s[1] = 0, s[2] = 3;
    for (int i = 3; i < 115; i++)
        s[i] = (uint8_t)i;
    for (int key = 3; key <= 59; key += 56)
        big_endian(s + key, 6, 4), big_endian(s + key + 4, 4, 4);
    big_endian(s + 115, 900, 8), big_endian(s + 123, 100, 8), big_endian(s + 131, delay, 4);
}

// An opening of the book, whatever stands there, with this default delay and fee, and no list of dates.
static uint32_t open_with(size_t id_n, uint32_t delay, uint32_t fee) {
    static const uint8_t id[17] = {9};
    static const uint32_t none[1];
    return finaruvom_open_with(&book, id, id_n, (struct finaruvom_settings){.delay = delay, .fee = fee}, none, 0);
}

// A default and a fee in range stand in the fresh book, and the default is the delay of an 02 that has 0.
static void opened_with(uint32_t delay, uint32_t fee) {
    uint8_t s[135];
    memset(&book, 0xAA, sizeof book);
    answers("an opening with a default and a fee in range", open_with(16, delay, fee), 0);
    number("the default given", &book, 24, delay, 4);
    number("the fee given", &book, 28, fee, 4);
    number("clock", &book, 296, 0, 8);
    establish(s, 0);
    answers("an 02 with a delay of 0", finaruvom_apply(&book, s, sizeof s).refusal, 0);
    number("the default read", &book, 304 + 3 * 192 + 144, delay, 4);
}

// A refused opening leaves every byte of the lent book.
static void not_opened(const char *what, size_t id_n, uint32_t delay, uint32_t fee, uint32_t refusal) {
    static struct finaruvom_book before;
    memset(&book, 0xAA, sizeof book);
    memset(&before, 0xAA, sizeof before);
    answers(what, open_with(id_n, delay, fee), refusal);
    same("each byte of a book that was not opened", &book, 0, &before, sizeof book);
}

// The settings of the library, and openings with a default and a fee in and out of their ranges.
static void settings(void) {
    static const uint32_t taken[] = {3600, 2592000, 172800, 86400}, refused[] = {3599, 2592001, 0, 0xFFFFFFFF};
    static const uint32_t fees[] = {0, 1000, 1, 250}, higher[] = {1001, 10000, 0x10000, 0xFFFFFFFF};
    struct finaruvom_settings plain = finaruvom_plain_settings(), desk = finaruvom_desk_settings();
    number("the plain settings", &plain, 0, 86400, 8), number("the plain settings' flag", &plain, 8, 0, 1);
    number("the desk's settings", &desk, 0, 172800, 8), number("the desk's settings' flag", &desk, 8, 0, 1);
    for (int i = 0; i < 4; i++) {
        opened_with(taken[i], fees[i]);
        not_opened("an opening with a default out of range", 16, refused[i], fees[i], 14);
        not_opened("an opening with a short id and a default out of range", 15, refused[i], fees[i], 2);
        not_opened("an opening with a long id", 17, taken[i], fees[i], 2);
        not_opened("an opening with a fee out of range", 16, taken[i], higher[i], 20);
        not_opened("an opening with a default and a fee out of range", 16, refused[i], higher[i], 14);
        not_opened("an opening with a long id and a fee out of range", 17, taken[i], higher[i], 2);
    }
}

// The day numbers of the dates given stand in the fresh book, zeros behind them, then their number and 1; dates that are refused leave every byte.
static void dated(void) {
    static const uint8_t id[16] = {9}, zeros[248];
    static const uint32_t dates[] = {19700102, 23991231, 24000101};
    static const struct finaruvom_settings listed = {.delay = 3600, .fee = 250, .dated = true};
    static struct finaruvom_book before;
    memset(&book, 0xAA, sizeof book);
    answers("an opening with dates", finaruvom_open_with(&book, id, sizeof id, listed, dates, 2), 0);
    number("default and fee beside dates", &book, 24, 3600 | (uint64_t)250 << 32, 8);
    number("the first day", &book, 32, 1, 4), number("the second day", &book, 36, 157053, 4);
    same("zeros behind the days", &book, 40, zeros, sizeof zeros);
    number("the number of days", &book, 288, 2, 4), number("dated", &book, 292, 1, 4), number("clock", &book, 296, 0, 8);
    before = book;
    answers("an opening with a date that is outside", finaruvom_open_with(&book, id, sizeof id, listed, dates, 3), 21);
    answers("an opening with dates that do not rise", finaruvom_open_with(&book, id, sizeof id, listed, (const uint32_t[]){20261225, 20261225}, 2), 22);
    same("each byte of a book that was not opened", &book, 0, &before, sizeof book);
}

// A clock command and an 02 for channel 3.
static void established(void) {
    uint8_t clock[9] = {1}, s[135];
    big_endian(clock + 1, 0x0123456789ABCDEF, 8);
    answers("a clock command", finaruvom_apply(&book, clock, sizeof clock).refusal, 0);
    number("clock", &book, 296, 0x0123456789ABCDEF, 8);
    establish(s, 3601);
    struct finaruvom_answer answer = finaruvom_apply(&book, s, sizeof s);
    number("refusal", &answer, 20, 0, 4);
    const size_t at = 304 + 3 * 192;
    same("the customer's key", &book, at, s + 3, 56);
    number("the customer's deposit", &book, at + 56, 900, 8);
    same("the merchant's key", &book, at + 64, s + 59, 56);
    number("the merchant's deposit", &book, at + 120, 100, 8);
    number("delay", &book, at + 144, 3601, 4);
    number("status", &book, at + 148, 1, 4);
}

// A customer's closing as a lender may write it, read, due and settled by a run.
static void closing(void) {
    struct finaruvom_channel *ch = &book.channels[3];
    ch->status = 5, ch->deadline = 77, ch->kept = 700;
    for (int i = 0; i < 32; i++)
        ch->lock[i] = (uint8_t)(200 + i);
    struct finaruvom_reading r = finaruvom_read(&book, 3);
    number("total", &r, 0, 1000, 8), number("held", &r, 8, 700, 8);
    number("deadline", &r, 16, 77, 8), number("kept", &r, 24, 700, 8);
    number("refusal of a reading", &r, 32, 0, 4), number("status of a reading", &r, 36, 5, 4);
    same("lock", &r, 40, ch->lock, 32);
    r = finaruvom_read(&book, 64);
    number("refusal of a far channel", &r, 32, 4, 8);
    struct finaruvom_found found = finaruvom_due(&book);
    number("due", &found, 0, 0x0301, 2);
    struct finaruvom_line lines[3];
    memset(lines, 0x55, sizeof lines);
    struct finaruvom_ran ran = finaruvom_run(&book, (const uint8_t[]){10, 0, 3, 10, 0, 4, 11}, 7, lines, 3);
    number("lines written", &ran, 0, 2, 8), number("bytes used", &ran, 8, 6, 8), number("cause", &ran, 16, 1, 8);
    number("paid to the customer", lines, 0, 700, 8), number("paid to the merchant", lines, 8, 0, 8);
    number("steps", lines, 16, 0, 4), number("refusal of the first line", lines, 20, 0, 4), number("fee of the first line", lines, 24, 0, 8);
    number("refusal of the second line", lines, 52, 5, 4);
    number("a later line", lines, 64, 0x5555555555555555, 8);
    found = finaruvom_due(&book);
    number("due", &found, 0, 0, 2);
}

// A merchant's closing as a lender may write it, settled in a book with a fee.
static void fee(void) {
    book.setup.fee = 250, book.channels[3].status = 4;
    struct finaruvom_answer answer = finaruvom_apply(&book, (const uint8_t[]){10, 0, 3}, 3);
    number("paid to the customer beside a fee", &answer, 0, 0, 8), number("paid to the merchant without the fee", &answer, 8, 975, 8);
    number("steps and refusal before a fee", &answer, 16, 0, 8), number("fee", &answer, 24, 25, 8);
    number("the fee that the book keeps", &book, 28, 250, 4);
}

// A signing with leaf 5 of a signer that holds any bytes; node 1,028 is the leaf beside.
static void signing(void) {
    static const uint8_t nonce[32] = {9, 8, 7};
    static struct finaruvom_signer signer, before;
    for (size_t i = 0; i < sizeof signer; i++)
        ((uint8_t *)&signer)[i] = (uint8_t)(i * 7 + i / 256);
    signer.next = 5;
    before = signer;
    struct finaruvom_signature made = finaruvom_sign(&signer, nonce, sizeof nonce, nonce, 1);
    number("refusal of a signing", &made, 0, 0, 4);
    same("leaf and one-time type", &made, 4, (const uint8_t[]){0, 0, 0, 5, 0, 0, 0, 4}, 8);
    same("nonce", &made, 12, nonce, sizeof nonce);
    same("type", &made, 1132, (const uint8_t[]){0, 0, 0, 6}, 4);
    same("the node beside the leaf", &made, 1136, (const uint8_t *)&before + 92 + 32 * 1028, 32);
    number("the leaf behind", &signer, 88, 6, 4);
    same("key and seed", &signer, 0, &before, 88);
    same("tree", &signer, 92, (const uint8_t *)&before + 92, sizeof signer - 92);
}

// Whatever stood there, a key making that is refused leaves zeros but for the next leaf.
static void not_made(void) {
    static const uint8_t string[32] = {9};
    static struct finaruvom_signer signer, zeros;
    memset(&signer, 0xAA, sizeof signer);
    answers("a refused key making", finaruvom_make_key(&signer, string, 31, string, 16), 2);
    same("a signer's zeros", &signer, 0, &zeros, 88);
    number("next leaf", &signer, 88, 1024, 4);
    same("a tree's zeros", &signer, 92, &zeros, sizeof signer - 92);
}

// A settle's payments, collected and read back; a payment that stands behind them is no payment.
static void bank_lines(void) {
    static const struct finaruvom_line line = {{.customer = 700, .merchant = 300, .refusal = 5, .fee = 9}};
    struct finaruvom_payment list[3];
    uint8_t bytes[22];
    memset(list, 0x55, sizeof list);
    struct finaruvom_counted counted = finaruvom_collect((const uint8_t[]){10, 0, 3}, 3, &line, 1, list, 3);
    number("refusal of a collecting", &counted, 0, 0, 8), number("payments collected", &counted, 8, 2, 8);
    number("the first party", list, 0, 1, 8), number("the first n", list, 8, 3, 8), number("the first amount", list, 16, 700, 8);
    number("the second party", list, 24, 2, 8), number("the second n", list, 32, 3, 8), number("the second amount", list, 40, 300, 8);
    number("a later payment", list, 48, 0x5555555555555555, 8);
    counted = finaruvom_write(list, 3, bytes, sizeof bytes);
    number("refusal of a writing", &counted, 0, 17, 8), number("payments of a refused writing", &counted, 8, 0, 8);
    counted = finaruvom_write(list, 2, bytes, sizeof bytes);
    number("payments written", &counted, 8, 2, 8);
    same("the second entry", bytes, 11, (const uint8_t[]){2, 0, 3, 0, 0, 0, 0, 0, 0, 0x30, 0x0c}, 11);
    counted = finaruvom_read_payments(bytes, sizeof bytes, list + 1, 2);
    number("refusal of a reading of payments", &counted, 0, 0, 8), number("payments read", &counted, 8, 2, 8);
    number("the party read", list, 48, 2, 8), number("the n read", list, 56, 3, 8), number("the amount read", list, 64, 300, 8);
}

int main(void) {
    version();
    settings();
    dated();
    opened();
    established();
    closing();
    fee();
    signing();
    not_made();
    bank_lines();
    puts("ok: every field stands where the header says, and no struct but the settings has padding");
    return 0;
}
