// How often each call copies the book, the signer or the list, and how much stack it takes, held to limits: a call changes what is lent in place or reads it
// there and copies none of it, and the stack is what the header says. A further copy that the compiler wrote without a call would show on the stack. With
// --short it makes no key, which takes seconds.
#define _XOPEN_SOURCE 700
#include "../bench/copied.h"
#include "../bench/dates.h"
#include "../bench/fitted.h"
#include <stdio.h>
#include <stdlib.h>
#include <string.h>
#include <ucontext.h>

enum { N = 5, CLOCK = 1000, FEE = 250, STACK = 1 << 19, PAINT = 0xA5, MUTUAL = 5, MAKING_COPIES = 0, SIGNING_COPIES = 0 };
enum { SETTLES = 1024, PAYMENTS = 2 * SETTLES, DATES = 1000, MOVED = DAY_BEHIND * 86400 };

// What a call is lent, how often it copies that at most, and how many bytes it copies in all; a signature check copies some 2,500, a key
// making some 780 for each leaf.
struct lent {
    const char *name;
    size_t copies, bytes;
};
static const struct lent lent_book = {"book", 0, 7168};
static const struct lent lent_in_place = {"book", 0, 7168};
static const struct lent lent_to_open = {"book", 0, 4096};
static const struct lent lent_to_make = {"signer", MAKING_COPIES, MAKING_COPIES * FINARUVOM_SIGNER_SIZE + 800 * FINARUVOM_LEAVES};
static const struct lent lent_to_sign = {"signer", SIGNING_COPIES, SIGNING_COPIES * FINARUVOM_SIGNER_SIZE + 4096};
static const struct lent lent_list = {"list", 0, 4096};

static struct finaruvom_book book;
static struct finaruvom_signer signer;
static uint8_t command[2955];
static size_t command_n;
static struct finaruvom_answer answer;
static struct finaruvom_line lines[3];
static struct finaruvom_ran ran;

// The first 64 days of 1970, then dates that do not rise and, last of all, one that does not exist.
static uint32_t dates[DATES];

static void list_dates(void) {
    first_days(dates);
    for (size_t i = FINARUVOM_MOST_DATES; i < DATES - 1; i++)
        dates[i] = 19700101;
}

// A command of each kind on a full book with a fee and 64 dates, and refusals. A signature that is refused with 11 or 12 was walked to its end; one that fits
// its key passes, and the closing's deadline, of the first of these dates, is moved past the last.
static const struct row {
    const char *name;
    uint8_t op;
    uint32_t status, refusal;
    uint64_t deadline;
    size_t size, cents_at, signature_at; // 0: it has none
    uint64_t first, second, fee;
    bool fits;
} rows[] = {
    {"01 clock", .op = 1, .size = 9, .status = 3, .cents_at = 1, .first = CLOCK + 1},
    {"02 establish", .op = 2, .size = 135, .status = 0, .cents_at = 115, .first = 900, .second = 100},
    {"03 fund customer", .op = 3, .size = 11, .status = 1, .cents_at = 3, .first = 900},
    {"04 fund merchant", .op = 4, .size = 11, .status = 2, .cents_at = 3, .first = 100},
    {"05 reclaim", .op = 5, .size = 1455, .status = 2, .signature_at = 3, .refusal = 12},
    {"06 mutual close", .op = 6, .size = 2923, .status = 3, .cents_at = 3, .first = 400, .second = 600, .signature_at = 19, .refusal = 11},
    {"07 customer closes", .op = 7, .size = 2955, .status = 3, .cents_at = 35, .first = 700, .second = 300, .signature_at = 51, .refusal = 11},
    {"08 merchant closes", .op = 8, .size = 1455, .status = 3, .signature_at = 3, .refusal = 11},
    {"07 that passes", .op = 7, .size = 2955, .status = 3, .cents_at = 35, .first = 700, .second = 300, .signature_at = 51, .fee = 7, .fits = true},
    {"08 that passes", .op = 8, .size = 1455, .status = 3, .signature_at = 3, .fits = true},
    {"09 dispute", .op = 9, .size = 1487, .status = 5, .deadline = CLOCK + 1, .signature_at = 35, .refusal = 11},
    {"0A settle", .op = 10, .size = 3, .status = 5, .deadline = CLOCK},
    {"0A settle with a fee", .op = 10, .size = 3, .status = 4, .deadline = CLOCK, .fee = 25},
    {"refused with 1", .op = 11, .size = 3, .status = 3, .refusal = 1},
    {"refused with 5", .op = 10, .size = 3, .status = 3, .refusal = 5},
    {"refused with 99", .op = 10, .size = 3, .status = 7, .refusal = 99},
};

static void typed(uint8_t *key, uint8_t last) {
    key[3] = 6;
    key[7] = 4;
    key[55] = last;
}

// A book with 64 dates, whose 64 channels are all in this status.
static void fill(uint32_t status, uint64_t deadline) {
    static const uint8_t id[16] = {7}, secret[32] = {0};
    if (finaruvom_open_with(&book, id, 16, (struct finaruvom_settings){FINARUVOM_PLAIN_DELAY, FEE, true}, dates, FINARUVOM_MOST_DATES) != 0)
        exit(1);
    book.clock = CLOCK;
    for (int i = 0; i < 64; i++) {
        struct finaruvom_channel *ch = &book.channels[i];
        *ch = (struct finaruvom_channel){.deadline = deadline, .kept = 700, .delay = 3600, .status = status};
        typed(ch->customer.key, 1);
        typed(ch->merchant.key, 2);
        ch->customer.deposit = 900;
        ch->merchant.deposit = 100;
        if (finaruvom_hash(secret, 32, ch->lock) != 0)
            exit(1);
    }
}

static void cents(uint8_t *s, uint64_t x) {
    for (int i = 0; i < 8; i++)
        s[i] = (uint8_t)(x >> 8 * (7 - i));
}

static void file(const struct row *row) {
    memset(command, 0, sizeof command);
    command[0] = row->op;
    command[2] = row->op == 1 ? 0 : N;
    command_n = row->size;
    if (row->cents_at != 0)
        cents(command + row->cents_at, row->first);
    if (row->second != 0)
        cents(command + row->cents_at + 8, row->second);
    if (row->op == 2) {
        typed(command + 3, 1);
        typed(command + 59, 2);
    }
    for (size_t at = row->signature_at; at != 0 && at + FINARUVOM_SIGNATURE_SIZE <= row->size; at += FINARUVOM_SIGNATURE_SIZE)
        form(command + at);
}

// Makes both keys of the channel fit the signatures of this command.
static void fit_keys(size_t signature_at) {
    uint8_t message[67];
    message[0] = command[0];
    memcpy(message + 1, book.id, 16), memcpy(message + 17, command + 1, signature_at - 1);
    fit(book.channels[N].merchant.key, message, signature_at + 16, command + signature_at);
    fit(book.channels[N].customer.key, message, signature_at + 16, command + signature_at);
}

static void apply(void) {
    answer = finaruvom_apply(&book, command, command_n);
}

static void run(void) {
    static const uint8_t settle[9] = {10, 0, 1, 10, 0, 2, 10, 0, 3};
    ran = finaruvom_run(&book, settle, sizeof settle, lines, 3);
}

static void run_filed(void) {
    ran = finaruvom_run(&book, command, command_n, lines, 3);
}

static void open_book(void) {
    static const uint8_t id[16] = {9};
    answer.refusal = finaruvom_open(&book, id, 16);
}

// Openings with settings, which are lent so many of the dates.
static const struct opening {
    const char *name;
    struct finaruvom_settings settings;
    size_t dates;
    uint32_t refusal;
} openings[] = {
    {"open with settings", {FINARUVOM_DESK_DELAY, FEE, false}, DATES, 0},
    {"open with no date", {FINARUVOM_DESK_DELAY, FEE, true}, 0, 0},
    {"open with 64 dates", {FINARUVOM_DESK_DELAY, FEE, true}, FINARUVOM_MOST_DATES, 0},
    {"open refused with 14", {0, FEE, true}, DATES, 14},
    {"open refused with 20", {FINARUVOM_PLAIN_DELAY, FINARUVOM_HIGHEST_FEE + 1, true}, DATES, 20},
    {"open refused with 21", {FINARUVOM_PLAIN_DELAY, FEE, true}, DATES, 21},
    {"open refused with 22", {FINARUVOM_PLAIN_DELAY, FEE, true}, DATES - 1, 22},
};
static const struct opening *opening;

static void open_with_settings(void) {
    static const uint8_t id[16] = {9};
    answer = (struct finaruvom_answer){.refusal = finaruvom_open_with(&book, id, 16, opening->settings, dates, opening->dates)};
}

static void read_channel(void) {
    answer.refusal = finaruvom_read(&book, N).refusal;
}

static void due(void) {
    answer.refusal = !finaruvom_due(&book).some;
}

static void hash(void) {
    static uint8_t digest[32];
    answer.refusal = finaruvom_hash(command, 1000, digest);
}

// A signature that is walked to its end.
static void check(void) {
    bool good = true;
    uint32_t leaf = 1;
    answer.refusal = finaruvom_check(book.channels[N].merchant.key, 56, command, 35, command + 19, 1452, &good, &answer.steps, &leaf);
    answer.refusal |= good || answer.steps == 0 || leaf != 0;
}

// A key making, and signings with what the making left; a length or a next leaf that is refused.
static size_t nonce_n = FINARUVOM_NONCE_SIZE, id_n = FINARUVOM_ID_SIZE;

static void make_key(void) {
    static const uint8_t seed[FINARUVOM_SEED_SIZE] = {7}, id[FINARUVOM_ID_SIZE + 1] = {9};
    answer = (struct finaruvom_answer){.refusal = finaruvom_make_key(&signer, seed, sizeof seed, id, id_n)};
}

static void sign_message(void) {
    static const uint8_t nonce[FINARUVOM_NONCE_SIZE + 1] = {5};
    answer = (struct finaruvom_answer){.refusal = finaruvom_sign(&signer, nonce, nonce_n, command, FINARUVOM_LONGEST_MESSAGE).refusal};
}

// Settles that pay both sides, their payments and the entries of these, each larger than a book's channels, and the payments that there is room for.
static uint8_t settles[3 * SETTLES], entries[FINARUVOM_ENTRY_SIZE * PAYMENTS];
static struct finaruvom_line paid[SETTLES];
static struct finaruvom_payment payments[PAYMENTS];
static struct finaruvom_counted counted;
static size_t room = PAYMENTS;

static void collect(void) {
    counted = finaruvom_collect(settles, sizeof settles, paid, SETTLES, payments, room);
}

static void write_payments(void) {
    counted = finaruvom_write(payments, PAYMENTS, entries, room * FINARUVOM_ENTRY_SIZE);
}

static void read_payments(void) {
    counted = finaruvom_read_payments(entries, sizeof entries, payments, room);
}

static ucontext_t here, there;
static uint8_t stack[STACK];

// The bytes of stack that a call touched, on a painted stack of its own.
static size_t stack_of(void (*call)(void)) {
    memset(stack, PAINT, STACK);
    getcontext(&there);
    there.uc_stack.ss_sp = stack;
    there.uc_stack.ss_size = STACK;
    there.uc_link = &here;
    makecontext(&there, call, 0);
    copied = books_copied = 0;
    swapcontext(&here, &there);
    size_t untouched = 0;
    while (untouched < STACK && stack[untouched] == PAINT)
        untouched++;
    return STACK - untouched;
}

static int wrong;
// What the dynamic linker takes in a first call, to find memcpy: by an opening, which calls it from its deepest frame.
static size_t binding;

// Makes the call, prints what it took, and holds it to the limits: the copies for each of its `turns`, and the bytes of stack that the header names,
// also for a first call. A copy as large as a book's channels counts, of a signer too. Gives the bytes of stack.
static size_t measure_lent(const struct lent *lent, const char *name, void (*call)(void), bool expected(void), size_t turns, size_t limit) {
    size_t took = stack_of(call), copies = (books_copied + turns - 1) / turns;
    bool answer_good = expected(), small = copies <= lent->copies && copied <= turns * lent->bytes && took + binding <= limit;
    printf("%-23s copies of the %s %zu, bytes copied %6zu, of stack %6zu%s%s\n", name, lent->name, copies, copied / turns, took,
           answer_good ? "" : ": ANOTHER ANSWER", small ? "" : ": OVER ITS LIMIT");
    wrong |= !answer_good || !small;
    return took;
}

static size_t measure(const char *name, void (*call)(void), bool expected(void), size_t turns, size_t limit) {
    return measure_lent(&lent_book, name, call, expected, turns, limit);
}

// The check keeps no list of its chain ends, 34 of 32 bytes: it takes some 3,000 bytes of stack, and with one it would take more than this.
static void keeps_no_list(size_t check_took) {
    if (check_took > 3584) {
        printf("the check takes more than it should WITHOUT A LIST OF CHAIN ENDS\n");
        wrong = 1;
    }
}

static uint32_t refusal;
static uint64_t fee;
static bool fits;

static bool refused(void) {
    return answer.refusal == refusal && answer.fee == fee && (answer.steps != 0) == (fits || refusal == 11 || refusal == 12) &&
           (!fits || book.channels[N].deadline == MOVED);
}

static bool ran_all(void) {
    return ran.lines == 3 && ran.cause == 0 && lines[2].answer.customer == 700;
}

static bool ran_filed(void) {
    return ran.lines == 1 && ran.cause == 0 && lines[0].answer.refusal == 11 && lines[0].answer.steps != 0;
}

static bool answered_0(void) {
    return answer.refusal == 0;
}

// A key making, which may be left out, and a signing, accepted and refused.
static void signers(bool makes) {
    refusal = 0;
    if (makes)
        measure_lent(&lent_to_make, "make a key", make_key, refused, 1, FINARUVOM_STACK_MAKE_KEY);
    measure_lent(&lent_to_sign, "sign", sign_message, refused, 1, FINARUVOM_STACK_SIGN);
    signer.next = FINARUVOM_LEAVES;
    refusal = 15;
    measure_lent(&lent_to_sign, "sign refused with 15", sign_message, refused, 1, FINARUVOM_STACK_SIGN);
    refusal = 2;
    nonce_n++;
    measure_lent(&lent_to_sign, "sign refused with 2", sign_message, refused, 1, FINARUVOM_STACK_SIGN);
    id_n++;
    measure_lent(&lent_to_make, "make refused with 2", make_key, refused, 1, FINARUVOM_STACK_MAKE_KEY);
}

static bool counted_all(void) {
    return counted.refusal == refusal && counted.payments == (refusal == 0 ? PAYMENTS : 0);
}

static void measure_bank(const char *name, void (*call)(void), uint32_t expected) {
    refusal = expected;
    measure_lent(&lent_list, name, call, counted_all, 1, FINARUVOM_STACK_BANK);
}

// The calls for the bank, accepted and refused: without room for the last, and with a last payment and a last entry that are wrong.
static void bank(void) {
    for (size_t i = 0; i < SETTLES; i++) {
        settles[3 * i] = 10;
        paid[i].answer = (struct finaruvom_answer){.customer = i + 1, .merchant = FINARUVOM_LARGEST_AMOUNT - i, .fee = i + 1};
    }
    measure_bank("collect", collect, 0);
    measure_bank("write", write_payments, 0);
    measure_bank("read payments", read_payments, 0);
    room--;
    measure_bank("collect refused with 18", collect, 18);
    measure_bank("write refused with 18", write_payments, 18);
    measure_bank("read refused with 18", read_payments, 18);
    room++;
    payments[PAYMENTS - 1].amount = 0;
    measure_bank("write refused with 17", write_payments, 17);
    entries[sizeof entries - 1] = 0;
    measure_bank("read refused with 19", read_payments, 19);
}

// Every command of the table, each on a book of its own.
static void commands(void) {
    for (size_t i = 0; i < sizeof rows / sizeof rows[0]; i++) {
        const struct row *row = &rows[i];
        fill(row->status, row->deadline);
        file(row);
        if (row->fits)
            fit_keys(row->signature_at);
        refusal = row->refusal, fee = row->fee, fits = row->fits;
        measure_lent(&lent_in_place, row->name, apply, refused, 1, FINARUVOM_STACK_APPLY);
    }
    fits = false;
}

// An opening makes the book where it is lent, and one that is refused leaves it there.
static void open_books(void) {
    measure_lent(&lent_to_open, "open", open_book, answered_0, 1, FINARUVOM_STACK_OPEN);
    for (size_t i = 0; i < sizeof openings / sizeof openings[0]; i++) {
        opening = &openings[i];
        refusal = opening->refusal, fee = 0;
        measure_lent(refusal == 0 ? &lent_to_open : &lent_book, opening->name, open_with_settings, refused, 1, FINARUVOM_STACK_OPEN);
    }
}

int main(int argc, char **argv) {
    bool makes = argc < 2 || strcmp(argv[1], "--short") != 0;
    list_dates();
    size_t first = stack_of(open_book);
    binding = first - stack_of(open_book);
    printf("a first call takes %zu bytes of stack more\n", binding);
    commands();
    fill(5, CLOCK);
    measure_lent(&lent_in_place, "a run, each settle", run, ran_all, 3, FINARUVOM_STACK_RUN);
    fill(3, 0);
    file(&rows[MUTUAL]);
    measure_lent(&lent_in_place, "a run of an 06", run_filed, ran_filed, 1, FINARUVOM_STACK_RUN);
    keeps_no_list(measure("check", check, answered_0, 1, FINARUVOM_STACK_CHECK));
    measure("hash", hash, answered_0, 1, FINARUVOM_STACK_HASH);
    fill(5, CLOCK);
    measure("read", read_channel, answered_0, 1, FINARUVOM_STACK_READ);
    measure("due", due, answered_0, 1, FINARUVOM_STACK_DUE);
    open_books();
    signers(makes);
    bank();
    return wrong;
}
