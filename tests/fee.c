// The desk's fee: fee JOURNAL... Openings and kept fees in and out of range, settles of amounts at the edges, then every journal in books with a fee beside one
// without. Of each payment to a merchant the fee is the whole part of its ten-thousandths and the rest is his; nothing else differs.
#include "../include/finaruvom.h"
#include <stdio.h>
#include <stdlib.h>
#include <string.h>

enum { INPUT = 65536, COMMANDS = INPUT / 3, FEE_AT = 28, N = 5, CLOCK = 5000, ID = FINARUVOM_ID_SIZE, DAY = FINARUVOM_PLAIN_DELAY, BESIDE = 4, COLLECTED = 1 };

static const uint8_t id[ID + 1] = {7, 1}, settle[] = {10, 0, N};
static const uint32_t higher[] = {1001, 10000, ((uint32_t)1 << 16) + 250, (uint32_t)1 << 31, UINT32_MAX};
static const uint64_t edges[] = {0, 1, 9, 10, 11, 9999, 10000, 10001, UINT64_MAX / 1000, UINT64_MAX / 1000 + 1, INT64_MAX - 1, INT64_MAX};
static const uint32_t no_dates[1];
static struct finaruvom_book book, before;

static void must(bool holds, const char *what) {
    if (!holds) {
        fprintf(stderr, "fee: %s\n", what);
        exit(1);
    }
}

// The fee of an amount, in numbers that hold every product.
static uint64_t fee_of(uint64_t amount, uint32_t fee) {
    return (uint64_t)((unsigned __int128)amount * fee / 10000);
}

// An opening with this default delay and fee, and no list of dates.
static uint32_t open_with(struct finaruvom_book *lent, size_t id_n, uint32_t delay, uint32_t fee) {
    return finaruvom_open_with(lent, id, id_n, (struct finaruvom_settings){.delay = delay, .fee = fee}, no_dates, 0);
}

// A fee in range stands in the fresh book, by its literal place, and all else is as in the plain one, which has none.
static void opened(uint32_t fee) {
    uint32_t stands;
    memset(&book, 0xAA, sizeof book);
    must(finaruvom_open(&before, id, ID) == FINARUVOM_ACCEPTED && before.setup.fee == 0, "the plain opening was refused, or has a fee");
    must(open_with(&book, ID, DAY, fee) == FINARUVOM_ACCEPTED, "an opening with a fee in range was refused");
    memcpy(&stands, (const uint8_t *)&book + FEE_AT, sizeof stands);
    must(stands == fee, "an opening leaves another fee than the one given");
    before.setup.fee = fee;
    must(memcmp(&book, &before, sizeof book) == 0, "an opening with a fee differs from the plain one in more than the fee");
}

// A book with this fee, whose channel N is in this status and past its deadline, with a total of this amount, all of it kept.
static void lend(uint32_t status, uint64_t amount, uint32_t fee) {
    must(open_with(&book, ID, DAY, fee) == FINARUVOM_ACCEPTED, "an opening with a fee in range was refused");
    struct finaruvom_channel *channel = &book.channels[N];
    book.clock = channel->deadline = CLOCK;
    channel->customer.deposit = amount - amount / 3, channel->merchant.deposit = amount / 3;
    channel->kept = amount, channel->delay = 3600, channel->status = status;
}

// A refused opening leaves every byte of the lent book, which was sound and had a fee.
static void not_opened(size_t id_n, uint32_t delay, uint32_t fee, uint32_t refusal, const char *what) {
    lend(FINARUVOM_MERCHANT_CLOSING, 1000, 250);
    before = book;
    must(open_with(&book, id_n, delay, fee) == refusal, what);
    must(memcmp(&book, &before, sizeof book) == 0, "a refused opening changes the book");
}

// The id is looked at first, then the default delay, then the fee.
static void openings(void) {
    static const uint32_t no_delay[] = {0, 3599, 2592001, UINT32_MAX};
    static const size_t no_id[] = {0, 15, 17};
    for (uint32_t fee = 0; fee <= FINARUVOM_HIGHEST_FEE; fee++)
        opened(fee);
    for (size_t i = 0; i < sizeof higher / sizeof higher[0]; i++) {
        not_opened(ID, DAY, higher[i], FINARUVOM_SETTINGS_FEE, "an opening with a fee out of range is not refused with 20");
        not_opened(ID, FINARUVOM_LONGEST_DELAY, higher[i], FINARUVOM_SETTINGS_FEE, "an opening with a fee out of range is not refused with 20");
        for (size_t k = 0; k < sizeof no_delay / sizeof no_delay[0]; k++)
            not_opened(ID, no_delay[k], higher[i], FINARUVOM_SETTINGS_DELAY, "a default and a fee out of range are not refused with 14");
        for (size_t k = 0; k < sizeof no_id / sizeof no_id[0]; k++) {
            not_opened(no_id[k], DAY, higher[i], FINARUVOM_LENGTH, "a wrong id and a fee out of range are not refused with 2");
            not_opened(no_id[k], 0, higher[i], FINARUVOM_LENGTH, "a wrong id, a default and a fee out of range are not refused with 2");
        }
    }
}

// A book that keeps a fee out of range is not sound: every call says so, and nothing of it changes.
static void unsound(uint32_t fee) {
    static const struct finaruvom_answer refused = {.refusal = FINARUVOM_UNSOUND};
    static const struct finaruvom_reading unread = {.refusal = FINARUVOM_UNSOUND};
    lend(FINARUVOM_MERCHANT_CLOSING, 1000, 250);
    book.setup.fee = fee;
    before = book;
    struct finaruvom_answer answer = finaruvom_apply(&book, settle, sizeof settle);
    must(memcmp(&answer, &refused, sizeof answer) == 0, "a command is carried out in a book with a fee out of range");
    struct finaruvom_reading reading = finaruvom_read(&book, N);
    must(memcmp(&reading, &unread, sizeof reading) == 0, "a book with a fee out of range is read");
    must(!finaruvom_due(&book).some, "a channel is due in a book with a fee out of range");
    struct finaruvom_line line;
    struct finaruvom_ran ran = finaruvom_run(&book, settle, sizeof settle, &line, 1);
    must(ran.lines == 1 && memcmp(&line, &refused, sizeof line) == 0, "a journal is run in a book with a fee out of range");
    must(memcmp(&book, &before, sizeof book) == 0, "a refused command changes a book with a fee out of range");
}

// The merchant's closing pays him the total without its fee, the customer's pays the kept part whole; the book's status changes and nothing else.
static void settled(uint64_t amount, uint32_t fee) {
    lend(FINARUVOM_MERCHANT_CLOSING, amount, fee);
    before = book;
    before.channels[N].status = FINARUVOM_CLOSED;
    must(finaruvom_read(&book, N).held == amount, "a channel in a book with a fee holds another amount");
    struct finaruvom_answer a = finaruvom_apply(&book, settle, sizeof settle);
    must(a.refusal == FINARUVOM_ACCEPTED && a.steps == 0 && a.customer == 0, "a settle with a fee is refused, or pays the customer");
    must(a.fee == fee_of(amount, fee), "a settle has another fee than the whole part of its ten-thousandths");
    must(a.merchant + a.fee == amount, "a settle's payment to the merchant and its fee are not the total");
    must(memcmp(&book, &before, sizeof book) == 0, "a settle with a fee leaves another book");
    lend(FINARUVOM_CUSTOMER_CLOSING, amount, fee);
    a = finaruvom_apply(&book, settle, sizeof settle);
    must(a.refusal == FINARUVOM_ACCEPTED && a.customer == amount && a.merchant == 0 && a.fee == 0, "the customer pays a fee");
}

// Every fee with the amounts at the edges, and with those at which it becomes 1, 2 and 3 cents.
static void settles(void) {
    for (uint32_t fee = 0; fee <= FINARUVOM_HIGHEST_FEE; fee++) {
        for (size_t i = 0; i < sizeof edges / sizeof edges[0]; i++)
            settled(edges[i], fee);
        for (uint64_t cents = 1; fee != 0 && cents <= 3; cents++) {
            uint64_t least = (10000 * cents + fee - 1) / fee;
            settled(least, fee), settled(least - 1, fee);
            must(fee_of(least, fee) == cents && fee_of(least - 1, fee) == cents - 1, "an amount is not the least one for its fee");
        }
    }
}

// A journal's book without a fee and those beside it: what each account was paid in and, in each book, has paid out.
static const uint32_t fees[BESIDE] = {1, 250, 999, 1000};
static struct finaruvom_book plain, books[BESIDE];
static uint64_t deposits[FINARUVOM_CHANNELS], paid[BESIDE][FINARUVOM_CHANNELS], closed_with[FINARUVOM_CHANNELS];
static struct finaruvom_line filed[COMMANDS], lines[COMMANDS];
static struct finaruvom_payment wanted[2 * COMMANDS], payments[2 * COMMANDS];
static size_t filed_n, wanted_n;
static unsigned with_fee[11], without, wide, apart, journals;

// A command's answer in a book with a fee, beside that in the book without.
static void held_to(const struct finaruvom_answer *a, const struct finaruvom_answer *gross, uint32_t fee) {
    must(a->refusal == gross->refusal && a->steps == gross->steps && a->customer == gross->customer, "a fee changes a refusal, steps or the customer's cents");
    must(a->refusal == FINARUVOM_ACCEPTED || (a->customer == 0 && a->merchant == 0 && a->fee == 0), "a refused command pays, or has a fee");
    must(a->fee == fee_of(gross->merchant, fee), "a payment has another fee than the whole part of its own ten-thousandths");
    must(a->merchant + a->fee == gross->merchant, "a merchant's payment and its fee are not what he is paid without one");
}

// What the bank is to pay for a command.
static void list(const uint8_t *command, size_t n, const struct finaruvom_answer *a) {
    filed[filed_n++].answer = *a;
    if (command[0] != 1 && a->customer != 0)
        wanted[wanted_n++] = (struct finaruvom_payment){FINARUVOM_TO_CUSTOMER, n, a->customer};
    if (command[0] != 1 && a->merchant != 0)
        wanted[wanted_n++] = (struct finaruvom_payment){FINARUVOM_TO_MERCHANT, n, a->merchant};
}

// The cents in a command, which a 03 and a 04 pay in.
static uint64_t cents_of(const uint8_t *command) {
    uint64_t cents = 0;
    for (int i = 3; i < 11; i++)
        cents = cents << 8 | command[i];
    return cents;
}

// Counts the fees of an accepted command that pays the merchant this amount: none for it, a product past 2^64, and two that are not the fee of their sum.
static void count(const uint8_t *command, size_t n, uint64_t amount, uint32_t fee) {
    with_fee[command[0]] += fee_of(amount, fee) != 0;
    without += amount != 0 && fee_of(amount, fee) == 0;
    wide += amount > UINT64_MAX / fee;
    if (command[0] == 7)
        closed_with[n] = amount;
    if (command[0] == 9)
        apart += fee_of(closed_with[n] + amount, fee) != fee_of(closed_with[n], fee) + fee_of(amount, fee);
}

static void file(const uint8_t *command, size_t size) {
    struct finaruvom_answer gross = finaruvom_apply(&plain, command, size);
    size_t n = command[0] == 1 ? FINARUVOM_CHANNELS : (size_t)(command[1] << 8 | command[2]);
    bool accepted = gross.refusal == FINARUVOM_ACCEPTED && n < FINARUVOM_CHANNELS;
    must(gross.fee == 0, "a plain book has a fee");
    if (accepted && (command[0] == 3 || command[0] == 4))
        deposits[n] += cents_of(command);
    for (size_t i = 0; i < BESIDE; i++) {
        struct finaruvom_answer a = finaruvom_apply(&books[i], command, size);
        held_to(&a, &gross, fees[i]);
        before = plain;
        before.setup.fee = fees[i];
        must(memcmp(&before, &books[i], sizeof before) == 0, "a fee changes what a command leaves in the book");
        if (accepted) {
            paid[i][n] += a.customer + a.merchant + a.fee;
            must(finaruvom_read(&books[i], n).held + paid[i][n] == deposits[n], "held and the three payments do not make up the deposits");
            count(command, n, gross.merchant, fees[i]);
        }
        if (i == COLLECTED)
            list(command, n, &a);
    }
}

// The run of the whole journal has the lines of the commands one by one, and the bank pays what these name, without the fees.
static void run_whole(const uint8_t *commands, size_t n) {
    must(open_with(&book, ID, DAY, fees[COLLECTED]) == FINARUVOM_ACCEPTED, "no book");
    memcpy(book.id, plain.id, ID);
    struct finaruvom_ran ran = finaruvom_run(&book, commands, n, lines, COMMANDS);
    must(ran.lines == filed_n && memcmp(lines, filed, filed_n * sizeof lines[0]) == 0, "a run has other lines than its commands one by one");
    must(memcmp(&book, &books[COLLECTED], sizeof book) == 0, "a run leaves another book than its commands one by one");
    struct finaruvom_counted counted = finaruvom_collect(commands, n, lines, ran.lines, payments, 2 * COMMANDS);
    must(counted.refusal == FINARUVOM_ACCEPTED && counted.payments == wanted_n && memcmp(payments, wanted, wanted_n * sizeof wanted[0]) == 0,
         "the bank pays other amounts than those without the fee");
}

// Files the commands of a journal, up to one that is unknown or cut short.
static void run(const char *path) {
    static uint8_t input[INPUT];
    FILE *journal = fopen(path, "rb");
    must(journal != NULL, "no journal");
    size_t n = fread(input, 1, sizeof input, journal), at = ID;
    must(fclose(journal) == 0 && n >= at && finaruvom_open(&plain, input, ID) == FINARUVOM_ACCEPTED, "no book");
    for (size_t i = 0; i < BESIDE; i++) {
        must(open_with(&books[i], ID, DAY, fees[i]) == FINARUVOM_ACCEPTED, "no book");
        memcpy(books[i].id, input, ID);
    }
    memset(deposits, 0, sizeof deposits);
    memset(paid, 0, sizeof paid);
    filed_n = wanted_n = 0;
    for (size_t size; at < n && (size = finaruvom_size(input[at])) != 0 && size <= n - at; at += size)
        file(input + at, size);
    run_whole(input + ID, n - ID);
    journals++;
}

int main(int argc, char **argv) {
    openings();
    for (size_t i = 0; i < sizeof higher / sizeof higher[0]; i++)
        unsound(higher[i]);
    settles();
    for (int i = 1; i < argc; i++)
        run(argv[i]);
    must(with_fee[6] > 0 && with_fee[7] > 0 && with_fee[9] > 0 && with_fee[10] > 0, "the journals do not have a fee of every payment to a merchant");
    must(without > 0, "the journals have no payment that is too small for a fee");
    must(wide > 0, "the journals have no payment whose product is past 2^64");
    must(apart > 0, "the journals have no 07 and 09 whose fees are not the fee of the total");
    printf("ok: fees of openings, kept ones and settles; of %u 06, %u 07, %u 09 and %u 0A in %u journals, %u times two that are not the fee of their sum\n",
           with_fee[6], with_fee[7], with_fee[9], with_fee[10], journals, apart);
    return 0;
}
