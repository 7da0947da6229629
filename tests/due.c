// What is due: due. Two closings at the edges of each rule, then books at random with many equal deadlines and sums, in which the channel that is due is
// settled until none is. Of the closings the one with the smallest deadline is due, of these the one that holds most, and only then that of the lowest number.
#include "../include/finaruvom.h"
#include <stdio.h>
#include <stdlib.h>
#include <string.h>

enum { THIRD = 3, FIFTH = 5, BOOKS = 2000, T = 1000 };

static const uint8_t id[FINARUVOM_ID_SIZE] = {9};
static struct finaruvom_book book;
static const char *at;
static unsigned later, smaller, higher, both_sides; // what the other closings were behind by, and how often those with equal deadlines were of both sides

static void must(bool holds, const char *what) {
    if (!holds) {
        fprintf(stderr, "due: %s: %s\n", at, what);
        exit(1);
    }
}

static bool closing(const struct finaruvom_channel *channel) {
    return channel->status == FINARUVOM_MERCHANT_CLOSING || channel->status == FINARUVOM_CUSTOMER_CLOSING;
}

// What a closing holds: the total of a merchant's, the kept part of a customer's.
static uint64_t held(const struct finaruvom_channel *channel) {
    return channel->status == FINARUVOM_MERCHANT_CLOSING ? channel->customer.deposit + channel->merchant.deposit : channel->kept;
}

// A closing that is not due, beside the one that is.
static void behind(const struct finaruvom_channel *other, const struct finaruvom_channel *due) {
    must(due->deadline <= other->deadline, "another closing has a smaller deadline");
    later += due->deadline < other->deadline;
    if (due->deadline < other->deadline)
        return;
    must(held(due) >= held(other), "another closing with this deadline holds more");
    must(held(due) > held(other) || due < other, "another closing with this deadline and sum has a lower number");
    *(held(due) > held(other) ? &smaller : &higher) += 1;
    both_sides += due->status != other->status;
}

// What is due, beside every channel.
static struct finaruvom_found asked(void) {
    struct finaruvom_found found = finaruvom_due(&book);
    must(found.some ? found.channel < FINARUVOM_CHANNELS : found.channel == 0, "a channel is named that there is not");
    const struct finaruvom_channel *due = &book.channels[found.channel];
    must(!found.some || closing(due), "a channel is due that is not closing");
    for (const struct finaruvom_channel *other = book.channels; other < book.channels + FINARUVOM_CHANNELS; other++)
        if (closing(other) && !(found.some && other == due)) {
            must(found.some, "none is due, and a channel is closing");
            behind(other, due);
        }
    return found;
}

// ---- figures

static const struct figure {
    const char *name;
    struct closed {
        uint32_t status;
        uint64_t deadline, kept;
    } third, fifth;
    uint8_t due;
} figures[] = {
    {"700 and 900", {5, 4600, 700}, {5, 4600, 900}, FIFTH},
    {"900 and 700", {5, 4600, 900}, {5, 4600, 700}, THIRD},
    {"900 and 900", {5, 4600, 900}, {5, 4600, 900}, THIRD},
    {"700 a second earlier", {5, 4599, 700}, {5, 4600, 900}, THIRD},
    {"900 a second later", {5, 4600, 900}, {5, 4599, 700}, FIFTH},
    {"nothing and a cent", {5, 4600, 0}, {5, 4600, 1}, FIFTH},
    {"a cent and nothing", {5, 4600, 1}, {5, 4600, 0}, THIRD},
    {"nothing twice", {5, 4600, 0}, {5, 4600, 0}, THIRD},
    {"999 and a merchant's closing", {5, 4600, 999}, {4, 4600, 0}, FIFTH},
    {"all and a merchant's closing", {5, 4600, T}, {4, 4600, UINT64_MAX}, THIRD},
    {"a merchant's closing and all", {4, 4600, 7}, {5, 4600, T}, THIRD},
    {"a second after 0", {5, 1, T}, {5, 0, 0}, FIFTH},
    {"the last second", {5, UINT64_MAX, 1}, {5, UINT64_MAX, 2}, FIFTH},
    {"seconds that differ in the highest bit", {5, 1ull << 63, T}, {5, 0, 1}, FIFTH},
    {"an open account", {5, 4600, 0}, {3, 1, T}, THIRD},
    {"a closed account", {6, 1, T}, {5, 4600, 0}, FIFTH},
};

// A channel as a lender may write it.
static struct finaruvom_channel lent(uint32_t status, uint64_t deadline, uint64_t total, uint64_t kept) {
    return (struct finaruvom_channel){.customer.deposit = total - total / 3, .merchant.deposit = total / 3, .deadline = deadline, .kept = kept,
                                      .delay = FINARUVOM_SHORTEST_DELAY, .status = status};
}

static void open_book(void) {
    must(finaruvom_open(&book, id, sizeof id) == FINARUVOM_ACCEPTED, "no book");
}

static void each_figure(void) {
    for (const struct figure *figure = figures; figure < figures + sizeof figures / sizeof figures[0]; figure++) {
        at = figure->name;
        open_book();
        book.channels[THIRD] = lent(figure->third.status, figure->third.deadline, T, figure->third.kept);
        book.channels[FIFTH] = lent(figure->fifth.status, figure->fifth.deadline, T, figure->fifth.kept);
        struct finaruvom_found found = asked();
        must(found.some && found.channel == figure->due, "another channel is due than in the figure");
        book.channels[0] = lent(7, 0, T, T);
        must(!finaruvom_due(&book).some, "a channel of an unsound book is due");
    }
}

// ---- books at random

static uint64_t random_below(uint64_t n) {
    static uint64_t x = 88172645463325252u;
    x ^= x << 13, x ^= x >> 7, x ^= x << 17;
    return x % n;
}

// A book whose channels have one of a few deadlines and of a few sums, and anything where no rule looks.
static void lend(void) {
    static const uint64_t deadlines[] = {0, 4599, 4600, 345600, INT64_MAX}, sums[] = {0, 1, 999, T, 4294967296, INT64_MAX};
    uint64_t some = 1 + random_below(sizeof deadlines / sizeof deadlines[0]), most = 1 + random_below(sizeof sums / sizeof sums[0]);
    open_book();
    book.clock = INT64_MAX;
    for (struct finaruvom_channel *channel = book.channels; channel < book.channels + FINARUVOM_CHANNELS; channel++) {
        uint32_t status = random_below(3) == 0 ? (uint32_t)random_below(7) : 4 + (uint32_t)random_below(2);
        uint64_t sum = sums[random_below(most)], total = status == 5 ? sum + random_below(INT64_MAX - sum + 1) : sum;
        *channel = lent(status, deadlines[random_below(some)], total, status == 5 ? sum : random_below(2) * UINT64_MAX);
    }
}

// Settles what is due until none is: each closing is paid what it holds.
static void settled(void) {
    unsigned left = 0;
    for (size_t n = 0; n < FINARUVOM_CHANNELS; n++)
        left += closing(&book.channels[n]);
    for (struct finaruvom_found found; found = asked(), found.some; left--) {
        must(left > 0, "a settled channel is still closing");
        uint64_t sum = held(&book.channels[found.channel]);
        struct finaruvom_answer answer = finaruvom_apply(&book, (const uint8_t[]){10, 0, found.channel}, 3);
        must(answer.refusal == FINARUVOM_ACCEPTED && answer.customer + answer.merchant == sum, "what is due is not settled with what it holds");
    }
}

int main(void) {
    each_figure();
    at = "books at random";
    for (int i = 0; i < BOOKS; i++)
        lend(), settled();
    must(later > BOOKS && smaller > BOOKS && higher > BOOKS && both_sides > BOOKS, "some rule is hardly tried");
    printf("due: %zu figures, %d books; %u closings behind by their deadline, %u by their sum, %u by their number\n", sizeof figures / sizeof figures[0],
           BOOKS, later, smaller, higher);
}
