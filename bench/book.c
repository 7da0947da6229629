// Times commands without a signature on a full book, and a journal of them, beside the C baseline, and counts the copies of the book and the bytes
// that each makes; and closings with 64 dates beside those with no list. What is compared is timed in turn, in many passes, so that a busy moment of the
// machine slows both. Library and baseline must leave equal books, answers and lines; a difference ends the run with status 1.
#include "book.h"
#include "copied.h"
#include "dates.h"
#include "fitted.h"
#include "timing.h"
#include <stdio.h>
#include <stdlib.h>
#include <string.h>

enum { COUNT = 200, TRIES = 100, PASSES = 16 };

static struct finaruvom_book full;

typedef struct finaruvom_answer apply(struct finaruvom_book *, const uint8_t *, size_t);
struct row {
    const char *name;
    uint8_t bytes[136];
    size_t n;
    uint32_t refusal, status;
    bool dated;
};

// A book with a fee, and with 64 dates or no list, whose 64 channels are all in use, in the status that the row wants.
static void fill(uint32_t status, bool dated) {
    static const uint8_t id[16] = {7};
    uint32_t dates[FINARUVOM_MOST_DATES];
    first_days(dates);
    if (finaruvom_open_with(&full, id, 16, (struct finaruvom_settings){FINARUVOM_PLAIN_DELAY, 250, dated}, dates, FINARUVOM_MOST_DATES) != 0)
        exit(1);
    for (int i = 0; i < 64; i++)
        full.channels[i] = (struct finaruvom_channel){
            .customer.deposit = 900, .merchant.deposit = 100, .deadline = 0, .kept = 700, .delay = 3600, .status = status};
}

// The time of one command, each on the full book as it was, less the time that putting it back takes.
static double timed(apply *f, const struct row *row, struct finaruvom_book *books, struct finaruvom_answer *answer) {
    double best = 1;
    for (int t = 0; t < TRIES; t++) {
        for (int k = 0; k < COUNT; k++)
            books[k % 4] = full;
        double start = seconds();
        for (int k = 0; k < COUNT; k++) {
            *answer = f(&books[k % 4], row->bytes, row->n);
            books[k % 4].channels[5].status = row->status;
        }
        best = least(best, (seconds() - start) / COUNT);
    }
    return best;
}

// The time of the two copies of a book that a command makes, and of nothing else.
static double timed_copies(struct finaruvom_book *books) {
    static struct finaruvom_book lent;
    double best = 1;
    for (int t = 0; t < TRIES; t++) {
        double start = seconds();
        for (int k = 0; k < COUNT; k++) {
            memmove(&lent, &books[k % 4], sizeof lent);
            lent.clock++;
            memmove(&books[k % 4], &lent, sizeof lent);
        }
        best = least(best, (seconds() - start) / COUNT);
    }
    return best;
}

static bool same(const struct finaruvom_answer *a, const struct finaruvom_answer *b) {
    return a->refusal == b->refusal && a->customer == b->customer && a->merchant == b->merchant && a->steps == b->steps && a->fee == b->fee;
}

typedef struct finaruvom_ran run(struct finaruvom_book *, const uint8_t *, size_t, struct finaruvom_line *, size_t);
enum { JOURNAL = 65536, LINES = JOURNAL / 3, RUNS = 10 };
static uint8_t journal[JOURNAL];
static struct finaruvom_line c_lines[LINES], lines[LINES];

static double timed_run(run *f, struct finaruvom_line *out, struct finaruvom_ran *ran) {
    double best = 1;
    for (int t = 0; t < RUNS; t++) {
        static struct finaruvom_book book;
        book = full;
        double start = seconds();
        *ran = f(&book, journal, JOURNAL, out, LINES);
        best = least(best, seconds() - start);
    }
    return best;
}

// A journal of the shortest commands: settle, on an open channel.
static int timed_journal(void) {
    struct finaruvom_ran a, b;
    fill(3, false);
    for (int i = 0; i < JOURNAL; i++)
        journal[i] = i % 3 == 0 ? 10 : i % 3 == 2 ? 5 : 0;
    double c = 1, l = 1;
    for (int pass = 0; pass < PASSES; pass++) {
        c = least(c, timed_run(plain_run, c_lines, &b));
        l = least(l, timed_run(finaruvom_run, lines, &a));
    }
    if (a.lines != LINES || b.lines != LINES || a.used != b.used || a.cause != b.cause)
        return 0;
    for (int i = 0; i < LINES; i++)
        if (!same(&lines[i].answer, &c_lines[i].answer))
            return 0;
    printf("a journal of %d bytes, %d commands: C %.2f ms, library %.2f ms, ratio %.1f\n", JOURNAL, LINES, 1e3 * c, 1e3 * l, l / c);
    return 1;
}

// A closing of channel 5 with signatures that fit its keys, and the books that it is filed in: with no list, and with 64 dates, the first of which is its
// deadline's day.
enum { PAIRS = 2000, IN_C = 200, LONGEST_CLOSING = 2955 };
struct closing {
    const char *name;
    uint8_t op;
    size_t n, signature_at;
    bool dated; // false: the second book has no list either
    uint8_t bytes[LONGEST_CLOSING];
};
static struct closing closings[] = {
    {"08, no list twice", 8, 1455, 3, false, {0}},
    {"08 with 64 dates", 8, 1455, 3, true, {0}},
    {"07, no list twice", 7, 2955, 51, false, {0}},
    {"07 with 64 dates", 7, 2955, 51, true, {0}},
};
static struct finaruvom_book without, with;

// Writes the closing of 700 and 300 cents, and makes the two books.
static void file(struct closing *closing) {
    uint8_t message[67] = {closing->op, 7, [18] = 5};
    closing->bytes[0] = closing->op, closing->bytes[2] = 5;
    if (closing->op == 7)
        closing->bytes[41] = 700 >> 8, closing->bytes[42] = 700 & 255, closing->bytes[49] = 300 >> 8, closing->bytes[50] = 300 & 255;
    memcpy(message + 19, closing->bytes + 3, closing->signature_at - 3);
    for (size_t i = closing->signature_at; i < closing->n; i += FINARUVOM_SIGNATURE_SIZE)
        form(closing->bytes + i);
    fill(3, false);
    without = full;
    without.channels[5].customer.key[8] = 1, without.channels[5].merchant.key[8] = 2;
    fit(without.channels[5].customer.key, message, closing->signature_at + 16, closing->bytes + closing->signature_at);
    fit(without.channels[5].merchant.key, message, closing->signature_at + 16, closing->bytes + closing->signature_at);
    fill(3, closing->dated);
    with = full;
    with.channels[5] = without.channels[5];
}

// The time of a closing, of so many in a row, each of the open channel; `left` is the book that it leaves.
static double timed_closing(apply *f, const struct closing *closing, const struct finaruvom_book *lent, int turns, struct finaruvom_book *left,
                            struct finaruvom_answer *answer) {
    *left = *lent;
    double start = seconds();
    for (int k = 0; k < turns; k++) {
        left->channels[5].status = 3;
        *answer = f(left, closing->bytes, closing->n);
    }
    return (seconds() - start) / turns;
}

static int by_value(const void *a, const void *b) {
    double x = *(const double *)a, y = *(const double *)b;
    return (x > y) - (x < y);
}

// What the dates add, in nanoseconds. A closing takes a millisecond, and the machine's noise is more than what is looked for: of many pairs, in which each goes
// first in turn, the times are compared that one in twenty stays below. A row of no list twice shows what is left of the noise.
static double added(apply *f, const struct closing *closing, int turns, struct finaruvom_book left[2], struct finaruvom_answer answers[2]) {
    static double times[2][PAIRS];
    for (int pair = 0; pair < PAIRS; pair++)
        for (int k = 0; k < 2; k++) {
            int dated = (pair + k) % 2;
            times[dated][pair] = timed_closing(f, closing, dated ? &with : &without, turns, &left[dated], &answers[dated]);
        }
    for (int k = 0; k < 2; k++)
        qsort(times[k], PAIRS, sizeof times[k][0], by_value);
    return 1e9 * (times[1][PAIRS / 20] - times[0][PAIRS / 20]);
}

// The baseline takes signatures for good and makes no chain step; all else is equal.
static int timed_closings(void) {
    static struct finaruvom_book c_left[2], left[2];
    for (size_t i = 0; i < sizeof closings / sizeof closings[0]; i++) {
        struct finaruvom_answer c_answers[2], answers[2];
        file(&closings[i]);
        double c = added(plain_apply, &closings[i], IN_C, c_left, c_answers), l = added(finaruvom_apply, &closings[i], 1, left, answers);
        for (int k = 0; k < 2; k++) {
            c_answers[k].steps = answers[k].steps;
            uint64_t deadline = k == 1 && closings[i].dated ? DAY_BEHIND * 86400 : 3600;
            if (answers[k].refusal != 0 || !same(&answers[k], &c_answers[k]) || left[k].channels[5].deadline != deadline)
                return 0;
        }
        if (memcmp(left, c_left, sizeof left) != 0)
            return 0;
        printf("%-20s %10.0f %10.0f more than with no list\n", closings[i].name, c, l);
    }
    return 1;
}

static const struct row rows[] = {
    {"01 clock", {1, 0, 0, 0, 0, 0, 0, 3, 232}, 9, 0, 3, false},
    {"02 establish", {2, 0, 5, 0, 0, 0, 6, 0, 0, 0, 4, [59] = 0, 0, 0, 6, 0, 0, 0, 4, 1, [121] = 3, 132, [130] = 100}, 135, 0, 0, false},
    {"03 fund customer", {3, 0, 5, 0, 0, 0, 0, 0, 0, 3, 132}, 11, 0, 1, false},
    {"04 fund merchant", {4, 0, 5, 0, 0, 0, 0, 0, 0, 0, 100}, 11, 0, 2, false},
    {"0A settle", {10, 0, 5}, 3, 0, 5, false},
    {"0A settle with a fee", {10, 0, 5}, 3, 0, 4, false},
    {"0A settle, 64 dates", {10, 0, 5}, 3, 0, 5, true},
    {"refused with 1", {0}, 0, 1, 3, false},
    {"refused with 5", {10, 0, 5}, 3, 5, 3, false},
    {"refused with 8", {3, 0, 5, 0, 0, 0, 0, 0, 0, 3, 131}, 11, 8, 1, false},
};

int main(void) {
    static struct finaruvom_book books[4], plain[4];
    printf("%-20s %10s %10s %8s %8s %14s\n", "command", "C, ns", "library", "ratio", "copies", "bytes copied");
    for (size_t i = 0; i < sizeof rows / sizeof rows[0]; i++) {
        const struct row *row = &rows[i];
        struct finaruvom_answer a, b;
        fill(row->status, row->dated);
        double c = 1, l = 1;
        for (int pass = 0; pass < PASSES; pass++) {
            c = least(c, timed(plain_apply, row, plain, &b));
            l = least(l, timed(finaruvom_apply, row, books, &a));
        }
        if (a.refusal != row->refusal || !same(&a, &b) || memcmp(books, plain, sizeof books) != 0) {
            fprintf(stderr, "%s: the two differ\n", row->name);
            return 1;
        }
        copied = books_copied = 0;
        a = finaruvom_apply(&books[0], row->bytes, row->n);
        printf("%-20s %10.0f %10.0f %8.1f %8zu %14zu\n", row->name, 1e9 * c, 1e9 * l, l / c, books_copied, copied);
    }
    double copies = 1;
    for (int pass = 0; pass < PASSES; pass++)
        copies = least(copies, timed_copies(books));
    printf("%-20s %10s %10.0f\n", "two copies alone", "", 1e9 * copies);
    if (!timed_closings() || !timed_journal()) {
        fprintf(stderr, "the two closings or runs differ\n");
        return 1;
    }
    return 0;
}
