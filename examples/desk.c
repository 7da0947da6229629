// A desk's program: it files the commands of a journal one by one, pays what is answered, keeps its fee, and shows that the journal gives the same book again.
//     gcc -Wall -Iinclude examples/desk.c target/staticlib/libfinaruvom.a -o target/desk && target/desk examples/week.journal
#include "finaruvom.h"
#include <inttypes.h>
#include <stdio.h>
#include <stdlib.h>
#include <string.h>

// The fee is in ten-thousandths of what the merchant is paid: 2.5 in a hundred.
enum { INPUT = 65536, COMMANDS = INPUT / 3, BATCH = 8, FEE = 250 };

// Bank holidays, beside the weekends. Channel 1 is closed on Tuesday 2026-11-03 with two days to answer: the Thursday is shut, so it has until Friday 00:00:00.
static const uint32_t holidays[] = {20261105, 20261225, 20261228};
static const size_t holidays_n = sizeof holidays / sizeof holidays[0];

static uint8_t input[INPUT + 1]; // one byte more tells a journal that is too long
static size_t input_n;
static struct finaruvom_book book;
static struct finaruvom_answer answers[COMMANDS]; // what a desk keeps beside its journal
static size_t filed;

static void must(bool holds, const char *what) {
    if (!holds) {
        fprintf(stderr, "desk: %s\n", what);
        exit(1);
    }
}

static const char *name_of(uint8_t first) {
    static const char *const names[] = {"no command", "clock", "establish", "fund customer", "fund merchant", "reclaim", "mutual close",
                                        "customer closes", "merchant closes", "dispute", "settle"};
    return first < sizeof names / sizeof names[0] ? names[first] : names[0];
}

// The header and the library are of one version.
static void check_version(void) {
    struct finaruvom_versions v = finaruvom_version();
    must(v.major == FINARUVOM_VERSION_MAJOR && v.minor == FINARUVOM_VERSION_MINOR && v.layout == FINARUVOM_LAYOUT, "another library than the header's");
}

static void read_input(const char *path) {
    FILE *file = fopen(path, "rb");
    must(file != NULL, "no journal");
    input_n = fread(input, 1, sizeof input, file);
    must(ferror(file) == 0 && fclose(file) == 0, "the journal cannot be read");
    must(input_n >= FINARUVOM_ID_SIZE && input_n <= INPUT, "no book id, or a journal that is too long");
}

// A new book of the desk's: a till's delay of 0 stands for two days in it, it has the fee that was agreed, and no deadline on a day when the bank is shut.
static void open_new(struct finaruvom_book *lent) {
    struct finaruvom_settings settings = finaruvom_desk_settings();
    settings.fee = FEE;
    settings.dated = true;
    must(finaruvom_open_with(lent, input, FINARUVOM_ID_SIZE, settings, holidays, holidays_n) == FINARUVOM_ACCEPTED, "the opening was refused");
}

// What the desk knows of a channel after a command: also the deadline of a closing that was just filed, where it was moved, and which channel is due next.
static void show(size_t n) {
    struct finaruvom_reading r = finaruvom_read(&book, n);
    must(r.refusal == FINARUVOM_ACCEPTED, "an unsound book");
    printf("    channel %zu: status %" PRIu32 ", held %" PRIu64 " of %" PRIu64 ", deadline %" PRIu64, n, r.status, r.held, r.total, r.deadline);
    uint64_t unmoved = book.clock + book.channels[n].delay;
    if (r.deadline != 0 && r.deadline != unmoved)
        printf(", moved from %" PRIu64 " by %" PRIu64 " hours", unmoved, (r.deadline - unmoved) / 3600);
    struct finaruvom_found due = finaruvom_due(&book);
    if (due.some)
        printf("; due next: channel %u\n", due.channel);
    else
        puts("; none is due");
}

// One command: here a desk has written it to its journal already, pays what is answered, and keeps the fee.
static void file_command(const uint8_t *command, size_t n) {
    struct finaruvom_answer a = finaruvom_apply(&book, command, n);
    must(filed < COMMANDS, "too many commands");
    answers[filed++] = a;
    printf("%2zu %s: ", filed, name_of(command[0]));
    if (a.refusal != FINARUVOM_ACCEPTED)
        printf("refused with %" PRIu32 "\n", a.refusal);
    else if (a.customer == 0 && a.merchant == 0)
        puts("carried out");
    else
        printf("pays %" PRIu64 " to the customer, %" PRIu64 " to the merchant, fee %" PRIu64 "\n", a.customer, a.merchant, a.fee);
    if (a.refusal == FINARUVOM_ACCEPTED && command[0] > 5)
        show((size_t)(command[1] << 8 | command[2]));
}

// Files the commands behind the id, as they came from the tills.
static void file_all(void) {
    size_t at = FINARUVOM_ID_SIZE;
    while (at < input_n) {
        size_t n = finaruvom_size(input[at]);
        must(n != 0 && n <= input_n - at, "a command that is unknown or cut short");
        file_command(input + at, n);
        at += n;
    }
}

// After a crash: a book opened with the same id, settings and dates, and the journal run again, so many lines at a time. Answers and book are the same.
static void recover(void) {
    static struct finaruvom_book again;
    struct finaruvom_line lines[BATCH];
    size_t at = FINARUVOM_ID_SIZE, line = 0;
    struct finaruvom_ran ran;
    open_new(&again);
    do {
        ran = finaruvom_run(&again, input + at, input_n - at, lines, BATCH);
        must(line + ran.lines <= filed && memcmp(lines, answers + line, ran.lines * sizeof lines[0]) == 0, "other answers");
        at += ran.used;
        line += ran.lines;
    } while (ran.cause == FINARUVOM_NO_LINE);
    must(ran.cause == FINARUVOM_NO_BYTES && line == filed, "another number of lines");
    must(memcmp(&again, &book, sizeof book) == 0, "another book");
    printf("run again: %zu lines, the same answers and the same book\n", line);
}

// An opening that is refused leaves every byte of the book.
static void refuse_opening(struct finaruvom_settings settings, const uint32_t *dates, size_t dates_n, uint32_t refusal, const char *with) {
    struct finaruvom_book before = book;
    uint32_t is = finaruvom_open_with(&book, input, FINARUVOM_ID_SIZE, settings, dates, dates_n);
    must(is == refusal && memcmp(&before, &book, sizeof book) == 0, "a refused opening left a trace");
    printf("an opening with %s: refused with %" PRIu32 ", and every byte stays\n", with, is);
}

// So does a refused command.
static void refuse(void) {
    static const uint8_t settle[] = {0x0a, 0, FINARUVOM_CHANNELS};
    static const uint32_t dates[] = {20261228, 20261225, 20260229};
    struct finaruvom_book before = book;
    struct finaruvom_answer a = finaruvom_apply(&book, settle, sizeof settle);
    must(a.refusal == FINARUVOM_CHANNEL && memcmp(&before, &book, sizeof book) == 0, "a refused command left a trace");
    puts("a settle of channel 64, which no book has: refused with 4, and every byte stays");
    struct finaruvom_settings settings = finaruvom_plain_settings();
    settings.delay = FINARUVOM_SHORTEST_DELAY - 1;
    refuse_opening(settings, dates, 0, FINARUVOM_SETTINGS_DELAY, "a default delay of 3,599 seconds");
    settings = finaruvom_desk_settings();
    settings.fee = FINARUVOM_HIGHEST_FEE + 1;
    refuse_opening(settings, dates, 0, FINARUVOM_SETTINGS_FEE, "a fee of 1,001 ten-thousandths");
    settings = finaruvom_desk_settings();
    settings.dated = true;
    refuse_opening(settings, dates, 3, FINARUVOM_SETTINGS_DATE, "29 February 2026 among its dates");
    refuse_opening(settings, dates, 2, FINARUVOM_SETTINGS_DATES, "a date behind a later one");
}

// A book that was damaged where it shows, and one of another layout: every call says so.
static void damage(void) {
    static const uint8_t clock[9] = {1, 0x7f};
    struct finaruvom_book damaged = book, older = book;
    damaged.channels[5].status = 9;
    older.mark--;
    must(finaruvom_apply(&damaged, clock, sizeof clock).refusal == FINARUVOM_UNSOUND, "a damaged book was taken");
    must(finaruvom_read(&older, 0).refusal == FINARUVOM_UNSOUND && !finaruvom_due(&older).some, "a book of another layout was taken");
    puts("a damaged book, and one of another layout: refused with 99");
}

int main(int argc, char **argv) {
    must(argc == 2, "desk JOURNAL");
    check_version();
    read_input(argv[1]);
    open_new(&book);
    file_all();
    recover();
    refuse();
    damage();
    return 0;
}
