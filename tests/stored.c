// Stored books: stored FOLDER, which has a book of each layout, written after 18 commands of examples/week.journal, this layout's in a book that was opened
// with the plain delay, a fee of 250 and the dates 20261101, 20261103 and 20261225. This layout's is read as it was written; every other, and one with a
// default delay out of range, is answered with 99, and an opening over it leaves the bytes of every fresh book.
#include "../include/finaruvom.h"
#include <stdio.h>
#include <stdlib.h>
#include <string.h>

static const uint8_t id[FINARUVOM_ID_SIZE] = {7, 1}, clock_command[9] = {1, 0, 0, 0, 0, 0, 0, 3, 0xe8};
static struct finaruvom_book stored, lent, fresh;

static void must(bool holds, const char *what) {
    if (!holds) {
        fprintf(stderr, "stored: %s\n", what);
        exit(1);
    }
}

// Bytes of a book by its layout.
static const size_t sizes[] = {0, 12320, 11808, 11816, 12328, 12328, 12592};
_Static_assert(sizeof sizes / sizeof sizes[0] == FINARUVOM_LAYOUT + 1, "a size for each layout");

// The first bytes of the book of a layout, as a desk would read them that did not look at the file's length; zeros behind a shorter one.
static void load(const char *folder, unsigned layout) {
    char path[4096];
    size_t n = sizes[layout] < sizeof stored ? sizes[layout] : sizeof stored;
    snprintf(path, sizeof path, "%s/layout-%u.bin", folder, layout);
    memset(&stored, 0, sizeof stored);
    FILE *file = fopen(path, "rb");
    must(file != NULL && fread(&stored, 1, sizeof stored, file) == n && fclose(file) == 0, "no book of a layout");
}

// The day numbers of the three dates, and zeros behind them.
static const struct finaruvom_setup setup = {.delay = 86400, .fee = 250, .days = {20758, 20760, 20812}, .count = 3, .dated = 1};

// Channel 1 was disputed, and in channel 2 the customer answered the merchant's closing, with a deadline on the second date, a Tuesday: it is Wednesday's.
static void as_written(void) {
    struct finaruvom_reading disputed = finaruvom_read(&stored, 1), closing = finaruvom_read(&stored, 2);
    must(memcmp(stored.id, "Mill Lane Bakery", sizeof stored.id) == 0 && stored.clock == 1793671200, "this layout's book has another id or clock");
    must(stored.setup.delay == 86400 && stored.channels[1].delay == 86400, "this layout's book has another default, or channel 1 another delay");
    must(stored.setup.fee == 250, "this layout's book has another fee");
    must(memcmp(&stored.setup, &setup, sizeof setup) == 0, "this layout's book has other dates");
    must(disputed.refusal == FINARUVOM_ACCEPTED && disputed.status == FINARUVOM_CLOSED && disputed.total == 100000, "channel 1 is read otherwise");
    must(closing.status == FINARUVOM_CUSTOMER_CLOSING && closing.total == 55000 && closing.held == 20000 && closing.kept == 20000 &&
             closing.deadline == 1793750400 && closing.lock[0] == 0x58 && closing.lock[31] == 0xdf,
         "channel 2 is read otherwise");
    must(stored.channels[2].delay == 10800 && stored.channels[2].customer.deposit == 50000 && stored.channels[2].merchant.deposit == 5000 &&
             stored.channels[2].customer.key[55] == 0x32 && stored.channels[2].merchant.key[55] == 0x77,
         "channel 2 has other terms");
    must(stored.channels[1].leaves.first == 1 && stored.channels[1].leaves.second == 1, "channel 1 remembers another leaf than that of its 07");
    must(stored.channels[2].leaves.first == 3 && stored.channels[2].leaves.second == 4, "channel 2 remembers other leaves than those of its 08 and 07");
}

// Every call says that the book is not sound, and leaves every byte of it and of the lines; so do openings that are refused, by two equal dates too, or by
// one that does not exist.
static void refused(const char *what) {
    static const uint32_t dates[] = {20261225, 20261225, 20260431};
    struct finaruvom_book before = lent;
    struct finaruvom_line lines[2], unwritten;
    memset(lines, 0x55, sizeof lines);
    memset(&unwritten, 0x55, sizeof unwritten);
    must(finaruvom_apply(&lent, clock_command, sizeof clock_command).refusal == FINARUVOM_UNSOUND, what);
    must(finaruvom_apply(&lent, clock_command, 0).refusal == FINARUVOM_UNSOUND, what);
    must(finaruvom_read(&lent, 0).refusal == FINARUVOM_UNSOUND && !finaruvom_due(&lent).some, what);
    struct finaruvom_ran ran = finaruvom_run(&lent, clock_command, sizeof clock_command, lines, 2);
    must(ran.lines == 1 && lines[0].answer.refusal == FINARUVOM_UNSOUND && memcmp(&lines[1], &unwritten, sizeof unwritten) == 0, what);
    must(finaruvom_open(&lent, id, sizeof id - 1) == FINARUVOM_LENGTH, what);
    must(finaruvom_open_with(&lent, id, sizeof id, (struct finaruvom_settings){.dated = true}, dates, 3) == FINARUVOM_SETTINGS_DELAY, what);
    must(finaruvom_open_with(&lent, id, sizeof id, (struct finaruvom_settings){86400, 1001, true}, dates, 3) == FINARUVOM_SETTINGS_FEE, what);
    must(finaruvom_open_with(&lent, id, sizeof id, (struct finaruvom_settings){86400, 250, true}, dates, 3) == FINARUVOM_SETTINGS_DATE, what);
    must(finaruvom_open_with(&lent, id, sizeof id, (struct finaruvom_settings){86400, 250, true}, dates, 2) == FINARUVOM_SETTINGS_DATES, what);
    must(memcmp(&before, &lent, sizeof lent) == 0, what);
}

static void opened(const char *what) {
    must(finaruvom_open(&lent, id, sizeof id) == FINARUVOM_ACCEPTED && memcmp(&lent, &fresh, sizeof lent) == 0, what);
}

// A default out of range makes a book unsound, also one whose low bytes are in range; at the edges of the range it does not.
static void defaults(void) {
    static const uint32_t wrong[] = {0, 3599, 2592001, ((uint32_t)1 << 24) + 86400, (uint32_t)1 << 31, UINT32_MAX};
    static const uint32_t right[] = {3600, 172800, 2592000};
    lent = stored;
    for (size_t i = 0; i < sizeof wrong / sizeof wrong[0]; i++) {
        lent.setup.delay = wrong[i];
        refused("a book with a default out of range was taken");
    }
    for (size_t i = 0; i < sizeof right / sizeof right[0]; i++) {
        lent.setup.delay = right[i];
        must(finaruvom_read(&lent, 0).refusal == FINARUVOM_ACCEPTED && finaruvom_due(&lent).some, "a book with a default in range was not taken");
    }
}

int main(int argc, char **argv) {
    must(argc == 2, "stored FOLDER");
    must(finaruvom_open(&fresh, id, sizeof id) == FINARUVOM_ACCEPTED, "an opening was refused");
    for (unsigned layout = 1; layout < FINARUVOM_LAYOUT; layout++) {
        load(argv[1], layout);
        lent = stored;
        refused("a book of an older layout was taken");
        opened("an opening left bytes of an older book");
    }
    load(argv[1], FINARUVOM_LAYOUT);
    as_written();
    defaults();
    for (uint64_t number = 0; number < 256; number++) {
        lent = stored;
        lent.mark = (lent.mark & ~(uint64_t)255) | number;
        if (number != FINARUVOM_LAYOUT)
            refused("a book of another layout was taken");
    }
    for (int old = 0; old < 256; old++) {
        memset(&lent, old, sizeof lent);
        opened("a fresh book depends on what stood there");
    }
    puts("ok: this layout's book is read as written, others are answered with 99, and an opening over any bytes leaves the same ones");
    return 0;
}
