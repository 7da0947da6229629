// A journal in, the bank's file out: it runs a journal from standard input, collects the payments, and puts them out as the bank takes them.
//     gcc -Wall -Iinclude examples/bank.c target/staticlib/libfinaruvom.a -o target/bank-file && target/bank-file <examples/week.journal >target/week.bank
// Where something is refused, nothing goes out but one line to standard error, and the status is 1.
#include "finaruvom.h"
#include <inttypes.h>
#include <stdio.h>
#include <stdlib.h>

// A line for each three bytes, since the shortest command has three; at most two payments a line.
enum { INPUT = 65536, LINES = INPUT / 3, PAYMENTS = 2 * LINES };

static uint8_t input[INPUT + 1]; // one byte more tells a journal that is too long
static size_t input_n;
static struct finaruvom_book book;
static struct finaruvom_line lines[LINES];
static struct finaruvom_payment payments[PAYMENTS];
static uint8_t entries[PAYMENTS * FINARUVOM_ENTRY_SIZE];

static void must(bool holds, const char *what) {
    if (!holds) {
        fprintf(stderr, "bank: %s\n", what);
        exit(1);
    }
}

static void accepted(uint64_t refusal, const char *what) {
    if (refusal != FINARUVOM_ACCEPTED) {
        fprintf(stderr, "bank: %s was refused with %" PRIu64 "\n", what, refusal);
        exit(1);
    }
}

// The header and the library are of one version.
static void check_version(void) {
    struct finaruvom_versions v = finaruvom_version();
    must(v.major == FINARUVOM_VERSION_MAJOR && v.minor == FINARUVOM_VERSION_MINOR && v.layout == FINARUVOM_LAYOUT, "another library than the header's");
}

static void read_input(void) {
    input_n = fread(input, 1, sizeof input, stdin);
    must(ferror(stdin) == 0, "the journal cannot be read");
    must(input_n >= FINARUVOM_ID_SIZE, "no book id");
    must(input_n <= INPUT, "a journal that is too long");
}

// Runs the whole journal and gives the number of its lines; the payments of half a journal are no file for the bank. The opening is the plain one, as in the
// statement program: a desk gives the settings that its own book has.
static size_t run_journal(void) {
    accepted(finaruvom_open(&book, input, FINARUVOM_ID_SIZE), "the opening");
    struct finaruvom_ran ran = finaruvom_run(&book, input + FINARUVOM_ID_SIZE, input_n - FINARUVOM_ID_SIZE, lines, LINES);
    must(ran.cause == FINARUVOM_NO_BYTES, "a command that is unknown or cut short");
    return ran.lines;
}

// Collects the payments of the journal with so many lines, and gives their number.
static size_t collect_payments(size_t lines_n) {
    struct finaruvom_counted collected =
        finaruvom_collect(input + FINARUVOM_ID_SIZE, input_n - FINARUVOM_ID_SIZE, lines, lines_n, payments, PAYMENTS);
    accepted(collected.refusal, "the collecting");
    return collected.payments;
}

// Writes so many payments, and gives the bytes that they take. A payment of more than fifteen digits is refused here, with 17, and no other is written.
static size_t write_entries(size_t payments_n) {
    struct finaruvom_counted written = finaruvom_write(payments, payments_n, entries, sizeof entries);
    accepted(written.refusal, "the writing");
    return written.payments * FINARUVOM_ENTRY_SIZE;
}

// Puts the file out, to its last byte: the close, too, can fail.
static void put_out(size_t n) {
    must(fwrite(entries, 1, n, stdout) == n && fclose(stdout) == 0, "the file cannot be written");
}

int main(void) {
    check_version();
    read_input();
    put_out(write_entries(collect_payments(run_journal())));
    return 0;
}
