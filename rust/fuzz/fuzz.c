// Random strings, books, dates, signers, payments and lengths into every exported function: fuzz SECONDS [SEED].
// The archive itself is not instrumented. AddressSanitizer sees its calls of memcpy on buffers of exact size, and pages
// without access next to a buffer, or without writing where it is only read, stop any other access.
#define _GNU_SOURCE
#include "finaruvom.h"
#include <sanitizer/asan_interface.h>
#include <stdio.h>
#include <stdlib.h>
#include <string.h>
#include <sys/mman.h>
#include <time.h>

static uint64_t round_seed;
static uint64_t state;

static uint64_t number(void) {
    uint64_t mixed = state += 0x9e3779b97f4a7c15;
    mixed = (mixed ^ (mixed >> 30)) * 0xbf58476d1ce4e5b9;
    mixed = (mixed ^ (mixed >> 27)) * 0x94d049bb133111eb;
    return mixed ^ (mixed >> 31);
}

static size_t below(size_t limit) {
    return (size_t)(number() % limit);
}

// Called when the program dies as well.
static void tell_seed(void) {
    fprintf(stderr, "run it again: fuzz 0 %llu\n", (unsigned long long)round_seed);
}

static void require(bool holds, const char *what) {
    if (!holds) {
        fprintf(stderr, "%s\n", what);
        tell_seed();
        exit(1);
    }
}

// A buffer to lend: from malloc where `mapped` is null, else at the start or end of pages between two without access.
struct buffer {
    uint8_t *bytes;
    size_t n;
    uint8_t *mapped;
    size_t mapped_n;
};

enum { PAGE = 4096 };

static struct buffer lend(size_t n) {
    struct buffer buffer = {.n = n};
    if (below(3) == 0) {
        buffer.bytes = malloc(n);
        require(buffer.bytes != NULL, "no memory");
    } else {
        size_t inner = (n + PAGE - 1) / PAGE * PAGE;
        buffer.mapped_n = inner + 2 * PAGE;
        buffer.mapped = mmap(NULL, buffer.mapped_n, PROT_NONE, MAP_PRIVATE | MAP_ANONYMOUS, -1, 0);
        require(buffer.mapped != MAP_FAILED, "no pages");
        uint8_t *start = buffer.mapped + PAGE;
        require(inner == 0 || mprotect(start, inner, PROT_READ | PROT_WRITE) == 0, "no access");
        buffer.bytes = below(2) == 0 ? start : start + inner - n;
    }
    for (size_t i = 0; i < n; i++) {
        buffer.bytes[i] = (uint8_t)number();
    }
    return buffer;
}

// From now on the buffer is only read.
static void seal(const struct buffer *buffer) {
    if (buffer->mapped_n > 2 * PAGE) {
        require(mprotect(buffer->mapped + PAGE, buffer->mapped_n - 2 * PAGE, PROT_READ) == 0, "no access");
    }
}

static void give_back(struct buffer buffer) {
    if (buffer.mapped == NULL) {
        free(buffer.bytes);
    } else {
        munmap(buffer.mapped, buffer.mapped_n);
    }
}

// A string that may be a command; mostly of the right length and with a channel that exists.
static struct buffer command(void) {
    static const size_t lengths[] = {1, 9, 135, 11, 11, 1455, 2923, 2955, 1455, 1487, 3, 1};
    size_t first = below(12);
    size_t n = below(8) == 0 ? below(3000) : lengths[first] + (below(8) == 0) - (below(8) == 0);
    struct buffer string = lend(n);
    if (n >= 3) {
        string.bytes[0] = (uint8_t)first;
        string.bytes[1] = 0;
        string.bytes[2] %= 66;
    }
    if (first == 2 && n >= 115 && below(2) == 0) {
        memcpy(string.bytes + 3, "\0\0\0\6\0\0\0\4", 8);
        memcpy(string.bytes + 59, "\0\0\0\6\0\0\0\4", 8);
        memset(string.bytes + 115, 0, n - 115);
        size_t deposit = below(2) == 0 ? 122 : 130; // the customer's alone, or the merchant's
        string.bytes[n > deposit ? deposit : n - 1] = 9;
    }
    return string;
}

static void call_hash(void) {
    static const size_t lengths[] = {0, 1, 55, 56, 63, 64, 65, 1000, 65535, 65536, 65537};
    struct buffer bytes = lend(lengths[below(11)]), digest = lend(FINARUVOM_DIGEST_SIZE);
    seal(&bytes);
    uint32_t refusal = finaruvom_hash(bytes.bytes, bytes.n, digest.bytes);
    require(refusal == (bytes.n > 65536 ? FINARUVOM_LENGTH : FINARUVOM_ACCEPTED), "hash: refusal");
    give_back(bytes);
    give_back(digest);
}

static void call_check(void) {
    static const size_t keys[] = {0, 1, 55, 56, 56, 56, 57};
    static const size_t messages[] = {0, 1, 19, 67, 1023, 1024, 1025};
    static const size_t signatures[] = {0, 4, 1451, 1452, 1452, 1452, 1453};
    struct buffer key = lend(keys[below(7)]), message = lend(messages[below(7)]);
    struct buffer signature = lend(signatures[below(7)]), verdict = lend(sizeof(bool));
    struct buffer steps = lend(sizeof(uint32_t)), leaf = lend(sizeof(uint32_t));
    verdict.bytes[0] &= 1;
    if (key.n >= 8 && signature.n >= 1132) {
        memcpy(key.bytes, "\0\0\0\6\0\0\0\4", 8);
        memcpy(signature.bytes, "\0\0\1\2\0\0\0\4", 8);
        memcpy(signature.bytes + 1128, "\0\0\0\6", 4);
    }
    seal(&key);
    seal(&message);
    seal(&signature);
    uint32_t refusal = finaruvom_check(key.bytes, key.n, message.bytes, message.n, signature.bytes, signature.n,
                                       (bool *)verdict.bytes, (uint32_t *)steps.bytes, (uint32_t *)leaf.bytes);
    require(refusal == (message.n > 1024 ? FINARUVOM_LENGTH : FINARUVOM_ACCEPTED), "check: refusal");
    require(verdict.bytes[0] <= 1, "check: verdict");
    uint32_t signed_by = *(uint32_t *)leaf.bytes;
    require(verdict.bytes[0] == 1 ? signed_by < FINARUVOM_LEAVES : signed_by == 0, "check: leaf");
    give_back(key);
    give_back(message);
    give_back(signature);
    give_back(verdict);
    give_back(steps);
    give_back(leaf);
}

static void call_open(struct finaruvom_book *book) {
    struct buffer id = lend(below(4) == 0 ? below(40) : FINARUVOM_ID_SIZE);
    seal(&id);
    struct finaruvom_book before = *book;
    uint32_t refusal = finaruvom_open(book, id.bytes, id.n);
    require(refusal == (id.n == FINARUVOM_ID_SIZE ? FINARUVOM_ACCEPTED : FINARUVOM_LENGTH), "open: refusal");
    require(refusal == FINARUVOM_ACCEPTED || memcmp(&before, book, sizeof before) == 0, "open: refused, and the book changed");
    give_back(id);
}

// Dates to lend, whether they are a list, and the refusal that a list of them gives.
struct list {
    struct buffer dates;
    size_t n;
    bool dated;
    uint32_t refusal;
};

// Dates that rise, few or more than 64, at times with an equal pair or a number that is no date.
static struct list dates(void) {
    static const size_t counts[] = {0, 1, 2, 63, 64, 65, 70};
    static const uint32_t none[] = {0, 19691231, 24000101, 20260431, 21000229, 20261301, 120261225, UINT32_MAX};
    struct list list = {.n = counts[below(7)], .dated = below(4) != 0};
    list.dates = lend(list.n * sizeof(uint32_t));
    uint32_t *numbers = (uint32_t *)list.dates.bytes, year = 1970 + (uint32_t)below(430);
    for (size_t i = 0; i < list.n; i++) {
        numbers[i] = (uint32_t)(year * 10000 + (1 + i / 28) * 100 + 1 + i % 28);
    }
    bool equal = list.n > 1 && below(6) == 0, bad = list.n > 0 && below(4) == 0;
    if (equal) {
        size_t at = below(list.n - 1);
        numbers[at] = numbers[at + 1];
    }
    if (bad) {
        numbers[below(list.n)] = none[below(8)];
    }
    bool refused = equal || list.n > FINARUVOM_MOST_DATES;
    list.refusal = bad ? FINARUVOM_SETTINGS_DATE : refused ? FINARUVOM_SETTINGS_DATES : FINARUVOM_ACCEPTED;
    return list;
}

// As many rising days as there were dates, none without a list, and zeros behind them.
static void require_days(const struct finaruvom_setup *setup, const struct list *list) {
    require(setup->dated == list->dated && setup->count == (list->dated ? list->n : 0), "open_with: list");
    for (size_t i = 0; i < FINARUVOM_MOST_DATES; i++) {
        uint32_t day = setup->days[i];
        bool rises = day < FINARUVOM_DAYS && (i == 0 || setup->days[i - 1] < day);
        require(i < setup->count ? rises : day == 0, "open_with: days");
    }
}

// A default and a fee in range, at their edges, or any, and dates.
static void call_open_with(struct finaruvom_book *book) {
    static const uint32_t delays[] = {0, 3599, 3600, 172800, 2592000, 2592001, UINT32_MAX}, fees[] = {0, 1, 250, 999, 1000, 1001, UINT32_MAX};
    struct buffer id = lend(below(4) == 0 ? below(40) : FINARUVOM_ID_SIZE);
    struct list list = dates();
    struct finaruvom_settings settings = below(2) == 0 ? finaruvom_plain_settings() : finaruvom_desk_settings();
    settings.dated = list.dated;
    if (below(2) == 0) {
        settings.delay = below(4) == 0 ? (uint32_t)number() : delays[below(7)];
    }
    if (below(2) == 0) {
        settings.fee = below(8) == 0 ? (uint32_t)number() : fees[below(7)];
    }
    seal(&id);
    seal(&list.dates);
    struct finaruvom_book before = *book;
    uint32_t refusal = finaruvom_open_with(book, id.bytes, id.n, settings, (const uint32_t *)list.dates.bytes, list.n);
    bool fits = settings.delay >= FINARUVOM_SHORTEST_DELAY && settings.delay <= FINARUVOM_LONGEST_DELAY;
    uint32_t of_list = list.dated ? list.refusal : FINARUVOM_ACCEPTED;
    uint32_t wrong = !fits ? FINARUVOM_SETTINGS_DELAY : settings.fee > FINARUVOM_HIGHEST_FEE ? FINARUVOM_SETTINGS_FEE : of_list;
    require(refusal == (id.n != FINARUVOM_ID_SIZE ? FINARUVOM_LENGTH : wrong), "open_with: refusal");
    if (refusal == FINARUVOM_ACCEPTED) {
        require(book->setup.delay == settings.delay && book->setup.fee == settings.fee, "open_with: default or fee");
        require_days(&book->setup, &list);
    } else {
        require(memcmp(&before, book, sizeof before) == 0, "open_with: refused, and the book changed");
    }
    give_back(id);
    give_back(list.dates);
}

static void call_apply(struct finaruvom_book *book) {
    struct buffer string = command();
    seal(&string);
    struct finaruvom_answer answer = finaruvom_apply(book, string.bytes, string.n);
    require(answer.refusal <= FINARUVOM_CUSTOMER || answer.refusal == FINARUVOM_SPENT_LEAF || answer.refusal == FINARUVOM_UNSOUND, "apply: refusal");
    require(answer.refusal == FINARUVOM_ACCEPTED || (answer.customer == 0 && answer.merchant == 0 && answer.fee == 0), "apply: paid");
    unsigned __int128 amount = (unsigned __int128)answer.merchant + answer.fee;
    require(answer.fee == amount * book->setup.fee / 10000, "apply: fee");
    give_back(string);
}

static void call_run(struct finaruvom_book *book) {
    struct buffer string = command(), lines = lend(below(4) * sizeof(struct finaruvom_line));
    size_t lines_n = lines.n / sizeof(struct finaruvom_line);
    seal(&string);
    struct finaruvom_line *first = (struct finaruvom_line *)lines.bytes;
    struct finaruvom_ran ran = finaruvom_run(book, string.bytes, string.n, first, lines_n);
    require(ran.lines <= lines_n && ran.used <= string.n, "run: lines or bytes");
    require(ran.cause <= FINARUVOM_CUT_SHORT || ran.cause == FINARUVOM_NO_LINE, "run: cause");
    give_back(string);
    give_back(lines);
}

static void call_read(const struct finaruvom_book *book) {
    struct finaruvom_reading reading = finaruvom_read(book, below(2) == 0 ? below(66) : (size_t)number());
    uint32_t refusal = reading.refusal;
    require(refusal == FINARUVOM_ACCEPTED || refusal == FINARUVOM_CHANNEL || refusal == FINARUVOM_UNSOUND, "read: refusal");
    require(reading.status <= FINARUVOM_CLOSED, "read: status");
    struct finaruvom_found found = finaruvom_due(book);
    require(found.some ? found.channel < FINARUVOM_CHANNELS : found.channel == 0, "due: channel");
}

// A key making that is refused: an accepted one takes seconds.
static void call_make_key(struct finaruvom_signer *signer) {
    static const size_t seeds[] = {0, 1, 31, 33, 64}, ids[] = {0, 1, 15, 16, 17};
    struct buffer seed = lend(seeds[below(5)]), id = lend(ids[below(5)]);
    seal(&seed);
    seal(&id);
    require(finaruvom_make_key(signer, seed.bytes, seed.n, id.bytes, id.n) == FINARUVOM_LENGTH, "make_key: refusal");
    require(signer->next == FINARUVOM_LEAVES, "make_key: next leaf");
    give_back(seed);
    give_back(id);
}

static void call_sign(struct finaruvom_signer *signer) {
    static const size_t nonces[] = {0, 31, 32, 32, 32, 33}, messages[] = {0, 1, 67, 1023, 1024, 1025};
    static const uint32_t nexts[] = {0, 1, 1022, 1023, 1024, UINT32_MAX};
    struct buffer nonce = lend(nonces[below(6)]), message = lend(messages[below(6)]);
    uint32_t next = signer->next = nexts[below(6)];
    seal(&nonce);
    seal(&message);
    struct finaruvom_signature made = finaruvom_sign(signer, nonce.bytes, nonce.n, message.bytes, message.n);
    bool fits = nonce.n == FINARUVOM_NONCE_SIZE && message.n <= FINARUVOM_LONGEST_MESSAGE;
    uint32_t refusal = !fits ? FINARUVOM_LENGTH : next < FINARUVOM_LEAVES ? FINARUVOM_ACCEPTED : FINARUVOM_NO_LEAF;
    require(made.refusal == refusal, "sign: refusal");
    require(signer->next == next + (refusal == FINARUVOM_ACCEPTED), "sign: next leaf");
    give_back(nonce);
    give_back(message);
}

// Calls on one signer, which is random bytes.
static void signings(void) {
    struct buffer lent = lend(sizeof(struct finaruvom_signer));
    struct finaruvom_signer *signer = (struct finaruvom_signer *)lent.bytes;
    for (int i = 0; i < 3; i++) {
        call_sign(signer);
    }
    call_make_key(signer);
    call_sign(signer);
    give_back(lent);
}

// The bytes of the lent list or buffer before a call of the bank.
static uint8_t former[8 * FINARUVOM_PAYMENT_SIZE];

static void remember(const struct buffer *lent) {
    require(lent->n <= sizeof former, "no room to remember");
    memcpy(former, lent->bytes, lent->n);
}

// A refused call answers 0 payments; all that is behind the last payment is as it was before.
static void require_kept(const struct buffer *lent, struct finaruvom_counted counted, size_t width, const char *what) {
    require(counted.refusal == FINARUVOM_ACCEPTED || counted.payments == 0, what);
    require(counted.payments <= lent->n / width, what);
    size_t written = counted.payments * width;
    require(memcmp(former + written, lent->bytes + written, lent->n - written) == 0, what);
}

// Short commands one after the other; the last one may be cut, and one in seven is unknown.
static struct buffer commands(void) {
    static const uint8_t firsts[] = {0x01, 0x03, 0x04, 0x0a, 0x0a, 0x0a, 0x0b};
    struct buffer string = lend(below(60));
    for (size_t at = 0; at < string.n;) {
        string.bytes[at] = firsts[below(7)];
        size_t size = finaruvom_size(string.bytes[at]);
        at += size == 0 ? 1 : size;
    }
    return string;
}

static void call_collect(void) {
    struct buffer string = commands(), lines = lend(below(8) * sizeof(struct finaruvom_line));
    struct buffer list = lend(below(9) * sizeof(struct finaruvom_payment));
    for (size_t i = 0; i < lines.n; i += 8) {
        memset(lines.bytes + i, 0, 8 * below(2)); // an amount, the fee, or steps and refusal
    }
    remember(&list);
    seal(&string);
    seal(&lines);
    struct finaruvom_counted counted =
        finaruvom_collect(string.bytes, string.n, (const struct finaruvom_line *)lines.bytes, lines.n / sizeof(struct finaruvom_line),
                          (struct finaruvom_payment *)list.bytes, list.n / sizeof(struct finaruvom_payment));
    require(counted.refusal == FINARUVOM_ACCEPTED || counted.refusal == FINARUVOM_ROOM, "collect: refusal");
    require_kept(&list, counted, sizeof(struct finaruvom_payment), "collect: payments, or the list behind them");
    give_back(string);
    give_back(lines);
    give_back(list);
}

// Payments that entries hold, or random bytes, which none holds.
static void call_write(void) {
    size_t n = below(6);
    struct buffer list = lend(n * sizeof(struct finaruvom_payment)), buffer = lend(below(70));
    struct finaruvom_payment *payments = (struct finaruvom_payment *)list.bytes;
    bool held = n == 0 || below(4) != 0;
    for (size_t i = 0; i < n && held; i++) {
        payments[i].party = below(2) == 0 ? FINARUVOM_TO_CUSTOMER : FINARUVOM_TO_MERCHANT;
        payments[i].channel = below(FINARUVOM_CHANNELS);
        payments[i].amount = 1 + number() % FINARUVOM_LARGEST_AMOUNT;
    }
    remember(&buffer);
    seal(&list);
    struct finaruvom_counted counted = finaruvom_write(payments, n, buffer.bytes, buffer.n);
    uint64_t refusal = !held ? FINARUVOM_PAYMENT : buffer.n < n * FINARUVOM_ENTRY_SIZE ? FINARUVOM_ROOM : FINARUVOM_ACCEPTED;
    require(counted.refusal == refusal, "write: refusal");
    require(counted.payments == (refusal == FINARUVOM_ACCEPTED ? n : 0), "write: payments");
    require_kept(&buffer, counted, FINARUVOM_ENTRY_SIZE, "write: the buffer behind the entries");
    give_back(list);
    give_back(buffer);
}

// Entries, at times with a bit turned over, or random bytes, of any length.
static struct buffer entries(void) {
    struct buffer string = lend(below(6) * FINARUVOM_ENTRY_SIZE + (below(4) == 0 ? below(12) : 0));
    bool made = below(4) != 0;
    for (size_t at = 0; at < string.n && made; at++) {
        size_t place = at % FINARUVOM_ENTRY_SIZE;
        uint8_t digits = (uint8_t)(below(10) << 4 | (place == FINARUVOM_ENTRY_SIZE - 1 ? 0xc : below(10)));
        string.bytes[at] = place == 0 ? (uint8_t)(1 + below(2)) : place == 1 ? 0 : place == 2 ? (uint8_t)below(64) : digits;
    }
    if (string.n > 0 && below(3) == 0) {
        string.bytes[below(string.n)] ^= (uint8_t)(1 << below(8));
    }
    return string;
}

// What is accepted is written again as the same bytes.
static void call_read_payments(void) {
    struct buffer string = entries(), list = lend(below(9) * sizeof(struct finaruvom_payment));
    struct finaruvom_payment *payments = (struct finaruvom_payment *)list.bytes;
    remember(&list);
    seal(&string);
    struct finaruvom_counted counted = finaruvom_read_payments(string.bytes, string.n, payments, list.n / sizeof *payments);
    bool room = string.n % FINARUVOM_ENTRY_SIZE == 0 && string.n / FINARUVOM_ENTRY_SIZE <= list.n / sizeof *payments;
    bool readable = counted.refusal == FINARUVOM_ACCEPTED || counted.refusal == FINARUVOM_ENTRY;
    require(room ? readable : counted.refusal == FINARUVOM_ROOM, "read_payments: refusal");
    require_kept(&list, counted, sizeof *payments, "read_payments: payments, or the list behind them");
    if (counted.refusal == FINARUVOM_ACCEPTED) {
        struct buffer again = lend(string.n);
        struct finaruvom_counted written = finaruvom_write(payments, counted.payments, again.bytes, again.n);
        require(written.refusal == FINARUVOM_ACCEPTED, "read_payments: not written again");
        require(written.payments == string.n / FINARUVOM_ENTRY_SIZE, "read_payments: payments written again");
        require(memcmp(again.bytes, string.bytes, string.n) == 0, "read_payments: written again otherwise");
        give_back(again);
    }
    give_back(string);
    give_back(list);
}

// Every channel of a fresh book as one that its merchant closed, with any deposit: settling it pays him.
static void close_all(struct finaruvom_book *book) {
    for (size_t n = 0; n < FINARUVOM_CHANNELS; n++) {
        book->channels[n].status = FINARUVOM_MERCHANT_CLOSING;
        book->channels[n].delay = FINARUVOM_SHORTEST_DELAY;
        book->channels[n].merchant.deposit = number() >> (1 + below(63));
    }
}

// Some calls on one book, which is opened, or random bytes, or opened and then changed in one place or in every channel.
static void one_round(void) {
    struct buffer lent = lend(sizeof(struct finaruvom_book));
    struct finaruvom_book *book = (struct finaruvom_book *)lent.bytes;
    size_t opening = below(4);
    if (opening == 1) {
        call_open_with(book);
    } else if (opening != 0) {
        call_open(book);
    }
    if (opening != 0 && below(4) == 0) {
        close_all(book);
    }
    if (below(8) == 0) {
        lent.bytes[below(lent.n)] = (uint8_t)number();
    }
    for (int i = 0; i < 50; i++) {
        call_apply(book);
        call_run(book);
        call_read(book);
        call_collect();
        call_write();
        call_read_payments();
    }
    call_open(book);
    call_open_with(book);
    call_check();
    call_hash();
    signings();
    give_back(lent);
}

int main(int argc, char **argv) {
    require(argc >= 2, "fuzz SECONDS [SEED]");
    time_t end = time(NULL) + atol(argv[1]);
    round_seed = argc > 2 ? strtoull(argv[2], NULL, 10) : 1;
    __asan_set_death_callback(tell_seed);
    require(finaruvom_version().layout == FINARUVOM_LAYOUT, "version: layout");
    uint64_t rounds = 0;
    do {
        state = round_seed;
        one_round();
        round_seed++;
        rounds++;
    } while (time(NULL) < end);
    printf("%llu rounds of random calls, no access outside of what was lent\n", (unsigned long long)rounds);
    return 0;
}
