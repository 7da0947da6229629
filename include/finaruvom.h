// The channel arbiter for C (C11) and C++ (C++11) on x86-64 Linux: link libfinaruvom.a, which `tools/made finaruvom` makes.
// What the bytes of a command mean stands in docs/FORMAT.md. Every program part that includes this header is linked with the library.
//
// Any bytes may stand in a book, in a signer and in a command: nothing is asked of them. What is asked of the caller stands under "Duties" at each function,
// in these words:
// - not null: the pointer is not NULL, not even where the length beside it is 0 (lend any object then), and as many bytes stand there as the length says;
// - aligned: the address is a multiple of 8, of a signer of 4, as that of a variable of the type is, and what malloc gives;
// - alone: during the call nobody else reads or writes it, and it overlaps nothing else that the call is lent;
// - shared: others may read it at the same time, but nobody writes it;
// - stack: the bytes of stack that the thread has left are at least these.
// No call allocates, keeps a pointer, has a state of its own or fails to end. Different books are independent of each other, and so are different signers.
#ifndef FINARUVOM_H
#define FINARUVOM_H
#include <stdbool.h>
#include <stddef.h>
#include <stdint.h>

#ifdef __cplusplus
extern "C" {
#define FINARUVOM_ASSERT static_assert
#else
#define FINARUVOM_ASSERT _Static_assert
#endif

// A call whose answer must be looked at: a dropped answer is a lost payment, or a leaf used for nothing.
#define FINARUVOM_CALL __attribute__((nonnull, warn_unused_result))

// What the linker keeps though nothing reads it.
#if __has_attribute(retain)
#define FINARUVOM_KEPT __attribute__((used, retain))
#else
#define FINARUVOM_KEPT __attribute__((used))
#endif

// The version that this header belongs to, and the number of the book's layout, which the mark of every book carries.
#define FINARUVOM_VERSION_MAJOR 0
#define FINARUVOM_VERSION_MINOR 18
#define FINARUVOM_VERSION_PATCH 0
#define FINARUVOM_LAYOUT 6

// Sizes in bytes, the number of channels, and those of a signer's leaves and places for nodes.
#define FINARUVOM_ID_SIZE 16
#define FINARUVOM_KEY_SIZE 56
#define FINARUVOM_SIGNATURE_SIZE 1452
#define FINARUVOM_DIGEST_SIZE 32
#define FINARUVOM_CHANNELS 64
#define FINARUVOM_PARTY_SIZE 64
#define FINARUVOM_CHANNEL_LEAVES_SIZE 8
#define FINARUVOM_CHANNEL_SIZE 192
#define FINARUVOM_SETUP_SIZE 272
#define FINARUVOM_BOOK_SIZE 12592
#define FINARUVOM_SETTINGS_SIZE 12
#define FINARUVOM_ANSWER_SIZE 32
#define FINARUVOM_LINE_SIZE 32
#define FINARUVOM_READING_SIZE 72
#define FINARUVOM_FOUND_SIZE 2
#define FINARUVOM_RAN_SIZE 24
#define FINARUVOM_VERSIONS_SIZE 16
#define FINARUVOM_SEED_SIZE 32
#define FINARUVOM_NONCE_SIZE 32
#define FINARUVOM_LONGEST_MESSAGE 1024
#define FINARUVOM_LEAVES 1024
#define FINARUVOM_NODES 2048
#define FINARUVOM_NODE_SIZE 32
#define FINARUVOM_SIGNER_SIZE 65628
#define FINARUVOM_PAYMENT_SIZE 24
#define FINARUVOM_COUNTED_SIZE 16
#define FINARUVOM_ENTRY_SIZE 11

// Delays in seconds: the shortest and the longest, and what a delay of 0 stands for in a book of the plain opening and in a new one of the desk.
#define FINARUVOM_SHORTEST_DELAY 3600
#define FINARUVOM_LONGEST_DELAY 2592000
#define FINARUVOM_PLAIN_DELAY 86400
#define FINARUVOM_DESK_DELAY 172800

// The highest fee, in ten-thousandths of what the merchant is paid; a book of the plain opening has none, and the desk's settings have none.
#define FINARUVOM_HIGHEST_FEE 1000

// Dates that an opening can be given, and the days from 1970-01-01 to 2399-12-31: a book keeps a date as its day number, 0 for 1970-01-01.
#define FINARUVOM_MOST_DATES 64
#define FINARUVOM_DAYS 157054

// The largest amount of a bank line, in cents: fifteen digits.
#define FINARUVOM_LARGEST_AMOUNT UINT64_C(999999999999999)

// Bytes of stack that are enough for a call, the dynamic linker's part in a first call included.
#define FINARUVOM_STACK_HASH 8192
#define FINARUVOM_STACK_CHECK 8192
#define FINARUVOM_STACK_OPEN 20480
#define FINARUVOM_STACK_APPLY 24576
#define FINARUVOM_STACK_RUN 24576
#define FINARUVOM_STACK_READ 32768
#define FINARUVOM_STACK_DUE 20480
#define FINARUVOM_STACK_MAKE_KEY 77824
#define FINARUVOM_STACK_SIGN 147456
#define FINARUVOM_STACK_BANK 8192

// Refusals, in the order in which a call makes its checks.
enum finaruvom_refusal {
    FINARUVOM_ACCEPTED = 0,
    FINARUVOM_UNSOUND = 99,        // the lent book is of no opening or another layout, or a value is out of range
    FINARUVOM_UNKNOWN = 1,         // no first byte, or it is no command
    FINARUVOM_LENGTH = 2,
    FINARUVOM_SETTINGS_DELAY = 14, // the default delay given at an opening is out of range
    FINARUVOM_SETTINGS_FEE = 20,   // the fee given at an opening is above 1,000 ten-thousandths
    FINARUVOM_SETTINGS_DATE = 21,  // a date given at an opening does not exist, or its year is not 1970 to 2399
    FINARUVOM_SETTINGS_DATES = 22, // more than 64 dates given at an opening, or one that is not later than the one before it
    FINARUVOM_NO_LEAF = 15,        // the signer's leaves are all used
    FINARUVOM_TIME = 3,            // before the clock, or above 2^63 - 1
    FINARUVOM_CHANNEL = 4,         // not below 64
    FINARUVOM_STATUS = 5,          // the channel's status does not allow it
    FINARUVOM_KEYS = 6,            // other types, or equal keys
    FINARUVOM_DELAY = 7,
    FINARUVOM_CENTS = 8,           // the two deposits are not 1 to 2^63 - 1 together, a funding is not the deposit, or a closing's parts are not the total
    FINARUVOM_DEADLINE = 9,        // the clock is on its wrong side
    FINARUVOM_SECRET = 10,         // it does not hash to the lock
    FINARUVOM_MERCHANT = 11,
    FINARUVOM_CUSTOMER = 12,
    FINARUVOM_SPENT_LEAF = 16,     // a dispute with a leaf that the channel remembers
    FINARUVOM_PAYMENT = 17,        // a payment to write has another party, a channel from 64 on, or an amount of 0 or of more than fifteen digits
    FINARUVOM_ROOM = 18,           // the buffer or the lent list is too short, or the bytes to read are no multiple of 11
    FINARUVOM_ENTRY = 19,          // an entry to read is not as one is written
};

enum finaruvom_status {
    FINARUVOM_UNUSED = 0,
    FINARUVOM_AWAITING_CUSTOMER = 1, // the customer's deposit is still to come
    FINARUVOM_AWAITING_MERCHANT = 2, // after the customer's funding, or at once after a 02 in which the customer deposits nothing
    FINARUVOM_OPEN = 3,
    FINARUVOM_MERCHANT_CLOSING = 4,
    FINARUVOM_CUSTOMER_CLOSING = 5,
    FINARUVOM_CLOSED = 6,
};

// Why a run stopped.
enum finaruvom_cause {
    FINARUVOM_NO_BYTES = 0,
    FINARUVOM_NO_LINE = 13,
    FINARUVOM_UNKNOWN_BYTE = 1,
    FINARUVOM_CUT_SHORT = 2,
};

// Money is in cents, time in seconds from 1970-01-01. No struct but the settings has padding: equal values are equal bytes.
struct finaruvom_party {
    uint8_t key[FINARUVOM_KEY_SIZE];
    uint64_t deposit;
};

// The merchant's leaves that a channel remembers, those of its 08 and its 07; both are the same where there is only one. They are read in statuses 4 and 5
// alone, in 4 only the first, which is the 08's: anything may stand there in other statuses.
struct finaruvom_leaves {
    uint32_t first;
    uint32_t second;
};

struct finaruvom_channel {
    struct finaruvom_party customer;
    struct finaruvom_party merchant;
    uint64_t deadline;
    uint64_t kept;
    uint32_t delay;
    uint32_t status;
    uint8_t lock[FINARUVOM_DIGEST_SIZE];
    struct finaruvom_leaves leaves;
};

// What a book keeps of its opening: the default delay, which a 0 in command 02 stands for; the fee, in ten-thousandths of each payment to a merchant; and,
// where dated is 1, the shut dates as day numbers, the first count of days. Saturdays and Sundays are shut then too; where dated is 0 no day is. A sound book
// has a dated of 0 or 1, a count of at most FINARUVOM_MOST_DATES and strictly rising days below FINARUVOM_DAYS, whatever dated is; behind the first count of
// days anything may stand.
struct finaruvom_setup {
    uint32_t delay;
    uint32_t fee;
    uint32_t days[FINARUVOM_MOST_DATES];
    uint32_t count;
    uint32_t dated;
};

struct finaruvom_book {
    uint64_t mark;
    uint8_t id[FINARUVOM_ID_SIZE];
    struct finaruvom_setup setup;
    uint64_t clock;
    struct finaruvom_channel channels[FINARUVOM_CHANNELS];
};

// What an opening is given: the default delay, the fee in ten-thousandths, and whether it is given a list of shut dates. dated is false or true, a byte of 0 or
// 1, as C's bool always is. Start from the plain or the desk's settings: later versions may have more fields.
struct finaruvom_settings {
    uint32_t delay;
    uint32_t fee;
    bool dated;
};

// What a command answers: what it paid to each side, the chain steps of its signature checks, the refusal, or 0, and the fee. The merchant's figure is what he
// gets, after the fee that the desk keeps of this payment; the customer pays no fee.
struct finaruvom_answer {
    uint64_t customer;
    uint64_t merchant;
    uint32_t steps;
    uint32_t refusal;
    uint64_t fee;
};

// One line of a run: the command's answer.
struct finaruvom_line {
    struct finaruvom_answer answer;
};

// What a reading of a channel gives: the deadline is 0 outside statuses 4 and 5, the kept part and the lock are zeros outside 5.
struct finaruvom_reading {
    uint64_t total;
    uint64_t held;
    uint64_t deadline;
    uint64_t kept;
    uint32_t refusal;
    uint32_t status;
    uint8_t lock[FINARUVOM_DIGEST_SIZE];
};

// The channel that is due next; false and 0 where there is none.
struct finaruvom_found {
    bool some;
    uint8_t channel;
};

// What a run answers: the lines that it wrote, the bytes that it used, and why it stopped.
struct finaruvom_ran {
    size_t lines;
    size_t used;
    uint64_t cause;
};

// Whom a payment is for.
enum finaruvom_payee {
    FINARUVOM_TO_CUSTOMER = 1,
    FINARUVOM_TO_MERCHANT = 2,
};

// A payment of a list: the party as enum finaruvom_payee has it, the channel n and the amount in cents.
struct finaruvom_payment {
    uint64_t party;
    uint64_t channel;
    uint64_t amount;
};

// What collecting, writing and reading payments answer: the refusal, or 0, and the number of payments, which is 0 where it was refused.
struct finaruvom_counted {
    uint64_t refusal;
    size_t payments;
};

// The version of the library that is linked, and the layout of its books.
struct finaruvom_versions {
    uint32_t major;
    uint32_t minor;
    uint32_t patch;
    uint32_t layout;
};

// A node of a signer's tree.
struct finaruvom_node {
    uint8_t value[FINARUVOM_DIGEST_SIZE];
};

// A till's key of LMS type 6 over one-time type 4, with the private strings of RFC 8554 Appendix A. The seed is the private key: who reads it signs in the
// till's name. A leaf signs once. A signer that is copied, or put back to an older state, signs twice with one leaf and spoils the key: write the moved
// signer down, durably, before the signature leaves the till.
struct finaruvom_signer {
    uint8_t key[FINARUVOM_KEY_SIZE]; // the public key: types 6 and 4, identifier and root
    uint8_t seed[FINARUVOM_SEED_SIZE];
    uint32_t next; // the leaf that signs next, in the machine's byte order; from FINARUVOM_LEAVES on none does
    struct finaruvom_node nodes[FINARUVOM_NODES]; // node r at place r: the root at 1, the leaves from FINARUVOM_LEAVES on, zeros at 0
};

// What a signing answers: the refusal, or 0, and the signature, which is zeros where it was refused.
struct finaruvom_signature {
    uint32_t refusal;
    uint8_t bytes[FINARUVOM_SIGNATURE_SIZE];
};

FINARUVOM_ASSERT(sizeof(struct finaruvom_party) == FINARUVOM_PARTY_SIZE, "party");
FINARUVOM_ASSERT(sizeof(struct finaruvom_leaves) == FINARUVOM_CHANNEL_LEAVES_SIZE, "leaves");
FINARUVOM_ASSERT(sizeof(struct finaruvom_channel) == FINARUVOM_CHANNEL_SIZE, "channel");
FINARUVOM_ASSERT(sizeof(struct finaruvom_setup) == FINARUVOM_SETUP_SIZE, "setup");
FINARUVOM_ASSERT(sizeof(struct finaruvom_book) == FINARUVOM_BOOK_SIZE, "book");
FINARUVOM_ASSERT(sizeof(struct finaruvom_settings) == FINARUVOM_SETTINGS_SIZE, "settings");
FINARUVOM_ASSERT(sizeof(struct finaruvom_answer) == FINARUVOM_ANSWER_SIZE, "answer");
FINARUVOM_ASSERT(sizeof(struct finaruvom_line) == FINARUVOM_LINE_SIZE, "line");
FINARUVOM_ASSERT(sizeof(struct finaruvom_reading) == FINARUVOM_READING_SIZE, "reading");
FINARUVOM_ASSERT(sizeof(struct finaruvom_found) == FINARUVOM_FOUND_SIZE, "found");
FINARUVOM_ASSERT(sizeof(struct finaruvom_ran) == FINARUVOM_RAN_SIZE, "ran");
FINARUVOM_ASSERT(sizeof(struct finaruvom_payment) == FINARUVOM_PAYMENT_SIZE, "payment");
FINARUVOM_ASSERT(sizeof(struct finaruvom_counted) == FINARUVOM_COUNTED_SIZE, "counted");
FINARUVOM_ASSERT(sizeof(struct finaruvom_versions) == FINARUVOM_VERSIONS_SIZE, "versions");
FINARUVOM_ASSERT(sizeof(struct finaruvom_node) == FINARUVOM_NODE_SIZE, "node");
FINARUVOM_ASSERT(sizeof(struct finaruvom_signer) == FINARUVOM_SIGNER_SIZE, "signer");
FINARUVOM_ASSERT(sizeof(struct finaruvom_signature) == sizeof(uint32_t) + FINARUVOM_SIGNATURE_SIZE, "signature");

// The library's version and layout, to be compared with the numbers above. No duties.
struct finaruvom_versions finaruvom_version(void);

// The layout. Its name carries the number and every program refers to it, so that one does not link with a library of another layout.
uint32_t finaruvom_layout_6(void);
FINARUVOM_KEPT static uint32_t (*const finaruvom_linked_layout)(void) = finaruvom_layout_6;

// The SHA-256 digest of at most 65,536 bytes, and 0; of more, zeros and 2.
// Duties: bytes not null, shared; digest not null, 32 bytes, alone; stack FINARUVOM_STACK_HASH.
FINARUVOM_CALL uint32_t finaruvom_hash(const uint8_t *bytes, size_t n, uint8_t digest[FINARUVOM_DIGEST_SIZE]);

// The LMS signature check: verdict, chain steps and the leaf that signed, and 0; of a message of more than 1,024 bytes no, 0, 0 and 2. Where the verdict is no
// the leaf is 0, which is a leaf too: look at the verdict first.
// Duties: key, message, signature not null, shared; verdict, steps and leaf not null, alone, each aligned as its type, and *verdict holds false or true, a
// byte of 0 or 1, already before the call: give it a value first; stack FINARUVOM_STACK_CHECK.
FINARUVOM_CALL uint32_t finaruvom_check(const uint8_t *key, size_t key_n, const uint8_t *message, size_t message_n, const uint8_t *signature,
                                        size_t signature_n, bool *verdict, uint32_t *steps, uint32_t *leaf);

// The whole length of the command that begins with this byte; 0 where it begins none. No duties.
size_t finaruvom_size(uint8_t first);

// What the plain opening is given: the default delay is FINARUVOM_PLAIN_DELAY, the fee 0, and there is no list of dates. No duties.
struct finaruvom_settings finaruvom_plain_settings(void);

// What the desk gives for a new book: the default delay is FINARUVOM_DESK_DELAY, the fee 0, and there is no list of dates: set what was agreed. No duties.
struct finaruvom_settings finaruvom_desk_settings(void);

// The plain opening: makes any lent book fresh, with the id and the plain settings, and answers 0; an id that is not 16 bytes long gives 2 and keeps
// every value.
// Duties: book not null, aligned, alone; id not null, shared; stack FINARUVOM_STACK_OPEN.
FINARUVOM_CALL uint32_t finaruvom_open(struct finaruvom_book *book, const uint8_t *id, size_t id_n);

// The same with these settings and shut dates, each year x 10,000 + month x 100 + day, as 20261225, strictly rising. After the id, a default delay that is not
// FINARUVOM_SHORTEST_DELAY to FINARUVOM_LONGEST_DELAY gives 14, then a fee above FINARUVOM_HIGHEST_FEE 20, then a date that does not exist or whose year is not
// 1970 to 2399, wherever in the list and however long it is, 21, then more than FINARUVOM_MOST_DATES dates, or one that is not later than the one before it,
// 22, and it keeps every value. Where settings.dated is false there is no list: the dates are not looked at, and no day is shut. Where it is true Saturdays,
// Sundays and the dates are shut, with none the weekends alone: a deadline that falls on a shut day is 00:00:00 of the next day that is not.
// Duties: book not null, aligned, alone; id not null, shared; dates not null, dates_n of them, aligned as uint32_t, shared; stack FINARUVOM_STACK_OPEN.
FINARUVOM_CALL uint32_t finaruvom_open_with(struct finaruvom_book *book, const uint8_t *id, size_t id_n, struct finaruvom_settings settings,
                                            const uint32_t *dates, size_t dates_n);

// Carries a command out on the lent book, or refuses it and keeps every value. The book may be written also where it is refused, with what stood there.
// Duties: book not null, aligned, alone; command not null, shared; stack FINARUVOM_STACK_APPLY.
FINARUVOM_CALL struct finaruvom_answer finaruvom_apply(struct finaruvom_book *book, const uint8_t *command, size_t command_n);

// A reading of channel n: 99 and zeros of an unsound book, 4 and zeros for n from 64 on.
// Duties: book not null, aligned, shared; stack FINARUVOM_STACK_READ.
FINARUVOM_CALL struct finaruvom_reading finaruvom_read(const struct finaruvom_book *book, size_t n);

// The channel in status 4 or 5 with the smallest deadline; of those with equal deadlines the one that holds most, as a reading says it, and only then the
// one with the lowest number. None of an unsound book.
// Duties: book not null, aligned, shared; stack FINARUVOM_STACK_DUE.
FINARUVOM_CALL struct finaruvom_found finaruvom_due(const struct finaruvom_book *book);

// Runs a journal's commands on the lent book and writes a line for each; later lines keep their content. It stops at the first of these: no
// bytes left (cause 0), no line left (13), first byte unknown (1), fewer bytes than the command needs (2).
// Duties: book not null, aligned, alone; commands not null, shared; lines not null, lines_n of them, aligned, alone; stack FINARUVOM_STACK_RUN.
FINARUVOM_CALL struct finaruvom_ran finaruvom_run(struct finaruvom_book *book, const uint8_t *commands, size_t commands_n,
                                                  struct finaruvom_line *lines, size_t lines_n);

// Makes the key of a seed of 32 bytes and an identifier of 16, both taken at random, in the lent signer, with leaf 0 as the next, and answers 0; it takes
// seconds. Another length gives 2. What stood in the signer is written over, also where it is refused: then with zeros, but FINARUVOM_LEAVES as the next leaf,
// so that it signs nothing.
// Duties: signer not null, aligned, alone; seed, id not null, shared; stack FINARUVOM_STACK_MAKE_KEY.
FINARUVOM_CALL uint32_t finaruvom_make_key(struct finaruvom_signer *signer, const uint8_t *seed, size_t seed_n, const uint8_t *id, size_t id_n);

// Signs a message with the signer's next leaf and the RFC's C, 32 bytes taken at random for each signature, and moves the signer to the leaf after it. A C of
// another length or a message of more than FINARUVOM_LONGEST_MESSAGE bytes gives 2, then no leaf left 15, and the signer keeps every value. It may be
// written also where it is refused, with what stood there.
// Duties: signer not null, aligned, alone; nonce, message not null, shared; stack FINARUVOM_STACK_SIGN.
FINARUVOM_CALL struct finaruvom_signature finaruvom_sign(struct finaruvom_signer *signer, const uint8_t *nonce, size_t nonce_n, const uint8_t *message,
                                                         size_t message_n);

// Collects the payments of a run, from its commands and its lines: each above zero, in the order of the commands, the customer's before the merchant's, with n
// as the command has it. The merchant's is what he gets, without the fee, which is a payment to neither. It goes through commands and lines side by side,
// whatever refusal a line shows, passes over 01 and its line, and ends where the run would. A list that is too short gives 18 and keeps every entry; entries
// behind the last payment keep their content.
// Duties: commands not null, shared; lines not null, lines_n of them, aligned, shared; list not null, list_n payments, aligned, alone; stack
// FINARUVOM_STACK_BANK.
FINARUVOM_CALL struct finaruvom_counted finaruvom_collect(const uint8_t *commands, size_t commands_n, const struct finaruvom_line *lines, size_t lines_n,
                                                          struct finaruvom_payment *list, size_t list_n);

// Writes every payment of the list as an entry of FINARUVOM_ENTRY_SIZE bytes: the party in one, n in two, the amount in eight of packed decimal, fifteen digits
// and C. A payment that no entry can hold, anywhere in the list, gives 17, then a buffer that is too short 18, and it keeps every byte; bytes behind the last
// entry keep their content.
// Duties: list not null, list_n payments, aligned, shared; buffer not null, alone; stack FINARUVOM_STACK_BANK.
FINARUVOM_CALL struct finaruvom_counted finaruvom_write(const struct finaruvom_payment *list, size_t list_n, uint8_t *buffer, size_t buffer_n);

// Reads such entries back into the list. A length that is no multiple of FINARUVOM_ENTRY_SIZE or a list that is too short gives 18, then an entry that
// finaruvom_write does not write 19, and the list keeps every entry; entries behind the last payment keep their content.
// Duties: bytes not null, shared; list not null, list_n payments, aligned, alone; stack FINARUVOM_STACK_BANK.
FINARUVOM_CALL struct finaruvom_counted finaruvom_read_payments(const uint8_t *bytes, size_t bytes_n, struct finaruvom_payment *list, size_t list_n);

#ifdef __cplusplus
}
#endif
#endif
