#include "faults.h"

// What an apply reads in place of the book's default.
#if defined ALWAYS_A_DAY
#define ANOTHER_DEFAULT(delay) FINARUVOM_PLAIN_DELAY
#elif defined CUTS_THE_DEFAULT
#define ANOTHER_DEFAULT(delay) ((delay) & 0xFFFFFF)
#endif

struct finaruvom_answer right(struct finaruvom_book *book, const uint8_t *command, size_t command_n);

// A 07 or 09 to a channel: whether it is one, its channel and the leaf of its merchant's signature.
struct filed {
    bool closes, disputes;
    struct finaruvom_channel *channel;
    uint32_t leaf;
};

static inline struct filed filed(struct finaruvom_book *book, const uint8_t *command, size_t command_n) {
    bool closes = command_n == 2955 && command[0] == 7, disputes = command_n == 1487 && command[0] == 9;
    if ((!closes && !disputes) || command[1] != 0 || command[2] >= FINARUVOM_CHANNELS)
        return (struct filed){0};
    return (struct filed){closes, disputes, &book->channels[command[2]], number(command + (closes ? 51 : 35))};
}

// An apply that is wrong in what a channel remembers, or in what it refuses for that.
static inline struct finaruvom_answer another_memory(struct finaruvom_book *book, const uint8_t *command, size_t command_n) {
    struct filed now = filed(book, command, command_n);
    (void)now;
#ifdef REFUSES_AN_ANSWER
    if (now.closes && now.channel->status == FINARUVOM_MERCHANT_CLOSING && now.channel->leaves.first == now.leaf)
        return (struct finaruvom_answer){.refusal = FINARUVOM_SPENT_LEAF};
#endif
#ifdef ANY_CHANNEL
    static struct finaruvom_book before;
    before = *book;
#endif
    struct finaruvom_answer answer = right(book, command, command_n);
#ifdef ANY_CHANNEL
    for (struct finaruvom_channel *other = book->channels; other < book->channels + FINARUVOM_CHANNELS; other++)
        if (now.disputes && other != now.channel && other->leaves.second == now.leaf && answer.refusal == FINARUVOM_ACCEPTED) {
            *book = before;
            answer = (struct finaruvom_answer){.steps = answer.steps, .refusal = FINARUVOM_SPENT_LEAF};
        }
#endif
#ifdef FORGETS_THE_STEPS
    if (answer.refusal == FINARUVOM_SPENT_LEAF)
        answer.steps = 0;
#endif
#ifdef HALF_AN_08
    if (command_n == 1455 && command[0] == 8 && answer.refusal == FINARUVOM_ACCEPTED)
        book->channels[command[2]].leaves.second = UINT32_MAX;
#endif
#ifdef CUSTOMERS_LEAF
    if (now.closes && answer.refusal == FINARUVOM_ACCEPTED)
        now.channel->leaves.second = number(command + 1503);
#endif
#ifdef SPENT_FIRST
    if (now.disputes && answer.refusal == FINARUVOM_MERCHANT && (now.channel->leaves.first == now.leaf || now.channel->leaves.second == now.leaf))
        answer.refusal = FINARUVOM_SPENT_LEAF;
#endif
#ifdef ZERO_IS_NONE
    if (answer.refusal == FINARUVOM_SPENT_LEAF && now.leaf == 0) {
        struct finaruvom_leaves leaves = now.channel->leaves;
        now.channel->leaves = (struct finaruvom_leaves){UINT32_MAX, UINT32_MAX};
        answer = right(book, command, command_n);
        now.channel->leaves = leaves;
    }
#endif
#ifdef FORGETS_THE_08
    if (now.closes && answer.refusal == FINARUVOM_ACCEPTED)
        now.channel->leaves.first = now.leaf;
#endif
#ifdef REMEMBERS_ANYWAY
    if (now.closes && answer.refusal == FINARUVOM_CUSTOMER)
        now.channel->leaves.second = now.leaf;
#endif
    return answer;
}

// The fee of an amount, in numbers that hold every product.
static inline uint64_t fee_of(uint64_t amount, uint32_t fee) {
    return (uint64_t)((unsigned __int128)amount * fee / 10000);
}

// The fee of a payment to the merchant, as a wrong library has it.
static inline uint64_t other_fee(uint64_t amount, uint32_t fee) {
#if defined ROUNDS_UP
    return fee_of(amount, fee) + (fee_of(amount, fee) * 10000 != amount * fee);
#elif defined WRAPS
    return amount * fee / 10000;
#elif defined WHOLE_TEN_THOUSANDS
    return amount / 10000 * fee;
#elif defined NO_FEE
    (void)amount, (void)fee;
    return 0;
#else
    return fee_of(amount, fee);
#endif
}

// An answer whose fee is taken from another side, or is another one for a dispute; `amount` is the payment to the merchant, `now` the command.
static inline struct finaruvom_answer divided(struct finaruvom_answer answer, uint64_t amount, uint32_t fee, struct filed now) {
    (void)amount, (void)fee, (void)now;
#ifdef FEE_OF_THE_TOTAL
    if (now.disputes && answer.refusal == FINARUVOM_ACCEPTED) {
        uint64_t total = now.channel->customer.deposit + now.channel->merchant.deposit;
        answer.fee = fee_of(total, fee) - fee_of(total - amount, fee);
        answer.merchant = amount - answer.fee;
    }
#endif
#ifdef MERCHANT_WHOLE
    answer.merchant = amount;
#endif
#ifdef WHOLE_AT_07
    answer.merchant = now.closes ? amount : answer.merchant;
#endif
#ifdef FEE_NOT_TOLD
    answer.fee = 0;
#endif
#ifdef FEE_TO_THE_CUSTOMER
    answer.customer += answer.fee;
#endif
#ifdef FROM_THE_CUSTOMER
    uint64_t share = answer.fee < answer.customer ? answer.fee : 0;
    answer.customer -= share;
    answer.merchant += share;
#endif
#ifdef CUSTOMER_PAYS_TOO
    answer.fee += fee_of(answer.customer, fee);
    answer.customer -= fee_of(answer.customer, fee);
#endif
    return answer;
}

// An apply that is wrong in the fee.
static inline struct finaruvom_answer another_fee(struct finaruvom_book *book, const uint8_t *command, size_t command_n) {
    struct filed now = filed(book, command, command_n);
    uint32_t fee = book->setup.fee;
    struct finaruvom_answer answer = another_memory(book, command, command_n);
    uint64_t amount = answer.merchant + answer.fee;
    answer.fee = other_fee(amount, fee);
    answer.merchant = amount - answer.fee;
    answer = divided(answer, amount, fee, now);
#ifdef FEE_WHERE_REFUSED
    answer.fee += fee != 0 && answer.refusal == FINARUVOM_STATUS;
#endif
#ifdef A_CENT_AT_07
    if (fee == 0 && now.closes && answer.merchant != 0)
        answer.merchant--, answer.fee++;
#endif
#ifdef FEE_FROM_THE_KEPT
    if (now.closes && answer.refusal == FINARUVOM_ACCEPTED)
        now.channel->kept -= fee_of(now.channel->kept, fee);
#endif
#ifdef KEEPS_THE_FEE
    if (command_n == 3 && answer.refusal == FINARUVOM_ACCEPTED)
        book->channels[command[2]].kept = answer.fee;
#endif
#ifdef WRITES_UNSOUND
    book->channels[63].leaves.second += answer.refusal == FINARUVOM_UNSOUND;
#endif
    return answer;
}

static inline bool weekend(uint64_t day) {
    uint64_t saturday = 2, sunday = 3;
#ifdef DAY_0_IS_WEDNESDAY
    saturday = 3, sunday = 4;
#endif
#ifdef SATURDAY_OPEN
    saturday = sunday;
#endif
#ifdef SUNDAY_OPEN
    sunday = saturday;
#endif
#ifdef CUTS_THE_DAY
    day &= UINT32_MAX;
#endif
#ifdef OPEN_FROM_2400
    if (day >= FINARUVOM_DAYS)
        return false;
#endif
    return day % 7 == saturday || day % 7 == sunday;
}

static inline bool listed(const struct finaruvom_setup *setup, uint64_t day) {
    uint32_t n = setup->count;
#ifdef BEHIND_THE_COUNT
    n = FINARUVOM_MOST_DATES;
#endif
#ifdef BUT_THE_LAST
    n -= n != 0;
#endif
    for (uint32_t i = 0; i < n; i++)
        if (setup->days[i] == day)
            return true;
    return false;
}

static inline uint64_t next_open(const struct finaruvom_setup *setup, uint64_t day) {
#if defined WEEKEND_LAST
    while (listed(setup, day))
        day++;
    while (weekend(day))
        day++;
#elif defined ONE_DAY_ON
    day += listed(setup, day);
    while (weekend(day))
        day++;
#else
    while (weekend(day) || listed(setup, day))
        day++;
#endif
    return day;
}

// The deadline of a closing, as a wrong library has it.
static inline uint64_t other_deadline(const struct finaruvom_setup *setup, uint64_t deadline, uint8_t command, bool answers) {
    bool moves = setup->dated == 1;
    (void)command, (void)answers;
#ifdef ONLY_07
    moves = moves && command == 7;
#endif
#ifdef ONLY_08
    moves = moves && command == 8;
#endif
#ifdef NOT_AN_ANSWER
    moves = moves && !answers;
#endif
#ifdef EMPTY_IS_NONE
    moves = moves && setup->count != 0;
#endif
#ifdef WITHOUT_A_LIST
    moves = true;
#endif
#ifdef LIMITED
    deadline = deadline > INT64_MAX ? INT64_MAX : deadline;
#endif
#ifdef A_SECOND_EARLY
    uint64_t day = (deadline + 1) / 86400;
#else
    uint64_t day = deadline / 86400;
#endif
    uint64_t next = moves ? next_open(setup, day) : day;
#ifdef OLD_HOUR
    return deadline + 86400 * (next - day);
#else
    return next == day ? deadline : 86400 * next;
#endif
}

// An apply that is wrong in the deadline of a closing, or in the side of it on which the clock is.
static inline struct finaruvom_answer another_deadline(struct finaruvom_book *book, const uint8_t *command, size_t command_n) {
    struct finaruvom_channel none = {0}, *channel = command_n > 2 && command[1] == 0 && command[2] < FINARUVOM_CHANNELS ? &book->channels[command[2]] : &none;
    bool answers = channel->status == FINARUVOM_MERCHANT_CLOSING;
    uint64_t deadline = channel->deadline;
#ifdef UNMOVED_TIME
    channel->deadline -= monday(book, deadline) ? 2 * 86400 : 0;
#endif
    struct finaruvom_answer answer = another_fee(book, command, command_n);
    if (channel != &none && command[0] != 1) {
        channel->deadline = deadline;
        if (answer.refusal == FINARUVOM_ACCEPTED && (command[0] == 7 || command[0] == 8))
            channel->deadline = other_deadline(&book->setup, book->clock + channel->delay, command[0], answers);
    }
    return answer;
}

// What is made of a book before it is looked at.
static inline void take(struct finaruvom_book *book) {
    uint64_t ours = 0x6172626974657200 + FINARUVOM_LAYOUT;
    (void)book, (void)ours;
#ifdef ANY_LAYOUT
    book->mark = ours;
#endif
#ifdef LATER_LAYOUT
    book->mark = book->mark > ours ? ours : book->mark;
#endif
#ifdef ANOTHER_DEFAULT
    book->setup.delay = ANOTHER_DEFAULT(book->setup.delay);
#endif
#ifdef MENDED
    *book = mended(book);
#endif
}

// What is made of a settle that was accepted.
static inline void settled(struct finaruvom_book *book, size_t n, struct finaruvom_answer *answer) {
    (void)book, (void)n, (void)answer;
#ifdef STILL_CLOSING
    book->channels[n].status = FINARUVOM_MERCHANT_CLOSING;
#endif
#ifdef A_CENT_LESS
    answer->customer -= answer->customer > 0;
#endif
}

struct finaruvom_answer finaruvom_apply(struct finaruvom_book *book, const uint8_t *command, size_t command_n) {
#ifdef COPIES
    static struct finaruvom_book copy;
    memcpy(&copy, book, sizeof copy);
#endif
#ifdef DEEP
    volatile uint8_t room[2 * sizeof *book];
    (void)room;
#endif
    uint64_t mark = book->mark;
    struct finaruvom_setup setup = book->setup;
    take(book);
    struct finaruvom_answer answer = another_deadline(book, command, command_n);
    book->mark = mark;
    book->setup = setup;
#ifdef FORGETS_THE_LIST
    book->setup.dated = answer.refusal == FINARUVOM_ACCEPTED ? 0 : setup.dated;
#endif
#ifdef SWAPS
    swap(&answer);
#endif
#ifdef SWAPS_PARTIES
    for (int i = 0; i < 64; i++) {
        struct finaruvom_party customer = book->channels[i].customer;
        book->channels[i].customer = book->channels[i].merchant;
        book->channels[i].merchant = customer;
    }
#endif
#ifdef AWAITS_THE_CUSTOMER
    for (int i = 0; command_n == 135 && i < 64; i++)
        if (book->channels[i].status == FINARUVOM_AWAITING_MERCHANT && book->channels[i].customer.deposit == 0)
            book->channels[i].status = FINARUVOM_AWAITING_CUSTOMER;
#endif
#ifdef NO_STEPS
    answer.steps = 0;
#endif
    if (command_n == 3 && command[0] == 10 && answer.refusal == FINARUVOM_ACCEPTED)
        settled(book, command[2], &answer);
    return answer;
}
