#include "faults.h"

struct finaruvom_found right(const struct finaruvom_book *book);

// What a channel is taken to hold.
static inline uint64_t sum(const struct finaruvom_channel *channel) {
    uint64_t total = channel->customer.deposit + channel->merchant.deposit, held = channel->status == FINARUVOM_CUSTOMER_CLOSING ? channel->kept : total;
    (void)held;
#if defined TOTAL_IN_5
    return total;
#elif defined KEPT_IN_4
    return channel->kept;
#elif defined CUTS_SUMS
    return (uint32_t)held;
#else
    return held;
#endif
}

// Whether a channel comes before one with a higher number.
static inline bool precedes(const struct finaruvom_channel *channel, const struct finaruvom_channel *higher) {
#ifdef SIGNED_DEADLINES
    bool earlier = (int64_t)channel->deadline < (int64_t)higher->deadline;
#else
    bool earlier = channel->deadline < higher->deadline;
#endif
    bool equal = channel->deadline == higher->deadline;
#if defined SUM_FIRST
    return sum(channel) > sum(higher) || (sum(channel) == sum(higher) && (earlier || equal));
#elif defined NO_SUM
    return earlier || equal;
#elif defined SMALLER_SUM
    return earlier || (equal && sum(channel) <= sum(higher));
#elif defined HIGHER_NUMBER
    return earlier || (equal && sum(channel) > sum(higher));
#else
    return earlier || (equal && sum(channel) >= sum(higher));
#endif
}

static inline bool closing(const struct finaruvom_channel *channel) {
#ifdef OPEN_TOO
    return channel->status >= FINARUVOM_OPEN && channel->status <= FINARUVOM_CUSTOMER_CLOSING;
#else
    return channel->status == FINARUVOM_MERCHANT_CLOSING || channel->status == FINARUVOM_CUSTOMER_CLOSING;
#endif
}

// The first channel in the order of `precedes`.
static inline struct finaruvom_found first(const struct finaruvom_book *book) {
    struct finaruvom_found found = {0};
#ifndef UNSOUND_TOO
    if (finaruvom_read(book, 0).refusal == FINARUVOM_UNSOUND)
        return found;
#endif
    for (uint8_t n = 0; n < FINARUVOM_CHANNELS; n++)
        if (closing(&book->channels[n]) && !(found.some && precedes(&book->channels[found.channel], &book->channels[n])))
            found = (struct finaruvom_found){true, n};
    return found;
}

struct finaruvom_found finaruvom_due(const struct finaruvom_book *book) {
#if defined NEVER
    (void)book;
    return (struct finaruvom_found){0};
#elif defined MENDED
    struct finaruvom_book other = mended(book);
    return right(&other);
#elif defined COPIES
    static struct finaruvom_book copy;
    memcpy(&copy, book, sizeof copy);
    return right(&copy);
#elif defined UNMOVED_TIME
    struct finaruvom_book other = *book;
    for (struct finaruvom_channel *channel = other.channels; channel < other.channels + FINARUVOM_CHANNELS; channel++)
        channel->deadline -= monday(book, channel->deadline) ? 2 * 86400 : 0;
    return right(&other);
#elif defined NONE_IS_1
    struct finaruvom_found found = right(book);
    return found.some ? found : (struct finaruvom_found){false, 1};
#else // another order
    return first(book);
#endif
}
