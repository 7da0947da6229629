#include "faults.h"

// A payment of a command, to a list that may be full; gives the number of payments with it.
static inline size_t put(struct finaruvom_payment *list, size_t room, size_t n, uint64_t party, const uint8_t *command, uint64_t amount) {
    uint64_t channel = (uint64_t)(command[1] << 8 | command[2]);
#ifdef CUTS_N
    channel &= 0xFF;
#endif
#ifndef ZEROS_TOO
    if (amount == 0)
        return n;
#endif
    if (n < room)
        list[n] = (struct finaruvom_payment){party, channel, amount};
    return n + 1;
}

// The payments of a command with this line.
static inline size_t put_both(struct finaruvom_payment *list, size_t room, size_t n, const uint8_t *command, const struct finaruvom_answer *answer) {
#ifndef TAKES_01
    if (command[0] == 1)
        return n;
#endif
#ifdef SKIPS_REFUSED
    if (answer->refusal != FINARUVOM_ACCEPTED)
        return n;
#endif
#ifdef GROSS
    n = put(list, room, n, FINARUVOM_TO_CUSTOMER, command, answer->customer);
    return put(list, room, n, FINARUVOM_TO_MERCHANT, command, answer->merchant + answer->fee);
#elif defined MERCHANT_FIRST
    n = put(list, room, n, FINARUVOM_TO_MERCHANT, command, answer->merchant);
    return put(list, room, n, FINARUVOM_TO_CUSTOMER, command, answer->customer);
#else
    n = put(list, room, n, FINARUVOM_TO_CUSTOMER, command, answer->customer);
    return put(list, room, n, FINARUVOM_TO_MERCHANT, command, answer->merchant);
#endif
}

static inline size_t size_of(uint8_t first) {
#ifdef ANOTHER_SIZE
    if (first == 8)
        return finaruvom_size(9);
#endif
    return finaruvom_size(first);
}

// Collects as far as there is room, and gives the number of all payments.
static inline size_t gathered(const uint8_t *commands, size_t commands_n, const struct finaruvom_line *lines, size_t lines_n,
                              struct finaruvom_payment *list, size_t room) {
    size_t n = 0, at = 0, size = 0;
    for (size_t i = 0; i < lines_n && at < commands_n && (size = size_of(commands[at])) != 0; at += size, i++) {
#ifndef CUT_SHORT_TOO
        if (size > commands_n - at)
            break;
#endif
#ifdef NO_LINE_FOR_01
        i -= commands[at] == 1;
#endif
        n = put_both(list, room, n, commands + at, &lines[i].answer);
    }
    return n;
}

struct finaruvom_counted finaruvom_collect(const uint8_t *commands, size_t commands_n, const struct finaruvom_line *lines, size_t lines_n,
                                           struct finaruvom_payment *list, size_t list_n) {
#ifdef COPIES
    static struct finaruvom_payment copy[512];
    memcpy(copy, list, sizeof copy);
#endif
#ifdef DEEP
    volatile uint8_t room[FINARUVOM_STACK_BANK];
    (void)room;
#endif
    size_t n = gathered(commands, commands_n, lines, lines_n, list, 0);
#ifndef LISTS_ANYWAY
    if (n <= list_n)
#endif
        gathered(commands, commands_n, lines, lines_n, list, list_n);
    if (n > list_n)
        return (struct finaruvom_counted){FINARUVOM_ROOM, 0};
#ifdef CLEARS_BEHIND
    memset(list + n, 0, (list_n - n) * sizeof *list);
#endif
    return (struct finaruvom_counted){FINARUVOM_ACCEPTED, n};
}
