#include "faults.h"

// With COPIES: it does in any case.
struct finaruvom_counted right(const struct finaruvom_payment *list, size_t list_n, uint8_t *buffer, size_t buffer_n);

// What is made of a payment before it is written.
static inline struct finaruvom_payment cut(struct finaruvom_payment payment) {
#ifdef CUTS_N
    payment.channel &= 0xFFFF;
#endif
#ifdef CUTS_PARTY
    payment.party &= 0xFF;
#endif
#ifdef CUTS_AMOUNT
    if (payment.amount > FINARUVOM_LARGEST_AMOUNT)
        payment.amount = FINARUVOM_LARGEST_AMOUNT;
#endif
    return payment;
}

struct finaruvom_counted finaruvom_write(const struct finaruvom_payment *list, size_t list_n, uint8_t *buffer, size_t buffer_n) {
    struct finaruvom_payment given[list_n + 1];
    for (size_t i = 0; i < list_n; i++)
        given[i] = cut(list[i]);
#ifdef ROOM_FIRST
    if (buffer_n < list_n * FINARUVOM_ENTRY_SIZE)
        return (struct finaruvom_counted){FINARUVOM_ROOM, 0};
#endif
#ifdef SHORT_ROOM
    buffer_n &= 0xFFFF;
#endif
    struct finaruvom_counted counted = right(given, list_n, buffer, buffer_n);
#ifdef WRITES_ANYWAY
    if (counted.refusal != FINARUVOM_ACCEPTED && buffer_n > 0)
        buffer[0] = (uint8_t)list[0].party;
#endif
#ifdef COUNTS_ANYWAY
    counted.payments = list_n;
#endif
#ifdef D_LAST
    for (size_t i = 0; i < counted.payments; i++)
        buffer[i * FINARUVOM_ENTRY_SIZE + 10] |= 0x0D;
#endif
#ifdef CLEARS_BEHIND
    size_t end = counted.payments * FINARUVOM_ENTRY_SIZE;
    if (counted.refusal == FINARUVOM_ACCEPTED)
        memset(buffer + end, 0, buffer_n - end);
#endif
    return counted;
}
