#include "faults.h"

// With COPIES: it does in any case.
struct finaruvom_counted right(const uint8_t *bytes, size_t bytes_n, struct finaruvom_payment *list, size_t list_n);

// What is made of an entry before it is read.
static inline void mend(uint8_t entry[FINARUVOM_ENTRY_SIZE]) {
#ifdef ANY_LAST
    entry[10] = (uint8_t)((entry[10] & 0xF0) | 0x0C);
#endif
#ifdef ANY_HALF
    for (int i = 3; i < 11; i++)
        entry[i] = entry[i] > 0x9F ? 0x90 | (entry[i] & 0x0F) : entry[i];
#endif
#ifdef ANY_PARTY
    entry[0] = entry[0] > 2 ? 2 : entry[0];
#endif
#ifdef CUTS_N
    entry[1] = 0;
#endif
    (void)entry;
}

struct finaruvom_counted finaruvom_read_payments(const uint8_t *bytes, size_t bytes_n, struct finaruvom_payment *list, size_t list_n) {
    uint8_t given[bytes_n + 1];
    memcpy(given, bytes, bytes_n);
    for (size_t i = 0; i + FINARUVOM_ENTRY_SIZE <= bytes_n; i += FINARUVOM_ENTRY_SIZE)
        mend(given + i);
#ifdef DROPS_THE_REST
    bytes_n -= bytes_n % FINARUVOM_ENTRY_SIZE;
#endif
#ifdef ENTRIES_FIRST
    size_t whole = bytes_n / FINARUVOM_ENTRY_SIZE;
    struct finaruvom_payment all[whole + 1];
    if (right(bytes, whole * FINARUVOM_ENTRY_SIZE, all, whole).refusal == FINARUVOM_ENTRY)
        return (struct finaruvom_counted){FINARUVOM_ENTRY, 0};
#endif
    struct finaruvom_counted counted = right(given, bytes_n, list, list_n);
#ifdef LISTS_ANYWAY
    if (counted.refusal != FINARUVOM_ACCEPTED && list_n > 0)
        list[0] = (struct finaruvom_payment){FINARUVOM_TO_CUSTOMER, 0, 1};
#endif
#ifdef COUNTS_BYTES
    counted.payments *= FINARUVOM_ENTRY_SIZE;
#endif
#ifdef CLEARS_BEHIND
    if (counted.refusal == FINARUVOM_ACCEPTED)
        memset(list + counted.payments, 0, (list_n - counted.payments) * sizeof *list);
#endif
    return counted;
}
