// Wrong functions for a library, a file for each function and a macro for each fault: tests/wrong puts one in the place of the right one, here called `right`.
#include "../../include/finaruvom.h"
#include <string.h>

static inline void swap(struct finaruvom_answer *answer) {
    uint64_t customer = answer->customer;
    answer->customer = answer->merchant;
    answer->merchant = customer;
}

// The number that four bytes stand for.
static inline uint32_t number(const uint8_t *s) {
    return (uint32_t)s[0] << 24 | (uint32_t)s[1] << 16 | (uint32_t)s[2] << 8 | s[3];
}

// Faults in what is sound.
#if defined ANY_FEE || defined ANY_FLAG || defined ANY_COUNT || defined ANY_ORDER || defined ANY_EQUAL || defined ANY_DAY || defined ANY_UNLISTED || \
    defined ALL_64
#define MENDED
#endif

// How the days of a setup rise: 0 where they fall, 1 where some are equal, 2 where they rise strictly.
static inline int rising(const struct finaruvom_setup *setup) {
    int how = 2;
    for (uint32_t i = 1; i < setup->count && i < FINARUVOM_MOST_DATES; i++)
        how = setup->days[i] < setup->days[i - 1] ? 0 : setup->days[i] == setup->days[i - 1] && how != 0 ? 1 : how;
    return how;
}

// A book whose fee or days, where they are out of range, are in range; or, with ALL_64, one whose days are all that stand there.
static inline struct finaruvom_book mended(const struct finaruvom_book *book) {
    struct finaruvom_book mended = *book;
    struct finaruvom_setup *setup = &mended.setup;
    (void)setup;
#ifdef ANY_FEE
    setup->fee = setup->fee > FINARUVOM_HIGHEST_FEE ? FINARUVOM_HIGHEST_FEE : setup->fee;
#endif
#ifdef ANY_FLAG
    setup->dated = setup->dated > 1 ? 1 : setup->dated;
#endif
#ifdef ANY_COUNT
    setup->count = setup->count > FINARUVOM_MOST_DATES ? 0 : setup->count;
#endif
#ifdef ANY_ORDER
    setup->count = rising(setup) == 0 ? 0 : setup->count;
#endif
#ifdef ANY_EQUAL
    setup->count = rising(setup) == 1 ? 0 : setup->count;
#endif
#ifdef ANY_DAY
    setup->count = setup->count <= FINARUVOM_MOST_DATES && rising(setup) == 2 ? 0 : setup->count;
#endif
#ifdef ANY_UNLISTED
    setup->count = setup->dated == 0 ? 0 : setup->count;
#endif
#ifdef ALL_64
    setup->count = setup->count < FINARUVOM_MOST_DATES ? FINARUVOM_MOST_DATES : setup->count;
#endif
    return mended;
}

// Whether a deadline is that of a Monday 00:00:00 in a book with a list: moved, it may be.
static inline bool monday(const struct finaruvom_book *book, uint64_t deadline) {
    return book->setup.dated == 1 && deadline % (7 * 86400) == 4 * 86400;
}
