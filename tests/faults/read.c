#include "faults.h"

struct finaruvom_reading right(const struct finaruvom_book *book, size_t n);

struct finaruvom_reading finaruvom_read(const struct finaruvom_book *book, size_t n) {
#ifdef MENDED
    struct finaruvom_book other = mended(book);
    book = &other;
#endif
#ifdef COPIES
    static struct finaruvom_book copy;
    memcpy(&copy, book, sizeof copy);
#endif
    struct finaruvom_reading reading = right(book, n);
#ifdef UNMOVED_TIME
    reading.deadline -= monday(book, reading.deadline) ? 2 * 86400 : 0;
#endif
#ifdef HELD_IS_TOTAL
    reading.held = reading.total;
#endif
#ifdef HELD_WITHOUT_FEE
    reading.held -= reading.held / 10000 * book->setup.fee;
#endif
    return reading;
}
