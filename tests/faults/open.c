#include "faults.h"

uint32_t right(struct finaruvom_book *book, const uint8_t *id, size_t id_n);

uint32_t finaruvom_open(struct finaruvom_book *book, const uint8_t *id, size_t id_n) {
#ifdef CLEARS_FIRST
    memset(book, 0, sizeof *book);
#endif
#ifdef LEAVES_A_BYTE
    uint32_t old = book->channels[63].leaves.second;
#endif
    uint32_t refusal = right(book, id, id_n);
#ifdef LEAVES_A_BYTE
    book->channels[63].leaves.second = old;
#endif
#ifdef SOME_FEE
    book->setup.fee = refusal == FINARUVOM_ACCEPTED ? 250 : book->setup.fee;
#endif
#ifdef WITH_A_LIST
    book->setup.dated = refusal == FINARUVOM_ACCEPTED ? 1 : book->setup.dated;
#endif
#ifdef ANOTHER_MARK
    book->mark += refusal == 0;
#endif
    return refusal;
}
