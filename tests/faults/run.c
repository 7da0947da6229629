#include "faults.h"

struct finaruvom_ran right(struct finaruvom_book *book, const uint8_t *commands, size_t commands_n, struct finaruvom_line *lines, size_t lines_n);

struct finaruvom_ran finaruvom_run(struct finaruvom_book *book, const uint8_t *commands, size_t commands_n, struct finaruvom_line *lines,
                                   size_t lines_n) {
    struct finaruvom_setup setup = book->setup;
#ifdef MENDED
    *book = mended(book);
#endif
#ifdef WITHOUT_THE_LIST
    book->setup.dated = 0;
#endif
    struct finaruvom_ran ran = right(book, commands, commands_n, lines, lines_n);
    book->setup = setup;
#ifdef SWAPS
    for (size_t i = 0; i < ran.lines; i++)
        swap(&lines[i].answer);
#endif
#ifdef NO_FEE
    for (size_t i = 0; i < ran.lines; i++)
        lines[i].answer.fee = 0;
#endif
#ifdef FORGETS_THE_FEE
    book->setup.fee = book->setup.fee > FINARUVOM_HIGHEST_FEE ? book->setup.fee : 0;
#endif
#ifdef CLEARS_LATER
    memset(lines + ran.lines, 0, (lines_n - ran.lines) * sizeof *lines);
#endif
    return ran;
}
