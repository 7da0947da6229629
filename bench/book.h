// A C baseline of the commands without a signature: 01 to 04 and 0A, in place on the lent book, after the same test of soundness; of 07 and 08 to an open
// channel, whose signatures it takes for good; and of the run.
#include "../include/finaruvom.h"

struct finaruvom_answer plain_apply(struct finaruvom_book *book, const uint8_t *command, size_t n);
struct finaruvom_ran plain_run(struct finaruvom_book *book, const uint8_t *commands, size_t n, struct finaruvom_line *lines, size_t lines_n);
