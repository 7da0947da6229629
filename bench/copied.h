// What the library copies: the linker sends every call of memcpy and memmove here (-Wl,--wrap=memcpy,--wrap=memmove).
#include "../include/finaruvom.h"

// Bytes copied, and copies of a whole book or of all its channels.
static size_t copied, books_copied;

void *__real_memcpy(void *to, const void *from, size_t n);
void *__real_memmove(void *to, const void *from, size_t n);

static void count_copy(size_t n) {
    copied += n;
    books_copied += n >= sizeof((struct finaruvom_book *)0)->channels;
}

void *__wrap_memcpy(void *to, const void *from, size_t n) {
    count_copy(n);
    return __real_memcpy(to, from, n);
}

void *__wrap_memmove(void *to, const void *from, size_t n) {
    count_copy(n);
    return __real_memmove(to, from, n);
}
