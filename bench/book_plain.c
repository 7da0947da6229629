// Written from documents 01 and 02 (No. 1, 2, 5, 7 and 8), as a program in C would have it: no copy of the book.
#include "book.h"
#include <string.h>

static const uint64_t MOST = INT64_MAX, MARK = 0x6172626974657200 + FINARUVOM_LAYOUT;

static uint64_t number(const uint8_t *s, int bytes) {
    uint64_t x = 0;
    for (int i = 0; i < bytes; i++)
        x = x << 8 | s[i];
    return x;
}

static bool delay_fits(uint64_t delay) {
    return delay >= 3600 && delay <= 2592000;
}

static bool sound_channel(const struct finaruvom_channel *ch) {
    if (ch->status == 0)
        return true;
    uint64_t c = ch->customer.deposit, b = ch->merchant.deposit;
    return ch->status <= 6 && c <= MOST && b <= MOST - c && delay_fits(ch->delay) && (ch->status != 5 || ch->kept <= c + b);
}

static bool sound_setup(const struct finaruvom_setup *setup) {
    bool ok = delay_fits(setup->delay) && setup->fee <= 1000 && setup->dated <= 1 && setup->count <= 64;
    for (uint32_t i = 0; ok && i < setup->count; i++)
        ok = setup->days[i] < 157054 && (i == 0 || setup->days[i] > setup->days[i - 1]);
    return ok;
}

static bool sound(const struct finaruvom_book *book) {
    bool ok = book->mark == MARK && sound_setup(&book->setup) && book->clock <= MOST;
    for (int i = 0; i < 64; i++)
        ok &= sound_channel(&book->channels[i]);
    return ok;
}

static bool typed(const uint8_t *key) {
    return number(key, 4) == 6 && number(key + 4, 4) == 4;
}

static uint32_t establish(struct finaruvom_channel *ch, const uint8_t *s, uint64_t default_delay) {
    uint64_t c = number(s + 115, 8), b = number(s + 123, 8), delay = number(s + 131, 4);
    if (ch->status != 0)
        return 5;
    if (!typed(s + 3) || !typed(s + 59) || memcmp(s + 3, s + 59, 56) == 0)
        return 6;
    if (delay != 0 && !delay_fits(delay))
        return 7;
    if (c > MOST || b > MOST - c || c + b == 0)
        return 8;
    memcpy(ch->customer.key, s + 3, 56);
    memcpy(ch->merchant.key, s + 59, 56);
    ch->customer.deposit = c;
    ch->merchant.deposit = b;
    ch->delay = (uint32_t)(delay ? delay : default_delay);
    ch->status = c == 0 ? 2 : 1;
    return 0;
}

static uint32_t fund(struct finaruvom_channel *ch, uint8_t op, uint64_t cents) {
    if (ch->status != (op == 3 ? 1 : 2))
        return 5;
    if (cents != (op == 3 ? ch->customer.deposit : ch->merchant.deposit))
        return 8;
    ch->status = op == 3 && ch->merchant.deposit != 0 ? 2 : 3;
    return 0;
}

static struct finaruvom_answer refuse(uint32_t refusal) {
    return (struct finaruvom_answer){.refusal = refusal};
}

static bool weekend(uint64_t day) {
    return day % 7 == 2 || day % 7 == 3;
}

// A deadline, at 00:00:00 of the next day that is not shut where its own is.
static uint64_t moved(const struct finaruvom_setup *setup, uint64_t deadline) {
    uint64_t day = deadline / 86400;
    for (uint32_t i = 0; setup->dated != 0; day++) {
        while (i < setup->count && setup->days[i] < day)
            i++;
        if (!weekend(day) && (i == setup->count || setup->days[i] != day))
            break;
    }
    return day == deadline / 86400 ? deadline : day * 86400;
}

static struct finaruvom_answer close_by(struct finaruvom_channel *ch, const uint8_t *s, const struct finaruvom_book *book) {
    struct finaruvom_answer answer = {0};
    if (ch->status != 3)
        return refuse(5);
    if (s[0] == 7) {
        uint64_t c = number(s + 35, 8), b = number(s + 43, 8), total = ch->customer.deposit + ch->merchant.deposit;
        if (c > total || b != total - c)
            return refuse(8);
        answer.fee = (uint64_t)((unsigned __int128)b * book->setup.fee / 10000);
        answer.merchant = b - answer.fee;
        ch->kept = c;
        memcpy(ch->lock, s + 3, 32);
    }
    ch->leaves.first = ch->leaves.second = (uint32_t)number(s + (s[0] == 7 ? 51 : 3), 4);
    ch->deadline = moved(&book->setup, book->clock + ch->delay);
    ch->status = s[0] == 7 ? 5 : 4;
    return answer;
}

static struct finaruvom_answer settle(struct finaruvom_channel *ch, uint64_t clock, uint32_t fee) {
    if (ch->status != 4 && ch->status != 5)
        return refuse(5);
    if (clock < ch->deadline)
        return refuse(9);
    struct finaruvom_answer answer = {0};
    if (ch->status == 4) {
        uint64_t total = ch->customer.deposit + ch->merchant.deposit;
        answer.fee = (uint64_t)((unsigned __int128)total * fee / 10000);
        answer.merchant = total - answer.fee;
    } else
        answer.customer = ch->kept;
    ch->status = 6;
    return answer;
}

static const size_t sizes[] = {0, 9, 135, 11, 11, 1455, 2923, 2955, 1455, 1487, 3};

struct finaruvom_answer plain_apply(struct finaruvom_book *book, const uint8_t *command, size_t n) {
    if (!sound(book))
        return refuse(99);
    if (n == 0 || command[0] == 0 || command[0] > 10)
        return refuse(1);
    uint8_t op = command[0];
    if (n != sizes[op])
        return refuse(2);
    if (op == 1) {
        uint64_t t = number(command + 1, 8);
        if (t < book->clock || t > MOST)
            return refuse(3);
        book->clock = t;
        return refuse(0);
    }
    uint64_t place = number(command + 1, 2);
    if (place >= 64)
        return refuse(4);
    struct finaruvom_channel *ch = &book->channels[place];
    if (op == 2)
        return refuse(establish(ch, command, book->setup.delay));
    if (op == 3 || op == 4)
        return refuse(fund(ch, op, number(command + 3, 8)));
    if (op == 7 || op == 8)
        return close_by(ch, command, book);
    return op == 10 ? settle(ch, book->clock, book->setup.fee) : refuse(5);
}

struct finaruvom_ran plain_run(struct finaruvom_book *book, const uint8_t *commands, size_t n, struct finaruvom_line *lines, size_t lines_n) {
    struct finaruvom_ran ran = {0, 0, 0};
    for (; ran.used < n; ran.lines++) {
        uint8_t op = commands[ran.used];
        ran.cause = ran.lines == lines_n ? 13 : op == 0 || op > 10 ? 1 : n - ran.used < sizes[op] ? 2 : 0;
        if (ran.cause != 0)
            break;
        lines[ran.lines].answer = plain_apply(book, commands + ran.used, sizes[op]);
        ran.used += sizes[op];
    }
    return ran;
}
