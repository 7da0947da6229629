// Deadlines on banking days: days FILE JOURNAL... The moved deadlines of the file, which comes from outside, and the figures of the request, as closings store
// them: an 08, a 07 and one that answers, out of the journals, at other clocks and with other delays and dates. Then weeks, lists at random and the last clock
// beside a calendar that is walked, what reading, due and check 9 make of a moved deadline, and the journals in books with a list.
#include "calendar.h"

enum { INPUT = 65536, COMMANDS = INPUT / 3, ID = FINARUVOM_ID_SIZE, MOST = FINARUVOM_MOST_DATES, COMMAND = 2955, BEYOND = 12 };

static struct finaruvom_book book, before, opened;
static struct list given;

// ---- closings

// What a journal had accepted: an 08, a 07 of an open channel, one that answers an 08, and a 09 to the same 07.
enum kind { MERCHANT, DIRECT, ANSWER, DISPUTE, KINDS };
struct filed {
    enum kind kind;
    uint8_t id[ID], command[COMMAND];
    size_t size, n;
    struct finaruvom_channel before, after;
};
static struct filed filed[KINDS];
static uint8_t input[INPUT];
static size_t input_n;

static void load(const char *path) {
    FILE *journal = fopen(path, "rb");
    at = path;
    must(journal != NULL, "no journal");
    input_n = fread(input, 1, sizeof input, journal);
    must(fclose(journal) == 0 && input_n >= ID, "no book");
}

static size_t channel_of(const uint8_t *command) {
    return command[0] == 1 ? FINARUVOM_CHANNELS : (size_t)(command[1] << 8 | command[2]);
}

// Keeps an accepted closing or dispute; the 07 that is kept is the first that is disputed.
static void keep(const uint8_t *command, size_t size, struct filed last[FINARUVOM_CHANNELS]) {
    size_t n = channel_of(command);
    struct filed now = {.size = size, .n = n, .before = before.channels[n], .after = book.channels[n]};
    now.kind = command[0] == 8 ? MERCHANT : command[0] == 9 ? DISPUTE : now.before.status == FINARUVOM_OPEN ? DIRECT : ANSWER;
    memcpy(now.id, book.id, ID), memcpy(now.command, command, size);
    if (now.kind == DISPUTE && last[n].kind == DIRECT && filed[DISPUTE].size == 0)
        filed[DIRECT] = last[n], filed[DISPUTE] = now;
    if ((now.kind == MERCHANT || now.kind == ANSWER) && filed[now.kind].size == 0)
        filed[now.kind] = now;
    last[n] = now;
}

static bool kept_all(void) {
    return filed[MERCHANT].size != 0 && filed[ANSWER].size != 0 && filed[DISPUTE].size != 0;
}

// Looks for closings in a journal, which is run in a plain book.
static void look(const char *path) {
    static struct filed last[FINARUVOM_CHANNELS];
    load(path);
    memset(last, 0, sizeof last);
    must(finaruvom_open(&book, input, ID) == FINARUVOM_ACCEPTED, "no book");
    for (size_t i = ID, size; i < input_n && (size = finaruvom_size(input[i])) != 0 && size <= input_n - i; i += size) {
        before = book;
        bool accepted = finaruvom_apply(&book, input + i, size).refusal == FINARUVOM_ACCEPTED;
        if (accepted && input[i] >= 7 && input[i] <= 9)
            keep(input + i, size, last);
    }
}

// Opens the book that closings are carried out in, with this list.
static void open_with(const struct list *list) {
    static const uint8_t id[ID] = {7, 1};
    given = *list;
    must(finaruvom_open_with(&opened, id, ID, (struct finaruvom_settings){FINARUVOM_DESK_DELAY, 0, list->dated}, list->dates, list->n) == FINARUVOM_ACCEPTED,
         "the opening is refused");
}

static void set_clock(uint64_t time) {
    uint8_t command[9] = {1};
    for (int i = 0; i < 8; i++)
        command[1 + i] = (uint8_t)(time >> 8 * (7 - i));
    must(finaruvom_apply(&book, command, sizeof command).refusal == FINARUVOM_ACCEPTED, "the clock is not set");
}

// Check 9 a second before the deadline and at it, with an answer or a dispute that fails at the next check. Then the settle is carried out.
static void looks_at_the_clock(size_t n, uint64_t deadline) {
    bool customers = book.channels[n].status == FINARUVOM_CUSTOMER_CLOSING;
    uint8_t settle[3] = {10, 0, (uint8_t)n}, late[COMMAND] = {customers ? 9 : 7, 0, (uint8_t)n};
    uint64_t total = book.channels[n].customer.deposit + book.channels[n].merchant.deposit;
    for (int i = 0; !customers && i < 8; i++)
        late[35 + i] = (uint8_t)(total >> 8 * (7 - i));
    size_t size = finaruvom_size(late[0]);
    set_clock(deadline - 1);
    must(finaruvom_apply(&book, settle, sizeof settle).refusal == FINARUVOM_DEADLINE, "a settle is carried out a second before the deadline");
    must(finaruvom_apply(&book, late, size).refusal == (customers ? FINARUVOM_SECRET : FINARUVOM_MERCHANT), "the time is over a second before the deadline");
    set_clock(deadline);
    must(finaruvom_apply(&book, late, size).refusal == FINARUVOM_DEADLINE, "the time is not over at the deadline");
    must(finaruvom_apply(&book, settle, sizeof settle).refusal == FINARUVOM_ACCEPTED, "a settle is refused at the deadline");
}

// Lends the opened book with the channel of a closing, as the journal had it, at this clock and with this delay. An 08 is answered in the last second.
static void lend(const struct filed *now, uint64_t clock, uint32_t delay) {
    book = opened;
    memcpy(book.id, now->id, ID);
    book.clock = clock;
    book.channels[now->n] = now->before;
    book.channels[now->n].delay = delay;
    book.channels[now->n].deadline = now->kind == ANSWER ? clock + 1 : 0;
}

// Carries a closing out: its deadline is stored, read and due, and all else is as in the journal.
static void closes(enum kind kind, uint64_t clock, uint32_t delay, uint64_t deadline) {
    static const char *const reasons[] = {"an 08 stores another deadline", "a 07 stores another deadline", "an answering 07 stores another deadline"};
    const struct filed *now = &filed[kind];
    lend(now, clock, delay);
    before = book;
    must(finaruvom_apply(&book, now->command, now->size).refusal == FINARUVOM_ACCEPTED, "a closing is refused");
    must(book.channels[now->n].deadline == deadline, reasons[kind]);
    before.channels[now->n] = now->after;
    before.channels[now->n].delay = delay, before.channels[now->n].deadline = deadline;
    must(memcmp(&book, &before, sizeof book) == 0, "a closing leaves another book");
    must(finaruvom_read(&book, now->n).deadline == deadline, "another deadline is read than the one stored");
    struct finaruvom_found due = finaruvom_due(&book);
    must(due.some && due.channel == now->n, "a closing is not due");
    if (deadline <= INT64_MAX)
        looks_at_the_clock(now->n, deadline);
}

// All three, with the deadline that the calendar has.
static void each_closes(uint64_t clock, uint32_t delay) {
    for (enum kind kind = MERCHANT; kind <= ANSWER; kind++)
        closes(kind, clock, delay, moved(&given, clock + delay));
}

// One of the three, in turn.
static void one_closes(uint64_t clock, uint32_t delay) {
    static unsigned turn;
    closes((enum kind)(turn++ % DISPUTE), clock, delay, moved(&given, clock + delay));
}

// ---- the file

static unsigned deadlines, beyond;

// Days and lists are tests/dates.c's.
static void day_line(uint32_t date, uint64_t wanted) {
    (void)date, (void)wanted;
}

static void list_line(const struct list *list, uint64_t wanted) {
    (void)list, (void)wanted;
}

// The deadline that the 08 and one 07 store, at a clock and with a delay that have this sum. No closing has one before the first delay is over, or later than
// the longest delay from the last clock.
static void moved_line(const struct list *list, uint64_t seconds, uint64_t wanted) {
    static const uint32_t delays[] = {3600, 86400, 172800, 2592000, 43217};
    uint32_t delay = seconds > INT64_MAX ? FINARUVOM_LONGEST_DELAY : seconds < FINARUVOM_LONGEST_DELAY ? FINARUVOM_SHORTEST_DELAY : delays[deadlines % 5];
    open_with(list);
    if (seconds < delay || seconds - delay > INT64_MAX) {
        beyond++;
    } else {
        closes(MERCHANT, seconds - delay, delay, wanted);
        closes(deadlines++ % 2 == 0 ? DIRECT : ANSWER, seconds - delay, delay, wanted);
    }
    must(moved(&given, seconds) == wanted, "the calendar has another deadline");
}

// ---- figures, and closings beside the calendar

static const struct figure {
    const char *name;
    struct list list;
    uint64_t clock;
    uint32_t delay;
    uint64_t deadline;
} figures[] = {
    {"Friday and a day, empty list", {true, 0, {0}}, 86400, 86400, 345600},
    {"Friday 23:59:59, empty list", {true, 0, {0}}, 86400, 86399, 172799},
    {"Friday and a day, no list", {false, 0, {0}}, 86400, 86400, 172800},
    {"Sunday 23:59:59, empty list", {true, 0, {0}}, 86400, 259199, 345600},
    {"a listed Friday", {true, 1, {20261225}}, 1798156800 + 32400, 3600, 1798416000},
    {"a listed Friday and Monday", {true, 2, {20261225, 20261228}}, 1798156800 + 32400, 3600, 1798502400},
    {"the Thursday before a listed Friday", {true, 1, {20261225}}, 1798156799 - 3600, 3600, 1798156799},
    {"a listed Monday after a weekend", {true, 1, {20261228}}, 1798243200, 3600, 1798502400},
    {"a listed Monday", {true, 1, {20261228}}, 1798416000, 3600, 1798502400},
    {"a listed Saturday and Sunday", {true, 2, {20261226, 20261227}}, 1798243200, 3600, 1798416000},
    {"the first day, listed", {true, 1, {19700101}}, 0, 3600, 86400},
    {"the first two days, listed", {true, 2, {19700101, 19700102}}, 0, 3600, 345600},
    {"a leap day, listed", {true, 1, {20280229}}, 1835395200, 3600, 1835481600},
    {"the last day, a listed Friday", {true, 1, {23991231}}, 13569379200, 3600, 13569638400},
    {"a Saturday behind the last day", {true, 1, {23991230}}, 13569379200, 86400, 13569638400},
    {"dates that are no list", {false, 3, {20261225, 20260431, 20261225}}, 1798156800 + 32400, 3600, 1798192800},
};

static void each_figure(void) {
    for (const struct figure *figure = figures; figure < figures + sizeof figures / sizeof figures[0]; figure++) {
        at = figure->name;
        open_with(&figure->list);
        must(moved(&given, figure->clock + figure->delay) == figure->deadline, "the calendar has another deadline");
        each_closes(figure->clock, figure->delay);
    }
}

// Deadlines at the edges of so many days.
static void around(const char *name, const struct list *list, uint64_t first, unsigned days) {
    static const uint32_t edges[] = {0, 1, 43200, 86398, 86399};
    at = name;
    open_with(list);
    for (uint64_t day = first; day < first + days; day++)
        for (size_t i = 0; i < sizeof edges / sizeof edges[0]; i++)
            one_closes(day * SECONDS + edges[i] - 3600, 3600);
}

static void weeks(void) {
    struct list list = in_a_row(19700101, 0);
    around("a week with an empty list", &list, 20812, 8);
    list = in_a_row(20261202, MOST);
    around("before 64 days in a row", &list, day_of(20261201), 3);
    around("behind 64 days in a row", &list, day_of(20270203), 5);
    list.n = 0;
    for (uint32_t day = day_of(20261130); list.n < 60; day++)
        if (!weekend_of[day])
            list.dates[list.n++] = date_of[day];
    around("before twelve weeks", &list, day_of(20261127), 5);
    around("behind twelve weeks", &list, day_of(20270218), 5);
    list = in_a_row(23991231, 1);
    around("the last date", &list, FINARUVOM_DAYS - 2, 12);
}

static uint64_t next_random(void) {
    static uint64_t x = 8;
    x = x * 6364136223846793005 + 1442695040888963407;
    return x >> 33;
}

// Lists of dates at random in 120 days, each with three closings among them.
static void at_random(void) {
    at = "lists at random";
    for (int turn = 0; turn < 60; turn++) {
        uint32_t first = (uint32_t)(next_random() % (FINARUVOM_DAYS - 120)), sparse = 2 + (uint32_t)(next_random() % 8);
        struct list list = {.dated = true};
        for (uint32_t day = first; day < first + 120 && list.n < MOST; day++)
            if (next_random() % sparse == 0)
                list.dates[list.n++] = date_of[day];
        open_with(&list);
        for (int i = 0; i < 3; i++)
            one_closes((uint64_t)first * SECONDS + next_random() % (110 * SECONDS), 3600 + (uint32_t)(next_random() % 172800));
    }
}

// A deadline behind the last clock neither wraps nor is limited.
static void last_clock(void) {
    struct list list = in_a_row(23991231, 1);
    at = "the last clock";
    for (int dated = 0; dated < 2; dated++) {
        list.dated = dated == 1;
        open_with(&list);
        for (uint32_t day = 0; day < 8; day++)
            one_closes(INT64_MAX, 3600 + day * SECONDS);
        each_closes(INT64_MAX, FINARUVOM_LONGEST_DELAY);
    }
}

// What stands behind the count is not shut, and without a list no day is, whatever days the book keeps.
static void other_days(void) {
    struct list list = in_a_row(20261225, 4);
    at = "a day behind the count";
    open_with(&list);
    opened.setup.count = 1, given.n = 1;
    each_closes(1798156800, 3600);
    at = "days without a list";
    open_with(&list);
    opened.setup.dated = 0, given.dated = false;
    each_closes(1798156800, 3600);
    each_closes(1798243200, 3600);
}

// A book whose 07 was filed on Friday 1970-01-02, and has until Monday.
static void until_monday(void) {
    struct list list = in_a_row(19700101, 0);
    open_with(&list);
    closes(DIRECT, 86400, 86400, 345600);
    book = before;
}

// A dispute is carried out a second before a moved deadline, and refused with 9 at it.
static void disputes(void) {
    at = "a dispute";
    until_monday();
    set_clock(345599);
    must(finaruvom_apply(&book, filed[DISPUTE].command, filed[DISPUTE].size).refusal == FINARUVOM_ACCEPTED, "it is refused before the deadline");
    until_monday();
    set_clock(345600);
    must(finaruvom_apply(&book, filed[DISPUTE].command, filed[DISPUTE].size).refusal == FINARUVOM_DEADLINE, "it is not refused at the deadline");
}

// Due goes by the moved deadline: another channel's is between the two, the same, with a cent held to more, or later.
static void due_by_the_moved(void) {
    size_t n = filed[DIRECT].n, other = n == 0 ? 1 : n - 1;
    at = "due";
    until_monday();
    book.channels[other] = (struct finaruvom_channel){.merchant.deposit = 1, .delay = 3600, .status = FINARUVOM_MERCHANT_CLOSING};
    for (uint64_t deadline = 345599; deadline <= 345601; deadline++) {
        book.channels[other].deadline = deadline;
        must(finaruvom_due(&book).channel == (deadline < 345600 ? other : n), "another channel is due than by the moved deadline");
    }
}

// ---- journals

static const struct list early = {true, 5, {19700101, 19700102, 19700105, 19700111, 19700120}};
static unsigned journals, closings, moved_closings, too_early, too_late;

// A command of a journal: the deadline of a closing is the calendar's, and check 9 goes by the stored one.
static void file(const uint8_t *command, size_t size) {
    before = book;
    uint32_t refusal = finaruvom_apply(&book, command, size).refusal;
    size_t n = channel_of(command);
    if (n >= FINARUVOM_CHANNELS)
        return;
    const struct finaruvom_channel *channel = &before.channels[n];
    bool accepted = refusal == FINARUVOM_ACCEPTED, settles = command[0] == 10, over = before.clock >= channel->deadline;
    if (accepted && (command[0] == 7 || command[0] == 8)) {
        uint64_t deadline = before.clock + channel->delay;
        must(book.channels[n].deadline == moved(&early, deadline), "a closing stores another deadline");
        closings++, moved_closings += moved(&early, deadline) != deadline;
    }
    if (accepted && (settles || command[0] == 9 || (command[0] == 7 && channel->status == FINARUVOM_MERCHANT_CLOSING)))
        must(over == settles, "a command is carried out on the wrong side of a deadline");
    if (refusal == FINARUVOM_DEADLINE) {
        must(over != settles, "a command is refused on the right side of a deadline");
        too_late += over, too_early += !over;
    }
}

// The commands of a journal one by one, and the run of it, leave the same book.
static void journal(const char *path) {
    static struct finaruvom_line lines[COMMANDS];
    load(path);
    open_with(&early);
    memcpy(opened.id, input, ID);
    book = opened;
    size_t i = ID;
    for (size_t size; i < input_n && (size = finaruvom_size(input[i])) != 0 && size <= input_n - i; i += size)
        file(input + i, size);
    must(finaruvom_run(&opened, input + ID, input_n - ID, lines, COMMANDS).used == i - ID, "a run ends elsewhere");
    must(memcmp(&book, &opened, sizeof book) == 0, "a run leaves another book than its commands one by one");
    journals++;
}

int main(int argc, char **argv) {
    static const struct lines lines = {day_line, list_line, moved_line};
    must(argc >= 2, "days FILE JOURNAL...");
    walk();
    for (int i = 2; i < argc && !kept_all(); i++)
        look(argv[i]);
    at = "the journals";
    must(kept_all(), "they do not have every closing, and a dispute");
    each_figure();
    weeks(), last_clock(), other_days();
    disputes(), due_by_the_moved();
    for (int i = 2; i < argc; i++)
        journal(argv[i]);
    at = "the journals";
    must(moved_closings > 0 && moved_closings < closings, "they do not have closings with a deadline that is moved, and others");
    must(too_early > 0 && too_late > 0, "they do not have commands on both sides of a deadline");
    read_file(argv[1], &lines);
    must(beyond == BEYOND && deadlines == MOVED_LINES - BEYOND, "the file has another number of deadlines that a closing can have");
    at_random();
    printf("ok: %u moved deadlines from outside, %zu figures, weeks and lists at random; %u closings in %u journals, the deadline of %u is moved\n", deadlines,
           sizeof figures / sizeof figures[0], closings, journals, moved_closings);
    return 0;
}
