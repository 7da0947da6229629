// Dates that an opening is given, and the days that a book keeps: dates FILE. The days and lists of the file, which comes from outside; every date, and numbers
// that are none; lengths, places and orders; and books that keep other days than an opening writes, sound and unsound.
#include "calendar.h"

enum { ID = FINARUVOM_ID_SIZE, MOST = FINARUVOM_MOST_DATES, FEE = 250, N = 5 };

static const uint8_t id[ID + 1] = {7, 1}, settle[] = {10, 0, N};
static struct finaruvom_book book, before;

static uint32_t open_with(size_t id_n, uint32_t delay, uint32_t fee, const struct list *list) {
    return finaruvom_open_with(&book, id, id_n, (struct finaruvom_settings){delay, fee, list->dated}, list->dates, list->n);
}

// What a book keeps of an opening with this list.
static struct finaruvom_setup setup_of(const struct list *list) {
    struct finaruvom_setup setup = {.delay = FINARUVOM_DESK_DELAY, .fee = FEE};
    if (list->dated) {
        setup.dated = 1, setup.count = (uint32_t)list->n;
        for (size_t i = 0; i < list->n; i++)
            setup.days[i] = day_of(list->dates[i]);
    }
    return setup;
}

// A book that any bytes stand in, or a sound one with a list.
static void lend(bool sound) {
    static const struct list other = {true, 2, {20270101, 20270106}};
    memset(&book, 0xAA, sizeof book);
    must(!sound || open_with(ID, 3600, 1000, &other) == FINARUVOM_ACCEPTED, "an opening with dates that rise is refused");
    before = book;
}

// An opening with this list is refused as the calendar has it, and keeps every byte, or leaves what the plain one does but for the setup.
static void opens_over(bool sound, const struct list *list) {
    uint32_t wanted = refusal_of(list);
    lend(sound);
    uint32_t refusal = open_with(ID, FINARUVOM_DESK_DELAY, FEE, list);
    must(wanted != FINARUVOM_SETTINGS_DATE || refusal == wanted, "a date that does not exist is not refused with 21");
    must(wanted != FINARUVOM_SETTINGS_DATES || refusal == wanted, "more than 64 dates, or dates that do not rise, are not refused with 22");
    must(refusal == wanted, list->dated ? "an opening with dates that rise is refused" : "dates are looked at without a list");
    if (wanted == FINARUVOM_ACCEPTED) {
        must(finaruvom_open(&before, id, ID) == FINARUVOM_ACCEPTED && before.setup.dated == 0, "the plain opening is refused, or has a list");
        before.setup = setup_of(list);
        must(memcmp(&book.setup, &before.setup, sizeof book.setup) == 0, "an opening leaves another setup than that of its list");
    }
    must(memcmp(&book, &before, sizeof book) == 0, wanted == FINARUVOM_ACCEPTED ? "an opening with a list differs from the plain one in more than the setup"
                                                                                : "a refused opening changes the book");
}

static void opens(const struct list *list) {
    opens_over(false, list);
    opens_over(true, list);
}

static void opens_with_one(uint32_t date) {
    struct list list = {true, 1, {date}};
    opens(&list);
}

// ---- the file

// The number of the date in the book of an opening with it alone, or 21.
static void day_line(uint32_t date, uint64_t wanted) {
    struct list list = {true, 1, {date}};
    uint32_t refusal = open_with(ID, FINARUVOM_PLAIN_DELAY, 0, &list);
    must((refusal == FINARUVOM_ACCEPTED ? book.setup.days[0] : refusal) == wanted, "another day number or refusal");
    opens(&list);
}

static void list_line(const struct list *list, uint64_t wanted) {
    must(open_with(ID, FINARUVOM_PLAIN_DELAY, 0, list) == wanted, "another refusal");
    opens(list);
}

// Its deadline is tests/days.c's.
static void moved_line(const struct list *list, uint64_t seconds, uint64_t wanted) {
    (void)seconds, (void)wanted;
    opens(list);
}

// ---- dates, lengths, places and orders

// Every date in lists of 64; then, for every year, the ends of all months, day 0, and months that are none.
static void every_date(void) {
    at = "every date";
    for (size_t day = 0; day < FINARUVOM_DAYS; day += MOST) {
        struct list list = in_a_row(date_of[day], FINARUVOM_DAYS - day < MOST ? FINARUVOM_DAYS - day : MOST);
        opens_over(false, &list);
    }
    for (uint32_t year = 1970; year <= 2399; year++)
        for (uint32_t month = 0; month <= 13; month++)
            for (uint32_t day = 28; day <= 33; day++)
                opens_with_one(year * 10000 + month * 100 + day % 33);
}

// Years outside, numbers near 2^32, every month and day of two digits in a leap year, and a date with any one bit changed.
static void no_dates(void) {
    static const uint32_t others[] = {0, 1, 101, 1231, 10101, 19691231, 19690228, 24000101, 24000229, 25000101, 99991231, 100000101, 4294960101, 4294967295};
    at = "numbers that are no dates";
    for (size_t i = 0; i < sizeof others / sizeof others[0]; i++)
        opens_with_one(others[i]);
    for (uint32_t rest = 0; rest < 10000; rest++)
        opens_with_one(20280000 + rest);
    for (uint32_t bit = 0; bit < 32; bit++)
        opens_with_one(20261225 ^ (uint32_t)1 << bit);
}

static void lengths(void) {
    struct list list;
    at = "lengths";
    for (size_t n = 0; n <= 70; n++) {
        list = in_a_row(20260301, n);
        opens(&list);
    }
    list = in_a_row(20260301, LONGEST);
    opens(&list);
    list.dates[LONGEST - 1] = 20260431;
    opens(&list);
}

// A list with another number at a place.
static void opens_with(size_t n, size_t place, uint32_t number) {
    struct list list = in_a_row(20260301, n);
    list.dates[place] = number;
    opens(&list);
}

// At each place of a list: no date, one that is there already, and one that is earlier or, at the first place, later than all.
static void places(size_t n) {
    at = "places";
    for (size_t i = 0; i < n; i++) {
        opens_with(n, i, 20260431);
        opens_with(n, i, date_of[day_of(20260301) + (i == 0 ? 1 : i - 1)]);
        opens_with(n, i, i == 0 ? 20300101 : 20260228);
    }
}

static void no_list(void) {
    static const uint32_t numbers[] = {20261225, 20261225, 20260431, 0, 4294967295};
    at = "no list";
    for (size_t n = 0; n <= 70; n++) {
        struct list list = in_a_row(20260301, n);
        list.dated = false;
        opens(&list);
        memcpy(list.dates, numbers, sizeof numbers);
        opens(&list);
    }
}

static void not_opened(size_t id_n, uint32_t delay, uint32_t fee, const struct list *list, uint32_t refusal, const char *what) {
    lend(true);
    must(open_with(id_n, delay, fee, list) == refusal, what);
    must(memcmp(&book, &before, sizeof book) == 0, "a refused opening changes the book");
}

// The id is looked at first, then the default delay, the fee, that every date exists, and that they rise.
static void orders(void) {
    static const struct list falling = {true, 2, {20260502, 20260501}}, none = {true, 2, {20260431, 20260430}};
    at = "orders";
    for (int i = 0; i < 2; i++) {
        const struct list *list = i == 0 ? &falling : &none;
        not_opened(ID - 1, 0, 1001, list, FINARUVOM_LENGTH, "a short id and wrong dates are not refused with 2");
        not_opened(ID + 1, 3600, 1000, list, FINARUVOM_LENGTH, "a long id and wrong dates are not refused with 2");
        not_opened(ID, 3599, 1001, list, FINARUVOM_SETTINGS_DELAY, "a default out of range and wrong dates are not refused with 14");
        not_opened(ID, 2592001, 0, list, FINARUVOM_SETTINGS_DELAY, "a default out of range and wrong dates are not refused with 14");
        not_opened(ID, 3600, 1001, list, FINARUVOM_SETTINGS_FEE, "a fee out of range and wrong dates are not refused with 20");
    }
    not_opened(ID, 3600, 1000, &none, FINARUVOM_SETTINGS_DATE, "a date that does not exist, and does not rise, is not refused with 21");
    not_opened(ID, 3600, 1000, &falling, FINARUVOM_SETTINGS_DATES, "dates that do not rise are not refused with 22");
}

// ---- books that keep other days than an opening writes

// A book with the first `n` of 64 days in a row, whose channel N can be settled.
static void keep(uint32_t n, uint32_t dated) {
    static struct list list;
    list = in_a_row(20261202, MOST);
    must(open_with(ID, FINARUVOM_PLAIN_DELAY, FEE, &list) == FINARUVOM_ACCEPTED, "an opening with dates that rise is refused");
    book.setup.count = n, book.setup.dated = dated;
    book.channels[N] = (struct finaruvom_channel){.merchant.deposit = 1000, .delay = 3600, .status = FINARUVOM_MERCHANT_CLOSING};
}

// Every call says that the book is not sound, and leaves every byte of it.
static void unsound(const char *name) {
    static const struct finaruvom_answer refused = {.refusal = FINARUVOM_UNSOUND};
    static const struct finaruvom_reading unread = {.refusal = FINARUVOM_UNSOUND};
    at = name;
    before = book;
    struct finaruvom_answer answer = finaruvom_apply(&book, settle, sizeof settle);
    must(memcmp(&answer, &refused, sizeof answer) == 0, "a command is carried out");
    struct finaruvom_reading reading = finaruvom_read(&book, N);
    must(memcmp(&reading, &unread, sizeof reading) == 0, "the book is read");
    must(!finaruvom_due(&book).some, "a channel is due");
    struct finaruvom_line line;
    struct finaruvom_ran ran = finaruvom_run(&book, settle, sizeof settle, &line, 1);
    must(ran.lines == 1 && memcmp(&line, &refused, sizeof line) == 0, "a journal is run");
    must(memcmp(&book, &before, sizeof book) == 0, "the book is changed");
}

static void sound(const char *name) {
    at = name;
    must(finaruvom_read(&book, N).held == 1000 && finaruvom_due(&book).some, "the book is not read");
    must(finaruvom_apply(&book, settle, sizeof settle).merchant == 975, "a command is not carried out");
}

static void unsound_flags(void) {
    static const uint32_t flags[] = {2, 255, 256, 257, (uint32_t)1 << 16, (uint32_t)1 << 31, UINT32_MAX};
    for (size_t i = 0; i < sizeof flags / sizeof flags[0]; i++)
        keep(i % 2 == 0 ? MOST : 0, flags[i]), unsound("a flag that is neither 0 nor 1");
}

// Whether there is a list or not, the days must be right.
static void unsound_days(uint32_t dated) {
    static const uint32_t counts[] = {65, 128, 256, 259, (uint32_t)1 << 16, ((uint32_t)1 << 31) + 3, UINT32_MAX};
    static const uint32_t far[] = {157054, 157055, (uint32_t)1 << 24, UINT32_MAX};
    for (size_t i = 0; i < sizeof counts / sizeof counts[0]; i++)
        keep(counts[i], dated), unsound("more than 64 days");
    for (uint32_t i = 1; i < MOST; i++) {
        keep(MOST, dated), book.setup.days[i] = book.setup.days[i - 1], unsound("two equal days");
        keep(MOST, dated), book.setup.days[i - 1] = book.setup.days[i] + 1, unsound("days that fall");
    }
    for (size_t i = 0; i < sizeof far / sizeof far[0]; i++) {
        keep(MOST, dated), book.setup.days[MOST - 1] = far[i], unsound("a day from 157,054 on");
        keep(1, dated), book.setup.days[0] = far[i], unsound("a day from 157,054 on");
    }
}

// Anything may stand behind the days, and day 157,053 is one.
static void sound_days(uint32_t dated) {
    for (uint32_t n = 0; n <= MOST; n++) {
        size_t rest = (MOST - n) * sizeof book.setup.days[0];
        keep(n, dated), sound("days behind the count");
        keep(n, dated), memset(book.setup.days + n, 0xFF, rest), sound("large numbers behind the count");
        keep(n, dated), memset(book.setup.days + n, 0, rest), sound("zeros behind the count");
    }
    keep(MOST, dated), book.setup.days[MOST - 1] = 157053, sound("the last day");
}

int main(int argc, char **argv) {
    static const struct lines lines = {day_line, list_line, moved_line};
    must(argc == 2, "dates FILE");
    walk();
    read_file(argv[1], &lines);
    every_date(), no_dates();
    lengths(), places(2), places(MOST), places(70);
    no_list(), orders();
    unsound_flags();
    for (uint32_t dated = 0; dated < 2; dated++)
        unsound_days(dated), sound_days(dated);
    printf("ok: %u days and %u lists from outside, every date of 430 years, lists of every length, and books with other days\n", DAY_LINES, LIST_LINES);
    return 0;
}
