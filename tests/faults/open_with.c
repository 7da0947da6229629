#include "faults.h"

uint32_t right(struct finaruvom_book *book, const uint8_t *id, size_t id_n, struct finaruvom_settings settings, const uint32_t *dates, size_t dates_n);

// What is made of the settings before they are looked at.
static inline struct finaruvom_settings other_settings(struct finaruvom_settings settings) {
#ifdef IGNORES_SETTINGS
    settings.delay = FINARUVOM_PLAIN_DELAY;
#endif
#ifdef FORGETS_THE_FEE
    settings.fee = settings.fee > FINARUVOM_HIGHEST_FEE ? settings.fee : 0;
#endif
#ifdef ONE_HIGHER
    settings.fee -= settings.fee == FINARUVOM_HIGHEST_FEE + 1;
#endif
#ifdef ONE_LOWER
    settings.fee += settings.fee == FINARUVOM_HIGHEST_FEE;
#endif
#ifdef FEE_IS_THE_DESKS
    settings.delay = settings.delay == FINARUVOM_PLAIN_DELAY && settings.fee != 0 ? FINARUVOM_DESK_DELAY : settings.delay;
#endif
#ifdef CUTS_THE_FEE
    settings.fee &= 0xFFFF;
#endif
#ifdef ZERO_IS_PLAIN
    if (settings.delay == 0)
        settings.delay = FINARUVOM_PLAIN_DELAY;
#endif
    return settings;
}

static inline bool leap(uint32_t year) {
#if defined EVERY_FOURTH_YEAR
    return year % 4 == 0;
#elif defined NO_400TH_YEAR
    return year % 4 == 0 && year % 100 != 0;
#else
    return year % 4 == 0 && (year % 100 != 0 || year % 400 == 0);
#endif
}

static inline uint32_t length_of(uint32_t year, uint32_t month) {
#ifdef MONTHS_OF_31
    (void)year, (void)month;
    return 31;
#else
    return month == 2 ? 28u + leap(year) : month == 4 || month == 6 || month == 9 || month == 11 ? 30 : 31;
#endif
}

static inline bool exists(uint32_t date) {
    uint32_t year = date / 10000, month = date / 100 % 100, day = date % 100, last = 2399, first = 1970;
#ifdef YEAR_2400
    last = 2400;
#endif
#ifdef YEAR_1969
    first = 1969;
#endif
#ifdef DAY_0
    day += day == 0;
#endif
    return year >= first && year <= last && month >= 1 && month <= 12 && day >= 1 && day <= length_of(year, month);
}

static inline uint32_t day_of(uint32_t date) {
    uint32_t day = date % 100 - 1;
    for (uint32_t year = 1970; year < date / 10000; year++)
        day += 365 + leap(year);
    for (uint32_t month = 1; month < date / 100 % 100; month++)
        day += length_of(date / 10000, month);
#ifdef FROM_ONE
    day++;
#endif
    return day;
}

static inline bool all_exist(const uint32_t *dates, size_t n) {
#ifdef FIRST_64
    n = n > FINARUVOM_MOST_DATES ? FINARUVOM_MOST_DATES : n;
#endif
#ifdef BUT_THE_LAST
    n -= n > 1;
#endif
    for (size_t i = 0; i < n; i++)
        if (!exists(dates[i]))
            return false;
    return true;
}

static inline bool rise(const uint32_t *dates, size_t n) {
    size_t most = FINARUVOM_MOST_DATES;
#ifdef SIXTY_FIVE
    most = 65;
#endif
#ifdef SIXTY_THREE
    most = 63;
#endif
#ifndef ANY_ORDER
    for (size_t i = 1; i < n; i++)
#ifdef EQUAL_DATES
        if (dates[i] < dates[i - 1])
#else
        if (dates[i] <= dates[i - 1])
#endif
            return false;
#endif
    (void)dates;
    return n <= most;
}

static inline uint32_t refusal_of(const uint32_t *dates, size_t n) {
#ifdef ORDER_FIRST
    return !rise(dates, n) ? FINARUVOM_SETTINGS_DATES : !all_exist(dates, n) ? FINARUVOM_SETTINGS_DATE : FINARUVOM_ACCEPTED;
#else
    return !all_exist(dates, n) ? FINARUVOM_SETTINGS_DATE : !rise(dates, n) ? FINARUVOM_SETTINGS_DATES : FINARUVOM_ACCEPTED;
#endif
}

// Whether the dates are looked at.
static inline bool looked_at(size_t id_n, struct finaruvom_settings settings) {
    bool in_range = id_n == FINARUVOM_ID_SIZE && settings.delay >= FINARUVOM_SHORTEST_DELAY && settings.delay <= FINARUVOM_LONGEST_DELAY;
#ifndef DATES_BEFORE_FEE
    in_range = in_range && settings.fee <= FINARUVOM_HIGHEST_FEE;
#endif
#ifndef ANY_LIST
    in_range = in_range && settings.dated;
#endif
    return in_range;
}

// Keeps the days of a list; `old` is what the lent book had.
static inline void keep(struct finaruvom_setup *setup, const struct finaruvom_setup *old, bool dated, const uint32_t *dates, size_t n) {
    (void)old, (void)dated;
#ifdef EMPTY_IS_NONE
    setup->dated = dated && n != 0;
#endif
#ifndef KEEPS_UNGIVEN
    if (!dated)
        return;
#endif
#ifdef LEAVES_DAYS
    memcpy(setup->days, old->days, sizeof setup->days);
#endif
    setup->count = (uint32_t)(n > FINARUVOM_MOST_DATES ? FINARUVOM_MOST_DATES : n);
    for (uint32_t i = 0; i < setup->count; i++)
        setup->days[i] = day_of(dates[i]);
}

// An opening that looks at its dates and keeps them by the functions above.
static inline uint32_t opened(struct finaruvom_book *book, const uint8_t *id, size_t id_n, struct finaruvom_settings settings, const uint32_t *dates,
                              size_t dates_n) {
    struct finaruvom_setup old = book->setup;
    uint32_t refusal = looked_at(id_n, settings) ? refusal_of(dates, dates_n) : FINARUVOM_ACCEPTED;
#ifdef KEEPS_ANYWAY
    if (refusal != FINARUVOM_ACCEPTED)
        book->setup.count = 0;
#endif
    if (refusal == FINARUVOM_ACCEPTED)
        refusal = right(book, id, id_n, settings, dates, 0);
    if (refusal == FINARUVOM_ACCEPTED)
        keep(&book->setup, &old, settings.dated, dates, dates_n);
    return refusal;
}

uint32_t finaruvom_open_with(struct finaruvom_book *book, const uint8_t *id, size_t id_n, struct finaruvom_settings settings, const uint32_t *dates,
                             size_t dates_n) {
    settings = other_settings(settings);
#ifdef COPIES
    static struct finaruvom_book copy;
    memcpy(&copy, book, sizeof copy);
#endif
#ifdef DEEP
    volatile uint8_t room[2 * sizeof *book];
    (void)room;
#endif
#ifdef FEE_BEFORE_ID
    if (settings.delay >= FINARUVOM_SHORTEST_DELAY && settings.delay <= FINARUVOM_LONGEST_DELAY && settings.fee > FINARUVOM_HIGHEST_FEE)
        return FINARUVOM_SETTINGS_FEE;
#endif
#ifdef FEE_BEFORE_DEFAULT
    if (id_n == FINARUVOM_ID_SIZE && settings.fee > FINARUVOM_HIGHEST_FEE)
        return FINARUVOM_SETTINGS_FEE;
#endif
#ifdef DEFAULT_FIRST
    if (settings.delay < FINARUVOM_SHORTEST_DELAY)
        return FINARUVOM_SETTINGS_DELAY;
#endif
    uint32_t refusal = opened(book, id, id_n, settings, dates, dates_n);
#ifdef STORES_ANYWAY
    book->setup.delay = settings.delay;
#endif
#ifdef STORES_THE_FEE_ANYWAY
    book->setup.fee = settings.fee;
#endif
    return refusal;
}
