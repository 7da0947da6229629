// What the tests of dates and of deadlines are held to: a calendar that is walked day by day, and the lines of a file from outside.
#include "../include/finaruvom.h"
#include <inttypes.h>
#include <stdio.h>
#include <stdlib.h>
#include <string.h>

enum { SECONDS = 86400, LONGEST = 1000, DAY_LINES = 214, LIST_LINES = 11, MOVED_LINES = 270 };

// What an opening is given: whether there is a list, and the dates.
struct list {
    bool dated;
    size_t n;
    uint32_t dates[LONGEST];
};

static const char *at = "dates and deadlines";

static inline void must(bool holds, const char *what) {
    if (!holds) {
        fprintf(stderr, "days: %s: %s\n", at, what);
        exit(1);
    }
}

// ---- the calendar

// From 1970-01-01, a Thursday, to 2399-12-31: the date of each day, and whether it is a Saturday or a Sunday.
static uint32_t date_of[FINARUVOM_DAYS];
static bool weekend_of[FINARUVOM_DAYS];

static inline void walk(void) {
    static const uint32_t lengths[] = {31, 28, 31, 30, 31, 30, 31, 31, 30, 31, 30, 31};
    size_t n = 0;
    unsigned weekday = 4; // 1 Monday, 7 Sunday
    for (uint32_t year = 1970; year <= 2399; year++)
        for (uint32_t month = 1; month <= 12; month++) {
            bool longer = month == 2 && year % 4 == 0 && (year % 100 != 0 || year % 400 == 0);
            for (uint32_t day = 1; n < FINARUVOM_DAYS && day <= lengths[month - 1] + longer; day++, n++) {
                date_of[n] = year * 10000 + month * 100 + day;
                weekend_of[n] = weekday >= 6;
                weekday = weekday == 7 ? 1 : weekday + 1;
            }
        }
    must(n == FINARUVOM_DAYS && date_of[n - 1] == 23991231, "the calendar ends with another day");
}

static inline int by_date(const void *a, const void *b) {
    uint32_t x = *(const uint32_t *)a, y = *(const uint32_t *)b;
    return (x > y) - (x < y);
}

// The day of a date; FINARUVOM_DAYS where there is none.
static inline uint32_t day_of(uint32_t date) {
    const uint32_t *found = bsearch(&date, date_of, FINARUVOM_DAYS, sizeof date, by_date);
    return found == NULL ? FINARUVOM_DAYS : (uint32_t)(found - date_of);
}

// A list of so many days in a row.
static inline struct list in_a_row(uint32_t first, size_t n) {
    struct list list = {.dated = true, .n = n};
    memcpy(list.dates, date_of + day_of(first), n * sizeof date_of[0]);
    return list;
}

static inline uint32_t refusal_of(const struct list *list) {
    bool rising = list->n <= FINARUVOM_MOST_DATES;
    for (size_t i = 0; list->dated && i < list->n; i++) {
        if (day_of(list->dates[i]) == FINARUVOM_DAYS)
            return FINARUVOM_SETTINGS_DATE;
        rising &= i == 0 || list->dates[i] > list->dates[i - 1];
    }
    return !list->dated || rising ? FINARUVOM_ACCEPTED : FINARUVOM_SETTINGS_DATES;
}

// Past 2399 weekends go on, seven days apart, and no date is listed.
static inline bool shut(const struct list *list, uint64_t day) {
    if (day >= FINARUVOM_DAYS)
        return weekend_of[day % 7];
    for (size_t i = 0; i < list->n; i++)
        if (list->dates[i] == date_of[day])
            return true;
    return weekend_of[day];
}

// A deadline, moved where its day is shut.
static inline uint64_t moved(const struct list *list, uint64_t deadline) {
    uint64_t day = deadline / SECONDS;
    if (!list->dated || !shut(list, day))
        return deadline;
    while (shut(list, day))
        day++;
    return day * SECONDS;
}

// ---- the file

// What is done with a line of each kind.
struct lines {
    void (*day)(uint32_t date, uint64_t wanted);
    void (*list)(const struct list *list, uint64_t wanted);
    void (*moved)(const struct list *list, uint64_t seconds, uint64_t wanted);
};

static inline bool read_list(const char *s, struct list *list) {
    *list = (struct list){.dated = strcmp(s, "none") != 0};
    if (!list->dated || strcmp(s, "-") == 0)
        return true;
    for (;; s++) {
        unsigned year, month, day;
        int used = 0;
        if (list->n == LONGEST || sscanf(s, "%4u-%2u-%2u%n", &year, &month, &day, &used) != 3)
            return false;
        list->dates[list->n++] = year * 10000 + month * 100 + day;
        s += used;
        if (*s != ';')
            return *s == 0;
    }
}

// The counts are of days, lists and moved deadlines.
static inline void read_line(const char *line, const struct lines *lines, unsigned counts[3]) {
    static char dates[8192];
    static struct list list;
    unsigned year, month, day;
    uint64_t seconds, wanted;
    int end = 0;
    if (sscanf(line, "day %u %u %u -> %" SCNu64 "%n", &year, &month, &day, &wanted, &end) == 4 && line[end] == '\n')
        counts[0]++, lines->day(year * 10000 + month * 100 + day, wanted);
    else if (sscanf(line, "list %8191s -> %" SCNu64 "%n", dates, &wanted, &end) == 2 && line[end] == '\n' && read_list(dates, &list))
        counts[1]++, lines->list(&list, wanted);
    else if (sscanf(line, "moved %8191s %" SCNu64 " -> %" SCNu64 "%n", dates, &seconds, &wanted, &end) == 3 && line[end] == '\n' && read_list(dates, &list))
        counts[2]++, lines->moved(&list, seconds, wanted);
    else
        must(line[0] == '#', "it cannot be read");
}

static inline void read_file(const char *path, const struct lines *lines) {
    static char line[16384], name[32];
    unsigned counts[3] = {0};
    FILE *file = fopen(path, "r");
    at = path;
    must(file != NULL, "it cannot be read");
    for (unsigned n = 1; fgets(line, sizeof line, file) != NULL; n++) {
        snprintf(name, sizeof name, "line %u", n);
        at = name;
        read_line(line, lines, counts);
    }
    at = path;
    must(fclose(file) == 0 && counts[0] == DAY_LINES && counts[1] == LIST_LINES && counts[2] == MOVED_LINES, "the file has another number of lines");
}
