// As many dates as an opening can be given: the first 64 days of 1970. The day behind them is a Friday.
#include "../include/finaruvom.h"

enum { DAY_BEHIND = 64 };

static void first_days(uint32_t dates[FINARUVOM_MOST_DATES]) {
    static const uint32_t months[][2] = {{19700101, 31}, {19700201, 28}, {19700301, 5}};
    for (int month = 0; month < 3; month++)
        for (uint32_t day = 0; day < months[month][1]; day++)
            *dates++ = months[month][0] + day;
}
