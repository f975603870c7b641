/* The date of a number of days since 1970-01-01. */
#include "microsys.h"

static const uint16_t days[3] = {0, 59, 11016};
static const uint8_t lengths[12] = {31, 28, 31, 30, 31, 30, 31, 31, 30, 31, 30, 31};

static int is_leap(uint32_t year) {
    return (year % 4 == 0 && division(year, 100).remainder != 0) || division(year, 400).remainder == 0;
}

static void put_date(uint32_t day) {
    uint32_t year = 1970, month = 0;
    for (uint32_t turn = 0; turn < 180 && day >= 365u + is_leap(year); turn++) {
        day -= 365 + is_leap(year);
        year++;
    }
    for (month = 0; month < 12; month++) {
        uint32_t length = lengths[month] + (month == 1 && is_leap(year));
        if (day < length)
            break;
        day -= length;
    }
    sys_put_char(year - 1900);
    sys_put_char(month + 1);
    sys_put_char(day + 1);
}

THREAD main(void) {
    for (;;) {
        sys_wait(CAP_BELL);
        for (unsigned i = 0; i < 3; i++)
            put_date(days[i]);
        handler_ack(CAP_LINE);
    }
}
