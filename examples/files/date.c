/* Days and months. */
#include <assert.h>
#include <stdio.h>
#include <time.h>

enum { JANUARY = 1, FEBRUARY, MARCH, APRIL, MAY, JUNE, JULY, AUGUST, SEPTEMBER, OCTOBER, NOVEMBER, DECEMBER };
enum weekday { SUNDAY, MONDAY, TUESDAY, WEDNESDAY, THURSDAY, FRIDAY, SATURDAY, DAYS };

static const int MONTHS = 12;

typedef struct {
    short year;
    unsigned char month, day;
} date_t;

static const char *const month_names[] = {
    "January", "February", "March", "April", "May", "June", "July", "August", "September", "October", "November", "December",
};

static int is_leap(int year) {
    return year % 4 == 0 && (year % 100 != 0 || year % 400 == 0);
}

/* The month of a day of the year, which is counted from 1. */
int month_of(int day, int leap) {
    const int length[2][12] = {
        { 31, 28, 31, 30, 31, 30, 31, 31, 30, 31, 30, 31 },
        { 31, 29, 31, 30, 31, 30, 31, 31, 30, 31, 30, 31 },
    };
    int month = JANUARY;
    while (month < DECEMBER && day > length[leap != 0][month - JANUARY]) {
        day -= length[leap != 0][month - JANUARY];
        month++;
    }
    assert(JANUARY <= month && month <= MONTHS);
    return month;
}

/* The day of the week so many days behind a Sunday. */
int weekday_behind(int days) {
    int day = days % DAYS;
    if (day < SUNDAY) day += DAYS;
    assert(SUNDAY <= day && day <= SATURDAY);
    return day;
}

void print_date(const date_t *date) {
    printf("%d %s %d%s\n", date->day, month_names[date->month - 1], date->year, is_leap(date->year) ? " (leap)" : "");
}
