/* Dates and times of day. Compiled to LLVM's textual IR with
 *   clang -O1 -fno-jump-tables -S -emit-llvm calendar.c -o calendar.ll
 */

int is_leap(unsigned year) { return year % 4u == 0 && (year % 100u != 0 || year % 400u == 0); }

/* The days of a month, 1 to 12; 0 for another number. */
int days_of_month(int month, int leap) {
    if (month < 1 || month > 12)
        return 0;
    if (month == 2)
        return leap ? 29 : 28;
    return 30 + ((month + (month >> 3)) & 1);
}

/* Days before the first of a month, from March on: March is 0. */
int days_before(int month) {
    if (month < 0 || month > 11)
        return -1;
    return (month * 153 + 2) / 5;
}

/* The day of the week, 0 to 6, of so many days. */
unsigned weekday(unsigned days) { return (days % 7u + 4u) % 7u; }

unsigned next_weekday(unsigned day) { return day < 6u ? day + 1u : 0u; }

unsigned hour(unsigned seconds) { return seconds / 3600u % 24u; }

unsigned minute(unsigned seconds) { return seconds % 3600u / 60u; }

/* Hours on a clock of twelve: 12, 1, 2, to 11. */
unsigned twelve(unsigned seconds) {
    unsigned h = hour(seconds);
    if (h > 23u)
        return 99;
    unsigned rest = h % 12u;
    return rest == 0 ? 12u : rest;
}

unsigned seconds_of(unsigned char hours, unsigned char minutes, unsigned char seconds) {
    if (hours > 23 || minutes > 59 || seconds > 59)
        return 86400u;
    return hours * 3600u + minutes * 60u + seconds;
}

/* The quarter of the year of a month, 1 to 12. */
int quarter_of_month(int month) {
    if (month < 1 || month > 12)
        return 0;
    return (month - 1) / 3 + 1;
}
