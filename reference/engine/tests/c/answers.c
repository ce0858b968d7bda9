/* The header's words on what each call of a site, of a list of sites or of a file answers, tried one by one. Prints the lines that
 * do not hold. */
#include "crash_unit.h"
#include <stdio.h>
#include <string.h>

static int wrong = 0;

static void holds(int is_so, const char *what)
{
    if (!is_so) {
        printf("%s\n", what);
        wrong = 1;
    }
}

#define HOLDS(what) holds(what, #what)

/* A plain segment, as a record. */
static const uint8_t part[] = {0, 0, 3, 0x03, 0xE8, 0x01, 0xF4};

static uint64_t values[CRASH_READ_NUMBERS + 2];
static uint8_t buffer[CRASH_LONGEST_RECORD];
static uint64_t line[CRASH_LINE_NUMBERS];
static uint64_t written;
static uint64_t sites[(CRASH_MOST_SITES + 1) * CRASH_SITE_NUMBERS];
static uint8_t file[CRASH_LONGEST_FILE];

/* The edition that the calls below are made with. */
static uint64_t edition;

static uint64_t record_of(uint64_t years, size_t numbers, size_t room)
{
    written = 7;
    return crash_site_write(edition, years, values, numbers, buffer, room, &written);
}

static uint64_t line_of(uint64_t years, uint64_t segments, uint64_t crossings, size_t numbers, size_t room)
{
    memset(line, 0, sizeof line);
    return crash_line(edition, years, segments, crossings, values, numbers, line, room);
}

static uint64_t file_of(uint64_t years, size_t numbers, size_t room)
{
    written = 7;
    memset(file, 7, sizeof file);
    return crash_project_write(edition, years, 1100, 950, sites, numbers, file, room, &written);
}

/* The numbers that were read, and more, are handed on; fewer than a site's are no site. */
static void handed_on(void)
{
    HOLDS(crash_site_read(edition, 1, part, sizeof part, values, CRASH_READ_NUMBERS) == CRASH_OK);
    HOLDS(values[CRASH_RECORD_LENGTH] == sizeof part);
    values[CRASH_READ_NUMBERS] = UINT64_MAX;
    for (size_t numbers = 0; numbers <= CRASH_READ_NUMBERS + 2; numbers++) {
        uint64_t answer = numbers < CRASH_SITE_NUMBERS ? CRASH_OUTSIDE_RANGE : CRASH_OK;
        HOLDS(record_of(1, numbers, sizeof buffer) == answer);
        HOLDS(written == (answer == CRASH_OK ? sizeof part : 7));
        HOLDS(answer != CRASH_OK || memcmp(buffer, part, sizeof part) == 0);
        HOLDS(line_of(1, 1000, 1000, numbers, CRASH_LINE_NUMBERS) == answer);
        HOLDS((line[1] > 0) == (answer == CRASH_OK));
    }
}

/* The same site twice is a header and its record twice, and the most sites are written. */
static void listed(void)
{
    const uint8_t header[CRASH_HEADER_BYTES] = {(uint8_t)edition, 5, 0x04, 0x4C, 0x03, 0xB6, 0, 2};
    size_t length = sizeof header + 2 * sizeof part;

    for (size_t i = 0; i < sizeof sites / sizeof sites[0]; i++)
        sites[i] = values[i % CRASH_SITE_NUMBERS];
    HOLDS(file_of(5, 2 * CRASH_SITE_NUMBERS, length) == CRASH_OK && written == length);
    HOLDS(file_of(5, 2 * CRASH_SITE_NUMBERS, length + 1) == CRASH_OK && written == length);
    HOLDS(memcmp(file, header, sizeof header) == 0);
    HOLDS(memcmp(file + sizeof header, part, sizeof part) == 0);
    HOLDS(memcmp(file + sizeof header + sizeof part, part, sizeof part) == 0);
    HOLDS(file[length] == 7);
    HOLDS(file_of(5, 0, sizeof header) == CRASH_OK && written == sizeof header);
    HOLDS(file_of(5, CRASH_MOST_SITES * CRASH_SITE_NUMBERS, sizeof file) == CRASH_OK);
    HOLDS(written == sizeof header + CRASH_MOST_SITES * sizeof part);
}

/* 4 for the header or the count of sites, then 8 for the first site, then 10 for the space. */
static void listed_in_order(void)
{
    HOLDS(file_of(5, CRASH_SITE_NUMBERS, CRASH_HEADER_BYTES + sizeof part - 1) == CRASH_TOO_SHORT);
    HOLDS(written == 0 && file[0] == 7);
    HOLDS(file_of(5, CRASH_SITE_NUMBERS + 1, 0) == CRASH_OUTSIDE_RANGE && written == 1);
    HOLDS(file_of(5, CRASH_MOST_SITES * CRASH_SITE_NUMBERS + 1, 0) == CRASH_OUTSIDE_LIMITS && written == 0);
    sites[2 * CRASH_SITE_NUMBERS + CRASH_TRAFFIC] = 20001;
    HOLDS(file_of(5, 3 * CRASH_SITE_NUMBERS + 1, 0) == CRASH_OUTSIDE_RANGE && written == 2);
    HOLDS(file_of(5, 3 * CRASH_SITE_NUMBERS, sizeof file) == CRASH_OUTSIDE_RANGE && written == 2);
    HOLDS(file[0] == 7 && file[CRASH_HEADER_BYTES] == 7);
    HOLDS(file_of(11, 3 * CRASH_SITE_NUMBERS + 1, 0) == CRASH_OUTSIDE_LIMITS && written == 0);
    HOLDS(file_of(5, sizeof sites / sizeof sites[0], sizeof file) == CRASH_OUTSIDE_LIMITS && written == 0);
    HOLDS(file[0] == 7 && file[CRASH_HEADER_BYTES] == 7);
}

/* 4 for the header, then 8 for the site, then 10 for the space. */
static void in_order(void)
{
    HOLDS(line_of(0, 1, 1, CRASH_READ_NUMBERS, CRASH_LINE_NUMBERS) == CRASH_OUTSIDE_LIMITS);
    HOLDS(line_of(11, 1, 1, CRASH_READ_NUMBERS, CRASH_LINE_NUMBERS) == CRASH_OUTSIDE_LIMITS);
    HOLDS(line_of(1, 0, 1, CRASH_READ_NUMBERS, CRASH_LINE_NUMBERS) == CRASH_OUTSIDE_LIMITS);
    HOLDS(line_of(1, 1, 10000, CRASH_READ_NUMBERS, CRASH_LINE_NUMBERS) == CRASH_OUTSIDE_LIMITS);
    HOLDS(line_of(11, 1, 1, 0, 0) == CRASH_OUTSIDE_LIMITS);
    HOLDS(line_of(1, 1, 1, 0, 0) == CRASH_OUTSIDE_RANGE);
    HOLDS(line_of(1, 1, 1, CRASH_READ_NUMBERS, CRASH_LINE_NUMBERS - 1) == CRASH_TOO_SHORT);
    HOLDS(record_of(11, 0, 0) == CRASH_OUTSIDE_LIMITS);
    HOLDS(record_of(1, 0, 0) == CRASH_OUTSIDE_RANGE);
    HOLDS(record_of(1, CRASH_READ_NUMBERS, sizeof part - 1) == CRASH_TOO_SHORT);
    values[CRASH_TRAFFIC] = 20001;
    HOLDS(line_of(11, 1, 1, CRASH_READ_NUMBERS, 0) == CRASH_OUTSIDE_LIMITS);
    HOLDS(line_of(1, 1, 1, CRASH_READ_NUMBERS, 0) == CRASH_OUTSIDE_RANGE);
    HOLDS(record_of(0, CRASH_READ_NUMBERS, 0) == CRASH_OUTSIDE_LIMITS);
    HOLDS(record_of(1, CRASH_READ_NUMBERS, 0) == CRASH_OUTSIDE_RANGE);
    HOLDS(written == 7);
}

/* A four-leg signal with traffic 1,000 and 2,000, and minor traffic 300 and 400. */
static const uint8_t yearly[] = {3, 0x80, 3, 0x03, 0xE8, 0x07, 0xD0, 0x01, 0x2C, 0x01, 0x90};

static uint64_t read_over(uint64_t years, size_t length)
{
    memset(values, 0, sizeof values);
    return crash_site_read(edition, years, yearly, length, values, CRASH_READ_NUMBERS);
}

/* Later years: where they stand, and years that are not theirs. */
static void year_by_year(void)
{
    const uint64_t *later = values + CRASH_LATER_TRAFFIC;
    const uint64_t *minor = values + CRASH_LATER_MINOR;

    HOLDS(read_over(0, sizeof yearly) == CRASH_OUTSIDE_LIMITS);
    HOLDS(read_over(CRASH_MOST_YEARS + 1, 0) == CRASH_OUTSIDE_LIMITS);
    HOLDS(read_over(1, sizeof yearly) == CRASH_BIT_MISSING);
    HOLDS(read_over(3, sizeof yearly) == CRASH_RUNS_PAST);
    HOLDS(read_over(2, sizeof yearly - 1) == CRASH_RUNS_PAST && values[CRASH_TRAFFIC] == 0);
    HOLDS(read_over(2, sizeof yearly) == CRASH_OK && values[CRASH_RECORD_LENGTH] == sizeof yearly);
    HOLDS(values[CRASH_TRAFFIC] == 1000 && later[0] == 2000 && values[CRASH_MINOR_TRAFFIC] == 300 && minor[0] == 400);
    for (size_t year = 1; year < CRASH_LATER_YEARS; year++)
        HOLDS(later[year] == CRASH_ABSENT && minor[year] == CRASH_ABSENT);
    HOLDS(record_of(2, CRASH_READ_NUMBERS, sizeof yearly) == CRASH_OK);
    HOLDS(written == sizeof yearly && memcmp(buffer, yearly, sizeof yearly) == 0);
    for (uint64_t years = 1; years <= CRASH_MOST_YEARS; years++) {
        uint64_t answer = years == 2 ? CRASH_OK : CRASH_OUTSIDE_RANGE;
        HOLDS(record_of(years, CRASH_READ_NUMBERS, sizeof buffer) == answer);
        HOLDS(line_of(years, 1000, 1000, CRASH_READ_NUMBERS, CRASH_LINE_NUMBERS) == answer);
    }
    values[CRASH_LATER_MINOR] = CRASH_ABSENT;
    HOLDS(record_of(2, CRASH_READ_NUMBERS, sizeof buffer) == CRASH_OUTSIDE_RANGE);
}

/* A file of two sites: the plain segment, and a signal whose observed crashes are its last field. */
static uint8_t pair[] = {1, 5, 0x03, 0xE8, 0x03, 0xE8, 0, 2, 0, 0, 3, 0x03, 0xE8, 0x01, 0xF4,
                         3, 0, 7, 0x03, 0xE8, 0x01, 0xF4, 0, 9, 0};

static const size_t second = CRASH_HEADER_BYTES + sizeof part;

/* Whether a file is refused with a number at a place, and leaves its report. */
static int is_refused(size_t length, uint64_t number, uint64_t place)
{
    uint64_t report[3 * CRASH_LINE_NUMBERS] = {0};

    return crash_project(pair, length, report, 3 * CRASH_LINE_NUMBERS, &written) == number && written == place && report[1] == 0;
}

/* A place is the first byte of the record that is refused, 0 in the header, and the first byte after the records for 2. */
static void places(void)
{
    size_t length = sizeof pair - 1;
    uint64_t report[3 * CRASH_LINE_NUMBERS];

    pair[0] = (uint8_t)edition;
    HOLDS(crash_project(pair, length, report, 3 * CRASH_LINE_NUMBERS, &written) == CRASH_OK && written == 3 * CRASH_LINE_NUMBERS);
    HOLDS(crash_project(pair, length, report, 3 * CRASH_LINE_NUMBERS - 1, &written) == CRASH_TOO_SHORT && written == 0);
    HOLDS(is_refused(sizeof pair, CRASH_BYTES_AFTER, length));
    HOLDS(is_refused(CRASH_HEADER_BYTES - 1, CRASH_RUNS_PAST, 0));
    HOLDS(is_refused(CRASH_HEADER_BYTES, CRASH_RUNS_PAST, CRASH_HEADER_BYTES));
    HOLDS(is_refused(second - 1, CRASH_RUNS_PAST, CRASH_HEADER_BYTES));
    HOLDS(is_refused(second, CRASH_RUNS_PAST, second));
    HOLDS(is_refused(length - 1, CRASH_RUNS_PAST, second));
    pair[length - 2] = 2;
    HOLDS(is_refused(length, CRASH_OUTSIDE_RANGE, second));
    pair[length - 2] = 0;
    pair[1] = CRASH_MOST_YEARS + 1;
    HOLDS(is_refused(length, CRASH_OUTSIDE_LIMITS, 0));
    pair[1] = 5;
}

/* 3 for an edition that there is not, before everything else, and nothing is written. */
static void no_edition(void)
{
    static const uint64_t others[] = {0, CRASH_LAST_EDITION + 1, 255, 257, UINT64_MAX};

    for (size_t i = 0; i < sizeof others / sizeof others[0]; i++) {
        edition = others[i];
        for (uint64_t years = 0; years <= CRASH_MOST_YEARS + 1; years++) {
            HOLDS(read_over(years, 0) == CRASH_EDITION_NOT && values[CRASH_TRAFFIC] == 0);
            HOLDS(read_over(years, sizeof yearly) == CRASH_EDITION_NOT && values[CRASH_TRAFFIC] == 0);
            HOLDS(record_of(years, 0, 0) == CRASH_EDITION_NOT && written == 7);
            HOLDS(line_of(years, 0, 10000, 0, 0) == CRASH_EDITION_NOT && line[1] == 0);
            HOLDS(file_of(years, 0, sizeof file) == CRASH_EDITION_NOT && written == 0 && file[0] == 7);
        }
        HOLDS(file_of(5, sizeof sites / sizeof sites[0], 0) == CRASH_EDITION_NOT && written == 0);
    }
}

/* A three-leg stop with one quadrant of limited sight, and one without the field. */
static const uint8_t limited[] = {1, 0, 0x43, 0x03, 0xE8, 0x01, 0xF4, 0, 1};
static const uint8_t unlimited[] = {1, 0, 0x03, 0x03, 0xE8, 0x01, 0xF4};

/* Edition 2 lacks limited sight: its bit is refused, and no number stands there. */
static void limited_sight(void)
{
    uint64_t *sight = values + CRASH_LIMITED_SIGHT;
    uint64_t answer = edition == 1 ? CRASH_OK : CRASH_BIT_LACKED;

    HOLDS(crash_site_read(edition, 1, limited, sizeof limited, values, CRASH_READ_NUMBERS) == answer);
    HOLDS(crash_site_read(edition, 1, unlimited, sizeof unlimited, values, CRASH_READ_NUMBERS) == CRASH_OK);
    HOLDS(*sight == (edition == 1 ? 0 : CRASH_ABSENT));
    HOLDS(record_of(1, CRASH_READ_NUMBERS, sizeof buffer) == CRASH_OK && written == sizeof unlimited);
    *sight = edition == 1 ? CRASH_ABSENT : 0;
    HOLDS(record_of(1, CRASH_READ_NUMBERS, sizeof buffer) == CRASH_OUTSIDE_RANGE);
    HOLDS(line_of(1, 1000, 1000, CRASH_READ_NUMBERS, CRASH_LINE_NUMBERS) == CRASH_OUTSIDE_RANGE);
}

int main(void)
{
    for (edition = CRASH_FIRST_EDITION; edition <= CRASH_LAST_EDITION; edition++) {
        handed_on();
        listed();
        listed_in_order();
        in_order();
        year_by_year();
        limited_sight();
        places();
    }
    no_edition();
    return wrong;
}
