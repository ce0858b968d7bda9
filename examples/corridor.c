/* The unit's calls in use, in C99. The program reads a project file and prints its report. Then it reads the first record, writes
 * it back and makes its line, writes the whole file again from the list of its sites, and writes a site that is entered by hand.
 * From the root of the project:
 *
 *     tools/build unit_c
 *     cc -std=c99 -Iinclude examples/corridor.c target/staticlib/libunit.a -o target/corridor
 *     target/corridor demo/corridor.project
 *
 * The status is 0 for a refused file too, as that of crash_report is. It is 2 where the file cannot be read, and 1 where something
 * does not come back.
 */
#include "crash_unit.h"
#include <inttypes.h>
#include <stdio.h>
#include <string.h>

/* One byte more than the longest file, so that a longer one is refused for its bytes. */
static uint8_t file[CRASH_LONGEST_FILE + 1];
static uint64_t report[CRASH_LONGEST_REPORT];

/* The sites of a survey, one more number for the length that the last reading leaves, and the file that is made of them. */
static uint64_t sites[CRASH_MOST_SITES * CRASH_SITE_NUMBERS + 1];
static uint8_t survey[CRASH_LONGEST_FILE];
static uint64_t survey_report[CRASH_LONGEST_REPORT];

static uint64_t two_bytes(size_t at)
{
    return 256u * file[at] + file[at + 1];
}

/* Whether the first record, read and written again, is the same bytes, and has the report's first line. The numbers are handed
 * on as they were read. */
static int first_record_comes_back(size_t file_len)
{
    const uint8_t *part = file + CRASH_HEADER_BYTES;
    uint64_t values[CRASH_READ_NUMBERS];
    uint8_t record[CRASH_LONGEST_RECORD];
    uint64_t line[CRASH_LINE_NUMBERS];
    uint64_t written = 0;

    if (crash_site_read(file[0], file[1], part, file_len - CRASH_HEADER_BYTES, values, CRASH_READ_NUMBERS) != CRASH_OK)
        return 0;
    if (crash_site_write(file[0], file[1], values, CRASH_READ_NUMBERS, record, sizeof record, &written) != CRASH_OK)
        return 0;
    if (crash_line(file[0], file[1], two_bytes(2), two_bytes(4), values, CRASH_READ_NUMBERS, line, CRASH_LINE_NUMBERS)
        != CRASH_OK)
        return 0;
    return written == values[CRASH_RECORD_LENGTH] && memcmp(record, part, written) == 0
        && memcmp(line, report, sizeof line) == 0;
}

/* Gathers the sites of an accepted file, as a crew gathers those of a survey: the count of their numbers. Each reading goes
 * over the record's length that the one before left after its site. */
static size_t gather(size_t file_len)
{
    size_t numbers = 0;
    size_t at = CRASH_HEADER_BYTES;

    while (at < file_len) {
        uint64_t *site = sites + numbers;

        if (crash_site_read(file[0], file[1], file + at, file_len - at, site, CRASH_READ_NUMBERS) != CRASH_OK)
            break;
        numbers += CRASH_SITE_NUMBERS;
        at += site[CRASH_RECORD_LENGTH];
    }
    return numbers;
}

/* Whether the survey's sites are written as the same file, with the same report. */
static int survey_is_the_file(size_t file_len, uint64_t report_len)
{
    size_t numbers = gather(file_len);
    uint64_t value = 0;

    if (crash_project_write(file[0], file[1], two_bytes(2), two_bytes(4), sites, numbers, survey, sizeof survey, &value)
        != CRASH_OK)
        return 0;
    if (value != file_len || memcmp(survey, file, file_len) != 0)
        return 0;
    if (crash_project(survey, file_len, survey_report, CRASH_LONGEST_REPORT, &value) != CRASH_OK)
        return 0;
    return value == report_len && memcmp(survey_report, report, report_len * sizeof report[0]) == 0;
}

/* Whether a straight segment that is entered by hand has the record that it should. Every field of the kind holds a number, the
 * defaults too; the record has only the two fields that have no default. */
static int segment_is_entered(void)
{
    static const uint8_t expected[] = {0, 0, 3, 0x10, 0x68, 0x09, 0x2E};
    uint64_t site[CRASH_SITE_NUMBERS];
    uint8_t record[CRASH_LONGEST_RECORD];
    uint64_t written = 0;

    for (size_t i = 0; i < CRASH_SITE_NUMBERS; i++)
        site[i] = CRASH_ABSENT;
    site[CRASH_KIND] = CRASH_SEGMENT;
    site[CRASH_TRAFFIC] = 4200;
    site[CRASH_LENGTH] = 2350;
    site[CRASH_LANE] = 12;
    site[CRASH_SHOULDER] = 6;
    site[CRASH_SHOULDER_TYPE] = 0;
    site[CRASH_GRADE] = 0;
    site[CRASH_DRIVEWAYS] = 5;
    site[CRASH_TWO_WAY_LANE] = 0;
    site[CRASH_PASSING] = 0;
    site[CRASH_HAZARD_RATING] = 3;
    if (crash_site_write(CRASH_FIRST_EDITION, 5, site, CRASH_SITE_NUMBERS, record, sizeof record, &written) != CRASH_OK)
        return 0;
    return written == sizeof expected && memcmp(record, expected, sizeof expected) == 0;
}

static void print_report(uint64_t numbers)
{
    for (uint64_t i = 0; i < numbers; i += CRASH_LINE_NUMBERS)
        printf("%" PRIu64 " %" PRIu64 " %" PRIu64 " %" PRIu64 "\n", report[i], report[i + 1], report[i + 2], report[i + 3]);
}

/* Reads the file whose name is given: whether all of it was read. */
static int is_read(const char *name, size_t *file_len)
{
    FILE *input = fopen(name, "rb");
    int has_failed;

    if (input == NULL)
        return 0;
    *file_len = fread(file, 1, sizeof file, input);
    has_failed = ferror(input);
    fclose(input);
    return !has_failed;
}

/* Says on standard error what has failed. */
static int failed(const char *what, int status)
{
    fprintf(stderr, "corridor: %s\n", what);
    return status;
}

int main(int argc, char **argv)
{
    size_t length = 0;
    uint64_t value = 0;
    uint64_t number;

    if (argc != 2)
        return failed("usage: corridor PROJECT", 2);
    if (!is_read(argv[1], &length))
        return failed("reading failed", 2);
    number = crash_project(file, length, report, CRASH_LONGEST_REPORT, &value);
    if (number != CRASH_OK) {
        printf("refused %" PRIu64 " at %" PRIu64 "\n", number, value);
        return 0;
    }
    print_report(value);
    if (value > CRASH_LINE_NUMBERS && !first_record_comes_back(length))
        return failed("the first record did not come back", 1);
    if (!survey_is_the_file(length, value))
        return failed("the survey did not come back", 1);
    if (!segment_is_entered())
        return failed("the segment was not entered", 1);
    return 0;
}
