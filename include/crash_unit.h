/* The crash engine's calls for C (C99 or later) and C++ (C++11 or later). `tools/build unit_c` makes the archive to link,
 * target/staticlib/libunit.a: ELF objects for x86-64, with the calling convention of the System V ABI.
 *
 * Lent runs. A run of numbers or bytes is handed over as a pointer and its length, in numbers or in bytes. It is lent for the
 * time of the call. Every pointer must be valid for its length and not null, even where the length is 0, and a pointer to
 * numbers must be aligned for uint64_t. `value` and `written` each point to one number: they must be valid, aligned and not
 * null. Two runs of one call may not overlap, and what `value` or `written` points to may not lie in a run of the same call.
 * No call has a precondition on the values: whatever they are, it answers, and it writes only what is said here.
 *
 * Answers. A call answers CRASH_OK or the number of a refusal. A refusal leaves every lent run as it was. Each call's contract,
 * proved, is in crates/unit_c/src.
 *
 * Threads. The archive has no state: no writable data (`nm` shows none) and nothing that it calls but memcpy and memset.
 * Any number of threads may call at once, each with runs of its own; runs that are only read may be shared.
 *
 * Stack. Any call has enough with CRASH_STACK bytes. Measured by painting a stack and looking how far down a call wrote:
 * crash_project and crash_line 25 KB, crash_power 21 KB, the others at most 2.4 KB.
 */
#ifndef CRASH_UNIT_H
#define CRASH_UNIT_H

#include <stddef.h>
#include <stdint.h>

#ifdef __cplusplus
extern "C" {
#endif

/* The answers. The numbers are those of document 01's table as document 02 amends it (the customer's papers, which come with
 * the unit). */
#define CRASH_OK 0
#define CRASH_RUNS_PAST 1       /* header, kind, map or field runs past the end */
#define CRASH_BYTES_AFTER 2     /* bytes after the last record */
#define CRASH_EDITION_NOT 3     /* edition neither 1 nor 2 */
#define CRASH_OUTSIDE_LIMITS 4  /* years, calibration or sites outside limits */
#define CRASH_KIND_ABOVE 5      /* kind above 3 */
#define CRASH_BIT_LACKED 6      /* bit the kind lacks; in edition 2 limited sight too */
#define CRASH_BIT_MISSING 7     /* needed bit absent, curve bits unmatched, or later years in a project of one year */
#define CRASH_OUTSIDE_RANGE 8   /* field outside its range */
#define CRASH_DEFAULT_SPELLED 9 /* default spelled out */
#define CRASH_TOO_SHORT 10      /* report, record buffer or other lent run too short */

/* Editions, as the first byte of a file: 1 is the federal model (FHWA-RD-99-207), and 2 is Chapter 10 of the Highway Safety
 * Manual, first edition. */
#define CRASH_FIRST_EDITION 1
#define CRASH_LAST_EDITION 2

/* Sizes: no accepted file, report or record is longer. */
#define CRASH_HEADER_BYTES 8
#define CRASH_MOST_SITES 1200
#define CRASH_MOST_YEARS 10
#define CRASH_LATER_YEARS (CRASH_MOST_YEARS - 1)
#define CRASH_LONGEST_RECORD 53                                                            /* bytes */
#define CRASH_LONGEST_FILE (CRASH_HEADER_BYTES + CRASH_MOST_SITES * CRASH_LONGEST_RECORD)  /* bytes */
#define CRASH_LINE_NUMBERS 4
#define CRASH_LONGEST_REPORT (CRASH_LINE_NUMBERS * (CRASH_MOST_SITES + 1))                 /* numbers */
#define CRASH_SITE_NUMBERS (21 + 2 * CRASH_LATER_YEARS)
#define CRASH_READ_NUMBERS (CRASH_SITE_NUMBERS + 1)
#define CRASH_BRACKET_NUMBERS 4
#define CRASH_STACK 32768                                                                  /* bytes */

/* Widths, proved for every line, report and bracket. high - low is at most
 *   CRASH_PREDICTED_EACH * sites + high / CRASH_WIDTH_PARTS for a predicted pair,
 *   CRASH_EXPECTED_EACH * (sites + observed crashes) + high / CRASH_WIDTH_PARTS for an expected pair,
 * of a line, which has one site, and of a report's totals, all in millionths of a crash; a site with traffic year by year counts
 * as so many sites as the project has years, and each of its observed crashes as so many. In edition 2 an observed crash of a
 * segment counts 1 + k times as much, where k is 236 / length, the length in thousandths of a mile. What the crashes count for is
 * rounded up once: in a line for its site, in the totals for the sum over all sites. And for a bracket
 *   high / CRASH_POWER_PARTS of a power, high / CRASH_EXPONENTIAL_PARTS of e^x and of e^(-x),
 *   1 / CRASH_LOGARITHM_PARTS of a logarithm, whatever its high. */
#define CRASH_PREDICTED_EACH 4
#define CRASH_EXPECTED_EACH 8
#define CRASH_WIDTH_PARTS 1000000
#define CRASH_POWER_PARTS 100000000
#define CRASH_EXPONENTIAL_PARTS 10000000000
#define CRASH_LOGARITHM_PARTS 100000000

/* The project file. A number of two bytes has its high byte first.
 *
 *   byte 0      edition, CRASH_FIRST_EDITION to CRASH_LAST_EDITION
 *   byte 1      years, 1 to CRASH_MOST_YEARS
 *   bytes 2-3   calibration of segments in thousandths, 1 to 9,999
 *   bytes 4-5   calibration of crossings in thousandths, 1 to 9,999
 *   bytes 6-7   count of sites, 0 to CRASH_MOST_SITES
 *   from 8 on   the records, one for each site, with nothing between them and nothing after
 *
 * A record:
 *
 *   byte 0      kind, CRASH_SEGMENT to CRASH_FOUR_LEG_SIGNAL
 *   bytes 1-2   map: a bit for each field that is given; bit 0 is the lowest bit of byte 2, and bit 15 the highest of byte 1
 *   from 3 on   the given fields, two bytes each, in the rising order of their bits
 *
 * Bit 15 has no field. Where it is set, the traffic, and a crossing's minor traffic too, is followed by its values for the second
 * year to the last, two bytes each. */
#define CRASH_SEGMENT 0
#define CRASH_THREE_LEG_STOP 1
#define CRASH_FOUR_LEG_STOP 2
#define CRASH_FOUR_LEG_SIGNAL 3

/* A site is CRASH_SITE_NUMBERS numbers: its kind, its twenty fields, then the traffic of years two to ten and the minor traffic of
 * years two to ten. The names below are indexes into them. A slot that holds no number is CRASH_ABSENT.
 *
 *   Slot                  Bit  Kinds               Unit                                     Range          Default
 *   CRASH_TRAFFIC         0    all                 vehicles a day, on the major road        1 to 20,000    needed
 *   CRASH_LENGTH          1    segment             thousandths of a mile                    1 to 20,000    needed
 *   CRASH_MINOR_TRAFFIC   1    3st, 4st, 4sg       vehicles a day, on the minor road        1 to 20,000    needed
 *   CRASH_OBSERVED        2    all                 crashes over the project's years         0 to 500       no history
 *   CRASH_LANE            3    segment             feet                                     8 to 14        12
 *   CRASH_SHOULDER        4    segment             feet                                     0 to 10        6
 *   CRASH_SHOULDER_TYPE   5    segment             0 paved, 1 gravel, 2 composite, 3 turf   0 to 3         0
 *   CRASH_CURVE_LENGTH    6    segment             thousandths of a mile                    1 to 20,000    straight
 *   CRASH_RADIUS          7    segment             feet                                     100 to 30,000  straight
 *   CRASH_SPIRAL_ENDS     8    segment             ends of the curve with a spiral          0 to 2         0 on a curve
 *   CRASH_DEFICIENCY      9    segment             thousandths of superelevation            0 to 100       0 on a curve
 *   CRASH_GRADE           10   segment             percent                                  0 to 12        0
 *   CRASH_DRIVEWAYS       11   segment             driveways a mile                         0 to 50        5
 *   CRASH_TWO_WAY_LANE    12   segment             1 with a lane for left turns both ways   0 to 1         0
 *   CRASH_PASSING         13   segment             1 passing lane, 2 short four-lane part   0 to 2         0
 *   CRASH_HAZARD_RATING   14   segment             roadside hazard rating                   1 to 7         3
 *   CRASH_SKEW            3    3st, 4st            degrees                                  0 to 60        0
 *   CRASH_LEFT_LANES      4    3st                 left-turn lanes on the major road        0 to 1         0
 *   CRASH_LEFT_LANES      4    4st, 4sg            left-turn lanes on the major road        0 to 2         0
 *   CRASH_RIGHT_LANES     5    3st                 right-turn lanes                         0 to 1         0
 *   CRASH_RIGHT_LANES     5    4st, 4sg            right-turn lanes                         0 to 2         0
 *   CRASH_LIMITED_SIGHT   6    3st of edition 1    quadrants with limited sight             0 to 2         0
 *   CRASH_LIMITED_SIGHT   6    4st of edition 1    quadrants with limited sight             0 to 4         0
 *
 * "3st" is CRASH_THREE_LEG_STOP, "4st" CRASH_FOUR_LEG_STOP and "4sg" CRASH_FOUR_LEG_SIGNAL.
 *
 * What a record gives. A needed field is given in every record. A field that is not given has its default, and a default may not
 * be given. A curve has both its length and its radius given. Only a curve has spiral ends and a deficiency.
 *
 * What a slot holds. These slots hold CRASH_ABSENT: CRASH_OBSERVED where there is no history (0 is a history of no crash), the
 * four slots of a curve on a straight road, CRASH_LIMITED_SIGHT in edition 2, and the slots that the kind lacks. Any other field
 * holds a number in its range, the default too.
 *
 * Later years. CRASH_LATER_TRAFFIC + y and CRASH_LATER_MINOR + y are the slots of year y + 2, for y from 0 to
 * CRASH_LATER_YEARS - 1. All are CRASH_ABSENT where one traffic serves all years. Otherwise, in a project of Y years, the
 * traffic of years two to Y is from 1 to 20,000, and so is a crossing's minor traffic; the other later years are CRASH_ABSENT.
 * A project of one year has no later year.
 *
 * A site that differs from this is outside its range.
 *
 * A call that takes one site reads the first CRASH_SITE_NUMBERS numbers of values and nothing of what follows, so that the
 * CRASH_READ_NUMBERS numbers that crash_site_read leaves are handed on as they are. Fewer numbers are a site outside its
 * range. */
#define CRASH_KIND 0
#define CRASH_TRAFFIC 1
#define CRASH_LENGTH 2
#define CRASH_MINOR_TRAFFIC 3
#define CRASH_OBSERVED 4
#define CRASH_LANE 5
#define CRASH_SHOULDER 6
#define CRASH_SHOULDER_TYPE 7
#define CRASH_CURVE_LENGTH 8
#define CRASH_RADIUS 9
#define CRASH_SPIRAL_ENDS 10
#define CRASH_DEFICIENCY 11
#define CRASH_GRADE 12
#define CRASH_DRIVEWAYS 13
#define CRASH_TWO_WAY_LANE 14
#define CRASH_PASSING 15
#define CRASH_HAZARD_RATING 16
#define CRASH_SKEW 17
#define CRASH_LEFT_LANES 18
#define CRASH_RIGHT_LANES 19
#define CRASH_LIMITED_SIGHT 20
#define CRASH_LATER_TRAFFIC 21
#define CRASH_LATER_MINOR (CRASH_LATER_TRAFFIC + CRASH_LATER_YEARS)
#define CRASH_RECORD_LENGTH CRASH_SITE_NUMBERS /* where crash_site_read leaves the record's length, after the site */
#define CRASH_ABSENT 65536

/* Reads a project file and makes its report from the start of report: four numbers for each site (predicted low, predicted
 * high, expected low, expected high, in millionths of a crash), then four totals; what follows them is untouched.
 * CRASH_OK: *value is the count of numbers written, 4(sites + 1).
 * 1 to 10: *value is a place, and report is as it was. The place is the first byte of the record that is refused, counted in
 * the file from 0, whichever of its bytes is wrong. It is 0 for the header and for CRASH_TOO_SHORT, and for CRASH_BYTES_AFTER
 * it is the first byte after the last record.
 * Order: the header's CRASH_RUNS_PAST, CRASH_EDITION_NOT and CRASH_OUTSIDE_LIMITS; then record by record, and in each whether
 * kind and map are there (CRASH_RUNS_PAST), CRASH_KIND_ABOVE, CRASH_BIT_LACKED, CRASH_BIT_MISSING, whether all fields are
 * there (CRASH_RUNS_PAST), then field by field CRASH_OUTSIDE_RANGE and CRASH_DEFAULT_SPELLED; then CRASH_BYTES_AFTER, then
 * CRASH_TOO_SHORT, where report has fewer than 4(sites + 1) numbers.
 * Where two calls answer CRASH_OK for files with the same header and the same sites in another order, the numbers of a site,
 * report[4 * i] to report[4 * i + 3] for the site at index i, are the same at its index in each, and the totals are equal;
 * proved in crates/reordering. */
uint64_t crash_project(const uint8_t *file, size_t file_len, uint64_t *report, size_t report_len, uint64_t *value);

/* Reads the record that part starts with, in a project of an edition and so many years. What follows the record in part bears on
 * nothing.
 * CRASH_OK: the first CRASH_SITE_NUMBERS numbers of values are the site, values[CRASH_RECORD_LENGTH] is the record's length in
 * bytes, and the rest of values is as it was.
 * CRASH_EDITION_NOT, tried first: edition is not from CRASH_FIRST_EDITION to CRASH_LAST_EDITION. CRASH_OUTSIDE_LIMITS, tried
 * next: years is not from 1 to CRASH_MOST_YEARS. 1, 5 to 9: the record is refused, in crash_project's order; later years in a
 * project of one year are CRASH_BIT_MISSING, and a missing one is CRASH_RUNS_PAST. CRASH_TOO_SHORT, tried last: values has
 * fewer than CRASH_READ_NUMBERS numbers. */
uint64_t crash_site_read(uint64_t edition, uint64_t years, const uint8_t *part, size_t part_len, uint64_t *values,
                         size_t values_len);

/* Writes a site's record from the start of buffer, for a project of an edition and so many years. Defaults are left out. The rest
 * of buffer is as it was.
 * CRASH_OK: *written is the record's length. CRASH_EDITION_NOT, tried first, and CRASH_OUTSIDE_LIMITS, tried next: as above.
 * CRASH_OUTSIDE_RANGE, tried then: the site is outside its range. CRASH_TOO_SHORT, tried last: buffer is too short. On any
 * refusal *written is as it was. */
uint64_t crash_site_write(uint64_t edition, uint64_t years, const uint64_t *values, size_t values_len, uint8_t *buffer,
                          size_t buffer_len, uint64_t *written);

/* Writes the whole project file of a list of sites from the start of buffer; the rest of buffer is as it was. sites has the
 * CRASH_SITE_NUMBERS numbers of each site in turn, without the record's length that crash_site_read leaves after them, and the
 * file has the sites in this order. Their count is sites_len / CRASH_SITE_NUMBERS, rounded up: fewer numbers left at the end
 * are a site outside its range. Calibrations are in thousandths.
 * CRASH_OK: *value is the file's length in bytes; crash_project accepts the file, where its report has space.
 * CRASH_EDITION_NOT, tried first: as above; *value is 0. CRASH_OUTSIDE_LIMITS, tried next: years (1 to 10), a calibration (1 to
 * 9,999) or the count of sites (0 to CRASH_MOST_SITES) is outside its limits; *value is 0. CRASH_OUTSIDE_RANGE, tried then:
 * *value is the index, from 0, of the first site that is outside its range. CRASH_TOO_SHORT, tried last: buffer is shorter than
 * the file; *value is 0. */
uint64_t crash_project_write(uint64_t edition, uint64_t years, uint64_t segment_calibration, uint64_t crossing_calibration,
                             const uint64_t *sites, size_t sites_len, uint8_t *buffer, size_t buffer_len, uint64_t *value);

/* The four numbers of one site, in line[0] to line[3]; the rest of line is as it was. Calibrations are in thousandths.
 * CRASH_EDITION_NOT, tried first: as above. CRASH_OUTSIDE_LIMITS, tried next: years (1 to 10) or a calibration (1 to 9,999) is
 * outside its limits. CRASH_OUTSIDE_RANGE, tried then: the site is outside its range. CRASH_TOO_SHORT, tried last: line has fewer
 * than CRASH_LINE_NUMBERS numbers. */
uint64_t crash_line(uint64_t edition, uint64_t years, uint64_t segment_calibration, uint64_t crossing_calibration,
                    const uint64_t *values, size_t values_len, uint64_t *line, size_t line_len);

/* Brackets of powers, logarithms and exponentials, for any model. CRASH_OK: the fraction ends[0] over ends[1] is at most the exact
 * figure, and the fraction ends[2] over ends[3] is at least that, no further apart than said above; ends[1] and ends[3] are
 * never 0. (C's ends[0] / ends[1] rounds the fraction down to a whole number.) The rest of ends is as it was.
 * CRASH_OUTSIDE_RANGE: an argument is out of range. CRASH_TOO_SHORT, tried last: ends has fewer than CRASH_BRACKET_NUMBERS
 * numbers.
 * Powers: base^(num/den), base 1 to 20,000, num one of 79, 49, 60, 61 and 20, den 100.
 * Logarithms: ln argument, argument 1 to 20,000. Exponentials: e^x and e^(-x), x from 0 to 140,000 ten-thousandths. */
uint64_t crash_power(uint64_t base, uint64_t num, uint64_t den, uint64_t *ends, size_t ends_len);
uint64_t crash_logarithm(uint64_t argument, uint64_t *ends, size_t ends_len);
uint64_t crash_exponential(uint64_t x, uint64_t *ends, size_t ends_len);
uint64_t crash_exponential_negative(uint64_t x, uint64_t *ends, size_t ends_len);

#ifdef __cplusplus
}
#endif

#endif
