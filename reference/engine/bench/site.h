/* A site of an edition and its exact factors as whole numbers: what the two interval libraries that the benchmark times
 * beside the engine have in common. */
#ifndef SITE_H
#define SITE_H

#include <stddef.h>
#include <stdint.h>

enum { LATER_YEARS = 9 };

/* The numbers of include/crash_unit.h. */
struct site {
    uint64_t kind, traffic, length, minor_traffic, observed, lane, shoulder, shoulder_type, curve_length, radius;
    uint64_t spiral_ends, deficiency, grade, driveways, two_way_lane, passing, hazard_rating, skew, left, right, sight;
    uint64_t later_traffic[LATER_YEARS], later_minor_traffic[LATER_YEARS];
};

struct header {
    uint64_t edition, years, segment_calibration, crossing_calibration;
};

enum { SEGMENT = 0, ABSENT = 65536, HAZARD_RATINGS = 7 };

/* Bits of precision of both libraries. */
enum { PRECISION = 64 };

/* Whether each year has its traffic. */
static inline int is_yearly(const struct site *site)
{
    return site->later_traffic[0] != ABSENT;
}

/* The site with the traffic of a year from 1 up. */
static inline struct site in_year(const struct site *site, uint64_t year)
{
    struct site at = *site;
    if (year > 1) {
        at.traffic = site->later_traffic[year - 2];
        at.minor_traffic = site->later_minor_traffic[year - 2];
    }
    return at;
}

/* A whole number as the product of parts of 64 bits. */
struct product {
    uint64_t part[12];
    size_t count;
};

/* A fraction. */
struct exact {
    struct product over, under;
};

static inline void times_whole(struct product *product, uint64_t factor)
{
    uint64_t *last = &product->part[product->count - 1], both;
    if (__builtin_mul_overflow(*last, factor, &both))
        product->part[product->count++] = factor;
    else
        *last = both;
}

static inline void times(struct exact *exact, uint64_t over, uint64_t under)
{
    if (over == under)
        return;
    times_whole(&exact->over, over);
    times_whole(&exact->under, under);
}

static inline struct exact calibrated(uint64_t years, uint64_t calibration)
{
    return (struct exact){{{years * calibration}, 1}, {{1000}, 1}};
}

/* A width's value below 400 vehicles, its rise for each vehicle from there and its value above 2,000. */
struct width {
    int64_t light, slope, heavy;
};

/* In millionths. */
static const struct width LANE[4] = {
    {1050000, 281, 1500000}, {1020000, 175, 1300000}, {1010000, 25, 1050000}, {1000000, 0, 1000000}};

/* In hundred-millionths. */
static const struct width SHOULDER[5] = {{110000000, 25000, 150000000},
                                         {107000000, 14300, 130000000},
                                         {102000000, 8125, 115000000},
                                         {100000000, 0, 100000000},
                                         {98000000, -6875, 87000000}};

/* In hundredths. */
static const uint64_t SHOULDER_TYPE[4][5] = {
    {100, 100, 100, 100, 100}, {100, 101, 101, 102, 102}, {100, 102, 103, 104, 106}, {100, 103, 105, 108, 111}};

/* The constant exponent, the powers of the two roads' traffic and the skew of a degree, in ten-thousandths; left-turn
 * lanes in hundredths, right-turn lanes in thousandths. */
struct crossing {
    int64_t base;
    uint64_t major, minor, skew, left[3], right[3];
};

/* What an edition has of its own: a segment's constant exponent in ten-thousandths, its share of related crashes, a fraction, and
 * the driveway part's constant in thousandths; whether it is the manual's; and the crossings. */
struct edition {
    int64_t base;
    uint64_t share, whole, driveways;
    int is_manual;
    struct crossing crossings[3];
};

static const struct edition EDITIONS[2] = {
    {-4865, 7, 20, 200, 0, {{-109000, 7900, 4900, 40, {100, 78, 78}, {1000, 950, 950}},
                            {-93400, 6000, 6100, 54, {100, 76, 58}, {1000, 950, 900}},
                            {-57300, 6000, 2000, 0, {100, 82, 67}, {1000, 975, 950}}}},
    {-3120, 287, 500, 322, 1, {{-98600, 7900, 4900, 40, {100, 56, 56}, {1000, 860, 860}},
                               {-85600, 6000, 6100, 54, {100, 72, 52}, {1000, 860, 740}},
                               {-51300, 6000, 2000, 0, {100, 82, 67}, {1000, 960, 920}}}}};

static inline const struct edition *edition_of(const struct header *header)
{
    return &EDITIONS[header->edition - 1];
}

/* In twentieths. */
static const uint64_t PASSING[3] = {20, 15, 13};

static inline uint64_t width_value(const struct width *width, uint64_t traffic)
{
    if (traffic < 400)
        return (uint64_t)width->light;
    if (traffic > 2000)
        return (uint64_t)width->heavy;
    return (uint64_t)(width->light + width->slope * (int64_t)(traffic - 400));
}

/* A related value, in a unit, by the edition's share of it. */
static inline void times_related(struct exact *exact, const struct edition *edition, uint64_t value, uint64_t unit)
{
    times(exact, (edition->whole - edition->share) * unit + edition->share * value, edition->whole * unit);
}

static inline void times_lane(struct exact *exact, const struct edition *edition, const struct site *site)
{
    size_t row = site->lane < 9 ? 0 : site->lane > 12 ? 3 : site->lane - 9;
    times_related(exact, edition, width_value(&LANE[row], site->traffic), 1000000);
}

/* Twice the mean width of two columns times twice their mean type; for an even width, and from 8 feet on, the two are one. */
static inline void times_shoulder(struct exact *exact, const struct edition *edition, const struct site *site)
{
    uint64_t feet = site->shoulder > 8 ? 8 : site->shoulder;
    size_t below = feet / 2, above = (feet + 1) / 2;
    const uint64_t *types = SHOULDER_TYPE[site->shoulder_type];
    uint64_t widths = width_value(&SHOULDER[below], site->traffic) + width_value(&SHOULDER[above], site->traffic);
    times_related(exact, edition, widths * (types[below] + types[above]), 40000000000);
}

static inline void times_curve(struct exact *exact, const struct site *site)
{
    if (site->curve_length == ABSENT)
        return;
    uint64_t base = 155 * site->curve_length * site->radius, spiral = 600 * site->spiral_ends * site->radius;
    if (spiral < 8020000)
        times(exact, base + 8020000 - spiral, base);
    if (site->deficiency > 20)
        times(exact, 1060 + 3 * (site->deficiency - 20), 1000);
    else if (site->deficiency >= 10)
        times(exact, 1000 + 6 * (site->deficiency - 10), 1000);
}

static inline void times_grade(struct exact *exact, const struct edition *edition, uint64_t grade)
{
    if (edition->is_manual) {
        times(exact, grade <= 3 ? 100 : grade <= 6 ? 110 : 116, 100);
        return;
    }
    for (uint64_t percent = 0; percent < grade; percent++)
        times(exact, 127, 125);
}

/* Whether the driveway part is 1 whatever the traffic. */
static inline int is_plain_access(const struct edition *edition, const struct site *site)
{
    return site->driveways == 5 || (edition->is_manual && site->driveways < 5);
}

/* All of a segment's year that is a fraction. */
static inline struct exact segment_exact(const struct header *header, const struct site *site)
{
    const struct edition *edition = edition_of(header);
    struct exact exact = calibrated(header->years, header->segment_calibration);
    times(&exact, site->traffic * site->length, 1000);
    times(&exact, 73, 200000);
    times_lane(&exact, edition, site);
    times_shoulder(&exact, edition, site);
    times_curve(&exact, site);
    times_grade(&exact, edition, site->grade);
    if (site->two_way_lane == 1 && site->driveways >= 5) {
        uint64_t q = 47 * site->driveways + 24 * site->driveways * site->driveways;
        times(&exact, 239800 + 13 * q, 20 * (11990 + q));
    }
    times(&exact, PASSING[site->passing], 20);
    return exact;
}

static inline const struct crossing *crossing_of(const struct header *header, const struct site *site)
{
    return &edition_of(header)->crossings[site->kind - 1];
}

/* The part of a crossing's exponent that is a fraction, in ten-thousandths. */
static inline int64_t crossing_exponent(const struct crossing *crossing, const struct site *site)
{
    return crossing->skew == 0 ? crossing->base : crossing->base + (int64_t)(crossing->skew * site->skew);
}

/* All of a crossing's year that is a fraction. */
static inline struct exact crossing_exact(const struct header *header, const struct site *site)
{
    const struct crossing *crossing = crossing_of(header, site);
    struct exact exact = calibrated(header->years, header->crossing_calibration);
    times(&exact, crossing->left[site->left], 100);
    times(&exact, crossing->right[site->right], 1000);
    if (site->sight != ABSENT)
        times(&exact, 20 + site->sight, 20);
    return exact;
}

/* The exponent of a segment's constant and hazard rating, in ten-thousandths. */
static inline int64_t hazard_exponent(const struct header *header, int64_t rating)
{
    return edition_of(header)->base + 668 * (rating - 3);
}

/* k as a fraction. */
struct overdispersion {
    uint64_t over, under;
};

static inline struct overdispersion overdispersion_of(const struct header *header, const struct site *site)
{
    static const uint64_t hundredths[4] = {31, 54, 24, 11};
    if (site->kind == SEGMENT && edition_of(header)->is_manual)
        return (struct overdispersion){236, site->length};
    return (struct overdispersion){hundredths[site->kind], 100};
}

#endif
