/* Predicted and expected crashes of sites as intervals of MPFI. */
#include <mpfi.h>

#include "site.h"

/* e to the constant and the hazard rating, made once for all sites, and intervals to compute in. */
struct intervals {
    mpfi_t hazard[HAZARD_RATINGS], predicted, expected, sum, over, under, log, part;
    mpfr_t end;
};

static void intervals_init(struct intervals *v, const struct header *header)
{
    for (int rating = 1; rating <= HAZARD_RATINGS; rating++) {
        mpfi_ptr hazard = v->hazard[rating - 1];
        mpfi_init2(hazard, PRECISION);
        mpfi_set_si(hazard, hazard_exponent(header, rating));
        mpfi_div_ui(hazard, hazard, 10000);
        mpfi_exp(hazard, hazard);
    }
    mpfi_ptr each[] = {v->predicted, v->expected, v->sum, v->over, v->under, v->log, v->part};
    for (size_t i = 0; i < sizeof each / sizeof *each; i++)
        mpfi_init2(each[i], PRECISION);
    mpfr_init2(v->end, PRECISION);
}

static void intervals_clear(struct intervals *v)
{
    for (int i = 0; i < HAZARD_RATINGS; i++)
        mpfi_clear(v->hazard[i]);
    mpfi_ptr each[] = {v->predicted, v->expected, v->sum, v->over, v->under, v->log, v->part};
    for (size_t i = 0; i < sizeof each / sizeof *each; i++)
        mpfi_clear(each[i]);
    mpfr_clear(v->end);
}

static void set_product(mpfi_t interval, const struct product *product)
{
    mpfi_set_ui(interval, product->part[0]);
    for (size_t i = 1; i < product->count; i++)
        mpfi_mul_ui(interval, interval, product->part[i]);
}

static void log_of(mpfi_t interval, uint64_t whole)
{
    mpfi_set_ui(interval, whole);
    mpfi_log(interval, interval);
}

/* (0.2 + c DD) / (0.2 + 5c) is (200 + 50 DD - 5 DD ln A) / (450 - 25 ln A), with the edition's number for 200. */
static void times_driveways(struct intervals *v, const struct edition *edition, const struct site *site)
{
    if (is_plain_access(edition, site))
        return;
    log_of(v->log, site->traffic);
    mpfi_mul_ui(v->part, v->log, 5 * site->driveways);
    mpfi_ui_sub(v->part, edition->driveways + 50 * site->driveways, v->part);
    mpfi_mul(v->over, v->over, v->part);
    mpfi_mul_ui(v->part, v->log, 25);
    mpfi_ui_sub(v->part, edition->driveways + 250, v->part);
    mpfi_mul(v->under, v->under, v->part);
}

static void predict_segment(struct intervals *v, const struct header *header, const struct site *site)
{
    struct exact exact = segment_exact(header, site);
    set_product(v->over, &exact.over);
    set_product(v->under, &exact.under);
    mpfi_mul(v->over, v->over, v->hazard[site->hazard_rating - 1]);
    times_driveways(v, edition_of(header), site);
    mpfi_div(v->predicted, v->over, v->under);
}

/* The two powers and the exponentials are one exponential. */
static void predict_crossing(struct intervals *v, const struct header *header, const struct site *site)
{
    const struct crossing *crossing = crossing_of(header, site);
    struct exact exact = crossing_exact(header, site);
    log_of(v->part, site->traffic);
    mpfi_mul_ui(v->part, v->part, crossing->major);
    log_of(v->log, site->minor_traffic);
    mpfi_mul_ui(v->log, v->log, crossing->minor);
    mpfi_add(v->part, v->part, v->log);
    mpfi_add_si(v->part, v->part, crossing_exponent(crossing, site));
    mpfi_div_ui(v->part, v->part, 10000);
    mpfi_exp(v->part, v->part);
    set_product(v->over, &exact.over);
    set_product(v->under, &exact.under);
    mpfi_mul(v->over, v->over, v->part);
    mpfi_div(v->predicted, v->over, v->under);
}

static void predict_term(struct intervals *v, const struct header *header, const struct site *site)
{
    if (site->kind == SEGMENT)
        predict_segment(v, header, site);
    else
        predict_crossing(v, header, site);
}

/* The sum of a term for each year where each has its traffic, and otherwise one term of all years. */
static void predict(struct intervals *v, const struct header *header, const struct site *site)
{
    struct header one = *header;
    if (!is_yearly(site)) {
        predict_term(v, header, site);
        return;
    }
    one.years = 1;
    mpfi_set_ui(v->sum, 0);
    for (uint64_t year = 1; year <= header->years; year++) {
        struct site at = in_year(site, year);
        predict_term(v, &one, &at);
        mpfi_add(v->sum, v->sum, v->predicted);
    }
    mpfi_set(v->predicted, v->sum);
}

static void expect(struct intervals *v, const struct header *header, const struct site *site)
{
    struct overdispersion k = overdispersion_of(header, site);
    if (site->observed == ABSENT) {
        mpfi_set(v->expected, v->predicted);
        return;
    }
    mpfi_mul_ui(v->under, v->predicted, k.over);
    mpfi_add_ui(v->under, v->under, k.under);
    mpfi_mul_ui(v->over, v->predicted, k.under + k.over * site->observed);
    mpfi_div(v->expected, v->over, v->under);
}

/* An interval's two ends in millionths, rounded outward. */
static void ends_of(struct intervals *v, double *ends, mpfi_srcptr interval)
{
    mpfi_mul_ui(v->part, interval, 1000000);
    mpfi_get_left(v->end, v->part);
    ends[0] = mpfr_get_d(v->end, MPFR_RNDD);
    mpfi_get_right(v->end, v->part);
    ends[1] = mpfr_get_d(v->end, MPFR_RNDU);
}

/* The intervals of n sites; their ends too, predicted and expected, where ends is not null. */
void mpfi_lines(const struct header *header, const struct site *sites, size_t n, double (*ends)[4])
{
    struct intervals intervals;
    intervals_init(&intervals, header);
    for (size_t i = 0; i < n; i++) {
        predict(&intervals, header, &sites[i]);
        expect(&intervals, header, &sites[i]);
        if (ends) {
            ends_of(&intervals, &ends[i][0], intervals.predicted);
            ends_of(&intervals, &ends[i][2], intervals.expected);
        }
    }
    intervals_clear(&intervals);
}
