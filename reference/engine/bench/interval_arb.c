/* Predicted and expected crashes of sites as balls of Arb. */
#if __has_include(<arb.h>)
#include <arb.h>
#else
#include <flint/arb.h>
#endif

#include "site.h"

/* e to the constant and the hazard rating, made once for all sites, and balls to compute in. */
struct balls {
    arb_t hazard[HAZARD_RATINGS], predicted, expected, sum, over, under, log, part;
    arf_t end;
};

static void balls_init(struct balls *b, const struct header *header)
{
    for (int rating = 1; rating <= HAZARD_RATINGS; rating++) {
        arb_ptr hazard = b->hazard[rating - 1];
        arb_init(hazard);
        arb_set_si(hazard, hazard_exponent(header, rating));
        arb_div_ui(hazard, hazard, 10000, PRECISION);
        arb_exp(hazard, hazard, PRECISION);
    }
    arb_ptr each[] = {b->predicted, b->expected, b->sum, b->over, b->under, b->log, b->part};
    for (size_t i = 0; i < sizeof each / sizeof *each; i++)
        arb_init(each[i]);
    arf_init(b->end);
}

static void balls_clear(struct balls *b)
{
    for (int i = 0; i < HAZARD_RATINGS; i++)
        arb_clear(b->hazard[i]);
    arb_ptr each[] = {b->predicted, b->expected, b->sum, b->over, b->under, b->log, b->part};
    for (size_t i = 0; i < sizeof each / sizeof *each; i++)
        arb_clear(each[i]);
    arf_clear(b->end);
}

static void set_product(arb_t ball, const struct product *product)
{
    arb_set_ui(ball, product->part[0]);
    for (size_t i = 1; i < product->count; i++)
        arb_mul_ui(ball, ball, product->part[i], PRECISION);
}

/* (0.2 + c DD) / (0.2 + 5c) is (200 + 50 DD - 5 DD ln A) / (450 - 25 ln A), with the edition's number for 200. */
static void times_driveways(struct balls *b, const struct edition *edition, const struct site *site)
{
    if (is_plain_access(edition, site))
        return;
    arb_log_ui(b->log, site->traffic, PRECISION);
    arb_mul_si(b->part, b->log, -5 * (slong)site->driveways, PRECISION);
    arb_add_ui(b->part, b->part, edition->driveways + 50 * site->driveways, PRECISION);
    arb_mul(b->over, b->over, b->part, PRECISION);
    arb_mul_si(b->part, b->log, -25, PRECISION);
    arb_add_ui(b->part, b->part, edition->driveways + 250, PRECISION);
    arb_mul(b->under, b->under, b->part, PRECISION);
}

static void predict_segment(struct balls *b, const struct header *header, const struct site *site)
{
    struct exact exact = segment_exact(header, site);
    set_product(b->over, &exact.over);
    set_product(b->under, &exact.under);
    arb_mul(b->over, b->over, b->hazard[site->hazard_rating - 1], PRECISION);
    times_driveways(b, edition_of(header), site);
    arb_div(b->predicted, b->over, b->under, PRECISION);
}

/* The two powers and the exponentials are one exponential. */
static void predict_crossing(struct balls *b, const struct header *header, const struct site *site)
{
    const struct crossing *crossing = crossing_of(header, site);
    struct exact exact = crossing_exact(header, site);
    arb_log_ui(b->log, site->traffic, PRECISION);
    arb_mul_ui(b->part, b->log, crossing->major, PRECISION);
    arb_log_ui(b->log, site->minor_traffic, PRECISION);
    arb_addmul_ui(b->part, b->log, crossing->minor, PRECISION);
    arb_add_si(b->part, b->part, crossing_exponent(crossing, site), PRECISION);
    arb_div_ui(b->part, b->part, 10000, PRECISION);
    arb_exp(b->part, b->part, PRECISION);
    set_product(b->over, &exact.over);
    set_product(b->under, &exact.under);
    arb_mul(b->over, b->over, b->part, PRECISION);
    arb_div(b->predicted, b->over, b->under, PRECISION);
}

static void predict_term(struct balls *b, const struct header *header, const struct site *site)
{
    if (site->kind == SEGMENT)
        predict_segment(b, header, site);
    else
        predict_crossing(b, header, site);
}

/* The sum of a term for each year where each has its traffic, and otherwise one term of all years. */
static void predict(struct balls *b, const struct header *header, const struct site *site)
{
    struct header one = *header;
    if (!is_yearly(site)) {
        predict_term(b, header, site);
        return;
    }
    one.years = 1;
    arb_zero(b->sum);
    for (uint64_t year = 1; year <= header->years; year++) {
        struct site at = in_year(site, year);
        predict_term(b, &one, &at);
        arb_add(b->sum, b->sum, b->predicted, PRECISION);
    }
    arb_set(b->predicted, b->sum);
}

static void expect(struct balls *b, const struct header *header, const struct site *site)
{
    struct overdispersion k = overdispersion_of(header, site);
    if (site->observed == ABSENT) {
        arb_set(b->expected, b->predicted);
        return;
    }
    arb_mul_ui(b->under, b->predicted, k.over, PRECISION);
    arb_add_ui(b->under, b->under, k.under, PRECISION);
    arb_mul_ui(b->over, b->predicted, k.under + k.over * site->observed, PRECISION);
    arb_div(b->expected, b->over, b->under, PRECISION);
}

/* A ball's two ends in millionths, rounded outward. */
static void ends_of(struct balls *b, double *ends, const arb_t ball)
{
    arb_mul_ui(b->part, ball, 1000000, PRECISION);
    arb_get_lbound_arf(b->end, b->part, PRECISION);
    ends[0] = arf_get_d(b->end, ARF_RND_FLOOR);
    arb_get_ubound_arf(b->end, b->part, PRECISION);
    ends[1] = arf_get_d(b->end, ARF_RND_CEIL);
}

/* The balls of n sites; their ends too, predicted and expected, where ends is not null. */
void arb_lines(const struct header *header, const struct site *sites, size_t n, double (*ends)[4])
{
    struct balls balls;
    balls_init(&balls, header);
    for (size_t i = 0; i < n; i++) {
        predict(&balls, header, &sites[i]);
        expect(&balls, header, &sites[i]);
        if (ends) {
            ends_of(&balls, &ends[i][0], balls.predicted);
            ends_of(&balls, &ends[i][2], balls.expected);
        }
    }
    balls_clear(&balls);
}
