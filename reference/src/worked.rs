//! Worked figures: what each number of an edition's model makes of a site,
//! worked out by hand from the text of document 01 as document 02 amends it,
//! and so apart from any table of the engine or of the reference. The working
//! is beside each figure. Quotations without a document are from document
//! 01, and for edition 2 from document 02's sixth request. What both editions
//! have is worked once and asked of both.
//!
//! A test hands in what a model makes of a site and gets the names of the
//! figures that differ. Most figures are the ratio of two sites that differ in
//! one field.

use crate::estimates::Estimates;
use crate::lines;
use crate::natural::Natural;
use crate::prediction::SiteEstimates;
use crate::project::Header;
use crate::rational::Rational;
use crate::record::Site;
use crate::rules::{
    Field, EDITIONS, EDITION_ONE, FOUR_LEG_SIGNAL, FOUR_LEG_STOP, KIND_NAMES, MOST_CALIBRATION,
    MOST_YEARS, SEGMENT, THREE_LEG_STOP, TRAFFIC_FIELDS,
};

/// What is found may be as wide as the figure over this.
const NARROW: u64 = 100_000;

/// A site under a header.
#[derive(Clone, Copy, Debug)]
struct Case {
    header: Header,
    site: Site,
}

/// What of a model a figure is.
enum Measure {
    /// Predicted crashes.
    Predicted(Case),
    /// Predicted crashes over those of another case.
    Ratio(Case, Case),
    /// k, from Expected = N(1 + kO)/(1 + kN) at a history.
    Overdispersion(Case),
}

/// A figure with the name it fails by.
pub struct Figure {
    pub name: String,
    measure: Measure,
    /// A decimal or a fraction; `..` after a decimal that goes on.
    worked: &'static str,
}

/// The name of an edition's figure: the first edition's alone does not say its
/// edition.
pub fn named(edition: u8, name: &str) -> String {
    if edition == EDITION_ONE {
        name.to_string()
    } else {
        format!("edition {edition} {name}")
    }
}

impl Figure {
    /// The figure as one of an edition.
    fn in_edition(mut self, edition: u8) -> Figure {
        let cases = match &mut self.measure {
            Measure::Predicted(case) | Measure::Overdispersion(case) => vec![case],
            Measure::Ratio(case, base) => vec![case, base],
        };
        cases
            .into_iter()
            .for_each(|case| case.header.edition = edition);
        self.name = named(edition, &self.name);
        self
    }

    /// The ends of what a model gives for the figure.
    fn found(&self, model: &impl Fn(&Header, &Site) -> SiteEstimates) -> Estimates {
        let of = |case: &Case| model(&case.header, &case.site);
        match &self.measure {
            Measure::Predicted(case) => of(case).predicted,
            Measure::Ratio(case, base) => quotient(&of(case).predicted, &of(base).predicted),
            Measure::Overdispersion(case) => {
                let SiteEstimates {
                    predicted,
                    expected,
                } = of(case);
                let observed = Rational::whole(case.site.observed().unwrap_or(0));
                let moved = distance(&expected, &predicted);
                let left = distance(&expected, &Estimates::exact(observed));
                quotient(&moved, &predicted.times(&left))
            }
        }
    }

    /// What is wrong with what a model gives, by the figure's name: it is
    /// apart from the worked figure, or too wide to tell.
    pub fn fault(&self, model: &impl Fn(&Header, &Site) -> SiteEstimates) -> Option<String> {
        let (found, worked) = (self.found(model), read(self.worked));
        let meets = found.under <= worked.over && worked.under <= found.over;
        let allowed = &worked.under * &Rational::of(1, NARROW);
        let is_narrow = found.over <= &found.under + &allowed;
        let right = meets && is_narrow;
        (!right).then(|| {
            let ends = [&found.under, &found.over].map(shown);
            let [low, high] = ends;
            format!(
                "{}: worked {}, found {low} to {high}",
                self.name, self.worked
            )
        })
    }
}

/// The faults of a model's figures, those whose name starts so.
pub fn faults(start: &str, model: impl Fn(&Header, &Site) -> SiteEstimates) -> Vec<String> {
    let figures = figures();
    let asked = figures.iter().filter(|f| f.name.starts_with(start));
    asked.filter_map(|figure| figure.fault(&model)).collect()
}

/// To nine places, rounded down.
fn shown(value: &Rational) -> String {
    let places = 9;
    let (whole, part) = value
        .floor_scaled(&Natural::power_of_ten(places))
        .divide(&Natural::power_of_ten(places));
    format!("{whole}.{part:0>width$}", width = places as usize)
}

/// A worked figure's ends: equal but for a decimal that goes on.
fn read(text: &str) -> Estimates {
    if let Some((above, below)) = text.split_once('/') {
        let number = |text: &str| text.parse().expect("a whole number");
        return Estimates::exact(Rational::of(number(above), number(below)));
    }
    let digits = text.trim_end_matches("..");
    let (whole, part) = digits.split_once('.').unwrap_or((digits, ""));
    let units: u64 = format!("{whole}{part}").parse().expect("digits");
    let unit = Natural::power_of_ten(part.len() as u32);
    let at = |units: u64| Rational::new(units.into(), unit.clone());
    Estimates {
        under: at(units),
        over: at(units + u64::from(text.ends_with(".."))),
    }
}

fn quotient(above: &Estimates, below: &Estimates) -> Estimates {
    above.times(&below.reciprocal())
}

/// The greater of two values less the other.
fn distance(one: &Estimates, other: &Estimates) -> Estimates {
    let (high, low) = if one.under >= other.over {
        (one, other)
    } else {
        (other, one)
    };
    Estimates {
        under: high
            .under
            .checked_sub(&low.over)
            .unwrap_or(Rational::zero()),
        over: &high.over - &low.under,
    }
}

/// A header whose edition `in_edition` sets.
fn header(years: u8, segment_calibration: u16, crossing_calibration: u16) -> Header {
    Header {
        edition: EDITION_ONE,
        years,
        segment_calibration,
        crossing_calibration,
    }
}

/// A value of a field and the figure worked for it.
type Row = (u16, &'static str);

/// The figures of what the editions have otherwise, in the editions' order.
type Each = [&'static str; EDITIONS.len()];

/// A value of a field and the figures worked for it.
type EachRow = (u16, Each);

/// An edition's figure.
fn own(edition: u8, each: Each) -> &'static str {
    each[usize::from(edition - EDITION_ONE)]
}

/// An edition's rows.
fn own_rows(edition: u8, rows: &[EachRow]) -> Vec<Row> {
    let row = |(value, each): &EachRow| (*value, own(edition, *each));
    rows.iter().map(row).collect()
}

/// The ratio of two sites.
fn ratio(name: String, site: Site, base: Site, worked: &'static str) -> Figure {
    ratio_over(name, [(MOST_YEARS, site), (MOST_YEARS, base)], worked)
}

/// The ratio of a site over its years to another over its years.
fn ratio_over(name: String, cases: [(u8, Site); 2], worked: &'static str) -> Figure {
    let [case, base] = cases.map(|(years, site)| Case {
        header: header(years, MOST_CALIBRATION, MOST_CALIBRATION),
        site,
    });
    Figure {
        name,
        measure: Measure::Ratio(case, base),
        worked,
    }
}

/// The predicted crashes of a site.
fn predicted(header: Header, row: (&str, Site, &'static str)) -> Figure {
    let (name, site, worked) = row;
    Figure {
        name: name.to_string(),
        measure: Measure::Predicted(Case { header, site }),
        worked,
    }
}

/// Ratios of sites that have these values in a field to the base.
fn of_field(name: &str, base: Site, field: Field, rows: &[Row]) -> Vec<Figure> {
    let figure = |(value, worked): &Row| {
        ratio(
            format!("{name} {value}"),
            base.with(field, *value),
            base,
            worked,
        )
    };
    rows.iter().map(figure).collect()
}

/// 20 miles, straight and level, with every field at its default: lanes of 12
/// feet, paved shoulders of 6, 5 driveways, rating 3. Every factor is 1. Both
/// editions have the same segments.
fn road(traffic: u16) -> Site {
    Site::plain(EDITION_ONE, SEGMENT, traffic, 20_000)
}

/// A busy crossing of an edition without skew, turn lanes or limited sight.
fn crossing(edition: u8, kind: u8) -> Site {
    Site::plain(edition, kind, 10_000, 10_000)
}

/// "Lane": r by traffic, and 1 + 0.35(r - 1); "0.574 in place of 0.35": 1 +
/// 0.574(r - 1). A lane of 12 feet has 1.
const LANES: [(u16, &[EachRow]); 6] = [
    // Below 400: 1.05, 1.02, 1.01, 1.00; 8 feet is "9 or less".
    (
        399,
        &[
            (8, ["1.0175", "1.0287"]),
            (9, ["1.0175", "1.0287"]),
            (10, ["1.007", "1.01148"]),
            (11, ["1.0035", "1.00574"]),
            (13, ["1", "1"]),
            (14, ["1", "1"]),
        ],
    ),
    // Nothing is added yet.
    (
        400,
        &[
            (9, ["1.0175", "1.0287"]),
            (10, ["1.007", "1.01148"]),
            (11, ["1.0035", "1.00574"]),
        ],
    ),
    // Once 0.000281, 0.000175 and 0.000025 added: 1.050281, 1.020175, 1.010025.
    (
        401,
        &[
            (9, ["1.01759835", "1.028861294"]),
            (10, ["1.00706125", "1.01158045"]),
            (11, ["1.00350875", "1.00575435"]),
        ],
    ),
    // 600 times: 1.2186, 1.125, 1.025.
    (
        1_000,
        &[
            (9, ["1.07651", "1.1254764"]),
            (10, ["1.04375", "1.07175"]),
            (11, ["1.00875", "1.01435"]),
        ],
    ),
    // 1,600 times: 1.4996, 1.30, 1.05.
    (
        2_000,
        &[
            (9, ["1.17486", "1.2867704"]),
            (10, ["1.105", "1.1722"]),
            (11, ["1.0175", "1.0287"]),
        ],
    ),
    // Above 2,000: 1.50, 1.30, 1.05, 1.00.
    (
        2_001,
        &[
            (8, ["1.175", "1.287"]),
            (9, ["1.175", "1.287"]),
            (10, ["1.105", "1.1722"]),
            (11, ["1.0175", "1.0287"]),
            (13, ["1", "1"]),
            (14, ["1", "1"]),
        ],
    ),
];

/// A paved shoulder below 400: 1.10, 1.07, 1.02, 1.00, 0.98; between them 1.085,
/// 1.045, 1.01, 0.99.
const LIGHT_SHOULDERS: [EachRow; 9] = [
    (0, ["1.035", "1.0574"]),
    (1, ["1.02975", "1.04879"]),
    (2, ["1.0245", "1.04018"]),
    (3, ["1.01575", "1.02583"]),
    (4, ["1.007", "1.01148"]),
    (5, ["1.0035", "1.00574"]),
    (7, ["0.9965", "0.99426"]),
    (8, ["0.993", "0.98852"]),
    (9, ["0.993", "0.98852"]),
];

/// "Shoulder": a paved shoulder's width value by traffic, and 1 + 0.35(value -
/// 1), in edition 2 1 + 0.574(value - 1). A paved shoulder of 6 feet has 1.
/// Document 02, request 2: "a width of 1, 3, 5 or 7 feet takes the mean of its
/// two neighbours"; 8 feet is "8 or more".
const SHOULDERS: [(u16, &[EachRow]); 6] = [
    (399, &LIGHT_SHOULDERS),
    // Nothing is added yet.
    (400, &LIGHT_SHOULDERS),
    // Once 0.00025, 0.000143, 0.00008125 and -0.00006875 added: 1.10025, 1.070143,
    // 1.02008125, 0.97993125.
    (
        401,
        &[
            (0, ["1.0350875", "1.0575435"]),
            (2, ["1.02455005", "1.040262082"]),
            (4, ["1.0070284375", "1.0115266375"]),
            (8, ["0.9929759375", "0.9884805375"]),
        ],
    ),
    // 600 times: 1.25, 1.1558, 1.06875, 0.93875; between them and 1.00 of 6 feet: 1.2029,
    // 1.112275, 1.034375, 0.969375.
    (
        1_000,
        &[
            (0, ["1.0875", "1.1435"]),
            (1, ["1.071015", "1.1164646"]),
            (2, ["1.05453", "1.0894292"]),
            (3, ["1.03929625", "1.06444585"]),
            (4, ["1.0240625", "1.0394625"]),
            (5, ["1.01203125", "1.01973125"]),
            (7, ["0.98928125", "0.98242125"]),
            (8, ["0.9785625", "0.9648425"]),
            (9, ["0.9785625", "0.9648425"]),
        ],
    ),
    // 1,600 times: 1.50, 1.2988, 1.15, 0.87; between them 1.3994, 1.2244,
    // 1.075, 0.935.
    (
        2_000,
        &[
            (0, ["1.175", "1.287"]),
            (1, ["1.13979", "1.2292556"]),
            (2, ["1.10458", "1.1715112"]),
            (3, ["1.07854", "1.1288056"]),
            (4, ["1.0525", "1.0861"]),
            (5, ["1.02625", "1.04305"]),
            (7, ["0.97725", "0.96269"]),
            (8, ["0.9545", "0.92538"]),
            (9, ["0.9545", "0.92538"]),
        ],
    ),
    // Above 2,000: 1.50, 1.30, 1.15, 1.00, 0.87; between them 1.40, 1.225,
    // 1.075, 0.935.
    (
        2_001,
        &[
            (0, ["1.175", "1.287"]),
            (1, ["1.14", "1.2296"]),
            (2, ["1.105", "1.1722"]),
            (3, ["1.07875", "1.12915"]),
            (4, ["1.0525", "1.0861"]),
            (5, ["1.02625", "1.04305"]),
            (7, ["0.97725", "0.96269"]),
            (8, ["0.9545", "0.92538"]),
            (9, ["0.9545", "0.92538"]),
            (10, ["0.9545", "0.92538"]),
        ],
    ),
];

/// A width's factors at each traffic.
fn widths(edition: u8, name: &str, field: Field, rows: &[(u16, &[EachRow])]) -> Vec<Figure> {
    let of_traffic = |(traffic, rows): &(u16, &[EachRow])| {
        let name = format!("{name} at {traffic}, feet");
        of_field(&name, road(*traffic), field, &own_rows(edition, rows))
    };
    rows.iter().flat_map(of_traffic).collect()
}

/// "Type multiplier at the same five widths", 0, 2, 4, 6 and 8 feet, with the
/// means at 1, 3, 5 and 7 and the last column at 9, above 2,000 vehicles: 1 +
/// 0.35(width value times type value - 1), in edition 2 with 0.574, where the
/// width values are 1.50, 1.40, 1.30, 1.225, 1.15, 1.075, 1.00, 0.935 and twice
/// 0.87.
const SHOULDER_TYPES: [(&str, [Each; 10]); 4] = [
    // All 1.00: the width values.
    (
        "paved",
        [
            ["1.175", "1.287"],
            ["1.14", "1.2296"],
            ["1.105", "1.1722"],
            ["1.07875", "1.12915"],
            ["1.0525", "1.0861"],
            ["1.02625", "1.04305"],
            ["1", "1"],
            ["0.97725", "0.96269"],
            ["0.9545", "0.92538"],
            ["0.9545", "0.92538"],
        ],
    ),
    // 1.00, 1.005, 1.01, 1.01, 1.01, 1.015, 1.02, 1.02, 1.02: 1.5, 1.407,
    // 1.313, 1.23725, 1.1615, 1.091125, 1.02, 0.9537, 0.8874.
    (
        "gravel",
        [
            ["1.175", "1.287"],
            ["1.14245", "1.233618"],
            ["1.10955", "1.179662"],
            ["1.0830375", "1.1361815"],
            ["1.056525", "1.092701"],
            ["1.03189375", "1.05230575"],
            ["1.007", "1.01148"],
            ["0.983795", "0.9734238"],
            ["0.96059", "0.9353676"],
            ["0.96059", "0.9353676"],
        ],
    ),
    // 1.00, 1.01, 1.02, 1.025, 1.03, 1.035, 1.04, 1.05, 1.06: 1.5, 1.414,
    // 1.326, 1.255625, 1.1845, 1.112625, 1.04, 0.98175, 0.9222.
    (
        "composite",
        [
            ["1.175", "1.287"],
            ["1.1449", "1.237636"],
            ["1.1141", "1.187124"],
            ["1.08946875", "1.14672875"],
            ["1.064575", "1.105903"],
            ["1.03941875", "1.06464675"],
            ["1.014", "1.02296"],
            ["0.9936125", "0.9895245"],
            ["0.97277", "0.9553428"],
            ["0.97277", "0.9553428"],
        ],
    ),
    // 1.00, 1.015, 1.03, 1.04, 1.05, 1.065, 1.08, 1.095, 1.11: 1.5, 1.421,
    // 1.339, 1.274, 1.2075, 1.144875, 1.08, 1.023825, 0.9657.
    (
        "turf",
        [
            ["1.175", "1.287"],
            ["1.14735", "1.241654"],
            ["1.11865", "1.194586"],
            ["1.0959", "1.157276"],
            ["1.072625", "1.119105"],
            ["1.05070625", "1.08315825"],
            ["1.028", "1.04592"],
            ["1.00833875", "1.01367555"],
            ["0.987995", "0.9803118"],
            ["0.987995", "0.9803118"],
        ],
    ),
];

/// The road with a shoulder over the road, at a traffic.
fn shoulder(name: String, traffic: u16, feet: u16, material: u16, worked: &'static str) -> Figure {
    let site = road(traffic)
        .with(Field::ShoulderWidth, feet)
        .with(Field::ShoulderType, material);
    ratio(name, site, road(traffic), worked)
}

fn shoulder_types(edition: u8) -> Vec<Figure> {
    let mut figures = Vec::new();
    for (material, (name, row)) in (0..).zip(SHOULDER_TYPES) {
        for (feet, worked) in (0..).zip(row) {
            let name = format!("shoulder type {name}, feet {feet}");
            let worked = own(edition, worked);
            figures.push(shoulder(name, 2_001, feet, material, worked));
        }
    }
    figures
}

/// 3 feet at 1,200 vehicles. The neighbours' widths are 1.07 + 0.000143 x 800 =
/// 1.1844 and 1.02 + 0.00008125 x 800 = 1.085, their mean 1.1347.
const MIDDLE_SHOULDERS: [(&str, u16, Each); 3] = [
    // Types 1.01 and 1.01: 1.1347 x 1.01 = 1.146047.
    ("gravel", 1, ["1.05111645", "1.083830978"]),
    // Types 1.02 and 1.03: 1.1347 x 1.025 = 1.1630675.
    ("composite", 2, ["1.057073625", "1.093600745"]),
    // Types 1.03 and 1.05: 1.1347 x 1.04 = 1.180088. (The mean of the two
    // products, 1.219932 and 1.13925, would be 1.179591.)
    ("turf", 3, ["1.0630308", "1.103370512"]),
];

fn middle_shoulders(edition: u8) -> Vec<Figure> {
    let figure = |(name, material, worked)| {
        let name = format!("shoulder type {name} at 1200, feet 3");
        shoulder(name, 1_200, 3, material, own(edition, worked))
    };
    MIDDLE_SHOULDERS.into_iter().map(figure).collect()
}

/// "Curve": (1.55 Lc + 80.2/R - 0.012 S) / (1.55 Lc), S half the spiral ends.
/// Curve length, radius and spiral ends.
const CURVES: [(&str, [u16; 3], &str); 7] = [
    // 1.55 x 0.1 is 0.155 and 80.2/1,000 is 0.0802: 0.2352/0.155.
    ("no spiral", [100, 1_000, 0], "1176/775"),
    // S is 1/2, which takes 0.006: 0.2292/0.155.
    ("one spiral", [100, 1_000, 1], "1146/775"),
    // S is 1, which takes 0.012: 0.2232/0.155.
    ("two spirals", [100, 1_000, 2], "1116/775"),
    // 0.0775 and 80.2/500 = 0.1604: 0.2379/0.0775.
    ("shorter and sharper", [50, 500, 0], "2379/775"),
    // 80.2/10,000 is 0.00802, above the 0.006: 0.15702/0.155.
    ("one spiral, hardly bent", [100, 10_000, 1], "15702/15500"),
    // 80.2/30,000 is below 0.006 and 0.012: below 1, so 1.
    ("flat with one spiral", [1, 30_000, 1], "1"),
    ("flat with two spirals", [1, 30_000, 2], "1"),
];

fn curves() -> Vec<Figure> {
    let figure = |(name, [length, radius, ends], worked): (&str, [u16; 3], &'static str)| {
        let bent = road(5_000).with_curve(length, radius);
        let site = bent.with(Field::SpiralEnds, ends);
        ratio(format!("curve, {name}"), site, road(5_000), worked)
    };
    CURVES.into_iter().map(figure).collect()
}

/// An edition's factors of grades, to the power G and by steps.
const GRADES: [&[Row]; EDITIONS.len()] = [
    // 1.016 to the power G.
    &[
        (1, "1.016"),
        (2, "1.032256"),
        (6, "1.0999229093.."),
        (12, "1.2098304065.."),
    ],
    // "1 up to 3 percent, 1.10 up to 6, and 1.16 above".
    &[
        (1, "1"),
        (3, "1"),
        (4, "1.10"),
        (6, "1.10"),
        (7, "1.16"),
        (12, "1.16"),
    ],
];

/// Superelevation, grade and passing.
fn segment_factors(edition: u8) -> Vec<Figure> {
    let plain = road(5_000);
    let bent = plain.with_curve(100, 1_000);
    // In thousandths: under 10, 1; to 20, 1 + 0.006 for each above 10; above,
    // 1.06 + 0.003 for each above 20.
    let deficiencies = [
        (9, "1"),
        (10, "1"),
        (11, "1.006"),
        (19, "1.054"),
        (20, "1.06"),
        (21, "1.063"),
        (100, "1.3"),
    ];
    let grades = GRADES[usize::from(edition - EDITION_ONE)];
    let mut figures = of_field("deficiency", bent, Field::Deficiency, &deficiencies);
    figures.extend(of_field("grade", plain, Field::Grade, grades));
    let passing = [(1, "0.75"), (2, "0.65")];
    figures.extend(of_field("passing", plain, Field::Passing, &passing));
    figures
}

/// "Two-way lane present and DD at least 5": 1 - 0.35 P, P = Q/(1.199 + Q),
/// Q = 0.0047 DD + 0.0024 DD^2; else 1. Edition 2 has its 0.574 "in the lane and
/// shoulder factors only".
const TWO_WAY_LANES: [Row; 4] = [
    (4, "1"),
    // Q = 0.0235 + 0.06 = 0.0835: (1.2825 - 0.029225)/1.2825.
    (5, "1253275/1282500"),
    // Q = 0.047 + 0.24 = 0.287: (1.486 - 0.10045)/1.486.
    (10, "27711/29720"),
    // Q = 0.235 + 6 = 6.235: (7.434 - 2.18225)/7.434.
    (50, "525175/743400"),
];

fn two_way_lanes() -> Vec<Figure> {
    let figure = |(driveways, worked): Row| {
        let without = road(5_000).with(Field::Driveways, driveways);
        let with = without.with(Field::TwoWayLane, 1);
        let name = format!("two-way lane at driveways {driveways}");
        ratio(name, with, without, worked)
    };
    TWO_WAY_LANES.into_iter().map(figure).collect()
}

/// Hazard rating and driveways, which are no exact factors.
fn segment_parts(edition: u8) -> Vec<Figure> {
    // e^(0.0668(RHR - 3)).
    let ratings = [
        (1, "0.8749399706.."), // e^-0.1336
        (2, "0.9353822590.."), // e^-0.0668
        (4, "1.0690816404.."), // e^0.0668
        (5, "1.1429355539.."), // e^0.1336
        (6, "1.2218914169.."), // e^0.2004
        (7, "1.3063016805.."), // e^0.2672
    ];
    let mut figures = of_field("hazard rating", road(5_000), Field::HazardRating, &ratings);
    for (traffic, rows) in DRIVEWAYS {
        let name = format!("driveways at {traffic}, count");
        let rows = own_rows(edition, rows);
        figures.extend(of_field(&name, road(traffic), Field::Driveways, &rows));
    }
    figures
}

/// (0.2 + c DD)/(0.2 + 5c), c = 0.05 - 0.005 ln A. At 5 driveways it is 1.
/// Edition 2 has "0.322 in place of 0.2", "with fewer than 5 driveways giving 1".
const DRIVEWAYS: [(u16, &[EachRow]); 3] = [
    // ln 1 is 0 and c is 0.05: over 0.45 and over 0.572.
    (
        1,
        &[
            (0, ["4/9", "1"]),
            (4, ["8/9", "1"]),
            (6, ["10/9", "622/572"]),
            (10, ["14/9", "822/572"]),
            (50, ["6", "2822/572"]),
        ],
    ),
    // ln 400 = 5.9914645471 and c = 0.0200426773: over 0.3002133864 and over
    // 0.4222133864.
    (
        400,
        &[
            (0, ["0.6661928118..", "1"]),
            (50, ["4.0042646930..", "3.1361721492.."]),
        ],
    ),
    // ln 20,000 = 9.9034875525 and c = 0.0004825622: over 0.2024128112 and over
    // 0.3244128112.
    (
        20_000,
        &[
            (0, ["0.9880797506..", "1"]),
            (4, ["0.9976159501..", "1"]),
            (50, ["1.1072822443..", "1.0669372476.."]),
        ],
    ),
];

/// Ratios of a kind's crossings that differ in one field.
fn of_kind(edition: u8, kind: u8, name: &str, field: Field, rows: &[Row]) -> Vec<Figure> {
    let name = format!("{} {name}", kind_name(kind));
    of_field(&name, crossing(edition, kind), field, rows)
}

/// A kind with the figures of its turn lanes, one and two.
type Turns = (u8, &'static [EachRow]);

/// "Factors of a crossing".
const LEFT_TURNS: [Turns; 3] = [
    (THREE_LEG_STOP, &[(1, ["0.78", "0.56"])]),
    (
        FOUR_LEG_STOP,
        &[(1, ["0.76", "0.72"]), (2, ["0.58", "0.52"])],
    ),
    (
        FOUR_LEG_SIGNAL,
        &[(1, ["0.82", "0.82"]), (2, ["0.67", "0.67"])],
    ),
];
const RIGHT_TURNS: [Turns; 3] = [
    (THREE_LEG_STOP, &[(1, ["0.95", "0.86"])]),
    (
        FOUR_LEG_STOP,
        &[(1, ["0.95", "0.86"]), (2, ["0.90", "0.74"])],
    ),
    (
        FOUR_LEG_SIGNAL,
        &[(1, ["0.975", "0.96"]), (2, ["0.95", "0.92"])],
    ),
];

/// 1 + 0.05 for each quadrant with limited sight, which edition 2 has not.
const SIGHT: [(u8, &[Row]); 2] = [
    (THREE_LEG_STOP, &[(1, "1.05"), (2, "1.10")]),
    (FOUR_LEG_STOP, &[(1, "1.05"), (2, "1.10"), (4, "1.20")]),
];

fn crossing_factors(edition: u8) -> Vec<Figure> {
    let mut figures = Vec::new();
    for (name, field, kinds) in [
        ("left-turn lanes", Field::LeftTurnLanes, LEFT_TURNS),
        ("right-turn lanes", Field::RightTurnLanes, RIGHT_TURNS),
    ] {
        for (kind, rows) in kinds {
            let rows = own_rows(edition, rows);
            figures.extend(of_kind(edition, kind, name, field, &rows));
        }
    }
    if edition == EDITION_ONE {
        for (kind, rows) in SIGHT {
            let field = Field::LimitedQuadrants;
            figures.extend(of_kind(edition, kind, "sight", field, rows));
        }
    }
    figures
}

/// A crossing's skew and the powers of its two traffics.
fn crossing_parts(edition: u8) -> Vec<Figure> {
    // e^(0.0040 skew): e^0.0040, e^0.12 and e^0.24.
    let three = [
        (1, "1.0040080106.."),
        (30, "1.1274968515.."),
        (60, "1.2712491503.."),
    ];
    // e^(0.0054 skew): e^0.0054, e^0.162 and e^0.324.
    let four = [
        (1, "1.0054146062.."),
        (30, "1.1758602413.."),
        (60, "1.3826473071.."),
    ];
    let mut figures = Vec::new();
    for (kind, rows) in [(THREE_LEG_STOP, three), (FOUR_LEG_STOP, four)] {
        figures.extend(of_kind(edition, kind, "skew", Field::Skew, &rows));
    }
    // From 100 to 10,000 vehicles a power rises by 100^p, which is 10^(2p):
    // for the major road and for the minor.
    for (kind, major, minor) in [
        // 0.79 and 0.49: 10^1.58 and 10^0.98.
        (THREE_LEG_STOP, "38.0189396320..", "9.5499258602.."),
        // 0.60 and 0.61: 10^1.20 and 10^1.22.
        (FOUR_LEG_STOP, "15.8489319246..", "16.5958690743.."),
        // 0.60 and 0.20: 10^1.20 and 10^0.40.
        (FOUR_LEG_SIGNAL, "15.8489319246..", "2.5118864315.."),
    ] {
        let busy = crossing(edition, kind);
        for (road, field, worked) in [
            ("major", Field::Traffic, major),
            ("minor", Field::MinorTraffic, minor),
        ] {
            let name = format!("{} power of {road} traffic", kind_name(kind));
            figures.push(ratio(name, busy, busy.with(field, 100), worked));
        }
    }
    figures
}

fn kind_name(kind: u8) -> &'static str {
    KIND_NAMES[usize::from(kind)]
}

/// N of each kind with every factor 1, over 10 years with calibration 1.000. A
/// segment's lane and shoulder have 1 at every traffic. The name, the kind, the
/// traffic, which a crossing has on both roads, and the figures.
const BASES: [(&str, u8, u16, Each); 7] = [
    // 10 x 10,000 x 20 x 0.000365 is 730: 730 e^-0.4865 and 730 e^-0.312.
    (
        "segment base",
        SEGMENT,
        10_000,
        ["448.7852705960..", "534.3465156066.."],
    ),
    // The same with 29.127, 73 and 146 for 730.
    (
        "segment base at 399",
        SEGMENT,
        399,
        ["17.9065322967..", "21.3204259727.."],
    ),
    (
        "segment base at 1000",
        SEGMENT,
        1_000,
        ["44.8785270596..", "53.4346515606.."],
    ),
    (
        "segment base at 2000",
        SEGMENT,
        2_000,
        ["89.7570541192..", "106.8693031213.."],
    ),
    // 10 x 10^(4 x 0.79) x 10^(4 x 0.49) is 10^6.12: 10^6.12 e^-10.9 and
    // 10^6.12 e^-9.86.
    (
        "3st base",
        THREE_LEG_STOP,
        10_000,
        ["24.3326913467..", "68.8424643632.."],
    ),
    // 10 x 10^(4 x 0.60) x 10^(4 x 0.61) is 10^5.84: 10^5.84 e^-9.34 and
    // 10^5.84 e^-8.56.
    (
        "4st base",
        FOUR_LEG_STOP,
        10_000,
        ["60.7700423529..", "132.5681619660.."],
    ),
    // 10 x 10^(4 x 0.60) x 10^(4 x 0.20) is 10^4.20: 10^4.20 e^-5.73 and
    // 10^4.20 e^-5.13.
    (
        "4sg base",
        FOUR_LEG_SIGNAL,
        10_000,
        ["51.4627060294..", "93.7711641752.."],
    ),
];

fn bases(edition: u8) -> Vec<Figure> {
    let figure = |(name, kind, traffic, each): (&str, u8, u16, Each)| {
        let site = if kind == SEGMENT {
            road(traffic)
        } else {
            Site::plain(edition, kind, traffic, traffic)
        };
        predicted(header(10, 1_000, 1_000), (name, site, own(edition, each)))
    };
    BASES.into_iter().map(figure).collect()
}

/// "Y x calibration x A x L": each kind has its own calibration, and neither
/// that of the other.
fn headers(edition: u8) -> Vec<Figure> {
    let one = header(1, 1_000, 1_000);
    let (segment, signal) = (road(10_000), crossing(edition, FOUR_LEG_SIGNAL));
    let double = segment.with(Field::Traffic, 20_000);
    let half = segment.with(Field::Length, 10_000);
    let rows = [
        ("years of a segment", header(7, 1_000, 1_000), segment, "7"),
        ("years of a crossing", header(7, 1_000, 1_000), signal, "7"),
        (
            "calibration of a segment",
            header(1, 2_345, 9_999),
            segment,
            "2.345",
        ),
        (
            "calibration of a crossing",
            header(1, 9_999, 2_345),
            signal,
            "2.345",
        ),
        ("traffic of a segment", one, double, "2"),
        ("length of a segment", one, half, "0.5"),
    ];
    let figure = |(name, header, site, worked): (&str, Header, Site, &'static str)| {
        let plain = if site.kind == SEGMENT {
            segment
        } else {
            signal
        };
        let base = Case {
            header: one,
            site: plain,
        };
        Figure {
            name: name.to_string(),
            measure: Measure::Ratio(Case { header, site }, base),
            worked,
        }
    };
    rows.into_iter().map(figure).collect()
}

/// k of a road of 20 miles: 0.31, and 236 / 20,000.
const LONG_ROAD_K: Each = ["0.31", "0.0118"];

/// "k is 0.31 segment, 0.54 3ST, 0.24 4ST, 0.11 4SG": with many crashes
/// observed where few are predicted, and with none where some are. From the
/// formula, k is (N - E)/(N(E - O)).
fn overdispersions(edition: u8) -> Vec<Figure> {
    let rows = [
        (SEGMENT, own(edition, LONG_ROAD_K)),
        (THREE_LEG_STOP, "0.54"),
        (FOUR_LEG_STOP, "0.24"),
        (FOUR_LEG_SIGNAL, "0.11"),
    ];
    let figure = |kind: u8, observed: u16, worked: &'static str| {
        let plain = if kind == SEGMENT {
            road(500)
        } else {
            crossing(edition, kind)
        };
        Figure {
            name: format!("{} k at observed {observed}", kind_name(kind)),
            measure: Measure::Overdispersion(Case {
                header: header(10, 1_000, 1_000),
                site: plain.with(Field::Observed, observed),
            }),
            worked,
        }
    };
    let both = |(kind, worked)| [0, 500].map(|observed| figure(kind, observed, worked));
    rows.into_iter().flat_map(both).collect()
}

/// "A segment's k is 236 divided by its length in thousandths of a mile": the
/// lengths 1, 59, 236, 1,000 and 1,180.
const LENGTHS_K: [EachRow; 5] = [
    (1, ["0.31", "236"]),
    (59, ["0.31", "4"]),
    (236, ["0.31", "1"]),
    (1_000, ["0.31", "0.236"]),
    (1_180, ["0.31", "0.2"]),
];

fn overdispersions_by_length(edition: u8) -> Vec<Figure> {
    let figure = |(length, worked)| Figure {
        name: format!("segment k at length {length}"),
        measure: Measure::Overdispersion(Case {
            header: header(MOST_YEARS, MOST_CALIBRATION, 1),
            site: road(20_000)
                .with(Field::Length, length)
                .with(Field::Observed, 500),
        }),
        worked,
    };
    let rows = own_rows(edition, &LENGTHS_K);
    rows.into_iter().map(figure).collect()
}

/// N of sites of the demo corridor, which has 5 years and the calibrations
/// 1.100 and 0.950: the name, the site's line, what only edition 1 has of it, and
/// the figures. Edition 2's working has its own exponents and factors in the same
/// places: lanes and shoulders with 0.574, 1.10 for a grade of 5.
const WHOLE_SITES: [(&str, &str, &str, Each); 7] = [
    // 5 x 1.1 x 3,900 x 0.640 x 0.000365 e^-0.4865 x 1.105 x 1.10955 x
    // (0.279 + 80.2/820 - 0.012)/0.279 x 1.075 x 1.016^5 x e^0.1336; e^-0.312,
    // 1.1722, 1.179662 and 1.10.
    (
        "the bends below the pass",
        "segment traffic 3900 length 640 lane 10 shoulder 2 shoulder-type 1 curve-length 180 \
         radius 820 spiral-ends 2 deficiency 25 grade 5 hazard-rating 5",
        "",
        ["6.5687117692..", "8.9627006077.."],
    ),
    // 5 x 1.1 x 3,900 x 0.420 x 0.000365 e^-0.4865 x
    // (1 + 0.35((1.30 + 1.15)/2 x (1.03 + 1.05)/2 - 1)) x
    // (0.14725 + 80.2/1,400)/0.14725 x e^0.2004; e^-0.312 and 0.574.
    (
        "the bend on the pass",
        "segment traffic 3900 length 420 shoulder 3 shoulder-type 3 curve-length 95 radius 1400 \
         hazard-rating 6",
        "",
        ["3.7601275340..", "4.7277334409.."],
    ),
    // 5 x 1.1 x 7,600 x 0.900 x 0.000365 e^-0.4865 x 0.97277 x
    // (1 - 0.35 x 1.4952/2.6942) x (0.2 + 24c)/(0.2 + 5c), where
    // c = 0.05 - 0.005 ln 7,600 = 0.0053204824; e^-0.312, 0.9553428 and 0.322.
    (
        "the village",
        "segment traffic 7600 length 900 shoulder 8 shoulder-type 2 driveways 24 two-way-lane 1",
        "",
        ["9.5685095534..", "9.9807083099.."],
    ),
    // 1.1 x 1.250 x 0.000365 e^-0.4865 x e^0.2672 x
    // (2 x 350 x 1.0175 x 1.035 + 3 x 700 x 1.047005 x 1.06125): lane and
    // shoulder of 1.05 and 1.10, and from the third year of 1.1343 and 1.175;
    // e^-0.312, 1.0287 x 1.0574 and 1.0770882 x 1.10045.
    (
        "the back road along the river",
        "segment traffic 350/350/700/700/700 length 1250 lane 9 shoulder 0 hazard-rating 7",
        "",
        ["1.2375775107..", "1.5598804381.."],
    ),
    // 5 x 0.95 e^-10.9 x 728.3949722 x 16.6252135 x 0.78 x e^0.1; e^-9.86 and
    // 0.56.
    (
        "the farm road",
        "3st traffic 4200 minor-traffic 310 skew 25 left-turn-lanes 1",
        "",
        ["0.9152547198..", "1.8590953416.."],
    ),
    // 5 x 0.95 e^-9.34 x 167.7034920 x 62.5366237 x 0.76 x 0.95 x 1.1 x
    // e^0.054; e^-8.56, 0.72, 0.86 and no 1.1.
    (
        "the mill crossing",
        "4st traffic 5100 minor-traffic 880 skew 10 left-turn-lanes 1 right-turn-lanes 1",
        " limited-quadrants 2",
        ["3.6681025519..", "6.2386731036.."],
    ),
    // 5 x 0.95 e^-5.73 x 213.0532460 x 4.9258320 x 0.67 x 0.975; e^-5.13, 0.67
    // and 0.96.
    (
        "the village signal",
        "4sg traffic 7600 minor-traffic 2900 left-turn-lanes 2 right-turn-lanes 1",
        "",
        ["10.5738562433..", "18.9704096035.."],
    ),
];

fn whole_sites(edition: u8) -> Vec<Figure> {
    let figure = |(name, line, of_the_first, worked): (&str, &str, &str, Each)| {
        let more = if edition == EDITION_ONE {
            of_the_first
        } else {
            ""
        };
        let site = lines::site(edition, 5, &format!("{line}{more}"));
        let site = site.expect("a site's line");
        predicted(header(5, 1_100, 950), (name, site, own(edition, worked)))
    };
    WHOLE_SITES.into_iter().map(figure).collect()
}

/// The years of a segment with traffic year by year, each figure over as many
/// years of the same road with 1,000 vehicles and every factor 1.
const YEARLY_FACTORS: [(&str, Field, u16, &[u16], Each); 4] = [
    // (2 x 1 + 8 x 2)/10.
    (
        "doubled in the third year",
        Field::LaneWidth,
        12,
        &[
            1_000, 1_000, 2_000, 2_000, 2_000, 2_000, 2_000, 2_000, 2_000, 2_000,
        ],
        ["1.8", "1.8"],
    ),
    // (399 x 1.0175 + 1,000 x 1.07651 + 2,001 x 1.175)/3,000, and
    // (399 x 1.0287 + 1,000 x 1.1254764 + 2,001 x 1.287)/3,000.
    (
        "lane",
        Field::LaneWidth,
        9,
        &[399, 1_000, 2_001],
        ["38336675/30000000", "41112147/30000000"],
    ),
    // (400 x 1.035 + 1,000 x 1.0875 + 2,000 x 1.175)/3,000, and
    // (400 x 1.0574 + 1,000 x 1.1435 + 2,000 x 1.287)/3,000.
    (
        "shoulder",
        Field::ShoulderWidth,
        0,
        &[400, 1_000, 2_000],
        ["38515/30000", "414046/300000"],
    ),
    // (1 x 6 + 400 x 4.0042646930 + 20,000 x 1.1072822444)/3,000, and
    // (1 x 2,822/572 + 400 x 3.1361721492 + 20,000 x 1.0669372476)/3,000.
    (
        "driveways",
        Field::Driveways,
        50,
        &[1, 400, 20_000],
        ["7.9177835884..", "7.5327157929.."],
    ),
];

fn yearly_factors(edition: u8) -> Vec<Figure> {
    let figure = |(name, field, value, traffic, worked): (&str, Field, u16, &[u16], _)| {
        let site = road(1)
            .with(field, value)
            .with_years(Field::Traffic, traffic);
        let years = traffic.len() as u8;
        let cases = [site, road(1_000)].map(|site| (years, site));
        let name = format!("yearly segment, {name}");
        ratio_over(name, cases, own(edition, worked))
    };
    YEARLY_FACTORS.into_iter().map(figure).collect()
}

/// "The sum of its Y one-year predictions": with 1,000 vehicles in the first
/// year and 1,000 more in each, 1 + 2 + ... + Y times a year of 1,000.
fn yearly_sums() -> Vec<Figure> {
    const SUMS: [&str; 9] = ["3", "6", "10", "15", "21", "28", "36", "45", "55"];
    let traffic: Vec<u16> = (1..=10).map(|year| 1_000 * year).collect();
    let figure = |(years, worked): (u8, &'static str)| {
        let site = road(1).with_years(Field::Traffic, &traffic[..years.into()]);
        let name = format!("yearly segment of {years} years");
        ratio_over(name, [(years, site), (1, road(1_000))], worked)
    };
    (2..).zip(SUMS).map(figure).collect()
}

/// The most years of a crossing with traffic year by year, over as many with
/// 10,000 vehicles on both roads. A power of 100 vehicles is that of 10,000 over
/// 10^(2p).
fn yearly_crossings(edition: u8) -> Vec<Figure> {
    const BUSY: [u16; 10] = [10_000; 10];
    // 100 vehicles in the first five years, and in the last five.
    const LATE: [u16; 10] = [
        100, 100, 100, 100, 100, 10_000, 10_000, 10_000, 10_000, 10_000,
    ];
    const EARLY: [u16; 10] = [
        10_000, 10_000, 10_000, 10_000, 10_000, 100, 100, 100, 100, 100,
    ];
    // The major road late: (10^(-2p) + 1)/2. The minor road late: the same of
    // its power q. The major late and the minor early: (10^(-2p) + 10^(-2q))/2.
    let rows = [
        (
            THREE_LEG_STOP,
            ["0.5131513399..", "0.5523564274..", "0.0655077673.."],
        ),
        (
            FOUR_LEG_STOP,
            ["0.5315478672..", "0.5301279793..", "0.0616758465.."],
        ),
        (
            FOUR_LEG_SIGNAL,
            ["0.5315478672..", "0.6990535852..", "0.2306014525.."],
        ),
    ];
    let mut figures = Vec::new();
    for (kind, [major, minor, both]) in rows {
        for (name, years, worked) in [
            ("the same every year", [BUSY, BUSY], "1"),
            ("major road late", [LATE, BUSY], major),
            ("minor road late", [BUSY, LATE], minor),
            ("major road late, minor early", [LATE, EARLY], both),
        ] {
            let site = TRAFFIC_FIELDS.iter().zip(years);
            let busy = crossing(edition, kind);
            let site = site.fold(busy, |site, (field, traffic)| {
                site.with_years(*field, &traffic)
            });
            let name = format!("yearly {}, {name}", kind_name(kind));
            figures.push(ratio(name, site, busy, worked));
        }
    }
    figures
}

/// Traffic year by year that is the same every year, and "the history still
/// covers the whole period": k at the sum over the years.
fn yearly_histories(edition: u8) -> Vec<Figure> {
    let name = "yearly segment, the same every year".to_string();
    let same = road(5_000).with_years(Field::Traffic, &[5_000; 10]);
    let rising: Vec<u16> = (1..=10).map(|year| 100 * year).collect();
    let histories = [0, 500].map(|observed| Figure {
        name: format!("yearly segment k at observed {observed}"),
        measure: Measure::Overdispersion(Case {
            header: header(10, 1_000, 1_000),
            site: road(1)
                .with_years(Field::Traffic, &rising)
                .with(Field::Observed, observed),
        }),
        worked: own(edition, LONG_ROAD_K),
    });
    let mut figures = vec![ratio(name, same, road(5_000), "1")];
    figures.extend(histories);
    figures
}

/// Every worked figure of an edition.
fn of_edition(edition: u8) -> Vec<Figure> {
    let groups = [
        widths(edition, "lane", Field::LaneWidth, &LANES),
        widths(edition, "shoulder", Field::ShoulderWidth, &SHOULDERS),
        shoulder_types(edition),
        middle_shoulders(edition),
        curves(),
        segment_factors(edition),
        two_way_lanes(),
        segment_parts(edition),
        crossing_factors(edition),
        crossing_parts(edition),
        bases(edition),
        headers(edition),
        overdispersions(edition),
        overdispersions_by_length(edition),
        whole_sites(edition),
        yearly_factors(edition),
        yearly_sums(),
        yearly_crossings(edition),
        yearly_histories(edition),
    ];
    let figures = groups.into_iter().flatten();
    figures.map(|figure| figure.in_edition(edition)).collect()
}

/// Every worked figure.
pub fn figures() -> Vec<Figure> {
    EDITIONS.into_iter().flat_map(of_edition).collect()
}
