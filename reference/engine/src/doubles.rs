//! A site's predicted and expected crashes in plain doubles, as a program
//! without brackets has them: what the engine's times stand beside.

use reference::project::Header;
use reference::record::Site;
use reference::rules::{Field, EDITION_ONE, TRAFFIC_FIELDS};

const SHOULDER_TYPE: [[f64; 5]; 4] = [
    [1.00, 1.00, 1.00, 1.00, 1.00],
    [1.00, 1.01, 1.01, 1.02, 1.02],
    [1.00, 1.02, 1.03, 1.04, 1.06],
    [1.00, 1.03, 1.05, 1.08, 1.11],
];

/// A width's value below 400 vehicles, its rise for each vehicle from there
/// and its value above 2,000.
const LANE: [[f64; 3]; 4] = [
    [1.05, 0.000281, 1.50],
    [1.02, 0.000175, 1.30],
    [1.01, 0.000025, 1.05],
    [1.00, 0.0, 1.00],
];
const SHOULDER: [[f64; 3]; 5] = [
    [1.10, 0.00025, 1.50],
    [1.07, 0.000143, 1.30],
    [1.02, 0.00008125, 1.15],
    [1.00, 0.0, 1.00],
    [0.98, -0.00006875, 0.87],
];
const PASSING: [f64; 3] = [1.0, 0.75, 0.65];

/// Base exponent, powers of the two roads' traffic, skew, turn lanes and k.
#[derive(Clone, Copy)]
struct Crossing {
    base: f64,
    major: f64,
    minor: f64,
    skew: f64,
    left: [f64; 3],
    right: [f64; 3],
    k: f64,
}

/// An edition: a segment's base exponent, its share of related crashes, 0.2 of its
/// driveways; whether it is the manual's, with steps for grades, 1 for few
/// driveways and k by length; and its crossings.
struct Edition {
    base: f64,
    related: f64,
    driveways: f64,
    is_manual: bool,
    crossings: [Crossing; 3],
}

const THREE_LEG_STOP: Crossing = Crossing {
    base: -10.9,
    major: 0.79,
    minor: 0.49,
    skew: 0.0040,
    left: [1.0, 0.78, 0.78],
    right: [1.0, 0.95, 0.95],
    k: 0.54,
};
const FOUR_LEG_STOP: Crossing = Crossing {
    base: -9.34,
    major: 0.60,
    minor: 0.61,
    skew: 0.0054,
    left: [1.0, 0.76, 0.58],
    right: [1.0, 0.95, 0.90],
    k: 0.24,
};
const FOUR_LEG_SIGNAL: Crossing = Crossing {
    base: -5.73,
    major: 0.60,
    minor: 0.20,
    skew: 0.0,
    left: [1.0, 0.82, 0.67],
    right: [1.0, 0.975, 0.95],
    k: 0.11,
};

const FIRST: Edition = Edition {
    base: -0.4865,
    related: 0.35,
    driveways: 0.2,
    is_manual: false,
    crossings: [THREE_LEG_STOP, FOUR_LEG_STOP, FOUR_LEG_SIGNAL],
};

const SECOND: Edition = Edition {
    base: -0.312,
    related: 0.574,
    driveways: 0.322,
    is_manual: true,
    crossings: [
        Crossing {
            base: -9.86,
            left: [1.0, 0.56, 0.56],
            right: [1.0, 0.86, 0.86],
            ..THREE_LEG_STOP
        },
        Crossing {
            base: -8.56,
            left: [1.0, 0.72, 0.52],
            right: [1.0, 0.86, 0.74],
            ..FOUR_LEG_STOP
        },
        Crossing {
            base: -5.13,
            right: [1.0, 0.96, 0.92],
            ..FOUR_LEG_SIGNAL
        },
    ],
};

fn edition_of(header: &Header) -> &'static Edition {
    if header.edition == EDITION_ONE {
        &FIRST
    } else {
        &SECOND
    }
}

/// A field's number, 0 where there is none.
fn number(site: &Site, field: Field) -> f64 {
    f64::from(site.get(field).unwrap_or(0))
}

fn place(site: &Site, field: Field) -> usize {
    usize::from(site.get(field).unwrap_or(0))
}

fn width_value(row: [f64; 3], traffic: f64) -> f64 {
    let [light, slope, heavy] = row;
    if traffic < 400.0 {
        light
    } else if traffic <= 2_000.0 {
        light + slope * (traffic - 400.0)
    } else {
        heavy
    }
}

fn of_related(edition: &Edition, value: f64) -> f64 {
    1.0 + edition.related * (value - 1.0)
}

fn curve(site: &Site) -> f64 {
    if !site.is_curve() {
        return 1.0;
    }
    let base = 1.55 * number(site, Field::CurveLength) / 1_000.0;
    let sharp = 80.2 / number(site, Field::Radius);
    let spiral = 0.012 * number(site, Field::SpiralEnds) / 2.0;
    let deficiency = number(site, Field::Deficiency) / 1_000.0;
    let elevation = if deficiency < 0.01 {
        1.0
    } else if deficiency <= 0.02 {
        1.0 + 6.0 * (deficiency - 0.01)
    } else {
        1.06 + 3.0 * (deficiency - 0.02)
    };
    ((base + sharp - spiral) / base).max(1.0) * elevation
}

/// The mean width of a shoulder's two columns times the mean type.
fn shoulder_value(site: &Site, traffic: f64) -> f64 {
    let width = place(site, Field::ShoulderWidth).min(8);
    let (below, above) = (width / 2, width.div_ceil(2));
    let types = SHOULDER_TYPE[place(site, Field::ShoulderType)];
    let widths = width_value(SHOULDER[below], traffic) + width_value(SHOULDER[above], traffic);
    widths * (types[below] + types[above]) / 4.0
}

fn grade(edition: &Edition, percent: f64) -> f64 {
    if !edition.is_manual {
        1.016f64.powf(percent)
    } else if percent <= 3.0 {
        1.0
    } else if percent <= 6.0 {
        1.10
    } else {
        1.16
    }
}

fn driveway_part(edition: &Edition, driveways: f64, traffic: f64) -> f64 {
    if edition.is_manual && driveways < 5.0 {
        return 1.0;
    }
    let c = 0.05 - 0.005 * traffic.ln();
    (edition.driveways + c * driveways) / (edition.driveways + 5.0 * c)
}

fn segment_year(edition: &Edition, site: &Site, traffic: f64) -> f64 {
    let driveways = number(site, Field::Driveways);
    let lane = width_value(
        LANE[place(site, Field::LaneWidth).clamp(9, 12) - 9],
        traffic,
    );
    let shoulder = shoulder_value(site, traffic);
    let two_way = if place(site, Field::TwoWayLane) == 1 && driveways >= 5.0 {
        let q = 0.0047 * driveways + 0.0024 * driveways * driveways;
        1.0 - 0.35 * q / (1.199 + q)
    } else {
        1.0
    };
    let exposure = traffic * number(site, Field::Length) / 1_000.0 * 0.000365;
    exposure
        * edition.base.exp()
        * of_related(edition, lane)
        * of_related(edition, shoulder)
        * curve(site)
        * grade(edition, number(site, Field::Grade))
        * two_way
        * PASSING[place(site, Field::Passing)]
        * (0.0668 * (number(site, Field::HazardRating) - 3.0)).exp()
        * driveway_part(edition, driveways, traffic)
}

fn crossing_year(crossing: &Crossing, site: &Site, major: f64, minor: f64) -> f64 {
    crossing.base.exp()
        * major.powf(crossing.major)
        * minor.powf(crossing.minor)
        * (crossing.skew * number(site, Field::Skew)).exp()
        * crossing.left[place(site, Field::LeftTurnLanes)]
        * crossing.right[place(site, Field::RightTurnLanes)]
        * (1.0 + 0.05 * number(site, Field::LimitedQuadrants))
}

/// A year of a site before calibration.
fn year(edition: &Edition, site: &Site, [major, minor]: [f64; 2]) -> f64 {
    match site.kind {
        0 => segment_year(edition, site, major),
        kind => {
            let crossing = &edition.crossings[usize::from(kind) - 1];
            crossing_year(crossing, site, major, minor)
        }
    }
}

/// The years of a site before calibration.
fn years(header: &Header, site: &Site) -> f64 {
    let edition = edition_of(header);
    let first = year(
        edition,
        site,
        TRAFFIC_FIELDS.map(|field| number(site, field)),
    );
    if !site.is_yearly() {
        return f64::from(header.years) * first;
    }
    let later = TRAFFIC_FIELDS.map(|field| site.later(field));
    let at = |at: usize| later.map(|traffic| f64::from(traffic[at].unwrap_or(0)));
    let places = 0..usize::from(header.years) - 1;
    let later_years = places.map(|place| year(edition, site, at(place)));
    first + later_years.sum::<f64>()
}

fn overdispersion(edition: &Edition, site: &Site) -> f64 {
    match site.kind {
        0 if edition.is_manual => 236.0 / number(site, Field::Length),
        0 => 0.31,
        kind => edition.crossings[usize::from(kind) - 1].k,
    }
}

/// Predicted and expected crashes of a site that the writer takes.
pub fn line(header: &Header, site: &Site) -> [f64; 2] {
    let k = overdispersion(edition_of(header), site);
    let calibration = match site.kind {
        0 => header.segment_calibration,
        _ => header.crossing_calibration,
    };
    let predicted = f64::from(calibration) / 1_000.0 * years(header, site);
    let expected = match site.get(Field::Observed) {
        None => predicted,
        Some(observed) => predicted * (1.0 + k * f64::from(observed)) / (1.0 + k * predicted),
    };
    [predicted, expected]
}
