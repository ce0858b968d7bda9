//! The limits, kinds, fields and defaults of document 01 as document 02 amends
//! it: one table for each kind, with the editions that have each field, read by
//! the reader, the writer, the generator and the text form.

use std::ops::RangeInclusive;

/// The editions, as their byte in a header: document 01's, and Chapter 10 of
/// the Highway Safety Manual.
pub const EDITION_ONE: u8 = 1;
pub const EDITION_TWO: u8 = 2;
pub const EDITIONS: [u8; 2] = [EDITION_ONE, EDITION_TWO];
pub const LAST_EDITION: u8 = EDITIONS[EDITIONS.len() - 1];

/// Limits of the header; that of sites is document 02's.
pub const MOST_YEARS: u8 = 10;
pub const MOST_CALIBRATION: u16 = 9_999;
pub const MOST_SITES: usize = 1_200;

/// The years after the first.
pub const LATER_YEARS: usize = MOST_YEARS as usize - 1;

/// The bit of every kind that has no field of its own: it says that each
/// traffic field is followed by the values of the later years.
pub const YEARLY_BIT: u32 = 15;

/// Kinds of site, as their byte in a record.
pub const SEGMENT: u8 = 0;
pub const THREE_LEG_STOP: u8 = 1;
pub const FOUR_LEG_STOP: u8 = 2;
pub const FOUR_LEG_SIGNAL: u8 = 3;

/// The names of the kinds in the text form.
pub const KIND_NAMES: [&str; 4] = ["segment", "3st", "4st", "4sg"];

/// The values that a site may hold.
#[derive(Clone, Copy, Debug, PartialEq, Eq, Hash)]
pub enum Field {
    Traffic,
    Length,
    Observed,
    LaneWidth,
    ShoulderWidth,
    ShoulderType,
    CurveLength,
    Radius,
    SpiralEnds,
    Deficiency,
    Grade,
    Driveways,
    TwoWayLane,
    Passing,
    HazardRating,
    MinorTraffic,
    Skew,
    LeftTurnLanes,
    RightTurnLanes,
    LimitedQuadrants,
}

/// Every field with its name in the text form, in the order of a site's
/// values.
pub const FIELD_NAMES: [(Field, &str); 20] = [
    (Field::Traffic, "traffic"),
    (Field::Length, "length"),
    (Field::Observed, "observed"),
    (Field::LaneWidth, "lane"),
    (Field::ShoulderWidth, "shoulder"),
    (Field::ShoulderType, "shoulder-type"),
    (Field::CurveLength, "curve-length"),
    (Field::Radius, "radius"),
    (Field::SpiralEnds, "spiral-ends"),
    (Field::Deficiency, "deficiency"),
    (Field::Grade, "grade"),
    (Field::Driveways, "driveways"),
    (Field::TwoWayLane, "two-way-lane"),
    (Field::Passing, "passing"),
    (Field::HazardRating, "hazard-rating"),
    (Field::MinorTraffic, "minor-traffic"),
    (Field::Skew, "skew"),
    (Field::LeftTurnLanes, "left-turn-lanes"),
    (Field::RightTurnLanes, "right-turn-lanes"),
    (Field::LimitedQuadrants, "limited-quadrants"),
];

/// The fields that may have a value for each year.
pub const TRAFFIC_FIELDS: [Field; 2] = [Field::Traffic, Field::MinorTraffic];

/// When a field's bit is set in a record, and what its absence means.
#[derive(Clone, Copy, Debug, PartialEq, Eq)]
pub enum Presence {
    /// Always set.
    Needed,
    /// Set where there is a history.
    History,
    /// Curve length or radius: both are set, or the road is straight.
    Curve,
    /// Absent, it has this default, which is never spelled out.
    Default(u16),
    /// As `Default` on a curve; on a straight road it may not be set.
    CurveDefault(u16),
}

/// One bit of a kind's map.
#[derive(Clone, Copy, Debug)]
pub struct Rule {
    pub bit: u32,
    pub field: Field,
    pub low: u16,
    pub high: u16,
    pub presence: Presence,
    /// The editions that have the field.
    pub editions: &'static [u8],
}

impl Field {
    /// The field's name in the text form.
    pub fn name(self) -> &'static str {
        let known = FIELD_NAMES.iter().find(|(field, _)| *field == self);
        known.map_or("", |(_, name)| name)
    }
}

impl Rule {
    /// The values allowed.
    pub fn range(&self) -> RangeInclusive<u16> {
        self.low..=self.high
    }

    pub fn allows(&self, value: u16) -> bool {
        self.range().contains(&value)
    }

    pub fn default(&self) -> Option<u16> {
        match self.presence {
            Presence::Default(value) | Presence::CurveDefault(value) => Some(value),
            _ => None,
        }
    }

    /// Whether the field may have a value for each year.
    pub fn is_traffic(&self) -> bool {
        TRAFFIC_FIELDS.contains(&self.field)
    }

    /// Whether the field says something about a curve.
    pub fn is_of_curve(&self) -> bool {
        matches!(self.presence, Presence::Curve | Presence::CurveDefault(_))
    }

    /// The same rule where not every edition has the field.
    const fn only_in(self, editions: &'static [u8]) -> Rule {
        Rule { editions, ..self }
    }
}

const fn rule(bit: u32, field: Field, low: u16, high: u16, presence: Presence) -> Rule {
    Rule {
        bit,
        field,
        low,
        high,
        presence,
        editions: &EDITIONS,
    }
}

const TRAFFIC: Rule = rule(0, Field::Traffic, 1, 20_000, Presence::Needed);
const MINOR_TRAFFIC: Rule = rule(1, Field::MinorTraffic, 1, 20_000, Presence::Needed);
const OBSERVED: Rule = rule(2, Field::Observed, 0, 500, Presence::History);

const SEGMENT_RULES: [Rule; 15] = [
    TRAFFIC,
    rule(1, Field::Length, 1, 20_000, Presence::Needed),
    OBSERVED,
    rule(3, Field::LaneWidth, 8, 14, Presence::Default(12)),
    rule(4, Field::ShoulderWidth, 0, 10, Presence::Default(6)),
    rule(5, Field::ShoulderType, 0, 3, Presence::Default(0)),
    rule(6, Field::CurveLength, 1, 20_000, Presence::Curve),
    rule(7, Field::Radius, 100, 30_000, Presence::Curve),
    rule(8, Field::SpiralEnds, 0, 2, Presence::CurveDefault(0)),
    rule(9, Field::Deficiency, 0, 100, Presence::CurveDefault(0)),
    rule(10, Field::Grade, 0, 12, Presence::Default(0)),
    rule(11, Field::Driveways, 0, 50, Presence::Default(5)),
    rule(12, Field::TwoWayLane, 0, 1, Presence::Default(0)),
    rule(13, Field::Passing, 0, 2, Presence::Default(0)),
    rule(14, Field::HazardRating, 1, 7, Presence::Default(3)),
];

/// A crossing's field whose absence means none.
const fn count(bit: u32, field: Field, high: u16) -> Rule {
    rule(bit, field, 0, high, Presence::Default(0))
}

/// Sight is edition 1's alone: "Bit 6 of a crossing gets 6 in edition 2".
const fn limited_quadrants(high: u16) -> Rule {
    count(6, Field::LimitedQuadrants, high).only_in(&[EDITION_ONE])
}

const THREE_LEG_STOP_RULES: [Rule; 7] = [
    TRAFFIC,
    MINOR_TRAFFIC,
    OBSERVED,
    count(3, Field::Skew, 60),
    count(4, Field::LeftTurnLanes, 1),
    count(5, Field::RightTurnLanes, 1),
    limited_quadrants(2),
];

const FOUR_LEG_STOP_RULES: [Rule; 7] = [
    TRAFFIC,
    MINOR_TRAFFIC,
    OBSERVED,
    count(3, Field::Skew, 60),
    count(4, Field::LeftTurnLanes, 2),
    count(5, Field::RightTurnLanes, 2),
    limited_quadrants(4),
];

/// The most fields of a stop crossing, both of whose traffics may be yearly.
pub const STOP_FIELDS: usize = FOUR_LEG_STOP_RULES.len();

const FOUR_LEG_SIGNAL_RULES: [Rule; 5] = [
    TRAFFIC,
    MINOR_TRAFFIC,
    OBSERVED,
    count(4, Field::LeftTurnLanes, 2),
    count(5, Field::RightTurnLanes, 2),
];

/// A kind's rules of every edition; those that one lacks come last.
fn table(kind: u8) -> Option<&'static [Rule]> {
    match kind {
        SEGMENT => Some(&SEGMENT_RULES),
        THREE_LEG_STOP => Some(&THREE_LEG_STOP_RULES),
        FOUR_LEG_STOP => Some(&FOUR_LEG_STOP_RULES),
        FOUR_LEG_SIGNAL => Some(&FOUR_LEG_SIGNAL_RULES),
        _ => None,
    }
}

/// The rules of a kind in an edition, in rising bit order, or nothing for a kind
/// above 3.
pub fn rules(edition: u8, kind: u8) -> Option<&'static [Rule]> {
    let table = table(kind)?;
    let held = table.partition_point(|rule| rule.editions.contains(&edition));
    Some(&table[..held])
}

/// The editions in which a kind has a field.
pub fn editions_with(kind: u8, field: Field) -> &'static [u8] {
    let mut table = table(kind).unwrap_or(&[]).iter();
    let rule = table.find(|rule| rule.field == field);
    rule.map_or(&[], |rule| rule.editions)
}

/// An edition that there is.
pub fn edition_within(edition: u64) -> Option<u8> {
    let edition = u8::try_from(edition).ok()?;
    EDITIONS.contains(&edition).then_some(edition)
}

/// Years within the header's limits.
pub fn years_within(years: u64) -> Option<u8> {
    let years = u8::try_from(years).ok()?;
    (1..=MOST_YEARS).contains(&years).then_some(years)
}
