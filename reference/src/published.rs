//! The printed tables of FHWA-RD-99-207, each cell with the site that it is
//! about and each slip of the report with its reason. A test hands in what a
//! model makes of a site and the table is compared to the digits it prints.
//!
//! - Factors ([`factors`]): tables 3 to 5 and the factors that the text
//!   prints, as the ratio of two sites that differ in one field.
//! - Crashes and rates ([`table`]): tables 6 to 22.
//! - Years with their traffic, and histories ([`examples`]): tables 24, 25 and
//!   27.

mod cells;

use self::cells::*;
use crate::estimates::Estimates;
use crate::rational::Rational;
use crate::record::Site;
use crate::rules::{
    Field, EDITION_ONE, FOUR_LEG_SIGNAL, FOUR_LEG_STOP, SEGMENT, THREE_LEG_STOP, TRAFFIC_FIELDS,
};

/// Whether both estimates round to `printed` units of 1/`unit`.
pub fn prints(estimates: &Estimates, printed: u64, unit: u64) -> bool {
    prints_parts(estimates, &[printed], unit)
}

/// Whether both estimates may be the sum of values that round to these units.
fn prints_parts(estimates: &Estimates, printed: &[u64], unit: u64) -> bool {
    let half = |count: u64| Rational::of(count, 2 * unit);
    let (halves, slack) = (2 * printed.iter().sum::<u64>(), printed.len() as u64);
    half(halves.saturating_sub(slack)) <= estimates.under && estimates.over <= half(halves + slack)
}

/// Sites with their weights, which have the sum 1.
type Parts = Vec<(Rational, Site)>;

/// What a table's block counts.
#[derive(Clone, Copy, Debug, PartialEq, Eq)]
enum Measure {
    /// Crashes a year, on a mile or at a crossing.
    Crashes,
    /// Crashes of a million vehicle-miles.
    Rate,
}

/// One cell, in hundredths.
struct Cell {
    parts: Parts,
    printed: u64,
}

impl Cell {
    fn value(&self, measure: Measure, yearly: &impl Fn(&Site) -> Estimates) -> Estimates {
        let scaled = |(weight, site): &(Rational, Site)| {
            let found = yearly(site);
            let unit = match measure {
                Measure::Crashes => Rational::one(),
                Measure::Rate => Rational::of(1_000_000, 365 * site.value(Field::Traffic)),
            };
            found.scaled(&(weight * &unit))
        };
        Estimates::sum(self.parts.iter().map(scaled))
    }
}

/// Why the report's cells of one column do not follow from its model.
#[derive(Clone, Copy, Debug)]
enum Reason {
    /// Worked from the cell that the same row prints at this column, times
    /// this factor in millionths: rounded twice. That is checked.
    PrintedCell(usize, u64),
    /// Worked with another length for 100 feet; the table is compared at that
    /// length too.
    HundredFeet,
    /// As told.
    Told(&'static str),
}

impl Reason {
    fn text(self) -> &'static str {
        match self {
            Reason::PrintedCell(..) => "worked from a printed cell",
            Reason::HundredFeet => "worked with another length for 100 feet",
            Reason::Told(text) => text,
        }
    }
}

/// Cells of one column, by row, that the model does not round to.
struct Slip {
    column: usize,
    rows: &'static [usize],
    reason: Reason,
}

fn slip(column: usize, rows: &'static [usize], reason: Reason) -> Slip {
    Slip {
        column,
        rows,
        reason,
    }
}

/// A part of a table that has one measure.
pub struct Block {
    pub name: &'static str,
    measure: Measure,
    rows: Vec<Vec<Cell>>,
    slips: Vec<Slip>,
}

impl Block {
    /// Compares every cell with what `yearly` gives for a year of a site; the
    /// cells compared. Panics where a cell differs that is not listed, where a
    /// listed one does not, and where a reason does not hold.
    pub fn check(&self, yearly: impl Fn(&Site) -> Estimates) -> usize {
        let found = self.differing(yearly);
        for slip in &self.slips {
            self.check_reason(slip);
            for row in slip.rows {
                let (name, column, why) = (self.name, slip.column, slip.reason.text());
                let differs = found.contains(&(*row, column));
                assert!(differs, "{name}: row {row}, column {column} fits: {why}");
            }
        }
        assert_eq!(found, self.listed(), "{}, {:?}", self.name, self.measure);
        self.rows.iter().map(Vec::len).sum()
    }

    /// The cells, by row and column, that do not round to what is printed.
    pub fn differing(&self, yearly: impl Fn(&Site) -> Estimates) -> Vec<(usize, usize)> {
        let mut found = Vec::new();
        for (row, cells) in self.rows.iter().enumerate() {
            for (column, cell) in cells.iter().enumerate() {
                let value = cell.value(self.measure, &yearly);
                if !prints(&value, cell.printed, 100) {
                    found.push((row, column));
                }
            }
        }
        found
    }

    /// The cells that are listed as slips of the report.
    pub fn listed(&self) -> Vec<(usize, usize)> {
        let places = |slip: &Slip| {
            let column = slip.column;
            slip.rows.iter().map(move |row| (*row, column))
        };
        let mut listed: Vec<(usize, usize)> = self.slips.iter().flat_map(places).collect();
        listed.sort_unstable();
        listed
    }

    fn check_reason(&self, slip: &Slip) {
        let Reason::PrintedCell(from, factor) = slip.reason else {
            return;
        };
        for row in slip.rows {
            let product = self.rows[*row][from].printed * factor;
            let rounded = (2 * product + 1_000_000) / 2_000_000;
            let printed = self.rows[*row][slip.column].printed;
            assert_eq!(rounded, printed, "{}, row {row}", self.name);
        }
    }
}

/// The traffic of the segment tables' rows.
const TRAFFIC: [u16; 5] = [400, 1_000, 3_000, 5_000, 10_000];

/// A segment table's two blocks, crashes a mile and rate: a column's parts
/// come from the plain mile.
fn of_segments<const N: usize>(
    name: &'static str,
    printed: &[[u64; N]],
    parts: impl Fn(usize, Site) -> Parts,
    slips: [Vec<Slip>; 2],
) -> Vec<Block> {
    assert_eq!(printed.len(), 2 * TRAFFIC.len());
    let measures = [Measure::Crashes, Measure::Rate];
    let halves = printed.chunks(TRAFFIC.len()).zip(measures).zip(slips);
    let block = |((half, measure), slips): ((&[[u64; N]], Measure), Vec<Slip>)| {
        let row = |(printed, traffic): (&[u64; N], u16)| {
            let plain = Site::plain(EDITION_ONE, SEGMENT, traffic, 1_000);
            let cell = |(column, printed): (usize, &u64)| Cell {
                parts: parts(column, plain),
                printed: *printed,
            };
            printed.iter().enumerate().map(cell).collect()
        };
        Block {
            name,
            measure,
            rows: half.iter().zip(TRAFFIC).map(row).collect(),
            slips,
        }
    };
    halves.map(block).collect()
}

fn one(site: Site) -> Parts {
    vec![(Rational::one(), site)]
}

/// Feet in a mile.
const MILE: u64 = 5_280;

/// The feet to a mile that give the 100 feet of table 9, as its cells show:
/// 0.018896 miles.
const MILE_OF_TABLE_9: u64 = 5_292;

/// The same for tables 10 and 15: 0.018936 miles.
const MILE_OF_TABLES_10_AND_15: u64 = 5_281;

/// A curve whose length is in feet, which a record has in thousandths of a
/// mile. Equation 17 is linear in 1/length, so the curve has a fixed place
/// between the two records around it. The mile is that of curves of 100 feet.
fn curved(site: Site, feet: u64, mile: u64, radius: u16) -> Parts {
    let mile = if feet == 100 { mile } else { MILE };
    let thousandths = 1_000 * feet;
    let shorter = thousandths / mile;
    let longer = shorter + 1;
    let of_shorter = Rational::of(shorter * (longer * mile - thousandths), thousandths);
    let of_longer = &Rational::one() - &of_shorter;
    vec![
        (of_shorter, site.with_curve(shorter as u16, radius)),
        (of_longer, site.with_curve(longer as u16, radius)),
    ]
}

fn with(parts: Parts, field: Field, value: u16) -> Parts {
    let changed = |(weight, site): (Rational, Site)| (weight, site.with(field, value));
    parts.into_iter().map(changed).collect()
}

fn table_6() -> Vec<Block> {
    let crashes = TABLE_6.iter().map(|row| [row[0]]);
    let rates = TABLE_6.iter().map(|row| [row[1]]);
    let printed: Vec<[u64; 1]> = crashes.chain(rates).collect();
    of_segments(
        "table 6, traffic",
        &printed,
        |_, site| one(site),
        [vec![], vec![]],
    )
}

fn table_7() -> Vec<Block> {
    let widths = [9, 10, 11, 12];
    let parts = |column: usize, site: Site| one(site.with(Field::LaneWidth, widths[column]));
    of_segments("table 7, lane width", &TABLE_7, parts, [vec![], vec![]])
}

fn table_8() -> Vec<Block> {
    const PAVED: u16 = 0;
    const GRAVEL: u16 = 1;
    const TURF: u16 = 3;
    let columns = [
        (0, PAVED),
        (2, PAVED),
        (4, PAVED),
        (6, PAVED),
        (8, PAVED),
        (2, GRAVEL),
        (4, GRAVEL),
        (6, GRAVEL),
        (8, GRAVEL),
        (2, TURF),
        (4, TURF),
        (6, TURF),
        (8, TURF),
    ];
    let parts = |column: usize, site: Site| {
        let (width, material) = columns[column];
        let wide = site.with(Field::ShoulderWidth, width);
        one(wide.with(Field::ShoulderType, material))
    };
    // The factors are 1 + 0.35(1.15 x 1.01 - 1), and so on.
    let crashes = vec![
        slip(6, &[3], Reason::PrintedCell(3, 1_056_525)),
        slip(9, &[3], Reason::PrintedCell(3, 1_118_650)),
        slip(10, &[4], Reason::PrintedCell(3, 1_072_625)),
    ];
    let rates = vec![slip(
        12,
        &[0, 1],
        Reason::Told(
            "0.98 x 1.11 and 0.93875 x 1.11 give 0.634 and 0.624; the report has a hundredth more",
        ),
    )];
    of_segments("table 8, shoulder", &TABLE_8, parts, [crashes, rates])
}

/// Tables 9 and 10 on 500 feet with a radius of 1,000 at a traffic of 5,000.
const HALF: Reason = Reason::Told("1.734998 is printed as if it were 1.735");

/// Table 9 with so many feet to the mile in curves of 100 feet.
fn table_9(mile: u64) -> Vec<Block> {
    let columns = [
        (100, 100),
        (100, 200),
        (100, 500),
        (500, 500),
        (500, 1_000),
        (500, 2_000),
        (1_000, 1_000),
        (1_000, 2_000),
        (1_000, 5_000),
        (2_000, 1_000),
        (2_000, 2_000),
        (2_000, 5_000),
    ];
    let parts = |spirals: u16| {
        move |column: usize, site: Site| match column.checked_sub(1) {
            None => one(site),
            Some(column) => {
                let (feet, radius) = columns[column];
                with(curved(site, feet, mile, radius), Field::SpiralEnds, spirals)
            }
        }
    };
    let digits = [
        slip(
            1,
            &[3],
            Reason::Told("31.28 for 31.38; the row above and the row below fit"),
        ),
        slip(
            2,
            &[0],
            Reason::Told("1.26 for 1.28; the rate of the same road fits"),
        ),
    ];
    let (plain, spiral) = if mile == MILE {
        let all = |column| slip(column, &[0, 1, 2, 3, 4], Reason::HundredFeet);
        let some = |column, rows| slip(column, rows, Reason::HundredFeet);
        (
            [
                vec![
                    all(1),
                    some(2, &[1, 2, 3, 4]),
                    some(3, &[2, 3, 4]),
                    slip(5, &[3], HALF),
                ],
                vec![all(1), all(2), all(3)],
            ],
            [
                digits
                    .into_iter()
                    .chain([some(1, &[1, 2, 4]), some(2, &[2, 3, 4]), some(3, &[3, 4])])
                    .collect(),
                vec![all(1), all(2), all(3)],
            ],
        )
    } else {
        (
            [vec![slip(5, &[3], HALF)], vec![]],
            [digits.into_iter().collect(), vec![]],
        )
    };
    let mut blocks = of_segments("table 9, curve", &TABLE_9[..10], parts(0), plain);
    blocks.extend(of_segments(
        "table 9, curve with spirals",
        &TABLE_9[10..],
        parts(2),
        spiral,
    ));
    blocks
}

/// Table 10 with so many feet to the mile in curves of 100 feet.
fn table_10(mile: u64) -> Vec<Block> {
    let curves = [(100, 200), (500, 1_000), (1_000, 2_000), (2_000, 2_000)];
    let deficiencies = [0, 20, 40];
    let parts = |column: usize, site: Site| {
        let (feet, radius) = curves[column / 3];
        let curve = curved(site, feet, mile, radius);
        with(curve, Field::Deficiency, deficiencies[column % 3])
    };
    let slips = if mile == MILE {
        let of_hundred = |column, rows| slip(column, rows, Reason::HundredFeet);
        [
            vec![
                of_hundred(1, &[0, 3, 4]),
                of_hundred(2, &[4]),
                slip(3, &[3], HALF),
            ],
            vec![of_hundred(2, &[0, 1, 2, 3, 4])],
        ]
    } else {
        [vec![slip(3, &[3], HALF)], vec![]]
    };
    of_segments("table 10, superelevation", &TABLE_10, parts, slips)
}

fn table_11() -> Vec<Block> {
    let parts = |column: usize, site: Site| one(site.with(Field::Grade, 2 * column as u16));
    let digits = Reason::Told("0.21 at 4 percent is below the report's own 0.23 at 2");
    of_segments(
        "table 11, grade",
        &TABLE_11,
        parts,
        [vec![slip(2, &[1], digits)], vec![]],
    )
}

fn table_12() -> Vec<Block> {
    let parts = |two_way: u16| {
        move |column: usize, site: Site| {
            let driveways = site.with(Field::Driveways, 5 * column as u16);
            one(driveways.with(Field::TwoWayLane, two_way))
        }
    };
    let none = || [vec![], vec![]];
    let mut blocks = of_segments("table 12, driveways", &TABLE_12[..10], parts(0), none());
    blocks.extend(of_segments(
        "table 12, driveways with two-way lane",
        &TABLE_12[10..],
        parts(1),
        none(),
    ));
    blocks
}

fn table_13() -> Vec<Block> {
    let passing = [0, 1, 0, 2];
    let parts = |column: usize, site: Site| one(site.with(Field::Passing, passing[column]));
    of_segments("table 13, passing", &TABLE_13, parts, [vec![], vec![]])
}

fn table_14() -> Vec<Block> {
    let parts = |column: usize, site: Site| one(site.with(Field::HazardRating, 1 + column as u16));
    let digits = Reason::Told("1.26 at 5,000 is not half the report's own 2.56 at 10,000");
    of_segments(
        "table 14, roadside hazard rating",
        &TABLE_14,
        parts,
        [vec![slip(4, &[3], digits)], vec![]],
    )
}

/// Table 15 with so many feet to the mile in curves of 100 feet.
fn table_15(mile: u64) -> Vec<Block> {
    let best = |site: Site| {
        site.with(Field::ShoulderWidth, 8)
            .with(Field::Driveways, 0)
            .with(Field::HazardRating, 1)
            .with(Field::Passing, 2)
    };
    let worst = |site: Site| {
        site.with(Field::LaneWidth, 9)
            .with(Field::ShoulderWidth, 0)
            .with(Field::Grade, 8)
            .with(Field::Driveways, 30)
            .with(Field::HazardRating, 7)
    };
    let parts = |column: usize, site: Site| match column {
        0 => one(best(site)),
        _ => with(curved(worst(site), 100, mile, 100), Field::Deficiency, 40),
    };
    let slips = if mile == MILE {
        let of_hundred = |rows| vec![slip(1, rows, Reason::HundredFeet)];
        [of_hundred(&[1, 2, 3, 4]), of_hundred(&[0, 1, 2, 3, 4])]
    } else {
        [vec![], vec![]]
    };
    of_segments("table 15, extremes", &TABLE_15, parts, slips)
}

/// The major and minor traffic of the crossing tables' rows.
const CROSSING_ROWS: [(u16, u16); 21] = [
    (400, 50),
    (400, 100),
    (400, 400),
    (1_000, 100),
    (1_000, 500),
    (1_000, 1_000),
    (3_000, 100),
    (3_000, 500),
    (3_000, 1_000),
    (3_000, 3_000),
    (5_000, 100),
    (5_000, 500),
    (5_000, 1_000),
    (5_000, 3_000),
    (5_000, 5_000),
    (10_000, 100),
    (10_000, 500),
    (10_000, 1_000),
    (10_000, 3_000),
    (10_000, 5_000),
    (10_000, 10_000),
];

/// A table of crossings: each column's site from the plain crossing.
fn of_crossings<const N: usize>(
    name: &'static str,
    kind: u8,
    printed: &[[u64; N]; 21],
    site: impl Fn(usize, Site) -> Site,
    slips: Vec<Slip>,
) -> Vec<Block> {
    let row = |(printed, (major, minor)): (&[u64; N], (u16, u16))| {
        let plain = Site::plain(EDITION_ONE, kind, major, minor);
        let cell = |(column, printed): (usize, &u64)| Cell {
            parts: one(site(column, plain)),
            printed: *printed,
        };
        printed.iter().enumerate().map(cell).collect()
    };
    vec![Block {
        name,
        measure: Measure::Crashes,
        rows: printed.iter().zip(CROSSING_ROWS).map(row).collect(),
        slips,
    }]
}

fn turn_lanes(site: Site, (left, right): (u16, u16)) -> Site {
    site.with(Field::LeftTurnLanes, left)
        .with(Field::RightTurnLanes, right)
}

/// The left-turn and right-turn lanes of the columns of tables 19 and 22.
const TURN_LANES: [(u16, u16); 9] = [
    (0, 0),
    (1, 0),
    (2, 0),
    (0, 1),
    (0, 2),
    (1, 1),
    (1, 2),
    (2, 1),
    (2, 2),
];

const SKEWS: [u16; 5] = [0, 10, 15, 30, 45];

fn skewed(column: usize, site: Site) -> Site {
    site.with(Field::Skew, SKEWS[column])
}

fn limited(column: usize, site: Site) -> Site {
    site.with(Field::LimitedQuadrants, column as u16)
}

fn table_16() -> Vec<Block> {
    let columns = [(0, 0), (1, 0), (0, 1), (1, 1)];
    let site = |column: usize, site: Site| turn_lanes(site, columns[column]);
    of_crossings(
        "table 16, turn lanes at three-leg stops",
        THREE_LEG_STOP,
        &TABLE_16,
        site,
        vec![],
    )
}

/// Its skewed cells are the printed base times 1.04, 1.06, 1.13 or 1.20.
fn table_17() -> Vec<Block> {
    let of_base = |factor| Reason::PrintedCell(0, factor);
    let slips = vec![
        slip(1, &[5, 8, 10, 15], of_base(1_040_000)),
        slip(2, &[0, 6, 16], of_base(1_060_000)),
        slip(3, &[0, 2, 5, 7, 15], of_base(1_130_000)),
        slip(4, &[0, 5, 13, 15], of_base(1_200_000)),
    ];
    of_crossings(
        "table 17, skew at three-leg stops",
        THREE_LEG_STOP,
        &TABLE_17,
        skewed,
        slips,
    )
}

fn table_18() -> Vec<Block> {
    let rounding = Reason::Told("0.01498 is printed as 0.02");
    of_crossings(
        "table 18, sight at three-leg stops",
        THREE_LEG_STOP,
        &TABLE_18,
        limited,
        vec![slip(1, &[0], rounding)],
    )
}

/// Its cells with turn lanes are the printed base times the factors.
fn table_19() -> Vec<Block> {
    let of_base = |factor| Reason::PrintedCell(0, factor);
    let slips = vec![
        slip(1, &[0, 12, 19], of_base(760_000)),
        slip(
            1,
            &[11],
            Reason::Told("0.46 is under 0.76 of 0.64, which is 0.49"),
        ),
        slip(
            1,
            &[20],
            Reason::Told("4.63 is over 0.76 of 6.08, which is 4.62"),
        ),
        slip(2, &[4, 5, 7, 13, 14, 17, 20], of_base(580_000)),
        slip(
            3,
            &[12],
            Reason::Told("0.94 is over 0.95 of 0.98, which is 0.93"),
        ),
        slip(5, &[0, 3, 9, 11, 15], of_base(722_000)),
        slip(6, &[1, 5, 8, 10, 13, 18], of_base(684_000)),
        slip(7, &[5, 11], of_base(551_000)),
        slip(8, &[5, 11], of_base(522_000)),
    ];
    of_crossings(
        "table 19, turn lanes at four-leg stops",
        FOUR_LEG_STOP,
        &TABLE_19,
        |column, site| turn_lanes(site, TURN_LANES[column]),
        slips,
    )
}

fn table_20() -> Vec<Block> {
    let slips = vec![
        slip(
            1,
            &[14],
            Reason::Told("2.71 for 2.77; 6 percent above 2.63 is more"),
        ),
        slip(
            2,
            &[8],
            Reason::Told("0.74 at 15 degrees is below the report's own 0.76 at 10"),
        ),
    ];
    of_crossings(
        "table 20, skew at four-leg stops",
        FOUR_LEG_STOP,
        &TABLE_20,
        skewed,
        slips,
    )
}

fn table_21() -> Vec<Block> {
    of_crossings(
        "table 21, sight at four-leg stops",
        FOUR_LEG_STOP,
        &TABLE_21,
        limited,
        vec![],
    )
}

fn table_22() -> Vec<Block> {
    let rounding = Reason::Told("1.86496 and 4.04498 are printed as if they were 1.865 and 4.045");
    of_crossings(
        "table 22, turn lanes at signals",
        FOUR_LEG_SIGNAL,
        &TABLE_22,
        |column, site| turn_lanes(site, TURN_LANES[column]),
        vec![slip(0, &[11, 18], rounding)],
    )
}

/// The blocks of a table from 6 to 22.
pub fn table(number: u32) -> Vec<Block> {
    match number {
        6 => table_6(),
        7 => table_7(),
        8 => table_8(),
        9 => table_9(MILE),
        10 => table_10(MILE),
        11 => table_11(),
        12 => table_12(),
        13 => table_13(),
        14 => table_14(),
        15 => table_15(MILE),
        16 => table_16(),
        17 => table_17(),
        18 => table_18(),
        19 => table_19(),
        20 => table_20(),
        21 => table_21(),
        22 => table_22(),
        _ => panic!("no table of crashes: {number}"),
    }
}

/// Tables 9, 10 and 15 with the lengths of 100 feet that their cells show.
pub fn tables_with_their_hundred_feet() -> Vec<Block> {
    let mut blocks = table_9(MILE_OF_TABLE_9);
    blocks.extend(table_10(MILE_OF_TABLES_10_AND_15));
    blocks.extend(table_15(MILE_OF_TABLES_10_AND_15));
    blocks
}

/// A printed factor: what a field's value does to a site.
pub struct Factor {
    pub name: &'static str,
    changed: Site,
    base: Site,
    /// A site of which 0.65, the share of unrelated crashes, is taken from
    /// both: then the ratio is that of the related crashes.
    unrelated: Option<Site>,
    printed: u64,
    unit: u64,
}

impl Factor {
    /// Panics where the ratio of what `crashes` gives does not round to what
    /// is printed.
    pub fn check(&self, crashes: impl Fn(&Site) -> Estimates) {
        let less = self.unrelated.map(|site| {
            let found = crashes(&site);
            let share = Rational::of(65, 100);
            (&share * &found.under, &share * &found.over)
        });
        let related = |site: &Site| {
            let found = crashes(site);
            match &less {
                None => found,
                Some((under, over)) => Estimates {
                    under: &found.under - over,
                    over: &found.over - under,
                },
            }
        };
        let (changed, base) = (related(&self.changed), related(&self.base));
        let ratio = Estimates {
            under: &changed.under * &base.over.reciprocal(),
            over: &changed.over * &base.under.reciprocal(),
        };
        let Factor {
            name,
            printed,
            unit,
            ..
        } = self;
        assert!(prints(&ratio, *printed, *unit), "{name}: {printed}/{unit}");
    }
}

/// Factors of one field, in `unit`ths, with the values that have them.
fn of_field(
    name: &'static str,
    base: Site,
    field: Field,
    unit: u64,
    printed: &[(u16, u64)],
) -> Vec<Factor> {
    let factor = |(value, printed): &(u16, u64)| Factor {
        name,
        changed: base.with(field, *value),
        base,
        unrelated: None,
        printed: *printed,
        unit,
    };
    printed.iter().map(factor).collect()
}

/// Table 3 at the widths that document 01 has: 0, 2, 4, 6 and 8 feet. Its 1, 3
/// and 10 feet are left out: 1 and 3 take the mean of their neighbours here, 10
/// the last column.
fn table_3() -> Vec<Factor> {
    let widths = [0, 2, 4, 6, 8];
    let plain = Site::plain(EDITION_ONE, SEGMENT, 10_000, 20_000);
    let factor = |material: usize, column: usize| {
        let base = plain.with(Field::ShoulderWidth, widths[column]);
        Factor {
            name: "table 3, shoulder type",
            changed: base.with(Field::ShoulderType, material as u16),
            base,
            unrelated: Some(plain),
            printed: TABLE_3[material][column],
            unit: 100,
        }
    };
    let materials = 0..TABLE_3.len();
    materials
        .flat_map(|material| (0..widths.len()).map(move |column| (material, column)))
        .map(|(material, column)| factor(material, column))
        .collect()
}

/// Tables 3, 4 and 5 and the factors that the report's text prints.
pub fn factors() -> Vec<Factor> {
    let segment = Site::plain(EDITION_ONE, SEGMENT, 10_000, 20_000);
    let curve = segment.with_curve(160, 843);
    let crossing = |kind| Site::plain(EDITION_ONE, kind, 10_000, 10_000);
    let (three, four, signal) = (
        crossing(THREE_LEG_STOP),
        crossing(FOUR_LEG_STOP),
        crossing(FOUR_LEG_SIGNAL),
    );
    let left = Field::LeftTurnLanes;
    let right = Field::RightTurnLanes;
    let grades = [(0, 100), (2, 103), (4, 107), (6, 110), (8, 114)];
    let deficiencies = [(20, 106), (30, 109), (40, 112), (50, 115)];
    let passing = [(1, 75), (2, 65)];
    let of_stops = [(1, 950), (2, 900)];
    let of_signals = [(1, 975), (2, 950)];
    let mut factors = table_3();
    for (name, base, field, unit, printed) in [
        ("table 4, grade", segment, Field::Grade, 100, &grades[..]),
        ("table 5, three-leg stop", three, left, 100, &[(1, 78)]),
        (
            "table 5, four-leg stop",
            four,
            left,
            100,
            &[(1, 76), (2, 58)],
        ),
        ("table 5, signal", signal, left, 100, &[(1, 82), (2, 67)]),
        (
            "right-turn lane, three-leg stop",
            three,
            right,
            1_000,
            &of_stops[..1],
        ),
        (
            "right-turn lanes, four-leg stop",
            four,
            right,
            1_000,
            &of_stops,
        ),
        (
            "right-turn lanes, signal",
            signal,
            right,
            1_000,
            &of_signals,
        ),
        (
            "superelevation",
            curve,
            Field::Deficiency,
            100,
            &deficiencies,
        ),
        ("passing", segment, Field::Passing, 100, &passing),
    ] {
        factors.extend(of_field(name, base, field, unit, printed));
    }
    factors
}

/// A site over the nine years of the report's example, in thousandths of a
/// crash. A project has one calibration, so a year is a project, and so are the
/// years of a period, which has one calibration, with their traffic year by
/// year. The sums over the years and over the periods are the report's sum.
pub struct Example {
    pub name: &'static str,
    pub calibrations: [u16; 9],
    /// With the traffic of the nine years.
    pub site: Site,
    pub printed: [u64; 9],
    pub printed_sum: u64,
    /// Predicted and observed crashes of the nine years and the expected ones:
    /// total, fatal and injury, property damage only. The last two take the
    /// same formula, so they count as further figures for it.
    pub expected: [(u64, u16, u64); 3],
}

/// The years of a period.
const PERIOD: usize = 3;

impl Example {
    /// What a model predicts for each year, given calibration and site.
    pub fn years(&self, year: impl Fn(u16, &Site) -> Estimates) -> Vec<Estimates> {
        let years = (1..).zip(self.calibrations);
        years
            .map(|(at, calibration)| year(calibration, &self.site.in_year(at)))
            .collect()
    }

    /// Compares each year and the sum.
    pub fn check(&self, year: impl Fn(u16, &Site) -> Estimates) {
        let years = self.years(year);
        for (index, (found, printed)) in years.iter().zip(self.printed).enumerate() {
            let name = self.name;
            assert!(prints(found, printed, 1_000), "{name}, 19{}", 89 + index);
        }
        self.check_sum(years);
    }

    fn check_sum(&self, parts: Vec<Estimates>) {
        let sum = Estimates::sum(parts);
        assert!(prints(&sum, self.printed_sum, 1_000), "{}, sum", self.name);
    }

    /// The site with the traffic of a period that starts so many years on.
    fn in_period(&self, start: usize) -> Site {
        let years = || (start + 1..=start + PERIOD).map(|year| self.site.in_year(year));
        TRAFFIC_FIELDS.iter().fold(self.site, |site, field| {
            let traffic: Vec<u16> = years().filter_map(|year| year.get(*field)).collect();
            site.with_years(*field, &traffic)
        })
    }

    /// What a model predicts for each period, given its years, calibration and
    /// site, is compared with the sum of its years, and the sum of all.
    pub fn check_periods(&self, predicted: impl Fn(u8, u16, &Site) -> Estimates) {
        let starts = (0..self.printed.len()).step_by(PERIOD);
        let periods = starts.map(|start| {
            let (years, calibration) = (start..start + PERIOD, self.calibrations[start]);
            assert_eq!(self.calibrations[years.clone()], [calibration; PERIOD]);
            let found = predicted(PERIOD as u8, calibration, &self.in_period(start));
            let is_printed = prints_parts(&found, &self.printed[years], 1_000);
            assert!(is_printed, "{}, from 19{}", self.name, 89 + start);
            found
        });
        self.check_sum(periods.collect());
    }
}

const SEGMENT_CALIBRATIONS: [u16; 9] = [1_010, 1_010, 1_010, 980, 980, 980, 1_050, 1_050, 1_050];
const CROSSING_CALIBRATIONS: [u16; 9] = [1_030, 1_030, 1_030, 960, 960, 960, 1_040, 1_040, 1_040];
const FIRST_TRAFFIC: [u16; 9] = [
    2_000, 1_800, 1_800, 1_900, 2_000, 2_100, 2_200, 2_300, 2_200,
];
const SECOND_TRAFFIC: [u16; 9] = [700, 600, 600, 650, 900, 1_000, 1_100, 1_200, 1_250];
const MINOR_TRAFFIC: [u16; 9] = [500, 550, 550, 530, 550, 580, 600, 620, 600];

/// Table 24. The report does not give the segment's geometry. Its cells bear
/// on one factor common to all years, here put in as a curve of that size.
pub fn table_24() -> Example {
    let site = Site::plain(EDITION_ONE, SEGMENT, 1, 1_000).with_curve(1_000, 3_214);
    Example {
        name: "table 24",
        calibrations: SEGMENT_CALIBRATIONS,
        site: site.with_years(Field::Traffic, &FIRST_TRAFFIC),
        printed: [461, 415, 415, 425, 447, 469, 527, 551, 527],
        printed_sum: 4_234,
        expected: [(4_234, 6, 5_236), (1_359, 6, 2_735), (2_875, 0, 1_520)],
    }
}

/// Table 25, as table 24.
pub fn table_25() -> Example {
    let site = Site::plain(EDITION_ONE, SEGMENT, 1, 5_000).with_curve(999, 421);
    Example {
        name: "table 25",
        calibrations: SEGMENT_CALIBRATIONS,
        site: site.with_years(Field::Traffic, &SECOND_TRAFFIC),
        printed: [891, 764, 764, 803, 1_111, 1_235, 1_455, 1_588, 1_654],
        printed_sum: 10_263,
        expected: [(10_263, 14, 13_106), (3_295, 6, 4_662), (6_969, 8, 7_674)],
    }
}

/// Table 27. The cells show a factor of 1.05, which is one quadrant with
/// limited sight.
pub fn table_27() -> Example {
    let site = Site::plain(EDITION_ONE, FOUR_LEG_STOP, 1, 1).with(Field::LimitedQuadrants, 1);
    Example {
        name: "table 27",
        calibrations: CROSSING_CALIBRATIONS,
        site: site
            .with_years(Field::Traffic, &FIRST_TRAFFIC)
            .with_years(Field::MinorTraffic, &MINOR_TRAFFIC),
        printed: [402, 400, 400, 377, 398, 423, 481, 504, 481],
        printed_sum: 3_866,
        expected: [(3_866, 3, 3_449), (1_241, 2, 1_415), (2_625, 1, 1_997)],
    }
}

pub fn examples() -> [Example; 3] {
    [table_24(), table_25(), table_27()]
}
