//! Seeded projects of both editions, plain and extreme, and damaged sites and
//! files made from them.

use crate::project::{encode_header, write_project, Header, Project};
use crate::record::{encode_record, values_of, Site, RECORD_HEAD};
use crate::rules::{
    rules, Field, Presence, Rule, EDITIONS, FIELD_NAMES, FOUR_LEG_STOP, KIND_NAMES, LAST_EDITION,
    LATER_YEARS, MOST_CALIBRATION, MOST_SITES, MOST_YEARS, SEGMENT, THREE_LEG_STOP, TRAFFIC_FIELDS,
    YEARLY_BIT,
};

/// A small generator of numbers (splitmix64): the same seed, the same run.
#[derive(Clone, Debug)]
pub struct Random {
    state: u64,
}

impl Random {
    pub fn new(seed: u64) -> Random {
        Random { state: seed }
    }

    pub fn next(&mut self) -> u64 {
        self.state = self.state.wrapping_add(0x9E37_79B9_7F4A_7C15);
        let mut z = self.state;
        z = (z ^ z >> 30).wrapping_mul(0xBF58_476D_1CE4_E5B9);
        z = (z ^ z >> 27).wrapping_mul(0x94D0_49BB_1331_11EB);
        z ^ z >> 31
    }

    /// A number below `bound`, which is above 0.
    pub fn below(&mut self, bound: usize) -> usize {
        (self.next() % bound as u64) as usize
    }

    /// True once in `times`.
    pub fn once_in(&mut self, times: usize) -> bool {
        self.below(times) == 0
    }

    pub fn pick<T: Copy>(&mut self, items: &[T]) -> T {
        items[self.below(items.len())]
    }

    pub fn between(&mut self, low: u16, high: u16) -> u16 {
        low + self.below(usize::from(high - low) + 1) as u16
    }
}

/// Traffic where the model's cases meet: the stored powers end at 256, the
/// width tables turn at 400 and 2,000.
const TRAFFIC_EDGES: [u16; 12] = [
    1, 2, 255, 256, 257, 399, 400, 401, 1_999, 2_000, 2_001, 20_000,
];

/// A value in a rule's range, often at an edge.
fn value(random: &mut Random, rule: &Rule) -> u16 {
    match random.below(4) {
        0 if rule.is_traffic() => random.pick(&TRAFFIC_EDGES),
        0 => random.pick(&[rule.low, rule.high]),
        1 => {
            let step = random.between(0, 2).min(rule.high - rule.low);
            random.pick(&[rule.low + step, rule.high - step])
        }
        _ => random.between(rule.low, rule.high),
    }
}

/// A site that the writer accepts for an edition and so many years, half of them
/// with traffic year by year where there is a second year.
pub fn site(random: &mut Random, edition: u8, years: u8) -> Site {
    let site = plain_site(random, edition);
    if random.once_in(2) {
        yearly(random, site, years)
    } else {
        site
    }
}

/// A site that the writer accepts for an edition and any years.
pub fn plain_site(random: &mut Random, edition: u8) -> Site {
    let kind = random.below(KIND_NAMES.len()) as u8;
    let curve = random.once_in(2);
    site_of(random, edition, kind, curve)
}

pub fn sites(random: &mut Random, edition: u8, years: u8, count: usize) -> Vec<Site> {
    (0..count).map(|_| site(random, edition, years)).collect()
}

pub fn plain_sites(random: &mut Random, edition: u8, count: usize) -> Vec<Site> {
    (0..count).map(|_| plain_site(random, edition)).collect()
}

/// The rules of a kind's traffic, which every edition has.
fn traffic_rules(kind: u8) -> impl Iterator<Item = &'static Rule> {
    let table = rules(EDITIONS[0], kind).unwrap_or(&[]).iter();
    table.filter(|rule| rule.is_traffic())
}

/// One of a kind's traffics.
fn traffic_rule(random: &mut Random, kind: u8) -> Rule {
    *random.pick(&traffic_rules(kind).collect::<Vec<_>>())
}

/// The same site with a traffic of its own in each later year.
pub fn yearly(random: &mut Random, mut site: Site, years: u8) -> Site {
    for rule in traffic_rules(site.kind) {
        for year in 2..=usize::from(years) {
            let drawn = value(random, rule);
            site.set_later(rule.field, year, Some(drawn));
        }
    }
    site
}

/// A site of a kind, on a curve or straight.
fn site_of(random: &mut Random, edition: u8, kind: u8, curve: bool) -> Site {
    let mut site = Site::empty(kind);
    let history = random.once_in(2);
    // Some sites are plain, some have every field, most are mixed.
    let share = random.pick(&[1, 2, 2, 3, 1_000]);
    for rule in rules(edition, kind).unwrap_or(&[]) {
        let spelled = random.once_in(share);
        let drawn = value(random, rule);
        let chosen = match rule.presence {
            Presence::Needed => Some(drawn),
            Presence::History => history.then_some(drawn),
            Presence::Curve => curve.then_some(drawn),
            Presence::Default(default) => Some(if spelled { drawn } else { default }),
            Presence::CurveDefault(default) => {
                curve.then_some(if spelled { drawn } else { default })
            }
        };
        site.set(rule.field, chosen);
    }
    site
}

/// A site with some slots replaced, emptied or filled, which the writer may
/// refuse.
pub fn disturbed_site(random: &mut Random, edition: u8, years: u8) -> Site {
    let mut site = site(random, edition, years);
    for _ in 0..random.below(3) {
        let value = match random.below(4) {
            0 => None,
            1 => Some(random.next() as u16),
            _ => Some(random.between(0, 20)),
        };
        if random.once_in(4) {
            let year = 2 + random.below(LATER_YEARS);
            site.set_later(random.pick(&TRAFFIC_FIELDS), year, value);
        } else {
            site.set(random.pick(&FIELD_NAMES).0, value);
        }
    }
    if random.once_in(20) {
        site.kind = random.next() as u8;
    }
    site
}

/// The ways in which the writer finds one thing of a site outside its range.
#[derive(Clone, Copy, Debug, PartialEq, Eq)]
pub enum Damage {
    Kind,
    /// A value outside its field's range.
    Value,
    /// A field of the kind without its value.
    Missing,
    HalfCurve,
    /// A spiral or a deficiency on a straight road.
    PartOfCurve,
    /// A value that the kind lacks.
    Foreign,
    /// A stop crossing as another edition has it: with limited quadrants, be it
    /// none of them, or without their number.
    OtherEdition,
    /// The later years of a project with other years, also of one with one year.
    OtherYears,
    /// A year that is not given before one that is.
    SkippedYear,
    /// A later year's value outside its range.
    LaterValue,
    /// A crossing whose one traffic has later years, and the other has not.
    OneTraffic,
    /// Later years of a traffic that a segment lacks.
    ForeignYears,
}

pub const DAMAGES: [Damage; 12] = [
    Damage::Kind,
    Damage::Value,
    Damage::Missing,
    Damage::HalfCurve,
    Damage::PartOfCurve,
    Damage::Foreign,
    Damage::OtherEdition,
    Damage::OtherYears,
    Damage::SkippedYear,
    Damage::LaterValue,
    Damage::OneTraffic,
    Damage::ForeignYears,
];

/// Kinds that there are not.
const NO_KINDS: [u8; 5] = [4, 5, 6, 128, 255];

/// An edition that is not this one.
fn other_edition(random: &mut Random, edition: u8) -> u8 {
    let others = EDITIONS.into_iter().filter(|other| *other != edition);
    random.pick(&others.collect::<Vec<_>>())
}

/// A site that the writer refuses for this damage alone.
pub fn damaged_site(random: &mut Random, edition: u8, years: u8, damage: Damage) -> Site {
    let mut site = match damage {
        Damage::HalfCurve => site_of(random, edition, SEGMENT, true),
        Damage::PartOfCurve | Damage::ForeignYears => site_of(random, edition, SEGMENT, false),
        Damage::OneTraffic => {
            let kind = random.between(1, KIND_NAMES.len() as u16 - 1) as u8;
            site_of(random, edition, kind, false)
        }
        Damage::OtherEdition => {
            let kind = random.pick(&[THREE_LEG_STOP, FOUR_LEG_STOP]);
            let other = other_edition(random, edition);
            site_of(random, other, kind, false)
        }
        Damage::OtherYears | Damage::SkippedYear | Damage::LaterValue => {
            plain_site(random, edition)
        }
        _ => site(random, edition, years),
    };
    let table = rules(edition, site.kind).unwrap_or(&[]);
    damage_site(random, years, table, &mut site, damage);
    site
}

fn damage_site(random: &mut Random, years: u8, table: &[Rule], site: &mut Site, damage: Damage) {
    let curve = site.is_curve();
    let is_asked = |rule: &Rule| curve || !rule.is_of_curve();
    let may_lack = |rule: &Rule| matches!(rule.presence, Presence::History | Presence::Curve);
    let is_part = |rule: &Rule| matches!(rule.presence, Presence::CurveDefault(_));
    match damage {
        Damage::Kind => site.kind = random.pick(&NO_KINDS),
        Damage::Value => {
            let rule = pick_rule(random, table, is_asked);
            site.set(rule.field, Some(outside(random, &rule)));
        }
        Damage::Missing => {
            let rule = pick_rule(random, table, |rule| is_asked(rule) && !may_lack(rule));
            site.set(rule.field, None);
        }
        Damage::HalfCurve => site.set(random.pick(&[Field::CurveLength, Field::Radius]), None),
        Damage::PartOfCurve => {
            let rule = pick_rule(random, table, is_part);
            site.set(rule.field, Some(value(random, &rule)));
        }
        Damage::Foreign => {
            let field = foreign_field(random, table);
            site.set(field, Some(random.between(0, 20)));
        }
        // It was made so.
        Damage::OtherEdition => {}
        _ => damage_years(random, years, site, damage),
    }
}

/// Gives a plain site later years that the writer refuses, whatever the years.
fn damage_years(random: &mut Random, years: u8, site: &mut Site, damage: Damage) {
    let traffic = traffic_rule(random, site.kind);
    match damage {
        Damage::OtherYears => {
            let others: Vec<u8> = (2..=MOST_YEARS).filter(|other| *other != years).collect();
            let other = random.pick(&others);
            *site = yearly(random, *site, other);
        }
        Damage::SkippedYear => {
            *site = yearly(random, *site, years.max(3));
            site.set_later(traffic.field, 2, None);
        }
        Damage::LaterValue => {
            let years = years.max(2);
            *site = yearly(random, *site, years);
            let year = random.between(2, years.into()).into();
            site.set_later(traffic.field, year, Some(outside(random, &traffic)));
        }
        Damage::OneTraffic => {
            *site = yearly(random, *site, years.max(2));
            for year in 2..=usize::from(years.max(2)) {
                site.set_later(traffic.field, year, None);
            }
        }
        // Beside the segment's own later years or alone.
        _ => {
            if random.once_in(2) {
                *site = yearly(random, *site, years);
            }
            for year in 2..=usize::from(years.max(2)) {
                site.set_later(Field::MinorTraffic, year, Some(random.between(1, 20)));
            }
        }
    }
}

/// One of the rules that a test chooses, of which there are some.
fn pick_rule(random: &mut Random, table: &[Rule], is_chosen: impl Fn(&Rule) -> bool) -> Rule {
    let chosen: Vec<Rule> = table.iter().copied().filter(is_chosen).collect();
    random.pick(&chosen)
}

/// A field that a kind's rules lack.
fn foreign_field(random: &mut Random, table: &[Rule]) -> Field {
    let is_foreign = |field: &Field| table.iter().all(|rule| rule.field != *field);
    let fields = FIELD_NAMES.iter().map(|(field, _)| *field);
    random.pick(&fields.filter(is_foreign).collect::<Vec<_>>())
}

/// A header within the limits, often at an edge.
pub fn header(random: &mut Random) -> Header {
    let calibration = |random: &mut Random| match random.below(3) {
        0 => random.pick(&[1, 2, 1_000, MOST_CALIBRATION - 1, MOST_CALIBRATION]),
        _ => random.between(1, MOST_CALIBRATION),
    };
    Header {
        edition: random.pick(&EDITIONS),
        years: random.between(1, u16::from(MOST_YEARS)) as u8,
        segment_calibration: calibration(random),
        crossing_calibration: calibration(random),
    }
}

/// Numbers at a limit and beyond, also those that a shorter number would be
/// taken for.
pub fn edges(most: u64) -> Vec<u64> {
    let wide = [1 << 8, 1 << 16, 1 << 32, 1 << 63].map(|high| high + 1);
    let near = [0, 1, 2, most - 1, most, most + 1, 255, 65_535, u64::MAX];
    near.into_iter().chain(wide).collect()
}

/// A project with this many sites. A third of the projects have traffic year
/// by year.
pub fn project_of(random: &mut Random, count: usize) -> Project {
    let header = header(random);
    let sites = if random.once_in(3) {
        sites(random, header.edition, header.years, count)
    } else {
        plain_sites(random, header.edition, count)
    };
    Project { header, sites }
}

/// A project, most often small.
pub fn project(random: &mut Random) -> Project {
    let sites = match random.below(200) {
        0 => random.below(120),
        1..=9 => random.below(20),
        _ => random.below(7),
    };
    project_of(random, sites)
}

/// A project of the largest size.
pub fn largest_project(random: &mut Random) -> Project {
    project_of(random, MOST_SITES)
}

/// A project of so many sites, two at least, of which a fifth, rounded up, are
/// equal to others of it.
pub fn repeating_project(random: &mut Random, count: usize) -> Project {
    let repeats = count.div_ceil(5);
    let mut project = project_of(random, count - repeats);
    let sites = &mut project.sites;
    for _ in 0..repeats {
        let site = sites[random.below(sites.len())];
        sites.insert(random.below(sites.len() + 1), site);
    }
    project
}

/// A random order of so many places: where each goes.
pub fn order(random: &mut Random, count: usize) -> Vec<usize> {
    let mut images: Vec<usize> = (0..count).collect();
    for last in (1..count).rev() {
        images.swap(last, random.below(last + 1));
    }
    images
}

/// The records of a project, one list of bytes each.
fn records(project: &Project) -> Vec<Vec<u8>> {
    let sites = project.sites.iter();
    sites.map(|site| record(&project.header, site)).collect()
}

fn record(header: &Header, site: &Site) -> Vec<u8> {
    let record = header.write_site(site);
    record.expect("a site that the writer takes")
}

fn assemble(header: &Header, count: u16, records: &[Vec<u8>]) -> Vec<u8> {
    let mut file = encode_header(header, count);
    file.extend(records.iter().flatten());
    file
}

/// A record taken apart, free to be made wrong: the values of each field
/// whose bit is set, more than one where a traffic has later years.
struct RawRecord {
    kind: u8,
    map: u16,
    fields: Vec<Vec<u16>>,
}

impl RawRecord {
    /// A record that the writer made for this header.
    fn of(record: &[u8], header: &Header) -> RawRecord {
        let (kind, map) = (record[0], u16::from_be_bytes([record[1], record[2]]));
        let words = record[RECORD_HEAD..].chunks(2);
        let mut values = words.map(|word| u16::from_be_bytes([word[0], word[1]]));
        let table = rules(header.edition, kind).unwrap_or(&[]).iter();
        let set = table.filter(|rule| map >> rule.bit & 1 == 1);
        let fields = set.map(|rule| {
            let count = values_of(map, header.years, rule);
            values.by_ref().take(count).collect()
        });
        let fields = fields.collect();
        RawRecord { kind, map, fields }
    }

    fn encode(&self) -> Vec<u8> {
        encode_record(self.kind, self.map, &self.fields.concat())
    }

    /// The fields before a bit's own.
    fn position(&self, bit: u32) -> usize {
        (self.map & ((1 << bit) - 1)).count_ones() as usize
    }

    /// Sets a bit with this value.
    fn put(&mut self, bit: u32, value: u16) {
        let at = self.position(bit);
        if self.map >> bit & 1 == 0 {
            self.map |= 1 << bit;
            self.fields.insert(at, vec![value]);
        } else if let Some(values) = self.fields.get_mut(at) {
            values[0] = value;
        }
    }

    /// Takes a bit and its values away.
    fn take(&mut self, bit: u32) {
        let at = self.position(bit);
        if self.map >> bit & 1 == 1 && at < self.fields.len() {
            self.fields.remove(at);
        }
        self.map &= !(1 << bit);
    }

    /// Gives each traffic a value for each year.
    fn make_yearly(&mut self, random: &mut Random, years: u8) {
        self.map |= 1 << YEARLY_BIT;
        for rule in traffic_rules(self.kind) {
            let at = self.position(rule.bit);
            self.fields[at].resize_with(years.into(), || value(random, rule));
        }
    }
}

/// A value outside a rule's range, often just outside.
fn outside(random: &mut Random, rule: &Rule) -> u16 {
    if rule.low > 0 && random.once_in(2) {
        random.pick(&[0, rule.low - 1])
    } else {
        let far = random.between(rule.high + 1, u16::MAX);
        random.pick(&[rule.high + 1, far])
    }
}

/// Makes one record wrong in its kind, its map, a field or its later years.
fn damage_record(random: &mut Random, header: &Header, record: &[u8]) -> Vec<u8> {
    let mut raw = RawRecord::of(record, header);
    let rules = rules(header.edition, raw.kind).unwrap_or(&[]);
    let rule = random.pick(rules);
    match random.below(11) {
        0 => raw.kind = random.pick(&NO_KINDS),
        1 => raw.kind = random.below(4) as u8,
        2 => {
            let drawn = random.next() as u16;
            raw.put(random.below(16) as u32, drawn);
        }
        3 => raw.take(random.below(16) as u32),
        4 => raw.map ^= 1 << random.below(16),
        5 => raw.put(rule.bit, outside(random, &rule)),
        6 | 7 => damage_later(random, &mut raw, header.years),
        8 => put_lacking_bit(random, &mut raw, rules),
        _ => spell_default(random, &mut raw, rules),
    }
    raw.encode()
}

/// Sets a bit that the kind lacks, where there is one: of the lowest two,
/// which another edition or kind has, with a value that it takes.
fn put_lacking_bit(random: &mut Random, raw: &mut RawRecord, rules: &[Rule]) {
    let is_lacking = |bit: &u32| rules.iter().all(|rule| rule.bit != *bit);
    let lacking: Vec<u32> = (0..YEARLY_BIT).filter(is_lacking).collect();
    if !lacking.is_empty() {
        let small = random.between(1, 2);
        raw.put(random.pick(&lacking[..lacking.len().min(2)]), small);
    }
}

/// Gives a record later years with one too few or too many of a traffic, or a
/// year outside its range. In a project of one year any are wrong.
fn damage_later(random: &mut Random, raw: &mut RawRecord, years: u8) {
    raw.make_yearly(random, years);
    let rule = traffic_rule(random, raw.kind);
    let at = raw.position(rule.bit);
    let values = &mut raw.fields[at];
    match random.below(4) {
        0 => values.truncate(values.len() - 1),
        1 => values.push(value(random, &rule)),
        _ => {
            let year = random.below(values.len());
            values[year] = outside(random, &rule);
        }
    }
}

/// Writes out the default of one field.
fn spell_default(random: &mut Random, raw: &mut RawRecord, rules: &[Rule]) {
    let spell = |rule: &Rule| rule.default().map(|default| (rule.bit, default));
    let defaults: Vec<(u32, u16)> = rules.iter().filter_map(spell).collect();
    let (bit, default) = random.pick(&defaults);
    raw.put(bit, default);
}

/// Makes the header wrong, most often in one number.
fn damage_header(random: &mut Random, file: &mut [u8]) {
    let zero_or_above = [0, MOST_CALIBRATION + 1, 65_535];
    let (at, bytes) = match random.below(5) {
        // Another edition takes the file where it takes each record.
        0 => {
            let other = other_edition(random, file[0]);
            (0, vec![random.pick(&[0, LAST_EDITION + 1, 255, other])])
        }
        1 => (1, vec![random.pick(&[0, MOST_YEARS + 1, 255])]),
        2 => (2, random.pick(&zero_or_above).to_be_bytes().to_vec()),
        3 => (4, random.pick(&zero_or_above).to_be_bytes().to_vec()),
        _ => {
            let sites = [MOST_SITES + 1, 65_535, MOST_SITES, 1, 0];
            let count = u16::try_from(random.pick(&sites)).expect("a count of two bytes");
            (6, count.to_be_bytes().to_vec())
        }
    };
    file[at..at + bytes.len()].copy_from_slice(&bytes);
}

fn flip_bits(random: &mut Random, file: &mut [u8]) {
    for _ in 0..1 + random.below(3) {
        let at = random.below(file.len());
        file[at] ^= 1 << random.below(8);
    }
}

/// A file that damage was done to. Now and then it is still a project, as when
/// a flipped bit leaves a value in its range.
pub fn damaged_file(random: &mut Random) -> Vec<u8> {
    let project = project(random);
    let mut file = write_project(&project).expect("a project that the writer takes");
    match random.below(10) {
        0 => flip_bits(random, &mut file),
        1 => file.truncate(random.below(file.len())),
        2 => {
            let extra = 1 + random.below(6);
            file.extend((0..extra).map(|_| random.next() as u8));
        }
        3 => damage_header(random, &mut file),
        4 => {
            let off = random.pick(&[1, u16::MAX]);
            let count = (project.sites.len() as u16).wrapping_add(off);
            file[6..8].copy_from_slice(&count.to_be_bytes());
        }
        _ => file = with_damaged_records(random, &project),
    }
    file
}

/// The project's file with one record, or rarely two, made wrong.
fn with_damaged_records(random: &mut Random, project: &Project) -> Vec<u8> {
    let header = &project.header;
    let mut records = records(project);
    if records.is_empty() {
        let site = site(random, header.edition, header.years);
        records = vec![record(header, &site)];
    }
    let first = random.below(records.len());
    records[first] = damage_record(random, header, &records[first]);
    if records.len() > 1 && random.once_in(4) {
        let second = (first + 1) % records.len();
        records[second] = damage_record(random, header, &records[second]);
    }
    let mut file = assemble(header, records.len() as u16, &records);
    if random.once_in(8) {
        file.truncate(random.below(file.len()));
    }
    file
}
