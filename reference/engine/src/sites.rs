//! The site reader and the site writer.

use reference::record::Site;
use reference::rules::{Field, LATER_YEARS, TRAFFIC_FIELDS};

extern "C" {
    fn crash_site_read(
        edition: u64,
        years: u64,
        part: *const u8,
        part_len: usize,
        values: *mut u64,
        values_len: usize,
    ) -> u64;
    fn crash_site_write(
        edition: u64,
        years: u64,
        values: *const u64,
        values_len: usize,
        buffer: *mut u8,
        buffer_len: usize,
        written: *mut u64,
    ) -> u64;
}

/// The order of a site's slots after its kind; the later years of each traffic
/// follow.
const SLOTS: [Field; 20] = [
    Field::Traffic,
    Field::Length,
    Field::MinorTraffic,
    Field::Observed,
    Field::LaneWidth,
    Field::ShoulderWidth,
    Field::ShoulderType,
    Field::CurveLength,
    Field::Radius,
    Field::SpiralEnds,
    Field::Deficiency,
    Field::Grade,
    Field::Driveways,
    Field::TwoWayLane,
    Field::Passing,
    Field::HazardRating,
    Field::Skew,
    Field::LeftTurnLanes,
    Field::RightTurnLanes,
    Field::LimitedQuadrants,
];

/// The numbers of a site.
pub const SITE_NUMBERS: usize = 1 + SLOTS.len() + TRAFFIC_FIELDS.len() * LATER_YEARS;

/// Those that the reader leaves: the record's length follows the site.
pub const READ_NUMBERS: usize = SITE_NUMBERS + 1;

/// What an absent slot is coded as.
const ABSENT: u64 = 65_536;

/// What a call must leave where it writes nothing.
const UNTOUCHED: u8 = 0xA5;

/// A site as the engine's run of numbers: the kind, its slots, its later years.
pub fn numbers_of(site: &Site) -> [u64; SITE_NUMBERS] {
    let mut numbers = [u64::from(site.kind); SITE_NUMBERS];
    let slots = SLOTS.into_iter().map(|field| site.get(field));
    let later = TRAFFIC_FIELDS.iter().flat_map(|field| site.later(*field));
    for (number, value) in numbers[1..].iter_mut().zip(slots.chain(later.copied())) {
        *number = value.map_or(ABSENT, u64::from);
    }
    numbers
}

/// A list of sites as one run of numbers.
pub fn run_of(sites: &[Site]) -> Vec<u64> {
    sites.iter().flat_map(numbers_of).collect()
}

fn site_of(numbers: &[u64]) -> Site {
    let mut site = Site::empty(numbers[0] as u8);
    let value = |number: &u64| u16::try_from(*number).ok();
    let (slots, later) = numbers[1..].split_at(SLOTS.len());
    for (number, field) in slots.iter().zip(SLOTS) {
        site.set(field, value(number));
    }
    for (numbers, field) in later.chunks(LATER_YEARS).zip(TRAFFIC_FIELDS) {
        for (year, number) in (2..).zip(numbers) {
            site.set_later(field, year, value(number));
        }
    }
    site
}

/// The number of the reader's call, which writes to the start of `values`.
pub fn read_into(edition: u64, years: u64, part: &[u8], values: &mut [u64]) -> u64 {
    // SAFETY: each pointer and length are those of one slice.
    unsafe {
        crash_site_read(
            edition,
            years,
            part.as_ptr(),
            part.len(),
            values.as_mut_ptr(),
            values.len(),
        )
    }
}

/// The site and the record's length, or the number of the refusal.
pub fn read_site(edition: u64, years: u64, part: &[u8]) -> Result<(Site, usize), u8> {
    const UNTOUCHED: [u64; READ_NUMBERS + 1] = [u64::MAX; READ_NUMBERS + 1];
    let mut values = UNTOUCHED;
    let number = read_into(edition, years, part, &mut values);
    assert_eq!(values[READ_NUMBERS], u64::MAX, "the rest stays as it was");
    if number == 0 {
        let (site, length) = values.split_at(SITE_NUMBERS);
        return Ok((site_of(site), length[0] as usize));
    }
    assert_eq!(values, UNTOUCHED, "a refusal writes nothing");
    Err(number as u8)
}

/// The record of a run of numbers in a buffer of `room` bytes.
pub fn write_numbers(
    edition: u64,
    years: u64,
    numbers: &[u64],
    room: usize,
) -> Result<Vec<u8>, u8> {
    let mut buffer = vec![UNTOUCHED; room];
    let mut written = u64::MAX;
    // SAFETY: each pointer and length are those of one slice, and `written`
    // is one number.
    let number = unsafe {
        crash_site_write(
            edition,
            years,
            numbers.as_ptr(),
            numbers.len(),
            buffer.as_mut_ptr(),
            buffer.len(),
            &mut written,
        )
    };
    let kept = if number == 0 { written as usize } else { 0 };
    assert!(buffer[kept..].iter().all(|byte| *byte == UNTOUCHED));
    if number == 0 {
        buffer.truncate(kept);
        return Ok(buffer);
    }
    assert_eq!(written, u64::MAX, "a refusal writes nothing");
    Err(number as u8)
}

/// The record of a site in a buffer of `room` bytes.
pub fn write_site(edition: u64, years: u64, site: &Site, room: usize) -> Result<Vec<u8>, u8> {
    write_numbers(edition, years, &numbers_of(site), room)
}
