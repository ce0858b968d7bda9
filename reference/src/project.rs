//! The project file: header and records, with document 01's refusals in
//! their order, and those of document 02's writer.

use crate::model::Model;
use crate::record::{cause, read_site, write_site, Refusal, Site, LONGEST_RECORD};
use crate::rules::{
    edition_within, years_within, LAST_EDITION, MOST_CALIBRATION, MOST_SITES, MOST_YEARS,
};

/// Bytes of the header.
pub const HEADER: usize = 8;

/// The longest project file: the header and the most sites, each at its longest.
pub const LONGEST_FILE: usize = HEADER + MOST_SITES * LONGEST_RECORD;

/// The header's values apart from the count of sites.
#[derive(Clone, Copy, Debug, PartialEq, Eq)]
pub struct Header {
    pub edition: u8,
    pub years: u8,
    /// Calibrations in thousandths.
    pub segment_calibration: u16,
    pub crossing_calibration: u16,
}

impl Header {
    /// The greatest of a header's numbers; the least are 1.
    pub const MOST: [u64; 4] = [
        LAST_EDITION as u64,
        MOST_YEARS as u64,
        MOST_CALIBRATION as u64,
        MOST_CALIBRATION as u64,
    ];

    /// Edition, years, segment calibration and crossing calibration, as a writer
    /// takes them.
    pub fn numbers(&self) -> [u64; 4] {
        [
            self.edition.into(),
            self.years.into(),
            self.segment_calibration.into(),
            self.crossing_calibration.into(),
        ]
    }

    /// The model of the header's edition. Panics for an edition that there is
    /// not.
    pub fn model(&self) -> &'static Model {
        Model::of_edition(self.edition)
    }

    /// The site and the length of the record that a part starts with, in a
    /// project of this header.
    pub fn read_site(&self, part: &[u8]) -> Result<(Site, usize), u8> {
        read_site(self.edition.into(), self.years.into(), part)
    }

    /// The record of a site in a project of this header.
    pub fn write_site(&self, site: &Site) -> Result<Vec<u8>, u8> {
        write_site(self.edition.into(), self.years.into(), site, usize::MAX)
    }
}

#[derive(Clone, Debug, PartialEq, Eq)]
pub struct Project {
    pub header: Header,
    pub sites: Vec<Site>,
}

impl Project {
    /// Numbers in the report: four for each site and four totals.
    pub fn report_length(&self) -> usize {
        4 * (self.sites.len() + 1)
    }
}

fn refuse<T>(number: u8, place: usize) -> Result<T, Refusal> {
    Err(Refusal::of(number, place))
}

fn limits_kept(header: &Header, sites: usize) -> bool {
    let calibrated = |value| (1..=MOST_CALIBRATION).contains(&value);
    years_within(header.years.into()).is_some()
        && calibrated(header.segment_calibration)
        && calibrated(header.crossing_calibration)
        && sites <= MOST_SITES
}

/// Reads the header and the count of sites: refusals 1, 3 and 4.
fn read_header(file: &[u8]) -> Result<(Header, usize), Refusal> {
    if file.len() < HEADER {
        return refuse(cause::RUNS_PAST_END, 0);
    }
    let number = |at: usize| u16::from_be_bytes([file[at], file[at + 1]]);
    let header = Header {
        edition: file[0],
        years: file[1],
        segment_calibration: number(2),
        crossing_calibration: number(4),
    };
    let sites = usize::from(number(6));
    if edition_within(header.edition.into()).is_none() {
        return refuse(cause::EDITION, 0);
    }
    if !limits_kept(&header, sites) {
        return refuse(cause::HEADER_LIMITS, 0);
    }
    Ok((header, sites))
}

/// Reads a project file whose report has space: refusals 1 to 9.
pub fn parse_project(file: &[u8]) -> Result<Project, Refusal> {
    let (header, count) = read_header(file)?;
    let mut sites = Vec::with_capacity(count);
    let mut at = HEADER;
    for _ in 0..count {
        let read = header.read_site(&file[at..]);
        let (site, length) = read.map_err(|number| Refusal::of(number, at))?;
        sites.push(site);
        at += length;
    }
    if at < file.len() {
        return refuse(cause::BYTES_AFTER, at);
    }
    Ok(Project { header, sites })
}

/// Reads a project file for a report of `room` numbers: refusals 1 to 10.
pub fn read_project(file: &[u8], room: usize) -> Result<Project, Refusal> {
    let project = parse_project(file)?;
    if room < project.report_length() {
        return refuse(cause::TOO_SHORT, 0);
    }
    Ok(project)
}

/// The header's bytes, unchecked.
pub fn encode_header(header: &Header, sites: u16) -> Vec<u8> {
    let mut file = vec![header.edition, header.years];
    file.extend(header.segment_calibration.to_be_bytes());
    file.extend(header.crossing_calibration.to_be_bytes());
    file.extend(sites.to_be_bytes());
    file
}

/// The header of these numbers, where it and so many sites keep the limits of
/// their edition, which there is.
fn header_within(edition: u8, numbers: [u64; 3], sites: usize) -> Option<Header> {
    let [years, segments, crossings] = numbers;
    let header = Header {
        edition,
        years: years.try_into().ok()?,
        segment_calibration: segments.try_into().ok()?,
        crossing_calibration: crossings.try_into().ok()?,
    };
    limits_kept(&header, sites).then_some(header)
}

/// Writes the file of a header's numbers and a list of sites, for a buffer of
/// `room` bytes: 3 at place 0 for the edition, then 4 at 0 for the rest of the
/// header and the count of sites, then 8 at the index of the first site that the
/// site writer refuses, then 10 at 0.
pub fn write_file(header: [u64; 4], sites: &[Site], room: usize) -> Result<Vec<u8>, Refusal> {
    let [edition, numbers @ ..] = header;
    let Some(edition) = edition_within(edition) else {
        return refuse(cause::EDITION, 0);
    };
    let Some(header) = header_within(edition, numbers, sites.len()) else {
        return refuse(cause::HEADER_LIMITS, 0);
    };
    let mut file = encode_header(&header, sites.len() as u16);
    for (index, site) in sites.iter().enumerate() {
        let record = header.write_site(site);
        file.extend(record.map_err(|number| Refusal::of(number, index))?);
    }
    if room < file.len() {
        return refuse(cause::TOO_SHORT, 0);
    }
    Ok(file)
}

/// Writes a project's file with the room that it needs.
pub fn write_project(project: &Project) -> Result<Vec<u8>, Refusal> {
    write_file(project.header.numbers(), &project.sites, usize::MAX)
}
