//! The writer of whole project files: accepted files come back from their
//! header and sites, what is written is read as the same sites, and refusals
//! come in their order with their places.

use reference::generate::{
    damaged_file, damaged_site, edges, header, largest_project, project, project_of, sites, Random,
    DAMAGES,
};
use reference::project::{parse_project, write_file, write_project, Header, HEADER, LONGEST_FILE};
use reference::record::{write_site, Refusal, Site};
use reference::rules::{Field, EDITIONS, EDITION_ONE, KIND_NAMES, MOST_SITES, MOST_YEARS};

/// A header's numbers within their limits.
fn within(edition: u8) -> [u64; 4] {
    [edition.into(), YEARS.into(), 1_100, 900]
}

const YEARS: u8 = 5;

const NO_EDITION: Refusal = Refusal::of(3, 0);
const OUTSIDE_LIMITS: Refusal = Refusal::of(4, 0);
const TOO_SHORT: Refusal = Refusal::of(10, 0);

/// The file of header numbers and sites, which there is space for.
fn written(header: [u64; 4], sites: &[Site]) -> Vec<u8> {
    write_file(header, sites, LONGEST_FILE).expect("a project that the writer takes")
}

#[test]
fn accepted_files_come_back_from_their_header_and_sites() {
    let mut random = Random::new(51);
    let mut files = vec![write_project(&largest_project(&mut random)).expect("a valid project")];
    for _ in 0..1_000 {
        files.push(write_project(&project(&mut random)).expect("a valid project"));
        files.push(damaged_file(&mut random));
    }
    let mut accepted = 0;
    for file in files {
        if let Ok(project) = parse_project(&file) {
            let again = write_file(project.header.numbers(), &project.sites, file.len());
            assert_eq!(again, Ok(file));
            accepted += 1;
        }
    }
    assert!(accepted > 1_000);
}

#[test]
fn what_is_written_is_read_as_the_same_sites() {
    let mut random = Random::new(52);
    let mut kinds = [[0; KIND_NAMES.len()]; EDITIONS.len()];
    for count in (0..200).chain([MOST_SITES]) {
        let given = project_of(&mut random, count);
        let file = written(given.header.numbers(), &given.sites);
        for site in &given.sites {
            kinds[usize::from(given.header.edition) - 1][usize::from(site.kind)] += 1;
        }
        assert_eq!(parse_project(&file), Ok(given));
    }
    assert!(
        kinds.as_flattened().iter().all(|count| *count > 1_000),
        "{kinds:?}"
    );
}

/// The header as document 01 lays it out, and the records of the site writer.
#[test]
fn a_file_is_its_header_and_its_records() {
    let mut random = Random::new(53);
    for edition in EDITIONS {
        let sites = sites(&mut random, edition, YEARS, 300);
        let header = [edition, 5, 0x04, 0x4C, 0x03, 0x84];
        let mut wanted = [&header[..], &[0x01, 0x2C]].concat();
        for site in &sites {
            let record = write_site(edition.into(), YEARS.into(), site, usize::MAX);
            wanted.extend(record.expect("a site that the writer takes"));
        }
        assert_eq!(written(within(edition), &sites), wanted);
        let empty = [&header[..], &[0, 0]].concat();
        assert_eq!(written(within(edition), &[]), empty);
    }
}

/// The edition comes first in a header's numbers and has its own refusal.
#[test]
fn limits_of_the_header() {
    for (at, most) in Header::MOST.into_iter().enumerate() {
        let refusal = if at == 0 { NO_EDITION } else { OUTSIDE_LIMITS };
        for number in edges(most) {
            for edition in EDITIONS {
                let mut header = within(edition);
                header[at] = number;
                let answer = write_file(header, &[], HEADER);
                let is_within = (1..=most).contains(&number);
                let wanted = is_within.then(|| written(header, &[]));
                assert_eq!(answer, wanted.ok_or(refusal), "{header:?}");
            }
        }
    }
}

#[test]
fn limit_of_the_count_of_sites() {
    let sites = vec![Site::plain(EDITION_ONE, 0, 1_000, 500); MOST_SITES + 1];
    for header in EDITIONS.map(within) {
        let most = write_file(header, &sites[..MOST_SITES], LONGEST_FILE);
        assert_eq!(most.map(|file| file.len()), Ok(8 + MOST_SITES * 7));
        for room in [0, LONGEST_FILE] {
            assert_eq!(write_file(header, &sites, room), Err(OUTSIDE_LIMITS));
        }
    }
}

#[test]
fn every_damage_is_outside_its_range() {
    let mut random = Random::new(54);
    for damage in DAMAGES {
        for _ in 0..2_000 {
            let Header { edition, years, .. } = header(&mut random);
            let site = damaged_site(&mut random, edition, years, damage);
            let answer = write_site(edition.into(), years.into(), &site, 0);
            assert_eq!(answer, Err(8), "{damage:?} {edition} {years} {site:?}");
        }
    }
}

/// The first damaged site counts, whatever follows it and however little space
/// there is.
#[test]
fn the_first_damaged_site_has_its_index() {
    let mut random = Random::new(55);
    for damage in DAMAGES {
        for _ in 0..200 {
            let edition = random.pick(&EDITIONS);
            let count = 1 + random.below(30);
            let mut sites = sites(&mut random, edition, YEARS, count);
            let first = random.below(count);
            let later = first + random.below(count - first);
            sites[later] = damaged_site(&mut random, edition, YEARS, damage);
            sites[first] = damaged_site(&mut random, edition, YEARS, damage);
            for room in [0, HEADER, LONGEST_FILE] {
                let answer = write_file(within(edition), &sites, room);
                assert_eq!(answer, Err(Refusal::of(8, first)), "{damage:?}");
            }
        }
    }
}

/// The years are the header's: later years of other years are outside their
/// range, and of the same years they come back.
#[test]
fn later_years_are_those_of_the_header() {
    let traffic = |years: u64| vec![700; years as usize];
    for years in 1..=u64::from(MOST_YEARS) {
        for given in 1..=u64::from(MOST_YEARS) {
            let plain = Site::plain(EDITION_ONE, 0, 1, 500);
            let segment = plain.with_years(Field::Traffic, &traffic(given));
            let sites = [Site::plain(EDITION_ONE, 3, 1, 1), segment];
            let header = [1 + given % 2, years, 1_100, 900];
            let file = write_file(header, &sites, LONGEST_FILE);
            if given == 1 || given == years {
                let project = parse_project(&file.expect("a project that the writer takes"));
                assert_eq!(project.map(|project| project.sites), Ok(sites.to_vec()));
            } else {
                assert_eq!(file, Err(Refusal::of(8, 1)), "{given} of {years}");
            }
        }
    }
}

/// The editions are the header's: a stop crossing of another edition is outside
/// its range, and the other kinds are those of both.
#[test]
fn sites_are_those_of_the_headers_edition() {
    for edition in EDITIONS {
        for of_site in EDITIONS {
            for kind in 0..KIND_NAMES.len() as u8 {
                let sites = [
                    Site::plain(edition, 2, 1, 1),
                    Site::plain(of_site, kind, 1, 1),
                ];
                let answer = write_file(within(edition), &sites, LONGEST_FILE);
                let is_taken = edition == of_site || [0, 3].contains(&kind);
                let refusal = (!is_taken).then_some(Refusal::of(8, 1));
                assert_eq!(answer.err(), refusal, "{edition} {of_site} {kind}");
            }
        }
    }
}

/// Half of the projects are of each edition. A third of the projects, where there is a second year, have traffic year by
/// year in half of their sites.
#[test]
fn generated_projects_have_both_editions_and_yearly_sites() {
    let mut random = Random::new(58);
    let (mut with, mut without, mut yearly_sites) = (0, 0, 0);
    let mut editions = [0; EDITIONS.len()];
    for _ in 0..1_000 {
        let project = project_of(&mut random, 10);
        editions[usize::from(project.header.edition) - 1] += 1;
        let yearly = project.sites.iter().filter(|site| site.is_yearly()).count();
        assert!(yearly == 0 || project.header.years > 1);
        with += u32::from(yearly > 0);
        without += u32::from(yearly == 0 && project.header.years > 1);
        yearly_sites += yearly;
    }
    assert!(editions.iter().all(|count| *count > 400), "{editions:?}");
    let projects = with + without;
    assert!(
        (projects / 4..projects / 2).contains(&with),
        "{with} of {projects}"
    );
    assert!(yearly_sites > 3 * with as usize, "{yearly_sites}");
}

#[test]
fn a_file_needs_just_its_length() {
    let mut random = Random::new(56);
    for count in 0..60 {
        let header = header(&mut random);
        let sites = sites(&mut random, header.edition, header.years, count);
        let header = header.numbers();
        let file = written(header, &sites);
        for room in [0, HEADER - 1, file.len() - 2, file.len() - 1] {
            assert_eq!(write_file(header, &sites, room), Err(TOO_SHORT));
        }
        assert_eq!(write_file(header, &sites, file.len()), Ok(file));
    }
}

#[test]
fn edition_then_limits_then_sites_then_space() {
    let good = Site::plain(EDITION_ONE, 0, 1_000, 500);
    let bad = Site::empty(0);
    let few = [good, bad, bad];
    let many = vec![bad; MOST_SITES + 1];
    for edition in EDITIONS {
        let (within, outside) = (within(edition), [edition.into(), 0, 1_100, 900]);
        assert_eq!(write_file(outside, &few, 0), Err(OUTSIDE_LIMITS));
        assert_eq!(write_file(outside, &few[..1], 0), Err(OUTSIDE_LIMITS));
        assert_eq!(write_file(within, &many, 0), Err(OUTSIDE_LIMITS));
        assert_eq!(write_file(within, &many[1..], 0), Err(Refusal::of(8, 0)));
        assert_eq!(write_file(within, &few, 0), Err(Refusal::of(8, 1)));
        assert_eq!(write_file(within, &few[..1], 0), Err(TOO_SHORT));
    }
    for edition in [0, 3, 255, 257, u64::MAX] {
        for (years, sites) in [(5, &few[..1]), (5, &few), (0, &few), (5, &many)] {
            for room in [0, LONGEST_FILE] {
                let answer = write_file([edition, years, 1_100, 900], sites, room);
                assert_eq!(answer, Err(NO_EDITION), "{edition}");
            }
        }
    }
}

/// A project has its edition in its header.
#[test]
fn another_edition_is_not_written() {
    let mut random = Random::new(57);
    let mut project = project_of(&mut random, 3);
    assert!(write_project(&project).is_ok());
    project.header.edition = 3;
    project.header.years = 0;
    assert_eq!(write_project(&project), Err(NO_EDITION));
}
