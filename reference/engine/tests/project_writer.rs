//! The exported project writer against the reference: files of both editions byte
//! for byte, what the reader makes of them, refusals in their order, and what a
//! call leaves as it was.

use engine::lines;
use engine::program::full_project;
use engine::projects::{project_into, write_file};
use engine::sites::{numbers_of, read_into, run_of, READ_NUMBERS, SITE_NUMBERS};
use reference::generate::{
    damaged_file, damaged_site, disturbed_site, edges, header, largest_project, project, site,
    sites, yearly, Random, DAMAGES,
};
use reference::project::{self, parse_project, write_project, Header, HEADER, LONGEST_FILE};
use reference::record::{Refusal, Site, LONGEST_RECORD};
use reference::rules::{
    edition_within, years_within, EDITIONS, EDITION_ONE, KIND_NAMES, LAST_EDITION, MOST_SITES,
    MOST_YEARS,
};
use std::fs;
use std::path::Path;

/// Random lists that are written and read back.
const LISTS: usize = 5_000;

/// Random calls whose answers are the reference's.
const CALLS: usize = 50_000;

/// A header's numbers within their limits.
fn within(edition: u8) -> [u64; 4] {
    [edition.into(), YEARS.into(), 1_100, 900]
}

const YEARS: u8 = 5;

/// More room than any file needs.
const AMPLE: usize = LONGEST_FILE + 100;

const NO_EDITION: Refusal = Refusal::of(3, 0);
const OUTSIDE_LIMITS: Refusal = Refusal::of(4, 0);
const TOO_SHORT: Refusal = Refusal::of(10, 0);

/// Some dozens of sites at most, and now and then up to the most.
fn list(random: &mut Random, header: &Header) -> Vec<Site> {
    let count = match random.below(250) {
        0 => random.below(MOST_SITES + 1),
        _ => random.below(50),
    };
    sites(random, header.edition, header.years, count)
}

/// The reference's file of a list, which it takes.
fn file_of(header: [u64; 4], sites: &[Site]) -> Vec<u8> {
    project::write_file(header, sites, usize::MAX).expect("a list that the reference takes")
}

/// The header's numbers and the sites' numbers of a file, each site read by the
/// engine.
fn read_back(file: &[u8]) -> ([u64; 4], Vec<u64>) {
    let number = |at: usize| u64::from(u16::from_be_bytes([file[at], file[at + 1]]));
    let (edition, years) = (file[0].into(), file[1].into());
    let mut run = Vec::new();
    let mut at = HEADER;
    while at < file.len() {
        let mut values = [0; READ_NUMBERS];
        assert_eq!(read_into(edition, years, &file[at..], &mut values), 0);
        run.extend(&values[..SITE_NUMBERS]);
        at += values[SITE_NUMBERS] as usize;
    }
    assert_eq!(number(6) as usize, run.len() / SITE_NUMBERS);
    ([edition, years, number(2), number(4)], run)
}

/// The engine's report of a file of so many sites.
fn report_of(file: &[u8], sites: usize) -> Vec<u64> {
    let mut report = vec![0; 4 * (sites + 1)];
    assert_eq!(project_into(file, &mut report), Ok(report.len()));
    report
}

/// A list is written as the reference writes it, and the reader takes the file
/// with the same header, the same sites and the lines of those sites.
fn assert_written_and_read(header: &Header, sites: &[Site]) {
    let (numbers, run) = (header.numbers(), run_of(sites));
    let wanted = file_of(numbers, sites);
    let file = write_file(numbers, &run, wanted.len() + 9).expect("a list that the engine takes");
    assert_eq!(file, wanted);
    assert_eq!(read_back(&file), (numbers, run));
    let report = report_of(&file, sites.len());
    assert_eq!(report, report_of(&wanted, sites.len()));
    assert_eq!(report, lines::report(header, sites));
}

#[test]
fn random_lists_are_written_and_read_back() {
    let mut random = Random::new(61);
    let mut kinds = [[0; KIND_NAMES.len()]; EDITIONS.len()];
    let (mut empty, mut longest, mut yearly) = (0, 0, 0);
    for _ in 0..LISTS {
        let header = header(&mut random);
        let sites = list(&mut random, &header);
        assert_written_and_read(&header, &sites);
        for site in &sites {
            kinds[usize::from(header.edition) - 1][usize::from(site.kind)] += 1;
            yearly += u32::from(site.is_yearly());
        }
        empty += u32::from(sites.is_empty());
        longest = longest.max(sites.len());
    }
    let counts = kinds.as_flattened();
    assert!(counts.iter().all(|count| *count > 10_000), "{kinds:?}");
    assert!(empty > 20 && longest > MOST_SITES / 2, "{empty} {longest}");
    assert!(yearly > 40_000, "{yearly}");
}

/// A header's numbers, often with one at an edge of its limits or beyond.
fn any_header(random: &mut Random) -> [u64; 4] {
    let mut numbers = header(random).numbers();
    if random.once_in(3) {
        let at = random.below(numbers.len());
        numbers[at] = random.pick(&edges(Header::MOST[at]));
    }
    numbers
}

/// A site, now and then disturbed or damaged.
fn any_site(random: &mut Random, edition: u8, years: u8) -> Site {
    let damage = random.pick(&DAMAGES);
    match random.below(8) {
        0 => disturbed_site(random, edition, years),
        1 => damaged_site(random, edition, years, damage),
        _ => site(random, edition, years),
    }
}

/// A dozen sites at most, and now and then about as many as are allowed or far
/// more. Half of the lists have no damage.
fn any_list(random: &mut Random, edition: u8, years: u8) -> Vec<Site> {
    let count = match random.below(250) {
        0 => random.pick(&[MOST_SITES - 1, MOST_SITES, MOST_SITES + 1, 2 * MOST_SITES]),
        _ => random.below(13),
    };
    if random.once_in(2) {
        return sites(random, edition, years, count);
    }
    let site = |_| any_site(random, edition, years);
    (0..count).map(site).collect()
}

/// Room of up to a little more than a length, often about that length.
fn any_room(random: &mut Random, length: usize) -> usize {
    match random.below(4) {
        0 => length,
        1 => length - 1 + random.below(3),
        _ => random.below(length + 10),
    }
}

#[test]
fn answers_are_those_of_the_reference() {
    let mut random = Random::new(72);
    let mut numbers = [0; 11];
    let (mut just_enough, mut one_too_little, mut too_many) = (0, 0, 0);
    for _ in 0..CALLS {
        let header = any_header(&mut random);
        let edition = edition_within(header[0]).unwrap_or(LAST_EDITION);
        let years = years_within(header[1]).unwrap_or(YEARS);
        let sites = any_list(&mut random, edition, years);
        // What is refused has about the room of so many longest records.
        let length = project::write_file(header, &sites, AMPLE)
            .map_or(HEADER + LONGEST_RECORD * sites.len(), |file| file.len());
        let room = any_room(&mut random, length);
        let answer = write_file(header, &run_of(&sites), room);
        let wanted = project::write_file(header, &sites, room);
        assert_eq!(answer, wanted, "{header:?} in {room}: {sites:?}");
        let number = answer.map_or_else(|refusal| refusal.number, |_| 0);
        numbers[usize::from(number)] += 1;
        just_enough += u32::from(number == 0 && room == length);
        one_too_little += u32::from(number == 10 && room + 1 == length);
        too_many += u32::from(sites.len() > MOST_SITES);
    }
    for (number, least) in [(0, 5_000), (3, 2_000), (4, 5_000), (8, 5_000), (10, 5_000)] {
        assert!(numbers[number] > least, "{numbers:?}");
    }
    assert!(just_enough > 5_000 && one_too_little > 1_000 && too_many > 50);
}

/// An accepted file comes back from its header and its sites in just its room.
fn assert_reproduced(file: &[u8]) {
    let (header, run) = read_back(file);
    let again = write_file(header, &run, file.len());
    assert!(again.as_deref() == Ok(file), "{file:02x?}");
}

#[test]
fn stored_files_are_reproduced() {
    let root = Path::new(env!("CARGO_MANIFEST_DIR")).join("../..");
    for path in [
        "demo/corridor.project",
        "demo/corridor_manual.project",
        "crates/crash_report/stdin",
    ] {
        let file = fs::read(root.join(path)).expect("a stored file");
        assert_eq!(
            parse_project(&file).map(|project| project.sites.len()),
            Ok(12)
        );
        assert_reproduced(&file);
    }
    // Document 01's files of no site and of a signal.
    let signal = [
        1, 5, 3, 0xE8, 3, 0xE8, 0, 1, 3, 0, 7, 0x27, 0x10, 3, 0xE8, 0, 5,
    ];
    assert_reproduced(&signal);
    assert_reproduced(&[1, 5, 3, 0xE8, 3, 0xE8, 0, 0]);
    for edition in EDITIONS {
        for sites in [1, 2] {
            assert_reproduced(&full_project(edition, sites));
        }
    }
}

#[test]
fn accepted_files_are_reproduced() {
    let mut random = Random::new(62);
    let mut files = vec![write_project(&largest_project(&mut random)).expect("a valid project")];
    for _ in 0..3_000 {
        files.push(write_project(&project(&mut random)).expect("a valid project"));
        files.push(damaged_file(&mut random));
    }
    let (valid, all) = (3_001, files.len());
    files.retain(|file| parse_project(file).is_ok());
    assert!((valid + 1..all).contains(&files.len()), "{}", files.len());
    files.iter().for_each(|file| assert_reproduced(file));
}

/// The ways in which a site's numbers are outside their range: those of a site,
/// a slot above 65,536, and a kind that is no byte.
const WAYS: usize = DAMAGES.len() + 2;

/// A number above 65,536 that a number of 16 or of 32 bits would be taken for.
fn too_large(random: &mut Random, number: u64) -> u64 {
    let high = random.pick(&[1 << 17, 1 << 32, 1 << 63]);
    random.pick(&[65_537, high + number, u64::MAX])
}

/// The numbers of an edition's site that is outside its range in one of the ways.
fn damaged_numbers(random: &mut Random, edition: u8, way: usize) -> [u64; SITE_NUMBERS] {
    if let Some(damage) = DAMAGES.get(way) {
        return numbers_of(&damaged_site(random, edition, YEARS, *damage));
    }
    let mut numbers = numbers_of(&site(random, edition, YEARS));
    if way == DAMAGES.len() {
        let slot = 1 + random.below(SITE_NUMBERS - 1);
        numbers[slot] = too_large(random, numbers[slot]);
    } else {
        numbers[0] += random.pick(&[1 << 8, 1 << 16, 1 << 32, 1 << 63]);
    }
    numbers
}

fn put(run: &mut [u64], index: usize, numbers: &[u64; SITE_NUMBERS]) {
    run[SITE_NUMBERS * index..][..SITE_NUMBERS].copy_from_slice(numbers);
}

/// A refusal of sites, whatever room there is.
fn assert_refused(header: [u64; 4], run: &[u64], refusal: Refusal) {
    for room in [0, HEADER - 1, HEADER, 200, AMPLE] {
        let answer = write_file(header, run, room);
        assert_eq!(answer.err(), Some(refusal), "in {room}");
    }
}

#[test]
fn one_damaged_site_has_its_index() {
    let mut random = Random::new(63);
    for way in 0..WAYS {
        for _ in 0..300 {
            let edition = random.pick(&EDITIONS);
            let count = 1 + random.below(40);
            let anywhere = random.below(count);
            let index = random.pick(&[0, count - 1, anywhere]);
            let mut run = run_of(&sites(&mut random, edition, YEARS, count));
            put(&mut run, index, &damaged_numbers(&mut random, edition, way));
            assert_refused(within(edition), &run, Refusal::of(8, index));
        }
    }
}

#[test]
fn the_first_of_two_damaged_sites_has_its_index() {
    let mut random = Random::new(64);
    for way in 0..WAYS {
        for later_way in 0..WAYS {
            for _ in 0..30 {
                let edition = random.pick(&EDITIONS);
                let count = 2 + random.below(40);
                let first = random.below(count - 1);
                let later = first + 1 + random.below(count - 1 - first);
                let mut run = run_of(&sites(&mut random, edition, YEARS, count));
                put(&mut run, first, &damaged_numbers(&mut random, edition, way));
                let other = damaged_numbers(&mut random, edition, later_way);
                put(&mut run, later, &other);
                assert_refused(within(edition), &run, Refusal::of(8, first));
            }
        }
    }
}

/// Every number of a site, of every kind, with one traffic and with traffic year
/// by year, set to what no field allows.
#[test]
fn every_number_of_a_site_is_tried() {
    let mut random = Random::new(73);
    let kinds = 0..KIND_NAMES.len() as u8;
    for (edition, kind) in EDITIONS
        .into_iter()
        .flat_map(|e| kinds.clone().map(move |k| (e, k)))
    {
        let plain = Site::plain(edition, kind, 1_000, 500);
        for site in [plain, yearly(&mut random, plain, YEARS)] {
            for place in 0..SITE_NUMBERS {
                for wrong in [65_535, 65_537, u64::MAX] {
                    let mut run = run_of(&[site; 3]);
                    run[SITE_NUMBERS + place] = wrong;
                    assert_refused(within(edition), &run, Refusal::of(8, 1));
                }
            }
        }
    }
}

/// Stop crossings are those of the header's edition: each edition refuses the
/// other's.
#[test]
fn stop_crossings_are_those_of_the_headers_edition() {
    for edition in EDITIONS {
        for of_site in EDITIONS {
            for kind in [1, 2] {
                let sites = [edition, of_site].map(|e| Site::plain(e, kind, 1_000, 500));
                if edition == of_site {
                    assert_space(within(edition), &sites);
                } else {
                    assert_refused(within(edition), &run_of(&sites), Refusal::of(8, 1));
                }
            }
        }
    }
}

/// Sites of so many years are written under a header of as many, and of no
/// others.
#[test]
fn later_years_are_those_of_the_header() {
    let mut random = Random::new(74);
    for given in 2..=MOST_YEARS {
        let edition = random.pick(&EDITIONS);
        let plain = Site::plain(edition, 2, 1_000, 500);
        let sites = [plain, yearly(&mut random, plain, given)];
        for years in 1..=MOST_YEARS {
            let header = [edition.into(), years.into(), 1_100, 900];
            if years == given {
                assert_space(header, &sites);
            } else {
                assert_refused(header, &run_of(&sites), Refusal::of(8, 1));
            }
        }
    }
}

/// A file is written in its length and in more, and in nothing less.
fn assert_space(header: [u64; 4], sites: &[Site]) {
    let (file, run) = (file_of(header, sites), run_of(sites));
    let length = file.len();
    for room in [0, 7, 8, length - 2, length - 1] {
        let wanted = if room < length {
            Err(TOO_SHORT)
        } else {
            Ok(file.clone())
        };
        assert_eq!(write_file(header, &run, room), wanted, "{room} of {length}");
    }
    for room in [length, length + 1, length + 40] {
        assert!(write_file(header, &run, room).as_ref() == Ok(&file));
    }
}

#[test]
fn space_of_a_file() {
    let mut random = Random::new(65);
    for count in (0..60).chain([500, MOST_SITES]) {
        for _ in 0..5 {
            let header = header(&mut random);
            let sites = sites(&mut random, header.edition, header.years, count);
            assert_space(header.numbers(), &sites);
        }
    }
}

#[test]
fn a_project_of_no_site() {
    for edition in EDITIONS {
        let header = within(edition);
        let file = [edition, 5, 0x04, 0x4C, 0x03, 0x84, 0, 0];
        assert_eq!(write_file(header, &[], HEADER), Ok(file.to_vec()));
        assert_eq!(write_file(header, &[], AMPLE), Ok(file.to_vec()));
        for room in 0..HEADER {
            assert_eq!(write_file(header, &[], room), Err(TOO_SHORT));
        }
        assert_eq!(report_of(&file, 0), [0; 4]);
    }
}

#[test]
fn the_most_sites_and_one_more() {
    let mut random = Random::new(66);
    for edition in EDITIONS {
        let header = Header {
            edition,
            years: YEARS,
            ..header(&mut random)
        };
        let many = sites(&mut random, edition, YEARS, MOST_SITES + 1);
        assert_written_and_read(&header, &many[..MOST_SITES]);
        let (within, mut run) = (within(edition), run_of(&many));
        assert_refused(within, &run, OUTSIDE_LIMITS);
        for index in [0, MOST_SITES / 2, MOST_SITES - 1, MOST_SITES] {
            put(&mut run, index, &numbers_of(&Site::empty(0)));
        }
        assert_refused(within, &run, OUTSIDE_LIMITS);
        assert_refused(within, &[7; 100 * MOST_SITES], OUTSIDE_LIMITS);
    }
}

#[test]
fn the_most_sites_and_one_more_at_their_longest() {
    for edition in EDITIONS {
        assert_reproduced(&full_project(edition, MOST_SITES));
        let (header, run) = read_back(&full_project(edition, MOST_SITES + 1));
        assert_refused(header, &run, OUTSIDE_LIMITS);
    }
}

#[test]
fn a_damaged_site_among_the_most() {
    let mut random = Random::new(67);
    for index in [0, 1, MOST_SITES / 2, MOST_SITES - 2, MOST_SITES - 1] {
        let edition = random.pick(&EDITIONS);
        let mut run = run_of(&sites(&mut random, edition, YEARS, MOST_SITES));
        let damaged = damaged_numbers(&mut random, edition, index % WAYS);
        put(&mut run, index, &damaged);
        assert_refused(within(edition), &run, Refusal::of(8, index));
    }
}

/// The edition comes first in a header's numbers and has its own refusal.
#[test]
fn limits_of_the_header() {
    let mut random = Random::new(68);
    // Segments and signals are the same in both editions.
    let site = |kind| Site::plain(EDITION_ONE, kind, random.between(1, 20_000), 500);
    let sites = [0, 0, 3].map(site);
    let run = run_of(&sites);
    for (at, most) in Header::MOST.into_iter().enumerate() {
        let refusal = if at == 0 { NO_EDITION } else { OUTSIDE_LIMITS };
        for number in edges(most) {
            for edition in EDITIONS {
                let mut header = within(edition);
                header[at] = number;
                if (1..=most).contains(&number) {
                    assert_space(header, &sites);
                } else {
                    assert_refused(header, &run, refusal);
                }
            }
        }
    }
}

/// Headers outside their limits, and 4 or, with an edition that there is not,
/// whatever else is outside, 3.
const OUTSIDE: [([u64; 4], Refusal); 7] = [
    ([1, 0, 1, 1], OUTSIDE_LIMITS),
    ([2, 11, 1, 1], OUTSIDE_LIMITS),
    ([1, 1, 0, 1], OUTSIDE_LIMITS),
    ([2, 1, 1, 10_000], OUTSIDE_LIMITS),
    ([0, 5, 1_100, 900], NO_EDITION),
    ([3, 0, 1, 1], NO_EDITION),
    ([u64::MAX, 11, 0, 0], NO_EDITION),
];

/// Of an edition that there is not, a header outside its limits or too many
/// sites, a damaged site and too little room, whichever there are, the first is
/// told.
#[test]
fn edition_then_limits_then_sites_then_space() {
    let mut random = Random::new(69);
    for (edition, way) in EDITIONS
        .into_iter()
        .flat_map(|e| (0..WAYS).map(move |way| (e, way)))
    {
        let sites = sites(&mut random, edition, YEARS, 20);
        let (run, length) = (run_of(&sites), file_of(within(edition), &sites).len());
        let mut damaged = run.clone();
        put(
            &mut damaged,
            11,
            &damaged_numbers(&mut random, edition, way),
        );
        let too_many = damaged.repeat(MOST_SITES / sites.len() + 1);
        for (run, of_sites) in [
            (&run, None),
            (&damaged, Some(Refusal::of(8, 11))),
            (&too_many, Some(OUTSIDE_LIMITS)),
        ] {
            for room in [length, length - 1, 0] {
                let of_space = (room < length).then_some(TOO_SHORT);
                let answer = write_file(within(edition), run, room);
                assert_eq!(answer.err(), of_sites.or(of_space));
                for (header, of_header) in OUTSIDE {
                    assert_eq!(write_file(header, run, room), Err(of_header));
                }
            }
        }
    }
}

/// Fewer numbers than a site's at the end are a site outside its range.
#[test]
fn numbers_left_at_the_end() {
    let mut random = Random::new(70);
    for (whole, edition) in [0, 1, 2, 30, MOST_SITES - 1]
        .into_iter()
        .zip([1, 2, 1, 2, 1])
    {
        let sites = sites(&mut random, edition, YEARS, whole + 1);
        let run = run_of(&sites);
        let within = within(edition);
        for rest in 1..SITE_NUMBERS {
            let mut left = run[..SITE_NUMBERS * whole + rest].to_vec();
            assert_refused(within, &left, Refusal::of(8, whole));
            assert_refused([edition.into(), 11, 1, 1], &left, OUTSIDE_LIMITS);
            assert_refused([3, 11, 1, 1], &left, NO_EDITION);
            if whole > 0 {
                let index = random.below(whole);
                let damaged = damaged_numbers(&mut random, edition, rest % WAYS);
                put(&mut left, index, &damaged);
                assert_refused(within, &left, Refusal::of(8, index));
            }
        }
        assert_space(within, &sites);
    }
}

/// The count of sites is rounded up before its limit is tried.
#[test]
fn numbers_left_after_the_most_sites() {
    let mut random = Random::new(71);
    for edition in EDITIONS {
        let run = run_of(&sites(&mut random, edition, YEARS, MOST_SITES + 1));
        for rest in 1..=SITE_NUMBERS {
            let left = &run[..SITE_NUMBERS * MOST_SITES + rest];
            assert_refused(within(edition), left, OUTSIDE_LIMITS);
        }
        let most = &run[..SITE_NUMBERS * MOST_SITES];
        assert!(write_file(within(edition), most, AMPLE).is_ok());
    }
}
