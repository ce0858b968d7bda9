//! The exported project reader against the reference: answers, reports, and
//! what a call leaves as it was.

use engine::program::full_project;
use engine::projects::project_into;
use reference::checker::report_faults;
use reference::generate::{damaged_file, largest_project, project, Random};
use reference::project::{parse_project, read_project, write_project};
use reference::record::Refusal;
use reference::rules::{EDITIONS, MOST_SITES};

const UNTOUCHED: u64 = 0xA5A5_A5A5;
const FILES: usize = 1_000;

/// Room that a file may be read with: just enough, one too few, none, more.
fn rooms(file: &[u8]) -> [usize; 4] {
    let needed = parse_project(file).map_or(8, |project| project.report_length());
    [needed, needed - 1, 0, needed + 5]
}

/// Reads a file with some room and compares the answer and every number.
fn assert_read(file: &[u8], room: usize) {
    let mut report = vec![UNTOUCHED; room];
    let answer = project_into(file, &mut report);
    let written = match (answer, read_project(file, room)) {
        (Ok(count), Ok(project)) => {
            assert_eq!(count, project.report_length());
            let model = project.header.model();
            let faults = report_faults(model, &project, &report[..count], &[1, 6]);
            assert!(faults.is_empty(), "{} faults", faults.len());
            count
        }
        (Err(refusal), Err(wanted)) => {
            assert_eq!(refusal, wanted);
            0
        }
        (answer, wanted) => panic!("{answer:?}, not {:?}", wanted.map(|_| ())),
    };
    assert!(report[written..].iter().all(|number| *number == UNTOUCHED));
}

#[test]
fn valid_files() {
    let mut random = Random::new(11);
    let mut editions = [0; EDITIONS.len()];
    for _ in 0..FILES {
        let file = write_project(&project(&mut random)).expect("a valid project");
        editions[usize::from(file[0]) - 1] += 1;
        for room in rooms(&file) {
            assert_read(&file, room);
        }
    }
    assert!(
        editions.iter().all(|count| *count > FILES / 3),
        "{editions:?}"
    );
}

/// The bytes after a file's edition, with every edition before them: refused
/// with 3 but for two.
#[test]
fn every_edition_of_a_file() {
    let mut random = Random::new(14);
    for _ in 0..20 {
        let mut file = write_project(&project(&mut random)).expect("a valid project");
        for edition in 0..=u8::MAX {
            file[0] = edition;
            let room = rooms(&file)[0];
            assert_read(&file, room);
            let mut report = vec![0; room];
            let refused = project_into(&file, &mut report).err();
            let is_of_edition = refused == Some(Refusal::of(3, 0));
            assert_eq!(is_of_edition, !EDITIONS.contains(&edition), "{edition}");
        }
    }
}

#[test]
fn damaged_files() {
    let mut random = Random::new(12);
    for _ in 0..FILES {
        let file = damaged_file(&mut random);
        for room in rooms(&file) {
            assert_read(&file, room);
        }
    }
}

#[test]
fn largest_file() {
    let mut random = Random::new(13);
    let mut left = EDITIONS.to_vec();
    while !left.is_empty() {
        let project = largest_project(&mut random);
        let edition = project.header.edition;
        if left.contains(&edition) {
            let file = write_project(&project).expect("a valid project");
            let room = rooms(&file)[0];
            assert_read(&file, room);
            assert_read(&file, room - 1);
            left.retain(|other| *other != edition);
        }
    }
}

#[test]
fn the_most_sites_and_one_more_at_their_longest() {
    for edition in EDITIONS {
        for sites in [MOST_SITES, MOST_SITES + 1] {
            assert_read(&full_project(edition, sites), 4 * (sites + 1));
        }
    }
}

#[test]
fn empty_file() {
    let mut report = [UNTOUCHED; 4];
    assert_eq!(project_into(&[], &mut report), Err(Refusal::of(1, 0)));
    assert_eq!(report, [UNTOUCHED; 4]);
}
