//! The engine's programs `crash_report`, `rounds` and `power_forms`, and the
//! longest files and reports that the first is run on.

use reference::lines;
use reference::project::{encode_header, Header};
use reference::record::Site;
use reference::rules::EDITION_ONE;
use std::io::Write;
use std::path::Path;
use std::process::{Command, Stdio};

/// The program `crash_report`, as `tools/build` leaves it.
pub const CRASH_REPORT: &str =
    concat!(env!("CARGO_MANIFEST_DIR"), "/../../target/bin/crash_report");

/// The program `rounds`.
pub const ROUNDS: &str = concat!(env!("CARGO_MANIFEST_DIR"), "/../../target/bin/rounds");

/// The program `power_forms`.
const POWER_FORMS: &str = concat!(env!("CARGO_MANIFEST_DIR"), "/../../target/bin/power_forms");

/// Whether one of these programs is there, or which command makes it.
pub fn is_made(program: &str) -> Result<(), String> {
    let path = Path::new(program);
    let name = path.file_name().unwrap_or_default().display();
    match path.is_file() {
        true => Ok(()),
        false => Err(format!(
            "target/bin/{name} is missing; this command makes it: tools/build {name}"
        )),
    }
}

/// A run of one of these programs.
pub fn command(program: &str) -> Command {
    is_made(program).unwrap_or_else(|missing| panic!("{missing}"));
    Command::new(program)
}

/// What `rounds` makes rounds of, in the order of the counts that its input
/// starts with.
#[derive(Clone, Copy)]
pub enum Job {
    Powers,
    PowersByEnds,
    Logarithms,
    Exponentials,
    Lines,
    Records,
}

pub const JOBS: usize = Job::Records as usize + 1;

/// The bytes of its input before the records: a count for each job, and the
/// edition of the records.
pub const ROUNDS_HEAD: usize = 2 * (JOBS + 1);

/// The header of its rounds over an edition's records.
pub fn rounds_header(edition: u8) -> Header {
    Header {
        edition,
        years: 5,
        segment_calibration: 1_100,
        crossing_calibration: 900,
    }
}

/// The input of `rounds`: the rounds of the jobs that are asked for, and the
/// records of an edition.
pub fn rounds_of(asked: &[(Job, u16)], edition: u8, sites: &[Site]) -> Vec<u8> {
    let mut counts = [0; JOBS];
    for (job, rounds) in asked {
        counts[*job as usize] = *rounds;
    }
    let numbers = counts.into_iter().chain([edition.into()]);
    let mut input: Vec<u8> = numbers.flat_map(u16::to_be_bytes).collect();
    let header = rounds_header(edition);
    for site in sites {
        input.extend(
            header
                .write_site(site)
                .expect("a site that the writer takes"),
        );
    }
    input
}

/// What `rounds` prints for an input.
pub fn rounds(input: &[u8]) -> String {
    output_of(ROUNDS, input)
}

/// What `power_forms` prints for an input.
pub fn power_forms(input: &[u8]) -> String {
    output_of(POWER_FORMS, input)
}

/// What a program prints that reads its input to the end first.
fn output_of(program: &str, input: &[u8]) -> String {
    let mut child = command(program)
        .stdin(Stdio::piped())
        .stdout(Stdio::piped())
        .spawn()
        .expect("the program runs");
    let mut stdin = child.stdin.take().expect("a piped input");
    stdin.write_all(input).expect("the input is read");
    drop(stdin);
    let output = child.wait_with_output().expect("it ends");
    assert!(output.status.success());
    String::from_utf8(output.stdout).expect("text")
}

/// A header at its upper limits, after its edition.
const HEAD: &str = "years 10
    segment-calibration 9999
    crossing-calibration 9999
    ";

/// A site with the longest record: every field, and both traffics year by year.
const FULL: &str = "4st traffic 19999/257/2001/4999/401/9999/14999/255/1999/17999 \
    minor-traffic 19999/399/255/17999/257/2001/4999/14999/9999/401 observed 500 skew 59 \
    left-turn-lanes 1 right-turn-lanes 1";

/// The field that edition 1 alone has beside them.
const FULL_SIGHT: &str = " limited-quadrants 3";

/// A site with the most crashes, and without a history, so that all four of its
/// numbers have as many digits as any.
const WORST: &str = "segment traffic 20000 length 20000 lane 8 shoulder 0 curve-length 1 \
    radius 100 deficiency 100 grade 12 driveways 50 hazard-rating 7";

/// An edition's file of so many sites like this one, even of more than a project
/// may have.
fn repeated(edition: u8, site: &str, sites: usize) -> Vec<u8> {
    let project = lines::parse(&format!("edition {edition}\n{HEAD}{site}"));
    let project = project.expect("a project's lines");
    let record = project.header.write_site(&project.sites[0]);
    let record = record.expect("a site that the writer takes");
    let count = u16::try_from(sites).expect("a count of two bytes");
    [encode_header(&project.header, count), record.repeat(sites)].concat()
}

/// An edition's longest file of so many sites; edition 1's are the longest.
pub fn full_project(edition: u8, sites: usize) -> Vec<u8> {
    if edition == EDITION_ONE {
        repeated(edition, &format!("{FULL}{FULL_SIGHT}"), sites)
    } else {
        repeated(edition, FULL, sites)
    }
}

/// An edition's file of so many sites with the longest report.
pub fn longest_report(edition: u8, sites: usize) -> Vec<u8> {
    repeated(edition, WORST, sites)
}
