//! The program `crash_report`, run as a user runs it: known figures, the demo
//! corridor, the largest files, and files that the reference makes.

use engine::program::{command, full_project, is_made, longest_report, CRASH_REPORT};
use reference::generate::{order, repeating_project, Random};
use reference::lines;
use reference::program::{check, judge, run, DEPTHS};
use reference::project::{parse_project, write_project, Project, HEADER, LONGEST_FILE};
use reference::rules::{EDITIONS, EDITION_ONE, MOST_SITES};
use std::fs::{self, File, OpenOptions};
use std::io::{Read, Write};
use std::path::{Path, PathBuf};
use std::process::{Command, Output, Stdio};
use std::thread::sleep;
use std::time::Duration;

/// Document 01's accepted signal.
const SIGNAL: [u8; 17] = [
    1, 5, 3, 0xE8, 3, 0xE8, 0, 1, 3, 0, 7, 0x27, 0x10, 3, 0xE8, 0, 5,
];

/// Bytes that a pipe holds before its writer has to wait.
const PIPE: usize = 65_536;

/// Files of each sort that the gate compares, and the seed that makes them.
const FILES: usize = 5_000;
const SEED: u64 = 1;

/// Projects whose sites are put in another order.
const REORDERED: usize = 2_000;

fn printed(input: &[u8]) -> String {
    is_made(CRASH_REPORT).unwrap_or_else(|missing| panic!("{missing}"));
    run(CRASH_REPORT, input).expect("the program runs")
}

fn root() -> PathBuf {
    Path::new(env!("CARGO_MANIFEST_DIR")).join("../..")
}

fn stored(name: &str) -> Vec<u8> {
    fs::read(root().join(name)).expect("a stored file")
}

/// A file of the tests' own.
fn stored_in(name: &str, bytes: &[u8]) -> PathBuf {
    let path = PathBuf::from(env!("CARGO_TARGET_TMPDIR")).join(name);
    fs::write(&path, bytes).expect("a file is written");
    path
}

/// Runs the program on given files, apart from any pipe.
fn run_on(input: File, output: Stdio) -> Output {
    command(CRASH_REPORT)
        .stdin(input)
        .stdout(output)
        .stderr(Stdio::piped())
        .output()
        .expect("the program runs")
}

#[test]
fn known_figures() {
    assert_eq!(printed(&[]), "refused 1 at 0\n");
    assert_eq!(printed(&[1, 5, 3, 0xE8, 3, 0xE8, 0, 0]), "0 0 0 0\n");
    let accepted = printed(&SIGNAL);
    assert_eq!(accepted.lines().count(), 2);
    assert_eq!(judge(&SIGNAL, &accepted, &DEPTHS), Ok(()));
    let mut spelled = SIGNAL.to_vec();
    spelled[10] = 0x17;
    spelled.extend([0, 0]);
    assert_eq!(printed(&spelled), "refused 9 at 8\n");
}

/// The signal's bytes with every edition before them.
#[test]
fn editions_of_a_file() {
    let [first, second] = EDITIONS.map(|edition| {
        let file = [&[edition], &SIGNAL[1..]].concat();
        let report = printed(&file);
        assert_eq!(judge(&file, &report, &DEPTHS), Ok(()));
        report
    });
    assert_ne!(first, second);
    for edition in [0, 3, 4, 255] {
        let file = [&[edition], &SIGNAL[1..]].concat();
        assert_eq!(printed(&file), "refused 3 at 0\n");
    }
}

/// A demo's readable lines make its project, and this prints as its report.
fn assert_demo(name: &str) -> (Vec<u8>, String) {
    let file = |kind: &str| stored(&format!("demo/{name}.{kind}"));
    let text = String::from_utf8(file("txt")).expect("readable lines");
    let project = file("project");
    assert_eq!(lines::make(&text), Ok(project.clone()));
    let report = printed(&project);
    assert_eq!(report.as_bytes(), file("report"));
    assert_eq!(judge(&project, &report, &DEPTHS), Ok(()));
    (project, report)
}

/// The corridor as each edition prices it.
#[test]
fn demo_corridor() {
    for (edition, name) in EDITIONS.into_iter().zip(["corridor", "corridor_manual"]) {
        let (project, _) = assert_demo(name);
        assert_eq!(project[0], edition);
    }
}

#[test]
fn stored_run_is_the_demo() {
    let project = stored("crates/crash_report/stdin");
    assert_eq!(project, stored("demo/corridor.project"));
    let report = stored("crates/crash_report/stdout");
    assert_eq!(report, stored("demo/corridor.report"));
}

/// A file of the most sites gets its whole report.
fn assert_most_reported(file: &[u8]) {
    let report = printed(file);
    assert_eq!(report.lines().count(), MOST_SITES + 1);
    assert_eq!(judge(file, &report, &[3]), Ok(()));
}

#[test]
fn longest_report_of_the_most_sites() {
    for edition in EDITIONS {
        assert_most_reported(&longest_report(edition, MOST_SITES));
    }
}

#[test]
fn longest_file_and_longer_ones() {
    let [mut file, shorter] = EDITIONS.map(|edition| full_project(edition, MOST_SITES));
    assert_eq!(file.len(), LONGEST_FILE);
    assert_most_reported(&file);
    assert_most_reported(&shorter);
    for extra in [1, 2, 4_096, 1_000_000] {
        file.resize(LONGEST_FILE + extra, 0);
        assert_eq!(printed(&file), format!("refused 2 at {LONGEST_FILE}\n"));
    }
}

/// A file of one site too many is refused for its header, however much of the
/// file is there.
#[test]
fn one_site_too_many_at_its_longest() {
    let file = full_project(EDITION_ONE, MOST_SITES + 1);
    for length in [HEADER, LONGEST_FILE, LONGEST_FILE + 1, file.len()] {
        assert_eq!(printed(&file[..length]), "refused 4 at 0\n");
    }
}

#[test]
fn input_in_pieces_is_one_file() {
    let file = full_project(EDITION_ONE, MOST_SITES);
    let whole = printed(&file);
    let mut child = command(CRASH_REPORT)
        .stdin(Stdio::piped())
        .stdout(Stdio::piped())
        .spawn()
        .expect("the program runs");
    let mut stdin = child.stdin.take().expect("a piped input");
    for piece in file.chunks(9_001) {
        stdin.write_all(piece).expect("the program reads on");
        sleep(Duration::from_millis(2));
    }
    drop(stdin);
    let output = child.wait_with_output().expect("the program ends");
    assert_eq!(output.stdout, whole.as_bytes());
}

#[test]
fn failed_read_prints_no_report() {
    let folder = File::open(root()).expect("a folder, which cannot be read");
    let output = run_on(folder, Stdio::piped());
    assert_eq!(output.stdout, b"");
    assert_eq!(output.stderr, b"crash_report: reading failed\n");
}

#[test]
fn failed_write_is_told() {
    let full = OpenOptions::new().write(true).open("/dev/full");
    let input = File::open(root().join("demo/corridor.project")).expect("the demo");
    let output = run_on(input, full.expect("a full device").into());
    assert_eq!(output.stderr, b"crash_report: writing failed\n");
}

/// A program that writes once is refused here alone: the file takes a part of
/// the report, and the rest is tried and fails.
#[test]
fn report_that_a_file_takes_in_part_is_told() {
    let input = stored_in(
        "partly_written.project",
        &full_project(EDITION_ONE, MOST_SITES),
    );
    let report = input.with_extension("report");
    let output = Command::new("sh")
        .args([
            "-c",
            "trap '' XFSZ; ulimit -f 8; exec \"$0\" >\"$1\"",
            CRASH_REPORT,
        ])
        .arg(&report)
        .stdin(File::open(&input).expect("the file"))
        .output()
        .expect("the program runs");
    assert!(fs::metadata(&report).expect("a part of the report").len() > 0);
    assert_eq!(output.stderr, b"crash_report: writing failed\n");
}

#[test]
fn slow_reader_gets_the_whole_report() {
    let file = longest_report(EDITION_ONE, MOST_SITES);
    let whole = printed(&file);
    assert!(whole.len() > PIPE);
    let path = stored_in("longest.project", &file);
    let mut child = command(CRASH_REPORT)
        .stdin(File::open(&path).expect("the file"))
        .stdout(Stdio::piped())
        .spawn()
        .expect("the program runs");
    let mut stdout = child.stdout.take().expect("a piped output");
    let mut text: Vec<u8> = Vec::new();
    let mut piece = [0; 5_000];
    loop {
        let got = stdout.read(&mut piece).expect("printed bytes");
        if got == 0 {
            break;
        }
        text.extend(&piece[..got]);
        sleep(Duration::from_millis(1));
    }
    assert!(child.wait().expect("the program ends").success());
    assert_eq!(text, whole.as_bytes());
}

#[test]
fn generated_and_damaged_files() {
    let mut failures = Vec::new();
    let tally = check(CRASH_REPORT, FILES, SEED, |failure| {
        failures.push(failure.to_string())
    });
    assert_eq!(tally.failed, 0, "{}", failures.join("\n"));
    assert_eq!(tally.passed, 2 * FILES);
    let refusals = &tally.outcomes[1..10];
    assert!(refusals.iter().all(|count| *count > 0), "{refusals:?}");
}

/// A project with each site at its image.
fn reordered(project: &Project, images: &[usize]) -> Project {
    let mut other = project.clone();
    for (site, image) in project.sites.iter().zip(images) {
        other.sites[*image] = *site;
    }
    other
}

/// Prices a project and the same sites in another order. Each line goes to its
/// site's image and the totals stay; true where a line has moved.
fn assert_order_free(project: &Project, images: &[usize]) -> bool {
    let [report, other] = [project, &reordered(project, images)].map(|project| {
        let file = write_project(project).expect("sites that the writer takes");
        printed(&file)
    });
    let lines: Vec<&str> = report.lines().collect();
    let mut wanted = lines.clone();
    for (line, image) in lines.iter().zip(images) {
        wanted[*image] = line;
    }
    assert_eq!(lines.len(), project.sites.len() + 1);
    assert_eq!(other.lines().collect::<Vec<_>>(), wanted);
    other != report
}

/// Whether a site stands in a project more than once.
fn repeats_a_site(project: &Project) -> bool {
    let sites = &project.sites;
    (1..sites.len()).any(|i| sites[..i].contains(&sites[i]))
}

/// The largest project first; in each some sites are equal to others, and
/// lines move in projects of every edition, with and without yearly traffic.
#[test]
fn sites_in_another_order() {
    let mut random = Random::new(SEED);
    let mut moved = [[0; 2]; EDITIONS.len()];
    for i in 0..REORDERED {
        let small = 2 + random.below(12);
        let count = if i == 0 { MOST_SITES } else { small };
        let project = repeating_project(&mut random, count);
        assert!(repeats_a_site(&project));
        let images = order(&mut random, count);
        if assert_order_free(&project, &images) {
            let is_yearly = project.sites.iter().any(|site| site.is_yearly());
            moved[usize::from(project.header.edition) - 1][usize::from(is_yearly)] += 1;
        }
    }
    let tally = moved.as_flattened();
    assert!(
        tally.iter().all(|count| *count > REORDERED / 10),
        "{tally:?}"
    );
}

/// The second file has the first one's header and its sites from the last to
/// the first, and so are its lines.
#[test]
fn demo_corridor_from_its_other_end() {
    let [(project, report), (other, other_report)] =
        ["corridor", "corridor_reversed"].map(assert_demo);
    let mut reversed = parse_project(&project).expect("the demo");
    reversed.sites.reverse();
    assert_eq!(parse_project(&other), Ok(reversed));
    let mut lines: Vec<&str> = report.lines().collect();
    let sites = lines.len() - 1;
    lines[..sites].reverse();
    assert_eq!(other_report.lines().collect::<Vec<_>>(), lines);
}
