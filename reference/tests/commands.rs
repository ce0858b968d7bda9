//! The commands, run as a user runs them.

mod running;

use reference::rules::{EDITIONS, MOST_SITES};
use running::{refusal, run, text, REFERENCE, SIGNAL};
use std::fs;
use std::io::Write;
use std::path::PathBuf;
use std::process::{Command, Stdio};

/// A shell script in place of a program under test.
fn script(name: &str, body: &str) -> PathBuf {
    use std::os::unix::fs::PermissionsExt;
    let path = PathBuf::from(env!("CARGO_TARGET_TMPDIR")).join(name);
    fs::write(&path, format!("#!/bin/sh\n{body}\n")).expect("a script is written");
    let mode = fs::Permissions::from_mode(0o755);
    fs::set_permissions(&path, mode).expect("a script is made to run");
    path
}

fn check(name: &str, body: &str, count: &str) -> (bool, String) {
    let program = script(name, body);
    let path = program.to_str().expect("a plain path");
    let output = run(&["check", path, count, "5"], &[]);
    let last = text(&output).lines().last().map(str::to_string);
    (output.status.success(), last.expect("a last line"))
}

#[test]
fn report_prints_the_known_figures() {
    assert_eq!(text(&run(&["report"], &[])), "refused 1 at 0\n");
    let empty = [1, 5, 3, 0xE8, 3, 0xE8, 0, 0];
    assert_eq!(text(&run(&["report"], &empty)), "0 0 0 0\n");
    let mut spelled = SIGNAL.to_vec();
    spelled[10] = 0x17;
    spelled.extend([0, 0]);
    assert_eq!(text(&run(&["report"], &spelled)), "refused 9 at 8\n");
    assert_eq!(text(&run(&["report"], &SIGNAL)).lines().count(), 2);
}

#[test]
fn dump_and_make_are_inverse() {
    let lines = run(&["dump", "-"], &SIGNAL);
    assert!(text(&lines).contains("4sg traffic 10000 observed 5 minor-traffic 1000"));
    let made = run(&["make"], &lines.stdout);
    assert_eq!(made.stdout, SIGNAL);
    let limited = run(&["dump", "-"], &LIMITED);
    assert!(text(&limited).contains("limited-quadrants 2"));
    assert_eq!(run(&["make"], &limited.stdout).stdout, LIMITED);
}

/// The signal as a file of an edition.
fn signal_in(edition: u8) -> Vec<u8> {
    [&[edition], &SIGNAL[1..]].concat()
}

/// The same bytes after the edition's are another edition's project, with its
/// own lines, estimates and report.
#[test]
fn each_edition_has_its_own_figures() {
    let printed = |arguments: &[&str]| EDITIONS.map(|e| text(&run(arguments, &signal_in(e))));
    let [one, two] = printed(&["dump", "-"]);
    assert!(one.starts_with("edition 1\nyears 5\n") && two.starts_with("edition 2\nyears 5\n"));
    assert_eq!(
        one.lines().skip(1).collect::<Vec<_>>(),
        two.lines().skip(1).collect::<Vec<_>>()
    );
    assert_eq!(run(&["make"], two.as_bytes()).stdout, signal_in(2));
    // e^-5.13 is 1.8221 times e^-5.73.
    let predicted = printed(&["estimate", "-", "6"]).map(|text| {
        let words: Vec<&str> = text.split(' ').collect();
        words[3].parse::<f64>().expect("a decimal")
    });
    assert!(
        (predicted[1] / predicted[0] - 0.6f64.exp()).abs() < 1e-5,
        "{predicted:?}"
    );
    let [one, two] = printed(&["report"]);
    assert_ne!(one, two);
}

/// A signal whose traffic doubled in the second of two years.
const YEARLY_SIGNAL: [u8; 19] = [
    1, 2, 3, 0xE8, 3, 0xE8, 0, 1, 3, 0x80, 3, 0x13, 0x88, 0x27, 0x10, 3, 0xE8, 7, 0xD0,
];

#[test]
fn traffic_year_by_year_is_numbers_joined_by_slashes() {
    let lines = run(&["dump", "-"], &YEARLY_SIGNAL);
    assert!(text(&lines).contains("4sg traffic 5000/10000 minor-traffic 1000/2000 "));
    assert_eq!(run(&["make"], &lines.stdout).stdout, YEARLY_SIGNAL);
    let estimates = [&YEARLY_SIGNAL[..], &lines.stdout].map(|project| {
        let printed = run(&["estimate", "-", "3"], project);
        text(&printed)
    });
    assert_eq!(estimates[0], estimates[1]);
}

/// Commands that take a project file or lines, and print nothing of a file that
/// they refuse.
const OF_EITHER: [&[&str]; 2] = [&["dump", "-"], &["estimate", "-", "2"]];

/// A stop crossing with limited sight, which edition 1 takes.
const LIMITED: [u8; 17] = [
    1, 5, 3, 0xE8, 3, 0xE8, 0, 1, 2, 0, 0x43, 0x27, 0x10, 3, 0xE8, 0, 2,
];

/// Document 01's causes, each in a file.
fn refused_files() -> Vec<(u8, usize, Vec<u8>)> {
    let changed = |file: &[u8], at: usize, byte: u8| {
        let mut file = file.to_vec();
        file[at] = byte;
        file
    };
    let with = |at: usize, byte: u8| changed(&SIGNAL, at, byte);
    let yearly_with = |at: usize, byte: u8| changed(&YEARLY_SIGNAL, at, byte);
    let mut spelled = with(10, 0x17);
    spelled.extend([0, 0]);
    let limited_in = |edition: u8| changed(&LIMITED, 0, edition);
    vec![
        (1, 0, vec![]),
        (1, 8, SIGNAL[..9].to_vec()),
        (2, 17, [&SIGNAL[..], &[0]].concat()),
        (3, 0, with(0, 0)),
        (3, 0, with(0, 3)),
        (3, 0, with(0, b'#')),
        (3, 0, with(0, b'e')),
        (3, 0, with(0, b'\n')),
        (4, 0, with(1, 11)),
        (5, 8, with(8, 4)),
        (6, 8, with(10, 15)),
        (6, 8, limited_in(2)),
        (7, 8, with(10, 5)),
        (8, 8, with(11, 0xFF)),
        (7, 8, yearly_with(1, 1)),
        (8, 8, yearly_with(13, 0xFF)),
        (1, 8, YEARLY_SIGNAL[..18].to_vec()),
        (9, 8, spelled),
    ]
}

#[test]
fn a_file_is_refused_as_the_reader_refuses_it() {
    let told = |file: &[u8]| refusal(&["dump", "-"], file);
    assert_eq!(
        told(&signal_in(3)),
        "refused 3 at byte 0: the edition is neither 1 nor 2"
    );
    for (number, place, file) in refused_files() {
        let wanted = format!("refused {number} at byte {place}: ");
        for command in OF_EITHER {
            let message = refusal(command, &file);
            assert!(message.starts_with(&wanted), "{command:?}: {message}");
        }
        // The report's output is the engine's program's.
        let output = run(&["report"], &file);
        assert_eq!(text(&output), format!("refused {number} at {place}\n"));
        assert_eq!(output.status.code(), Some(1));
        let message = String::from_utf8(output.stderr).expect("a message");
        assert!(message.starts_with(&wanted), "{message}");
    }
}

/// Lines that are refused, after the four of a header, and what is told. The
/// first site is sound, the second has the fault, and a note and an empty line
/// come before them.
const REFUSED_SITES: [(&str, &str); 28] = [
    (
        "segment traffic 5 length 6 lane 7",
        "lane is 7; it must be from 8 to 14",
    ),
    (
        "segment traffic 5 length 6 curve-length 9 radius 50",
        "radius is 50; it must be from 100 to 30000",
    ),
    (
        "segment traffic 70000 length 6",
        "traffic is 70000; it must be from 1 to 20000",
    ),
    (
        "segment traffic 99999999999999999999 length 6",
        "traffic is 99999999999999999999; it must be from 1 to 20000",
    ),
    (
        "segment traffic -5 length 6",
        "traffic is \"-5\"; it must be from 1 to 20000",
    ),
    (
        "segment traffic 5 length +6",
        "length is \"+6\"; it must be from 1 to 20000",
    ),
    (
        "segment length 6",
        "traffic is missing; it must be from 1 to 20000",
    ),
    (
        "4st traffic 5",
        "minor-traffic is missing; it must be from 1 to 20000",
    ),
    (
        "segment traffic 5 length 6 radius 500",
        "curve-length is missing on a curve; it must be from 1 to 20000",
    ),
    (
        "segment traffic 5 length 6 curve-length 500",
        "radius is missing on a curve; it must be from 100 to 30000",
    ),
    (
        "segment traffic 5 length 6 spiral-ends 1",
        "spiral-ends is 1 without a curve-length and a radius",
    ),
    (
        "3st traffic 5 minor-traffic 6 left-turn-lanes 2",
        "left-turn-lanes is 2; it must be from 0 to 1",
    ),
    (
        "4sg traffic 5 minor-traffic 6 skew 3",
        "skew is 3; a 4sg has no such field",
    ),
    (
        "segment traffic 5/7/9 length 6",
        "traffic has 3 numbers for 2 years",
    ),
    (
        "segment traffic 5/20001 length 6",
        "traffic of year 2 is 20001; it must be from 1 to 20000",
    ),
    (
        "segment traffic 5/ length 6",
        "traffic of year 2 is \"\"; it must be from 1 to 20000",
    ),
    (
        "segment traffic 5/7 length 6/6",
        "length is \"6/6\"; it must be from 1 to 20000",
    ),
    (
        "4st traffic 5/7 minor-traffic 6",
        "minor-traffic is 6; it must have a number for each year, as the other traffic has",
    ),
    (
        "4st traffic 5 minor-traffic 6/8",
        "traffic is 5; it must have a number for each year, as the other traffic has",
    ),
    // In a project of two years 3,200 might be 3200, or 3 and then 200.
    (
        "segment traffic 3,200 length 6",
        "traffic is \"3,200\"; write a number without a comma, and join the numbers of years by /",
    ),
    (
        "segment traffic 900/1,100 length 6",
        "traffic is \"900/1,100\"; write a number without a comma, and join the numbers of years \
         by /",
    ),
    (
        "segment traffic 3, 200 length 6",
        "traffic is \"3,\"; write a number without a comma, and join the numbers of years by /",
    ),
    (
        "4st traffic 5 minor-traffic 6,8",
        "minor-traffic is \"6,8\"; write a number without a comma, and join the numbers of years \
         by /",
    ),
    (
        "segment traffic 5 length 1,250",
        "length is \"1,250\"; write a number without a comma",
    ),
    ("segment traffic 5 length 6 lane", "lane has no number"),
    (
        "segment traffic 5 length 6 width 9",
        "there is no field \"width\"",
    ),
    ("segment traffic 5 traffic 5", "traffic is given twice"),
    (
        "motorway traffic 5",
        "the kind is \"motorway\"; it must be one of segment, 3st, 4st, 4sg",
    ),
];

const HEAD: &str = "edition 1\nyears 2\nsegment-calibration 1000\ncrossing-calibration 900\n";

/// A project of so many sites, as lines.
fn lines_of(sites: usize) -> String {
    format!("{HEAD}{}", "segment traffic 5 length 6\n".repeat(sites))
}

/// Every command that takes lines tells the same of them.
fn assert_refused(lines: &str, wanted: &str) {
    let commands = OF_EITHER.into_iter().chain([&["make"][..], &["report"]]);
    for command in commands {
        let message = refusal(command, lines.as_bytes());
        assert_eq!(message, wanted, "{command:?}: {lines}");
    }
}

#[test]
fn lines_are_refused_with_line_site_field_value_and_range() {
    for (line, what) in REFUSED_SITES {
        let lines = format!("{HEAD}# A note.\n\n3st traffic 5 minor-traffic 6\n{line}\n");
        assert_refused(&lines, &format!("line 8, site 2: {what}"));
    }
    // What edition 1 has and edition 2 has not.
    for kind in ["3st", "4st"] {
        let manual = HEAD.replace("edition 1", "edition 2");
        let line = format!("{kind} traffic 5 minor-traffic 6 limited-quadrants 0");
        let what = format!("limited-quadrants is 0; a {kind} has no such field in edition 2");
        assert_refused(
            &format!("{manual}{line}\n"),
            &format!("line 5, site 1: {what}"),
        );
    }
    let site = MOST_SITES + 1;
    let line = HEAD.lines().count() + site;
    let wanted = format!("line {line}, site {site}: there may be {MOST_SITES} sites at most");
    assert_refused(&lines_of(site), &wanted);
}

#[test]
fn header_lines_are_refused_with_line_name_value_and_range() {
    for (from, to, wanted) in [
        (
            "edition 1",
            "edition 3",
            "line 1: edition is 3; it must be from 1 to 2",
        ),
        (
            "years 2",
            "years 11",
            "line 2: years is 11; it must be from 1 to 10",
        ),
        (
            "years 2",
            "years 258",
            "line 2: years is 258; it must be from 1 to 10",
        ),
        (
            "segment-calibration 1000",
            "segment-calibration 0",
            "line 3: segment-calibration is 0; it must be from 1 to 9999",
        ),
        (
            "crossing-calibration 900",
            "crossing-calibration 10000",
            "line 4: crossing-calibration is 10000; it must be from 1 to 9999",
        ),
        (
            "segment-calibration 1000",
            "segment-calibration 1,000",
            "line 3: segment-calibration is \"1,000\"; write a number without a comma",
        ),
        (
            "years 2",
            "year 2",
            "line 2: this must be `years NUMBER`, not \"year 2\"",
        ),
    ] {
        assert_refused(&HEAD.replace(from, to), wanted);
    }
    assert_refused("edition 1\nyears 2\n", "no line has segment-calibration");
    assert_refused("# Nothing.\n", "no line has edition");
    for command in [&["make"][..], &["dump", "-"]] {
        let message = refusal(command, b"# A note.\n# caf\xE9\n");
        assert_eq!(message, "line 2: this is no UTF-8 text");
    }
}

/// A command whose output or message nobody reads ends without a word.
#[test]
fn a_closed_pipe_ends_a_command_quietly() {
    let path = PathBuf::from(env!("CARGO_TARGET_TMPDIR")).join("most.lines");
    fs::write(&path, lines_of(MOST_SITES)).expect("lines are written");
    let lines = path.display();
    for command in [
        format!("dump '{lines}'"),
        format!("estimate '{lines}' 1"),
        format!("make < '{lines}'"),
        "stored powers".to_string(),
        "figures".to_string(),
        "check /dev/null/none 20 1".to_string(),
    ] {
        for reader in ["true", "head -1"] {
            let pipe = format!("'{REFERENCE}' {command} | {reader}");
            let output = Command::new("sh").args(["-c", &pipe]).output();
            let told = String::from_utf8(output.expect("a shell").stderr);
            assert_eq!(told.as_deref(), Ok(""), "{pipe}");
        }
    }
    // A message that nobody reads.
    let pipe = format!("{{ '{REFERENCE}' tally 2>&1; echo $? >&2; }} | true");
    let output = Command::new("sh").args(["-c", &pipe]).output();
    assert_eq!(output.expect("a shell").stderr, b"1\n");
}

#[test]
fn a_full_device_is_told() {
    for command in ["dump -", "figures", "report"] {
        let line = format!("'{REFERENCE}' {command} > /dev/full");
        let mut child = Command::new("sh")
            .args(["-c", &line])
            .stdin(Stdio::piped())
            .stderr(Stdio::piped())
            .spawn()
            .expect("a shell");
        let mut stdin = child.stdin.take().expect("a piped input");
        let _ = stdin.write_all(&SIGNAL);
        drop(stdin);
        let output = child.wait_with_output().expect("the shell ends");
        assert_eq!(output.status.code(), Some(1), "{command}");
        let told = String::from_utf8(output.stderr).expect("a message");
        assert!(told.starts_with("standard output: "), "{told}");
    }
}

#[test]
fn estimates_of_a_file_and_of_its_lines_agree() {
    let lines = run(&["dump", "-"], &SIGNAL);
    let from_file = text(&run(&["estimate", "-", "6"], &SIGNAL));
    let from_lines = text(&run(&["estimate", "-", "6"], &lines.stdout));
    assert_eq!(from_file, from_lines);
    let words: Vec<&str> = from_file
        .lines()
        .next()
        .expect("a site")
        .split(' ')
        .collect();
    let number = |at: usize| words[at].parse::<f64>().expect("a decimal");
    assert_eq!(
        (words[0], words[2], words[5]),
        ("site", "predicted", "expected")
    );
    // Y e^-5.73 A^0.60 B^0.20 in doubles, then the history of 5.
    let predicted = 5.0 * (-5.73f64).exp() * 10_000f64.powf(0.6) * 1_000f64.powf(0.2);
    let expected = predicted * (1.0 + 0.11 * 5.0) / (1.0 + 0.11 * predicted);
    assert!(number(3) < predicted && predicted < number(4));
    assert!(number(6) < expected && expected < number(7));
    assert!(number(4) - number(3) < 1e-3);
}

#[test]
fn check_passes_the_references_own_report() {
    let body = format!("exec '{REFERENCE}' report");
    let (passed, last) = check("own_report.sh", &body, "50");
    assert_eq!((passed, last.as_str()), (true, "100 passed, 0 failed"));
}

#[test]
fn check_fails_programs_that_print_the_wrong_thing() {
    for (name, body) in [
        ("zeros.sh", "cat > /dev/null; echo 0 0 0 0".to_string()),
        (
            "refuses.sh",
            "cat > /dev/null; echo refused 1 at 0".to_string(),
        ),
        ("silent.sh", "cat > /dev/null".to_string()),
        ("spaces.sh", format!("'{REFERENCE}' report | sed 's/ /  /'")),
        (
            "no_feed.sh",
            format!("printf %s \"$('{REFERENCE}' report)\""),
        ),
        (
            "place.sh",
            format!("'{REFERENCE}' report | sed 's/at 8/at 0/'"),
        ),
        (
            "last_digit.sh",
            format!("'{REFERENCE}' report | sed 's/^\\([0-9]*\\)7 /\\19 /'"),
        ),
    ] {
        let (passed, last) = check(name, &body, "12");
        assert!(!passed, "{name}");
        assert!(!last.ends_with(" 0 failed"), "{name}: {last}");
    }
}
