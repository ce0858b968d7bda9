//! `include/crash_unit.h` compiles without a warning as C and as C++, its names
//! are the engine's sizes, slots, document 01's numbers and the stated widths, and
//! what it says of stack and state is so.

use engine::lines::line_into;
use engine::program::full_project;
use engine::projects::project_into;
use engine::sites::{read_into, write_numbers};
use engine::{power_into, DONE, EXPONENTIAL_PARTS, LOGARITHM_PARTS, POWER_PARTS, TOO_SHORT};
use reference::checker::{EXPECTED_EACH, PREDICTED_EACH, WIDTH_PARTS};
use reference::record::{cause, Refusal};
use reference::rules::{EDITIONS, EDITION_ONE, LAST_EDITION, MOST_SITES, MOST_YEARS};
use std::collections::BTreeMap;
use std::fs;
use std::path::{Path, PathBuf};
use std::process::Command;

#[path = "c_header/slots.rs"]
mod slots;

/// The calls that the archive exports.
const CALLS: usize = 9;

const STRICT: [&str; 4] = ["-Wall", "-Wextra", "-pedantic", "-Werror"];

fn root() -> PathBuf {
    Path::new(env!("CARGO_MANIFEST_DIR")).join("../..")
}

fn archive() -> PathBuf {
    root().join("target/staticlib/libunit.a")
}

/// A file of these tests' own.
fn own(name: &str) -> PathBuf {
    Path::new(env!("CARGO_TARGET_TMPDIR")).join(name)
}

/// A C file of these tests.
fn c_file(name: &str) -> PathBuf {
    Path::new(env!("CARGO_MANIFEST_DIR"))
        .join("tests/c")
        .join(name)
}

/// What a command prints.
fn printed(command: &mut Command) -> String {
    let output = command.output().expect("a program that runs");
    assert!(output.status.success(), "{command:?}: {output:?}");
    String::from_utf8(output.stdout).expect("text")
}

/// Compiles a file with the header and the archive; the program.
fn compiled(compiler: &str, options: &[&str], source: &Path, name: &str) -> PathBuf {
    let program = own(name);
    let mut command = Command::new(compiler);
    command.args(options).args(STRICT);
    command.arg("-I").arg(root().join("include"));
    command.arg(source).args(["-x", "none"]).arg(archive());
    printed(command.args(["-Wl,-z,now", "-o"]).arg(&program));
    program
}

/// Lines of a name and a number; the greatest number of each name.
fn numbers(text: &str) -> BTreeMap<String, u64> {
    let mut found = BTreeMap::new();
    for line in text.lines() {
        let (name, number) = line.split_once(' ').expect("a name and a number");
        let number: u64 = number.parse().expect("a number");
        let greatest = found.entry(name.to_string()).or_insert(number);
        *greatest = number.max(*greatest);
    }
    found
}

/// The names that the header gives numbers to, and its calls.
fn names_and_calls() -> (Vec<String>, Vec<String>) {
    let header = fs::read_to_string(root().join("include/crash_unit.h")).expect("the header");
    let after = |start: &str| -> Vec<String> {
        let lines = header.lines().filter_map(|line| line.strip_prefix(start));
        let word = |rest: &str| rest.split([' ', '(']).next().unwrap_or("").to_string();
        lines.map(word).collect()
    };
    let guard = "CRASH_UNIT_H";
    let mut names = after("#define ");
    names.retain(|name| name != guard);
    (names, after("uint64_t "))
}

/// A program that takes each call's address and prints each name's number.
fn source_of_names() -> String {
    let (names, calls) = names_and_calls();
    assert!(names.len() >= 20, "{names:?}");
    assert_eq!(calls.len(), CALLS, "{calls:?}");
    let mut text = "#include \"crash_unit.h\"\n#include <stdio.h>\ntypedef void (*call)(void);\n\
        int main(void)\n{\n    call calls[] = {"
        .to_string();
    for call in calls {
        text.push_str(&format!("(call){call}, "));
    }
    text.push_str("0};\n    if (calls[0] == 0)\n        return 1;\n");
    for name in names {
        text.push_str(&format!(
            "    printf(\"{name} %llu\\n\", (unsigned long long)({name}));\n"
        ));
    }
    text.push_str("    return 0;\n}\n");
    text
}

/// The header's names with their numbers, as a language has them.
fn names(compiler: &str, options: &[&str], name: &str) -> BTreeMap<String, u64> {
    let source = own(&format!("{name}.source"));
    fs::write(&source, source_of_names()).expect("a source is written");
    let program = compiled(compiler, options, &source, name);
    numbers(&printed(&mut Command::new(program)))
}

fn names_in_c(name: &str) -> BTreeMap<String, u64> {
    names("cc", &["-x", "c", "-std=c11"], name)
}

#[test]
fn the_same_in_c_and_in_c_plus_plus() {
    let in_c = names_in_c("names_c11");
    for (compiler, language, standard, name) in [
        ("cc", "c", "-std=c99", "names_c99"),
        ("c++", "c++", "-std=c++11", "names_cpp11"),
        ("c++", "c++", "-std=c++20", "names_cpp20"),
    ] {
        assert_eq!(names(compiler, &["-x", language, standard], name), in_c);
    }
}

#[test]
fn refusals_are_document_01s() {
    let names = names_in_c("names_refusals");
    for (name, number) in [
        ("CRASH_OK", 0),
        ("CRASH_RUNS_PAST", cause::RUNS_PAST_END),
        ("CRASH_BYTES_AFTER", cause::BYTES_AFTER),
        ("CRASH_EDITION_NOT", cause::EDITION),
        ("CRASH_OUTSIDE_LIMITS", cause::HEADER_LIMITS),
        ("CRASH_KIND_ABOVE", cause::KIND),
        ("CRASH_BIT_LACKED", cause::LACKING_BIT),
        ("CRASH_BIT_MISSING", cause::UNMATCHED_BITS),
        ("CRASH_OUTSIDE_RANGE", cause::RANGE),
        ("CRASH_DEFAULT_SPELLED", cause::DEFAULT_SPELLED),
        ("CRASH_TOO_SHORT", cause::TOO_SHORT),
    ] {
        assert_eq!(names[name], u64::from(number), "{name}");
    }
}

/// The longest file and its report just suffice, and one less does not.
#[test]
fn sizes_of_a_project_are_the_engines() {
    let names = names_in_c("names_project");
    let size = |name: &str| names[name] as usize;
    assert_eq!(size("CRASH_MOST_SITES"), MOST_SITES);
    let file = full_project(EDITION_ONE, MOST_SITES);
    assert_eq!(file.len(), size("CRASH_LONGEST_FILE"));
    let mut report = vec![0; size("CRASH_LONGEST_REPORT")];
    let short = report.len() - 1;
    let number = |refusal: Refusal| refusal.number;
    let refused = project_into(&file, &mut report[..short]).map_err(number);
    assert_eq!(refused, Err(cause::TOO_SHORT));
    assert_eq!(project_into(&file, &mut report), Ok(report.len()));
    // One site more is outside the limits.
    let refused =
        project_into(&full_project(EDITION_ONE, MOST_SITES + 1), &mut report).map_err(number);
    assert_eq!(refused, Err(cause::HEADER_LIMITS));
}

/// The same of a record, of a site's numbers, of its line and of a bracket.
#[test]
fn sizes_of_a_site_are_the_engines() {
    let names = names_in_c("names_site");
    let size = |name: &str| names[name] as usize;
    let years = names["CRASH_MOST_YEARS"];
    assert_eq!(years, MOST_YEARS.into());
    let one = names["CRASH_FIRST_EDITION"];
    let record = full_project(EDITION_ONE, 1).split_off(size("CRASH_HEADER_BYTES"));
    assert_eq!(record.len(), size("CRASH_LONGEST_RECORD"));
    let mut values = vec![0; size("CRASH_READ_NUMBERS")];
    let short = values.len() - 1;
    let mut read = |room: usize| read_into(one, years, &record, &mut values[..room]);
    assert_eq!((read(short), read(short + 1)), (TOO_SHORT, DONE));
    let site = &values[..size("CRASH_SITE_NUMBERS")];
    assert_eq!(values[site.len()..], [record.len() as u64]);
    let written = |room: usize| write_numbers(one, years, site, room);
    assert_eq!(written(record.len()), Ok(record.clone()));
    assert_eq!(written(record.len() - 1), Err(cause::TOO_SHORT));
    let mut line = vec![0; size("CRASH_LINE_NUMBERS")];
    let short = line.len() - 1;
    let header = [one, years, 1_000, 1_000];
    assert_eq!(line_into(header, site, &mut line[..short]), TOO_SHORT);
    assert_eq!(line_into(header, site, &mut line), DONE);
    let mut ends = vec![0; size("CRASH_BRACKET_NUMBERS")];
    let short = ends.len() - 1;
    assert_eq!(power_into(32, 60, 100, &mut ends[..short]), TOO_SHORT);
    assert_eq!(power_into(32, 60, 100, &mut ends), DONE);
    // A crossing has no length, and each traffic has every later year.
    assert_eq!(site[size("CRASH_LENGTH")], names["CRASH_ABSENT"]);
    let later = size("CRASH_LATER_YEARS");
    let years = size("CRASH_LATER_TRAFFIC")..site.len();
    assert_eq!(later + 1, size("CRASH_MOST_YEARS"));
    assert!(site[years].iter().all(|number| *number <= 20_000));
}

/// The header's editions are those that a file may have.
#[test]
fn editions_are_the_engines() {
    let names = names_in_c("names_editions");
    let editions = names["CRASH_FIRST_EDITION"]..=names["CRASH_LAST_EDITION"];
    assert_eq!(editions, EDITION_ONE.into()..=LAST_EDITION.into());
    for edition in 0..=u8::MAX {
        let file = [edition, 1, 0, 1, 0, 1, 0, 0];
        let answer = project_into(&file, &mut [0; 4]);
        let refusal = Refusal::of(cause::EDITION, 0);
        let is_taken = editions.contains(&edition.into());
        assert_eq!(answer.err(), (!is_taken).then_some(refusal), "{edition}");
    }
}

/// The number of a definition: `NAME = 4` or `NAME = 10 ^ 8`.
fn defined(file: &str, name: &str) -> u64 {
    let text = fs::read_to_string(root().join(file)).expect("a file of definitions");
    let start = format!("{name} = ");
    let mut lines = text.lines().filter_map(|line| line.strip_prefix(&start));
    let number = lines.next().expect("a definition");
    let parts = number.split(" ^ ").map(|part| part.parse().expect(number));
    match parts.collect::<Vec<u64>>()[..] {
        [number] => number,
        [base, exponent] => base.pow(exponent as u32),
        _ => panic!("{number}"),
    }
}

/// The header's widths and those to which the other tests hold pairs and
/// brackets are the proved ones.
#[test]
fn widths_are_the_stated_ones() {
    let names = names_in_c("names_widths");
    let pairs = [
        ("PREDICTED_EACH", PREDICTED_EACH, "predicted_each"),
        ("EXPECTED_EACH", EXPECTED_EACH, "expected_each"),
        ("WIDTH_PARTS", WIDTH_PARTS, "width_parts"),
    ];
    let brackets = [
        ("POWER_PARTS", POWER_PARTS, "power_width"),
        ("EXPONENTIAL_PARTS", EXPONENTIAL_PARTS, "exponential_width"),
        ("LOGARITHM_PARTS", LOGARITHM_PARTS, "logarithm_width"),
    ];
    for (file, widths) in [
        ("crates/model/specs/StatedWidths.antt", pairs),
        ("crates/bracket/specs/Bracket.antt", brackets),
    ] {
        for (name, number, definition) in widths {
            assert_eq!(names[&format!("CRASH_{name}")], number, "{name}");
            assert_eq!(defined(file, definition), number, "{definition}");
        }
    }
}

/// The calls of a site and of a list of sites answer as the header says, tried
/// in C.
#[test]
fn answers_are_as_the_header_says() {
    let program = compiled("cc", &["-std=c11"], &c_file("answers.c"), "answers");
    assert_eq!(printed(&mut Command::new(program)), "");
}

#[test]
fn stack_suffices_for_every_call() {
    let program = compiled("cc", &["-std=c11", "-O2"], &c_file("stack.c"), "stack");
    let mut command = Command::new(program);
    command
        .arg(root().join("demo/corridor.project"))
        .arg(root().join("demo/corridor_manual.project"));
    for edition in EDITIONS {
        let longest = own(&format!("stack{edition}.project"));
        fs::write(&longest, full_project(edition, MOST_SITES)).expect("a file is written");
        command.arg(longest);
    }
    let needed = numbers(&printed(&mut command));
    let suffices = names_in_c("names_stack")["CRASH_STACK"];
    assert_eq!(needed.len(), CALLS, "{needed:?}");
    let header = fs::read_to_string(root().join("include/crash_unit.h")).expect("the header");
    for (call, bytes) in &needed {
        assert!((100..=suffices).contains(bytes), "{call}: {needed:?}");
        let said = stack_said(&header, call);
        assert!(*bytes as f64 <= said, "{call}: {said} of {needed:?}");
    }
}

/// The bytes of stack that the header's words give a call.
fn stack_said(header: &str, call: &str) -> f64 {
    let words = match call {
        "crash_project" | "crash_line" => "crash_project and crash_line ",
        "crash_power" => "crash_power ",
        _ => "the others at most ",
    };
    let (_, rest) = header.split_once(words).expect("what the header says");
    let (number, _) = rest.split_once(" KB").expect("kilobytes");
    number.parse::<f64>().expect("a number") * 1000.0
}

/// The archive's symbols: none is of writable data, and only memcpy and
/// memset are wanted.
#[test]
fn archive_has_no_state() {
    let symbols = printed(Command::new("nm").arg(archive()));
    let mut calls = 0;
    for line in symbols.lines() {
        let words: Vec<&str> = line.split_whitespace().collect();
        match words[..] {
            ["U", name] => assert!(["memcpy", "memset"].contains(&name), "{line}"),
            [_, kind, name] => {
                assert!("TtRr".contains(kind), "{line}");
                calls += usize::from(kind == "T" && name.starts_with("crash_"));
            }
            _ => assert!(line.is_empty() || line.ends_with(':'), "{line}"),
        }
    }
    assert_eq!(calls, CALLS);
}
