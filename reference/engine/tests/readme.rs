//! The README's examples are what the engine gives: the line of a site, the
//! bytes of a project, and a changed road beside the present one.

use engine::projects::project_into;
use reference::lines;
use std::fs;
use std::path::Path;

fn text_of(name: &str) -> String {
    let root = Path::new(env!("CARGO_MANIFEST_DIR")).join("../..");
    fs::read_to_string(root.join(name)).expect("a text of the project")
}

/// What follows a mark in a text, up to an end.
fn between<'a>(text: &'a str, mark: &str, end: &str) -> &'a str {
    let (_, rest) = text.split_once(mark).expect(mark);
    rest.split_once(end).expect(end).0
}

fn numbers(text: &str) -> Vec<u64> {
    let words = text.split_whitespace();
    words.map(|word| word.parse().expect(word)).collect()
}

/// The line of a site of a project file.
fn line_of(file: &[u8], site: usize) -> Vec<u64> {
    let mut report = [0; 4 * 13];
    project_into(file, &mut report).expect("a project that is accepted");
    report[4 * site..][..4].to_vec()
}

/// The line of the third site of a project in lines.
fn third(text: &str) -> Vec<u64> {
    line_of(&lines::make(text).expect("lines"), 2)
}

#[test]
fn line_of_a_report() {
    let shown = between(&text_of("README.md"), "report means\n\n    ", "\n").to_string();
    assert_eq!(third(&text_of("demo/corridor.txt")), numbers(&shown));
}

/// The example is the header of the demo, for its first site alone.
#[test]
fn bytes_of_a_project() {
    let readme = text_of("README.md");
    let digits: String = ["    01 05 ", "    00 0007 "]
        .map(|mark| mark.to_string() + between(&readme, mark, "   "))
        .concat();
    let digits: Vec<char> = digits.chars().filter(|c| *c != ' ').collect();
    let byte = |pair: &[char]| u8::from_str_radix(&String::from_iter(pair), 16).expect("a byte");
    let file: Vec<u8> = digits.chunks(2).map(byte).collect();
    let demo = lines::make(&text_of("demo/corridor.txt")).expect("lines");
    assert_eq!(file[..6], demo[..6]);
    assert_eq!(file[8..], demo[8..file.len()]);
    assert_eq!(line_of(&file, 0), line_of(&demo, 0));
}

/// Equation (43) from the ends of the present and of the changed line, in
/// hundred-thousandths to the nearest.
fn by_equation_43(expected: u64, changed: u64, present: u64) -> u64 {
    let millionths = u128::from(expected) * u128::from(changed) / u128::from(present);
    ((millionths + 5) / 10) as u64
}

#[test]
fn changed_road() {
    let readme = text_of("README.md");
    let demo = text_of("demo/corridor.txt");
    let (old, new) = between(&readme, "sed 's/", "/' demo/corridor.txt")
        .split_once('/')
        .expect("what is changed");
    assert_eq!(demo.matches(old).count(), 1);
    let (present, changed) = (third(&demo), third(&demo.replace(old, new)));
    assert_eq!(
        changed,
        numbers(between(&readme, "This prints `", "`. The changed"))
    );
    let stated: u64 = between(&readme, "= **", "**")
        .replace('.', "")
        .parse()
        .expect("a figure");
    assert_eq!(by_equation_43(present[2], changed[0], present[1]), stated);
    assert_eq!(by_equation_43(present[3], changed[1], present[0]), stated);
    // What the engine prints with the history kept is another figure.
    assert!(changed[2] > 10 * (stated + 1));
}
