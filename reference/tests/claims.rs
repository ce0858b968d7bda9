//! What the documents cite is there: each file, and in it a definition of each
//! name. A failure has all that is missing, each as `path#name`.

use std::collections::HashSet;
use std::fs;
use std::path::{Path, PathBuf};

const PAGES: [&str; 7] = [
    "README.md",
    "docs/ARCHITECTURE.md",
    "docs/CHANGES.md",
    "docs/CLAIMS.md",
    "docs/DECISIONS.md",
    "docs/REVIEW.md",
    "docs/SPEED.md",
];

/// Names and files that the pages cite at least.
const FEWEST: usize = 450;

/// Where a path starts that has to exist wherever it is written.
const ROOTS: [&str; 7] = [
    "crates/",
    "docs/",
    "reference/",
    "demo/",
    "examples/",
    "include/",
    "tools/",
];

/// Words that may stand before the name of a definition, and those that make
/// one of what follows.
const MARKS: [&str; 7] = [
    "pub",
    "abbrev",
    "unfoldable",
    "extern",
    "\"C\"",
    "infix",
    "module",
];
const DEFINERS: [&str; 7] = ["record", "data", "fn", "const", "enum", "struct", "type"];

fn root() -> PathBuf {
    Path::new(env!("CARGO_MANIFEST_DIR")).join("..")
}

fn text_of(path: &str) -> Option<String> {
    fs::read_to_string(root().join(path)).ok()
}

/// What stands between backticks, with the text before it.
fn quoted(text: &str) -> Vec<(&str, &str)> {
    let mut found = Vec::new();
    let mut at = 0;
    while let Some(open) = text[at..].find('`').map(|i| at + i) {
        let Some(close) = text[open + 1..].find('`').map(|i| open + 1 + i) else {
            break;
        };
        found.push((&text[..open], &text[open + 1..close]));
        at = close + 1;
    }
    found
}

/// The name that a line of a source file defines.
fn defined(line: &str, is_spec: bool) -> Option<&str> {
    let mut rest = line.trim_start();
    let mut is_definer = false;
    loop {
        let word = rest.split(' ').next().unwrap_or("");
        if DEFINERS.contains(&word) {
            is_definer = true;
        } else if !MARKS.contains(&word) {
            break;
        }
        rest = rest[word.len()..].trim_start();
    }
    let end = if is_spec {
        rest.find(' ')?
    } else {
        rest.find(|c: char| !c.is_alphanumeric() && c != '_')?
    };
    let has_type = is_spec && (rest[end..].starts_with(" : ") || &rest[end..] == " :");
    (is_definer || has_type).then_some(&rest[..end])
}

/// The names that a file defines.
fn definitions(path: &str, text: &str) -> HashSet<String> {
    let is_spec = path.ends_with(".antt");
    text.lines()
        .filter_map(|line| defined(line, is_spec))
        .map(str::to_owned)
        .collect()
}

/// Whether a heading or a bold text that starts a paragraph begins so.
fn has_heading(text: &str, phrase: &str) -> bool {
    text.lines().any(|line| {
        let heading = line
            .starts_with("## ")
            .then(|| line.trim_start_matches("## "));
        let bold = line.trim_start_matches("- ").strip_prefix("**");
        heading
            .or(bold)
            .is_some_and(|title| title.starts_with(phrase))
    })
}

/// The files below a folder with an extension, as paths from the root.
fn files_below(folder: &Path, extension: &str) -> Vec<PathBuf> {
    let entries = fs::read_dir(folder).into_iter().flatten();
    entries
        .flat_map(|entry| {
            let path = entry.expect("a file").path();
            let is_found = path.extension().is_some_and(|found| found == extension);
            if path.is_dir() {
                files_below(&path, extension)
            } else {
                is_found.then_some(path).into_iter().collect()
            }
        })
        .collect()
}

/// The files of the crates that define a name: where a definition that is
/// missing may have gone.
fn elsewhere(name: &str) -> Vec<String> {
    let crates = root().join("crates");
    let files = ["antt", "rt"].map(|extension| files_below(&crates, extension));
    let defining = files.concat().into_iter().filter(|file| {
        let text = fs::read_to_string(file).expect("a source file");
        definitions(&file.to_string_lossy(), &text).contains(name)
    });
    defining
        .map(|file| {
            let path = file.strip_prefix(root()).expect("a path below the root");
            path.to_string_lossy().into_owned()
        })
        .collect()
}

/// The parts of a citation, `FILE` or `FILE#NAME,NAME`, each as `FILE` or
/// `FILE#NAME`, and those that are not there.
fn try_citation(citation: &str) -> (usize, Vec<String>) {
    let (path, names) = citation.split_once('#').unwrap_or((citation, ""));
    let text = text_of(path);
    if names.is_empty() {
        let is_there = root().join(path).exists();
        return (
            1,
            (!is_there).then(|| path.to_owned()).into_iter().collect(),
        );
    }
    if path.ends_with(".md") {
        let is_there = text.is_some_and(|text| has_heading(&text, names));
        let missing = (!is_there).then(|| citation.to_owned());
        return (1, missing.into_iter().collect());
    }
    let here = definitions(path, &text.unwrap_or_default());
    let missing = names
        .split(',')
        .filter(|name| !here.contains(*name))
        .map(|name| match elsewhere(name).join(", ") {
            found if found.is_empty() => format!("{path}#{name}"),
            found => format!("{path}#{name} (defined in {found})"),
        })
        .collect();
    (names.split(',').count(), missing)
}

/// A citation has a name after a path, or is a path from the root that no
/// command makes.
fn is_citation(text: &str) -> bool {
    let is_path = ROOTS.iter().any(|start| text.starts_with(start))
        && !text.ends_with('/')
        && !text.contains(['*', ' '])
        && !text.contains("/target/");
    is_path
        || text == "crates.txt"
        || (text.contains('#') && text != "#" && !text.starts_with("FILE#"))
}

#[test]
fn every_citation_is_there() {
    let mut count = 0;
    let mut missing = Vec::new();
    for page in PAGES {
        let text = text_of(page).expect("a page");
        let quoted = quoted(&text).into_iter().map(|(_, text)| text);
        for citation in quoted.filter(|text| is_citation(text)) {
            let (tried, wrong) = try_citation(citation);
            count += tried;
            missing.extend(wrong.into_iter().map(|wrong| format!("{page}: {wrong}")));
        }
    }
    assert!(missing.is_empty(), "not there:\n{}", missing.join("\n"));
    assert!(count >= FEWEST, "{count} citations, fewer than {FEWEST}");
}

/// Each row of `docs/CLAIMS.md` has something in its last cell that is cited.
#[test]
fn every_row_has_an_answer() {
    let claims = text_of("docs/CLAIMS.md").expect("docs/CLAIMS.md");
    let rows: Vec<_> = claims
        .lines()
        .filter(|line| line.starts_with("| ") && !line.starts_with("| Document 0"))
        .collect();
    let empty: Vec<_> = rows
        .iter()
        .filter(|row| {
            let answer = row
                .trim_end_matches(" |")
                .rsplit(" | ")
                .next()
                .unwrap_or("");
            let cites = quoted(answer).iter().any(|(_, text)| is_citation(text));
            !cites && !answer.contains("**Document 02.**")
        })
        .collect();
    assert!(!rows.is_empty() && empty.is_empty(), "{empty:#?}");
}

/// The must-fail edits, as `crate/name`.
fn edits() -> HashSet<String> {
    let files = files_below(&root().join("crates"), "edit");
    let named = files.iter().map(|file| {
        let name = |path: &Path| path.file_stem().unwrap().to_string_lossy().into_owned();
        let folder = file.parent().and_then(Path::parent).expect("a crate");
        format!("{}/{}", name(folder), name(file))
    });
    named.collect()
}

/// The review cites an edit as `crate/name`: each is there, and none is left
/// out.
#[test]
fn the_review_has_every_edit() {
    let page = text_of("docs/REVIEW.md").expect("docs/REVIEW.md");
    let edits = edits();
    let is_crate = |name: &str| root().join("crates").join(name).exists();
    let cited: HashSet<_> = quoted(&page)
        .into_iter()
        .map(|(_, text)| text.to_owned())
        .filter(|text| text.split_once('/').is_some_and(|(name, _)| is_crate(name)))
        .collect();
    let gone = cited.difference(&edits);
    let left = edits.difference(&cited);
    let wrong: Vec<_> = gone
        .map(|edit| format!("cited, and not there: {edit}"))
        .chain(left.map(|edit| format!("there, and not cited: {edit}")))
        .collect();
    assert!(wrong.is_empty(), "{}", wrong.join("\n"));
    assert!(cited.len() >= 60, "{} edits", cited.len());
}

/// The functions of every crate, by name.
fn functions() -> HashSet<String> {
    let mut names = HashSet::new();
    for file in files_below(&root().join("crates"), "rt") {
        let text = fs::read_to_string(&file).expect("a source file");
        for line in text.lines() {
            if let Some((_, rest)) = line.split_once("fn ") {
                names.extend(rest.split(['(', '<']).next().map(str::to_owned));
            }
        }
    }
    names
}

/// The first column of the review's tables names calls that are there, or crates.
#[test]
fn the_review_names_calls_that_are_there() {
    let page = text_of("docs/REVIEW.md").expect("docs/REVIEW.md");
    let functions = functions();
    let is_crate = |name: &str| root().join("crates").join(name).exists();
    let first_cells = page.lines().filter(|line| line.starts_with("| `"));
    let named: Vec<_> = first_cells
        .filter_map(|line| line.split('|').nth(1))
        .flat_map(|cell| cell.split('`').skip(1).step_by(2).collect::<Vec<_>>())
        .collect();
    let gone: Vec<_> = named
        .iter()
        .filter(|name| {
            !functions.contains(name.rsplit("::").next().unwrap_or("")) && !is_crate(name)
        })
        .collect();
    assert!(gone.is_empty(), "no such call: {gone:?}");
    assert!(named.len() >= 40, "{} calls", named.len());
}
