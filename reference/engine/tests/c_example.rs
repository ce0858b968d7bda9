//! The C example, compiled against the header and the archive, prints the demo
//! corridor's report by each edition, and refusals as the program does, and finds each file
//! again that it writes from a file's sites. What it cannot read it tells.

use engine::program::full_project;
use engine::projects::project_into;
use reference::report::print_report;
use reference::rules::{EDITIONS, MOST_SITES};
use std::fs;
use std::path::{Path, PathBuf};
use std::process::Command;

fn root() -> PathBuf {
    Path::new(env!("CARGO_MANIFEST_DIR")).join("../..")
}

/// Compiles the example without a warning and gives its path.
fn compiled(name: &str) -> PathBuf {
    let program = Path::new(env!("CARGO_TARGET_TMPDIR")).join(name);
    let status = Command::new("cc")
        .args([
            "-std=c99",
            "-Wall",
            "-Wextra",
            "-Werror",
            "-pedantic",
            "-O2",
        ])
        .arg("-I")
        .arg(root().join("include"))
        .arg(root().join("examples/corridor.c"))
        .arg(root().join("target/staticlib/libunit.a"))
        .arg("-o")
        .arg(&program)
        .status()
        .expect("a C compiler");
    assert!(status.success());
    program
}

fn printed(program: &Path, project: &Path) -> String {
    let output = Command::new(program)
        .arg(project)
        .output()
        .expect("the example runs");
    assert!(output.status.success(), "{output:?}");
    String::from_utf8(output.stdout).expect("text")
}

#[test]
fn demo_corridor() {
    let program = compiled("corridor");
    for name in ["corridor", "corridor_manual"] {
        let file = |kind: &str| root().join("demo").join(name).with_extension(kind);
        let report = fs::read_to_string(file("report")).expect("the stored report");
        assert_eq!(printed(&program, &file("project")), report, "{name}");
    }
}

/// A project file of the tests' own.
fn stored(name: &str, bytes: &[u8]) -> PathBuf {
    let path = Path::new(env!("CARGO_TARGET_TMPDIR")).join(name);
    fs::write(&path, bytes).expect("a file to write");
    path
}

#[test]
fn refused_file() {
    let project = stored("refused.project", &[3, 1, 0, 1, 0, 1, 0, 0]);
    assert_eq!(printed(&compiled("refused"), &project), "refused 3 at 0\n");
}

/// A folder is opened and cannot be read; a file that is not there is not opened.
#[test]
fn what_cannot_be_read() {
    let program = compiled("unread");
    for path in ["", "no_such.project"] {
        let output = Command::new(&program)
            .arg(Path::new(env!("CARGO_TARGET_TMPDIR")).join(path))
            .output()
            .expect("the example runs");
        assert_eq!(output.status.code(), Some(2), "{path}");
        assert!(output.stdout.is_empty(), "{output:?}");
        assert_eq!(output.stderr, b"corridor: reading failed\n");
    }
}

#[test]
fn surveys_of_no_site_and_of_the_most() {
    let program = compiled("surveys");
    for edition in EDITIONS {
        for sites in [0, 1, MOST_SITES] {
            let file = full_project(edition, sites);
            let mut report = vec![0; 4 * (sites + 1)];
            assert_eq!(project_into(&file, &mut report), Ok(report.len()));
            let project = stored("survey.project", &file);
            assert_eq!(printed(&program, &project), print_report(&report));
        }
    }
}
