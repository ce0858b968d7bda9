//! Runs of the reference's commands, as a user runs them.

use std::io::Write;
use std::path::PathBuf;
use std::process::{Command, Output, Stdio};

pub const REFERENCE: &str = env!("CARGO_BIN_EXE_reference");

/// Document 01's accepted signal.
pub const SIGNAL: [u8; 17] = [
    1, 5, 3, 0xE8, 3, 0xE8, 0, 1, 3, 0, 7, 0x27, 0x10, 3, 0xE8, 0, 5,
];

/// A run in the root of the project.
pub fn run(arguments: &[&str], input: &[u8]) -> Output {
    let mut child = Command::new(REFERENCE)
        .args(arguments)
        .current_dir(PathBuf::from(env!("CARGO_MANIFEST_DIR")).join(".."))
        .stdin(Stdio::piped())
        .stdout(Stdio::piped())
        .stderr(Stdio::piped())
        .spawn()
        .expect("the reference runs");
    let mut stdin = child.stdin.take().expect("a piped input");
    // A command that reads no input may end before it is written.
    let _ = stdin.write_all(input);
    drop(stdin);
    child.wait_with_output().expect("the reference ends")
}

pub fn text(output: &Output) -> String {
    String::from_utf8(output.stdout.clone()).expect("printed text")
}

/// A command that ends with a message and a status that is not 0, having
/// printed nothing.
pub fn refusal(arguments: &[&str], input: &[u8]) -> String {
    let output = run(arguments, input);
    assert_eq!(output.status.code(), Some(1), "{arguments:?} {output:?}");
    assert_eq!(text(&output), "", "{arguments:?}");
    let message = String::from_utf8(output.stderr).expect("a message");
    assert!(!message.contains("panicked"), "{message}");
    message.trim_end().to_string()
}
