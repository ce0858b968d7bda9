//! What a user types: the help, wrong words, and files or standard input.

mod running;

use running::{refusal, run, text, SIGNAL};
use std::fs;
use std::path::PathBuf;

/// The demo by edition, and from its other end.
const DEMOS: [&str; 3] = [
    "demo/corridor",
    "demo/corridor_manual",
    "demo/corridor_reversed",
];

/// A file of the demo.
fn stored(name: &str) -> Vec<u8> {
    let root = PathBuf::from(env!("CARGO_MANIFEST_DIR")).join("..");
    fs::read(root.join(name)).expect("a file of the demo")
}

/// What a command prints for a file by its name, by `-` and by no name. All
/// three must be the same.
fn by_name_and_by_input(command: &str, file: &str, rest: &[&str]) -> Vec<u8> {
    let words = |name: &[&'static str]| [&[command], name, rest].concat().join(" ");
    let runs = [
        run(&[&[command, file], rest].concat(), &[]),
        run(&[&[command, "-"], rest].concat(), &stored(file)),
        run(&[&[command], rest].concat(), &stored(file)),
    ];
    for (found, name) in runs.iter().zip([&["FILE"][..], &["-"], &[]]) {
        assert!(found.status.success(), "{}: {found:?}", words(name));
        assert_eq!(found.stdout, runs[0].stdout, "{}", words(name));
    }
    runs[0].stdout.clone()
}

#[test]
fn every_command_takes_a_file_or_standard_input_and_a_project_or_its_lines() {
    for demo in DEMOS {
        let [lines, project] = ["txt", "project"].map(|end| format!("{demo}.{end}"));
        let made = by_name_and_by_input("make", &lines, &[]);
        assert_eq!(made, stored(&project), "{demo}");
        for (command, rest) in [("dump", &[][..]), ("report", &[]), ("estimate", &["2"])] {
            let [of_lines, of_project] =
                [&lines, &project].map(|file| by_name_and_by_input(command, file, rest));
            assert!(!of_lines.is_empty());
            assert_eq!(of_lines, of_project, "{command} of {demo}");
        }
    }
}

#[test]
fn help_is_printed_with_status_0() {
    let help = text(&run(&["help"], &[]));
    for arguments in [
        &["help"][..],
        &["--help"],
        &["-h"],
        &["help", "make"],
        &["estimate", "--help"],
        &["check", "-h"],
    ] {
        let output = run(arguments, &[]);
        assert_eq!(output.status.code(), Some(0), "{arguments:?}");
        assert_eq!(output.stderr, b"", "{arguments:?}");
        assert_eq!(text(&output), help, "{arguments:?}");
    }
    assert!(help.starts_with("usage: reference COMMAND"));
    // Without a command the same text is told as a fault.
    assert_eq!(refusal(&[], &[]), help.trim_end());
}

/// The examples of the help, a command each.
#[test]
fn examples_of_the_help_run() {
    let help = text(&run(&["help"], &[]));
    let examples: Vec<Vec<&str>> = help
        .lines()
        .filter_map(|line| line.strip_prefix("  reference "))
        .map(|line| line.split(" > ").next().unwrap_or(line))
        .map(|line| line.split(' ').collect())
        .collect();
    let commands: Vec<&str> = examples.iter().map(|words| words[0]).collect();
    assert_eq!(
        commands,
        ["make", "dump", "report", "estimate", "check", "stored", "figures"]
    );
    for words in examples {
        // The engine's program may not be there: any program is judged.
        let words: Vec<&str> = words
            .into_iter()
            .map(|word| match word {
                "target/bin/crash_report" => "true",
                word => word,
            })
            .collect();
        let output = run(&words, &[]);
        assert_eq!(output.stderr, b"", "{words:?}");
        assert_ne!(output.stdout, b"", "{words:?}");
        let is_check = words[0] == "check";
        assert_eq!(output.status.success(), !is_check, "{words:?}");
        let counted = output.stdout.ends_with(b"0 passed, 200 failed\n");
        assert_eq!(counted, is_check, "{words:?}");
    }
}

/// Arguments that are wrong, and what is told of them.
const WRONG: [(&[&str], &str); 14] = [
    (
        &["maek"],
        "no such command: 'maek'; the commands are make, dump, report, estimate, check, stored, \
         figures, help",
    ),
    (
        &["make", "a", "b"],
        "wrong number of arguments: 2; the use is: reference make [FILE]",
    ),
    (
        &["report", "a", "b"],
        "wrong number of arguments: 2; the use is: reference report [FILE]",
    ),
    (
        &["estimate"],
        "wrong number of arguments: 0; the use is: reference estimate [FILE] DEPTH",
    ),
    (
        &["check", "true"],
        "wrong number of arguments: 1; the use is: reference check PROGRAM N SEED",
    ),
    (
        &["figures", "1"],
        "wrong number of arguments: 1; the use is: reference figures",
    ),
    (
        &["dump", "--deep", "a"],
        "no such option: '--deep'; the use is: reference dump [FILE]",
    ),
    (
        &["report", "-v"],
        "no such option: '-v'; the use is: reference report [FILE]",
    ),
    (
        &["stored", "roots"],
        "no such name: 'roots'; the names are powers, logarithms, exponentials, bases-one, \
         bases-two, hazards",
    ),
    (
        &["stored", "bases"],
        "no such name: 'bases'; the names are powers, logarithms, exponentials, bases-one, \
         bases-two, hazards",
    ),
    (
        &["check", "true", "0", "1"],
        "N is '0'; it must be a whole number from 1",
    ),
    (
        &["check", "true", "1", "one"],
        "SEED is 'one'; it must be a whole number from 0",
    ),
    (
        &["estimate", "demo/corridor.project"],
        "the depth is 'demo/corridor.project'; it must be a number from 1 to 100",
    ),
    (
        &["make", "demo/corridor.project"],
        "make takes lines, and this is no text; the lines of a project file are printed by: \
         reference dump [FILE]",
    ),
];

#[test]
fn a_wrong_word_is_named() {
    for (arguments, wanted) in WRONG {
        assert_eq!(refusal(arguments, &SIGNAL), wanted, "{arguments:?}");
    }
    for depth in ["0", "101", "4294967295", "-1", "deep"] {
        let message = refusal(&["estimate", "-", depth], &SIGNAL);
        let wanted = format!("the depth is '{depth}'; it must be a number from 1 to 100");
        assert_eq!(message, wanted);
    }
    for command in [&["dump", "/dev/null/none"][..], &["make", "/dev/null/none"]] {
        let message = refusal(command, &[]);
        assert!(message.starts_with("/dev/null/none: "), "{message}");
    }
    let output = run(&["check", "/dev/null/none", "1", "1"], &[]);
    assert!(text(&output).starts_with("failed: /dev/null/none: "));
}

/// The commands that take lines.
const OF_LINES: [&[&str]; 4] = [&["make"], &["dump"], &["report"], &["estimate", "2"]];

#[test]
fn a_byte_order_mark_is_told() {
    let lines = stored("demo/corridor.txt");
    let utf16 = |of: fn(u16) -> [u8; 2]| {
        let units = lines.iter().map(|byte| u16::from(*byte));
        [0xFEFF].into_iter().chain(units).flat_map(of).collect()
    };
    let marked: [Vec<u8>; 3] = [
        [&b"\xEF\xBB\xBF"[..], &lines].concat(),
        utf16(u16::to_le_bytes),
        utf16(u16::to_be_bytes),
    ];
    for text in marked {
        for command in OF_LINES {
            assert_eq!(
                refusal(command, &text),
                "line 1: the text starts with a byte-order mark; save it as UTF-8 without one",
                "{command:?}"
            );
        }
    }
}

/// A control character after the first eight bytes is a fault of its line, and
/// among them it makes a project file of a text.
#[test]
fn lines_are_told_from_a_project_file_by_their_first_bytes() {
    for command in OF_LINES {
        let message = refusal(command, b"edition 1\nyears\x071\n");
        let wanted = r#"line 2: this must be `years NUMBER`, not "years\u{7}1""#;
        assert_eq!(message, wanted, "{command:?}");
        // No first byte makes lines of a project file.
        for first in (0..=255).filter(|first| ![1, 2].contains(first)) {
            let file = [&[first], &SIGNAL[1..]].concat();
            let message = match command {
                ["report"] => text(&run(command, &file)),
                _ => refusal(command, &file),
            };
            let wanted = match command {
                ["make"] => "make takes lines, and this is no text;",
                ["report"] => "refused 3 at 0\n",
                _ => "refused 3 at byte 0: ",
            };
            assert!(message.starts_with(wanted), "{command:?}: {message}");
        }
    }
}
