//! Runs a program on generated files and judges what it prints.

use crate::checker::report_faults;
use crate::generate::{damaged_file, largest_project, project, Random};
use crate::project::{parse_project, write_project};
use crate::report::parse_report;
use std::io::{self, Read, Write};
use std::process::{Command, Stdio};

/// The depths at which reports are checked.
pub const DEPTHS: [u32; 5] = [1, 2, 3, 6, 9];

/// How many depths each file is checked at.
const DEPTHS_A_FILE: usize = 3;

/// Files of more sites than this are checked at one depth.
const MANY_SITES: usize = 100;

/// From this many projects on, the first is of the largest size.
const COUNT_FOR_LARGEST: usize = 50;

/// Passed and failed files, and how often each refusal was asked for.
#[derive(Clone, Debug, Default)]
pub struct Tally {
    pub passed: usize,
    pub failed: usize,
    /// Files by outcome: index 0 accepted, otherwise the refusal's number.
    pub outcomes: [usize; 11],
}

/// What a program prints for an input.
pub fn run(program: &str, input: &[u8]) -> io::Result<String> {
    let mut child = Command::new(program)
        .stdin(Stdio::piped())
        .stdout(Stdio::piped())
        .spawn()?;
    let mut stdin = child.stdin.take().expect("a piped input");
    let mut stdout = child.stdout.take().expect("a piped output");
    let mut output = Vec::new();
    // A thread writes, so that neither side waits for the other's pipe. A
    // program that stops reading early is judged by what it prints.
    std::thread::scope(|scope| {
        scope.spawn(move || drop(stdin.write_all(input)));
        stdout.read_to_end(&mut output)
    })?;
    let status = child.wait()?;
    if status.code().is_none() {
        return Err(io::Error::other(format!("stopped: {status}")));
    }
    String::from_utf8(output).map_err(io::Error::other)
}

/// Judges a program's output for an input: nothing where it is right,
/// otherwise what is wrong.
pub fn judge(input: &[u8], output: &str, depths: &[u32]) -> Result<(), String> {
    let project = match parse_project(input) {
        Err(refusal) => {
            let wanted = format!("{refusal}\n");
            let right = output == wanted;
            return right
                .then_some(())
                .ok_or_else(|| format!("printed {output:?}, not {wanted:?}"));
        }
        Ok(project) => project,
    };
    let report = parse_report(output)?;
    let faults = report_faults(project.header.model(), &project, &report, depths);
    match faults.first() {
        None => Ok(()),
        Some(fault) => Err(format!("{fault} ({} faults)", faults.len())),
    }
}

/// A choice of depths for one file. Over many files each comes up often.
fn depths_for(random: &mut Random, input: &[u8]) -> Vec<u32> {
    let sites = parse_project(input).map_or(0, |project| project.sites.len());
    let count = if sites > MANY_SITES { 1 } else { DEPTHS_A_FILE };
    let first = random.below(DEPTHS.len());
    let step = 1 + random.below(DEPTHS.len() - 1);
    (0..count)
        .map(|i| DEPTHS[(first + i * step) % DEPTHS.len()])
        .collect()
}

fn hex(bytes: &[u8]) -> String {
    const SHOWN: usize = 400;
    let shown: String = bytes
        .iter()
        .take(SHOWN)
        .map(|b| format!("{b:02x}"))
        .collect();
    let more = if bytes.len() > SHOWN { "..." } else { "" };
    format!("{shown}{more}")
}

/// Runs the program on one file and counts the outcome; says what failed.
fn try_file(program: &str, input: &[u8], depths: &[u32], tally: &mut Tally) -> Option<String> {
    let outcome = parse_project(input).map_or_else(|refusal| refusal.number, |_| 0);
    tally.outcomes[usize::from(outcome)] += 1;
    let judged = run(program, input)
        .map_err(|error| format!("{program}: {error}"))
        .and_then(|output| judge(input, &output, depths));
    match judged {
        Ok(()) => {
            tally.passed += 1;
            None
        }
        Err(what) => {
            tally.failed += 1;
            Some(format!("failed: {what}\n  input {}", hex(input)))
        }
    }
}

/// Runs the program on `count` projects and on `count` damaged files. Failures
/// are handed to `tell`.
pub fn check(program: &str, count: usize, seed: u64, mut tell: impl FnMut(&str)) -> Tally {
    let mut random = Random::new(seed);
    let mut tally = Tally::default();
    for index in 0..2 * count {
        let input = if index >= count {
            damaged_file(&mut random)
        } else {
            let project = if index == 0 && count >= COUNT_FOR_LARGEST {
                largest_project(&mut random)
            } else {
                project(&mut random)
            };
            write_project(&project).expect("a project that the writer takes")
        };
        let depths = depths_for(&mut random, &input);
        if let Some(failure) = try_file(program, &input, &depths, &mut tally) {
            tell(&failure);
        }
    }
    tally
}
