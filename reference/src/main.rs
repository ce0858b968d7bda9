//! Commands of the reference; `reference` alone prints the usage.

use reference::estimates::Estimates;
use reference::model::{FIRST_EDITION, SECOND_EDITION};
use reference::natural::Natural;
use reference::prediction::{report, site_estimates};
use reference::program::{check, Tally};
use reference::project::{parse_project, Project};
use reference::record::Refusal;
use reference::report::print_report;
use reference::sum::Sum;
use reference::{figures, lines, stored};
use std::io::{ErrorKind, Read, Write};
use std::num::NonZeroUsize;
use std::process::ExitCode;

const USAGE: &str = include_str!("usage.txt");

/// The commands in the order of the usage, with their arguments.
const COMMANDS: [(&str, &str); 8] = [
    ("make", " [FILE]"),
    ("dump", " [FILE]"),
    ("report", " [FILE]"),
    ("estimate", " [FILE] DEPTH"),
    ("check", " PROGRAM N SEED"),
    ("stored", " NAME"),
    ("figures", ""),
    ("help", ""),
];

/// The depth of the reference's own report: its pairs are far narrower than
/// allowed.
const REPORT_DEPTH: u32 = 9;

/// The greatest depth that `estimate` takes: a dozen sites took 13 seconds.
const MOST_DEPTH: u32 = 100;

/// The file name that means standard input.
const STANDARD_INPUT: &str = "-";

/// Decimal places that `estimate` prints.
const PLACES: u32 = 12;

/// A command's exit status, or what it tells on standard error.
type Outcome = Result<ExitCode, String>;

fn main() -> ExitCode {
    let given = std::env::args_os().skip(1);
    let arguments: Vec<String> = given.map(|word| word.to_string_lossy().into()).collect();
    let words: Vec<&str> = arguments.iter().map(String::as_str).collect();
    let outcome = match words.split_first() {
        Some((command, rest)) => run(command, rest),
        None => Err(USAGE.to_string()),
    };
    outcome.unwrap_or_else(|message| {
        // Where even this cannot be written there is nobody to tell.
        let _ = writeln!(std::io::stderr(), "{}", message.trim_end());
        ExitCode::FAILURE
    })
}

/// Runs a command with its arguments, or tells what is wrong with them.
fn run(command: &str, arguments: &[&str]) -> Outcome {
    let asks = |word: &&str| ["--help", "-h"].contains(word);
    if command == "help" || asks(&command) || arguments.iter().any(asks) {
        return print(USAGE);
    }
    let known = COMMANDS.iter().find(|(name, _)| *name == command);
    let (_, form) = known.ok_or_else(|| no_such("command", command, &COMMANDS))?;
    let form = format!("the use is: reference {command}{form}");
    if let Some(option) = arguments.iter().find(|word| is_option(word)) {
        return Err(format!("no such option: '{option}'; {form}"));
    }
    match (command, arguments) {
        ("make", []) => make(STANDARD_INPUT),
        ("make", [file]) => make(file),
        ("dump", []) => dump(STANDARD_INPUT),
        ("dump", [file]) => dump(file),
        ("report", []) => print_own_report(STANDARD_INPUT),
        ("report", [file]) => print_own_report(file),
        ("estimate", [depth]) => estimate(STANDARD_INPUT, depth),
        ("estimate", [file, depth]) => estimate(file, depth),
        ("check", [program, count, seed]) => check_program(program, count, seed),
        ("stored", [name]) => print_stored(name),
        ("figures", []) => print(figures::figures()),
        _ => {
            let count = arguments.len();
            Err(format!("wrong number of arguments: {count}; {form}"))
        }
    }
}

/// A word that is taken for an option: no file's name, no `-` and no number.
fn is_option(word: &str) -> bool {
    word.strip_prefix('-')
        .is_some_and(|rest| rest.starts_with(|c: char| c == '-' || c.is_alphabetic()))
}

/// That a word is none of those known, which are told.
fn no_such<T>(what: &str, word: &str, known: &[(&str, T)]) -> String {
    let names: Vec<&str> = known.iter().map(|(name, _)| *name).collect();
    let names = names.join(", ");
    format!("no such {what}: '{word}'; the {what}s are {names}")
}

/// Prints the whole of an output. A reader that has closed its pipe wants no
/// more of it.
fn print(output: impl AsRef<[u8]>) -> Outcome {
    let mut stdout = std::io::stdout().lock();
    let written = stdout.write_all(output.as_ref());
    match written.and_then(|()| stdout.flush()) {
        Err(error) if error.kind() != ErrorKind::BrokenPipe => {
            Err(format!("standard output: {error}"))
        }
        _ => Ok(ExitCode::SUCCESS),
    }
}

/// A name and what it prints the numbers of.
type Stored = (&'static str, fn() -> Vec<u64>);

/// The numbers that the engine stores, by name.
const STORED: [Stored; 6] = [
    ("powers", stored::powers),
    ("logarithms", stored::logarithms),
    ("exponentials", stored::exponentials),
    ("bases-one", || stored::bases(&FIRST_EDITION)),
    ("bases-two", || stored::bases(&SECOND_EDITION)),
    ("hazards", stored::hazards),
];

fn print_stored(name: &str) -> Outcome {
    let known = STORED.iter().find(|(known, _)| *known == name);
    let (_, numbers) = known.ok_or_else(|| no_such("name", name, &STORED))?;
    let text: String = numbers()
        .iter()
        .map(|number| format!("{number}\n"))
        .collect();
    print(text)
}

fn read_input(path: &str) -> Result<Vec<u8>, String> {
    let mut bytes = Vec::new();
    let read = if path == STANDARD_INPUT {
        std::io::stdin().read_to_end(&mut bytes).map(|_| ())
    } else {
        std::fs::read(path).map(|found| bytes = found)
    };
    read.map_err(|error| format!("{path}: {error}"))?;
    Ok(bytes)
}

/// Why there is no project.
enum Refused {
    /// The reader refuses the file.
    File(Refusal),
    /// The lines, or the input, have the fault told.
    Told(String),
}

impl From<String> for Refused {
    fn from(what: String) -> Refused {
        Refused::Told(what)
    }
}

impl From<Refused> for String {
    fn from(refused: Refused) -> String {
        match refused {
            Refused::File(refusal) => refusal.in_words(),
            Refused::Told(what) => what,
        }
    }
}

/// A project from a file or from lines, refused as the reader refuses a file
/// and `make` refuses lines.
fn read_either(path: &str) -> Result<Project, Refused> {
    let bytes = read_input(path)?;
    if lines::are_lines(&bytes) {
        Ok(lines::parse(lines::text_of(&bytes)?)?)
    } else {
        parse_project(&bytes).map_err(Refused::File)
    }
}

fn dump(path: &str) -> Outcome {
    print(lines::dump(&read_either(path)?))
}

fn make(path: &str) -> Outcome {
    let bytes = read_input(path)?;
    if !bytes.is_empty() && !lines::are_lines(&bytes) {
        let told = "make takes lines, and this is no text; the lines of a project file are \
                    printed by: reference dump [FILE]";
        return Err(told.to_string());
    }
    print(lines::make(lines::text_of(&bytes)?)?)
}

/// A file's refusal is printed as the engine's program prints it, and told in
/// words.
fn print_own_report(path: &str) -> Outcome {
    let project = read_either(path);
    if let Err(Refused::File(refusal)) = &project {
        print(format!("{refusal}\n"))?;
    }
    let project = project?;
    let model = project.header.model();
    print(print_report(&report(model, &project, REPORT_DEPTH)))
}

fn estimate(path: &str, depth: &str) -> Outcome {
    let asked = depth.parse().ok();
    let asked = asked.filter(|depth| (1..=MOST_DEPTH).contains(depth));
    let wrong = || format!("the depth is '{depth}'; it must be a number from 1 to {MOST_DEPTH}");
    let depth = asked.ok_or_else(wrong)?;
    print(estimate_lines(&read_either(path)?, depth))
}

/// A whole number of 10^-12 as a decimal.
fn decimal(number: &Natural) -> String {
    let (whole, part) = number.divide(&Natural::power_of_ten(PLACES));
    format!("{whole}.{part:0>width$}", width = PLACES as usize)
}

fn estimate_lines(project: &Project, depth: u32) -> String {
    let mut text = String::new();
    let mut sums = [(); 4].map(|()| Sum::default());
    for (index, site) in project.sites.iter().enumerate() {
        let estimates = site_estimates(project.header.model(), &project.header, site, depth);
        let (predicted, expected) = (&estimates.predicted, &estimates.expected);
        text.push_str(&format!(
            "site {} predicted {} expected {}\n",
            index + 1,
            pair(predicted),
            pair(expected)
        ));
        let four = [predicted, expected].map(|e| [e.under.clone(), e.over.clone()]);
        for (sum, estimate) in sums.iter_mut().zip(four.into_iter().flatten()) {
            sum.push(estimate);
        }
    }
    let totals = sums.map(|sum| sum.floor_parts(&Natural::power_of_ten(PLACES)));
    // An over-estimate's cut parts fall short by less than one for each site.
    let sites = Natural::from(project.sites.len() as u64);
    text.push_str(&format!(
        "totals predicted {} {} expected {} {}\n",
        decimal(&totals[0]),
        decimal(&(&totals[1] + &sites)),
        decimal(&totals[2]),
        decimal(&(&totals[3] + &sites)),
    ));
    text
}

/// A pair of estimates, rounded outward.
fn pair(estimates: &Estimates) -> String {
    let scale = Natural::power_of_ten(PLACES);
    let under = estimates.under.floor_scaled(&scale);
    let over = estimates.over.ceil_scaled(&scale);
    format!("{} {}", decimal(&under), decimal(&over))
}

fn check_program(program: &str, count: &str, seed: &str) -> Outcome {
    // A run of no file would pass whatever the program prints.
    let wrong =
        |name, word, least| format!("{name} is '{word}'; it must be a whole number from {least}");
    let files: NonZeroUsize = count.parse().map_err(|_| wrong("N", count, 1))?;
    let seed: u64 = seed.parse().map_err(|_| wrong("SEED", seed, 0))?;
    let tally = check(program, files.get(), seed, |failure| {
        // What cannot be written is counted at the end all the same.
        let _ = print(format!("{failure}\n"));
    });
    let Tally { passed, failed, .. } = tally;
    print(format!(
        "{}\n{passed} passed, {failed} failed\n",
        outcomes(&tally)
    ))?;
    Ok(if failed == 0 {
        ExitCode::SUCCESS
    } else {
        ExitCode::FAILURE
    })
}

/// How many files were to be accepted and refused, by number.
fn outcomes(tally: &Tally) -> String {
    let mut text = format!("accepted {}", tally.outcomes[0]);
    for (number, count) in tally.outcomes.iter().enumerate().skip(1).take(9) {
        text.push_str(&format!(", refused {number}: {count}"));
    }
    text
}
