//! The project writer over a lent list of sites, which Rattle alone can call, in a
//! program that `rt try` runs on the interpreter and compiled, with the engine's
//! crates as they are and nothing proved: the answers and the buffers are the
//! reference's.

use reference::generate::{self, Random};
use reference::project::{self, Header, Project};
use reference::record::Site;
use reference::rules::{EDITIONS, LAST_EDITION, MOST_YEARS};
use std::path::{Path, PathBuf};
use std::process::{self, Command};
use std::{env, fs};

const PROGRAM: &str = "written_project";

/// What the program's line of `crates.txt` has.
const CRATES: &str = "site site_reader header project_writer input";

/// The name of the program's one run.
const RUN: &str = "lists";

/// The program's buffer, and what its bytes are before the call.
const BUFFER: usize = 512;
const FILL: u8 = 170;

/// The sites of a project, and the header and the room with which their file is
/// to be written.
struct Case {
    project: Project,
    header: [u64; 4],
    room: usize,
}

impl Case {
    fn answer(&self) -> Result<Vec<u8>, (u8, usize)> {
        let written = project::write_file(self.header, &self.project.sites, self.room);
        written.map_err(|refusal| (refusal.number, refusal.place))
    }

    /// The case as the program reads it.
    fn input(&self) -> Vec<u8> {
        let numbers = self.header.into_iter().chain([self.room as u64]);
        let two_bytes = |number| u16::try_from(number).expect("two bytes").to_be_bytes();
        let mut input: Vec<u8> = numbers.flat_map(two_bytes).collect();
        input.extend(project::write_project(&self.project).expect("a project"));
        input
    }

    /// What the program prints for it.
    fn output(&self) -> Vec<u8> {
        let (number, value, file) = match self.answer() {
            Ok(file) => (0, file.len(), file),
            Err((number, place)) => (number, place, Vec::new()),
        };
        let mut output = format!("{number} {value}\n").into_bytes();
        let rest = vec![FILL; BUFFER - file.len()];
        output.extend(file);
        output.extend(rest);
        output
    }
}

/// The cases of a project: a buffer that just suffices, one that is a byte
/// shorter, and in an ample one its own header, another edition's, each number of
/// it outside its limits, and other years than the yearly sites have.
fn cases(project: &Project) -> Vec<Case> {
    let own = project.header.numbers();
    let length = project::write_project(project).expect("a project").len();
    let case = |header, room| Case {
        project: project.clone(),
        header,
        room,
    };
    let with = |at: usize, number: u64| {
        let mut header = own;
        header[at] = number;
        case(header, BUFFER)
    };
    let mut cases = vec![case(own, length), case(own, length - 1), case(own, BUFFER)];
    cases.extend(EDITIONS.map(|edition| with(0, edition.into())));
    cases.extend([0, u64::from(LAST_EDITION) + 1].map(|edition| with(0, edition)));
    cases.extend([1, 2, 3].map(|at| with(at, Header::MOST[at] + 1)));
    cases.push(with(1, own[1] - 1));
    cases
}

/// A project of so many sites, every second of them with traffic year by year.
fn project_of(random: &mut Random, edition: u8, count: usize) -> Project {
    let header = Header {
        edition,
        years: MOST_YEARS,
        ..generate::header(random)
    };
    let mut site = |index: usize| {
        let plain = generate::plain_site(random, edition);
        match index % 2 {
            0 => plain,
            _ => generate::yearly(random, plain, header.years),
        }
    };
    let sites: Vec<Site> = (0..count).map(&mut site).collect();
    Project { header, sites }
}

/// Every case of projects of both editions, from no site to eight.
fn all_cases() -> Vec<Case> {
    let mut random = Random::new(83);
    let editions = EDITIONS.into_iter();
    let sizes = editions.flat_map(|edition| [0, 1, 2, 5, 8].map(|count| (edition, count)));
    sizes
        .flat_map(|(edition, count)| cases(&project_of(&mut random, edition, count)))
        .collect()
}

fn root() -> PathBuf {
    Path::new(env!("CARGO_MANIFEST_DIR")).join("../..")
}

/// Copies a folder and what is below it.
fn copy(from: &Path, to: &Path) {
    fs::create_dir_all(to).expect("a folder");
    for entry in fs::read_dir(from).expect("a folder") {
        let path = entry.expect("a file").path();
        let copied = to.join(path.file_name().expect("a name"));
        if path.is_dir() {
            copy(&path, &copied);
        } else {
            fs::copy(&path, &copied).expect("a copy");
        }
    }
}

/// A repository of the engine's sources and the program, with what it reads and
/// what it must print. It stands outside the engine's own, which may hold no
/// program that is not proved.
fn repository(input: &[u8], output: &[u8]) -> PathBuf {
    let folder = env::temp_dir().join(format!("{PROGRAM}.{}", process::id()));
    for entry in fs::read_dir(root().join("crates")).expect("the crates") {
        let path = entry.expect("a crate").path();
        let name = path.file_name().expect("a name");
        copy(&path.join("src"), &folder.join("crates").join(name).join("src"));
    }
    let program = folder.join("crates").join(PROGRAM);
    let [source, runs] = ["src", "runs"].map(|name| program.join(name));
    fs::create_dir_all(&source).expect("a folder");
    fs::create_dir_all(&runs).expect("a folder");
    let listed = fs::read_to_string(root().join("crates.txt")).expect("the list of crates");
    let line = format!("{PROGRAM}: {CRATES}\n");
    fs::write(folder.join("crates.txt"), listed + &line).expect("written");
    let text = include_bytes!("rattle/write_project.rt.txt");
    fs::write(source.join("main.rt"), text).expect("written");
    fs::write(runs.join(RUN), input).expect("written");
    fs::write(runs.join(RUN).with_extension("stdout"), output).expect("written");
    folder
}

#[test]
fn lent_sites_are_written_as_by_the_reference() {
    let cases = all_cases();
    let numbers = cases
        .iter()
        .map(|case| case.answer().map_or_else(|refusal| refusal.0, |_| 0));
    let mut numbers: Vec<u8> = numbers.collect();
    numbers.sort();
    numbers.dedup();
    assert_eq!(numbers, [0, 3, 4, 8, 10]);
    let input: Vec<u8> = cases.iter().flat_map(Case::input).collect();
    let output: Vec<u8> = cases.iter().flat_map(Case::output).collect();
    let folder = repository(&input, &output);
    let mut run = Command::new("rt");
    run.args(["try", "--cases", "runs"]);
    let tried = run.current_dir(folder.join("crates").join(PROGRAM)).output();
    fs::remove_dir_all(&folder).expect("removed");
    let tried = tried.expect("rt runs");
    assert!(tried.status.success(), "{tried:?}");
}
