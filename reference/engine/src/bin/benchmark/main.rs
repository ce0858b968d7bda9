//! Times of the engine's brackets, of its line of a site and of whole projects,
//! read and written, of each edition, with the stored numbers lent, beside plain
//! doubles and, where they are installed, two interval libraries, in one run; and
//! of sites with traffic year by year beside the same sites with one traffic. For
//! brackets and lines the engine's program `rounds` is run with few and with
//! many rounds, and the difference is divided by what was made.

mod intervals;

use engine::program::{is_made, rounds, rounds_header, rounds_of, Job, ROUNDS};
use engine::sites::{read_into, run_of, READ_NUMBERS};
use engine::{doubles, lines, projects};
use intervals::{numbers_of_sites, Library, LIBRARIES};
use reference::generate::{self, Random};
use reference::project::{write_project, Header, Project, LONGEST_FILE};
use reference::record::Site;
use reference::rules::{EDITIONS, EDITION_ONE, KIND_NAMES, MOST_SITES, MOST_YEARS, SEGMENT};
use std::hint::black_box;
use std::iter;
use std::process::ExitCode;
use std::time::{Duration, Instant};

/// Each figure is the least of so many measurements, of a program's run or of
/// work in this one.
const TRIES: usize = 40;
const TRIES_HERE: usize = 60;

/// A kind of bracket: the job that makes it, the brackets in a round, and the
/// rounds by which two runs differ.
struct Kind {
    name: &'static str,
    job: Job,
    brackets: u32,
    rounds: u16,
    double: fn() -> f64,
}

const POWER: Kind = Kind {
    name: "power",
    job: Job::Powers,
    brackets: 100_000,
    rounds: 20,
    double: powers_in_doubles,
};

const POWER_BY_ENDS: Kind = Kind {
    job: Job::PowersByEnds,
    ..POWER
};

const OTHERS: [Kind; 2] = [
    Kind {
        name: "logarithm",
        job: Job::Logarithms,
        brackets: 20_000,
        rounds: 200,
        double: logarithms_in_doubles,
    },
    Kind {
        name: "exponential",
        job: Job::Exponentials,
        brackets: 140_001,
        rounds: 20,
        double: exponentials_in_doubles,
    },
];

fn powers_in_doubles() -> f64 {
    let exponents = [0.79, 0.49, 0.60, 0.61, 0.20];
    let bases = || (1..=20_000).map(f64::from);
    exponents
        .iter()
        .map(|exponent| {
            bases()
                .map(|base| black_box(base).powf(*exponent))
                .sum::<f64>()
        })
        .sum()
}

fn logarithms_in_doubles() -> f64 {
    (1..=20_000).map(|a| black_box(f64::from(a)).ln()).sum()
}

fn exponentials_in_doubles() -> f64 {
    (0..=140_000)
        .map(|x| black_box(f64::from(x) / 10_000.0).exp())
        .sum()
}

/// How long the program takes for an input.
fn time_of(input: &[u8]) -> Duration {
    let start = Instant::now();
    rounds(input);
    start.elapsed()
}

/// The least time of work in this program, for each of so many things.
fn time_here(count: f64, mut work: impl FnMut()) -> f64 {
    let timed = || {
        let start = Instant::now();
        work();
        start.elapsed()
    };
    let times = iter::repeat_with(timed).take(TRIES_HERE);
    nanoseconds(times.min().expect("some tries"), count)
}

fn nanoseconds(time: Duration, count: f64) -> f64 {
    time.as_secs_f64() * 1e9 / count
}

/// The least times of some runs. They take turns, so that a slow spell of the
/// machine meets all of them.
fn times_in_turn<const N: usize>(inputs: &[Vec<u8>; N]) -> [Duration; N] {
    let mut times = [Duration::MAX; N];
    for _ in 0..TRIES {
        for (time, input) in times.iter_mut().zip(inputs) {
            *time = time_of(input).min(*time);
        }
    }
    times
}

/// Nanoseconds for a bracket, from a run of one round and one of many.
fn bracket_time(kind: &Kind, few: Duration, many: Duration) -> f64 {
    let brackets = f64::from(kind.brackets) * f64::from(kind.rounds);
    nanoseconds(many.saturating_sub(few), brackets)
}

/// The inputs of these two runs.
fn few_and_many(kind: &Kind) -> [Vec<u8>; 2] {
    [1, 1 + kind.rounds].map(|rounds| rounds_of(&[(kind.job, rounds)], EDITION_ONE, &[]))
}

fn engine_time(kind: &Kind) -> f64 {
    let [few, many] = times_in_turn(&few_and_many(kind));
    bracket_time(kind, few, many)
}

/// Nanoseconds for a power with both ends by one walk, and with each by a walk
/// of its own. Both forms have the same ends.
fn power_times() -> [f64; 2] {
    let [one, many] = few_and_many(&POWER);
    let [one_by_ends, many_by_ends] = few_and_many(&POWER_BY_ENDS);
    assert_eq!(rounds(&one), rounds(&one_by_ends));
    let times = times_in_turn(&[one, many, one_by_ends, many_by_ends]);
    let [one, many, one_by_ends, many_by_ends] = times;
    [
        bracket_time(&POWER, one, many),
        bracket_time(&POWER_BY_ENDS, one_by_ends, many_by_ends),
    ]
}

fn double_time(kind: &Kind) -> f64 {
    time_here(f64::from(kind.brackets), || {
        black_box((kind.double)());
    })
}

/// The rounds over the sites by which two runs differ.
const SITE_ROUNDS: u16 = 300;

/// One making round's sum by the exported call, which the program must print.
fn sum_of_lines(header: &Header, sites: &[Site]) -> u64 {
    let lines = sites.iter().map(|site| lines::line(header, site));
    let numbers = lines.flat_map(|line| line.expect("a line"));
    numbers.fold(0, |sum, number| (sum + number) % (1 << 32))
}

/// The doubles are those of the engine's lines.
fn assert_same_figures(header: &Header, sites: &[Site]) {
    for site in sites {
        let line = lines::line(header, site).expect("a line");
        let doubles = doubles::line(header, site).map(|crashes| crashes * 1e6);
        for (pair, double) in line.chunks(2).zip(doubles) {
            let slack = 1.0 + double * 1e-9;
            let (low, high) = (pair[0] as f64, pair[1] as f64);
            let near = low - slack <= double && double <= high + slack;
            assert!(near, "{double} and {pair:?}: {site:?}");
        }
    }
}

/// Nanoseconds for a site: reading its record, and making its line.
fn line_times(edition: u8, sites: &[Site]) -> (f64, f64) {
    let rounds = [[1, 1], [1, 1 + SITE_ROUNDS], [1 + SITE_ROUNDS, 1]];
    let inputs = rounds.map(|[lines, records]| {
        let asked = [(Job::Lines, lines), (Job::Records, records)];
        rounds_of(&asked, edition, sites)
    });
    let [none, read, made] = times_in_turn(&inputs);
    let count = sites.len() as f64 * f64::from(SITE_ROUNDS);
    let reading = nanoseconds(read.saturating_sub(none), count);
    let both = nanoseconds(made.saturating_sub(none), count);
    (reading, both - reading)
}

fn in_doubles(header: &Header, sites: &[Site]) {
    for site in sites {
        black_box(doubles::line(header, black_box(site)));
    }
}

/// A library's intervals are narrow and meet the brackets of the engine's lines.
fn assert_meets(library: &Library, header: &Header, sites: &[Site]) {
    let mut ends = vec![[0.0; 4]; sites.len()];
    library.ends_into(header, &numbers_of_sites(sites), &mut ends);
    for (site, ends) in sites.iter().zip(ends) {
        let line = lines::line(header, site).expect("a line");
        for (pair, interval) in line.chunks(2).zip(ends.chunks(2)) {
            let (low, high) = (pair[0] as f64, pair[1] as f64);
            let narrow = interval[0] <= interval[1] && interval[1] - interval[0] <= high * 1e-9;
            let meets = interval[0] <= high && low <= interval[1];
            let name = library.name;
            assert!(
                narrow && meets,
                "{name}: {interval:?} and {pair:?}: {site:?}"
            );
        }
    }
}

/// Nanoseconds for a site by a library, where it is installed: its intervals,
/// and these with their ends read out.
fn library_times(library: &Library, header: &Header, sites: &[Site]) -> Option<[f64; 2]> {
    if !library.is_installed() {
        return None;
    }
    assert_meets(library, header, sites);
    let count = sites.len() as f64;
    let numbers = numbers_of_sites(sites);
    let mut ends = vec![[0.0; 4]; sites.len()];
    let made = time_here(count, || library.make(header, black_box(&numbers)));
    let read = time_here(count, || {
        library.ends_into(header, black_box(&numbers), black_box(&mut ends));
    });
    Some([made, read])
}

/// Nanoseconds for a site of one group.
struct Times {
    making: f64,
    reading: f64,
    doubles: f64,
    libraries: [Option<[f64; 2]>; LIBRARIES.len()],
}

fn times_of(edition: u8, sites: &[Site]) -> Times {
    let header = rounds_header(edition);
    assert_same_figures(&header, sites);
    let printed = rounds(&rounds_of(&[(Job::Lines, 1)], edition, sites));
    assert_eq!(printed, format!("0\n{}\n", sum_of_lines(&header, sites)));
    let (reading, making) = line_times(edition, sites);
    Times {
        making,
        reading,
        doubles: time_here(sites.len() as f64, || in_doubles(&header, sites)),
        libraries: LIBRARIES
            .each_ref()
            .map(|library| library_times(library, &header, sites)),
    }
}

fn print_row(name: &str, cells: impl Iterator<Item = String>) {
    println!("| {name} | {} |", cells.collect::<Vec<_>>().join(" | "));
}

/// One column for all kinds and one for each kind, one row for each way.
fn print_lines(edition: u8, mixed: &[Site]) {
    let of_kind = |kind: usize| {
        let is_of_kind = |site: &&Site| usize::from(site.kind) == kind;
        let sites: Vec<Site> = mixed.iter().filter(is_of_kind).copied().collect();
        times_of(edition, &sites)
    };
    let mut groups = vec![times_of(edition, mixed)];
    groups.extend((0..KIND_NAMES.len()).map(of_kind));
    let cells = |time: fn(&Times) -> f64| {
        let each = groups.iter().map(time);
        each.map(|time| format!("{time:.0}"))
    };
    let kinds = KIND_NAMES.join(" | ");
    println!("| A site of edition {edition}, ns | all kinds | {kinds} |");
    println!("|---|---|---|---|---|---|");
    print_row("Engine, four numbers", cells(|times| times.making));
    print_row("Engine, reading its record", cells(|times| times.reading));
    print_row("Two doubles", cells(|times| times.doubles));
    for (at, library) in LIBRARIES.iter().enumerate() {
        let Library { name, package, .. } = library;
        if !library.is_installed() {
            println!("| {name} | {package} is not installed | | | | |");
            continue;
        }
        let cells = |which: usize| {
            let each = groups.iter().filter_map(move |times| times.libraries[at]);
            each.map(move |times| format!("{:.0}", times[which]))
        };
        print_row(name, cells(0));
        print_row(&format!("{name}, ends read out"), cells(1));
    }
}

/// Sites of a project in each row; the rows have the same sites.
const SIZES: [usize; 4] = [10, 100, 1_000, MOST_SITES];
const SITES_OF_PROJECTS: usize = 10 * MOST_SITES;

fn report_into(file: &[u8], report: &mut [u64]) -> usize {
    projects::project_into(file, report).expect("a project that the reader takes")
}

/// A project, its file and its sites' numbers.
struct Survey {
    project: Project,
    file: Vec<u8>,
    run: Vec<u64>,
}

fn survey_of(header: Header, sites: &[Site]) -> Survey {
    let project = Project {
        header,
        sites: sites.to_vec(),
    };
    let file = write_project(&project).expect("a project that the writer takes");
    let run = run_of(sites);
    Survey { project, file, run }
}

fn file_into(survey: &Survey, file: &mut [u8]) -> usize {
    let header = survey.project.header.numbers();
    let written = projects::file_into(header, black_box(&survey.run), file);
    written.expect("sites that the writer takes")
}

/// The report of a project's file is the lines of its sites and their sums, and
/// the file is written from the sites.
fn assert_survey(survey: &Survey, report: &mut [u64], buffer: &mut [u8]) {
    let Survey { project, file, .. } = survey;
    assert_eq!(report_into(file, report), report.len());
    assert_eq!(report, lines::report(&project.header, &project.sites));
    let written = file_into(survey, buffer);
    assert_eq!(&buffer[..written], file);
}

/// Nanoseconds for a site of projects of one size.
struct ProjectTimes {
    read: f64,
    written: f64,
    doubles: f64,
}

fn project_times(surveys: &[Survey], size: usize) -> ProjectTimes {
    let mut report = vec![0; 4 * (size + 1)];
    let mut buffer = vec![0; LONGEST_FILE];
    for survey in surveys {
        assert_survey(survey, &mut report, &mut buffer);
    }
    let count = (surveys.len() * size) as f64;
    let time =
        |work: &mut dyn FnMut(&Survey)| time_here(count, || surveys.iter().for_each(&mut *work));
    ProjectTimes {
        read: time(&mut |survey| {
            black_box(report_into(black_box(&survey.file), &mut report));
        }),
        written: time(&mut |survey| {
            black_box(file_into(survey, &mut buffer));
        }),
        doubles: time(&mut |survey| in_doubles(&survey.project.header, &survey.project.sites)),
    }
}

/// The time of a project of so many sites, in microseconds.
fn microseconds(site: f64, size: usize) -> f64 {
    site * size as f64 / 1e3
}

fn print_projects_of(header: Header, sites: &[Site], size: usize) {
    let surveys = sites.chunks_exact(size);
    let surveys: Vec<Survey> = surveys.map(|sites| survey_of(header, sites)).collect();
    assert_eq!(surveys.len() * size, sites.len());
    let ProjectTimes {
        read,
        written,
        doubles,
    } = project_times(&surveys, size);
    println!(
        "| {size} | {:.1} | {read:.0} | {doubles:.0} | {:.1} | {written:.0} |",
        microseconds(read, size),
        microseconds(written, size)
    );
}

/// The most years, of which a site may have each with its traffic.
fn most_years(edition: u8) -> Header {
    Header {
        years: MOST_YEARS,
        ..rounds_header(edition)
    }
}

/// Nanoseconds for reading a record by the exported call.
fn record_time(header: &Header, sites: &[Site]) -> f64 {
    let record = |site| {
        header
            .write_site(site)
            .expect("a site that the writer takes")
    };
    let records: Vec<Vec<u8>> = sites.iter().map(record).collect();
    let [edition, years, ..] = header.numbers();
    let mut values = [0; READ_NUMBERS];
    time_here(sites.len() as f64, || {
        for record in &records {
            black_box(read_into(edition, years, black_box(record), &mut values));
        }
    })
}

fn print_years_of(name: &str, header: Header, sites: &[Site]) {
    assert_same_figures(&header, sites);
    let size = sites.len();
    let times = project_times(&[survey_of(header, sites)], size);
    let mut cells = vec![format!("{:.1}", microseconds(times.read, size))];
    let record = record_time(&header, sites);
    let each = [times.read, record, times.written, times.doubles];
    cells.extend(each.map(|time| format!("{time:.0}")));
    for library in &LIBRARIES {
        let made = library_times(library, &header, sites);
        cells.push(made.map_or(String::new(), |[made, _]| format!("{made:.0}")));
    }
    print_row(name, cells.into_iter());
}

/// The same sites with one traffic for all years and with one for each.
fn print_years(edition: u8, random: &mut Random) {
    let header = most_years(edition);
    let libraries = LIBRARIES.each_ref().map(|library| library.name);
    println!(
        "| {MOST_SITES} sites of edition {edition} over {MOST_YEARS} years | Engine, a project, µs | Engine, a site, ns \
        | its record read, ns | written, ns | Doubles, a site, ns | {} |",
        libraries.join(" | ")
    );
    println!("|---|---|---|---|---|---|---|---|");
    for (kind, is_segment) in [("segments", true), ("crossings", false)] {
        let all = iter::repeat_with(|| generate::plain_site(random, edition));
        let of_kind = all.filter(|site| (site.kind == SEGMENT) == is_segment);
        let plain: Vec<Site> = of_kind.take(MOST_SITES).collect();
        let years = |site: &Site| generate::yearly(random, *site, header.years);
        let yearly: Vec<Site> = plain.iter().map(years).collect();
        print_years_of(&format!("{kind}, one traffic"), header, &plain);
        print_years_of(&format!("{kind}, traffic year by year"), header, &yearly);
    }
}

fn print_brackets() {
    let [one_walk, by_ends] = power_times();
    let print = |kind: &Kind, engine: f64| {
        let double = double_time(kind);
        println!("| {} | {engine:.0} | {double:.0} |", kind.name);
    };
    println!("| Bracket | Engine, low and high, ns | One double, ns |");
    println!("|---|---|---|");
    print(&POWER, one_walk);
    for kind in &OTHERS {
        print(kind, engine_time(kind));
    }
    println!();
    println!("| Power, every base from 1 to 20,000 at the five exponents | ns |");
    println!("|---|---|");
    println!("| both ends by one walk, scaled in one word | {one_walk:.1} |");
    println!("| each end by a walk of its own, scaled in two words | {by_ends:.1} |");
    println!("| ratio | {:.2} |", one_walk / by_ends);
    println!();
}

fn print_projects(edition: u8, sites: &[Site]) {
    let header = rounds_header(edition);
    println!(
        "| Sites of edition {edition} | Engine, a project, µs | Engine, a site, ns \
        | Doubles, a site, ns | Written, a project, µs | Written, a site, ns |"
    );
    println!("|---|---|---|---|---|---|");
    assert_same_figures(&header, sites);
    for size in SIZES {
        print_projects_of(header, sites, size);
    }
}

fn main() -> ExitCode {
    if let Err(missing) = is_made(ROUNDS) {
        eprintln!("{missing}");
        return ExitCode::FAILURE;
    }
    print_brackets();
    for edition in EDITIONS {
        let mut random = Random::new(41);
        let mut sites = |count| generate::plain_sites(&mut random, edition, count);
        print_lines(edition, &sites(MOST_SITES));
        println!();
        print_projects(edition, &sites(SITES_OF_PROJECTS));
        println!();
        print_years(edition, &mut random);
        println!();
    }
    ExitCode::SUCCESS
}
