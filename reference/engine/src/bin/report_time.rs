//! How long the program `crash_report` takes for the longest project file of each
//! edition, from its start to its end, beside its time for an empty project.

use engine::program::{command, full_project, is_made, CRASH_REPORT};
use reference::rules::{EDITIONS, EDITION_ONE, MOST_SITES};
use std::fs::{self, File};
use std::process::{ExitCode, Stdio};
use std::time::{Duration, Instant};

const RUNS: usize = 100;

fn run(path: &str) -> Duration {
    let input = File::open(path).expect("the project");
    let start = Instant::now();
    let status = command(CRASH_REPORT)
        .stdin(input)
        .stdout(Stdio::null())
        .status()
        .expect("crash_report runs");
    let time = start.elapsed();
    assert!(status.success());
    time
}

fn main() -> ExitCode {
    if let Err(missing) = is_made(CRASH_REPORT) {
        eprintln!("{missing}");
        return ExitCode::FAILURE;
    }
    let file = std::env::temp_dir().join(format!("report_time.{}", std::process::id()));
    let path = file.to_str().expect("a plain path");
    println!("edition   sites   bytes   best ms   median ms   of {RUNS} runs");
    let longest = EDITIONS.map(|edition| (edition, MOST_SITES));
    for (edition, sites) in [(EDITION_ONE, 0)].into_iter().chain(longest) {
        let bytes = full_project(edition, sites);
        fs::write(path, &bytes).expect("a project is written");
        let mut times: Vec<Duration> = (0..RUNS).map(|_| run(path)).collect();
        times.sort();
        let milliseconds = |time: Duration| time.as_secs_f64() * 1e3;
        let (best, median) = (milliseconds(times[0]), milliseconds(times[RUNS / 2]));
        let length = bytes.len();
        println!("{edition:7} {sites:7} {length:7} {best:9.2} {median:11.2}");
    }
    fs::remove_file(path).expect("the project is removed");
    ExitCode::SUCCESS
}
