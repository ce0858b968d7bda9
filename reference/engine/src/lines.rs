//! The line of a site: predicted low, predicted high, expected low, expected
//! high, in millionths.

use crate::sites::numbers_of;
use reference::project::Header;
use reference::record::Site;

extern "C" {
    fn crash_line(
        edition: u64,
        years: u64,
        segments: u64,
        crossings: u64,
        values: *const u64,
        values_len: usize,
        line: *mut u64,
        line_len: usize,
    ) -> u64;
}

/// The number of the line's call, which writes to the start of `line`. The
/// header is its edition, years, segment calibration and crossing calibration.
pub fn line_into(header: [u64; 4], values: &[u64], line: &mut [u64]) -> u64 {
    let [edition, years, segments, crossings] = header;
    // SAFETY: each pointer and length are those of one slice.
    unsafe {
        crash_line(
            edition,
            years,
            segments,
            crossings,
            values.as_ptr(),
            values.len(),
            line.as_mut_ptr(),
            line.len(),
        )
    }
}

/// The four numbers of a site, or the number of the refusal.
pub fn line(header: &Header, site: &Site) -> Result<[u64; 4], u64> {
    const UNTOUCHED: u64 = 0xA5A5;
    let mut run = [UNTOUCHED; 6];
    let number = line_into(header.numbers(), &numbers_of(site), &mut run);
    let kept = if number == 0 { 4 } else { 0 };
    assert!(run[kept..].iter().all(|left| *left == UNTOUCHED));
    match number {
        0 => Ok([run[0], run[1], run[2], run[3]]),
        refused => Err(refused),
    }
}

/// The lines of sites and their sums, which the report of their project is.
pub fn report(header: &Header, sites: &[Site]) -> Vec<u64> {
    let each = sites.iter().map(|site| line(header, site));
    let lines: Vec<[u64; 4]> = each.map(|line| line.expect("a line")).collect();
    let total = |at: usize| lines.iter().map(|line| line[at]).sum();
    let totals: [u64; 4] = [total(0), total(1), total(2), total(3)];
    lines.iter().chain([&totals]).flatten().copied().collect()
}
