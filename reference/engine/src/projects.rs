//! The project reader: a report left in a lent run of numbers; and the project
//! writer: a file left in a lent run of bytes.

use reference::record::Refusal;

extern "C" {
    fn crash_project(
        file: *const u8,
        file_len: usize,
        report: *mut u64,
        report_len: usize,
        value: *mut u64,
    ) -> u64;
    fn crash_project_write(
        edition: u64,
        years: u64,
        segments: u64,
        crossings: u64,
        sites: *const u64,
        sites_len: usize,
        buffer: *mut u8,
        buffer_len: usize,
        value: *mut u64,
    ) -> u64;
}

/// What a call has before it writes its value: it is neither a count nor a
/// place.
const UNWRITTEN: u64 = u64::MAX;

/// The count of what was written, or the refusal.
fn answer(number: u64, value: u64) -> Result<usize, Refusal> {
    assert_ne!(value, UNWRITTEN, "every answer has its value");
    let value = usize::try_from(value).expect("a count or a place");
    match u8::try_from(number).expect("document 01's number") {
        0 => Ok(value),
        number => Err(Refusal::of(number, value)),
    }
}

/// Reads a file and leaves its report at the start of `report`: the count of
/// numbers written, or the refusal.
pub fn project_into(file: &[u8], report: &mut [u64]) -> Result<usize, Refusal> {
    let mut value = UNWRITTEN;
    // SAFETY: each pointer and length are those of one slice, and `value` is
    // one number.
    let number = unsafe {
        crash_project(
            file.as_ptr(),
            file.len(),
            report.as_mut_ptr(),
            report.len(),
            &mut value,
        )
    };
    answer(number, value)
}

/// Writes a file to the start of `buffer`: the count of bytes written, or the
/// refusal, whose place is a site's index where a site is refused. The header is
/// its edition, years, segment calibration and crossing calibration, and `sites`
/// the numbers of each site in turn.
pub fn file_into(header: [u64; 4], sites: &[u64], buffer: &mut [u8]) -> Result<usize, Refusal> {
    let [edition, years, segments, crossings] = header;
    let mut value = UNWRITTEN;
    // SAFETY: each pointer and length are those of one slice, and `value` is
    // one number.
    let number = unsafe {
        crash_project_write(
            edition,
            years,
            segments,
            crossings,
            sites.as_ptr(),
            sites.len(),
            buffer.as_mut_ptr(),
            buffer.len(),
            &mut value,
        )
    };
    answer(number, value)
}

/// The file of a header's numbers and sites' numbers, in a buffer of `room`
/// bytes. No two neighbours among the bytes that a call has to leave are alike.
pub fn write_file(header: [u64; 4], sites: &[u64], room: usize) -> Result<Vec<u8>, Refusal> {
    let before: Vec<u8> = (0..room).map(|at| (at * 151 + 0xA5) as u8).collect();
    let mut buffer = before.clone();
    let answer = file_into(header, sites, &mut buffer);
    let kept = answer.unwrap_or(0);
    assert!(buffer[kept..] == before[kept..], "the rest is as it was");
    answer.map(|count| {
        buffer.truncate(count);
        buffer
    })
}
