//! The printed report: four numbers a line, totals last.

/// The report as a program prints it.
pub fn print_report(numbers: &[u64]) -> String {
    let line = |numbers: &[u64]| {
        let words: Vec<String> = numbers.iter().map(u64::to_string).collect();
        words.join(" ") + "\n"
    };
    numbers.chunks(4).map(line).collect()
}

/// Reads a printed report back, strictly: single spaces, no leading zeros, a
/// line feed at the end of each line.
pub fn parse_report(text: &str) -> Result<Vec<u64>, String> {
    let mut numbers = Vec::new();
    for line in text.split_inclusive('\n') {
        let words: Vec<&str> = line.trim_end_matches('\n').split(' ').collect();
        if words.len() != 4 {
            return Err(format!("not four numbers: {line:?}"));
        }
        for word in words {
            let number = word.parse::<u64>();
            numbers.push(number.map_err(|_| format!("no number: {line:?}"))?);
        }
    }
    if print_report(&numbers) != text {
        return Err("numbers, spaces or line feeds are not as printed".to_string());
    }
    Ok(numbers)
}
