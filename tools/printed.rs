//! What a program printed beside what a run says.

use crate::notation::{parts, Run};

/// A place where a program does not print what a run says.
#[derive(PartialEq)]
pub struct Difference {
    /// The line of the file, counted from 1; none where it is about the run as a whole.
    pub line_in_file: Option<usize>,
    /// The number of the line that is printed there.
    pub number: Option<usize>,
    pub text: String,
}

impl Difference {
    pub fn of_the_whole(text: String) -> Difference {
        Difference { line_in_file: None, number: None, text }
    }
}

/// Every difference between what a program printed and the lines of a run.
pub fn differences(name: &str, run: &Run, output: &str) -> Vec<Difference> {
    let printed: Vec<&str> = output.lines().collect();
    let mut found = Vec::new();
    for line in &run.expected {
        let got = printed.get(line.number.wrapping_sub(1)).copied().unwrap_or("(nothing)");
        if got != line.text {
            let text = format!("{name}:{}: expected `{}`, printed `{got}`", line.line_in_file, line.text);
            found.push(Difference { line_in_file: Some(line.line_in_file), number: Some(line.number), text });
        }
    }
    let mut whole = |text| found.push(Difference::of_the_whole(text));
    let malformed = run.expected.iter().find(|line| refusal(&line.text) == Some("17"));
    let total = malformed.map_or(run.steps, |line| line.number);
    if printed.len() != total {
        whole(format!("{name}: {total} lines expected, {} printed", printed.len()));
    }
    if !output.is_empty() && !output.ends_with('\n') {
        whole(format!("{name}: the last line has no end"));
    }
    found
}

/// The refusal of a line.
pub fn refusal(line: &str) -> Option<&str> {
    line.split(' ').nth(1)
}

/// The text of a run with the lines that a program printed beside the steps, in columns. Where the first line of
/// the file has left its number out, all do.
pub fn fill(text: &str, run: &Run, output: &str) -> String {
    let printed: Vec<&str> = output.lines().collect();
    let numbered = run.expected.first().map_or(true, |line| line.numbered);
    let line_of = |number: &Option<usize>| {
        let line = *printed.get((*number)? - 1)?;
        Some(if numbered { line } else { line.split_once(' ').map_or(line, |(_, rest)| rest) })
    };
    let rows: Vec<_> = text.lines().zip(run.numbers.iter().map(line_of)).collect();
    let width = rows.iter().filter(|row| row.1.is_some()).map(|row| parts(row.0).0.len()).max().unwrap_or(0);
    let longest = rows.iter().filter_map(|row| row.1).map(str::len).max().unwrap_or(0);
    let mut filled = String::new();
    for (line, printed) in rows {
        let (left, _) = parts(line);
        let comment = line.find('#').map_or("", |at| &line[at..]);
        filled += match printed {
            _ if left.is_empty() => line.to_string(),
            Some(printed) => format!("{left:<width$} | {printed:<longest$}  {comment}"),
            None => format!("{left:<width$}   {:<longest$}  {comment}", ""),
        }
        .trim_end();
        filled.push('\n');
    }
    filled
}
