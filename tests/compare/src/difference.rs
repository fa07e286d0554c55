//! Where two outputs differ, and how it is shown.

use std::fmt;

use reference::script::{split_record, Records, HEADER_LENGTH};
use reference::text::unpack;

use crate::process::Run;

/// The most lines of a script that are shown.
const MOST_LINES: usize = 60;
/// The most characters of a line that are shown.
const MOST_CHARACTERS: usize = 160;

#[derive(Debug, PartialEq, Eq)]
pub struct Difference {
    pub program: &'static str,
    /// The record that differs, from 1; 0 is the header.
    pub record: usize,
    pub failure: Option<String>,
    /// The reference's line and the program's, where they differ.
    pub lines: Option<(String, String)>,
}

/// Compares line by line: the first line is about the header, line n after
/// it about record n.
pub fn of_rig(expected: &[u8], run: &Run) -> Option<Difference> {
    let failure = run.failure.clone();
    if run.output == expected {
        return only_failed("rig", failure);
    }
    let line = first_other_line(expected, &run.output);
    let lines = (line_text(expected, line), line_text(&run.output, line));
    Some(Difference { program: "rig", record: line, failure, lines: Some(lines) })
}

/// The output is right, but perhaps the program failed.
fn only_failed(program: &'static str, failure: Option<String>) -> Option<Difference> {
    failure.as_ref()?;
    Some(Difference { program, record: 0, failure, lines: None })
}

/// Compares verdict, then refusal and length, then the bytes.
pub fn of_rewrite(script: &[u8], expected: &[u8], run: &Run) -> Option<Difference> {
    let failure = run.failure.clone();
    if run.output == expected {
        return only_failed("rewrite", failure);
    }
    let line = first_other_line(expected, &run.output);
    let (record, lines) = if line < 2 {
        let lines = (line_text(expected, line), line_text(&run.output, line));
        (first_refused(script), lines)
    } else {
        let (ours, theirs) = (after_two_lines(expected), after_two_lines(&run.output));
        let place = first_other(ours, theirs);
        (record_at(script, place), (byte_text(ours, place), byte_text(theirs, place)))
    };
    Some(Difference { program: "rewrite", record, failure, lines: Some(lines) })
}

/// The first index at which the two differ, or the shorter one ends.
fn first_other<T: PartialEq>(left: &[T], right: &[T]) -> usize {
    left.iter().zip(right).take_while(|(ours, theirs)| ours == theirs).count()
}

fn lines(bytes: &[u8]) -> Vec<&[u8]> {
    bytes.split_inclusive(|&byte| byte == b'\n').collect()
}

fn first_other_line(left: &[u8], right: &[u8]) -> usize {
    first_other(&lines(left), &lines(right))
}

fn line_text(bytes: &[u8], line: usize) -> String {
    match lines(bytes).get(line) {
        None => "(no line)".to_string(),
        Some(line) => short(String::from_utf8_lossy(line).trim_end_matches('\n')),
    }
}

fn byte_text(bytes: &[u8], place: usize) -> String {
    match bytes.get(place) {
        None => format!("{} bytes, none at {place}", bytes.len()),
        Some(byte) => format!("{} bytes, {byte:02x} at {place}", bytes.len()),
    }
}

fn short(text: &str) -> String {
    let mut cut: String = text.chars().take(MOST_CHARACTERS).collect();
    if cut.len() < text.len() {
        cut.push_str(" ...");
    }
    cut
}

fn after_two_lines(bytes: &[u8]) -> &[u8] {
    let start: usize = lines(bytes).iter().take(2).map(|line| line.len()).sum();
    &bytes[start..]
}

/// The first record with refusal 3, 4 or 5, from 1; 0 if there is none.
fn first_refused(script: &[u8]) -> usize {
    let records = script.get(HEADER_LENGTH..).unwrap_or(&[]);
    Records::new(records).position(|step| step.is_err()).map_or(0, |index| index + 1)
}

/// The record, from 1, that the byte at this place belongs to; 0 is the
/// header.
fn record_at(script: &[u8], place: usize) -> usize {
    let mut rest = script.get(HEADER_LENGTH..).unwrap_or(&[]);
    let mut number = 0;
    while script.len() - rest.len() <= place {
        let Some((_, after)) = split_record(rest) else {
            break;
        };
        number += 1;
        rest = after;
    }
    number
}

/// The header's line and the lines around the record, marked with `>`.
pub fn excerpt(script: &[u8], record: usize) -> String {
    let text = unpack(script);
    let lines: Vec<&str> = text.lines().collect();
    let most = MOST_LINES - 1;
    let largest_start = lines.len().saturating_sub(most);
    let start = record.saturating_sub(most / 2).clamp(1, largest_start.max(1));
    let end = lines.len().min(start + most);
    let mut shown = String::new();
    for index in std::iter::once(0).chain(start..end).filter(|&index| index < lines.len()) {
        let mark = if index == record { "> " } else { "  " };
        shown.push_str(mark);
        shown.push_str(&short(lines[index]));
        shown.push('\n');
    }
    shown
}

impl fmt::Display for Difference {
    fn fmt(&self, out: &mut fmt::Formatter<'_>) -> fmt::Result {
        if let Some(failure) = &self.failure {
            writeln!(out, "{}: {failure}", self.program)?;
        }
        let Some((expected, printed)) = &self.lines else {
            return writeln!(out, "its output is right");
        };
        match self.record {
            0 => writeln!(out, "{} differs about the header or the whole", self.program)?,
            number => writeln!(out, "{} differs at record {number}", self.program)?,
        }
        writeln!(out, "  reference: {expected}")?;
        writeln!(out, "  {:<9}: {printed}", self.program)
    }
}

#[cfg(test)]
mod tests {
    use super::{excerpt, of_rewrite, of_rig};
    use crate::process::Run;
    use crate::rewritten::rewritten;
    use reference::text::pack;

    fn run(output: &[u8]) -> Run {
        Run { output: output.to_vec(), failure: None }
    }

    fn script(records: usize) -> Vec<u8> {
        let lines = "pass 1 0 0\n".repeat(records);
        pack(&format!("facade 2 1 1 0 5 4 10\n{lines}")).expect("the text is right")
    }

    #[test]
    fn rig_lines() {
        let expected = b"facade 2 1 1\n1 0 0 1 0\nheld 0\n";
        assert_eq!(of_rig(expected, &run(expected)), None);
        let found = of_rig(expected, &run(b"facade 2 1 1\n1 0 1 1 0\nheld 0\n"));
        let found = found.expect("a difference");
        let lines = ("1 0 0 1 0".to_string(), "1 0 1 1 0".to_string());
        assert_eq!((found.record, found.lines), (1, Some(lines)));
        let found = of_rig(expected, &run(&expected[..expected.len() - 1]));
        assert_eq!(found.expect("no newline at the end").record, 2);
        let failed = Run { output: expected.to_vec(), failure: Some("why".to_string()) };
        let found = of_rig(expected, &failed).expect("a failure");
        assert_eq!((found.failure.as_deref(), found.lines), (Some("why"), None));
    }

    #[test]
    fn rewritten_bytes() {
        let script = script(3);
        let expected = rewritten(&script);
        assert_eq!(of_rewrite(&script, &expected, &run(&expected)), None);
        let mut other = expected.clone();
        *other.last_mut().expect("not empty") ^= 1;
        let found = of_rewrite(&script, &expected, &run(&other)).expect("a difference");
        let lines = ("71 bytes, 00 at 70".to_string(), "71 bytes, 01 at 70".to_string());
        assert_eq!((found.record, found.lines), (3, Some(lines)));
        let found = of_rewrite(&script, &expected, &run(b"3\n0 29\n")).expect("a difference");
        let lines = ("0".to_string(), "3".to_string());
        assert_eq!((found.record, found.lines), (0, Some(lines)));
    }

    #[test]
    fn excerpts() {
        for (records, record, first, count) in
            [(0, 0, 1, 1), (5, 2, 1, 6), (59, 1, 1, 60), (500, 0, 1, 60), (500, 500, 442, 60)]
        {
            let shown = excerpt(&script(records), record);
            assert_eq!(shown.lines().count(), count);
            assert_eq!(shown.lines().filter(|line| line.starts_with('>')).count(), 1);
            if let Some(line) = shown.lines().nth(1) {
                assert!(line.ends_with(&format!("# {first}")), "{line}");
            }
        }
        assert_eq!(excerpt(&[], 0), "");
    }
}
