//! What the program `rewrite` prints: the verdict of the whole script, then
//! the writer's refusal and length, then the bytes that it wrote.

use reference::script::{decode_record, header_numbers, split_record, verdict};
use reference::script::{HEADER_LENGTH, LONGEST_SCRIPT};
use reference::writer::write_script;
use reference::{Configuration, RawStep, Refusal};

pub fn rewritten(script: &[u8]) -> Vec<u8> {
    let verdict = verdict(script);
    let (configuration, steps) = handed_on(script, verdict);
    let mut buffer = vec![0; LONGEST_SCRIPT];
    let (refusal, length) = match write_script(&configuration, &steps, &mut buffer) {
        Ok(length) => (0, length),
        Err(refusal) => (refusal.number(), 0),
    };
    let mut output = format!("{verdict}\n{refusal} {length}\n").into_bytes();
    output.extend_from_slice(&buffer[..length]);
    output
}

/// What the writer is handed. With refusal 1 there is no header to read.
fn handed_on(script: &[u8], verdict: u8) -> (Configuration, Vec<RawStep>) {
    if verdict == Refusal::Script.number() {
        return (Configuration::from_numbers([0; 7]), Vec::new());
    }
    let (header, records) = script.split_at(HEADER_LENGTH);
    (header_numbers(header), steps_of(records))
}

/// One step for each record before the first one with refusal 3. An unknown
/// kind has all fields 0.
fn steps_of(mut rest: &[u8]) -> Vec<RawStep> {
    let mut steps = Vec::new();
    while let Some((record, after)) = split_record(rest) {
        match decode_record(record) {
            Ok(step) => steps.push(step),
            Err(Refusal::Kind) => steps.push(RawStep::new(record[1], &[])),
            Err(_) => break,
        }
        rest = after;
    }
    steps
}

#[cfg(test)]
mod tests {
    use super::rewritten;
    use reference::text::pack;

    fn packed(lines: &str) -> Vec<u8> {
        pack(&format!("facade 2 1 1 0 5 4 10\n{lines}")).expect("the text is right")
    }

    fn with_bytes(lines: &str, bytes: &[u8]) -> Vec<u8> {
        [lines.as_bytes(), bytes].concat()
    }

    #[test]
    fn accepted() {
        let script = packed("pass 5 0 -1\nlose 7\n");
        assert_eq!(rewritten(&script), with_bytes("0\n0 49\n", &script));
    }

    #[test]
    fn refused() {
        assert_eq!(rewritten(&[]), b"1\n2 0\n");
        assert_eq!(rewritten(&packed("raw 01 0b\npass 0 0 0\n")), b"4\n4 0\n");
        assert_eq!(rewritten(&packed("pass 0 0 0\nraw 01 0b\n")), b"5\n5 0\n");
        let mut script = packed("lose 0\n");
        script[4] = 5;
        assert_eq!(rewritten(&script), b"2\n2 0\n");
    }

    /// The writer gets what stands before a record with refusal 3.
    #[test]
    fn cut_short() {
        let whole = packed("lose 0\n");
        let expected = with_bytes("3\n0 35\n", &whole);
        assert_eq!(rewritten(&packed("lose 0\nraw-tail 00 05\n")), expected);
        assert_eq!(rewritten(&packed("lose 0\nraw 02 05 00\nlose 1\n")), expected);
        assert_eq!(rewritten(&packed("lose 0\nraw-tail 05 05\n")), expected);
    }
}
