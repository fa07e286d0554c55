//! The rig's run: script bytes to printed text.

use std::io::{self, Read};

use crate::facade::Facade;
use crate::refusal::Refusal;
use crate::script::{read_header, Records, HEADER_LENGTH, LONGEST_SCRIPT};

/// What the rig prints for a script.
pub fn run(script: &[u8]) -> Vec<u8> {
    let fresh = read_header(script).and_then(Facade::fresh);
    match fresh {
        Ok(facade) => run_records(facade, &script[HEADER_LENGTH..]),
        // Refusals 1 and 2 print only this line.
        Err(refusal) => format!("0 {} 0 0 0\n", refusal.number()).into_bytes(),
    }
}

fn run_records(mut facade: Facade, records: &[u8]) -> Vec<u8> {
    // A line is seldom longer than this many bytes per script byte.
    let mut output = Vec::with_capacity(64 + 4 * records.len());
    output.extend_from_slice(b"facade");
    let [servers, clients, addresses, ..] = facade.configuration.numbers();
    for number in [servers, clients, addresses] {
        push_spaced(&mut output, number.into());
    }
    output.push(b'\n');
    for (index, step) in Records::new(records).enumerate() {
        let answer = step.and_then(|step| facade.apply(step));
        let refusal = answer.err().map_or(0, Refusal::number);
        let outcome = answer.map_or(0, |outcome| outcome.number());
        push_number(&mut output, index as u64 + 1);
        push_spaced(&mut output, refusal.into());
        push_spaced(&mut output, outcome.into());
        push_spaced(&mut output, facade.time as u64);
        push_spaced(&mut output, facade.waiting.len() as u64);
        output.push(b'\n');
    }
    output.extend_from_slice(b"held");
    push_spaced(&mut output, facade.held() as u64);
    output.push(b'\n');
    output
}

fn push_spaced(output: &mut Vec<u8>, number: u64) {
    output.push(b' ');
    push_number(output, number);
}

/// Appends the number in decimal.
fn push_number(output: &mut Vec<u8>, mut number: u64) {
    let mut digits = [0; 20];
    let mut start = digits.len();
    loop {
        start -= 1;
        digits[start] = b'0' + (number % 10) as u8;
        number /= 10;
        if number == 0 {
            break;
        }
    }
    output.extend_from_slice(&digits[start..]);
}

/// Reads a script from standard input. One byte more than the longest script
/// is enough to know that it is too long.
pub fn read_input() -> io::Result<Vec<u8>> {
    let mut script = Vec::new();
    io::stdin().lock().take(LONGEST_SCRIPT as u64 + 1).read_to_end(&mut script)?;
    Ok(script)
}
