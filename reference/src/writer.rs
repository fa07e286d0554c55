//! Writing a script into a lent buffer.

use crate::configuration::Configuration;
use crate::refusal::Refusal;
use crate::script::{HEADER_LENGTH, LONGEST_SCRIPT, VERSION};
use crate::step::{field_count, RawStep, Step};

/// Writes the script and gives its length. The writer has its own order:
/// refusal 2, then 4 and 5 step by step, then 1 if the script would be too
/// long or the buffer is short. A refusal leaves the buffer unchanged, and
/// bytes past the script stay.
pub fn write_script(
    configuration: &Configuration,
    steps: &[RawStep],
    buffer: &mut [u8],
) -> Result<usize, Refusal> {
    configuration.check()?;
    for step in steps {
        Step::parse(step)?;
    }
    let length = HEADER_LENGTH + steps.iter().map(record_length).sum::<usize>();
    if length > LONGEST_SCRIPT || length > buffer.len() {
        return Err(Refusal::Script);
    }
    let mut script = Vec::with_capacity(length);
    push_header(&mut script, VERSION, configuration);
    for step in steps {
        push_record(&mut script, step);
    }
    buffer[..length].copy_from_slice(&script);
    Ok(length)
}

/// Length of the record with its length byte. The kind must be known.
pub fn record_length(step: &RawStep) -> usize {
    2 + 4 * known_count(step)
}

fn known_count(step: &RawStep) -> usize {
    field_count(step.kind).expect("the kind is known")
}

/// Appends a header with any version and numbers.
pub fn push_header(script: &mut Vec<u8>, version: u8, configuration: &Configuration) {
    script.push(version);
    for number in configuration.numbers() {
        script.extend_from_slice(&number.to_be_bytes());
    }
}

/// Appends the record of a step with a known kind and any fields.
pub fn push_record(script: &mut Vec<u8>, step: &RawStep) {
    let count = known_count(step);
    script.push(1 + 4 * count as u8);
    script.push(step.kind);
    for field in &step.fields[..count] {
        script.extend_from_slice(&field.to_be_bytes());
    }
}
