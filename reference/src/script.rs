//! Reading a script: header, records and the verdict on the whole.

use crate::configuration::Configuration;
use crate::refusal::Refusal;
use crate::step::{field_count, RawStep, Step};

pub const VERSION: u8 = 1;
pub const HEADER_LENGTH: usize = 29;
pub const LONGEST_SCRIPT: usize = 65_536;

/// Refusal 1, then 2, then the configuration.
pub fn read_header(script: &[u8]) -> Result<Configuration, Refusal> {
    let length_fits = (HEADER_LENGTH..=LONGEST_SCRIPT).contains(&script.len());
    if !length_fits || script[0] != VERSION {
        return Err(Refusal::Script);
    }
    let configuration = header_numbers(&script[..HEADER_LENGTH]);
    configuration.check()?;
    Ok(configuration)
}

/// The seven numbers of a header, whatever they are.
pub fn header_numbers(header: &[u8]) -> Configuration {
    let mut numbers = [0; 7];
    for (number, bytes) in numbers.iter_mut().zip(header[1..].chunks_exact(4)) {
        *number = big_endian(bytes);
    }
    Configuration::from_numbers(numbers)
}

fn big_endian(bytes: &[u8]) -> u32 {
    u32::from_be_bytes([bytes[0], bytes[1], bytes[2], bytes[3]])
}

/// Splits off the first record, from its length byte on. None if its length
/// is 0 or it runs past the end (two grounds of refusal 3).
pub fn split_record(rest: &[u8]) -> Option<(&[u8], &[u8])> {
    let length = usize::from(*rest.first()?);
    if length == 0 {
        return None;
    }
    rest.split_at_checked(1 + length)
}

/// Decodes a record from its length byte on: the third ground of refusal 3,
/// then refusal 4.
pub fn decode_record(record: &[u8]) -> Result<RawStep, Refusal> {
    let kind = record[1];
    let count = field_count(kind).ok_or(Refusal::Kind)?;
    let field_bytes = &record[2..];
    if field_bytes.len() != 4 * count {
        return Err(Refusal::Record);
    }
    let mut fields = [0; 3];
    for (field, bytes) in fields.iter_mut().zip(field_bytes.chunks_exact(4)) {
        *field = big_endian(bytes);
    }
    Ok(RawStep { kind, fields })
}

/// The records of a script in turn, each a step or refusal 3, 4 or 5.
/// Refusals 4 and 5 are gone past; refusal 3 is the last item, because where
/// the next record would start is not known then.
pub struct Records<'a> {
    rest: &'a [u8],
}

impl<'a> Records<'a> {
    /// From the part of the script after the header.
    pub fn new(rest: &'a [u8]) -> Self {
        Records { rest }
    }
}

impl Iterator for Records<'_> {
    type Item = Result<Step, Refusal>;

    fn next(&mut self) -> Option<Self::Item> {
        if self.rest.is_empty() {
            return None;
        }
        let Some((record, rest)) = split_record(self.rest) else {
            self.rest = &[];
            return Some(Err(Refusal::Record));
        };
        let step = decode_record(record).and_then(|raw| Step::parse(&raw));
        self.rest = if step == Err(Refusal::Record) { &[] } else { rest };
        Some(step)
    }
}

/// Reads the script through. The first refusal of 1 to 5 that is met is the
/// answer for the whole script; none means that it is accepted.
pub fn decode(script: &[u8]) -> Result<(Configuration, Vec<RawStep>), Refusal> {
    let configuration = read_header(script)?;
    let steps: Result<Vec<RawStep>, Refusal> =
        Records::new(&script[HEADER_LENGTH..]).map(|step| step.map(|step| step.raw())).collect();
    Ok((configuration, steps?))
}

/// The verdict's number: 0 if the script is accepted.
pub fn verdict(script: &[u8]) -> u8 {
    let first_refusal = match read_header(script) {
        Err(refusal) => Some(refusal),
        Ok(_) => Records::new(&script[HEADER_LENGTH..]).find_map(Result::err),
    };
    first_refusal.map_or(0, Refusal::number)
}
