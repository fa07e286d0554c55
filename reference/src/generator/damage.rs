//! Scripts with damaged bytes, headers and lengths.

use super::setting;
use crate::configuration::{Configuration, RANGES};
use crate::random::Random;
use crate::script::{split_record, HEADER_LENGTH, LONGEST_SCRIPT, VERSION};
use crate::writer::push_header;

/// Damages one to three places, mostly among the records.
pub fn records(mut script: Vec<u8>, mut random: Random) -> Vec<u8> {
    for _ in 0..random.pick(&[1, 1, 1, 2, 3]) {
        damage_once(&mut script, &mut random);
    }
    script
}

fn damage_once(script: &mut Vec<u8>, random: &mut Random) {
    let starts = record_starts(script);
    if starts.is_empty() || script.len() <= HEADER_LENGTH {
        script.push(random.number() as u8);
        return;
    }
    // Later records, so that the run comes far before it ends.
    let half = starts.len() / 2;
    let record = starts[half + random.below(starts.len() - half)];
    let place = record + random.below(script.len() - record);
    match random.weighted(&[22, 12, 25, 12, 10, 10, 9]) {
        0 => script[place] ^= 1 << random.below(8),
        1 => script[place] = random.pick(&[0, 1, 127, 128, 255]),
        2 => script[record] = wrong_length(script[record], random),
        3 => script[record + 1] = random.pick(&[0, 11, 12, 255]),
        4 => script.truncate(place),
        5 => script.insert(place, random.number() as u8),
        _ => {
            script.remove(place);
        }
    }
}

/// Where the records start, as far as they are well framed.
fn record_starts(script: &[u8]) -> Vec<usize> {
    let mut starts = Vec::new();
    let mut rest = script.get(HEADER_LENGTH..).unwrap_or(&[]);
    while let Some((_, after)) = split_record(rest) {
        starts.push(script.len() - rest.len());
        rest = after;
    }
    starts
}

fn wrong_length(length: u8, random: &mut Random) -> u8 {
    let any = random.number() as u8;
    random.pick(&[
        0,
        1,
        length.wrapping_sub(1),
        length.wrapping_add(1),
        length.wrapping_sub(4),
        length.wrapping_add(4),
        255,
        any,
    ])
}

/// Scripts about refusals 1 and 2, and some that just escape them.
pub fn header(mut random: Random) -> Vec<u8> {
    let configuration = setting::any(&mut random);
    let mut script = Vec::new();
    push_header(&mut script, VERSION, &configuration);
    let records = random.below(40);
    push_passes(&mut script, records);
    match random.weighted(&[6, 12, 12, 8, 50, 4, 4, 4]) {
        0 => script.clear(),
        1 => script.truncate(random.pick(&[1, 5, 27, 28, 28])),
        2 => script[0] = random.pick(&[0, 2, 129, 255]),
        3 => overlong(&mut script, &mut random),
        4 => bad_number(&mut script, &configuration, &mut random),
        5 => {
            // Refusals 1 and 2 at once: 1 stands above.
            bad_number(&mut script, &configuration, &mut random);
            script[0] = 0;
        }
        6 => script.truncate(HEADER_LENGTH),
        _ => script.truncate(HEADER_LENGTH + random.below(3)),
    }
    script
}

fn push_passes(script: &mut Vec<u8>, records: usize) {
    for _ in 0..records {
        script.extend_from_slice(&[13, 1, 0, 0, 0, 1, 0, 0, 0, 0, 0, 0, 0, 0]);
    }
}

fn overlong(script: &mut Vec<u8>, random: &mut Random) {
    let length = LONGEST_SCRIPT + random.pick(&[1, 1, 2, 14, 5_000]);
    push_passes(script, LONGEST_SCRIPT / 14 + 400);
    script.truncate(length);
}

/// One number just outside its range, or far.
fn bad_number(script: &mut [u8], configuration: &Configuration, random: &mut Random) {
    let mut numbers = configuration.numbers();
    let place = random.below(numbers.len());
    let (least, largest) = RANGES[place];
    numbers[place] = random.pick(&[
        least.wrapping_sub(1),
        least.wrapping_sub(1),
        largest + 1,
        largest + 1,
        largest + 256,
        u32::MAX,
        largest | 1 << 31,
    ]);
    let mut header = Vec::new();
    push_header(&mut header, VERSION, &Configuration::from_numbers(numbers));
    script[..HEADER_LENGTH].copy_from_slice(&header);
}

/// For a script near the longest length: as it is, or brought to exactly the
/// longest length or one byte more.
pub fn lengthen(mut script: Vec<u8>, mut random: Random) -> Vec<u8> {
    let target = match random.weighted(&[50, 30, 20]) {
        0 => return script,
        1 => LONGEST_SCRIPT,
        _ => LONGEST_SCRIPT + 1,
    };
    while script.len() < target {
        let left = target - script.len();
        let length = match left {
            1 => 0,
            _ => (left - 1).min(200),
        };
        script.push(length as u8);
        // Kind 0 is unknown, and so is the content of no account.
        script.resize(script.len() + length, 0);
    }
    script
}
