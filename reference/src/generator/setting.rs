//! Configurations for scripts.

use crate::configuration::{Configuration, RANGES};
use crate::random::Random;

/// Numbers with which a lease can be granted within some hundred records:
/// the time to the first offer, 2ν + μ + 6Δ, is mostly a small multiple of ν.
pub fn deep(random: &mut Random) -> Configuration {
    if random.chance(60) {
        return boundary(random);
    }
    let servers = [2, 3, 4][random.weighted(&[45, 30, 25])];
    let clients = count(random);
    let addresses = count(random);
    let detection = match random.weighted(&[8, 22, 25, 30, 15]) {
        0 => random.between(1, 3),
        1 => random.between(4, 20),
        2 => random.between(20, 500),
        3 => random.between(500, 9_999),
        _ => 10_000,
    };
    let skew = match random.weighted(&[25, 20, 35, 15, 5]) {
        0 => 0,
        1 => random.between(1, 3),
        2 => random.between(0, detection / 2),
        3 => random.between(0, detection),
        _ => 1_000,
    };
    let skew = skew.min(1_000);
    Configuration::from_numbers([
        servers,
        clients,
        addresses,
        skew as u32,
        detection as u32,
        mclt(random, skew, detection),
        retention(random, detection),
    ])
}

/// Mostly above 2Δ, so that an ack is still in time on any clock.
fn mclt(random: &mut Random, skew: i64, detection: i64) -> u32 {
    let margin = 2 * skew;
    let mclt = match random.weighted(&[40, 30, 12, 8, 6, 4]) {
        0 => margin + random.between(1, detection),
        1 => margin + random.between(1, 3 * detection),
        2 => margin + 1,
        3 => random.between(1, 4),
        4 => 10 * detection,
        _ => 1_000_000,
    };
    mclt.clamp(1, 1_000_000) as u32
}

fn retention(random: &mut Random, detection: i64) -> u32 {
    let retention = match random.weighted(&[15, 15, 35, 25, 10]) {
        0 => 0,
        1 => 1,
        2 => random.between(0, detection),
        3 => random.between(0, 4 * detection),
        _ => 1_000_000,
    };
    retention.min(1_000_000) as u32
}

/// A number of clients or addresses.
fn count(random: &mut Random) -> u32 {
    let count = match random.weighted(&[12, 45, 30, 13]) {
        0 => 1,
        1 => random.between(2, 5),
        2 => random.between(6, 31),
        _ => 32,
    };
    count as u32
}

/// Any numbers in range.
pub fn any(random: &mut Random) -> Configuration {
    match random.below(3) {
        0 => boundary(random),
        1 => Configuration::from_numbers(
            RANGES.map(|(least, largest)| random.between(least.into(), largest.into()) as u32),
        ),
        _ => deep(random),
    }
}

/// Every number at or next to an end of its range.
fn boundary(random: &mut Random) -> Configuration {
    Configuration::from_numbers(RANGES.map(|(least, largest)| {
        random.pick(&[least, least, least + 1, largest - 1, largest, largest])
    }))
}
