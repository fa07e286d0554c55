//! Bad inputs that every comparison tries.

use reference::random::Random;
use reference::script::VERSION;
use reference::writer::push_header;
use reference::Configuration;

const LENGTHS: [usize; 7] = [0, 1, 28, 29, 65_536, 65_537, 70_000];
const RANDOM_INPUTS: usize = 50;

/// Names and bytes. The random ones depend on the seed.
pub fn bad_inputs(seed: u64) -> Vec<(String, Vec<u8>)> {
    let mut random = Random::new(seed);
    let mut inputs = Vec::new();
    for length in LENGTHS {
        inputs.push((format!("{length} zeros"), vec![0; length]));
        let name = format!("{length} bytes, a good header and random ones");
        inputs.push((name, headed(length, &mut random)));
    }
    for number in 1..=RANDOM_INPUTS {
        let length = random_length(&mut random);
        let name = format!("random bytes, number {number}");
        inputs.push((name, random_bytes(length, &mut random)));
    }
    inputs
}

/// Mostly short, one in ten of any length.
fn random_length(random: &mut Random) -> usize {
    let limit = if random.chance(100) { 70_001 } else { 300 };
    random.below(limit)
}

fn random_bytes(length: usize, random: &mut Random) -> Vec<u8> {
    (0..length).map(|_| random.number() as u8).collect()
}

fn headed(length: usize, random: &mut Random) -> Vec<u8> {
    let mut script = Vec::new();
    push_header(&mut script, VERSION, &Configuration::from_numbers([2, 1, 1, 0, 5, 4, 10]));
    script.extend(random_bytes(length.saturating_sub(script.len()), random));
    script.truncate(length);
    script
}

#[cfg(test)]
mod tests {
    use super::{bad_inputs, LENGTHS, RANDOM_INPUTS};

    #[test]
    fn lengths() {
        let inputs = bad_inputs(1);
        assert_eq!(inputs.len(), 2 * LENGTHS.len() + RANDOM_INPUTS);
        for (pair, length) in inputs.chunks(2).zip(LENGTHS) {
            assert!(pair.iter().all(|(_, bytes)| bytes.len() == length));
        }
    }
}
