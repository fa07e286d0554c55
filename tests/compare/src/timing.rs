//! Times whole runs of programs.

use std::fs::File;
use std::io;
use std::path::Path;
use std::process::{Command, Stdio};
use std::time::{Duration, Instant};

use crate::process::failure;

/// One run, with its input from a file and its output to a file.
pub fn time(program: &str, input: &Path, output: &Path) -> io::Result<Duration> {
    let mut command = Command::new(program);
    command.stdin(Stdio::from(File::open(input)?)).stdout(Stdio::from(File::create(output)?));
    let start = Instant::now();
    let status = command.status()?;
    let taken = start.elapsed();
    match failure(status) {
        None => Ok(taken),
        Some(failure) => Err(io::Error::other(format!("{program}: {failure}"))),
    }
}

/// Times of two programs on one input, in pairs taken one after the other.
#[derive(Default)]
pub struct Pairs {
    pub ours: Vec<Duration>,
    pub reference: Vec<Duration>,
}

impl Pairs {
    /// Least and largest ratio of a pair.
    pub fn spread(&self) -> (f64, f64) {
        let pairs = self.ours.iter().zip(&self.reference);
        let ratios = pairs.map(|(ours, reference)| ours.as_secs_f64() / reference.as_secs_f64());
        ratios
            .fold((f64::INFINITY, 0.0), |(least, most), ratio| (least.min(ratio), most.max(ratio)))
    }

    pub fn ratio_of_medians(&self) -> f64 {
        median(&self.ours).as_secs_f64() / median(&self.reference).as_secs_f64()
    }
}

/// The middle one; of an even number, the later of the two in the middle.
pub fn median(times: &[Duration]) -> Duration {
    let mut sorted = times.to_vec();
    sorted.sort();
    sorted.get(sorted.len() / 2).copied().unwrap_or_default()
}

/// Nanoseconds per record: the median, over the repeats, of the time above
/// that of a script without records in the same repeat.
pub fn per_record(whole: &[Duration], empty: &[Duration], records: usize) -> f64 {
    let nanoseconds = |time: &Duration| time.as_nanos() as f64;
    let mut above: Vec<f64> = whole
        .iter()
        .zip(empty)
        .map(|(whole, empty)| nanoseconds(whole) - nanoseconds(empty))
        .collect();
    above.sort_by(f64::total_cmp);
    above.get(above.len() / 2).copied().unwrap_or(0.0) / records.max(1) as f64
}

#[cfg(test)]
mod tests {
    use super::{median, per_record, Pairs};
    use std::time::Duration;

    fn times(milliseconds: &[u64]) -> Vec<Duration> {
        milliseconds.iter().map(|&number| Duration::from_millis(number)).collect()
    }

    #[test]
    fn figures() {
        let pairs = Pairs { ours: times(&[9, 2, 4]), reference: times(&[3, 4, 8]) };
        assert_eq!(median(&pairs.ours), Duration::from_millis(4));
        assert_eq!(pairs.ratio_of_medians(), 1.0);
        let (least, largest) = pairs.spread();
        assert_eq!(least, 0.5);
        assert!((largest - 3.0).abs() < 1e-9);
        assert_eq!(per_record(&times(&[9, 5, 4]), &times(&[4, 1, 2]), 10), 400_000.0);
    }
}
