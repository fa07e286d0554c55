//! The seven numbers of a script's header.

use crate::refusal::Refusal;

#[derive(Clone, Copy, Debug, PartialEq, Eq)]
pub struct Configuration {
    /// S
    pub servers: u32,
    /// C
    pub clients: u32,
    /// A
    pub addresses: u32,
    /// Δ, the most by which a clock is off.
    pub skew: u32,
    /// ν, the paper's notice bound: the longest time that a live server is
    /// without a notice about another.
    pub detection: u32,
    /// μ, the paper's short lease, the maximum client lead time: so long a
    /// server may lend before the others know of it.
    pub mclt: u32,
    /// θ, the paper's reservation time: so long an offered address is kept
    /// for its client.
    pub retention: u32,
}

/// Names used by the text form, in header order.
pub const NAMES: [&str; 7] =
    ["servers", "clients", "addresses", "skew", "detection", "mclt", "retention"];

/// Least and largest allowed value of each number, in header order
/// ("The facade").
pub const RANGES: [(u32, u32); 7] =
    [(2, 4), (1, 32), (1, 32), (0, 1_000), (1, 10_000), (1, 1_000_000), (0, 1_000_000)];

impl Configuration {
    pub fn from_numbers(numbers: [u32; 7]) -> Self {
        let [servers, clients, addresses, times @ ..] = numbers;
        let [skew, detection, mclt, retention] = times;
        Configuration { servers, clients, addresses, skew, detection, mclt, retention }
    }

    pub fn numbers(&self) -> [u32; 7] {
        [
            self.servers,
            self.clients,
            self.addresses,
            self.skew,
            self.detection,
            self.mclt,
            self.retention,
        ]
    }

    /// Refusal 2 for a configuration.
    pub fn check(&self) -> Result<(), Refusal> {
        let inside =
            |(number, (least, largest)): (&u32, &(u32, u32))| (*least..=*largest).contains(number);
        if self.numbers().iter().zip(&RANGES).all(inside) {
            Ok(())
        } else {
            Err(Refusal::Range)
        }
    }
}
