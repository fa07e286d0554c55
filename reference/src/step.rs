//! The ten steps, as plain numbers and as checked steps.

use crate::facade::Tick;
use crate::refusal::Refusal;

/// A step as it is handed in: any kind number, any fields. Fields that the
/// kind does not have are not looked at. A signed field is in two's
/// complement.
#[derive(Clone, Copy, Debug, PartialEq, Eq)]
pub struct RawStep {
    pub kind: u8,
    pub fields: [u32; 3],
}

/// A step whose kind and fields meet neither refusal 4 nor refusal 5. The
/// named parties, servers, clients and positions need not exist.
#[derive(Clone, Copy, Debug, PartialEq, Eq)]
pub enum Step {
    Pass { d: Tick, party: usize, e: Tick },
    Fail { server: usize },
    Return { server: usize },
    Notice { server: usize, about: usize, alive: bool },
    Discover { client: usize },
    Request { client: usize, wanted: Tick },
    Renew { client: usize, wanted: Tick },
    Deliver { position: usize, keep: bool },
    Lose { position: usize },
    Cleanup { server: usize },
}

/// Name and field names of kinds 1 to 10 ("Ten steps").
pub const FORMS: [(&str, &[&str]); 10] = [
    ("pass", &["d", "party", "e"]),
    ("fail", &["server"]),
    ("return", &["server"]),
    ("notice", &["server", "about", "says"]),
    ("discover", &["client"]),
    ("request", &["client", "tau"]),
    ("renew", &["client", "tau"]),
    ("deliver", &["position", "keep"]),
    ("lose", &["position"]),
    ("cleanup", &["server"]),
];

pub const LONGEST_PASS: u32 = 100_000;
pub const LARGEST_E: i32 = 2_000;
pub const LARGEST_END: u32 = 2_000_000_000;

/// How many fields the kind has, if it is known.
pub fn field_count(kind: u8) -> Option<usize> {
    let index = usize::from(kind).checked_sub(1)?;
    FORMS.get(index).map(|(_, fields)| fields.len())
}

impl RawStep {
    pub fn new(kind: u8, fields: &[u32]) -> Self {
        let mut all = [0; 3];
        all[..fields.len()].copy_from_slice(fields);
        RawStep { kind, fields: all }
    }
}

impl Step {
    /// Tests refusal 4, then 5.
    pub fn parse(raw: &RawStep) -> Result<Step, Refusal> {
        let [first, second, third] = raw.fields;
        let named = first as usize;
        match raw.kind {
            1 => parse_pass(first, second as usize, third as i32),
            2 => Ok(Step::Fail { server: named }),
            3 => Ok(Step::Return { server: named }),
            4 => Ok(Step::Notice {
                server: named,
                about: second as usize,
                alive: parse_flag(third)?,
            }),
            5 => Ok(Step::Discover { client: named }),
            6 => Ok(Step::Request { client: named, wanted: parse_wanted(second)? }),
            7 => Ok(Step::Renew { client: named, wanted: parse_wanted(second)? }),
            8 => Ok(Step::Deliver { position: named, keep: parse_flag(second)? }),
            9 => Ok(Step::Lose { position: named }),
            10 => Ok(Step::Cleanup { server: named }),
            _ => Err(Refusal::Kind),
        }
    }

    /// The plain form again; for a parsed step, the one it came from.
    pub fn raw(&self) -> RawStep {
        match *self {
            Step::Pass { d, party, e } => {
                RawStep::new(1, &[d as u32, party as u32, e as i32 as u32])
            }
            Step::Fail { server } => RawStep::new(2, &[server as u32]),
            Step::Return { server } => RawStep::new(3, &[server as u32]),
            Step::Notice { server, about, alive } => {
                RawStep::new(4, &[server as u32, about as u32, alive as u32])
            }
            Step::Discover { client } => RawStep::new(5, &[client as u32]),
            Step::Request { client, wanted } => RawStep::new(6, &[client as u32, wanted as u32]),
            Step::Renew { client, wanted } => RawStep::new(7, &[client as u32, wanted as u32]),
            Step::Deliver { position, keep } => RawStep::new(8, &[position as u32, keep as u32]),
            Step::Lose { position } => RawStep::new(9, &[position as u32]),
            Step::Cleanup { server } => RawStep::new(10, &[server as u32]),
        }
    }
}

fn parse_pass(d: u32, party: usize, e: i32) -> Result<Step, Refusal> {
    if !(1..=LONGEST_PASS).contains(&d) || !(-LARGEST_E..=LARGEST_E).contains(&e) {
        return Err(Refusal::Field);
    }
    Ok(Step::Pass { d: Tick::from(d), party, e: Tick::from(e) })
}

/// A keep or says is 0 or 1.
fn parse_flag(number: u32) -> Result<bool, Refusal> {
    match number {
        0 => Ok(false),
        1 => Ok(true),
        _ => Err(Refusal::Field),
    }
}

fn parse_wanted(number: u32) -> Result<Tick, Refusal> {
    if number > LARGEST_END {
        return Err(Refusal::Field);
    }
    Ok(Tick::from(number))
}
