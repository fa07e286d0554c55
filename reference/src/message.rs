//! Waiting messages.

use crate::facade::Tick;

/// A message on its way. Sender and receiver are party numbers.
#[derive(Clone, Copy, Debug, PartialEq, Eq)]
pub struct Message {
    pub from: usize,
    pub to: usize,
    pub body: Body,
}

/// The seven types of message. `end` of a write is the v of document 01.
#[derive(Clone, Copy, Debug, PartialEq, Eq)]
pub enum Body {
    Discover { interaction: u32 },
    Offer { interaction: u32, address: usize },
    Request { interaction: u32, address: usize, wanted: Tick },
    Renew { interaction: u32, address: usize, old_end: Tick, wanted: Tick },
    Ack { interaction: u32, address: usize, end: Tick },
    Write { interaction: u32, address: usize, end: Tick },
    WriteAck { interaction: u32, address: usize, end: Tick },
}

/// Names of the types, in the order of `Body::index`.
pub const TYPES: [&str; 7] = ["discover", "request", "renew", "offer", "ack", "write", "write ack"];

impl Body {
    /// Where the type stands in `TYPES`.
    pub fn index(&self) -> usize {
        match self {
            Body::Discover { .. } => 0,
            Body::Request { .. } => 1,
            Body::Renew { .. } => 2,
            Body::Offer { .. } => 3,
            Body::Ack { .. } => 4,
            Body::Write { .. } => 5,
            Body::WriteAck { .. } => 6,
        }
    }

    pub fn interaction(&self) -> u32 {
        match *self {
            Body::Discover { interaction }
            | Body::Offer { interaction, .. }
            | Body::Request { interaction, .. }
            | Body::Renew { interaction, .. }
            | Body::Ack { interaction, .. }
            | Body::Write { interaction, .. }
            | Body::WriteAck { interaction, .. } => interaction,
        }
    }

    /// The address named, if the type names one.
    pub fn address(&self) -> Option<usize> {
        match *self {
            Body::Discover { .. } => None,
            Body::Offer { address, .. }
            | Body::Request { address, .. }
            | Body::Renew { address, .. }
            | Body::Ack { address, .. }
            | Body::Write { address, .. }
            | Body::WriteAck { address, .. } => Some(address),
        }
    }

    /// True for what servers send each other.
    pub fn is_write(&self) -> bool {
        matches!(self, Body::Write { .. } | Body::WriteAck { .. })
    }

    /// True if the type is sent by a server.
    pub fn from_server(&self) -> bool {
        !matches!(self, Body::Discover { .. } | Body::Request { .. } | Body::Renew { .. })
    }

    /// True if the type is received by a server.
    pub fn to_server(&self) -> bool {
        !matches!(self, Body::Offer { .. } | Body::Ack { .. })
    }
}
