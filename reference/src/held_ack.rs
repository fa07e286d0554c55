//! How an ack meets a client that holds with its κ and address.

use crate::facade::{Client, Facade, Tick};
use crate::message::{Body, Message};

/// An ack is late if its end is not above the client's clock, and a hold is
/// over if its own end is not above it.
#[derive(Clone, Copy, Debug, PartialEq, Eq, PartialOrd, Ord)]
pub enum Meeting {
    LateHoldOver,
    LateHoldRuns,
    HoldOver,
    OwnEarlier,
    Same,
    OwnLater,
}

/// In the order of `Meeting`.
pub const MEETINGS: [&str; 6] = [
    "late, hold over",
    "late, hold runs",
    "hold over",
    "own end earlier",
    "ends the same",
    "own end later",
];

/// If the message is such an ack.
pub fn meeting(facade: &Facade, message: &Message) -> Option<Meeting> {
    let Body::Ack { interaction, address, end } = message.body else {
        return None;
    };
    let clock = facade.clock(message.to);
    let own_end = held_end(facade, message.to, interaction, address)?;
    Some(match (end > clock, own_end > clock) {
        (false, false) => Meeting::LateHoldOver,
        (false, true) => Meeting::LateHoldRuns,
        (true, false) => Meeting::HoldOver,
        _ if own_end < end => Meeting::OwnEarlier,
        _ if own_end == end => Meeting::Same,
        _ => Meeting::OwnLater,
    })
}

/// The end until which the party holds that address in that interaction.
fn held_end(facade: &Facade, party: usize, interaction: u32, address: usize) -> Option<Tick> {
    let client = party.checked_sub(facade.servers.len())?;
    let Client::Holding { address: held, end, interaction: last } = facade.clients[client] else {
        return None;
    };
    (held == address && last == interaction).then_some(end)
}
