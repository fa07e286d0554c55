//! The numbers of what has several cases, both ways. Reading gives None for
//! numbers that code no case, and `Some(None)` for the case none.

use crate::facade::{Client, OpenWrite, Reservation, ServerSet};
use crate::message::{Body, Message};

pub fn read_flag(number: u32) -> Option<bool> {
    match number {
        0 => Some(false),
        1 => Some(true),
        _ => None,
    }
}

pub fn reservation_numbers(reservation: Option<Reservation>) -> [u32; 3] {
    match reservation {
        None => [0, 0, 0],
        Some(Reservation { interaction, reading }) => [1, interaction, reading as u32],
    }
}

pub fn read_reservation(numbers: [u32; 3]) -> Option<Option<Reservation>> {
    match numbers {
        [0, 0, 0] => Some(None),
        [1, interaction, reading] => {
            Some(Some(Reservation { interaction, reading: reading.into() }))
        }
        _ => None,
    }
}

/// Without the four flags.
pub fn write_numbers(write: Option<OpenWrite>) -> [u32; 3] {
    match write {
        None => [0, 0, 0],
        Some(OpenWrite { interaction, end, .. }) => [1, interaction, end as u32],
    }
}

pub fn read_write(numbers: [u32; 3], acknowledged: ServerSet) -> Option<Option<OpenWrite>> {
    match numbers {
        [0, 0, 0] => Some(None),
        [1, interaction, end] => {
            Some(Some(OpenWrite { interaction, end: end.into(), acknowledged }))
        }
        _ => None,
    }
}

pub fn client_numbers(client: Client) -> [u32; 4] {
    match client {
        Client::Idle => [0, 0, 0, 0],
        Client::Asking { interaction } => [1, interaction, 0, 0],
        Client::Offered { interaction, address } => [2, interaction, address as u32, 0],
        Client::Waiting { interaction, address } => [3, interaction, address as u32, 0],
        Client::Holding { address, end, interaction } => {
            [4, address as u32, end as u32, interaction]
        }
    }
}

pub fn read_client(numbers: [u32; 4]) -> Option<Client> {
    match numbers {
        [0, 0, 0, 0] => Some(Client::Idle),
        [1, interaction, 0, 0] => Some(Client::Asking { interaction }),
        [2, interaction, address, 0] => {
            Some(Client::Offered { interaction, address: address as usize })
        }
        [3, interaction, address, 0] => {
            Some(Client::Waiting { interaction, address: address as usize })
        }
        [4, address, end, interaction] => {
            Some(Client::Holding { address: address as usize, end: end.into(), interaction })
        }
        _ => None,
    }
}

pub fn message_numbers(message: Message) -> [u32; 7] {
    let [kind, first, second, third] = body_numbers(message.body);
    let interaction = message.body.interaction();
    [message.from as u32, message.to as u32, interaction, kind, first, second, third]
}

fn body_numbers(body: Body) -> [u32; 4] {
    match body {
        Body::Discover { .. } => [1, 0, 0, 0],
        Body::Offer { address, .. } => [2, address as u32, 0, 0],
        Body::Request { address, wanted, .. } => [3, address as u32, wanted as u32, 0],
        Body::Renew { address, old_end, wanted, .. } => {
            [4, address as u32, old_end as u32, wanted as u32]
        }
        Body::Write { address, end, .. } => [5, address as u32, end as u32, 0],
        Body::WriteAck { address, end, .. } => [6, address as u32, end as u32, 0],
        Body::Ack { address, end, .. } => [7, address as u32, end as u32, 0],
    }
}

/// A place that holds no message may have any sender, receiver and κ.
pub fn read_message(numbers: [u32; 7]) -> Option<Option<Message>> {
    let [from, to, interaction, body @ ..] = numbers;
    let message = |body: Body| Message { from: from as usize, to: to as usize, body };
    read_body(interaction, body).map(|body| body.map(message))
}

fn read_body(interaction: u32, numbers: [u32; 4]) -> Option<Option<Body>> {
    let [kind, address, end, wanted] = numbers;
    let body = match (kind, address as usize, end.into(), wanted.into()) {
        (0, 0, 0, 0) => return Some(None),
        (1, 0, 0, 0) => Body::Discover { interaction },
        (2, address, 0, 0) => Body::Offer { interaction, address },
        (3, address, wanted, 0) => Body::Request { interaction, address, wanted },
        (4, address, old_end, wanted) => Body::Renew { interaction, address, old_end, wanted },
        (5, address, end, 0) => Body::Write { interaction, address, end },
        (6, address, end, 0) => Body::WriteAck { interaction, address, end },
        (7, address, end, 0) => Body::Ack { interaction, address, end },
        _ => return None,
    };
    Some(Some(body))
}
