//! Steps of messages and of clients: deliver, discover, request and renew.

use super::author::{is_holding, is_offered, Author};
use crate::facade::{Client, Tick};
use crate::message::Body;
use crate::refusal::{Outcome, Refusal};
use crate::step::{Step, LARGEST_END};

impl Author {
    pub fn deliver_step(&mut self) -> Step {
        let waiting = self.facade.waiting.len();
        let useful = if self.temper.haste { 300 } else { 55 };
        let position = match self.random.weighted(&[20, 25, useful]) {
            0 => 0,
            1 => self.random.below(waiting),
            _ => self.useful_position(),
        };
        let chance = self.keep_chance(position);
        let keep = self.random.chance(chance);
        Step::Deliver { position, keep }
    }

    /// A repeated request or renew shows more than others.
    fn keep_chance(&self, position: usize) -> usize {
        let calm = self.temper.flood > 0 && !self.flooding;
        let chance = if calm { 30 } else { self.temper.keep };
        match self.facade.waiting[position].body {
            Body::Request { .. } | Body::Renew { .. } => 2 * chance,
            _ => chance,
        }
    }

    /// A message whose handling has outcome 0, if a few tries find one.
    fn useful_position(&mut self) -> usize {
        let waiting = self.facade.waiting.len();
        let mut position = 0;
        for _ in 0..6 {
            position = self.random.below(waiting);
            let mut trial = self.facade.clone();
            let step = Step::Deliver { position, keep: false };
            if trial.apply(step) == Ok(Outcome::Done) {
                break;
            }
        }
        position
    }

    /// With a full list: a message that must not be kept if tries find one.
    pub fn brim_step(&mut self) -> Step {
        let waiting = self.facade.waiting.len();
        let mut position = 0;
        for _ in 0..12 {
            position = self.random.below(waiting);
            let mut trial = self.facade.clone();
            if trial.apply(Step::Deliver { position, keep: true }) == Err(Refusal::Waiting) {
                break;
            }
        }
        let keep = self.random.chance(400);
        Step::Deliver { position, keep }
    }

    pub fn client_step(&mut self) -> Step {
        let outlasting = self.some_outlasting_client();
        if let Some(client) = outlasting.filter(|_| self.random.chance(700)) {
            return self.renew_step(client);
        }
        let offered = self.some_client(is_offered);
        let holding = if self.random.chance(900) {
            self.some_settled_client()
        } else {
            self.some_client(is_holding)
        };
        let idle = self.some_client(|client| *client == Client::Idle);
        let busy = self.some_client(|client| *client != Client::Idle && !is_holding(client));
        let wish = self.random.weighted(&[50, 30, 30, 4]);
        match (wish, offered, holding, idle, busy) {
            (0, Some(client), ..) => self.request_step(client),
            (1, _, Some(client), ..) => self.renew_step(client),
            (3, .., Some(client)) => Step::Discover { client },
            // The wish cannot be met: what comes first.
            (.., Some(client), _) => Step::Discover { client },
            (_, Some(client), ..) => self.request_step(client),
            (_, _, Some(client), ..) => self.renew_step(client),
            (.., Some(client)) => Step::Discover { client },
            _ => self.time_step(),
        }
    }

    fn some_settled_client(&mut self) -> Option<usize> {
        let clients = &self.facade.clients;
        let settled: Vec<usize> =
            (0..clients.len()).filter(|&client| self.is_settled(&clients[client])).collect();
        self.one_of(&settled)
    }

    fn some_outlasting_client(&mut self) -> Option<usize> {
        let clients = &self.facade.clients;
        let outlasting: Vec<usize> =
            (0..clients.len()).filter(|&client| self.outlasts(&clients[client])).collect();
        self.one_of(&outlasting)
    }

    /// A settled client that holds for longer than its leader will lend it,
    /// where the leader has lent nothing that runs: it has just begun to lead.
    pub fn outlasts(&self, client: &Client) -> bool {
        let Client::Holding { address, end, .. } = *client else {
            return false;
        };
        let facade = &self.facade;
        let lends_less = facade.servers.iter().enumerate().any(|(server, state)| {
            let entry = &state.entries[address];
            let clock = facade.clock(server);
            state.alive && entry.leads && entry.lent_end <= clock && clock + facade.mclt() < end
        });
        lends_less && self.is_settled(client)
    }

    fn request_step(&mut self, client: usize) -> Step {
        let wanted = self.wanted(client);
        Step::Request { client, wanted }
    }

    fn renew_step(&mut self, client: usize) -> Step {
        let wanted = self.wanted(client);
        Step::Renew { client, wanted }
    }

    /// A τ. A record that is far off blocks the address for the whole script.
    fn wanted(&mut self, client: usize) -> Tick {
        let clock = self.facade.clock(self.facade.client_party(client));
        let mclt = self.facade.mclt();
        let detection = self.facade.detection();
        let largest = Tick::from(LARGEST_END);
        if self.random.chance(self.temper.far) {
            let any = self.random.between(0, largest);
            return self.random.pick(&[largest, largest - 1, any, clock + 1_000_000]);
        }
        let weights = if self.temper.patient { [5, 5, 80, 10] } else { [10, 15, 40, 25] };
        let wanted = match self.random.weighted(&weights) {
            0 => 0,
            1 => clock + mclt + self.random.between(-1, 1),
            2 => clock + self.random.between(1, self.temper.stretch as Tick * detection),
            _ => clock + self.random.between(1, 4 * mclt),
        };
        wanted.clamp(0, largest)
    }
}
