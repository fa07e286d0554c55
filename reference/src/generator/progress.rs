//! Chooses what kind of step brings the facade on.

use super::author::{is_offered, Author};
use crate::facade::{Client, MOST_WAITING};
use crate::step::Step;

impl Author {
    /// The next step, mostly one that is not refused.
    pub fn progress(&mut self) -> Step {
        self.turn_flood();
        let waiting = self.facade.waiting.len();
        let full = waiting + self.facade.servers.len() > MOST_WAITING;
        if full && self.random.chance(250) {
            return self.brim_step();
        }
        let some_dead = self.facade.servers.iter().any(|server| !server.alive);
        let all_dead = self.facade.servers.iter().all(|server| !server.alive);
        let weights = [
            self.time_weight(),
            if waiting > 0 { 40 + waiting.min(40) } else { 0 },
            self.client_weight(),
            if all_dead { 0 } else { self.fail_weight() },
            match (all_dead, some_dead) {
                (true, _) => 60,
                (_, true) => self.temper.restore,
                _ => 0,
            },
            if waiting > 0 { self.temper.lose } else { 0 },
            if self.flapping_pairs().is_empty() { 0 } else { self.temper.flap },
            self.cleanup_weight(),
        ];
        match self.random.weighted(&weights) {
            0 => self.time_step(),
            1 => self.deliver_step(),
            2 => self.client_step(),
            3 => self.fail_step(),
            4 => self.return_step(),
            5 => Step::Lose { position: self.random.below(waiting) },
            6 => self.flap_step(),
            _ => self.cleanup_step(),
        }
    }

    /// A flood begins when there is something to lend, so that not only
    /// discovers fill the list, and ends some time after the list is full.
    fn turn_flood(&mut self) {
        let waiting = self.facade.waiting.len();
        if self.flooding {
            let full = waiting + self.facade.servers.len() > MOST_WAITING;
            self.flooding = !(full && self.random.chance(40));
        } else if self.temper.flood > 0 && waiting < 60 {
            let chance = if self.facade.held() > 0 { 100 } else { 5 };
            self.flooding = self.has_leader() && self.random.chance(chance);
        }
    }

    /// Without a leader only time helps; with messages under way it may
    /// spoil their answers.
    fn time_weight(&self) -> usize {
        if !self.has_leader() {
            300
        } else if self.temper.haste && (self.has_free_address() || !self.facade.waiting.is_empty())
        {
            2
        } else if !self.facade.waiting.is_empty() {
            12
        } else if self.has_free_address() {
            20
        } else {
            45
        }
    }

    fn client_weight(&self) -> usize {
        let clients = &self.facade.clients;
        let waiting = self.facade.waiting.len();
        let may_ask = clients.contains(&Client::Idle) && self.has_free_address();
        let may_renew = clients.iter().any(|client| self.is_settled(client));
        if self.flooding && waiting < MOST_WAITING {
            return 25 + self.temper.flood;
        }
        if waiting > self.temper.crowd {
            1
        } else if clients.iter().any(|client| self.outlasts(client)) {
            60
        } else if clients.iter().any(is_offered) {
            40
        } else if may_ask || may_renew {
            25
        } else if waiting == 0 && self.has_free_address() {
            20
        } else {
            3
        }
    }

    /// A holding client whose last interaction has no message under way: to
    /// renew earlier would make the answers useless.
    pub fn is_settled(&self, client: &Client) -> bool {
        let Client::Holding { interaction, .. } = *client else {
            return false;
        };
        let mut messages = self.facade.waiting.iter();
        !messages
            .any(|message| message.body.interaction() == interaction && !message.body.is_write())
    }

    /// A fail shows most where a client holds, and for longer than the next
    /// leader will lend.
    fn fail_weight(&self) -> usize {
        let fail = self.temper.fail;
        if self.facade.clients.iter().any(|client| self.holds_long(client)) {
            6 * fail
        } else if self.temper.patient {
            0
        } else if !self.has_leader() {
            fail.min(1)
        } else if self.facade.held() > 0 {
            2 * fail
        } else {
            fail
        }
    }

    /// It will still hold when another server has heard of a fail and lent
    /// the address for a short while.
    fn holds_long(&self, client: &Client) -> bool {
        let next = self.facade.time + self.facade.detection() + self.facade.mclt();
        matches!(*client, Client::Holding { end, .. } if end > next)
    }

    /// Reservations that are not used block their addresses.
    fn cleanup_weight(&self) -> usize {
        match (self.has_reservation(), self.has_free_address()) {
            (false, _) => 1,
            (true, true) => 3,
            (true, false) => 8,
        }
    }

    pub fn has_leader(&self) -> bool {
        let leads = |server: &crate::facade::Server| {
            server.alive && server.entries.iter().any(|entry| entry.leads)
        };
        self.facade.servers.iter().any(leads)
    }

    /// Some discover would be answered by an offer.
    fn has_free_address(&self) -> bool {
        let facade = &self.facade;
        facade.servers.iter().enumerate().any(|(server, state)| {
            let mut entries = state.entries.iter().enumerate();
            state.alive
                && entries.any(|(address, entry)| {
                    entry.leads
                        && entry.reservation.is_none()
                        && facade.record_is_past(server, address)
                })
        })
    }

    fn has_reservation(&self) -> bool {
        let mut entries = self.facade.servers.iter().flat_map(|server| &server.entries);
        entries.any(|entry| entry.reservation.is_some())
    }
}
