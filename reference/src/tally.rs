//! Counts what scripts reach.

use std::fmt;

use crate::facade::{Client, Facade};
use crate::held_ack::{meeting, Meeting, MEETINGS};
use crate::message::{Body, Message, TYPES};
use crate::refusal::{Answer, Outcome, Refusal};
use crate::script::{read_header, Records, HEADER_LENGTH};
use crate::step::{Step, FORMS};

#[derive(Clone, Debug, Default)]
pub struct Tally {
    pub scripts: usize,
    /// Scripts with a verdict of 0 to 5.
    pub verdicts: [usize; 6],
    /// Scripts in which some client came to hold.
    pub granting_scripts: usize,
    /// Scripts in which some server came to lead.
    pub leading_scripts: usize,
    /// Records by refusal number; scripts for 1 and 2.
    pub refusals: [usize; 14],
    /// Accepted steps by kind, from index 1.
    pub steps: [usize; 11],
    /// Delivered messages by type and outcome.
    pub deliveries: [[usize; 3]; 7],
    /// Acks by which a waiting client begins to hold.
    pub grants: usize,
    /// Acks that a holding client takes.
    pub taken_while_held: usize,
    /// Acks to a client that holds with their κ and address, by `Meeting`. The
    /// late ones are not taken.
    pub held_acks: [usize; 6],
    pub completed_writes: usize,
    /// A server begins to lead an address that another led last.
    pub failovers: usize,
    /// The same while a client holds the address.
    pub held_failovers: usize,
    /// Holds ended by time.
    pub expiries: usize,
    pub most_waiting: usize,
    pub most_held: usize,
}

/// What must be looked at before a step to count what it did.
struct Before {
    message: Option<Message>,
    receiver_held: bool,
    meeting: Option<Meeting>,
    held: usize,
    /// By server, the addresses led, one bit each.
    led: Vec<u32>,
}

impl Tally {
    pub fn add(&mut self, script: &[u8]) {
        self.scripts += 1;
        self.verdicts[usize::from(crate::script::verdict(script))] += 1;
        match read_header(script).and_then(Facade::fresh) {
            Err(refusal) => self.refusals[usize::from(refusal.number())] += 1,
            Ok(facade) => self.add_records(facade, &script[HEADER_LENGTH..]),
        }
    }

    fn add_records(&mut self, mut facade: Facade, records: &[u8]) {
        let grants = self.grants;
        let mut last_leader = vec![None; facade.configuration.addresses as usize];
        for step in Records::new(records) {
            let answer = match step {
                Err(refusal) => Err(refusal),
                Ok(step) => self.add_step(&mut facade, step, &mut last_leader),
            };
            let number = answer.err().map_or(0, Refusal::number);
            self.refusals[usize::from(number)] += 1;
        }
        self.granting_scripts += usize::from(self.grants > grants);
        self.leading_scripts += usize::from(last_leader.iter().any(Option::is_some));
    }

    fn add_step(
        &mut self,
        facade: &mut Facade,
        step: Step,
        last_leader: &mut [Option<usize>],
    ) -> Answer {
        let before = look(facade, step);
        let outcome = facade.apply(step)?;
        self.steps[usize::from(step.raw().kind)] += 1;
        self.most_waiting = self.most_waiting.max(facade.waiting.len());
        self.most_held = self.most_held.max(facade.held());
        if let Some(meeting) = before.meeting {
            self.held_acks[meeting as usize] += 1;
        }
        match (step, before.message) {
            (Step::Pass { .. }, _) => self.expiries += before.held - facade.held(),
            (_, Some(message)) => {
                self.add_delivery(facade, &message, before.receiver_held, outcome);
            }
            _ => {}
        }
        self.add_leaders(facade, &before.led, last_leader);
        Ok(outcome)
    }

    fn add_delivery(&mut self, facade: &Facade, message: &Message, held: bool, outcome: Outcome) {
        self.deliveries[message.body.index()][usize::from(outcome.number())] += 1;
        if outcome != Outcome::Done {
            return;
        }
        match message.body {
            Body::Ack { .. } if held => self.taken_while_held += 1,
            Body::Ack { .. } => self.grants += 1,
            Body::WriteAck { address, .. } => {
                let closed = facade.servers[message.to].entries[address].write.is_none();
                self.completed_writes += usize::from(closed);
            }
            _ => {}
        }
    }

    fn add_leaders(&mut self, facade: &Facade, led: &[u32], last: &mut [Option<usize>]) {
        for (server, &led_before) in led.iter().enumerate() {
            let begun = led_addresses(facade, server) & !led_before;
            for (address, leader) in last.iter_mut().enumerate() {
                if begun & (1 << address) == 0 {
                    continue;
                }
                if leader.is_some_and(|earlier| earlier != server) {
                    self.failovers += 1;
                    self.held_failovers += usize::from(is_held(facade, address));
                }
                *leader = Some(server);
            }
        }
    }
}

fn look(facade: &Facade, step: Step) -> Before {
    let message = match step {
        Step::Deliver { position, .. } => facade.waiting.get(position).copied(),
        _ => None,
    };
    let receiver_held = message.is_some_and(|message| {
        let client = message.to.checked_sub(facade.servers.len());
        client.is_some_and(|client| matches!(facade.clients[client], Client::Holding { .. }))
    });
    Before {
        message,
        receiver_held,
        meeting: message.and_then(|message| meeting(facade, &message)),
        held: facade.held(),
        led: (0..facade.servers.len()).map(|server| led_addresses(facade, server)).collect(),
    }
}

fn is_held(facade: &Facade, wanted: usize) -> bool {
    let holds =
        |client: &Client| matches!(*client, Client::Holding { address, .. } if address == wanted);
    facade.clients.iter().any(holds)
}

fn led_addresses(facade: &Facade, server: usize) -> u32 {
    let entries = facade.servers[server].entries.iter().enumerate();
    entries.filter(|(_, entry)| entry.leads).fold(0, |led, (address, _)| led | 1 << address)
}

impl fmt::Display for Tally {
    fn fmt(&self, out: &mut fmt::Formatter<'_>) -> fmt::Result {
        writeln!(out, "scripts {}", self.scripts)?;
        for (number, count) in self.verdicts.iter().enumerate() {
            writeln!(out, "  verdict {number:<2} {count:>9}")?;
        }
        writeln!(out, "  with a leader {:>5}", self.leading_scripts)?;
        writeln!(out, "  with a grant {:>6}", self.granting_scripts)?;
        writeln!(out, "records by refusal (1 and 2: scripts)")?;
        for (number, count) in self.refusals.iter().enumerate() {
            writeln!(out, "  {number:<10} {count:>9}")?;
        }
        writeln!(out, "accepted steps by kind")?;
        for (index, (name, _)) in FORMS.iter().enumerate() {
            writeln!(out, "  {:<2} {name:<10} {:>6}", index + 1, self.steps[index + 1])?;
        }
        writeln!(out, "delivered messages by outcome        0        1        2")?;
        for (name, counts) in TYPES.iter().zip(&self.deliveries) {
            let [done, not_met, dead] = counts;
            writeln!(out, "  {name:<27} {done:>8} {not_met:>8} {dead:>8}")?;
        }
        writeln!(out, "grants            {:>9}", self.grants)?;
        writeln!(out, "renewals taken    {:>9}", self.deliveries[2][0])?;
        writeln!(out, "acks while held   {:>9}", self.taken_while_held)?;
        for (name, count) in MEETINGS.iter().zip(self.held_acks) {
            writeln!(out, "  {name:<15} {count:>9}")?;
        }
        writeln!(out, "completed writes  {:>9}", self.completed_writes)?;
        writeln!(out, "failovers         {:>9}", self.failovers)?;
        writeln!(out, "  while held      {:>9}", self.held_failovers)?;
        writeln!(out, "expiries          {:>9}", self.expiries)?;
        writeln!(out, "most holding      {:>9}", self.most_held)?;
        writeln!(out, "most waiting      {:>9}", self.most_waiting)
    }
}
