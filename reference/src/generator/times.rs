//! Steps of time and of servers: pass, notice, fail, return and cleanup.

use super::author::Author;
use super::edges::edge_lengths;
use crate::facade::{Client, Tick};
use crate::step::{Step, LARGEST_E};

impl Author {
    pub fn time_step(&mut self) -> Step {
        let slack = self.slack();
        if slack < 1 || self.random.chance(self.temper.gossip) {
            if let Some(step) = self.notice_step() {
                return step;
            }
        }
        self.pass_step(slack.max(1))
    }

    /// A notice that turns a belief over, to a server that stops or begins to
    /// lead by it.
    pub fn flap_step(&mut self) -> Step {
        let pairs = self.flapping_pairs();
        if pairs.is_empty() {
            return self.time_step();
        }
        let (server, about) = self.random.pick(&pairs);
        let alive = !self.facade.servers[server].believed_live.contains(about);
        Step::Notice { server, about, alive }
    }

    /// Servers that may lead, with servers about which either notice is
    /// still taken.
    pub fn flapping_pairs(&self) -> Vec<(usize, usize)> {
        let facade = &self.facade;
        let wait = 2 * facade.detection() + 2 * facade.skew();
        let may_lead =
            |server: usize| facade.clock(server) >= facade.servers[server].return_reading + wait;
        self.pairs().filter(|&(server, about)| may_lead(server) && self.is_fresh(about)).collect()
    }

    /// A false notice about the server is still taken.
    fn is_fresh(&self, server: usize) -> bool {
        self.facade.time - self.facade.servers[server].changed < self.facade.detection()
    }

    fn pass_step(&mut self, slack: Tick) -> Step {
        let (party, e) = self.drift();
        // A clock may not go back.
        let least = (-e).max(1);
        let mut edges = edge_lengths(&self.facade, slack, party, e);
        edges.retain(|&length| length >= least);
        // Before anything is led, small passes only use up records.
        let weights = if self.has_leader() { [45, 40, 15] } else { [6, 90, 4] };
        let d = match self.random.weighted(&weights) {
            0 if !edges.is_empty() => self.random.pick(&edges),
            2 => self.random.between(least, slack),
            _ => slack,
        };
        if d < least {
            return Step::Pass { d, party, e: 0 };
        }
        Step::Pass { d, party, e }
    }

    /// A party and how far to move its offset, mostly to a limit.
    fn drift(&mut self) -> (usize, Tick) {
        let parties = self.facade.offsets.len();
        let servers = self.facade.servers.len();
        let among = if self.random.chance(500) { servers } else { parties };
        let party = self.random.below(among);
        if !self.random.chance(self.temper.drift) {
            return (party, 0);
        }
        let skew = self.facade.skew();
        let inside = self.random.between(-skew, skew);
        let target = self.random.pick(&[-skew, skew, inside]);
        let most = Tick::from(LARGEST_E);
        let e = (target - self.facade.offsets[party]).clamp(-most, most);
        (party, e)
    }

    /// Mostly the oldest notice, which keeps time from passing; else one that
    /// corrects a belief or may change it.
    fn notice_step(&mut self) -> Option<Step> {
        let facade = &self.facade;
        let pairs: Vec<(usize, usize)> = self.pairs().collect();
        let time_of = |&(server, about): &(usize, usize)| facade.notice_times[server][about];
        let oldest = pairs.iter().map(time_of).min()?;
        let is_mistaken = |&(server, about): &(usize, usize)| {
            facade.servers[server].believed_live.contains(about) != facade.servers[about].alive
        };
        let chosen = match self.random.weighted(&[65, 20, 10, 5]) {
            0 => pairs_where(&pairs, |pair| time_of(pair) == oldest),
            1 => pairs_where(&pairs, is_mistaken),
            2 => pairs_where(&pairs, |&(_, about)| self.is_fresh(about)),
            _ => pairs.clone(),
        };
        let fitting = if chosen.is_empty() { &pairs } else { &chosen };
        let (server, about) = self.random.pick(fitting);
        let lie = self.is_fresh(about) && self.random.chance(self.temper.lie);
        let alive = self.facade.servers[about].alive != lie;
        Some(Step::Notice { server, about, alive })
    }

    pub fn fail_step(&mut self) -> Step {
        let servers = &self.facade.servers;
        let live: Vec<usize> = (0..servers.len()).filter(|&server| servers[server].alive).collect();
        let leading = |server: &usize, address: usize| servers[*server].entries[address].leads;
        let mut concerned: Vec<usize> = Vec::new();
        for client in &self.facade.clients {
            if let Client::Holding { address, .. } = *client {
                concerned.extend(live.iter().filter(|server| leading(server, address)));
            }
        }
        // The last live server fails seldom.
        if live.len() == 1 && !self.random.chance(150) {
            return self.time_step();
        }
        let chosen = if self.random.chance(700) { self.one_of(&concerned) } else { None };
        let server = chosen.unwrap_or_else(|| self.random.pick(&live));
        Step::Fail { server }
    }

    pub fn return_step(&mut self) -> Step {
        let all_dead = self.facade.servers.iter().all(|server| !server.alive);
        if all_dead && self.random.chance(400) {
            return self.time_step();
        }
        let server = self.some_server(false).unwrap_or(0);
        Step::Return { server }
    }

    pub fn cleanup_step(&mut self) -> Step {
        let server = self.some_server(true).unwrap_or(0);
        Step::Cleanup { server }
    }
}

fn pairs_where(
    pairs: &[(usize, usize)],
    fits: impl Fn(&(usize, usize)) -> bool,
) -> Vec<(usize, usize)> {
    pairs.iter().copied().filter(|pair| fits(pair)).collect()
}
