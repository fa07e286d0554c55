//! Steps that are meant to be refused, alone or for several reasons at once.

use super::author::{is_holding, is_offered, Author};
use crate::facade::MOST_WAITING;
use crate::step::{field_count, RawStep, Step};

const BEYOND: u32 = u32::MAX;

impl Author {
    /// Writes one such record.
    pub fn write_mischief(&mut self, limit: usize) {
        if self.random.chance(self.temper.mixed) {
            let step = self.mixed_step();
            return self.put(step);
        }
        let step = match self.random.weighted(&[8, 16, 20, 20, 16, 12, 14, 14]) {
            0 => return self.write_unknown(limit),
            1 => self.bad_field(),
            2 => self.missing(),
            3 => self.wrong_state(),
            4 => self.bad_clock(),
            5 => self.overdue(),
            6 => self.false_notice(),
            _ => self.too_many(),
        };
        let step = step.unwrap_or_else(|| self.mixed_step());
        self.put(step);
    }

    /// Refusal 4: an unknown kind of any length.
    fn write_unknown(&mut self, limit: usize) {
        let any = self.random.between(11, 255) as u8;
        let kind = self.random.pick(&[0, 11, 12, 255, any]);
        let length = match self.random.weighted(&[20, 20, 40, 10, 10]) {
            0 => 0,
            1 => self.random.pick(&[4, 8, 12]),
            2 => self.random.below(20),
            3 => self.random.below(255),
            _ => 254,
        };
        let content: Vec<u8> = (0..length).map(|_| self.random.number() as u8).collect();
        self.put_unknown(kind, &content, limit);
    }

    /// Refusal 5, next to the range and far from it.
    fn bad_field(&mut self) -> Option<RawStep> {
        let server = self.random.below(self.facade.servers.len()) as u32;
        let about = self.random.below(self.facade.servers.len()) as u32;
        let client = self.random.below(self.facade.clients.len()) as u32;
        let position = self.random.below(self.facade.waiting.len() + 1) as u32;
        let bad_d = self.random.pick(&[0, 100_001, BEYOND]);
        let bad_e = self.random.pick(&[2_001, -2_001, i32::MIN, i32::MAX]) as u32;
        let bad_flag = self.random.pick(&[2, 256, BEYOND]);
        let bad_wanted = self.random.pick(&[2_000_000_001, 1 << 31, BEYOND]);
        let (kind, fields) = match self.random.below(6) {
            0 => (1, [bad_d, server, 0]),
            1 => (1, [1, server, bad_e]),
            2 => (4, [server, about, bad_flag]),
            3 => (6, [client, bad_wanted, 0]),
            4 => (7, [client, bad_wanted, 0]),
            _ => (8, [position, bad_flag, 0]),
        };
        Some(RawStep { kind, fields })
    }

    /// Refusal 6.
    fn missing(&mut self) -> Option<RawStep> {
        let servers = self.facade.servers.len() as u32;
        let clients = self.facade.clients.len() as u32;
        let waiting = self.facade.waiting.len() as u32;
        let past = self.random.pick(&[0, 0, 0, 1, 28, 1_000]);
        let far = self.random.chance(100);
        let beyond = |count: u32| if far { BEYOND } else { count + past };
        let server = self.random.below(servers as usize) as u32;
        let flag = self.random.below(2) as u32;
        let fields = match self.random.below(13) {
            0 => (1, [1, beyond(servers + clients), 0]),
            1 => (2, [beyond(servers), 0, 0]),
            2 => (3, [beyond(servers), 0, 0]),
            3 => (4, [beyond(servers), server, flag]),
            4 => (4, [server, beyond(servers), flag]),
            5 | 6 => (4, [server, server, flag]),
            7 => (5, [beyond(clients), 0, 0]),
            8 => (6, [beyond(clients), 0, 0]),
            9 => (7, [beyond(clients), 0, 0]),
            10 => (8, [beyond(waiting), flag, 0]),
            11 => (9, [beyond(waiting), 0, 0]),
            _ => (10, [beyond(servers), 0, 0]),
        };
        let (kind, fields) = fields;
        Some(RawStep { kind, fields })
    }

    /// Refusal 7, if some party is in such a state.
    fn wrong_state(&mut self) -> Option<RawStep> {
        let count = self.facade.servers.len();
        let step = match self.random.below(7) {
            0 => Step::Fail { server: self.some_server(false)? },
            1 => {
                let server = self.some_server(false)?;
                let about = (server + 1 + self.random.below(count - 1)) % count;
                let alive = self.random.chance(500);
                Step::Notice { server, about, alive }
            }
            2 => Step::Cleanup { server: self.some_server(false)? },
            3 => Step::Return { server: self.some_server(true)? },
            4 => Step::Discover { client: self.some_client(is_holding)? },
            5 => {
                let client = self.some_client(|client| !is_offered(client))?;
                Step::Request { client, wanted: 5 }
            }
            _ => {
                let client = self.some_client(|client| !is_holding(client))?;
                Step::Renew { client, wanted: 5 }
            }
        };
        Some(step.raw())
    }

    /// Refusal 9: a clock that goes back by one or more, or is off by one
    /// tick too many.
    fn bad_clock(&mut self) -> Option<RawStep> {
        let party = self.random.below(self.facade.offsets.len());
        let slack = self.slack().max(1);
        let skew = self.facade.skew();
        let offset = self.facade.offsets[party];
        let too_far = skew + 1 - offset;
        let too_far_back = -skew - 1 - offset;
        let (d, e) = match self.random.below(4) {
            0 => (1, -2),
            1 => {
                let d = self.random.between(1, slack.min(1_999));
                (d, -d - 1)
            }
            2 => (slack, too_far),
            _ => (slack, too_far_back),
        };
        let step = Step::Pass { d, party, e: e.clamp(-2_000, 2_000) };
        Some(step.raw())
    }

    /// Refusal 10, mostly by one tick.
    fn overdue(&mut self) -> Option<RawStep> {
        let slack = self.slack();
        let past = self.random.pick(&[1, 1, 1, 2, 50]);
        let d = (slack + past).clamp(1, 100_000);
        let party = self.random.below(self.facade.offsets.len());
        let e = self.random.pick(&[0, 0, 0, 1, -1]);
        Some(Step::Pass { d, party, e }.raw())
    }

    /// Refusal 11, if some notice would be false and late.
    fn false_notice(&mut self) -> Option<RawStep> {
        let facade = &self.facade;
        let late = |about: usize| facade.time - facade.servers[about].changed >= facade.detection();
        let pairs: Vec<_> = self.pairs().filter(|&(_, about)| late(about)).collect();
        if pairs.is_empty() {
            return None;
        }
        let (server, about) = self.random.pick(&pairs);
        let alive = !self.facade.servers[about].alive;
        Some(Step::Notice { server, about, alive }.raw())
    }

    /// Refusal 13 where the list is nearly full, else one message more.
    fn too_many(&mut self) -> Option<RawStep> {
        let waiting = self.facade.waiting.len();
        let full = waiting + self.facade.servers.len() > MOST_WAITING;
        if full && self.random.chance(600) {
            let position = self.random.below(waiting);
            let keep = self.random.chance(700);
            return Some(Step::Deliver { position, keep }.raw());
        }
        let client = self.some_client(|client| !is_holding(client))?;
        Some(Step::Discover { client }.raw())
    }

    /// A known kind with fields from a pool, often wrong in several ways.
    fn mixed_step(&mut self) -> RawStep {
        let kind = self.random.between(1, 10) as u8;
        let count = field_count(kind).unwrap_or(0);
        let mut fields = [0; 3];
        for field in &mut fields[..count] {
            *field = self.mixed_field();
        }
        RawStep { kind, fields }
    }

    fn mixed_field(&mut self) -> u32 {
        let servers = self.facade.servers.len() as u32;
        let clients = self.facade.clients.len() as u32;
        let waiting = self.facade.waiting.len() as u32;
        let small = self.random.below(5) as u32;
        match self.random.weighted(&[70, 12, 12, 6]) {
            0 => small,
            1 => self.random.pick(&[servers, clients, servers + clients, waiting]),
            2 => self.random.pick(&[
                2_000,
                2_001,
                100_000,
                100_001,
                2_000_000_000,
                2_000_000_001,
                BEYOND,
                -2_000i32 as u32,
                -2_001i32 as u32,
            ]),
            _ => self.random.number() as u32,
        }
    }
}
