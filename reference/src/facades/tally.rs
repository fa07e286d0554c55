//! Counts what cases reach.

use std::fmt;

use super::{families, Case};
use crate::facade::Facade;
use crate::flat::{self, facade_in_range, Answer};
use crate::held_ack::{meeting, Meeting, MEETINGS};
use crate::message::{Message, TYPES};
use crate::step::FORMS;

#[derive(Clone, Debug)]
pub struct Tally {
    pub cases: usize,
    /// By family, how many cases have each refusal number.
    pub families: Vec<(&'static str, [usize; 14])>,
    /// Steps by kind, taken and refused; unknown kinds at index 0.
    pub kinds: [[usize; 2]; 11],
    /// Delivered messages by type: outcomes 0, 1 and 2, and refusal 13.
    pub deliveries: [[usize; 4]; 7],
    /// Acks to a client that holds with their κ and address, by `Meeting`. The
    /// late ones are not taken.
    pub held_acks: [usize; 6],
    /// Taken steps that changed the list, and those that did not.
    pub changed: [usize; 2],
}

impl Default for Tally {
    fn default() -> Self {
        Tally {
            cases: 0,
            families: families().map(|name| (name, [0; 14])).collect(),
            kinds: [[0; 2]; 11],
            deliveries: [[0; 4]; 7],
            held_acks: [0; 6],
            changed: [0; 2],
        }
    }
}

impl Tally {
    pub fn add(&mut self, case: &Case) {
        let answer = flat::answer(&case.numbers, case.step);
        self.add_answer(case, &answer);
    }

    pub fn add_answer(&mut self, case: &Case, answer: &Answer) {
        self.cases += 1;
        let refusal = usize::from(answer.refusal);
        for (name, refusals) in &mut self.families {
            refusals[refusal] += usize::from(*name == case.family);
        }
        let known = (1..=10).contains(&case.step[0]);
        let kind = if known { case.step[0] as usize } else { 0 };
        self.kinds[kind][usize::from(refusal != 0)] += 1;
        if refusal == 0 {
            self.changed[usize::from(answer.facade == case.numbers)] += 1;
        }
        if let Some(index) = delivered(case) {
            match refusal {
                0 => self.deliveries[index][usize::from(answer.outcome)] += 1,
                13 => self.deliveries[index][3] += 1,
                _ => {}
            }
        }
        if let Some(meeting) = met(case).filter(|_| refusal == 0) {
            self.held_acks[meeting as usize] += 1;
        }
    }

    /// All cases with that refusal.
    pub fn refusals(&self, number: usize) -> usize {
        self.families.iter().map(|(_, refusals)| refusals[number]).sum()
    }
}

/// The type of the message that a deliver names.
pub fn delivered(case: &Case) -> Option<usize> {
    let (_, message) = delivery(case)?;
    Some(message.body.index())
}

/// How the ack that a deliver names meets a client that holds.
pub fn met(case: &Case) -> Option<Meeting> {
    let (facade, message) = delivery(case)?;
    meeting(&facade, &message)
}

fn delivery(case: &Case) -> Option<(Facade, Message)> {
    let facade = facade_in_range(&case.numbers).ok().filter(|_| case.step[0] == 8)?;
    let message = *facade.waiting.get(case.step[1] as usize)?;
    Some((facade, message))
}

impl fmt::Display for Tally {
    fn fmt(&self, out: &mut fmt::Formatter<'_>) -> fmt::Result {
        writeln!(out, "cases {}", self.cases)?;
        let shown = [0, 2, 4, 5, 6, 7, 8, 9, 10, 11, 12, 13];
        write!(out, "by refusal ")?;
        for number in shown {
            write!(out, " {number:>6}")?;
        }
        writeln!(out)?;
        for (name, refusals) in &self.families {
            write!(out, "  {name:<9}")?;
            for number in shown {
                write!(out, " {:>6}", refusals[number])?;
            }
            writeln!(out)?;
        }
        write!(out, "  {:<9}", "all")?;
        for number in shown {
            write!(out, " {:>6}", self.refusals(number))?;
        }
        writeln!(out)?;
        writeln!(out, "steps by kind     taken refused")?;
        writeln!(out, "     unknown     {:>6}  {:>6}", self.kinds[0][0], self.kinds[0][1])?;
        for (index, (name, _)) in FORMS.iter().enumerate() {
            let [taken, refused] = self.kinds[index + 1];
            writeln!(out, "  {:>2} {name:<10}  {taken:>6}  {refused:>6}", index + 1)?;
        }
        writeln!(out, "delivered messages by outcome     0      1      2  refused with 13")?;
        for (name, counts) in TYPES.iter().zip(&self.deliveries) {
            let [done, not_met, dead, full] = counts;
            writeln!(out, "  {name:<25} {done:>7} {not_met:>6} {dead:>6}  {full:>15}")?;
        }
        writeln!(out, "acks to a client that holds with their κ and address")?;
        for (name, count) in MEETINGS.iter().zip(self.held_acks) {
            writeln!(out, "  {name:<25} {count:>7}")?;
        }
        writeln!(out, "taken and changed    {:>6}", self.changed[0])?;
        writeln!(out, "taken, nothing changed {:>4}", self.changed[1])
    }
}
