//! The tally of scripts in Markdown.

use std::fmt::Write;

use reference::held_ack::Meeting;
use reference::message::TYPES;
use reference::step::FORMS;
use reference::tally::Tally;

pub fn markdown(tally: &Tally) -> String {
    let mut text = String::new();
    push_row(&mut text, "Reached", "Times");
    push_row(&mut text, "---", "---:");
    push_row(&mut text, "scripts", tally.scripts);
    for (number, count) in tally.verdicts.iter().enumerate() {
        push_row(&mut text, &format!("scripts with verdict {number}"), count);
    }
    push_row(&mut text, "scripts in which a server leads", tally.leading_scripts);
    push_row(&mut text, "scripts in which a client holds", tally.granting_scripts);
    push_row(&mut text, "accepted steps", tally.refusals[0]);
    for (number, count) in tally.refusals.iter().enumerate().skip(1) {
        let what = if number < 3 { "scripts" } else { "records" };
        push_row(&mut text, &format!("{what} with refusal {number}"), count);
    }
    for ((name, _), count) in FORMS.iter().zip(&tally.steps[1..]) {
        push_row(&mut text, &format!("step {name} accepted"), count);
    }
    for (name, counts) in TYPES.iter().zip(&tally.deliveries) {
        let what = format!("message {name} delivered, outcome 0 / 1 / 2");
        let [done, not_met, dead] = counts;
        push_row(&mut text, &what, format!("{done} / {not_met} / {dead}"));
    }
    for (name, count) in events(tally) {
        push_row(&mut text, name, count);
    }
    text
}

fn events(tally: &Tally) -> [(&str, usize); 10] {
    [
        ("grants", tally.grants),
        ("renewals taken by a server", tally.deliveries[2][0]),
        ("acks taken by a holding client", tally.taken_while_held),
        ("acks that end before the hold", tally.held_acks[Meeting::OwnLater as usize]),
        ("completed writes", tally.completed_writes),
        ("failovers", tally.failovers),
        ("failovers while the address is held", tally.held_failovers),
        ("holds ended by time", tally.expiries),
        ("most clients that hold at once", tally.most_held),
        ("most messages that wait at once", tally.most_waiting),
    ]
}

fn push_row(text: &mut String, name: &str, count: impl std::fmt::Display) {
    writeln!(text, "| {name} | {count} |").expect("a string takes all text");
}
