//! Generated scripts: round trips, demand 3 and what else must hold along
//! every run.

use reference::demand::breach;
use reference::generator::{script, KINDS};
use reference::held_ack::Meeting;
use reference::random::Random;
use reference::script::{decode, read_header, verdict, Records, HEADER_LENGTH, LONGEST_SCRIPT};
use reference::tally::Tally;
use reference::{rig, text, writer, Facade, Outcome};

const SEED: u64 = 7;

fn scripts(count: u64) -> impl Iterator<Item = Vec<u8>> {
    (0..count).map(|index| script(SEED, index, None))
}

/// What is read and written again is the same.
#[test]
fn reader_and_writer() {
    let mut accepted = 0;
    for script in scripts(600) {
        let Ok((configuration, steps)) = decode(&script) else {
            assert_ne!(verdict(&script), 0);
            continue;
        };
        accepted += 1;
        assert_eq!(verdict(&script), 0);
        let mut buffer = vec![0; LONGEST_SCRIPT];
        let length = writer::write_script(&configuration, &steps, &mut buffer);
        assert_eq!(length, Ok(script.len()));
        assert_eq!(buffer[..script.len()], script);
    }
    assert!(accepted > 100);
}

fn same_after_text(bytes: &[u8]) {
    let unpacked = text::unpack(bytes);
    assert_eq!(text::pack(&unpacked).as_deref(), Ok(bytes));
}

#[test]
fn text_form() {
    for script in scripts(600) {
        same_after_text(&script);
    }
    let mut random = Random::new(SEED);
    for _ in 0..3000 {
        let length = random.below(120);
        let mut bytes: Vec<u8> = (0..length).map(|_| random.number() as u8 % 16).collect();
        same_after_text(&bytes);
        bytes.insert(0, 1);
        same_after_text(&bytes);
    }
}

/// The line is named, and the word that is wrong in it.
#[test]
fn bad_text() {
    for (lines, line, word) in [
        ("pass 1 0 0", 1, "facade"),
        ("# first\n\nfacade 2 1 1", 3, "mclt"),
        ("facade 2 1 1 0 5 4 10\nfacade 2 1 1 0 5 4 10", 2, "`facade`"),
        ("facade server=2 clients=1 addresses=1", 1, "`server`"),
        ("facade 2 1 1 0 5 4 10\npas 1 0 0", 2, "`pas`"),
        ("facade 2 1 1 0 5 4 10\n\npass 1 0", 3, "party"),
        ("facade 2 1 1 0 5 4 10\npass d=1 party=0 d=0", 2, "`e`"),
        ("facade 2 1 1 0 5 4 10\npass d=1 party=0 by=0", 2, "`by`"),
        ("facade 2 1 1 0 5 4 10\npass d=1 party=0 e=0 by=0", 2, "`by`"),
        ("facade 2 1 1 0 5 4 10\npass d=1 0 0", 2, "`0`"),
        ("facade 2 1 1 0 5 4 10\npass d=1 7 e=0", 2, "`7`"),
        ("facade 2 1 1 0 5 4 10\nnotice 0 1 lively", 2, "`lively`"),
        ("facade 2 1 1 0 5 4 10\nfail -1", 2, "`-1`"),
        ("facade 2 1 1 0 5 4 10\nlose 4294967296", 2, "`4294967296`"),
        ("facade 2 1 1 0 5 4 10\nraw 1", 2, "`1`"),
        ("facade 2 1 1 0 5 4 10\nraw-tail 05\n# why\nfail 0", 4, "`fail`"),
        ("raw-tail 01 00\nraw-tail 00", 2, "`raw-tail`"),
    ] {
        let error = text::pack(lines).expect_err("bad text");
        assert_eq!(error.line, line, "{error}");
        assert!(error.problem.contains(word), "{error}");
    }
    let named = text::pack("facade 2 1 1 0 5 4 10\nnotice says=dead about=1 server=0 # why");
    let ordered = text::pack("facade 2 1 1 0 5 4 10\nnotice 0 1 0");
    assert_eq!(named, ordered);
}

/// Takes the records one by one and looks at the facade after each.
fn follow(script: &[u8], mut look: impl FnMut(&Facade, &Facade, Result<Outcome, u8>)) {
    let Ok(configuration) = read_header(script) else {
        return;
    };
    let mut facade = Facade::fresh(configuration).expect("in range");
    for step in Records::new(&script[HEADER_LENGTH..]).flatten() {
        let before = facade.clone();
        // The checked way in gives the same as the rig's.
        let mut handed_in = facade.clone();
        let answer = facade.apply(step);
        assert_eq!(handed_in.step(&step.raw()), answer);
        assert_eq!(handed_in, facade);
        look(&before, &facade, answer.map_err(|refusal| refusal.number()));
    }
}

#[test]
fn demand_3_and_ranges() {
    for script in scripts(500).filter(|script| script.len() < 8_000) {
        follow(&script, |before, after, answer| {
            assert_eq!(breach(after), None);
            assert_eq!(after.check(), Ok(()));
            if answer.is_err() {
                assert_eq!(before, after);
            }
        });
    }
}

/// Demand 3 alone, on more and longer runs.
#[test]
fn demand_3_of_each_kind() {
    for (kind, ..) in KINDS {
        for index in 0..150 {
            let script = script(SEED + 1, index, Some(kind));
            let Ok(configuration) = read_header(&script) else {
                continue;
            };
            let mut facade = Facade::fresh(configuration).expect("in range");
            for step in Records::new(&script[HEADER_LENGTH..]).flatten() {
                let _ = facade.apply(step);
                assert_eq!(breach(&facade), None, "{kind:?} {index}");
            }
        }
    }
}

/// The rig prints a line per record and reaches what the tally must show.
#[test]
fn coverage_is_wide() {
    let mut tally = Tally::default();
    for script in scripts(500) {
        tally.add(&script);
        let printed = String::from_utf8(rig::run(&script)).expect("plain text");
        assert!(printed.ends_with('\n'));
    }
    for number in [0, 1, 2, 3, 4, 5, 6, 7, 9, 10, 11, 13] {
        assert!(tally.refusals[number] >= 20, "refusal {number}");
    }
    assert_eq!((tally.refusals[8], tally.refusals[12]), (0, 0));
    assert!(tally.steps[1..].iter().all(|&count| count >= 20));
    for (index, possible) in [7, 7, 7, 3, 3, 5, 7].iter().enumerate() {
        for outcome in 0..3 {
            let count = tally.deliveries[index][outcome];
            let is_possible = possible & (1 << outcome) != 0;
            assert_eq!(count >= 20, is_possible, "type {index} outcome {outcome}");
        }
    }
    // No pass leaves a hold that is over.
    for meeting in [Meeting::LateHoldOver, Meeting::HoldOver] {
        assert_eq!(tally.held_acks[meeting as usize], 0, "{meeting:?}");
    }
    for meeting in [Meeting::LateHoldRuns, Meeting::OwnEarlier, Meeting::Same, Meeting::OwnLater] {
        assert!(tally.held_acks[meeting as usize] >= 20, "{meeting:?}");
    }
    assert_eq!(tally.most_waiting, 128);
}
