//! What the generated facades reach, and the stored sample of them.

use std::collections::BTreeSet;

use reference::facades::sample::choose;
use reference::facades::stored::{input, output};
use reference::facades::tally::Tally;
use reference::facades::{case, families, Case};
use reference::flat::{answer, facade_in_range};

const SEED: u64 = 1;

#[test]
fn coverage_is_wide() {
    let mut tally = Tally::default();
    for index in 0..20_000 {
        tally.add(&case(SEED, index));
    }
    for (name, refusals) in &tally.families {
        assert!(refusals.iter().sum::<usize>() >= 800, "{name}");
    }
    for number in [0, 2, 4, 5, 6, 7, 8, 9, 10, 11, 12, 13] {
        assert!(tally.refusals(number) >= 100, "refusal {number}");
    }
    assert_eq!((tally.refusals(1), tally.refusals(3)), (0, 0));
    assert_eq!(tally.kinds[0][0], 0);
    assert!(tally.kinds[1..].iter().flatten().all(|&count| count >= 200));
    // Outcomes and refusal 13 by type: discover, request, renew, offer, ack,
    // write, write ack. Clients are not dead, and a write has no condition.
    let possible = [[1, 1, 1, 1], [1, 1, 1, 1], [1, 1, 1, 1], [1, 1, 0, 0], [1, 1, 0, 0]];
    let possible = [&possible[..], &[[1, 0, 1, 1], [1, 1, 1, 0]]].concat();
    for (index, (counts, possible)) in tally.deliveries.iter().zip(possible).enumerate() {
        for (count, possible) in counts.iter().zip(possible) {
            assert_eq!(*count >= 20, possible == 1, "type {index}: {counts:?}");
            assert_eq!(*count > 0, possible == 1, "type {index}: {counts:?}");
        }
    }
    assert!(tally.held_acks.iter().all(|&count| count >= 10), "{:?}", tally.held_acks);
}

/// Nearly full lists: every type with every number of servers, kept or not,
/// refused and not refused just where it should be.
#[test]
fn full_lists() {
    let mut seen = BTreeSet::new();
    for case in (0..60_000).map(|index| case(SEED, index)).filter(|case| case.step[0] == 8) {
        let Ok(facade) = facade_in_range(&case.numbers) else {
            continue;
        };
        let [_, position, keep, _] = case.step;
        let message = facade.waiting.get(position as usize);
        let Some(message) = message.filter(|_| facade.waiting.len() >= 124 && keep < 2) else {
            continue;
        };
        let full = answer(&case.numbers, case.step).refusal == 13;
        let waiting = facade.waiting.len();
        seen.insert((facade.servers.len(), waiting, message.body.index(), keep, full));
    }
    for (servers, waiting) in (2..=4).flat_map(|servers| (124..=128).map(move |n| (servers, n))) {
        // By type: discover, request, renew, offer, ack, write, write ack.
        let sent = [1, servers, servers, 0, 0, 1, 0];
        for (index, sent) in sent.into_iter().enumerate() {
            for keep in [0, 1] {
                let after = waiting - 1 + keep as usize + sent;
                let key = |full| (servers, waiting, index, keep, full);
                assert_eq!(seen.contains(&key(true)), after > 128, "{:?}", key(true));
                // A write is always answered.
                let possible = index != 5 || after <= 128;
                assert!(!possible || seen.contains(&key(false)), "{:?}", key(false));
            }
        }
    }
}

#[test]
fn same_for_the_same_seed() {
    for index in 0..200 {
        assert_eq!(case(SEED, index), case(SEED, index));
    }
    assert_ne!(case(SEED, 0), case(SEED + 1, 0));
}

/// Reads the sample's cases as its form says.
fn read_back(bytes: &[u8]) -> Vec<(Vec<u32>, [u32; 4])> {
    let words: Vec<u32> = bytes
        .chunks(4)
        .map(|word| u32::from_be_bytes(word.try_into().expect("four bytes")))
        .collect();
    let mut rest = &words[..];
    let mut next = || {
        let (first, after) = rest.split_first()?;
        rest = after;
        Some(*first)
    };
    let count = next().expect("how many there are");
    let mut cases = Vec::new();
    while let Some(filled) = next() {
        let mut number = || next().expect("a whole case");
        let pairs: Vec<(u32, u32)> = (0..filled).map(|_| (number(), number())).collect();
        let mut list = vec![0; number() as usize];
        for (index, value) in pairs {
            assert_ne!(value, 0);
            list[index as usize] = value;
        }
        cases.push((list, [number(), number(), number(), number()]));
    }
    assert_eq!(cases.len(), count as usize);
    cases
}

#[test]
fn stored_sample() {
    let cases = choose(SEED, 400);
    assert_eq!(cases.len(), 400);
    for family in families() {
        let same = cases.iter().filter(|case| case.family == family);
        assert!(same.count() >= 20, "{family}");
    }
    let mut tally = Tally::default();
    cases.iter().for_each(|case| tally.add(case));
    assert!(tally.held_acks.iter().all(|&count| count >= 1), "{:?}", tally.held_acks);
    let bytes = input(&cases);
    assert!(bytes.len() < 900_000);
    let as_stored = |case: &Case| (case.numbers.clone(), case.step);
    let stored: Vec<_> = cases.iter().map(as_stored).collect();
    assert_eq!(read_back(&bytes), stored);
    let text = output(&cases);
    assert_eq!(text.lines().count(), cases.len());
    assert!(text.ends_with('\n'));
    for (index, (line, case)) in text.lines().zip(&cases).enumerate() {
        assert!(case.numbers.len() <= 2_800);
        let words: Vec<u32> = line.split(' ').map(|word| word.parse().expect("a number")).collect();
        let given = answer(&case.numbers, case.step);
        let head = [index as u32 + 1, given.refusal.into(), given.outcome.into()];
        assert_eq!(words[..3], head);
        let mut list = case.numbers.clone();
        for pair in words[3..].chunks(2) {
            assert_ne!(list[pair[0] as usize], pair[1]);
            list[pair[0] as usize] = pair[1];
        }
        assert_eq!(list, given.facade);
    }
}
