//! The example of "Script and rig" and what the rig prints at the edges of
//! the script form.

use reference::rig::run;
use reference::script::{verdict, LONGEST_SCRIPT};
use reference::{text, writer, Configuration, RawStep};

const EXAMPLE: &str = "
facade 2 1 1 0 5 4 10
pass 5 0 0
notice 0 1 1
notice 1 0 1
pass 5 0 0
notice 0 1 1
notice 1 0 1
pass 5 0 0
discover 0
deliver 0 0
deliver 1 0
request 0 100
deliver 1 0
deliver 2 0
discover 0
";

const PRINTED: &str = "facade 2 1 1
1 0 0 5 0
2 0 0 5 0
3 0 0 5 0
4 0 0 10 0
5 0 0 10 0
6 0 0 10 0
7 0 0 15 0
8 0 0 15 2
9 0 0 15 2
10 0 0 15 1
11 0 0 15 3
12 0 0 15 4
13 0 0 15 3
14 7 0 15 3
held 1
";

fn packed(lines: &str) -> Vec<u8> {
    text::pack(lines).expect("the text is right")
}

fn printed(script: &[u8]) -> String {
    String::from_utf8(run(script)).expect("plain text")
}

#[test]
fn example() {
    let script = packed(EXAMPLE);
    assert_eq!(script.len(), 189);
    assert_eq!(verdict(&script), 0);
    assert_eq!(printed(&script), PRINTED);
}

/// The records as the document lays them out, byte by byte.
#[test]
fn example_bytes() {
    let script = packed(EXAMPLE);
    let header =
        [1, 0, 0, 0, 2, 0, 0, 0, 1, 0, 0, 0, 1, 0, 0, 0, 0, 0, 0, 0, 5, 0, 0, 0, 4, 0, 0, 0, 10];
    assert_eq!(script[..29], header);
    assert_eq!(script[29..43], [13, 1, 0, 0, 0, 5, 0, 0, 0, 0, 0, 0, 0, 0]);
    assert_eq!(script[43..57], [13, 4, 0, 0, 0, 0, 0, 0, 0, 1, 0, 0, 0, 1]);
    assert_eq!(script[183..], [5, 5, 0, 0, 0, 0]);
}

#[test]
fn refusals_of_the_whole_script() {
    let script = packed(EXAMPLE);
    let mut wrong_version = script.clone();
    wrong_version[0] = 2;
    let mut wrong_number = script.clone();
    wrong_number[4] = 5;
    let mut both = wrong_number.clone();
    both[0] = 0;
    let mut overlong = script.clone();
    overlong.resize(LONGEST_SCRIPT + 1, 0);
    for refused in [&[][..], &script[..28], &wrong_version, &both, &overlong] {
        assert_eq!(verdict(refused), 1);
        assert_eq!(printed(refused), "0 1 0 0 0\n");
    }
    assert_eq!(verdict(&wrong_number), 2);
    assert_eq!(printed(&wrong_number), "0 2 0 0 0\n");
    assert_eq!(verdict(&script[..29]), 0);
    assert_eq!(printed(&script[..29]), "facade 2 1 1\nheld 0\n");
}

/// Refusals 4 and 5 are gone past, refusal 3 ends the run.
#[test]
fn refused_records() {
    let head = "facade 2 1 1 0 5 4 10\n";
    let first = "pass 5 0 0\nraw 01 00\nraw 04 ff 01 02 03\npass 0 9 0\npass 1 0 3000\n";
    let lines = "facade 2 1 1\n1 0 0 5 0\n2 4 0 5 0\n3 4 0 5 0\n4 5 0 5 0\n5 5 0 5 0\n";
    for (last, number) in [
        ("raw 00\ndiscover 0", 3),
        ("raw 05 05 00 00 00", 3),
        ("raw 05", 3),
        ("raw 05 0b 00 00 00", 3),
        ("raw 04 05 00 00 00\ndiscover 0", 3),
        ("raw 01 01\ndiscover 0", 3),
    ] {
        let script = packed(&format!("{head}{first}{last}\n"));
        assert_eq!(verdict(&script), 4);
        let expected = format!("{lines}6 {number} 0 5 0\nheld 0\n");
        assert_eq!(printed(&script), expected, "{last}");
        let alone = packed(&format!("{head}{last}\n"));
        assert_eq!(verdict(&alone), number);
    }
    let only_5 = packed(&format!("{head}deliver 7 2\nraw 00"));
    assert_eq!(verdict(&only_5), 5);
}

fn configuration() -> Configuration {
    Configuration::from_numbers([2, 1, 1, 0, 5, 4, 10])
}

fn bad_configuration() -> Configuration {
    Configuration::from_numbers([2, 1, 1, 0, 0, 4, 10])
}

/// The writer's own order: 2, then 4 and 5 step by step, then 1.
#[test]
fn writer_refusals() {
    let good = RawStep::new(5, &[0]);
    let unknown = RawStep::new(11, &[0]);
    let bad_field = RawStep::new(8, &[0, 2]);
    let write = |configuration: &Configuration, steps: &[RawStep], length: usize| {
        let mut buffer = vec![7; length];
        let answer = writer::write_script(configuration, steps, &mut buffer);
        let changed = buffer.iter().any(|&byte| byte != 7);
        assert_eq!(changed, answer.is_ok());
        if let Ok(written) = answer {
            assert!(buffer[written..].iter().all(|&byte| byte == 7));
        }
        answer.map_err(|refusal| refusal.number())
    };
    assert_eq!(write(&bad_configuration(), &[unknown, bad_field], 0), Err(2));
    assert_eq!(write(&configuration(), &[good, unknown, bad_field], 0), Err(4));
    assert_eq!(write(&configuration(), &[good, bad_field, unknown], 0), Err(5));
    assert_eq!(write(&configuration(), &[good], 34), Err(1));
    assert_eq!(write(&configuration(), &[good], 35), Ok(35));
    assert_eq!(write(&configuration(), &[good], 36), Ok(35));
    let pass = RawStep::new(1, &[1, 0, 0]);
    // 29 bytes and 4,679 passes are 65,535 bytes; no script of known kinds
    // has 65,536, because every record has an even length.
    let mut steps = vec![pass; 4_679];
    assert_eq!(write(&configuration(), &steps, 70_000), Ok(65_535));
    steps.push(good);
    assert_eq!(write(&configuration(), &steps, 70_000), Err(1));
}

/// Refusals 8 and 12 cannot be reached from a fresh facade by a script.
#[test]
fn unreachable_refusals() {
    let room = LONGEST_SCRIPT - 29;
    let pass = RawStep::new(1, &[100_000, 0, 0]);
    let discover = RawStep::new(5, &[0]);
    assert!(room / writer::record_length(&pass) * 100_000 < 1_000_000_000);
    assert!(room / writer::record_length(&discover) < 1_000_000);
}
