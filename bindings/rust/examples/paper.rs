//! Writes the script of the paper's example, reads it through, runs it, and runs
//! its steps one by one. Both print the same.

use hoyllaqe::{fresh, run, step, verdict, write, Refusal, Step, FACADE, LONGEST_SCRIPT};

const CONFIGURATION: [u32; 7] = [2, 1, 1, 0, 5, 4, 10];

const fn named(kind: u32, first: u32, second: u32, third: u32) -> Step {
    Step { kind, fields: [first, second, third] }
}

const STEPS: [Step; 14] = [
    named(1, 5, 0, 0),   // pass 5 0 0
    named(4, 0, 1, 1),   // notice 0 1 1
    named(4, 1, 0, 1),   // notice 1 0 1
    named(1, 5, 0, 0),   // pass 5 0 0
    named(4, 0, 1, 1),   // notice 0 1 1
    named(4, 1, 0, 1),   // notice 1 0 1
    named(1, 5, 0, 0),   // pass 5 0 0
    named(5, 0, 0, 0),   // discover 0
    named(8, 0, 0, 0),   // deliver 0 0
    named(8, 1, 0, 0),   // deliver 1 0
    named(6, 0, 100, 0), // request 0 100
    named(8, 1, 0, 0),   // deliver 1 0
    named(8, 2, 0, 0),   // deliver 2 0
    named(5, 0, 0, 0),   // discover 0
];

// Places in a facade's numbers. The first number of a client is its state.
const TIME: usize = 7;
const WAITING: usize = 9;
const CLIENTS: usize = 1754;
const HOLDING: u32 = 4;

fn by_steps() -> Result<String, Refusal> {
    let mut facade = [0; FACADE];
    fresh(&CONFIGURATION, &mut facade)?;
    let [servers, clients, addresses, ..] = CONFIGURATION;
    let mut lines = format!("facade {servers} {clients} {addresses}\n");
    for (index, named) in STEPS.iter().enumerate() {
        let (refusal, outcome) = match step(&mut facade, *named) {
            Ok(outcome) => (0, outcome),
            Err(Refusal(number)) => (number, 0),
        };
        let (time, waiting) = (facade[TIME], facade[WAITING]);
        lines += &format!("{} {refusal} {outcome} {time} {waiting}\n", index + 1);
    }
    lines += &format!("held {}\n", u32::from(facade[CLIENTS] == HOLDING));
    Ok(lines)
}

fn main() -> Result<(), Refusal> {
    let mut script = [0; LONGEST_SCRIPT];
    let length = write(&CONFIGURATION, &STEPS, &mut script)?;
    verdict(&script[..length])?;
    let output = run(&script[..length]);
    print!("{}", String::from_utf8_lossy(&output));
    assert_eq!(by_steps()?.as_bytes(), output, "the steps one by one gave something else");
    Ok(())
}
