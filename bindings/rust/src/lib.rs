//! Safe functions over the proved libraries: facades handed in and stepped, scripts
//! read, written and run, and one server or client on its own (`firmware`).
//!
//! Every refusal is the number of document 01's refusal list. A list of the wrong
//! length, or with a number that codes nothing, is refused with 2, and a refusal
//! changes nothing. `docs/FLAT-FORM.md` has the layout of a facade's numbers.

pub mod firmware;
mod raw;

/// How many numbers a configuration has: S, C, A, skew (Δ), detection (ν), mclt (μ),
/// retention (θ).
pub const CONFIGURATION: usize = 7;
/// How many numbers a facade has.
pub const FACADE: usize = 2778;
/// The most bytes that a script may have.
pub const LONGEST_SCRIPT: usize = 65_536;
/// How many bytes hold the output of any script.
pub const MOST_OUTPUT: usize = 1_048_576;

/// The number of the first rule broken.
#[derive(Clone, Copy, Debug, PartialEq, Eq)]
pub struct Refusal(pub u32);

/// A step: the kind number and its fields in the order of document 01, e in two's
/// complement. Fields that the kind does not have are not looked at.
#[derive(Clone, Copy, Debug, PartialEq, Eq)]
pub struct Step {
    pub kind: u32,
    pub fields: [u32; 3],
}

fn accepted<T>(refusal: u32, value: T) -> Result<T, Refusal> {
    if refusal == 0 {
        Ok(value)
    } else {
        Err(Refusal(refusal))
    }
}

/// Makes `facade` the fresh facade of a configuration.
pub fn fresh(configuration: &[u32], facade: &mut [u32]) -> Result<(), Refusal> {
    let refusal = unsafe {
        raw::hoyllaqe_fresh(
            configuration.as_ptr(),
            configuration.len(),
            facade.as_mut_ptr(),
            facade.len(),
        )
    };
    accepted(refusal, ())
}

/// Takes a step of a facade that is handed in, which becomes the next one. Answers
/// the outcome.
pub fn step(facade: &mut [u32], step: Step) -> Result<u32, Refusal> {
    let [first, second, third] = step.fields;
    let mut outcome = 0;
    let refusal = unsafe {
        raw::hoyllaqe_step(
            facade.as_mut_ptr(),
            facade.len(),
            step.kind,
            first,
            second,
            third,
            &mut outcome,
        )
    };
    accepted(refusal, outcome)
}

/// Reads a script through: the first of refusals 1 to 5 that it meets.
pub fn verdict(script: &[u8]) -> Result<(), Refusal> {
    accepted(unsafe { raw::hoyllaqe_verdict(script.as_ptr(), script.len()) }, ())
}

/// Writes the script of a configuration and steps into `script`, and answers how
/// long it is.
pub fn write(configuration: &[u32], steps: &[Step], script: &mut [u8]) -> Result<usize, Refusal> {
    let rows: Vec<u32> = steps.iter().flat_map(row).collect();
    let mut length = 0;
    let refusal = unsafe {
        raw::hoyllaqe_write(
            configuration.as_ptr(),
            configuration.len(),
            rows.as_ptr(),
            rows.len(),
            script.as_mut_ptr(),
            script.len(),
            &mut length,
        )
    };
    accepted(refusal, length)
}

fn row(step: &Step) -> [u32; 4] {
    let [first, second, third] = step.fields;
    [step.kind, first, second, third]
}

/// Runs a script and answers what the program `rig` prints for it.
pub fn run(script: &[u8]) -> Vec<u8> {
    let mut output = vec![0; MOST_OUTPUT];
    let length = unsafe {
        raw::hoyllaqe_run(script.as_ptr(), script.len(), output.as_mut_ptr(), output.len())
    };
    output.truncate(length);
    output
}
