//! Runs a program with bytes on its standard input.

use std::io::{self, Read, Write};
use std::os::unix::process::ExitStatusExt;
use std::process::{Child, Command, ExitStatus, Stdio};
use std::sync::mpsc;
use std::thread;
use std::time::Duration;

/// No script takes a program as long as this.
const LONGEST_RUN: Duration = Duration::from_secs(30);
/// No script makes a program print as much as this.
const MOST_OUTPUT: u64 = 16 << 20;

pub struct Run {
    pub output: Vec<u8>,
    /// Why the run failed, if it did: a signal, an exit code other than 0, or
    /// no end.
    pub failure: Option<String>,
}

/// An error here means that the program could not be started.
pub fn run(program: &str, input: &[u8]) -> io::Result<Run> {
    let mut child = Command::new(program)
        .stdin(Stdio::piped())
        .stdout(Stdio::piped())
        .spawn()
        .map_err(|problem| io::Error::new(problem.kind(), format!("{program}: {problem}")))?;
    let mut stdin = child.stdin.take().expect("standard input is a pipe");
    let stdout = child.stdout.take().expect("standard output is a pipe");
    let (send, receive) = mpsc::channel();
    thread::scope(|scope| {
        // A program need not read all of its input, so an error says nothing.
        scope.spawn(move || drop(stdin.write_all(input)));
        scope.spawn(move || {
            let mut output = Vec::new();
            let read = stdout.take(MOST_OUTPUT).read_to_end(&mut output);
            send.send(read.map(|_| output))
        });
        match receive.recv_timeout(LONGEST_RUN) {
            Ok(output) => finish(&mut child, output?),
            Err(_) => stop(&mut child),
        }
    })
}

fn finish(child: &mut Child, output: Vec<u8>) -> io::Result<Run> {
    Ok(Run { output, failure: failure(child.wait()?) })
}

fn stop(child: &mut Child) -> io::Result<Run> {
    child.kill()?;
    child.wait()?;
    let failure = format!("no end within {} seconds", LONGEST_RUN.as_secs());
    Ok(Run { output: Vec::new(), failure: Some(failure) })
}

pub fn failure(status: ExitStatus) -> Option<String> {
    if let Some(signal) = status.signal() {
        return Some(format!("ended by signal {signal}"));
    }
    (!status.success()).then(|| format!("ended with exit code {}", status.code().unwrap_or(-1)))
}

#[cfg(test)]
mod tests {
    use super::run;

    /// More than a pipe holds, both ways.
    #[test]
    fn much_input_and_output() {
        let input: Vec<u8> = (0..300_000).map(|number| number as u8).collect();
        let run = run("cat", &input).expect("the program starts");
        assert_eq!(run.failure, None);
        assert_eq!(run.output, input);
    }

    #[test]
    fn input_that_is_not_read() {
        let run = run("true", &[0; 300_000]).expect("the program starts");
        assert_eq!(run.failure, None);
    }

    #[test]
    fn failures() {
        let run_failed = run("false", &[]).expect("the program starts");
        assert_eq!(run_failed.failure.as_deref(), Some("ended with exit code 1"));
        assert!(run("no-such-program", &[]).is_err());
    }
}
