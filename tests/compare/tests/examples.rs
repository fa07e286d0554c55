//! The example scripts: text, bytes and output belong together.

use std::fs;
use std::path::PathBuf;

use reference::{rig, text};

const NAMES: [&str; 5] = ["failover", "first-lease", "noisy-cable", "paper", "skewed-clocks"];

fn folder() -> PathBuf {
    PathBuf::from(env!("CARGO_MANIFEST_DIR")).join("../../examples")
}

fn bytes(name: &str, ending: &str) -> Vec<u8> {
    let path = folder().join(name).with_extension(ending);
    fs::read(&path).unwrap_or_else(|problem| panic!("{}: {problem}", path.display()))
}

fn text_of(name: &str) -> String {
    String::from_utf8(bytes(name, "text")).expect("the text is UTF-8")
}

#[test]
fn scripts_are_the_packed_texts() {
    for name in NAMES {
        assert_eq!(text::pack(&text_of(name)), Ok(bytes(name, "script")), "{name}");
    }
}

#[test]
fn outputs_are_what_the_reference_prints() {
    for name in NAMES {
        let printed = rig::run(&bytes(name, "script"));
        assert_eq!(
            String::from_utf8_lossy(&printed),
            String::from_utf8_lossy(&bytes(name, "out")),
            "{name}"
        );
    }
}

/// The comment of each step begins with the number of its record.
#[test]
fn comments_have_the_numbers_of_records() {
    for name in NAMES {
        let text = text_of(name);
        let lines = text.lines().map(|line| line.split_once('#').unwrap_or((line, "")));
        let steps = lines.filter(|(step, _)| !step.trim().is_empty()).skip(1);
        for (index, (step, comment)) in steps.enumerate() {
            let number = comment.split_whitespace().next().unwrap_or("");
            assert_eq!(number, (index + 1).to_string(), "{name}: {step}");
        }
    }
}

/// What a comment says of a refusal or an outcome is what comes.
#[test]
fn comments_have_the_refusals_and_outcomes() {
    for name in NAMES {
        let output = String::from_utf8(bytes(name, "out")).expect("plain text");
        let printed: Vec<&str> = output.lines().collect();
        let text = text_of(name);
        let comments = text.lines().filter_map(|line| {
            let (step, comment) = line.split_once('#')?;
            (!step.trim().is_empty()).then_some(comment)
        });
        for (index, comment) in comments.enumerate() {
            let numbers: Vec<&str> = printed[index + 1].split(' ').collect();
            assert_eq!(numbers[1], said(comment, "refusal "), "{name}: {comment}");
            assert_eq!(numbers[2], said(comment, "outcome "), "{name}: {comment}");
        }
    }
}

/// The number after the word in a comment, 0 if the word is not there.
fn said<'a>(comment: &'a str, word: &str) -> &'a str {
    let Some((_, after)) = comment.split_once(word) else {
        return "0";
    };
    let end = after.find(|c: char| !c.is_ascii_digit()).unwrap_or(after.len());
    &after[..end]
}

#[test]
fn paper_has_189_bytes() {
    assert_eq!(bytes("paper", "script").len(), 189);
}

/// Every example is tested.
#[test]
fn no_other_examples() {
    let mut found: Vec<String> = fs::read_dir(folder())
        .expect("the folder is there")
        .filter_map(|entry| entry.ok()?.file_name().into_string().ok())
        .filter_map(|file| file.strip_suffix(".script").map(str::to_string))
        .collect();
    found.sort();
    assert_eq!(found, NAMES);
}
