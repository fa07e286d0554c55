//! A readable text form of scripts, for every byte string.
//!
//! The first line is `facade` with the seven numbers, then comes one step per
//! line. Fields may be given in order or by name. `#` starts a comment. Bytes
//! that are no such line are written as `raw` (a record of unknown kind or
//! wrong length, length byte included) or `raw-tail` (all that follows where
//! records end); both mean just these bytes.

use std::fmt::Write;

use crate::configuration::{Configuration, NAMES};
use crate::script::{decode_record, header_numbers, split_record, HEADER_LENGTH, VERSION};
use crate::step::{RawStep, FORMS};
use crate::writer::{push_header, push_record};

/// Bad text: the line number from 1 and what is wrong with it.
#[derive(Debug, PartialEq, Eq)]
pub struct TextError {
    pub line: usize,
    pub problem: String,
}

impl std::fmt::Display for TextError {
    fn fmt(&self, out: &mut std::fmt::Formatter<'_>) -> std::fmt::Result {
        write!(out, "line {}: {}", self.line, self.problem)
    }
}

/// Bytes to text.
pub fn unpack(script: &[u8]) -> String {
    let mut text = String::new();
    if script.len() < HEADER_LENGTH {
        push_raw(&mut text, "raw-tail", script);
        return text;
    }
    let (header, mut rest) = script.split_at(HEADER_LENGTH);
    push_facade_line(&mut text, header);
    let mut number = 0;
    while let Some((record, after)) = split_record(rest) {
        number += 1;
        match decode_record(record) {
            Ok(step) => push_step_line(&mut text, &step, number),
            Err(_) => push_raw(&mut text, "raw", record),
        }
        rest = after;
    }
    push_raw(&mut text, "raw-tail", rest);
    text
}

fn push_facade_line(text: &mut String, header: &[u8]) {
    text.push_str("facade");
    if header[0] != VERSION {
        push_named(text, "version", header[0].into());
    }
    for (name, number) in NAMES.iter().zip(header_numbers(header).numbers()) {
        push_named(text, name, number.into());
    }
    text.push('\n');
}

/// The record's number stands in a comment, to be found in the rig's output.
fn push_step_line(text: &mut String, step: &RawStep, number: usize) {
    let (name, fields) = FORMS[usize::from(step.kind) - 1];
    text.push_str(name);
    for (field, value) in fields.iter().zip(step.fields) {
        let value = if *field == "e" { i64::from(value as i32) } else { i64::from(value) };
        push_named(text, field, value);
    }
    writeln!(text, "  # {number}").expect("a string takes all text");
}

fn push_named(text: &mut String, name: &str, value: i64) {
    write!(text, " {name}={value}").expect("a string takes all text");
}

fn push_raw(text: &mut String, word: &str, bytes: &[u8]) {
    if bytes.is_empty() {
        return;
    }
    text.push_str(word);
    for byte in bytes {
        write!(text, " {byte:02x}").expect("a string takes all text");
    }
    text.push('\n');
}

/// Text to bytes.
pub fn pack(text: &str) -> Result<Vec<u8>, TextError> {
    let mut script = Vec::new();
    let mut before = Before::Nothing;
    for (index, line) in text.lines().enumerate() {
        let content = line.split('#').next().unwrap_or("");
        let words: Vec<&str> = content.split_whitespace().collect();
        let Some((word, values)) = words.split_first() else {
            continue;
        };
        pack_line(&mut script, before, word, values)
            .map_err(|problem| TextError { line: index + 1, problem })?;
        before = if *word == "raw-tail" { Before::Tail } else { Before::Lines };
    }
    Ok(script)
}

/// What stands above a line.
#[derive(Clone, Copy, PartialEq, Eq)]
enum Before {
    Nothing,
    Lines,
    Tail,
}

fn pack_line(
    script: &mut Vec<u8>,
    before: Before,
    word: &str,
    values: &[&str],
) -> Result<(), String> {
    // A record behind it would be read as a part of the tail.
    if before == Before::Tail {
        return Err(format!("`{word}` behind `raw-tail`, which must be the last line"));
    }
    match word {
        "raw" | "raw-tail" => return pack_raw(script, values),
        "facade" if before == Before::Lines => {
            return Err("`facade` must be the first line".to_string());
        }
        "facade" => return pack_facade(script, values),
        _ => {}
    }
    let form = FORMS.iter().position(|(name, _)| *name == word);
    let Some(index) = form else {
        return Err(format!("unknown step `{word}`"));
    };
    if before == Before::Nothing {
        return Err("the first line must be `facade ...` or raw bytes".to_string());
    }
    let names = FORMS[index].1;
    let texts = assign(names, values)?;
    let mut fields = [0; 3];
    for ((field, name), text) in fields.iter_mut().zip(names).zip(texts) {
        *field = field_value(name, text)?;
    }
    let kind = index as u8 + 1;
    push_record(script, &RawStep { kind, fields });
    Ok(())
}

fn pack_facade(script: &mut Vec<u8>, values: &[&str]) -> Result<(), String> {
    let (version, values) = match values.first().and_then(|text| text.strip_prefix("version=")) {
        None => (VERSION, values),
        Some(text) => {
            let version = text.parse().map_err(|_| not_a_number("version", text))?;
            (version, &values[1..])
        }
    };
    let texts = assign(&NAMES, values)?;
    let mut numbers = [0; 7];
    for ((number, name), text) in numbers.iter_mut().zip(NAMES).zip(texts) {
        *number = field_value(name, text)?;
    }
    push_header(script, version, &Configuration::from_numbers(numbers));
    Ok(())
}

/// Sorts values given in order or as `name=value` into the order of names.
/// One line has either form throughout.
fn assign<'a>(names: &[&str], values: &[&'a str]) -> Result<Vec<&'a str>, String> {
    let unknown = values
        .iter()
        .filter_map(|value| value.split_once('='))
        .find(|(name, _)| !names.contains(name));
    if let Some((name, _)) = unknown {
        return Err(format!("unknown name `{name}`, where there are: {}", names.join(", ")));
    }
    if values.len() != names.len() {
        return Err(format!(
            "{} values where {} are needed: {}",
            values.len(),
            names.len(),
            names.join(", ")
        ));
    }
    let (named, unnamed): (Vec<&str>, Vec<&str>) =
        values.iter().partition(|value| value.contains('='));
    match unnamed.first() {
        None => names.iter().map(|name| find_named(name, values)).collect(),
        Some(_) if named.is_empty() => Ok(unnamed),
        Some(value) => Err(format!("`{value}` has no name: all values must have one, or none")),
    }
}

fn find_named<'a>(name: &str, values: &[&'a str]) -> Result<&'a str, String> {
    values
        .iter()
        .find_map(|value| value.strip_prefix(name)?.strip_prefix('='))
        .ok_or_else(|| format!("no value for `{name}`"))
}

/// Any number of four bytes; `e` is signed, and `says` may be a word.
fn field_value(name: &str, text: &str) -> Result<u32, String> {
    match (name, text) {
        ("says", "dead") => return Ok(0),
        ("says", "alive") => return Ok(1),
        _ => {}
    }
    let value = if name == "e" {
        text.parse::<i32>().map(|signed| signed as u32)
    } else {
        text.parse::<u32>()
    };
    value.map_err(|_| not_a_number(name, text))
}

fn not_a_number(name: &str, text: &str) -> String {
    format!("`{text}` is no number for `{name}`")
}

fn pack_raw(script: &mut Vec<u8>, values: &[&str]) -> Result<(), String> {
    for text in values {
        let two_digits = text.len() == 2 && text.bytes().all(|c| c.is_ascii_hexdigit());
        if !two_digits {
            return Err(format!("`{text}` is no byte of two hexadecimal digits"));
        }
        script.push(u8::from_str_radix(text, 16).expect("two hexadecimal digits"));
    }
    Ok(())
}
