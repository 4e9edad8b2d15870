//! Document 01's bench program, over the reference.
use super::steps::LIST_WORDS;
use super::{Reference, image::map_of};
use crate::answers::Made;
use crate::calls::Calls;

const MOST_INPUT: usize = 65_536;
const IMAGE_BYTES: usize = 4 * 256;
const MALFORMED: Made = Made { answer: 9, steps: 0, line_writes: 0, word_writes: 0 };

enum Command {
    Put(u64, u64),
    Set(u64, u64),
    Del(u64),
    Get(u64),
    List,
}

/// The whole output for this input.
pub fn output(input: &[u8]) -> String {
    if input.len() > MOST_INPUT {
        return made_line(MALFORMED);
    }
    let body = input.strip_suffix(b"\n").unwrap_or(input);
    if input.is_empty() {
        return String::new();
    }
    let mut image = vec![0; IMAGE_BYTES];
    body.split(|&byte| byte == b'\n').map(|line| answer(&mut image, line)).collect()
}

fn answer(image: &mut [u8], line: &[u8]) -> String {
    match parse(line) {
        None => made_line(MALFORMED),
        Some(Command::Put(key, value)) => change(image, |image, list| Reference.put(image, list, key, value)),
        Some(Command::Set(key, value)) => change(image, |image, list| Reference.set(image, list, key, value)),
        Some(Command::Del(key)) => change(image, |image, list| Reference.del(image, list, key)),
        Some(Command::Get(key)) => {
            let found = Reference.find(image, key);
            format!("{}\t{}\n", found.answer, found.value)
        }
        Some(Command::List) => {
            let entries = map_of(image).expect("lists run whole keep an image sound");
            entries.iter().map(|(key, value)| format!("{key}\t{value}\n")).collect()
        }
    }
}

fn change(image: &mut [u8], call: impl Fn(&[u8], &mut [u64]) -> Made) -> String {
    let mut list = [0; LIST_WORDS];
    let made = call(image, &mut list);
    Reference.run(image, &list, made.steps);
    made_line(made)
}

fn made_line(made: Made) -> String {
    format!("{}\t{}\t{}\t{}\n", made.answer, made.steps, made.line_writes, made.word_writes)
}

fn parse(line: &[u8]) -> Option<Command> {
    let fields: Vec<&[u8]> = line.split(|&byte| byte == b'\t').collect();
    match fields[..] {
        [b"put", key, value] => Some(Command::Put(number(key)?, number(value)?)),
        [b"set", key, value] => Some(Command::Set(number(key)?, number(value)?)),
        [b"del", key] => Some(Command::Del(number(key)?)),
        [b"get", key] => Some(Command::Get(number(key)?)),
        [b"list"] => Some(Command::List),
        _ => None,
    }
}

/// "Decimal with no sign and no leading zero but 0 itself", at most 2^64 - 1.
fn number(field: &[u8]) -> Option<u64> {
    let digits = field.iter().all(u8::is_ascii_digit);
    let leading_zero = field.len() > 1 && field[0] == b'0';
    if !digits || leading_zero {
        return None;
    }
    std::str::from_utf8(field).ok()?.parse().ok()
}
