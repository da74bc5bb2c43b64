//! The file of whole plans that the program `cases` replays: `plan TEXT = OUTPUT`. The outputs are the
//! original's; a text that it does not plan, of those that show a refusal, has document 01's number.

use crate::generate;
use crate::original::{self, Answer, Outcome};
use crate::ours;
use crate::random::Random;
use std::path::Path;

/// A line of the file has to fit in a block of 65,536 bytes.
const MOST_LINE: usize = 60_000;
/// Random plans are short ones, so that many fit.
const MOST_RANDOM: usize = 1_002;

/// A text as a word of a data file.
fn word(text: &[u8]) -> String {
    let mut word = String::from("\"");
    for byte in text {
        match byte {
            b'\n' => word.push_str("\\n"),
            b'\t' => word.push_str("\\t"),
            b'\\' => word.push_str("\\\\"),
            b'!'..=b'~' => word.push(char::from(*byte)),
            _ => word.push_str(&format!("\\x{byte:x};")),
        }
    }
    word
}

fn line(text: &[u8], output: &[u8]) -> String {
    format!("plan {} = {}", word(text), word(output))
}

/// The original's output, if it plans the text without a panic in a request.
fn original_output(text: &[u8]) -> Option<Vec<u8>> {
    let Outcome::Planned { output, plan } = original::plan(text) else {
        return None;
    };
    let panics = |answer: &Answer| matches!(answer, Answer::Panic { .. });
    (!plan.answers.iter().any(panics)).then_some(output)
}

/// The texts that show each refusal, and their neighbours that are accepted: those whose answer is a
/// refusal of the whole plan have its number, the others the original's output.
fn refusals(folder: &Path) {
    let answers = std::fs::read_to_string(folder.join("ANSWERS")).expect("ANSWERS");
    for answer in answers.lines() {
        let (name, first) = answer.split_once('\t').expect("a name and an answer");
        let text = std::fs::read(folder.join(format!("{name}.plan"))).expect(name);
        let output = match original_output(&text) {
            _ if is_refusal(&text) => format!("{first}\n").into_bytes(),
            Some(output) => output,
            None => continue,
        };
        let line = line(&text, &output);
        if line.len() <= MOST_LINE {
            println!("{line}");
        }
    }
}

fn is_refusal(text: &[u8]) -> bool {
    ours::plan(text, &mut Vec::new()).is_err()
}

fn random_plans(count: usize, seed: u64) {
    let mut random = Random(seed);
    let mut written = 0;
    while written < count {
        let text = generate::plan_text(&mut random);
        if is_refusal(&text) {
            continue;
        }
        let Some(output) = original_output(&text) else {
            continue;
        };
        let line = line(&text, &output);
        if line.len() <= MOST_RANDOM {
            println!("{line}");
            written += 1;
        }
    }
}

pub fn write(folder: &Path, count: usize, seed: u64) {
    println!("# Plans of the original Rust, written by `oracle stored-plans`.");
    println!(
        "# Texts that show a refusal, with its number, and their neighbours that are accepted"
    );
    refusals(folder);
    println!("# {count} random texts that are accepted, seed {seed}");
    random_plans(count, seed);
}
