//! The proved planner beside the original, on random plan texts.
//!
//! Of a text that is accepted are compared: the output, line by line; and by numbers the RAM, the pool's
//! pieces, the answers, and the table after the last request, entry by entry, with its flag. A request
//! that document 01 refuses as 23, 24 or 26 may stop the original; then its line is `panic`.
//! Of a text that is refused it is told what the original does there.

use crate::generate;
use crate::original::{self, Answer, Outcome, Planned, Stop, What};
use crate::ours::{self, Steps};
use crate::plan_text::{self, Get, Plan};
use crate::random::Random;
use bootplan::{NodeRange, Refusal};
use std::collections::BTreeMap;
use std::path::Path;

/// What is counted over all texts.
#[derive(Default)]
pub struct Counts {
    accepted: u64,
    differ: u64,
    /// Requests in which the original panics, by the refusal's number.
    panics: BTreeMap<u8, u64>,
    /// What the original does where the text is refused, by the refusal's number.
    refused: BTreeMap<(u8, String), u64>,
}

/// Whether a line of the original is ours, or the panic that stands for a refusal which it has not.
fn same_line(original: &str, ours: &str, panics: &mut BTreeMap<u8, u64>) -> bool {
    let number = match ours {
        "no\t23" => 23,
        "no\t24" => 24,
        "no\t26" => 26,
        _ => return original == ours,
    };
    if original == "panic" {
        *panics.entry(number).or_default() += 1;
    }
    original == "panic"
}

fn same_output(original: &[u8], ours: &[u8], panics: &mut BTreeMap<u8, u64>) -> bool {
    let (Ok(original), Ok(ours)) = (str::from_utf8(original), str::from_utf8(ours)) else {
        return false;
    };
    original.lines().count() == ours.lines().count()
        && original
            .lines()
            .zip(ours.lines())
            .all(|(original, ours)| same_line(original, ours, panics))
}

fn same_answer(original: &Answer, ours: Result<NodeRange, Refusal>, get: &Get) -> bool {
    match (original, ours) {
        (Answer::Range(handed), Ok(ours)) => {
            handed.range.start() == ours.range.start
                && handed.range.end() == ours.range.end
                && u64::from(handed.vnode) == ours.node
        }
        (Answer::None, Err(Refusal(number))) => number == if get.length == 0 { 22 } else { 25 },
        (Answer::Panic { .. }, Err(Refusal(number))) => matches!(number, 23 | 24 | 26),
        _ => false,
    }
}

/// What differs by numbers, if anything.
fn differs_by_numbers(plan: &Plan, original: &Planned, ours: &Steps) -> Option<&'static str> {
    let ram = original.vtl2_ram.iter().map(|entry| NodeRange {
        range: bootplan::Range::new(entry.range.start(), entry.range.end()),
        node: entry.vnode.into(),
    });
    if !ram.eq(ours.ram.iter().copied()) {
        return Some("RAM");
    }
    let pool = original.pool.iter().map(|piece| NodeRange {
        range: bootplan::Range::new(piece.start, piece.end),
        node: piece.node.into(),
    });
    if !pool.eq(ours.pool.iter().copied()) {
        return Some("pool");
    }
    let answers = original.answers.iter().zip(&ours.answers).zip(&plan.get);
    if !answers
        .into_iter()
        .all(|((a, b), get)| same_answer(a, b.result(), get))
    {
        return Some("answers");
    }
    if !original.entries().into_iter().eq(ours.entries()) {
        return Some("table");
    }
    (original.flag() != ours.table.has_pool()).then_some("flag")
}

fn stopped(stop: &Stop) -> String {
    let what = match stop.what {
        What::Panic => "panics",
        What::Error => "gives an error",
    };
    // Numbers are left out, so that equal panics count together.
    let plain = |word: &&str| !word.contains(|c: char| c.is_ascii_digit());
    let few: Vec<&str> = stop
        .message
        .split_whitespace()
        .filter(plain)
        .take(3)
        .collect();
    format!("{what}, {}: {}", stop.stage, few.join(" "))
}

/// What differs on a text that is accepted, if anything.
fn differs_accepted(text: &[u8], ours: &[u8], counts: &mut Counts) -> Option<String> {
    counts.accepted += 1;
    let (output, planned) = match original::plan(text) {
        Outcome::Form => return Some("the original's reader refuses the form".into()),
        Outcome::Stopped(stop) => return Some(format!("the original {}", stopped(&stop))),
        Outcome::Planned { output, plan } => (output, plan),
    };
    if !same_output(&output, ours, &mut counts.panics) {
        return Some("output".into());
    }
    let plan = plan_text::read(text).expect("it was read before");
    match ours::steps(&plan) {
        Err(Refusal(number)) => Some(format!("refused by numbers: {number}")),
        Ok(steps) => differs_by_numbers(&plan, &planned, &steps).map(str::to_owned),
    }
}

/// What differs on a text that is refused, if anything: the form is judged alike by both readers, and from
/// row 6 on, which comes behind the rows of single ranges, the steps by numbers refuse alike.
fn differs_refused(text: &[u8], number: u8, counts: &mut Counts) -> Option<String> {
    let plan = plan_text::read(text);
    if plan.is_none() != (number <= 3) {
        return Some("form".into());
    }
    let plan = plan?;
    let does = match original::run(&plan) {
        Err(stop) => stopped(&stop),
        Ok(_) => "goes on".into(),
    };
    *counts.refused.entry((number, does)).or_default() += 1;
    match ours::steps(&plan) {
        Err(Refusal(other)) if number < 6 || other == number => None,
        Err(Refusal(other)) => Some(format!("refused as {number}, by numbers as {other}")),
        Ok(_) if number < 6 => None,
        Ok(_) => Some(format!("refused as {number}, by numbers not")),
    }
}

/// What differs on a text, if anything.
pub fn differs(text: &[u8], room: &mut Vec<u8>, counts: &mut Counts) -> Option<String> {
    match ours::plan(text, room) {
        Ok(len) => differs_accepted(text, &room[..len], counts),
        Err(Refusal(number)) => differs_refused(text, number, counts),
    }
}

/// Compares so many texts of a seed, prints those that differ, and what was met; whether none differs.
pub fn beside(count: u64, seed: u64) -> bool {
    let mut random = Random(seed);
    let mut counts = Counts::default();
    let mut room = Vec::new();
    for _ in 0..count {
        let text = generate::plan_text(&mut random);
        if let Some(what) = differs(&text, &mut room, &mut counts) {
            counts.differ += 1;
            println!("differs: {what}\n{}", String::from_utf8_lossy(&text));
        }
    }
    for ((number, does), times) in &counts.refused {
        println!("refused as {number}: the original {does}: {times}");
    }
    for (number, times) in &counts.panics {
        println!("requests refused as {number}: the original panics: {times}");
    }
    println!(
        "{count} texts of seed {seed}, {} accepted, {} differ",
        counts.accepted, counts.differ
    );
    counts.differ == 0
}

/// Prints for each text that the file ANSWERS of a folder names what ours answers and what the original
/// does; whether ours is what that file has, and nothing differs. Without overflow checks the original
/// goes on where it wraps, and nothing is held against it.
pub fn refusals(folder: &Path) -> bool {
    let checked = cfg!(debug_assertions);
    let answers = std::fs::read_to_string(folder.join("ANSWERS")).expect("ANSWERS");
    let mut room = Vec::new();
    let mut wrong = 0;
    for answer in answers.lines() {
        let (name, first) = answer.split_once('\t').expect("a name and an answer");
        let text = std::fs::read(folder.join(format!("{name}.plan"))).expect(name);
        let ours = match ours::plan(&text, &mut room) {
            Ok(len) => String::from_utf8_lossy(&room[..len]).into_owned(),
            Err(Refusal(number)) => format!("no\t{number}\n"),
        };
        let differs = differs(&text, &mut room, &mut Counts::default());
        let good = ours.lines().any(|line| line == first) && (differs.is_none() || !checked);
        wrong += u64::from(!good);
        let mark = if good { "" } else { " WRONG" };
        println!("{name}: ours {first}; the original {}{mark}", does(&text));
    }
    println!("{} texts, {wrong} wrong", answers.lines().count());
    wrong == 0
}

/// What the original does on a text, in a few words.
fn does(text: &[u8]) -> String {
    match original::plan(text) {
        Outcome::Form => "has no part in it".into(),
        Outcome::Stopped(stop) => stopped(&stop),
        Outcome::Planned { plan, .. } => {
            let panic = |answer: &Answer| match answer {
                Answer::Panic { message, .. } => Some(message.replace('\n', " ")),
                _ => None,
            };
            match plan.answers.iter().find_map(panic) {
                Some(message) => format!("panics in a request: {message}"),
                None => "plans it".into(),
            }
        }
    }
}
