//! Damage to the text itself: 1, 2 and 3.

use super::plan::{Get, Plan};
use crate::random::Random;

const BOUND: usize = 65_536;

/// 1: a byte put in, taken out or changed, mostly so that a line breaks the form.
pub fn byte(random: &mut Random, text: &mut Vec<u8>) {
    let i = random.below(text.len() as u64) as usize;
    let byte = random.pick(b"\t\n 0-gAFx\r\0\xff9");
    match random.below(4) {
        0 => drop(text.remove(i)),
        1 => text.insert(i, byte),
        2 => text.truncate(text.len() - 1),
        _ => text[i] = byte,
    }
}

/// 1: a field of some line is replaced.
pub fn field(random: &mut Random, text: &mut Vec<u8>) {
    let whole = String::from_utf8_lossy(text).into_owned();
    let mut fields: Vec<&str> = whole.split_inclusive(['\t', '\n']).collect();
    let i = random.below(fields.len() as u64) as usize;
    let end = &fields[i][fields[i].len() - 1..];
    let other = random.pick(&[
        "",
        "-",
        "00",
        "01",
        "ffffffffffffffff",
        "10000000000000000",
        "100000000",
        "A",
        "1g",
        "p",
        "h",
        "none",
        "mem",
        "y",
    ]);
    let new = format!("{other}{end}");
    fields[i] = &new;
    *text = fields.concat().into_bytes();
}

/// 2: a line lost, told twice, or at another place.
pub fn lines(random: &mut Random, text: &mut Vec<u8>) {
    let whole = String::from_utf8_lossy(text).into_owned();
    let mut lines: Vec<&str> = whole.split_inclusive('\n').collect();
    let i = random.below(lines.len() as u64) as usize;
    let j = random.below(lines.len() as u64) as usize;
    match random.below(10) {
        0..=3 => drop(lines.remove(i)),
        4..=6 => lines.insert(j, lines[i]),
        7..=8 => lines.swap(i, j),
        _ => lines.truncate(if random.one_in(4) { 0 } else { i }),
    }
    *text = lines.concat().into_bytes();
}

/// 3: requests up to 65,535, 65,536 or 65,537 bytes.
pub fn long(random: &mut Random, plan: &mut Plan) {
    let target = BOUND + random.below(3) as usize - 1;
    let mut bytes = plan.text().len();
    let mut get = |node: u32, digits: usize| {
        plan.gets.push(Get {
            node: Some(node),
            length: u64::MAX >> (64 - 4 * digits),
            high: false,
            kind: 't',
            alignment: None,
        });
    };
    // A line is 13 bytes and its length's digits.
    while bytes + 56 <= target {
        get(9, 4);
        bytes += 17;
    }
    if bytes + 28 <= target {
        let first = ((target - bytes) / 2).min(29) - 13;
        get(9, first);
        get(9, (target - bytes - 13 - first - 13).clamp(1, 16));
    }
}
