//! Runs the original Rust beside the proved planner.
//!
//!     oracle plan                          the original's output for the plan text on standard input
//!     oracle table                         the same, and the table after it
//!     oracle plans COUNT SEED              that many random plan texts, the original against ours
//!     oracle refusals FOLDER               what the original does on the texts of that folder, and ours
//!     oracle stored-plans FOLDER COUNT SEED  the file of stored plans
//!     oracle time-plan SIDE STEP TURNS     a step of the plan text on standard input, TURNS times
//!     oracle stored                        the file of stored hints and pool sizes
//!     oracle beside COUNT SEED             that many random hints and pool sizes
//!     oracle grid                          all hints of a grid of counts and sizes
//!     oracle time SIDE TURNS               the same 4,096 hints, TURNS times

include!(concat!(env!("OUT_DIR"), "/original.rs"));
mod caught;
#[cfg(feature = "ours")]
mod generate;
mod host_params;
mod original;
#[cfg(feature = "ours")]
mod ours;
mod output;
mod plan_text;
#[cfg(feature = "ours")]
mod plans_beside;
#[cfg(feature = "ours")]
mod plans_time;
mod random;
mod single_threaded;
mod sizing;
#[cfg(feature = "ours")]
mod sizing_beside;
mod stored;
#[cfg(feature = "ours")]
mod stored_plans;

use std::io::{Read, Write};
use std::process::exit;

fn usage() {
    eprintln!("usage: oracle plan | table | plans COUNT SEED | refusals FOLDER");
    eprintln!("       oracle stored-plans FOLDER COUNT SEED");
    eprintln!(
        "       oracle time-plan original|no-original|ours|no-ours select|build|pool|gets|plan TURNS"
    );
    eprintln!("       oracle stored | beside COUNT SEED | grid | time original|ours|neither TURNS");
    exit(2);
}

#[cfg(feature = "ours")]
fn number(word: &str) -> u64 {
    word.parse().expect("a number")
}

fn standard_input() -> Vec<u8> {
    let mut text = Vec::new();
    std::io::stdin()
        .read_to_end(&mut text)
        .expect("standard input");
    text
}

fn plan(with_table: bool) {
    let written = output::written(original::plan(&standard_input()), with_table);
    std::io::stdout()
        .write_all(&written)
        .expect("standard output");
}

#[cfg(feature = "ours")]
fn with_ours(words: &[&str]) {
    let good = match words {
        ["plans", count, seed] => plans_beside::beside(number(count), number(seed)),
        ["refusals", folder] => plans_beside::refusals(folder.as_ref()),
        ["stored-plans", folder, count, seed] => {
            stored_plans::write(folder.as_ref(), number(count) as usize, number(seed));
            true
        }
        ["time-plan", side, step, turns] => {
            plans_time::time(side, step, number(turns), &standard_input());
            true
        }
        ["beside", count, seed] => sizing_beside::beside(number(count), number(seed)),
        ["grid"] => sizing_beside::grid(),
        ["time", side, turns] => {
            sizing_beside::time(side, number(turns));
            true
        }
        _ => return usage(),
    };
    if !good {
        exit(1);
    }
}

#[cfg(not(feature = "ours"))]
fn with_ours(_: &[&str]) {
    usage();
}

fn main() {
    let words: Vec<String> = std::env::args().skip(1).collect();
    let words: Vec<&str> = words.iter().map(String::as_str).collect();
    match words[..] {
        ["stored"] => stored::write(),
        ["plan"] => plan(false),
        ["table"] => plan(true),
        _ => with_ours(&words),
    }
}
