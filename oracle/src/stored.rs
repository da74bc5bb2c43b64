//! The file of stored answers that the program `cases` replays: the original's, for a fixed list of
//! inputs. A line is a series of inputs a step apart, or one alone, with its answers; runs of words in
//! even steps are written short, as `cases` reads them.

use crate::ROWS;
use crate::random::Random;
use crate::sizing::{BOUND, Input, MIB, PoolInput};

/// Answers that are not the one before that fit on a line.
const RUNS: usize = 40;

/// Words, with those that follow in even steps behind two rows of a width, or behind four, written short.
fn written(words: &[u64], width: usize) -> String {
    let follows = |at: usize, back: usize| {
        let (last, before) = (words[at - back], words[at - 2 * back]);
        words[at] == last.wrapping_add(last.wrapping_sub(before))
    };
    let mut out = Vec::new();
    let mut at = 0;
    while at < words.len() {
        let run = |back: usize| match at < 2 * back {
            true => 0,
            false => (at..words.len()).take_while(|&i| follows(i, back)).count() / width * width,
        };
        let (one, two) = (run(width), run(2 * width));
        if one.max(two) >= 4 {
            let back = if one >= two { width } else { 2 * width };
            out.push(format!("~{back:x}*{:x}", one.max(two)));
            at += one.max(two);
        } else {
            out.extend(words[at..at + width].iter().map(|word| format!("{word:x}")));
            at += width;
        }
    }
    out.join(" ")
}

/// Writes the answers to `inputs` inputs, each a step after the one before it.
fn series(first: Input, vp_step: u64, mem_step: u64, inputs: u64) {
    let mut at = first;
    let mut left = inputs;
    while left > 0 {
        let mut given: Vec<u64> = Vec::new();
        let mut stored: Vec<u64> = Vec::new();
        let mut runs = 0;
        while (stored.len() as u64) < left {
            let pages = at.original();
            if stored.last() != Some(&pages) {
                if runs == RUNS {
                    break;
                }
                runs += 1;
            }
            given.extend([at.vp_count, at.mem_size]);
            stored.push(pages);
            at.vp_count = at.vp_count.wrapping_add(vp_step);
            at.mem_size = at.mem_size.wrapping_add(mem_step);
        }
        let table = if first.debug { "debug" } else { "release" };
        println!("{table} {} = {}", written(&given, 2), written(&stored, 1));
        left -= stored.len() as u64;
    }
}

fn input(debug: bool, vp_count: u64, mem_size: u64) -> Input {
    Input {
        debug,
        vp_count,
        mem_size,
    }
}

pub fn write() {
    println!("# Answers of the original Rust, written by `oracle stored`.");
    println!("# TABLE COUNT BYTES COUNT BYTES .. = PAGES PAGES ..");
    println!(
        "# P1 to P7, memory compared modulo 65,536 MiB, and the first size that is not looked up"
    );
    for (debug, count, mib) in [
        (false, 2, 96),
        (false, 2, 120),
        (false, 1, 101),
        (false, 1, 102),
        (false, 3, 140),
        (false, 4, 389),
        (true, 4, 449),
        (false, 2, 65_632),
        (false, 2, BOUND / MIB),
    ] {
        series(input(debug, count, mib * MIB), 0, 0, 1);
    }
    println!("# every row and its neighbours by one in count and MiB, in both tables");
    for debug in [false, true] {
        for (vp_count, mib) in ROWS {
            for count in vp_count - 1..=vp_count + 1 {
                series(input(debug, count, (mib - 1) * MIB), 0, MIB, 3);
            }
        }
    }
    println!("# every count from 0 to 1,000 at a few sizes");
    for debug in [false, true] {
        for mib in [1, 69, 96, 140, 512, 1030, 4096, 12912, 65536 + 96, 1 << 31] {
            series(input(debug, 0, mib * MIB + MIB - 1), 1, 0, 1001);
        }
    }
    println!("# counts around multiples of 65,536, and the largest");
    for debug in [false, true] {
        for k in [1, 2, 65_535, 1 << 32, (1 << 48) - 1] {
            for mib in [96, 141, 1024] {
                series(input(debug, (k << 16) - 3, mib * MIB), 1, 0, 140);
            }
        }
        series(input(debug, u64::MAX, 512 * MIB), 1, 0, 140);
    }
    println!("# sizes around 0, 1 MiB, 65,536 MiB and the bound, and the largest");
    for debug in [false, true] {
        for count in [0, 2, 3, 4, 32, 1000] {
            for size in [0, MIB - 2, BOUND - MIB - 2, BOUND - 3, u64::MAX - 2] {
                series(input(debug, count, size), 0, 1, 5);
            }
            series(input(debug, count, (65_536 - 3) * MIB), 0, MIB, 150);
            series(input(debug, count, BOUND - 5 * MIB), 0, MIB, 10);
        }
    }
    println!("# every size from 0 to 1,499 MiB at some counts");
    for debug in [false, true] {
        for count in [1, 2, 3, 4, 5, 8, 16, 24, 32, 48, 64, 96, 112, 128, 129, 896] {
            series(input(debug, count, 0), 0, MIB, 1500);
        }
    }
    println!("# random ones");
    let mut random = Random(1);
    for _ in 0..400 {
        series(Input::random(&mut random), 0, 0, 1);
    }
    println!("# the pool's size: KIND PAGES GIVEN HOST-PAGES COUNT BYTES = 0, or 1 and the pages");
    for _ in 0..200 {
        let input = PoolInput::random(&mut random);
        match input.original() {
            None => println!("{input} = 0"),
            Some(pages) => println!("{input} = 1 {pages:x}"),
        }
    }
}
