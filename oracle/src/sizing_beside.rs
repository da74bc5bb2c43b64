//! The private pool's size, the original's answers against ours, and the time that they take.

use crate::ROWS;
use crate::random::Random;
use crate::sizing::{Input, MIB, PoolInput};
use std::hint::black_box;
use std::time::Instant;

/// Says so where the two hints differ.
fn differs(input: Input) -> bool {
    let (original, ours) = (input.original(), input.ours());
    if original != ours {
        println!("{input}: original {original:x}, ours {ours:x}");
    }
    original != ours
}

/// Whether no answer differs.
pub fn beside(count: u64, seed: u64) -> bool {
    let mut random = Random(seed);
    let mut differ = 0;
    for _ in 0..count {
        differ += differs(Input::random(&mut random)) as u64;
        let input = PoolInput::random(&mut random);
        let (original, ours) = (input.original(), input.ours());
        if original != ours {
            differ += 1;
            println!("{input}: original {original:x?}, ours {ours:x?}");
        }
    }
    println!("{count} hints and {count} pool sizes of seed {seed}, {differ} differ");
    differ == 0
}

/// Every count from 0 to 1,023, past the last row's, with every MiB from 0 to 131,071, past the remainder's
/// first turn, in both tables; whether no answer differs.
pub fn grid() -> bool {
    let mut inputs = 0u64;
    let mut differ = 0;
    for debug in [false, true] {
        for vp_count in 0..1024 {
            for mib in 0..131_072 {
                inputs += 1;
                differ += differs(Input {
                    debug,
                    vp_count,
                    mem_size: mib * MIB,
                }) as u64;
            }
        }
    }
    println!("{inputs} hints, {differ} differ");
    differ == 0
}

/// Random guests: counts from 1 to 1,000 and memory from 64 MiB to 16 GiB, one in four at a row of
/// either table; three in four looked up in the release table.
fn guests() -> Vec<Input> {
    let mut random = Random(1);
    let mut guest = || {
        let row = ROWS[random.below(ROWS.len() as u64) as usize];
        let exact = random.below(4) == 0;
        Input {
            debug: random.below(4) == 0,
            vp_count: if exact { row.0 } else { 1 + random.below(1000) },
            mem_size: if exact {
                row.1
            } else {
                64 + random.below(16_320)
            } * MIB,
        }
    };
    (0..4096).map(|_| guest()).collect()
}

pub fn time(side: &str, turns: u64) {
    let answer = match side {
        "original" => Input::original,
        "ours" => Input::ours,
        "neither" => |input: Input| input.mem_size,
        _ => return crate::usage(),
    };
    let guests = guests();
    let start = Instant::now();
    let mut sum = 0u64;
    for _ in 0..turns {
        for guest in &guests {
            sum = sum.wrapping_add(answer(black_box(*guest)));
        }
    }
    let calls = turns * guests.len() as u64;
    let nanoseconds = start.elapsed().as_nanos() as f64 / calls as f64;
    println!("{side}: {calls} calls, sum {sum:x}, {nanoseconds:.1} ns a call");
}
