//! The time of the original and of ours, step by step, on the plan text given.

use crate::host_params::dt::Vtl2Ram;
use crate::memory::AddressSpaceManager;
use crate::original::{self, Planned};
use crate::ours;
use crate::output;
use crate::plan_text::{self, Plan};
use bootplan::{Answer, NodeRange, PIECE_ROOM, RAM_ROOM, Table};
use std::hint::black_box;
use std::time::Instant;

/// What the original is given in each step, and the tables that the steps before it leave.
struct Original {
    plan: Plan,
    given: original::Given,
    ram: Vtl2Ram,
    built: AddressSpaceManager,
    placed: AddressSpaceManager,
}

impl Original {
    fn new(text: &[u8]) -> Original {
        let plan = plan_text::read(text).expect("a plan of the form");
        let given = original::Given::new(&plan);
        let mut ram = Vtl2Ram::new();
        original::select(&given.params(), &given.map, given.mode, &mut ram);
        let mut built = AddressSpaceManager::new_const();
        original::build(&mut built, &given, &ram).expect("a table");
        let mut placed = built.clone();
        original::place_pool(&mut placed, &ram, &original::pool_options(&plan));
        Original {
            plan,
            given,
            ram,
            built,
            placed,
        }
    }

    fn step(&mut self, step: &str, call: bool, text: &[u8], out: &mut Vec<u8>) {
        let mut table = match step {
            "pool" => self.built.clone(),
            "gets" => self.placed.clone(),
            _ => AddressSpaceManager::new_const(),
        };
        let table = black_box(&mut table);
        let given = black_box(&self.given);
        match step {
            _ if !call => {}
            "select" => original::select(&given.params(), &given.map, given.mode, &mut self.ram),
            "build" => original::build(table, given, &self.ram).expect("a table"),
            "pool" => original::place_pool(table, &self.ram, &original::pool_options(&self.plan)),
            "gets" => {
                for get in &self.plan.get {
                    black_box(original::request(table, get));
                }
            }
            "plan" => whole(black_box(text), out),
            _ => panic!("no step {step}"),
        }
        black_box(table);
    }
}

/// The whole plan, without what the comparison needs: no panic is caught, and no table is saved.
fn whole(text: &[u8], out: &mut Vec<u8>) {
    let plan = plan_text::read(text).expect("a plan of the form");
    let given = original::Given::new(&plan);
    let mut planned = Planned {
        vtl2_ram: Vtl2Ram::new(),
        pool: Vec::new(),
        answers: Vec::with_capacity(plan.get.len()),
        table: AddressSpaceManager::new_const(),
    };
    original::select(
        &given.params(),
        &given.map,
        given.mode,
        &mut planned.vtl2_ram,
    );
    original::build(&mut planned.table, &given, &planned.vtl2_ram).expect("a table");
    planned.pool = original::placed_pool(&mut planned.table, &planned.vtl2_ram, &plan);
    for get in &plan.get {
        let answer = match original::request(&mut planned.table, get) {
            Some(range) => original::Answer::Range(range),
            None => original::Answer::None,
        };
        planned.answers.push(answer);
    }
    out.clear();
    output::write_output(&plan, &planned, out);
}

/// The same of ours.
struct Ours {
    plan: Plan,
    given: ours::Given,
    ram: Vec<NodeRange>,
    built: Box<Table>,
    placed: Box<Table>,
    pieces: [NodeRange; PIECE_ROOM],
    answers: Vec<Answer>,
}

impl Ours {
    fn new(text: &[u8]) -> Ours {
        let plan = plan_text::read(text).expect("a plan of the form");
        let given = ours::Given::new(&plan);
        let mut room = [NodeRange::default(); RAM_ROOM];
        let ram = ours::select(&plan, &given, &mut room)
            .expect("RAM")
            .to_vec();
        let mut built = Box::new(Table::new());
        ours::build(&mut built, &plan, &given, &ram).expect("a table");
        let mut placed = built.clone();
        let mut pieces = [NodeRange::default(); PIECE_ROOM];
        ours::place_pool(&mut placed, &plan, &ram, &mut pieces).expect("a pool");
        let answers = vec![Answer::default(); plan.get.len()];
        Ours {
            plan,
            given,
            ram,
            built,
            placed,
            pieces,
            answers,
        }
    }

    fn step(&mut self, step: &str, call: bool, text: &[u8], out: &mut Vec<u8>) {
        let mut table = match step {
            "pool" => self.built.clone(),
            "gets" => self.placed.clone(),
            "build" => Box::new(Table::new()),
            _ => {
                return if call {
                    self.without_table(step, text, out)
                };
            }
        };
        let table = black_box(&mut *table);
        let (plan, given) = (&self.plan, black_box(&self.given));
        let done = match step {
            _ if !call => true,
            "build" => ours::build(table, plan, given, &self.ram).is_ok(),
            "pool" => ours::place_pool(table, plan, &self.ram, &mut self.pieces).is_ok(),
            _ => ours::requests(table, given, &mut self.answers).is_ok(),
        };
        assert!(done, "{step} refused");
        black_box(table);
    }

    fn without_table(&mut self, step: &str, text: &[u8], out: &mut Vec<u8>) {
        let done = match step {
            "select" => {
                let mut room = [NodeRange::default(); RAM_ROOM];
                ours::select(&self.plan, black_box(&self.given), black_box(&mut room)).is_ok()
            }
            "plan" => ours::plan(black_box(text), out).is_ok(),
            _ => panic!("no step {step}"),
        };
        assert!(done, "{step} refused");
        black_box(out);
    }
}

/// Runs one step of one side so many times on a text, and prints the nanoseconds of each. A side that
/// begins with `no-` makes what the step is given and does not call it, for the cost of that.
pub fn time(side: &str, step: &str, turns: u64, text: &[u8]) {
    let mut out = Vec::new();
    let call = !side.starts_with("no-");
    let mut run: Box<dyn FnMut()> = match side.trim_start_matches("no-") {
        "original" => {
            let mut original = Original::new(text);
            Box::new(move || original.step(step, call, text, &mut out))
        }
        "ours" => {
            let mut ours = Ours::new(text);
            Box::new(move || ours.step(step, call, text, &mut out))
        }
        _ => return crate::usage(),
    };
    let start = Instant::now();
    for _ in 0..turns {
        run();
    }
    let nanoseconds = start.elapsed().as_nanos() as f64 / turns as f64;
    println!("{side} {step}: {turns} turns, {nanoseconds:.0} ns each");
}
