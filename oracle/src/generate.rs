//! Plan texts that look random, the same for the same seed. About four in five are accepted; most of
//! the others break one rule, near its bound.

mod build_damage;
mod calls;
mod draw;
mod layout;
mod map;
mod plan;
mod select;
mod shape_damage;
mod special;
mod text_damage;

use crate::random::Random;
use plan::{Entry, Plan};

pub fn plan_text(random: &mut Random) -> Vec<u8> {
    let plan = match random.below(200) {
        0..=125 => accepted(random),
        126..=147 => shape_damaged(random),
        148..=175 => build_damaged(random),
        176..=187 => return text_damaged(random),
        188..=195 => {
            let plan = special::selection(random);
            finish(random, plan)
        }
        196..=197 => special::crowded(random),
        198 => many_gets(random),
        _ if random.one_in(3) => long(random),
        _ => accepted(random),
    };
    plan.text().into_bytes()
}

/// The RAM that the plan chooses; where it is refused, the file, so that the rest can be drawn.
fn ram_or_file(plan: &Plan) -> Vec<Entry> {
    let file = Entry {
        span: plan.file,
        node: 0,
        protectable: true,
    };
    select::ram(plan).unwrap_or(vec![file])
}

/// A map, a file and imports whose selection is accepted.
fn selected(random: &mut Random) -> Plan {
    loop {
        let plan = map::draw(random);
        if select::ram(&plan).is_some() {
            return plan;
        }
    }
}

/// Draws all that comes after selection.
fn finish(random: &mut Random, mut plan: Plan) -> Plan {
    let ram = ram_or_file(&plan);
    layout::draw(random, &mut plan, &ram);
    let free = layout::free(&plan, &ram);
    plan.pool = calls::pool(random, &plan, &ram, &free);
    plan.gets = calls::gets(random, &ram, &free);
    plan
}

fn accepted(random: &mut Random) -> Plan {
    let plan = selected(random);
    finish(random, plan)
}

fn shape_damaged(random: &mut Random) -> Plan {
    let mut plan = selected(random);
    random.pick(&shape_damage::DAMAGES)(random, &mut plan);
    finish(random, plan)
}

fn build_damaged(random: &mut Random) -> Plan {
    let mut plan = accepted(random);
    let ram = ram_or_file(&plan);
    random.pick(&build_damage::DAMAGES)(random, &mut plan, &ram);
    plan
}

fn text_damaged(random: &mut Random) -> Vec<u8> {
    let mut text = accepted(random).text().into_bytes();
    let damage = random.pick(&[
        text_damage::byte as fn(&mut Random, &mut Vec<u8>),
        text_damage::field,
        text_damage::lines,
    ]);
    damage(random, &mut text);
    text
}

/// An accepted plan with hundreds of requests.
fn many_gets(random: &mut Random) -> Plan {
    let mut plan = accepted(random);
    let count = random.between(150, 600);
    plan.gets = (0..count).map(|_| calls::short(random)).collect();
    plan
}

fn long(random: &mut Random) -> Plan {
    let mut plan = accepted(random);
    text_damage::long(random, &mut plan);
    plan
}
