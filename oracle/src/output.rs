//! Writes what the original gives for a plan text: in document 01's format, and the table after it.

use crate::memory::access::Entry;
use crate::original::{Answer, Outcome, Planned, Stop, What};
use crate::plan_text::{Get, Plan};
use loader_defs::shim::MemoryVtlType;

fn hex(out: &mut Vec<u8>, mut number: u64) {
    let mut digits = [0; 16];
    let mut first = digits.len();
    loop {
        first -= 1;
        digits[first] = b"0123456789abcdef"[(number % 16) as usize];
        number /= 16;
        if number == 0 {
            break;
        }
    }
    out.extend_from_slice(&digits[first..]);
}

/// A word and its numbers, without the newline.
fn fields(out: &mut Vec<u8>, word: &str, numbers: &[u64]) {
    out.extend_from_slice(word.as_bytes());
    for number in numbers {
        out.push(b'\t');
        hex(out, *number);
    }
}

fn line(out: &mut Vec<u8>, word: &str, numbers: &[u64]) {
    fields(out, word, numbers);
    out.push(b'\n');
}

fn type_word(vtl_type: MemoryVtlType) -> &'static str {
    match vtl_type {
        MemoryVtlType::VTL2_RAM => "ram",
        MemoryVtlType::VTL2_CONFIG => "config",
        MemoryVtlType::VTL2_SIDECAR_IMAGE => "sidecar-image",
        MemoryVtlType::VTL2_SIDECAR_NODE => "sidecar-node",
        MemoryVtlType::VTL2_RESERVED => "reserved",
        MemoryVtlType::VTL2_GPA_POOL => "pool",
        MemoryVtlType::VTL2_TDX_PAGE_TABLES => "tdx-tables",
        MemoryVtlType::VTL2_BOOTSHIM_LOG_BUFFER => "log",
        MemoryVtlType::VTL2_PERSISTED_STATE_HEADER => "state-header",
        MemoryVtlType::VTL2_PERSISTED_STATE_PROTOBUF => "state-payload",
        other => panic!("{other:?} is not one of the ten"),
    }
}

/// The line of a request. The numbers of refusals are document 01's; a panic stands as that word.
fn answer_line(out: &mut Vec<u8>, get: &Get, answer: &Answer) {
    match answer {
        Answer::Range(got) => {
            let (range, node) = (got.range, u64::from(got.vnode));
            line(out, "got", &[range.start(), range.end(), node]);
        }
        Answer::None if get.length == 0 => out.extend_from_slice(b"no\t22\n"),
        Answer::None => out.extend_from_slice(b"no\t25\n"),
        Answer::Panic { .. } => out.extend_from_slice(b"panic\n"),
    }
}

/// Writes the output of a plan behind what is there.
pub fn write_output(plan: &Plan, planned: &Planned, out: &mut Vec<u8>) {
    for ram in planned.vtl2_ram.iter() {
        let node = u64::from(ram.vnode);
        line(out, "ram", &[ram.range.start(), ram.range.end(), node]);
    }
    for piece in &planned.pool {
        let node = u64::from(piece.node);
        line(out, "pool", &[piece.start, piece.end, node]);
    }
    for (get, answer) in plan.get.iter().zip(&planned.answers) {
        answer_line(out, get, answer);
    }
    for (range, vtl_type) in planned.table.vtl2_ranges() {
        fields(out, "map", &[range.start(), range.end()]);
        out.push(b'\t');
        out.extend_from_slice(type_word(vtl_type).as_bytes());
        out.push(b'\n');
    }
}

/// The output of a plan.
pub fn output(plan: &Plan, planned: &Planned) -> Vec<u8> {
    let mut out = Vec::with_capacity(4096);
    write_output(plan, planned, &mut out);
    out
}

fn stopped(stop: &Stop) -> String {
    let what = match stop.what {
        What::Panic => "panic",
        What::Error => "error",
    };
    let message = stop.message.replace('\n', " ");
    format!("{what} {} {message}\n", stop.stage)
}

/// Entries with their numbers in hexadecimal, the usage's in decimal.
fn entry_lines(out: &mut Vec<u8>, word: &str, table: &[Entry]) {
    for entry in table {
        fields(out, word, &[entry.start, entry.end, entry.node.into()]);
        out.extend_from_slice(format!("\t{}\n", entry.usage).as_bytes());
    }
}

/// The table and the flag; then, for each request in which the original panicked, its number from 1,
/// the message, and the table as the panic left it.
fn table_lines(out: &mut Vec<u8>, planned: &Planned) {
    entry_lines(out, "entry", &planned.entries());
    line(out, "flag", &[planned.flag().into()]);
    for (i, answer) in planned.answers.iter().enumerate() {
        if let Answer::Panic {
            message,
            table,
            flag,
        } = answer
        {
            let message = message.replace('\n', " ");
            out.extend_from_slice(format!("panic get {} {message}\n", i + 1).as_bytes());
            entry_lines(out, "left", table);
            line(out, "left-flag", &[(*flag).into()]);
        }
    }
}

/// What the oracle writes for a plan text: the output, or what happened instead, in a line.
pub fn written(outcome: Outcome, with_table: bool) -> Vec<u8> {
    match outcome {
        Outcome::Form => b"form\n".to_vec(),
        Outcome::Stopped(stop) => stopped(&stop).into_bytes(),
        Outcome::Planned { mut output, plan } => {
            if with_table {
                table_lines(&mut output, &plan);
            }
            output
        }
    }
}
