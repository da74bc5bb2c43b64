//! Makes the original, in the folder that `DOCS_SRC` gives, part of the oracle, unchanged:
//! - cmdline.rs and dma_hint.rs are compiled where they lie;
//! - memory.rs is written out byte for byte, and src/memory_access.rs is appended to it;
//! - single items are cut from the other files, each into a file of its own.
//!
//! The counts and MiB of the rows of both lookup tables are read from the text too: inputs are made near
//! them, and no answer rests on it.

use std::fs;
use std::path::{Path, PathBuf};

/// The items cut: the file they are cut from, how their line starts, and the file that they become.
const CUTS: [(&str, &str, &str); 8] = [
    (
        "host_params/mod.rs",
        "pub const MAX_NUMA_NODES:",
        "max_numa_nodes.rs",
    ),
    (
        "host_params/mod.rs",
        "pub const MAX_VTL2_RAM_RANGES:",
        "max_vtl2_ram_ranges.rs",
    ),
    (
        "host_params/mod.rs",
        "const MAX_PARTITION_RAM_RANGES:",
        "max_partition_ram_ranges.rs",
    ),
    (
        "host_params/shim_params.rs",
        "pub enum IsolationType {",
        "isolation_type.rs",
    ),
    (
        "host_params/shim_params.rs",
        "impl IsolationType {",
        "isolation_type_impl.rs",
    ),
    (
        "host_params/dt/mod.rs",
        "fn allocate_private_pool(",
        "allocate_private_pool.rs",
    ),
    (
        "host_params/dt/mod.rs",
        "fn allocate_vtl2_ram(",
        "allocate_vtl2_ram.rs",
    ),
    (
        "host_params/dt/mod.rs",
        "fn parse_host_vtl2_ram(",
        "parse_host_vtl2_ram.rs",
    ),
];

fn folder(name: &str) -> PathBuf {
    println!("cargo::rerun-if-env-changed={name}");
    let path = std::env::var(name).unwrap_or_else(|_| panic!("{name} is not set"));
    fs::canonicalize(&path).unwrap_or_else(|e| panic!("{name}: {path}: {e}"))
}

fn watch(file: &Path) {
    println!("cargo::rerun-if-changed={}", file.display());
}

fn text(file: &Path) -> String {
    watch(file);
    fs::read_to_string(file).unwrap_or_else(|e| panic!("{}: {e}", file.display()))
}

/// The one item whose line starts so: from its comments and attributes to the line that ends it, which
/// is its own for a constant, else the next `}` at the start of a line.
fn cut(text: &str, starts: &str) -> String {
    let lines: Vec<&str> = text.split_inclusive('\n').collect();
    let mut found = (0..lines.len()).filter(|i| lines[*i].starts_with(starts));
    let at = found.next().unwrap_or_else(|| panic!("no `{starts}`"));
    assert!(found.next().is_none(), "`{starts}` more than once");
    let before = |line: &&&str| line.starts_with("///") || line.starts_with("#[");
    let first = at - lines[..at].iter().rev().take_while(before).count();
    let last = match lines[at].ends_with(";\n") {
        true => at,
        false => at + lines[at..].iter().position(|line| *line == "}\n").unwrap(),
    };
    lines[first..=last].concat()
}

/// `(COUNT, MIB, HINT),` at the start of a line.
fn row(line: &str) -> Option<(u64, u64)> {
    let (row, _) = line.trim_start().strip_prefix('(')?.split_once(')')?;
    let mut numbers = row.split(", ").map(str::parse);
    Some((numbers.next()?.ok()?, numbers.next()?.ok()?))
}

fn modules(original: &Path, out: &Path) -> String {
    let cmdline = original.join("cmdline.rs");
    let dma_hint = original.join("host_params/dt/dma_hint.rs");
    watch(&cmdline);
    let tables = text(&dma_hint);
    let mut modules = String::new();
    for (name, file) in [
        ("cmdline", cmdline),
        ("dma_hint", dma_hint),
        ("memory", out.join("memory.rs")),
    ] {
        modules += &format!("#[path = {file:?}]\n#[allow(dead_code)]\nmod {name};\n");
    }
    let rows: Vec<(u64, u64)> = tables.lines().filter_map(row).collect();
    assert_eq!(rows.len(), 45);
    modules + &format!("const ROWS: [(u64, u64); 45] = {rows:?};\n")
}

fn main() {
    let original = folder("DOCS_SRC").join("openhcl/openhcl_boot/src");
    let out = PathBuf::from(std::env::var("OUT_DIR").unwrap());
    watch(Path::new("build.rs"));
    let memory = text(&original.join("memory.rs")) + &text(Path::new("src/memory_access.rs"));
    fs::write(out.join("memory.rs"), memory).unwrap();
    for (file, starts, to) in CUTS {
        let item = cut(&text(&original.join(file)), starts);
        fs::write(out.join(to), item).unwrap();
    }
    fs::write(out.join("original.rs"), modules(&original, &out)).unwrap();
}
