//! The stored plans of crates/cases: each text is planned, and what has the form is planned by numbers
//! too. Both have to come to what is stored.

use bootplan::*;
use std::fmt::Write;

const STORED: [&str; 6] = [
    include_str!("../../../crates/cases/data/plans.txt"),
    include_str!("../../../crates/cases/data/plans_lists.txt"),
    include_str!("../../../crates/cases/data/plans_map_1024.txt"),
    include_str!("../../../crates/cases/data/plans_map_1025.txt"),
    include_str!("../../../crates/cases/data/plans_random.txt"),
    include_str!("../../../crates/cases/data/plans_table.txt"),
];

/// The bytes of a stored text; crates/cases/src/line.rt says how it is written.
fn unescaped(stored: &str) -> Vec<u8> {
    let number = |digits: &str| usize::from_str_radix(digits, 16).unwrap();
    let mut bytes: Vec<u8> = Vec::new();
    let mut rest = stored.strip_prefix('"').unwrap();
    while let Some((plain, escaped)) = rest.split_once('\\') {
        bytes.extend(plain.bytes());
        let (kind, behind) = escaped.split_at(1);
        rest = behind;
        match kind {
            "n" => bytes.push(b'\n'),
            "t" => bytes.push(b'\t'),
            "\\" => bytes.push(b'\\'),
            _ => {
                let (numbers, behind) = rest.split_once(';').unwrap();
                rest = behind;
                match numbers.split_once('*') {
                    None => bytes.push(number(numbers) as u8),
                    Some((back, count)) => {
                        let from = bytes.len() - number(back);
                        for i in 0..number(count) {
                            bytes.push(bytes[from + i]);
                        }
                    }
                }
            }
        }
    }
    bytes.extend(rest.bytes());
    bytes
}

/// What a text gives the planner.
#[derive(Default)]
struct Given {
    shape: Vec<String>,
    file: Range,
    map: Vec<MapEntry>,
    imports: Vec<Range>,
    used: Range,
    state: Range,
    configs: Vec<Range>,
    single: [Option<Range>; 4],
    pools: Vec<Range>,
    pool: Vec<String>,
    requests: Vec<Request>,
}

fn number(field: &str) -> Option<u64> {
    u64::from_str_radix(field, 16).ok()
}

fn request(fields: &[String]) -> Request {
    let request_type = match fields[3].as_str() {
        "p" => RequestType::Pool,
        "s" => RequestType::SidecarNode,
        _ => RequestType::TdxTables,
    };
    let policy = match fields[2].as_str() {
        "l" => Policy::Low,
        _ => Policy::High,
    };
    let mut request = Request::new(number(&fields[1]).unwrap(), request_type, policy);
    if let Some(node) = number(&fields[0]) {
        request = request.on_node(node as u32);
    }
    match number(&fields[4]) {
        Some(alignment) => request.aligned(alignment),
        None => request,
    }
}

impl Given {
    fn take(&mut self, word: &str, fields: Vec<String>) {
        let words = |i: usize| fields.get(i).and_then(|field| number(field)).unwrap_or(0);
        let range = Range::new(words(0), words(1));
        match word {
            "shape" => self.shape = fields,
            "file" => self.file = range,
            "mem" => self.map.push(MapEntry {
                range,
                node: words(2),
                map_type: match fields[3].as_str() {
                    "p" => MapType::Protectable,
                    _ => MapType::Other,
                },
            }),
            "import" => self.imports.push(range),
            "used" => self.used = range,
            "state" => self.state = range,
            "config" => self.configs.push(range),
            "keep" => self.single[0] = Some(range),
            "side" => self.single[1] = Some(range),
            "tables" => self.single[2] = Some(range),
            "log" => self.single[3] = Some(range),
            "gpool" => self.pools.push(range),
            "pool" => self.pool = fields,
            "get" => self.requests.push(request(&fields)),
            _ => panic!("{word}"),
        }
    }

    fn of(text: &[u8]) -> Given {
        let mut given = Given::default();
        for line in std::str::from_utf8(text).unwrap().lines() {
            let mut fields = line.split('\t').map(str::to_owned);
            let word = fields.next().unwrap();
            given.take(&word, fields.collect());
        }
        given
    }

    fn isolation(&self) -> Isolation {
        match self.shape[1].as_str() {
            "none" => Isolation::None,
            "vbs" => Isolation::Vbs,
            "snp" => Isolation::Snp,
            "tdx" => Isolation::Tdx,
            _ => Isolation::Cca,
        }
    }

    fn select(&self) -> Result<Vec<NodeRange>, Refusal> {
        let mut ram = [NodeRange::default(); RAM_ROOM];
        let by = Selection {
            mode: match self.shape[0].as_str() {
                "h" => Mode::Host,
                _ => Mode::Boot,
            },
            isolation: self.isolation(),
            ram_size: number(&self.shape[2]),
            file: self.file,
            map: &self.map,
            imports: &self.imports,
        };
        Ok(select_ram(&by, &mut ram)?.to_vec())
    }

    fn build(&self, ram: &[NodeRange]) -> Result<Table, Refusal> {
        let mut table = Table::new();
        let [reserved, sidecar_image, page_tables, log_buffer] = self.single;
        table.build(&Build {
            ram,
            used: self.used,
            state: self.state,
            reserved,
            sidecar_image,
            page_tables,
            log_buffer,
            configs: &self.configs,
            pools: &self.pools,
        })?;
        Ok(table)
    }

    /// Only a guest without isolation has a private pool.
    fn pool_pages(&self, ram: &[NodeRange]) -> Option<u64> {
        let kind = match self.pool[0].as_str() {
            _ if self.isolation() != Isolation::None => PoolKind::Off,
            "off" => PoolKind::Off,
            "pages" => PoolKind::Pages(number(&self.pool[1]).unwrap()),
            "release" => PoolKind::Release,
            _ => PoolKind::Debug,
        };
        let bytes = ram.iter().map(|on| on.range.end - on.range.start).sum();
        let processors = number(&self.pool[3]).unwrap();
        pool_size(kind, number(&self.pool[2]), processors, bytes)
    }

    fn plan(&self) -> Result<String, Refusal> {
        let ram = self.select()?;
        let mut table = self.build(&ram)?;
        let mut lines: String = ram.iter().map(|on| line("ram", on)).collect();
        let mut pieces = [NodeRange::default(); PIECE_ROOM];
        if let Some(pages) = self.pool_pages(&ram) {
            let pieces = table.place_pool(pages, self.pool[4] == "y", &mut pieces)?;
            lines.extend(pieces.iter().map(|on| line("pool", on)));
        }
        let mut answers = vec![Answer::default(); self.requests.len()];
        table.allocate_all(&self.requests, &mut answers)?;
        lines.extend(answers.iter().map(|answer| match answer.result() {
            Ok(on) => line("got", &on),
            Err(refusal) => format!("no\t{}\n", refusal.0),
        }));
        let mut ranges = [TypedRange::default(); RANGE_ROOM];
        for TypedRange { range, range_type } in table.vtl2_ranges(&mut ranges)? {
            writeln!(
                lines,
                "map\t{:x}\t{:x}\t{range_type}",
                range.start, range.end
            )
            .unwrap();
        }
        Ok(lines)
    }
}

fn line(word: &str, on: &NodeRange) -> String {
    let NodeRange { range, node } = on;
    format!("{word}\t{:x}\t{:x}\t{node:x}\n", range.start, range.end)
}

fn plan_by_text(text: &[u8]) -> Result<String, Refusal> {
    let mut output = vec![0; output_size(text.len())];
    let written = plan(text, &mut output)?;
    Ok(String::from_utf8_lossy(&output[..written]).into_owned())
}

fn output_of(plan: &Result<String, Refusal>) -> String {
    match plan {
        Ok(lines) => lines.clone(),
        Err(refusal) => format!("no\t{}\n", refusal.0),
    }
}

#[test]
fn stored_plans() {
    let mut count = 0;
    for stored in STORED.iter().flat_map(|file| file.lines()) {
        let Some((text, output)) = stored
            .strip_prefix("plan ")
            .and_then(|s| s.split_once(" = "))
        else {
            continue;
        };
        let text = unescaped(text);
        let by_text = plan_by_text(&text);
        assert_eq!(
            output_of(&by_text).as_bytes(),
            unescaped(output),
            "{stored}"
        );
        match by_text {
            // The text has not the form.
            Err(Refusal(1..=3)) => {}
            // Of a text these come before a selection, of a build's ranges behind it.
            Err(Refusal(4 | 5)) => assert!(Given::of(&text).plan().is_err(), "{stored}"),
            by_text => assert_eq!(Given::of(&text).plan(), by_text, "{stored}"),
        }
        count += 1;
    }
    assert_eq!(count, 665);
}
