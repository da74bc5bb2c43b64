//! What a plan text says, and the text of it.

use std::fmt::Write;

pub const PAGE: u64 = 4096;
/// Eight pages.
pub const STEP: u64 = 32_768;
/// The last page multiple.
pub const TOP: u64 = u64::MAX - (PAGE - 1);

#[derive(Clone, Copy, PartialEq, Eq)]
pub struct Span {
    pub start: u64,
    pub end: u64,
}

impl Span {
    pub fn pages_from(start: u64, pages: u64) -> Span {
        let end = start + pages * PAGE;
        Span { start, end }
    }

    pub fn bytes(self) -> u64 {
        self.end - self.start
    }

    pub fn pages(self) -> u64 {
        self.bytes() / PAGE
    }

    pub fn overlaps(self, other: Span) -> bool {
        self.start < other.end && other.start < self.end
    }

    pub fn contains(self, other: Span) -> bool {
        self.start <= other.start && other.end <= self.end
    }
}

#[derive(Clone, Copy)]
pub struct Entry {
    pub span: Span,
    pub node: u32,
    pub protectable: bool,
}

#[derive(Clone, Copy)]
pub struct Pool {
    pub kind: &'static str,
    pub pages: Option<u64>,
    pub host: Option<u64>,
    pub processors: u64,
    pub split: bool,
}

#[derive(Clone, Copy)]
pub struct Get {
    pub node: Option<u32>,
    pub length: u64,
    pub high: bool,
    pub kind: char,
    pub alignment: Option<u64>,
}

pub struct Plan {
    pub host: bool,
    pub isolation: &'static str,
    pub size: Option<u64>,
    pub file: Span,
    pub map: Vec<Entry>,
    pub imports: Vec<Span>,
    pub used: Span,
    pub state: Span,
    pub config: Vec<Span>,
    /// keep, side, tables, log
    pub single: [Option<Span>; 4],
    pub gpool: Vec<Span>,
    pub pool: Pool,
    pub gets: Vec<Get>,
}

fn number(given: Option<u64>) -> String {
    given.map_or("-".into(), |n| format!("{n:x}"))
}

fn letter(choice: bool, yes: char, no: char) -> char {
    if choice { yes } else { no }
}

impl Plan {
    /// An empty file stands for a plan that is not yet drawn.
    pub fn new(host: bool, isolation: &'static str) -> Plan {
        let nothing = Span { start: 0, end: 0 };
        Plan {
            host,
            isolation,
            size: None,
            file: nothing,
            map: Vec::new(),
            imports: Vec::new(),
            used: nothing,
            state: nothing,
            config: Vec::new(),
            single: [None; 4],
            gpool: Vec::new(),
            pool: Pool {
                kind: "off",
                pages: None,
                host: None,
                processors: 1,
                split: false,
            },
            gets: Vec::new(),
        }
    }

    pub fn hardware_isolated(&self) -> bool {
        ["snp", "tdx", "cca"].contains(&self.isolation)
    }

    pub fn nodes(&self) -> u64 {
        let mut nodes: Vec<u32> = self.map.iter().map(|e| e.node).collect();
        nodes.sort_unstable();
        nodes.dedup();
        nodes.len() as u64
    }

    pub fn reserved(&self) -> Vec<Span> {
        let single = self.single.iter().copied().flatten();
        let rest = self.config.iter().copied().chain(single);
        [self.state].into_iter().chain(rest).collect()
    }

    /// Every span that stands in the text.
    pub fn spans(&mut self) -> Vec<&mut Span> {
        let mut spans = vec![&mut self.file, &mut self.used, &mut self.state];
        spans.extend(self.map.iter_mut().map(|e| &mut e.span));
        spans.extend(&mut self.imports);
        spans.extend(&mut self.config);
        spans.extend(self.single.iter_mut().flatten());
        spans.extend(&mut self.gpool);
        spans
    }

    pub fn text(&self) -> String {
        let mut text = String::new();
        self.write_memory(&mut text).unwrap();
        self.write_build(&mut text).unwrap();
        self.write_calls(&mut text).unwrap();
        text
    }

    fn write_memory(&self, text: &mut String) -> std::fmt::Result {
        let (mode, size) = (letter(self.host, 'h', 'b'), number(self.size));
        writeln!(text, "shape\t{mode}\t{}\t{size}", self.isolation)?;
        writeln!(text, "file\t{:x}\t{:x}", self.file.start, self.file.end)?;
        for Entry {
            span,
            node,
            protectable,
        } in &self.map
        {
            let kind = letter(*protectable, 'p', 'o');
            let Span { start, end } = span;
            writeln!(text, "mem\t{start:x}\t{end:x}\t{node:x}\t{kind}")?;
        }
        for Span { start, end } in &self.imports {
            writeln!(text, "import\t{start:x}\t{end:x}")?;
        }
        Ok(())
    }

    fn write_build(&self, text: &mut String) -> std::fmt::Result {
        writeln!(text, "used\t{:x}\t{:x}", self.used.start, self.used.end)?;
        writeln!(text, "state\t{:x}\t{:x}", self.state.start, self.state.end)?;
        for Span { start, end } in &self.config {
            writeln!(text, "config\t{start:x}\t{end:x}")?;
        }
        for (word, span) in ["keep", "side", "tables", "log"].iter().zip(self.single) {
            if let Some(Span { start, end }) = span {
                writeln!(text, "{word}\t{start:x}\t{end:x}")?;
            }
        }
        for Span { start, end } in &self.gpool {
            writeln!(text, "gpool\t{start:x}\t{end:x}")?;
        }
        Ok(())
    }

    fn write_calls(&self, text: &mut String) -> std::fmt::Result {
        let pool = &self.pool;
        let (pages, host) = (number(pool.pages), number(pool.host));
        let (kind, split) = (pool.kind, letter(pool.split, 'y', 'n'));
        let processors = pool.processors;
        writeln!(
            text,
            "pool\t{kind}\t{pages}\t{host}\t{processors:x}\t{split}"
        )?;
        for get in &self.gets {
            writeln!(text, "{}", get.text())?;
        }
        Ok(())
    }
}

impl Get {
    pub fn text(&self) -> String {
        let (node, length) = (number(self.node.map(u64::from)), self.length);
        let (policy, kind) = (letter(self.high, 'h', 'l'), self.kind);
        let alignment = number(self.alignment);
        format!("get\t{node}\t{length:x}\t{policy}\t{kind}\t{alignment}")
    }
}
