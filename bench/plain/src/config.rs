//! The configuration, and as much of TOML as it needs.

use std::collections::BTreeMap;

pub const LONGEST_CONFIG: usize = 1_048_576;

/// What a world is made with.
pub struct Config {
    pub apid: u16,
    pub source: u16,
    pub part_size: usize,
    pub timeout: u32,
    pub receptions: usize,
    pub outgoing: usize,
    pub clock: u32,
    pub is_strict: bool,
    pub memories: BTreeMap<u8, Vec<u8>>,
}

impl Default for Config {
    fn default() -> Self {
        Config {
            apid: 100,
            source: 1,
            part_size: 8,
            timeout: 10,
            receptions: 8,
            outgoing: 8,
            clock: 0,
            is_strict: false,
            memories: BTreeMap::from([(1, vec![0; 256])]),
        }
    }
}

enum Value<'a> {
    Number(u64),
    Text(&'a str),
    Tables(Vec<Table<'a>>),
}

type Table<'a> = Vec<(&'a str, Value<'a>)>;

impl Config {
    /// Reads a configuration: whole numbers, strings, inline tables in an array, and `[[memory]]`.
    /// Other forms that TOML has are refused.
    pub fn read(text: &str) -> Option<Config> {
        let is_control = |c: char| c.is_ascii_control() && c != '\t' && c != '\n';
        if text.replace("\r\n", "\n").contains(is_control) {
            return None;
        }
        let mut config = Config::default();
        let mut memories = None;
        for (key, value) in (Reader { rest: text }).document()? {
            match (key, value) {
                ("apid", Value::Number(n @ 0..=2046)) => config.apid = n as u16,
                ("source", Value::Number(n @ 0..=0xffff)) => config.source = n as u16,
                ("part_size", Value::Number(n @ 4..=1024)) => config.part_size = n as usize,
                ("timeout", Value::Number(n @ 1..=65_535)) => config.timeout = n as u32,
                ("receptions", Value::Number(n @ 1..=64)) => config.receptions = n as usize,
                ("outgoing", Value::Number(n @ 1..=64)) => config.outgoing = n as usize,
                ("clock", Value::Number(n @ 0..=0xffff_ffff)) => config.clock = n as u32,
                ("mode", Value::Text(word @ ("any" | "strict"))) => {
                    config.is_strict = word == "strict";
                }
                // These are of runs of threads, which this program hasn't.
                ("per_seat", Value::Number(1..=1_000_000)) => {}
                ("ticks", Value::Number(0..=65_535)) => {}
                ("memory", Value::Tables(tables)) => memories = Some(read_memories(tables)?),
                _ => return None,
            }
        }
        config.memories = memories.unwrap_or(config.memories);
        Some(config)
    }
}

fn read_memories(tables: Vec<Table>) -> Option<BTreeMap<u8, Vec<u8>>> {
    if !(1..=16).contains(&tables.len()) {
        return None;
    }
    let mut memories = BTreeMap::new();
    for table in tables {
        let (mut id, mut size, mut fill) = (None, None, 0);
        for (key, value) in table {
            match (key, value) {
                ("id", Value::Number(n @ 0..=255)) => id = Some(n as u8),
                ("size", Value::Number(n @ 1..=1_048_576)) => size = Some(n as usize),
                ("fill", Value::Number(n @ 0..=255)) => fill = n as u8,
                _ => return None,
            }
        }
        if memories.insert(id?, vec![fill; size?]).is_some() {
            return None;
        }
    }
    Some(memories)
}

/// What is left of a text.
struct Reader<'a> {
    rest: &'a str,
}

impl<'a> Reader<'a> {
    /// Leaves out blanks and, between lines, line feeds and comments.
    fn skip(&mut self, between_lines: bool) {
        loop {
            self.rest = self.rest.trim_start_matches([' ', '\t']);
            if self.rest.starts_with('#') && between_lines {
                self.rest = &self.rest[self.rest.find('\n').unwrap_or(self.rest.len())..];
            }
            match self.rest.strip_prefix('\n').or(self.rest.strip_prefix("\r\n")) {
                Some(rest) if between_lines => self.rest = rest,
                _ => return,
            }
        }
    }

    fn takes(&mut self, token: &str) -> bool {
        let rest = self.rest.strip_prefix(token);
        self.rest = rest.unwrap_or(self.rest);
        rest.is_some()
    }

    fn word(&mut self) -> Option<&'a str> {
        let other = |c: char| !c.is_ascii_alphanumeric() && c != '_';
        let (word, rest) = self.rest.split_at(self.rest.find(other).unwrap_or(self.rest.len()));
        self.rest = rest;
        (!word.is_empty()).then_some(word)
    }

    /// All lines: the tables that begin with `[[memory]]` are one more key's value.
    fn document(&mut self) -> Option<Table<'a>> {
        let (mut top, mut memories): (Table, Vec<Table>) = (Vec::new(), Vec::new());
        loop {
            self.skip(true);
            if self.rest.is_empty() {
                break;
            }
            if self.takes("[[") {
                if self.word()? != "memory" || !self.takes("]]") {
                    return None;
                }
                memories.push(Table::new());
            } else {
                let table = memories.last_mut().unwrap_or(&mut top);
                self.pair(table)?;
            }
            self.skip(false);
            if !self.rest.is_empty() && !self.rest.starts_with(['#', '\n', '\r']) {
                return None;
            }
        }
        if !memories.is_empty() {
            put(&mut top, "memory", Value::Tables(memories))?;
        }
        Some(top)
    }

    fn pair(&mut self, table: &mut Table<'a>) -> Option<()> {
        let key = self.word()?;
        self.skip(false);
        if !self.takes("=") {
            return None;
        }
        self.skip(false);
        let value = self.value()?;
        put(table, key, value)
    }

    fn value(&mut self) -> Option<Value<'a>> {
        if self.takes("\"") {
            let (text, rest) = self.rest.split_once('"')?;
            self.rest = rest;
            return Some(Value::Text(text));
        }
        if self.takes("[") {
            return self.tables();
        }
        let word = self.word()?;
        match word.strip_prefix("0x") {
            Some(digits) => u64::from_str_radix(digits, 16).ok().map(Value::Number),
            None if word.len() > 1 && word.starts_with('0') => None,
            None => word.parse().ok().map(Value::Number),
        }
    }

    fn tables(&mut self) -> Option<Value<'a>> {
        let mut tables = Vec::new();
        loop {
            self.skip(true);
            if self.takes("]") {
                return Some(Value::Tables(tables));
            }
            if !self.takes("{") {
                return None;
            }
            let mut table = Table::new();
            loop {
                self.skip(false);
                self.pair(&mut table)?;
                self.skip(false);
                if !self.takes(",") {
                    break;
                }
            }
            if !self.takes("}") {
                return None;
            }
            tables.push(table);
            self.skip(true);
            if !self.takes(",") && !self.rest.starts_with(']') {
                return None;
            }
        }
    }
}

/// Puts a value under a key that hasn't one.
fn put<'a>(table: &mut Table<'a>, key: &'a str, value: Value<'a>) -> Option<()> {
    let is_new = table.iter().all(|(other, _)| *other != key);
    table.push((key, value));
    is_new.then_some(())
}
