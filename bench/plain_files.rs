//! A plain program beside `lpt join up --id 7`, `lpt list`, `lpt link` and `lpt spacecraft`, for measuring:
//! `plain_files join`, and so on. It reads packets one behind the other, whose lengths are right.

use std::io::{self, BufWriter, Read, Write};
use std::process::exit;

const SIZE: usize = 1024;

/// The checksum's register after an octet, by tables of eight octets.
fn tables() -> Vec<[u16; 256]> {
    let mut tables = vec![[0u16; 256]; 8];
    for n in 0..256 {
        let mut register = (n as u16) << 8;
        for _ in 0..8 {
            register = (register << 1) ^ if register & 0x8000 != 0 { 0x1021 } else { 0 };
        }
        tables[0][n] = register;
    }
    for k in 1..8 {
        for n in 0..256 {
            let before = tables[k - 1][n];
            tables[k][n] = (before << 8) ^ tables[0][usize::from(before >> 8)];
        }
    }
    tables
}

fn checksum(tables: &[[u16; 256]], octets: &[u8]) -> u16 {
    let mut register = 0xffffu16;
    let mut chunks = octets.chunks_exact(8);
    for chunk in &mut chunks {
        register = tables[7][usize::from((register >> 8) as u8 ^ chunk[0])]
            ^ tables[6][usize::from(register as u8 ^ chunk[1])]
            ^ tables[5][usize::from(chunk[2])]
            ^ tables[4][usize::from(chunk[3])]
            ^ tables[3][usize::from(chunk[4])]
            ^ tables[2][usize::from(chunk[5])]
            ^ tables[1][usize::from(chunk[6])]
            ^ tables[0][usize::from(chunk[7])];
    }
    for octet in chunks.remainder() {
        register = (register << 8) ^ tables[0][usize::from((register >> 8) as u8 ^ octet)];
    }
    register
}

fn word(octets: &[u8], at: usize) -> u16 {
    u16::from_be_bytes([octets[at], octets[at + 1]])
}

fn is_packet(tables: &[[u16; 256]], b: &[u8]) -> bool {
    b.len() >= 8
        && word(b, 0) >> 13 == 0
        && word(b, 2) >> 14 == 3
        && word(b, 0) >> 11 & 1 == 1
        && checksum(tables, &b[..b.len() - 2]) == word(b, b.len() - 2)
}

/// Calls `take` with the place and the octets of each packet of the standard input.
fn packets(mut take: impl FnMut(u64, &[u8])) {
    let mut input = io::stdin().lock();
    let mut held = Vec::new();
    let mut chunk = vec![0; 65_536];
    let (mut start, mut place) = (0, 0);
    loop {
        while held.len() - start >= 6 {
            let length = 7 + usize::from(word(&held, start + 4));
            if held.len() - start < length {
                break;
            }
            take(place, &held[start..start + length]);
            start += length;
            place += length as u64;
        }
        held.drain(..start);
        start = 0;
        match input.read(&mut chunk) {
            Ok(0) => return,
            Ok(count) => held.extend_from_slice(&chunk[..count]),
            Err(_) => exit(3),
        }
    }
}

fn join(tables: &[[u16; 256]], out: &mut impl Write) {
    let mut parts: Vec<Option<Vec<u8>>> = Vec::new();
    let mut last = 0;
    packets(|_, b| {
        if !is_packet(tables, b) || word(b, 0) & 0x7ff != 100 || b[7] != 13 || word(b, 11) != 7 {
            return;
        }
        let number = usize::from(word(b, 13));
        let octets = &b[15..b.len() - 2];
        if b[8] == 11 {
            last = number;
        }
        if parts.len() < number + 1 {
            parts.resize(number + 1, None);
        }
        match &parts[number] {
            None => parts[number] = Some(octets.to_vec()),
            Some(kept) if kept == octets => {}
            Some(_) => exit(1),
        }
    });
    for number in 1..=last {
        match &parts[number] {
            Some(octets) => out.write_all(octets).unwrap(),
            None => exit(1),
        }
    }
}

fn list(tables: &[[u16; 256]], out: &mut impl Write) {
    packets(|place, b| {
        let length = b.len();
        if !is_packet(tables, b) {
            writeln!(out, "{place} length {length} fault 6 Checksum").unwrap();
            return;
        }
        let (apid, count) = (word(b, 0) & 0x7ff, word(b, 2) & 0x3fff);
        let (flags, service, subtype) = (b[6] & 15, b[7], b[8]);
        let source = word(b, 9);
        write!(out, "{place} length {length} tc apid {apid} count {count} flags {flags}").unwrap();
        write!(out, " service {service} subtype {subtype} source {source}").unwrap();
        if service == 13 && (9..=11).contains(&subtype) && length > 17 && length <= 17 + SIZE {
            let kind = ["first", "middle", "last"][usize::from(subtype - 9)];
            let (id, number, octets) = (word(b, 11), word(b, 13), length - 17);
            write!(out, " part {kind} id {id} number {number} octets {octets}").unwrap();
        }
        out.write_all(b"\n").unwrap();
    });
}

/// Loads the messages into a memory: a load is a packet whose parts come in their order.
fn spacecraft(tables: &[[u16; 256]]) {
    let mut memory = vec![0; 65_536];
    let mut message: Vec<u8> = Vec::new();
    packets(|_, b| {
        if !is_packet(tables, b) || word(b, 0) & 0x7ff != 100 || b[7] != 13 {
            return;
        }
        message.extend_from_slice(&b[15..b.len() - 2]);
        if b[8] != 11 {
            return;
        }
        let m = std::mem::take(&mut message);
        let count = usize::from(word(&m, 17));
        let octets = &m[19..19 + count];
        if is_packet(tables, &m) && checksum(tables, octets) == word(&m, 19 + count) {
            let at = usize::from(word(&m, 15));
            memory[at..at + count].copy_from_slice(octets);
        }
    });
    std::hint::black_box(memory);
}

fn main() {
    let tables = tables();
    let mut out = BufWriter::new(io::stdout().lock());
    match std::env::args().nth(1).as_deref() {
        Some("join") => join(&tables, &mut out),
        Some("list") => list(&tables, &mut out),
        Some("link") => packets(|_, b| out.write_all(b).unwrap()),
        Some("spacecraft") => spacecraft(&tables),
        _ => exit(2),
    }
    out.flush().unwrap();
}
