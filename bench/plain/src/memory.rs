//! The spacecraft's memories, and the requests that load, dump and check them.

use crate::packet::{checksum, number_at, Message, LONGEST_PACKET, TELEMETRY_FRAME};
use std::collections::BTreeMap;

pub const SERVICE: u8 = 6;
pub const LOAD: u8 = 2;
const DUMP: u8 = 5;
const CHECK: u8 = 9;
const DUMP_REPORT: u8 = 6;
const CHECK_REPORT: u8 = 10;

/// Why a request isn't carried out.
#[derive(Clone, Copy, PartialEq, PartialOrd)]
pub enum Failure {
    UnknownType = 1,
    Malformed,
    UnknownMemory,
    OutOfRange,
    WrongChecksum,
    ReplyTooLong,
    NoFreeName,
    TooManyOpen,
}

/// A report of data: its message subtype and its body.
pub struct Report {
    pub subtype: u8,
    pub body: Vec<u8>,
}

/// A piece of a memory that a request names; of a load with octets for it.
struct Area<'a> {
    start: usize,
    length: usize,
    octets: &'a [u8],
    is_intact: bool,
}

pub struct Memories(pub BTreeMap<u8, Vec<u8>>);

impl Memories {
    /// So many octets of a memory.
    pub fn octets(&self, id: u8, start: usize, length: usize) -> Option<&[u8]> {
        self.0.get(&id)?.get(start..start.checked_add(length)?)
    }

    /// Carries out a request. One that fails changes nothing.
    pub fn execute(&mut self, request: &Message) -> Result<Option<Report>, Failure> {
        if request.service != SERVICE || ![LOAD, DUMP, CHECK].contains(&request.subtype) {
            return Err(Failure::UnknownType);
        }
        let is_load = request.subtype == LOAD;
        let (id, areas) = areas_of(request.body, is_load).ok_or(Failure::Malformed)?;
        let memory = self.0.get_mut(&id).ok_or(Failure::UnknownMemory)?;
        for area in &areas {
            if area.start + area.length > memory.len() {
                return Err(Failure::OutOfRange);
            }
            if !area.is_intact {
                return Err(Failure::WrongChecksum);
            }
        }
        if is_load {
            for area in areas {
                memory[area.start..area.start + area.length].copy_from_slice(area.octets);
            }
            return Ok(None);
        }
        report(id, memory, &areas, request.subtype == DUMP).map(Some)
    }
}

/// The memory and the areas that the body of a request names, where it is well-formed.
fn areas_of(body: &[u8], is_load: bool) -> Option<(u8, Vec<Area<'_>>)> {
    let (&[id, count], mut rest) = body.split_first_chunk()?;
    let mut areas = Vec::with_capacity(usize::from(count));
    for _ in 0..count {
        let (head, behind) = rest.split_at_checked(6)?;
        let start = u32::from_be_bytes([head[0], head[1], head[2], head[3]]) as usize;
        let length = usize::from(number_at(head, 4));
        let (octets, behind) = behind.split_at_checked(if is_load { length } else { 0 })?;
        let (sum, behind) = behind.split_at_checked(if is_load { 2 } else { 0 })?;
        let is_intact = !is_load || checksum(octets) == number_at(sum, 0);
        areas.push(Area { start, length, octets, is_intact });
        rest = behind;
    }
    let is_whole = rest.is_empty() && count > 0 && areas.iter().all(|area| area.length > 0);
    is_whole.then_some((id, areas))
}

/// The report on areas that lie within a memory.
fn report(id: u8, memory: &[u8], areas: &[Area], is_dump: bool) -> Result<Report, Failure> {
    let told = |area: &Area| 8 + if is_dump { area.length } else { 0 };
    let length = 2 + areas.iter().map(told).sum::<usize>();
    if length + TELEMETRY_FRAME > LONGEST_PACKET {
        return Err(Failure::ReplyTooLong);
    }
    let mut body = Vec::with_capacity(length);
    body.extend([id, areas.len() as u8]);
    for area in areas {
        let octets = &memory[area.start..area.start + area.length];
        body.extend((area.start as u32).to_be_bytes());
        body.extend((area.length as u16).to_be_bytes());
        if is_dump {
            body.extend(octets);
        }
        body.extend(checksum(octets).to_be_bytes());
    }
    let subtype = if is_dump { DUMP_REPORT } else { CHECK_REPORT };
    Ok(Report { subtype, body })
}

/// The body of a load of these areas.
pub fn load_body(id: u8, areas: &[(u32, Vec<u8>)]) -> Vec<u8> {
    let mut body = vec![id, areas.len() as u8];
    for (start, octets) in areas {
        body.extend(start.to_be_bytes());
        body.extend((octets.len() as u16).to_be_bytes());
        body.extend(octets);
        body.extend(checksum(octets).to_be_bytes());
    }
    body
}
