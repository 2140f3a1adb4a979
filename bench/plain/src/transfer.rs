//! Large packet transfer: parts, what a node sends, and what it receives.

use crate::config::Config;
use crate::names::{Name, Names};
use crate::packet::{number_at, LONGEST_PACKET};
use std::collections::HashMap;

/// Why a reception was ended before its message was there.
pub const EXPIRED: u8 = 1;
pub const DISCONTINUITY: u8 = 2;
pub const CONFLICT: u8 = 3;

/// Where a part stands in its message.
#[derive(Clone, Copy, PartialEq)]
pub enum Place {
    First,
    Middle,
    Last,
}

/// A part of a message.
pub struct Part<'a> {
    pub name: Name,
    pub number: u16,
    pub place: Place,
    pub octets: &'a [u8],
}

impl<'a> Part<'a> {
    /// Reads the body of a message of this source, or to it, that carries a part.
    pub fn read(source: u16, place: Place, body: &'a [u8], part_size: usize) -> Option<Part<'a>> {
        let (head, octets) = body.split_at_checked(4)?;
        let (name, number) = (Name { source, id: number_at(head, 0) }, number_at(head, 2));
        let is_full = octets.len() == part_size;
        let fits = match place {
            Place::First => number == 1 && is_full,
            Place::Middle => number > 1 && is_full,
            Place::Last => number > 1 && (1..=part_size).contains(&octets.len()),
        };
        let part = Part { name, number, place, octets };
        (fits && part.end(part_size) <= LONGEST_PACKET).then_some(part)
    }

    /// The part of a message of this number, where it has one.
    pub fn of(octets: &'a [u8], name: Name, number: u16, part_size: usize) -> Option<Part<'a>> {
        let start = usize::from(number).checked_sub(1)? * part_size;
        let rest = octets.get(start..).filter(|rest| !rest.is_empty())?;
        let place = match number {
            1 => Place::First,
            _ if rest.len() <= part_size => Place::Last,
            _ => Place::Middle,
        };
        let octets = &rest[..rest.len().min(part_size)];
        Some(Part { name, number, place, octets })
    }

    fn index(&self) -> usize {
        usize::from(self.number) - 1
    }

    fn start(&self, part_size: usize) -> usize {
        self.index() * part_size
    }

    fn end(&self, part_size: usize) -> usize {
        self.start(part_size) + self.octets.len()
    }
}

/// The messages that a node sends.
#[derive(Default)]
pub struct Sender {
    /// The octets of those that are open.
    pub open: HashMap<Name, Vec<u8>>,
    /// The names of those that are open or were, and aren't retired.
    pub used: Names,
}

impl Sender {
    pub fn add(&mut self, name: Name, octets: Vec<u8>) {
        self.used.add(name);
        self.open.insert(name, octets);
    }
}

/// A message of which some parts came.
#[derive(Default)]
struct Reception {
    octets: Vec<u8>,
    /// Which parts are kept, from the first on.
    kept: Vec<bool>,
    count: usize,
    /// How many parts there are, once the last one came.
    parts: Option<usize>,
    /// When the latest part came.
    since: u32,
}

impl Reception {
    /// Whether a part can't be one of the message of which the others are.
    fn contradicts(&self, part: &Part, part_size: usize) -> bool {
        let number = usize::from(part.number);
        let is_last = part.place == Place::Last;
        match self.parts {
            Some(parts) if number > parts || is_last != (number == parts) => return true,
            None if is_last && number <= self.kept.len() => return true,
            _ => {}
        }
        // The last part is the last of the octets.
        let (start, end) = (part.start(part_size), part.end(part_size));
        let end = if is_last { end.max(self.octets.len()) } else { end };
        self.has(part) && self.octets.get(start..end) != Some(part.octets)
    }

    fn has(&self, part: &Part) -> bool {
        self.kept.get(part.index()) == Some(&true)
    }

    fn keep(&mut self, part: &Part, part_size: usize) {
        let (start, end) = (part.start(part_size), part.end(part_size));
        if self.octets.len() < end {
            self.octets.resize(end, 0);
        }
        self.octets[start..end].copy_from_slice(part.octets);
        if self.kept.len() <= part.index() {
            self.kept.resize(part.index() + 1, false);
        }
        self.kept[part.index()] = true;
        self.count += 1;
        if part.place == Place::Last {
            self.parts = Some(usize::from(part.number));
        }
    }
}

/// What became of a part.
pub enum Joined {
    Closed,
    NoRoom,
    Broken(u8),
    Again,
    Kept,
    Released(Vec<u8>),
}

/// The messages that a node receives.
#[derive(Default)]
pub struct Receiver {
    receptions: HashMap<Name, Reception>,
    /// The names of those whose reception has ended, and that aren't retired.
    pub closed: Names,
}

impl Receiver {
    /// Joins a part, which came at this time, to those of its message that came before.
    pub fn join(&mut self, part: &Part, config: &Config, now: u32) -> Joined {
        if self.closed.has(part.name) {
            return Joined::Closed;
        }
        let is_known = self.receptions.contains_key(&part.name);
        if !is_known && self.receptions.len() >= config.receptions {
            return Joined::NoRoom;
        }
        let reception = self.receptions.entry(part.name).or_default();
        if reception.contradicts(part, config.part_size) {
            self.end(part.name);
            return Joined::Broken(CONFLICT);
        }
        reception.since = now;
        if reception.has(part) {
            return Joined::Again;
        }
        if config.is_strict && part.index() != reception.kept.len() {
            self.end(part.name);
            return Joined::Broken(DISCONTINUITY);
        }
        reception.keep(part, config.part_size);
        if reception.parts != Some(reception.count) {
            return Joined::Kept;
        }
        Joined::Released(self.end(part.name).unwrap_or_default())
    }

    /// Ends a reception for good: the octets of its parts.
    fn end(&mut self, name: Name) -> Option<Vec<u8>> {
        self.closed.add(name);
        Some(self.receptions.remove(&name)?.octets)
    }

    /// Ends the overdue reception whose latest part came first, and says which that was.
    pub fn expire(&mut self, config: &Config, now: u32) -> Option<Name> {
        let overdue = |reception: &Reception| now - reception.since >= config.timeout;
        let all = self.receptions.iter().filter(|(_, reception)| overdue(reception));
        let (_, name) = all.map(|(&name, reception)| (reception.since, name)).min()?;
        self.end(name);
        Some(name)
    }

    pub fn is_open(&self, name: Name) -> bool {
        self.receptions.contains_key(&name)
    }

    /// Forgets the parts of all receptions.
    pub fn forget_parts(&mut self) {
        self.receptions.clear();
    }
}
