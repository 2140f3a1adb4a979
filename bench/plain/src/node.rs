//! A node: what it makes, and what it does with what arrives.

use crate::config::Config;
use crate::link::Direction;
use crate::names::Name;
use crate::packet::{self, Content, Headers, Message};
use crate::transfer::{Joined, Part, Place, Receiver, Sender};
use crate::world::Fault;
use std::collections::BTreeMap;

pub const TRANSFER: u8 = 13;
pub const ABORTED: u8 = 16;
/// The subtypes of telecommands that carry a part.
pub const UPLINK_PARTS: std::ops::RangeInclusive<u8> = 9..=11;

#[derive(Clone, Copy, PartialEq)]
pub enum Site {
    Ground,
    Craft,
}

/// Why a packet is ignored whose part, if it has one, isn't looked at.
#[derive(Clone, Copy, Debug)]
pub enum Reason {
    Unreadable,
    Idle,
    ForeignApid,
    BadPart,
}

/// What became of a packet that was delivered.
pub enum Arrival {
    Ignored(Reason),
    Plain,
    Report { service: u8, subtype: u8 },
    Abort { name: Name, reason: u8 },
    Part { name: Name, number: u16, joined: Joined },
}

/// The counts of the packets that a node makes.
#[derive(Default)]
struct Counts {
    packets: u16,
    reports: BTreeMap<(u8, u8), u16>,
}

impl Counts {
    fn next(&mut self, config: &Config, service: u8, subtype: u8) -> Headers {
        let count = self.packets;
        self.packets = (count + 1) % 0x4000;
        Headers { apid: config.apid, count, service, subtype }
    }

    fn command(
        &mut self,
        config: &Config,
        source: u16,
        head: (u8, u8, u8),
        body: &[&[u8]],
    ) -> Vec<u8> {
        let (flags, service, subtype) = head;
        let headers = self.next(config, service, subtype);
        packet::telecommand(&headers, flags, source, body)
    }

    fn report(
        &mut self,
        config: &Config,
        destination: u16,
        kind: (u8, u8),
        time: u32,
        body: &[&[u8]],
    ) -> Vec<u8> {
        let headers = self.next(config, kind.0, kind.1);
        let next = self.reports.entry(kind).or_default();
        let counter = *next;
        *next = next.wrapping_add(1);
        packet::telemetry(&headers, counter, destination, time, body)
    }
}

#[derive(Default)]
pub struct Node {
    pub sender: Sender,
    pub receiver: Receiver,
    pub clock: u32,
    pub boot: u64,
    counts: Counts,
}

impl Node {
    pub fn starting_at(clock: u32) -> Node {
        Node { clock, ..Node::default() }
    }

    /// Makes a telecommand of this source, and of these flags, service and message subtype.
    pub fn command(
        &mut self,
        config: &Config,
        source: u16,
        head: (u8, u8, u8),
        body: &[&[u8]],
    ) -> Vec<u8> {
        self.counts.command(config, source, head, body)
    }

    /// Makes telemetry to this destination.
    pub fn report(
        &mut self,
        config: &Config,
        destination: u16,
        kind: (u8, u8),
        body: &[&[u8]],
    ) -> Vec<u8> {
        self.counts.report(config, destination, kind, self.clock, body)
    }

    /// Makes the packet of a part of an open message.
    pub fn part(
        &mut self,
        config: &Config,
        way: Direction,
        name: Name,
        number: u16,
    ) -> Result<Vec<u8>, Fault> {
        let message = self.sender.open.get(&name).ok_or(Fault::NotOpen)?;
        let part = Part::of(message, name, number, config.part_size).ok_or(Fault::NoSuchPart)?;
        let (id, number) = (name.id.to_be_bytes(), number.to_be_bytes());
        let body: [&[u8]; 3] = [&id, &number, part.octets];
        let subtype = first_subtype(way) + part.place as u8;
        let (peer, kind, time) = (name.source, (TRANSFER, subtype), self.clock);
        Ok(match way {
            Direction::Up => self.counts.command(config, peer, (0, TRANSFER, subtype), &body),
            Direction::Down => self.counts.report(config, peer, kind, time, &body),
        })
    }

    /// What the node at the end of this way does with what arrives.
    pub fn receive(&mut self, config: &Config, way: Direction, octets: &[u8]) -> Arrival {
        let packet = match packet::read(octets) {
            Content::Noise => return Arrival::Ignored(Reason::Unreadable),
            Content::Idle => return Arrival::Ignored(Reason::Idle),
            Content::Packet(packet) => packet,
        };
        if packet.apid != config.apid {
            return Arrival::Ignored(Reason::ForeignApid);
        }
        let Some(message) = packet.message(way == Direction::Up) else {
            return Arrival::Ignored(Reason::Unreadable);
        };
        let Some(place) = place_of(&message, way) else {
            return other(&message, way);
        };
        let Some(part) = Part::read(message.peer, place, message.body, config.part_size) else {
            return Arrival::Ignored(Reason::BadPart);
        };
        let joined = self.receiver.join(&part, config, self.clock);
        Arrival::Part { name: part.name, number: part.number, joined }
    }

    /// Starts anew: which boot it has now.
    pub fn restart(&mut self) -> u64 {
        self.sender.open.clear();
        self.receiver.forget_parts();
        self.counts = Counts::default();
        self.boot += 1;
        self.boot
    }
}

/// The message subtype of first parts, which those of middle and last ones follow.
fn first_subtype(way: Direction) -> u8 {
    match way {
        Direction::Up => 9,
        Direction::Down => 1,
    }
}

/// Which part of its message a message carries, by its type, if it carries one.
fn place_of(message: &Message, way: Direction) -> Option<Place> {
    let places = [Place::First, Place::Middle, Place::Last];
    let place = usize::from(message.subtype.checked_sub(first_subtype(way))?);
    places.get(place).copied().filter(|_| message.service == TRANSFER)
}

/// What a message is that carries no part.
fn other(message: &Message, way: Direction) -> Arrival {
    let Message { peer, service, subtype, .. } = *message;
    if way == Direction::Up {
        return Arrival::Plain;
    }
    if (service, subtype) != (TRANSFER, ABORTED) {
        return Arrival::Report { service, subtype };
    }
    match *message.body {
        [high, low, reason @ 1..=3] => {
            let name = Name { source: peer, id: u16::from_be_bytes([high, low]) };
            Arrival::Abort { name, reason }
        }
        _ => Arrival::Ignored(Reason::BadPart),
    }
}
