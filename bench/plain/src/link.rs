//! The link: packets on their way, and the lanes that carry them.

use crate::names::Name;
use crate::world::Fault;
use std::collections::HashMap;

#[derive(Clone, Copy, PartialEq)]
pub enum Direction {
    Up,
    Down,
}

#[derive(Clone, Copy)]
pub enum Lane {
    S1,
    S2,
    G1,
    G2,
}

impl Lane {
    pub fn direction(self) -> Direction {
        match self {
            Lane::S1 | Lane::S2 => Direction::Up,
            Lane::G1 | Lane::G2 => Direction::Down,
        }
    }
}

struct Packet {
    octets: Vec<u8>,
    direction: Direction,
    /// The message of which it carries a part.
    part_of: Option<Name>,
    is_held: bool,
}

#[derive(Default)]
pub struct Link {
    /// All packets that were ever put, by their numbers.
    packets: Vec<Packet>,
    /// How many held packets carry a part of each message, by direction.
    parts: [HashMap<Name, usize>; 2],
    hands: [Option<usize>; 4],
}

impl Link {
    /// Puts a packet: its number.
    pub fn put(&mut self, octets: Vec<u8>, direction: Direction, part_of: Option<Name>) -> usize {
        if let Some(name) = part_of {
            *self.parts[direction as usize].entry(name).or_default() += 1;
        }
        self.packets.push(Packet { octets, direction, part_of, is_held: true });
        self.packets.len() - 1
    }

    /// The octets of a packet, held or not.
    pub fn octets(&self, number: usize) -> Option<&[u8]> {
        Some(&self.packets.get(number)?.octets)
    }

    pub fn lose(&mut self, number: usize) -> Result<(), Fault> {
        let packet = self.packets.get_mut(number).filter(|packet| packet.is_held);
        let packet = packet.ok_or(Fault::NotHeld)?;
        packet.is_held = false;
        if let Some(name) = packet.part_of {
            let parts = &mut self.parts[packet.direction as usize];
            match parts.get_mut(&name) {
                Some(count) if *count > 1 => *count -= 1,
                _ => drop(parts.remove(&name)),
            }
        }
        Ok(())
    }

    /// Takes a held packet into a lane's hand.
    pub fn take(&mut self, lane: Lane, number: usize) -> Result<(), Fault> {
        let hand = &mut self.hands[lane as usize];
        if hand.is_some() {
            return Err(Fault::HandFull);
        }
        match self.packets.get(number) {
            Some(packet) if packet.is_held && packet.direction == lane.direction() => {
                *hand = Some(number);
                Ok(())
            }
            _ => Err(Fault::NotHeld),
        }
    }

    /// Takes what is in a lane's hand out of it: the packet's number.
    pub fn let_go(&mut self, lane: Lane) -> Result<usize, Fault> {
        self.hands[lane as usize].take().ok_or(Fault::HandEmpty)
    }

    /// Whether a part of a message is held, or in a hand.
    pub fn has_part_of(&self, direction: Direction, name: Name) -> bool {
        let is_part = |&number: &usize| {
            let packet = &self.packets[number];
            packet.direction == direction && packet.part_of == Some(name)
        };
        self.parts[direction as usize].contains_key(&name)
            || self.hands.iter().flatten().any(is_part)
    }
}
