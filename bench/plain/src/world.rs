//! The world: two nodes, the link between them, the memories of the spacecraft, and its workers.

use crate::config::Config;
use crate::link::{Direction, Lane, Link};
use crate::memory::{self, Memories};
use crate::names::Name;
use crate::node::{Arrival, Node, Site, ABORTED, TRANSFER, UPLINK_PARTS};
use crate::packet::{self, Content, Headers, LONGEST_PACKET, TELECOMMAND_FRAME};
use crate::transfer::{Joined, EXPIRED};
use crate::work::{Jobs, Ticket};

/// How many octets the longest packet on the link has beside a part's.
pub const LINK_FRAME: usize = 23;

/// Why an event is refused.
#[derive(Clone, Copy, Debug)]
pub enum Fault {
    InUse = 41,
    Short,
    Long,
    TooMany,
    NotOpen,
    NoSuchPart,
    NotHeld,
    HandFull,
    HandEmpty,
    NothingDue,
    NoJob,
    NotReady,
    NotClear,
    LooksWhole,
    StillOpen,
    ClockEnd,
    PartRequest = 60,
}

/// A message that was released: one of parts, or a plain request, by its packet's number.
pub enum Released {
    Large { way: Direction, name: Name, octets: Vec<u8> },
    Plain { packet: usize },
}

pub struct World {
    pub config: Config,
    pub ground: Node,
    pub craft: Node,
    pub link: Link,
    pub memories: Memories,
    pub jobs: Jobs,
    pub workers: [Option<Ticket>; 2],
    pub released: Vec<Released>,
    /// How many events have happened.
    pub events: u64,
}

impl World {
    pub fn new(mut config: Config) -> World {
        let memories = Memories(std::mem::take(&mut config.memories));
        World {
            ground: Node::starting_at(config.clock),
            craft: Node::starting_at(config.clock),
            link: Link::default(),
            memories,
            jobs: Jobs::default(),
            workers: [None; 2],
            released: Vec::new(),
            events: 0,
            config,
        }
    }

    /// Counts an event that has happened.
    pub fn done<T>(&mut self, value: T) -> Result<T, Fault> {
        self.events += 1;
        Ok(value)
    }

    fn node(&mut self, site: Site) -> &mut Node {
        match site {
            Site::Ground => &mut self.ground,
            Site::Craft => &mut self.craft,
        }
    }

    /// The sending and the receiving node.
    fn ends(&mut self, way: Direction) -> (&mut Node, &mut Node) {
        match way {
            Direction::Up => (&mut self.ground, &mut self.craft),
            Direction::Down => (&mut self.craft, &mut self.ground),
        }
    }

    // ---- Messages

    /// Hands a message to its sender: how many parts it has.
    pub fn open(&mut self, way: Direction, name: Name, octets: Vec<u8>) -> Result<usize, Fault> {
        let (part_size, most) = (self.config.part_size, self.config.outgoing);
        let sender = &mut self.ends(way).0.sender;
        if sender.used.has(name) {
            return Err(Fault::InUse);
        }
        if octets.len() <= part_size {
            return Err(Fault::Short);
        }
        if octets.len() > LONGEST_PACKET {
            return Err(Fault::Long);
        }
        if sender.open.len() >= most {
            return Err(Fault::TooMany);
        }
        let parts = octets.len().div_ceil(part_size);
        sender.add(name, octets);
        self.done(parts)
    }

    /// Hands the packet of a load to its sender.
    pub fn load(&mut self, name: Name, count: u16, flags: u8, body: &[u8]) -> Result<usize, Fault> {
        let apid = self.config.apid;
        let headers = Headers { apid, count, service: memory::SERVICE, subtype: memory::LOAD };
        let octets = packet::telecommand(&headers, flags, name.source, &[body]);
        self.open(Direction::Up, name, octets)
    }

    /// Puts a part of an open message on the link: the packet's number.
    pub fn send(&mut self, way: Direction, name: Name, number: u16) -> Result<usize, Fault> {
        let node = match way {
            Direction::Up => &mut self.ground,
            Direction::Down => &mut self.craft,
        };
        let octets = node.part(&self.config, way, name, number)?;
        let packet = self.link.put(octets, way, Some(name));
        self.done(packet)
    }

    /// Closes the sender of an open message.
    pub fn finish(&mut self, way: Direction, name: Name) -> Result<(), Fault> {
        self.ends(way).0.sender.open.remove(&name).ok_or(Fault::NotOpen)?;
        self.done(())
    }

    /// Frees the name of a closed message at both ends.
    pub fn retire(&mut self, way: Direction, name: Name) -> Result<(), Fault> {
        let sender = &self.ends(way).0.sender;
        if !sender.used.has(name) {
            return Err(Fault::NotOpen);
        }
        if sender.open.contains_key(&name) {
            return Err(Fault::StillOpen);
        }
        if !self.is_clear(way, name) {
            return Err(Fault::NotClear);
        }
        let (from, to) = self.ends(way);
        from.sender.used.remove(name);
        to.receiver.closed.remove(name);
        self.done(())
    }

    /// Whether nothing is left of a message.
    pub fn is_clear(&mut self, way: Direction, name: Name) -> bool {
        let is_on_its_way = self.link.has_part_of(way, name);
        let (from, to) = self.ends(way);
        !is_on_its_way && !from.sender.open.contains_key(&name) && !to.receiver.is_open(name)
    }

    // ---- The link

    /// Puts a request of this source that carries no part on the link: the packet's number.
    pub fn plain(&mut self, source: u16, head: (u8, u8, u8), body: &[u8]) -> Result<usize, Fault> {
        let (_, service, subtype) = head;
        if service == TRANSFER && UPLINK_PARTS.contains(&subtype) {
            return Err(Fault::PartRequest);
        }
        if body.len() + TELECOMMAND_FRAME > self.config.part_size + LINK_FRAME {
            return Err(Fault::Long);
        }
        let octets = self.ground.command(&self.config, source, head, &[body]);
        let packet = self.link.put(octets, Direction::Up, None);
        self.done(packet)
    }

    /// Puts octets that are no packet on the link: their number.
    pub fn damage(&mut self, way: Direction, octets: Vec<u8>) -> Result<usize, Fault> {
        if octets.len() > self.config.part_size + LINK_FRAME {
            return Err(Fault::Long);
        }
        if !matches!(packet::read(&octets), Content::Noise) {
            return Err(Fault::LooksWhole);
        }
        let packet = self.link.put(octets, way, None);
        self.done(packet)
    }

    pub fn lose(&mut self, number: usize) -> Result<(), Fault> {
        self.link.lose(number)?;
        self.done(())
    }

    pub fn take(&mut self, lane: Lane, number: usize) -> Result<(), Fault> {
        self.link.take(lane, number)?;
        self.done(())
    }

    /// Gives what is in a lane's hand to the node at its end: what became of it, and how long what
    /// was released by it is.
    pub fn deliver(&mut self, lane: Lane) -> Result<(Arrival, usize), Fault> {
        let number = self.link.let_go(lane)?;
        let way = lane.direction();
        let octets = self.link.octets(number).unwrap_or_default();
        let node = match way {
            Direction::Up => &mut self.craft,
            Direction::Down => &mut self.ground,
        };
        let mut length = octets.len();
        let mut arrival = node.receive(&self.config, way, octets);
        match &mut arrival {
            Arrival::Plain => self.release(Released::Plain { packet: number }),
            Arrival::Abort { name, .. } => drop(self.ground.sender.open.remove(name)),
            Arrival::Part { name, joined: Joined::Released(octets), .. } => {
                let octets = std::mem::take(octets);
                length = octets.len();
                self.release(Released::Large { way, name: *name, octets });
            }
            Arrival::Part { name, joined: Joined::Broken(reason), .. } if way == Direction::Up => {
                self.report_abortion(*name, *reason);
            }
            _ => {}
        }
        self.done((arrival, length))
    }

    /// Notes a message as released. One that came up is a job.
    fn release(&mut self, released: Released) {
        if !matches!(released, Released::Large { way: Direction::Down, .. }) {
            self.jobs.add(self.released.len());
        }
        self.released.push(released);
    }

    /// Puts a report of the spacecraft to this source on the link.
    pub fn report(&mut self, peer: u16, kind: (u8, u8), body: &[&[u8]]) {
        let octets = self.craft.report(&self.config, peer, kind, body);
        self.link.put(octets, Direction::Down, None);
    }

    fn report_abortion(&mut self, name: Name, reason: u8) {
        self.report(name.source, (TRANSFER, ABORTED), &[&name.id.to_be_bytes(), &[reason]]);
    }

    // ---- Nodes

    /// So many ticks of a node's clock, up to the last that there is: its value then.
    pub fn tick(&mut self, site: Site, count: u32) -> Result<u32, Fault> {
        let node = self.node(site);
        let ticks = count.min(u32::MAX - node.clock);
        node.clock += ticks;
        let clock = node.clock;
        self.events += u64::from(ticks);
        if ticks == count {
            Ok(clock)
        } else {
            Err(Fault::ClockEnd)
        }
    }

    /// Ends a node's overdue reception whose last part came first: of which message.
    pub fn expire(&mut self, site: Site) -> Result<Name, Fault> {
        let node = match site {
            Site::Ground => &mut self.ground,
            Site::Craft => &mut self.craft,
        };
        let name = node.receiver.expire(&self.config, node.clock).ok_or(Fault::NothingDue)?;
        if site == Site::Craft {
            self.report_abortion(name, EXPIRED);
        }
        self.done(name)
    }

    /// Restarts a node: which boot it has now.
    pub fn restart(&mut self, site: Site) -> u64 {
        if site == Site::Craft {
            self.jobs = Jobs::default();
        }
        self.events += 1;
        self.node(site).restart()
    }
}
