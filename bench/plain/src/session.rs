//! A script's run: what each line does to the world, and what is printed for it.

use crate::command::{self, Command};
use crate::config::Config;
use crate::link::{Direction, Lane};
use crate::memory;
use crate::node::{Arrival, Site};
use crate::transfer::Joined;
use crate::work::{Applied, Ticket};
use crate::world::{Fault, Released, World};
use std::fmt::{self, Display, Formatter};
use std::io::{self, Write};

/// A run: its world, and where its text goes.
pub struct Session<W: Write> {
    world: World,
    pub out: W,
    pub was_refused: bool,
}

/// Why a line isn't done to its end.
enum Stop {
    Refused(Fault),
    Write(io::Error),
}

impl From<Fault> for Stop {
    fn from(fault: Fault) -> Stop {
        Stop::Refused(fault)
    }
}

impl From<io::Error> for Stop {
    fn from(error: io::Error) -> Stop {
        Stop::Write(error)
    }
}

impl<W: Write> Session<W> {
    pub fn new(config: Config, out: W) -> Session<W> {
        Session { world: World::new(config), out, was_refused: false }
    }

    /// Runs a line: whether it can be read.
    pub fn run(&mut self, line: &[u8]) -> io::Result<bool> {
        let Some(command) = command::read(line, self.world.config.source) else { return Ok(false) };
        match command.map_or(Ok(()), |command| self.execute(command)) {
            Ok(()) => {}
            Err(Stop::Refused(fault)) => {
                self.was_refused = true;
                writeln!(self.out, "refused {} {fault:?}", fault as u8)?;
            }
            Err(Stop::Write(error)) => return Err(error),
        }
        Ok(true)
    }

    fn execute(&mut self, command: Command) -> Result<(), Stop> {
        let Session { world, out, .. } = self;
        let own = world.config.source;
        match command {
            Command::Open { way, name, octets } => {
                let parts = world.open(way, name, octets)?;
                writeln!(out, "opened {way} {} parts {parts}", name.shown(own))?;
            }
            Command::Load { name, count, flags, memory, areas } => {
                let parts = world.load(name, count, flags, &memory::load_body(memory, &areas))?;
                writeln!(out, "opened up {} parts {parts}", name.shown(own))?;
            }
            Command::Send { way, name, part } => {
                writeln!(out, "put {}", world.send(way, name, part)?)?
            }
            Command::Plain { source, head, body } => {
                writeln!(out, "put {}", world.plain(source, head, &body)?)?
            }
            Command::Damage { way, octets } => writeln!(out, "put {}", world.damage(way, octets)?)?,
            Command::Finish { way, name } => {
                world.finish(way, name)?;
                writeln!(out, "finished {way} {}", name.shown(own))?;
            }
            Command::Lose(number) => {
                world.lose(number)?;
                writeln!(out, "lost {number}")?;
            }
            Command::Retire { way, name } => {
                world.retire(way, name)?;
                writeln!(out, "retired {way} {}", name.shown(own))?;
            }
            Command::Tick(site, count) => writeln!(out, "clock {}", world.tick(site, count)?)?,
            Command::Expire(site) => {
                let name = world.expire(site)?;
                writeln!(out, "expired {} {}", incoming(site), name.shown(own))?;
            }
            Command::Restart(site) => writeln!(out, "restarted {site} {}", world.restart(site))?,
            Command::Take(lane, number) => self.take(lane, number)?,
            Command::Deliver(lane) => self.deliver(lane)?,
            Command::Pass(lane, number) => {
                self.take(lane, number)?;
                self.deliver(lane)?;
            }
            Command::Claim(worker) => self.claim(worker)?,
            Command::Commit(worker) => self.commit(worker)?,
            Command::Apply => self.apply()?,
            Command::Work => {
                self.claim(0)?;
                self.commit(0)?;
                self.apply()?;
            }
            show => self.show(show)?,
        }
        Ok(())
    }

    fn take(&mut self, lane: Lane, number: usize) -> Result<(), Stop> {
        self.world.take(lane, number)?;
        Ok(writeln!(self.out, "took {number}")?)
    }

    fn deliver(&mut self, lane: Lane) -> Result<(), Stop> {
        let Session { world, out, .. } = self;
        let (arrival, length) = world.deliver(lane)?;
        let (way, own) = (lane.direction(), world.config.source);
        match arrival {
            Arrival::Ignored(reason) => writeln!(out, "ignored {reason:?}")?,
            Arrival::Plain => writeln!(out, "plain {length}")?,
            Arrival::Report { service, subtype } => writeln!(out, "report {service} {subtype}")?,
            Arrival::Abort { name, reason } => writeln!(out, "abort {} {reason}", name.shown(own))?,
            Arrival::Part { name, number, joined } => {
                let name = name.shown(own);
                match joined {
                    Joined::Closed => writeln!(out, "ignored Closed")?,
                    Joined::NoRoom => writeln!(out, "ignored NoRoom")?,
                    Joined::Broken(reason) => writeln!(out, "broken {way} {name} {reason}")?,
                    Joined::Again => writeln!(out, "again {way} {name} {number}")?,
                    Joined::Kept => writeln!(out, "kept {way} {name} {number}")?,
                    Joined::Released(_) => writeln!(out, "released {way} {name} {length}")?,
                }
            }
        }
        Ok(())
    }

    fn claim(&mut self, worker: usize) -> Result<(), Stop> {
        let ticket = self.world.claim(worker)?;
        Ok(writeln!(self.out, "claimed {ticket}")?)
    }

    fn commit(&mut self, worker: usize) -> Result<(), Stop> {
        let (ticket, is_stale) = self.world.commit(worker)?;
        let became = if is_stale { "stale" } else { "committed" };
        Ok(writeln!(self.out, "{became} {ticket}")?)
    }

    fn apply(&mut self) -> Result<(), Stop> {
        match self.world.apply()? {
            Applied::Done(None) => writeln!(self.out, "applied done")?,
            Applied::Done(Some(name)) => {
                let name = name.shown(self.world.config.source);
                writeln!(self.out, "applied done down {name}")?
            }
            Applied::Failed(failure) => writeln!(self.out, "applied code {}", failure as u16)?,
            Applied::Silent => writeln!(self.out, "applied silent")?,
        }
        Ok(())
    }

    fn show(&mut self, command: Command) -> io::Result<()> {
        let Session { world, out, .. } = self;
        match command {
            Command::ShowReleased => self.show_released(),
            Command::ShowPacket(number) => {
                write!(out, "packet {number} ")?;
                write_octets(out, world.link.octets(number))
            }
            Command::ShowMemory { id, start, length } => {
                write!(out, "memory {id} {start} ")?;
                write_octets(out, world.memories.octets(id, start, length))
            }
            Command::ShowClear { way, name } => {
                writeln!(out, "clear {}", if world.is_clear(way, name) { "yes" } else { "no" })
            }
            _ => writeln!(out, "journal {}", world.events),
        }
    }

    fn show_released(&mut self) -> io::Result<()> {
        let Session { world, out, .. } = self;
        if world.released.is_empty() {
            return writeln!(out, "none");
        }
        for message in &world.released {
            match message {
                Released::Large { way, name, octets } => {
                    write!(out, "{way} {} ", name.shown(world.config.source))?;
                    write_octets(out, Some(octets))?;
                }
                Released::Plain { packet } => {
                    write!(out, "plain ")?;
                    write_octets(out, world.link.octets(*packet))?;
                }
            }
        }
        Ok(())
    }
}

/// Which way the messages go that a node receives.
fn incoming(site: Site) -> Direction {
    match site {
        Site::Ground => Direction::Down,
        Site::Craft => Direction::Up,
    }
}

/// Writes the rest of a line: octets, where there are some to show.
fn write_octets(out: &mut impl Write, octets: Option<&[u8]>) -> io::Result<()> {
    const DIGITS: &[u8; 16] = b"0123456789abcdef";
    let octets = match octets {
        None => return writeln!(out, "none"),
        Some([]) => return writeln!(out, "-"),
        Some(octets) => octets,
    };
    let mut text = [0; 1024];
    for piece in octets.chunks(text.len() / 2) {
        for (pair, octet) in text.chunks_exact_mut(2).zip(piece) {
            pair[0] = DIGITS[usize::from(octet >> 4)];
            pair[1] = DIGITS[usize::from(octet & 0x0f)];
        }
        out.write_all(&text[..2 * piece.len()])?;
    }
    writeln!(out)
}

impl Display for Direction {
    fn fmt(&self, f: &mut Formatter) -> fmt::Result {
        f.write_str(match self {
            Direction::Up => "up",
            Direction::Down => "down",
        })
    }
}

impl Display for Site {
    fn fmt(&self, f: &mut Formatter) -> fmt::Result {
        f.write_str(match self {
            Site::Ground => "ground",
            Site::Craft => "craft",
        })
    }
}

impl Display for Ticket {
    fn fmt(&self, f: &mut Formatter) -> fmt::Result {
        write!(f, "{} {}", self.boot, self.number)
    }
}
