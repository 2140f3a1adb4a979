//! Jobs: the workers who read them, and the reports on those that are executed.

use crate::link::Direction;
use crate::memory::{self, Failure, Report};
use crate::names::Name;
use crate::packet::{self, Content, Message, TELEMETRY_FRAME};
use crate::world::{Fault, Released, World, LINK_FRAME};
use std::collections::VecDeque;

const VERIFICATION: u8 = 1;
const ACCEPTANCE: u8 = 1;
const START: u8 = 3;
const COMPLETION: u8 = 7;

/// A job's name: the boot of the spacecraft in which it was released, and its number there.
#[derive(Clone, Copy)]
pub struct Ticket {
    pub boot: u64,
    pub number: u64,
}

struct Job {
    /// Its message's place among those released.
    message: usize,
    is_ready: bool,
}

/// The jobs that aren't executed, in order of release.
#[derive(Default)]
pub struct Jobs {
    queue: VecDeque<Job>,
    /// The number of the oldest one.
    first: u64,
    /// How many of them, from the oldest on, were claimed.
    claimed: usize,
}

impl Jobs {
    pub fn add(&mut self, message: usize) {
        self.queue.push_back(Job { message, is_ready: false });
    }
}

/// What became of a request that was executed.
pub enum Applied {
    /// It was carried out; its report was opened as this message.
    Done(Option<Name>),
    Failed(Failure),
    Silent,
}

impl World {
    /// Gives a worker the oldest job that no worker has claimed.
    pub fn claim(&mut self, worker: usize) -> Result<Ticket, Fault> {
        if self.workers[worker].is_some() {
            return Err(Fault::HandFull);
        }
        if self.jobs.claimed == self.jobs.queue.len() {
            return Err(Fault::NoJob);
        }
        let number = self.jobs.first + self.jobs.claimed as u64;
        let ticket = Ticket { boot: self.craft.boot, number };
        self.jobs.claimed += 1;
        self.workers[worker] = Some(ticket);
        self.done(ticket)
    }

    /// Hands in a worker's reading: of which job, and whether that is gone.
    pub fn commit(&mut self, worker: usize) -> Result<(Ticket, bool), Fault> {
        let ticket = self.workers[worker].take().ok_or(Fault::HandEmpty)?;
        let is_stale = ticket.boot != self.craft.boot;
        if !is_stale {
            let place = (ticket.number - self.jobs.first) as usize;
            self.jobs.queue[place].is_ready = true;
        }
        self.done((ticket, is_stale))
    }

    /// Executes the oldest job.
    pub fn apply(&mut self) -> Result<Applied, Fault> {
        let job = self.jobs.queue.front().ok_or(Fault::NoJob)?;
        if !job.is_ready {
            return Err(Fault::NotReady);
        }
        let octets = match &self.released[job.message] {
            Released::Large { octets, .. } => octets,
            Released::Plain { packet } => self.link.octets(*packet).unwrap_or_default(),
        };
        let applied = match telecommand_of(octets, self.config.apid) {
            None => Applied::Silent,
            Some(request) => {
                let id = [octets[0], octets[1], octets[2], octets[3]];
                let (peer, flags) = (request.peer, request.flags);
                let result = self.memories.execute(&request);
                self.answer(peer, id, flags, result)
            }
        };
        self.jobs.queue.pop_front();
        self.jobs.first += 1;
        self.jobs.claimed -= 1;
        self.done(applied)
    }

    /// Makes the reports on a request of this source, with this ID and these flags.
    fn answer(
        &mut self,
        peer: u16,
        id: [u8; 4],
        flags: u8,
        result: Result<Option<Report>, Failure>,
    ) -> Applied {
        let result = result.and_then(|report| Ok((self.name_for(peer, report.as_ref())?, report)));
        let is_accepted = !matches!(result, Err(Failure::UnknownType | Failure::Malformed));
        if is_accepted && flags & 1 != 0 {
            self.report(peer, (VERIFICATION, ACCEPTANCE), &[&id]);
        }
        let (name, report) = match result {
            Ok(done) => done,
            Err(failure) => {
                let failed = 1 + if is_accepted { START } else { ACCEPTANCE };
                let code = (failure as u16).to_be_bytes();
                self.report(peer, (VERIFICATION, failed), &[&id, &code]);
                return Applied::Failed(failure);
            }
        };
        if flags & 2 != 0 {
            self.report(peer, (VERIFICATION, START), &[&id]);
        }
        if let Some(Report { subtype, body }) = report {
            let kind = (memory::SERVICE, subtype);
            let octets = self.craft.report(&self.config, peer, kind, &[&body]);
            match name {
                Some(name) => self.craft.sender.add(name, octets),
                None => drop(self.link.put(octets, Direction::Down, None)),
            }
        }
        if flags & 8 != 0 {
            self.report(peer, (VERIFICATION, COMPLETION), &[&id]);
        }
        Applied::Done(name)
    }

    /// Under which name of a source a report to it is opened, where it is too long for a packet on
    /// the link.
    fn name_for(&mut self, peer: u16, report: Option<&Report>) -> Result<Option<Name>, Failure> {
        let longest = self.config.part_size + LINK_FRAME;
        match report {
            Some(report) if report.body.len() + TELEMETRY_FRAME > longest => {}
            _ => return Ok(None),
        }
        let sender = &mut self.craft.sender;
        let name = sender.used.least_free(peer).ok_or(Failure::NoFreeName)?;
        if sender.open.len() >= self.config.outgoing {
            return Err(Failure::TooManyOpen);
        }
        Ok(Some(name))
    }
}

/// The telecommand of this APID that octets are, if they are one.
fn telecommand_of(octets: &[u8], apid: u16) -> Option<Message<'_>> {
    match packet::read(octets) {
        Content::Packet(packet) if packet.apid == apid => packet.message(true),
        _ => None,
    }
}
