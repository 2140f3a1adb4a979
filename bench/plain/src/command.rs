//! The lines of a script, as commands.

use crate::link::{Direction, Lane};
use crate::names::Name;
use crate::node::Site;
use crate::packet::LONGEST_PACKET;

const NO_DIGIT: u8 = 0xff;
const DIGITS: [u8; 256] = digit_table();

/// The value of each character that is a hexadecimal digit.
const fn digit_table() -> [u8; 256] {
    let mut table = [NO_DIGIT; 256];
    let mut value = 0;
    while value < 16 {
        let digit = b"0123456789abcdef"[value as usize];
        table[digit as usize] = value;
        table[digit.to_ascii_uppercase() as usize] = value;
        value += 1;
    }
    table
}

pub enum Command {
    Open { way: Direction, name: Name, octets: Vec<u8> },
    Send { way: Direction, name: Name, part: u16 },
    Plain { source: u16, head: (u8, u8, u8), body: Vec<u8> },
    Load { name: Name, count: u16, flags: u8, memory: u8, areas: Vec<(u32, Vec<u8>)> },
    Finish { way: Direction, name: Name },
    Lose(usize),
    Damage { way: Direction, octets: Vec<u8> },
    Take(Lane, usize),
    Deliver(Lane),
    Pass(Lane, usize),
    Tick(Site, u32),
    Claim(usize),
    Commit(usize),
    Apply,
    Work,
    Expire(Site),
    Retire { way: Direction, name: Name },
    Restart(Site),
    ShowReleased,
    ShowPacket(usize),
    ShowMemory { id: u8, start: usize, length: usize },
    ShowClear { way: Direction, name: Name },
    ShowJournal,
}

/// The words of a line that aren't read yet, and the source that is meant where a word has none.
struct Words<'a, I: Iterator<Item = &'a [u8]>>(I, u16);

/// What a line asks for, which may be nothing. A name that has no source is of this one.
pub fn read(line: &[u8], own: u16) -> Option<Option<Command>> {
    let mut words = Words(line.split(|&c| c == b' ').filter(|word| !word.is_empty()), own);
    match words.0.next() {
        None | Some([b'#', ..]) => Some(None),
        Some(first) => {
            let command = words.command(first)?;
            words.0.next().is_none().then_some(Some(command))
        }
    }
}

impl<'a, I: Iterator<Item = &'a [u8]>> Words<'a, I> {
    fn command(&mut self, first: &[u8]) -> Option<Command> {
        Some(match first {
            b"open" => {
                Command::Open { way: self.way()?, name: self.name()?, octets: self.octets()? }
            }
            b"send" => Command::Send { way: self.way()?, name: self.name()?, part: self.short()? },
            b"plain" => {
                let (source, flags) = self.sourced()?;
                let flags = u8::try_from(flags).ok().filter(|&flags| flags <= 15)?;
                let head = (flags, self.octet()?, self.octet()?);
                Command::Plain { source, head, body: self.octets()? }
            }
            b"load" => self.load()?,
            b"finish" => Command::Finish { way: self.way()?, name: self.name()? },
            b"lose" => Command::Lose(self.packet()?),
            b"damage" => Command::Damage { way: self.way()?, octets: self.octets()? },
            b"take" => Command::Take(self.lane()?, self.packet()?),
            b"deliver" => Command::Deliver(self.lane()?),
            b"pass" => Command::Pass(self.lane()?, self.packet()?),
            b"tick" => Command::Tick(self.site()?, self.ticks()?),
            b"claim" => Command::Claim(self.worker()?),
            b"commit" => Command::Commit(self.worker()?),
            b"apply" => Command::Apply,
            b"work" => Command::Work,
            b"expire" => Command::Expire(self.site()?),
            b"retire" => Command::Retire { way: self.way()?, name: self.name()? },
            b"restart" => Command::Restart(self.site()?),
            b"show" => self.show()?,
            _ => return None,
        })
    }

    fn show(&mut self) -> Option<Command> {
        Some(match self.0.next()? {
            b"released" => Command::ShowReleased,
            b"packet" => Command::ShowPacket(self.packet()?),
            b"memory" => Command::ShowMemory {
                id: self.octet()?,
                start: self.long()? as usize,
                length: self.long()? as usize,
            },
            b"clear" => Command::ShowClear { way: self.way()?, name: self.name()? },
            b"journal" => Command::ShowJournal,
            _ => return None,
        })
    }

    fn load(&mut self) -> Option<Command> {
        let (name, count) = (self.name()?, self.number(0x3fff)? as u16);
        let (flags, memory) = (self.flags()?, self.octet()?);
        let (mut areas, mut length) = (Vec::new(), 15);
        while let Some(word) = self.0.next() {
            let start = number(word)?;
            let octets = self.octets().filter(|octets| !octets.is_empty())?;
            length += 8 + octets.len();
            areas.push((u32::try_from(start).ok()?, octets));
        }
        let fits = (1..=255).contains(&areas.len()) && length <= LONGEST_PACKET;
        fits.then_some(Command::Load { name, count, flags, memory, areas })
    }

    fn name(&mut self) -> Option<Name> {
        let (source, id) = self.sourced()?;
        Some(Name { source, id })
    }

    /// A number that may have a source and a slash before it.
    fn sourced(&mut self) -> Option<(u16, u16)> {
        let word = self.0.next()?;
        let (source, word) = match word.iter().position(|&c| c == b'/') {
            None => (self.1, word),
            Some(at) => (short(&word[..at])?, &word[at + 1..]),
        };
        Some((source, short(word)?))
    }

    fn number(&mut self, most: u64) -> Option<u64> {
        number(self.0.next()?).filter(|&value| value <= most)
    }

    fn flags(&mut self) -> Option<u8> {
        self.number(15).map(|value| value as u8)
    }

    fn octet(&mut self) -> Option<u8> {
        self.number(0xff).map(|value| value as u8)
    }

    fn short(&mut self) -> Option<u16> {
        short(self.0.next()?)
    }

    fn long(&mut self) -> Option<u32> {
        self.number(0xffff_ffff).map(|value| value as u32)
    }

    fn packet(&mut self) -> Option<usize> {
        self.number(u64::MAX)?.try_into().ok()
    }

    fn ticks(&mut self) -> Option<u32> {
        let count = self.0.next().map_or(Some(1), number)?;
        (1..=100_000).contains(&count).then_some(count as u32)
    }

    fn octets(&mut self) -> Option<Vec<u8>> {
        octets(self.0.next()?)
    }

    fn way(&mut self) -> Option<Direction> {
        match self.0.next()? {
            b"up" => Some(Direction::Up),
            b"down" => Some(Direction::Down),
            _ => None,
        }
    }

    fn lane(&mut self) -> Option<Lane> {
        match self.0.next()? {
            b"s1" => Some(Lane::S1),
            b"s2" => Some(Lane::S2),
            b"g1" => Some(Lane::G1),
            b"g2" => Some(Lane::G2),
            _ => None,
        }
    }

    fn site(&mut self) -> Option<Site> {
        match self.0.next()? {
            b"ground" => Some(Site::Ground),
            b"craft" => Some(Site::Craft),
            _ => None,
        }
    }

    fn worker(&mut self) -> Option<usize> {
        match self.0.next()? {
            b"w1" => Some(0),
            b"w2" => Some(1),
            _ => None,
        }
    }
}

/// A number of 16 bits.
fn short(word: &[u8]) -> Option<u16> {
    u16::try_from(number(word)?).ok()
}

/// A number of 1 to 10 decimal digits.
fn number(word: &[u8]) -> Option<u64> {
    let is_number = (1..=10).contains(&word.len()) && word.iter().all(u8::is_ascii_digit);
    is_number.then(|| word.iter().fold(0, |value, digit| value * 10 + u64::from(digit - b'0')))
}

/// Octets of two hexadecimal digits each, or `-` for none.
fn octets(word: &[u8]) -> Option<Vec<u8>> {
    if word == b"-" {
        return Some(Vec::new());
    }
    if word.len() % 2 != 0 {
        return None;
    }
    let mut octets = Vec::with_capacity(word.len() / 2);
    for pair in word.chunks_exact(2) {
        let (high, low) = (DIGITS[usize::from(pair[0])], DIGITS[usize::from(pair[1])]);
        if high | low == NO_DIGIT {
            return None;
        }
        octets.push(high << 4 | low);
    }
    Some(octets)
}
