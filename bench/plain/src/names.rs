//! The names of messages, and sets of them.

use std::collections::HashMap;
use std::fmt::{self, Display, Formatter};

const WORDS: usize = 65_536 / 64;

/// The name of a message in its direction: a source, and an identifier of that source.
#[derive(Clone, Copy, PartialEq, Eq, Hash, PartialOrd, Ord)]
pub struct Name {
    pub source: u16,
    pub id: u16,
}

impl Name {
    /// The name as it is printed: without its source, where that is this one.
    pub fn shown(self, own: u16) -> Shown {
        Shown(self, own)
    }
}

pub struct Shown(Name, u16);

impl Display for Shown {
    fn fmt(&self, f: &mut Formatter) -> fmt::Result {
        let Shown(Name { source, id }, own) = *self;
        if source == own {
            write!(f, "{id}")
        } else {
            write!(f, "{source}/{id}")
        }
    }
}

/// A set of names: the identifiers of each source.
#[derive(Default)]
pub struct Names(HashMap<u16, Identifiers>);

impl Names {
    pub fn has(&self, name: Name) -> bool {
        self.0.get(&name.source).is_some_and(|ids| ids.has(name.id))
    }

    pub fn add(&mut self, name: Name) {
        self.0.entry(name.source).or_default().add(name.id);
    }

    pub fn remove(&mut self, name: Name) {
        if let Some(ids) = self.0.get_mut(&name.source) {
            ids.remove(name.id);
        }
    }

    /// The least name of a source that isn't in the set.
    pub fn least_free(&mut self, source: u16) -> Option<Name> {
        let id = self.0.get_mut(&source).map_or(Some(0), Identifiers::least_free)?;
        Some(Name { source, id })
    }
}

/// A set of identifiers, by bits.
struct Identifiers {
    words: Vec<u64>,
    /// No word before this one lacks an identifier.
    first_lacking: usize,
}

impl Default for Identifiers {
    fn default() -> Self {
        Identifiers { words: vec![0; WORDS], first_lacking: 0 }
    }
}

impl Identifiers {
    fn has(&self, id: u16) -> bool {
        self.words[word(id)] & bit(id) != 0
    }

    fn add(&mut self, id: u16) {
        self.words[word(id)] |= bit(id);
    }

    fn remove(&mut self, id: u16) {
        self.words[word(id)] &= !bit(id);
        self.first_lacking = self.first_lacking.min(word(id));
    }

    fn least_free(&mut self) -> Option<u16> {
        while *self.words.get(self.first_lacking)? == u64::MAX {
            self.first_lacking += 1;
        }
        let ones = self.words[self.first_lacking].trailing_ones();
        Some((self.first_lacking * 64) as u16 + ones as u16)
    }
}

fn word(id: u16) -> usize {
    usize::from(id / 64)
}

fn bit(id: u16) -> u64 {
    1 << (id % 64)
}
