//! The three ways to keep what a site depends on. They differ in what a get and a put make of the site's dependency row,
//! in what a put takes on and stores, and in which deliveries replace an entry; and in nothing else.

use crate::table::{join, rank, Clocks, Record, SITES};

#[derive(Clone, Copy)]
pub enum Engine {
    /// Ours: document 01's steps as request (e) of document 02 amends them, so that all sites end with one winner.
    Ranked,
    /// Document 01's steps before that request, with which short lists agree.
    Long,
    /// Request (d)'s short lists.
    Short,
}

use Engine::{Long, Ranked, Short};

impl Engine {
    /// The row after a get of this entry: "a get adds the one pair it read"; with the others its vector is joined before.
    pub fn after_get(self, row: Clocks, entry: &Record) -> Clocks {
        let row = match self {
            Ranked | Long => join(row, entry.depends),
            Short => row,
        };
        with_pair(row, entry.name.into(), entry.clock)
    }

    /// "A put now first takes on the dependence of the entry it overwrites, as a get would."
    pub fn put_gets_first(self) -> bool {
        matches!(self, Ranked)
    }

    /// "An own put is stored with its update's vector"; before that request, with zeros.
    pub fn own_vector(self, sent: Clocks) -> Clocks {
        match self {
            Ranked => sent,
            Long | Short => [0; SITES],
        }
    }

    /// The row after a put that has sent this one: "the list becomes the site's own last put"; the others keep the rest.
    pub fn after_put(self, sent: Clocks, site: usize, clock: u16) -> Clocks {
        let row = match self {
            Ranked | Long => sent,
            Short => [0; SITES],
        };
        with_pair(row, site, clock)
    }

    /// "A delivery replaces the entry if that is never written, or if the update's rank is higher, or equal with an
    /// origin not lower"; before that request, always.
    pub fn replaces(self, held: Option<&Record>, update: &Record, origin: usize) -> bool {
        match (self, held) {
            (Ranked, Some(held)) => (rank(update.depends), origin) >= (rank(held.depends), usize::from(held.name)),
            _ => true,
        }
    }
}

/// "Keeping the highest clock for each site."
fn with_pair(mut row: Clocks, origin: usize, clock: u16) -> Clocks {
    row[origin] = row[origin].max(clock);
    row
}
