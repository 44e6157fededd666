//! A second Forkcanyon: the table of documents 01 and 02 and its calls, written from these documents alone.
//!
//! Every call takes any numbers and any buffers, writes the reply and returns its code. Opening, a look, a cold
//! list and a retirement know no engine.

mod answer;
mod calls;
mod cold;
mod drain;
mod engine;
mod host;
mod schedule;
mod sound;
mod table;
mod touch;

pub use answer::{Answer, Code, REPLY_BYTES};
pub use cold::LIST_BYTES;
use engine::Engine::Ranked;
pub use schedule::listing;
pub use table::{Table, KEYS, PLACES, SITES, TABLE_BYTES};

/// The calls that depend on the engine.
macro_rules! calls_with {
    ($engine:expr) => {
        /// Writes a value at a site.
        pub fn put(site: u64, key: u64, value: u32, table: &mut [u8], reply: &mut [u8]) -> u32 {
            crate::edge(table, reply, |table| crate::calls::put(table, $engine, site, key, value))
        }

        /// Reads a key at a site; what the site puts afterwards depends on what was read.
        pub fn get(site: u64, key: u64, table: &mut [u8], reply: &mut [u8]) -> u32 {
            crate::edge(table, reply, |table| crate::calls::get(table, $engine, site, key))
        }

        /// Reads a key at a site as a get does, if it still holds the put of that origin and clock.
        pub fn adopt(site: u64, key: u64, origin: u64, clock: u64, table: &mut [u8], reply: &mut [u8]) -> u32 {
            crate::edge(table, reply, |table| crate::calls::adopt(table, $engine, site, key, origin, clock))
        }

        /// Applies at a site the next update of an origin, if nothing it depends on is missing.
        pub fn deliver(site: u64, origin: u64, table: &mut [u8], reply: &mut [u8]) -> u32 {
            crate::edge(table, reply, |table| crate::calls::deliver(table, $engine, site, origin))
        }

        /// Delivers to a site all that can be, within a budget of tries.
        pub fn drain(site: u64, budget: u64, table: &mut [u8], reply: &mut [u8]) -> u32 {
            crate::edge(table, reply, |table| crate::drain::drain(table, $engine, site, budget))
        }

        /// Gets a key and puts a touch record in its place.
        pub fn touch(
            site: u64,
            key: u64,
            now: u64,
            toucher: u64,
            tier: u64,
            table: &mut [u8],
            reply: &mut [u8],
        ) -> u32 {
            let asked = crate::touch::asked(now, toucher, tier);
            crate::edge_asked(asked, table, reply, |asked, table| crate::touch::touch(table, $engine, site, key, asked))
        }
    };
}

calls_with!(Ranked);

/// With short lists, on a table opened as any other: a put leaves itself alone in its site's list, a get adds one pair.
pub mod short {
    calls_with!(crate::engine::Engine::Short);
}

/// By the steps before request (e): what short lists agree with.
pub mod long {
    calls_with!(crate::engine::Engine::Long);
}

/// Opens a table for so many sites and keys; whatever the buffer held is gone.
pub fn open(sites: u64, keys: u64, table: &mut [u8], reply: &mut [u8]) -> u32 {
    edge(table, reply, |table| calls::open(table, sites, keys))
}

/// Reads a key at a site and changes nothing.
pub fn look(site: u64, key: u64, table: &mut [u8], reply: &mut [u8]) -> u32 {
    edge(table, reply, |table| calls::look(table, site, key))
}

/// Retires a site: from then on it is refused every call, and no other waits for it.
pub fn retire(site: u64, table: &mut [u8], reply: &mut [u8]) -> u32 {
    edge(table, reply, |table| calls::retire(table, site))
}

/// Lists the keys that have been cold at a site for the threshold or longer; changes nothing.
pub fn cold(site: u64, now: u64, threshold: u64, table: &mut [u8], list: &mut [u8], reply: &mut [u8]) -> u32 {
    let asked = cold::asked(now, threshold, list);
    edge_asked(asked, table, reply, |asked, table| cold::cold(table, site, asked))
}

fn edge(table: &mut [u8], reply: &mut [u8], call: impl FnOnce(&mut Table) -> answer::Outcome) -> u32 {
    edge_asked(Ok(()), table, reply, |(), table| call(table))
}

/// What is asked of a call's own numbers comes "first of all"; then "if the reply buffer is not 12 bytes,
/// neither buffer is written and 1 comes back".
fn edge_asked<Asked>(
    asked: Result<Asked, Answer>,
    table: &mut [u8],
    reply: &mut [u8],
    call: impl FnOnce(Asked, &mut Table) -> answer::Outcome,
) -> u32 {
    let outcome = asked.and_then(|asked| match (<&mut [u8; TABLE_BYTES]>::try_from(table), reply.len()) {
        (Ok(bytes), REPLY_BYTES) => call(asked, &mut Table::over(bytes)),
        _ => Err(Answer::refused(Code::BufferSize)),
    });
    let answer = answer::told(outcome);
    if let Ok(reply) = <&mut [u8; REPLY_BYTES]>::try_from(reply) {
        *reply = answer.bytes();
    }
    answer.code as u32
}
