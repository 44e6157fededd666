//! Whether a table is sound: document 01's four facts as request (g) of document 02 amends them, left at the first that
//! fails.

use crate::table::{Table, KEYS, PLACES, SITES};

pub fn is_sound(table: &Table) -> bool {
    let (sites, keys) = (table.sites(), table.keys());
    (1..=SITES).contains(&sites)
        && (1..=KEYS).contains(&keys)
        && retired_are_sound(table, sites)
        && table.byte_3() == 0
        && lags_are_sound(table, sites)
        && entries_are_sound(table, sites, keys)
        && updates_are_sound(table, sites, keys)
}

/// "All below n and not all n."
fn retired_are_sound(table: &Table, sites: usize) -> bool {
    (sites..SITES).all(|site| !table.is_retired(site)) && table.live().next().is_some()
}

fn lags_are_sound(table: &Table, sites: usize) -> bool {
    let own: [u16; SITES] = std::array::from_fn(|origin| table.applied(origin, origin));
    (0..sites).all(|site| {
        let row = table.applied_row(site);
        // "It no longer counts for .. the lag bound"; for any site a count is at most the origin's own.
        let most = if table.is_retired(site) { usize::MAX } else { PLACES };
        (0..sites).all(|origin| row[origin] <= own[origin] && usize::from(own[origin] - row[origin]) <= most)
    })
}

fn entries_are_sound(table: &Table, sites: usize, keys: usize) -> bool {
    (0..sites).all(|site| {
        let applied = table.applied_row(site);
        (0..keys).all(|key| {
            let bytes = table.entry_bytes(site, key);
            let origin = usize::from(bytes[4]);
            let clock = u16::from_be_bytes([bytes[6], bytes[7]]);
            bytes == [0; 24] || (origin < sites && clock >= 1 && clock <= applied[origin])
        })
    })
}

fn updates_are_sound(table: &Table, sites: usize, keys: usize) -> bool {
    (0..sites).all(|origin| {
        // "It no longer counts for .. retained places": only what a live site lacks is retained.
        let own = table.applied(origin, origin);
        let least = table.live().map(|site| table.applied(site, origin)).min().unwrap_or(own);
        (u32::from(least) + 1..=u32::from(own)).all(|clock| {
            let update = table.update(origin, clock as u16);
            u32::from(update.clock) == clock && usize::from(update.name) < keys
        })
    })
}
