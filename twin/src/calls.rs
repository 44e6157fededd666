//! Open, put, get, look, adopt, deliver and retire on a buffer of the right length; refusals stand in the order in which
//! they are asked.

use crate::answer::{Answer, Code, Outcome};
use crate::engine::Engine;
use crate::sound::is_sound;
use crate::table::{Record, Table, KEYS, PLACES, SITES};

pub fn open(table: &mut Table, sites: u64, keys: u64) -> Outcome {
    if !(1..=SITES as u64).contains(&sites) || !(1..=KEYS as u64).contains(&keys) {
        return Err(Answer::refused(Code::Counts));
    }
    table.open(sites as u8, keys as u8);
    Ok(Answer::accepted(0, 0, 0, 0))
}

pub fn put(table: &mut Table, engine: Engine, site: u64, key: u64, value: u32) -> Outcome {
    demand_sound(table)?;
    let site = acting_site(table, site)?;
    let key = named_key(table, key)?;
    put_at(table, engine, site, key, value)
}

/// A put on a sound table at one of its sites and keys, if there is a clock and room for it.
pub fn put_at(table: &mut Table, engine: Engine, site: usize, key: usize, value: u32) -> Outcome {
    let Some(clock) = table.applied(site, site).checked_add(1) else {
        return Err(Answer::refused(Code::ClocksSpent));
    };
    // "Some site has applied 16 fewer of s's puts than s", of the live ones: clock is one past s's own count.
    if table.live().any(|other| usize::from(clock - table.applied(other, site)) > PLACES) {
        return Err(Answer::refused(Code::NoRoom));
    }
    if engine.put_gets_first() {
        get_at(table, engine, site, key);
    }
    // The dependency row goes into the update as it was before the put itself.
    let depends = table.depends_row(site);
    table.set_update(site, Record { value, name: key as u8, clock, depends });
    table.set_entry(site, key, Record { value, name: site as u8, clock, depends: engine.own_vector(depends) });
    table.set_applied(site, site, clock);
    table.set_depends_row(site, engine.after_put(depends, site, clock));
    Ok(Answer::accepted(key as u8, site as u8, clock, value))
}

pub fn get(table: &mut Table, engine: Engine, site: u64, key: u64) -> Outcome {
    demand_sound(table)?;
    let site = acting_site(table, site)?;
    let key = named_key(table, key)?;
    Ok(read(key, get_at(table, engine, site, key)))
}

/// "Look, which answers as get and changes nothing."
pub fn look(table: &Table, site: u64, key: u64) -> Outcome {
    demand_sound(table)?;
    let site = acting_site(table, site)?;
    let key = named_key(table, key)?;
    Ok(read(key, look_at(table, site, key)))
}

/// "Adopt, which takes on the dependence for a key whose origin and clock the caller names."
pub fn adopt(table: &mut Table, engine: Engine, site: u64, key: u64, origin: u64, clock: u64) -> Outcome {
    demand_sound(table)?;
    let site = named_site(table, site)?;
    let origin = named_site(table, origin)?;
    demand_live(table, site)?;
    let key = named_key(table, key)?;
    // "15 when the entry no longer has that origin and clock"; a never-written one has (0, 0).
    let entry = table.entry(site, key);
    if usize::from(entry.name) != origin || u64::from(entry.clock) != clock {
        return Err(Answer::refused(Code::Changed));
    }
    Ok(read(key, get_at(table, engine, site, key)))
}

/// "All three answer alike."
fn read(key: usize, entry: Option<Record>) -> Answer {
    match entry {
        Some(entry) => Answer::accepted(key as u8, entry.name, entry.clock, entry.value),
        None => Answer::accepted(key as u8, 0, 0, 0),
    }
}

/// A look on a sound table at one of its sites and keys; nothing comes of a never-written key.
pub fn look_at(table: &Table, site: usize, key: usize) -> Option<Record> {
    Some(table.entry(site, key)).filter(|entry| entry.clock != 0)
}

/// The same with the dependence on what was read.
pub fn get_at(table: &mut Table, engine: Engine, site: usize, key: usize) -> Option<Record> {
    let entry = look_at(table, site, key)?;
    table.set_depends_row(site, engine.after_get(table.depends_row(site), &entry));
    Some(entry)
}

pub fn deliver(table: &mut Table, engine: Engine, site: u64, origin: u64) -> Outcome {
    demand_sound(table)?;
    let site = named_site(table, site)?;
    let origin = named_site(table, origin)?;
    if site == origin {
        return Err(Answer::refused(Code::SameSite));
    }
    // Of the receiver alone: the puts of a retired origin "stay for the others".
    demand_live(table, site)?;
    try_delivery(table, engine, site, origin)
}

/// One delivery on a sound table between two of its sites.
pub fn try_delivery(table: &mut Table, engine: Engine, site: usize, origin: usize) -> Outcome {
    let applied = table.applied_row(site);
    if applied[origin] == table.applied(origin, origin) {
        return Err(Answer::refused(Code::NothingNew));
    }
    let clock = applied[origin] + 1;
    let update = table.update(origin, clock);
    // "The sum of 2 to the power m over them": the failing columns as bits, of which site and clock name the lowest.
    let failing = (0..SITES).filter(|&column| update.depends[column] > applied[column]);
    let mask = failing.fold(0u32, |bits, column| bits | 1 << column);
    if mask != 0 {
        let lowest = mask.trailing_zeros() as usize;
        let waits = Answer::refused(Code::CauseMissing);
        return Err(Answer { site: lowest as u8, clock: update.depends[lowest], value: mask, ..waits });
    }
    let key = update.name.into();
    if engine.replaces(look_at(table, site, key).as_ref(), &update, origin) {
        table.set_entry(site, key, Record { name: origin as u8, clock, ..update });
    }
    // "Otherwise only the applied count rises."
    table.set_applied(site, origin, clock);
    Ok(Answer::accepted(update.name, origin as u8, clock, update.value))
}

/// "Byte 2 holds the retired sites"; no other byte changes.
pub fn retire(table: &mut Table, site: u64) -> Outcome {
    demand_sound(table)?;
    let site = acting_site(table, site)?;
    if table.live().all(|other| other == site) {
        return Err(Answer::refused(Code::LastLiveSite));
    }
    table.retire(site);
    Ok(Answer::accepted(0, 0, 0, 0))
}

pub fn demand_sound(table: &Table) -> Result<(), Answer> {
    if is_sound(table) {
        Ok(())
    } else {
        Err(Answer::refused(Code::Unsound))
    }
}

fn named_site(table: &Table, site: u64) -> Result<usize, Answer> {
    below(site, table.sites(), Code::Site)
}

/// "16 when the acting site is retired, after 5."
fn demand_live(table: &Table, site: usize) -> Result<(), Answer> {
    if table.is_retired(site) {
        Err(Answer::refused(Code::Retired))
    } else {
        Ok(())
    }
}

/// The site of a call that names no other.
pub fn acting_site(table: &Table, site: u64) -> Result<usize, Answer> {
    let site = named_site(table, site)?;
    demand_live(table, site)?;
    Ok(site)
}

pub fn named_key(table: &Table, key: u64) -> Result<usize, Answer> {
    below(key, table.keys(), Code::Key)
}

/// "A host number too large for its field meets the refusal of that field."
fn below(number: u64, limit: usize, code: Code) -> Result<usize, Answer> {
    if number < limit as u64 {
        Ok(number as usize)
    } else {
        Err(Answer::refused(code))
    }
}
