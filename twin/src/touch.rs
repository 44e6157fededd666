//! Touch records, and touch.

use crate::answer::{Answer, Code, Outcome};
use crate::calls::{acting_site, demand_sound, get_at, named_key, put_at};
use crate::engine::Engine;
use crate::table::Table;

/// "Hour (16), toucher (3), tier (2), eleven zero bits", from the top.
#[derive(Clone, Copy, PartialEq, Eq, Debug)]
pub struct Touch {
    pub hour: u16,
    pub toucher: u8,
    pub tier: u8,
}

impl Touch {
    /// "Any other form is malformed."
    pub fn read(value: u32) -> Option<Touch> {
        let [high, low, fields, zeros] = value.to_be_bytes();
        let touch = Touch { hour: u16::from_be_bytes([high, low]), toucher: fields >> 5, tier: fields >> 3 & 3 };
        (fields & 7 == 0 && zeros == 0 && touch.toucher <= 3).then_some(touch)
    }

    pub fn value(self) -> u32 {
        let [high, low] = self.hour.to_be_bytes();
        u32::from_be_bytes([high, low, self.toucher << 5 | self.tier << 3, 0])
    }
}

/// 14, "for .. a toucher or tier above 3, or now above 65,535"; else the record of a touch that does not keep the hour.
pub fn asked(now: u64, toucher: u64, tier: u64) -> Result<Touch, Answer> {
    match (u16::try_from(now), toucher, tier) {
        (Ok(hour), 0..=3, 0..=3) => Ok(Touch { hour, toucher: toucher as u8, tier: tier as u8 }),
        _ => Err(Answer::refused(Code::OutOfRange)),
    }
}

/// "Touch gets a key and puts a record .. and a refusal undoes the get."
pub fn touch(table: &mut Table, engine: Engine, site: u64, key: u64, asked: Touch) -> Outcome {
    demand_sound(table)?;
    let site = acting_site(table, site)?;
    let key = named_key(table, key)?;
    let depends = table.depends_row(site);
    let outcome = got_and_put(table, engine, site, key, asked);
    if outcome.is_err() {
        table.set_depends_row(site, depends);
    }
    outcome
}

fn got_and_put(table: &mut Table, engine: Engine, site: usize, key: usize, mut touch: Touch) -> Outcome {
    let got = get_at(table, engine, site, key);
    // "With the old hour for toucher 1 or 2, else now."
    if touch.toucher == 1 || touch.toucher == 2 {
        let Some(old) = got.and_then(|entry| Touch::read(entry.value)) else {
            return Err(Answer::refused(Code::NoRecord));
        };
        touch.hour = old.hour;
    }
    put_at(table, engine, site, key, touch.value())
}
