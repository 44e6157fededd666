//! The cold list.

use crate::answer::{Answer, Code, Outcome};
use crate::calls::{acting_site, demand_sound, look_at};
use crate::table::{Table, KEYS};
use crate::touch::Touch;

pub const LIST_BYTES: usize = KEYS;

const LAST_AGE: u16 = 32_767;

/// A cold list's own numbers, and the buffer lent for it.
pub struct Asked<'a> {
    now: u16,
    threshold: u16,
    list: &'a mut [u8; LIST_BYTES],
}

/// 14, "for T, a buffer size .. or now above 65,535"; "T is 1 to 32,767".
pub fn asked(now: u64, threshold: u64, list: &mut [u8]) -> Result<Asked<'_>, Answer> {
    match (u16::try_from(now), u16::try_from(threshold), list.try_into()) {
        (Ok(now), Ok(threshold @ 1..=LAST_AGE), Ok(list)) => Ok(Asked { now, threshold, list }),
        _ => Err(Answer::refused(Code::OutOfRange)),
    }
}

/// "The answer's key, site and clock count keys listed, clocks ahead and malformed values."
pub fn cold(table: &Table, site: u64, asked: Asked) -> Outcome {
    demand_sound(table)?;
    let site = acting_site(table, site)?;
    let (mut listed, mut ahead, mut malformed) = (0, 0, 0);
    *asked.list = [0; LIST_BYTES];
    for key in 0..table.keys() {
        // "The cold list uses look"; "never-written keys are left out".
        let Some(entry) = look_at(table, site, key) else { continue };
        let Some(touch) = Touch::read(entry.value) else {
            malformed += 1;
            continue;
        };
        // "Age is now minus hour, modulo 65,536."
        let age = (65_536 + u32::from(asked.now) - u32::from(touch.hour)) % 65_536;
        if age > u32::from(LAST_AGE) {
            ahead += 1;
        } else if age >= u32::from(asked.threshold) {
            asked.list[usize::from(listed)] = key as u8;
            listed += 1;
        }
    }
    Ok(Answer::accepted(listed, ahead, malformed, 0))
}
