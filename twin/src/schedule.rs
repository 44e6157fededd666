//! Playing a schedule: steps of 48 bits, one printed line each.

use crate::answer::{told, Answer, Code, Outcome};
use crate::engine::Engine::Ranked;
use crate::table::{Table, TABLE_BYTES};
use crate::{calls, drain};
use std::fmt::Write;

const HEADER_BYTES: usize = 2;
const STEP_BYTES: usize = 6;
const MOST_STEPS: usize = 10_922;
const DRAIN_BUDGET: u64 = 903;

/// What the program prints for this input.
pub fn listing(input: &[u8]) -> String {
    let Some((&[sites, keys], rest)) = input.split_first_chunk::<HEADER_BYTES>() else {
        return format!("cut {}\n", input.len());
    };
    let mut bytes = [0; TABLE_BYTES];
    let mut table = Table::over(&mut bytes);
    let mut text = String::new();
    let opened = calls::open(&mut table, sites.into(), keys.into());
    print_line(&mut text, 0, opened);
    if opened.is_err() {
        return text + "end 0\n";
    }
    let mut steps = 0;
    let mut chunks = rest.chunks_exact(STEP_BYTES);
    for step in chunks.by_ref().take(MOST_STEPS) {
        steps += 1;
        print_line(&mut text, steps, play(&mut table, step.try_into().expect("six bytes")));
    }
    // "At most 10,922 steps are read; what follows them is ignored."
    match chunks.remainder().len() {
        left if left > 0 && rest.len() < MOST_STEPS * STEP_BYTES => text + &format!("cut {left}\n"),
        _ => text + &format!("end {steps}\n"),
    }
}

fn play(table: &mut Table, step: [u8; STEP_BYTES]) -> Outcome {
    let [first, key, v0, v1, v2, v3] = step;
    let (operation, site, origin) = (first >> 6, first >> 3 & 7, first & 7);
    let value = u32::from_be_bytes([v0, v1, v2, v3]);
    let (site64, origin64, key64) = (u64::from(site), u64::from(origin), u64::from(key));
    // "Unused fields are zero, else 12", before every other refusal.
    let (uses_origin, uses_key, uses_value) = match operation {
        0 => (false, true, true),
        1 => (false, true, false),
        2 => (true, false, false),
        _ => (false, false, false),
    };
    if (!uses_origin && origin != 0) || (!uses_key && key != 0) || (!uses_value && value != 0) {
        return Err(Answer::refused(Code::UnusedField));
    }
    match operation {
        0 => calls::put(table, Ranked, site64, key64, value),
        1 => calls::get(table, Ranked, site64, key64),
        2 => calls::deliver(table, Ranked, site64, origin64),
        _ => drain::drain(table, Ranked, site64, DRAIN_BUDGET),
    }
}

fn print_line(text: &mut String, step: usize, outcome: Outcome) {
    let Answer { code, key, site, clock, value } = told(outcome);
    writeln!(text, "{step} {} {key} {site} {clock} {value}", code as u8).expect("writing to memory");
}
