//! Drain: passes over the other origins until one delivers nothing.

use crate::answer::{Answer, Code, Outcome};
use crate::calls::{acting_site, demand_sound, try_delivery};
use crate::engine::Engine;
use crate::table::Table;

pub fn drain(table: &mut Table, engine: Engine, site: u64, budget: u64) -> Outcome {
    demand_sound(table)?;
    let site = acting_site(table, site)?;
    // "A budget above 65,535 counts as 65,535."
    let budget = budget.min(65_535) as u32;
    let mut made = Answer::accepted(0, 0, 0, 0);
    loop {
        let before = made.clock;
        for origin in (0..table.sites()).filter(|&origin| origin != site) {
            loop {
                if made.value == budget {
                    return Err(Answer { code: Code::BudgetSpent, ..made });
                }
                made.value += 1;
                if try_delivery(table, engine, site, origin).is_err() {
                    break;
                }
                made.clock += 1;
            }
        }
        if made.clock == before {
            return Ok(made);
        }
    }
}
