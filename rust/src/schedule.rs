//! "Schedule": the order in which the units are done, dissolving packs that wait for each other.

use crate::combination::Unit;
use crate::dependence::Rows;

/// Orders the units. Each step takes the lowest ready unit or, if none is ready, dissolves the
/// lowest waiting pack, so it ends when every statement is done.
pub fn schedule(units: Vec<Unit>, rows: &Rows) -> Vec<Unit> {
    let mut waiting = units;
    let mut scheduled = Vec::new();
    let mut done: u64 = 0;
    while !waiting.is_empty() {
        if let Some(place) = lowest(&waiting, |unit| ready(unit, rows, done)) {
            let unit = waiting.remove(place);
            for &statement in &unit {
                done |= 1 << statement;
            }
            scheduled.push(unit);
        } else if let Some(place) = lowest(&waiting, |unit| unit.len() > 1) {
            let pack = waiting.remove(place);
            waiting.extend(pack.into_iter().map(|statement| vec![statement]));
        } else {
            // Not met: the lowest waiting single is ready when no pack waits.
            break;
        }
    }
    scheduled
}

fn ready(unit: &Unit, rows: &Rows, done: u64) -> bool {
    unit.iter().all(|&statement| rows[statement] & !done == 0)
}

/// Where the unit with the lowest statement number stands among those that are wanted.
fn lowest(units: &[Unit], wanted: impl Fn(&Unit) -> bool) -> Option<usize> {
    (0..units.len())
        .filter(|&place| wanted(&units[place]))
        .min_by_key(|&place| units[place].iter().min().copied())
}
