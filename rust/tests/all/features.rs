//! That the generator is not trivial: each kind of block must really meet what it is named for, in
//! a good share of a thousand blocks. Without this, the other tests could pass by testing nothing.

use crate::naive::{self, Reading};
use second::block::{Block, Place};
use second::choice::{all_pairs, choose, cut_units, packed_list};
use second::combination::Unit;
use second::dependence::rows;
use second::generator::{self, Kind};
use second::list::Instruction;
use second::schedule::schedule;
use std::collections::BTreeMap;

const BLOCKS: usize = 500;

/// How many of a thousand blocks have each feature, the lists being those that were chosen. Fewer
/// are tried, and the counts raised to match.
fn count_features(kind: Kind) -> BTreeMap<&'static str, usize> {
    let mut counts = BTreeMap::new();
    for number in 0..BLOCKS as u64 {
        let block = generator::block(kind, number);
        let mut features = list_features(&choose(&block).0);
        if !features.contains(&"O") && packed_list(&block).iter().any(|i| i.is_vector()) {
            features.push("packs not chosen");
        }
        features.extend(unit_features(&block));
        features.sort_unstable();
        features.dedup();
        for feature in features {
            *counts.entry(feature).or_insert(0) += 1000 / BLOCKS;
        }
    }
    counts
}

fn list_features(list: &[Instruction]) -> Vec<&'static str> {
    let mut features: Vec<&'static str> = list.iter().flat_map(instruction_features).collect();
    let mut uses: BTreeMap<u8, usize> = BTreeMap::new();
    for instruction in list {
        if let Instruction::Operate { left, right, .. } = *instruction {
            for register in [Some(left), right].into_iter().flatten() {
                *uses.entry(register).or_insert(0) += 1;
            }
        }
    }
    let again = uses.values().any(|&count| count > 1);
    let registers = list.iter().filter(|i| i.written().is_some()).count();
    features.extend(again.then_some("register read again"));
    features.extend((registers >= 30).then_some("30 registers"));
    features.extend((registers == 96).then_some("96 registers"));
    features.extend((list.len() == 160).then_some("160 instructions"));
    features
}

fn instruction_features(instruction: &Instruction) -> Vec<&'static str> {
    match *instruction {
        Instruction::Single { .. } => vec!["S"],
        Instruction::Load { .. } => vec!["L"],
        Instruction::Constants { .. } => vec!["C"],
        Instruction::Gather { operands, .. } => {
            let cells = operands.iter().any(|o| o.is_cell());
            vec!["G", if cells { "G with cells" } else { "G without cells" }]
        }
        Instruction::Operate { lanes, right, .. } => {
            let lanes = if lanes == 4 { "four lanes" } else { "two lanes" };
            vec!["O", lanes, if right.is_none() { "copy in O" } else { "two registers in O" }]
        }
        Instruction::Store { .. } => vec!["W"],
        Instruction::StoreLane { .. } => vec!["D"],
        Instruction::Extract { .. } => vec!["X"],
    }
}

fn unit_features(block: &Block) -> Vec<&'static str> {
    let rows = rows(block);
    let cut = cut_units(block, &rows);
    let scheduled = schedule(cut.clone(), &rows);
    let mut features = Vec::new();
    let packs = |units: &[Unit]| units.iter().filter(|u| u.len() > 1).count();
    if packs(&scheduled) < packs(&cut) {
        features.push("dissolved");
        if cut.iter().any(|unit| unit.len() == 4 && !scheduled.contains(unit)) {
            features.push("four dissolved");
        }
    }
    if overwrites_lane(block, &scheduled) {
        features.push("lane overwritten");
    }
    if scheduled.concat().windows(2).any(|two| two[0] > two[1]) {
        features.push("reordered");
    }
    // Elsewhere the program's pairs are shown to be the naive ones with the first of equals.
    if all_pairs(block, &rows).order != naive::pairs(block, Reading::LastOfEquals) {
        features.push("tie");
    }
    if block.statement_count == 64 {
        features.push("64 statements");
    }
    features
}

/// Whether a pack writes a variable and a later unit writes it again.
fn overwrites_lane(block: &Block, scheduled: &[Unit]) -> bool {
    let destination = |&s: &usize| block.statements[s].destination;
    scheduled.iter().enumerate().any(|(at, unit)| {
        let later: Vec<Place> = scheduled[at + 1..].iter().flatten().map(destination).collect();
        unit.len() > 1
            && unit.iter().map(destination).any(|place| !place.is_cell() && later.contains(&place))
    })
}

/// At least so many of a thousand blocks of the kind have the feature, set well below what was
/// measured, so that only a real loss fails.
const WANTED: [(Kind, &[(&str, usize)]); 19] = [
    (Kind::Uniform, &[("packs not chosen", 300), ("dissolved", 40), ("lane overwritten", 70)]),
    (Kind::Stencils, &[("L", 800), ("W", 800), ("four lanes", 400), ("reordered", 300)]),
    (Kind::Ties, &[("tie", 300), ("copy in O", 400), ("X", 400), ("C", 300)]),
    (Kind::Extension, &[("O", 500), ("C", 400), ("X", 400), ("register read again", 400)]),
    (Kind::Dissolving, &[("dissolved", 600), ("four dissolved", 200), ("O", 500)]),
    (Kind::OverwrittenLanes, &[("lane overwritten", 600), ("X", 600), ("O", 600)]),
    (Kind::Copies, &[("copy in O", 600), ("lane overwritten", 300), ("D", 30)]),
    (Kind::LongChains, &[("four lanes", 600), ("30 registers", 200), ("G with cells", 500)]),
    (Kind::SixtyFour, &[("64 statements", 1000), ("30 registers", 500), ("tie", 80)]),
    (Kind::RegisterReuse, &[("register read again", 800), ("D", 100), ("dissolved", 100)]),
    (Kind::LiveOut, &[("X", 600), ("register read again", 250), ("packs not chosen", 30)]),
    (Kind::FewPlaces, &[("lane overwritten", 300), ("dissolved", 60), ("O", 500)]),
    (Kind::Constants, &[("C", 600), ("four lanes", 400), ("copy in O", 200)]),
    (Kind::Tiny, &[("O", 100), ("S", 400), ("register read again", 20)]),
    (Kind::Limits, &[("64 statements", 1000), ("D", 150), ("four dissolved", 200)]),
    (Kind::Fullest, &[("96 registers", 900), ("160 instructions", 500), ("X", 300), ("D", 700)]),
    (Kind::Expressions, &[("G", 250), ("C", 500), ("X", 300), ("four lanes", 500)]),
    (Kind::Gathers, &[("G with cells", 200), ("D", 200), ("packs not chosen", 150)]),
    (Kind::Mixed, &[("O", 600), ("dissolved", 130), ("tie", 30), ("D", 60), ("X", 300)]),
];

#[test]
fn every_kind_meets_what_it_is_for() {
    for ((kind, wanted), listed) in WANTED.into_iter().zip(generator::ALL) {
        assert_eq!(kind, listed, "the table goes by the order of the kinds");
        let counts = count_features(kind);
        for &(feature, least) in wanted {
            let count = counts.get(feature).copied().unwrap_or(0);
            assert!(count >= least, "{}: {feature} {count} times", kind.name());
        }
    }
}

/// A kind and a number always give the same block, and differing numbers do not.
#[test]
fn blocks_repeat_and_differ() {
    for kind in generator::ALL {
        let blocks: Vec<Block> = (0..50).map(|n| generator::block(kind, n)).collect();
        let again: Vec<Block> = (0..50).map(|n| generator::block(kind, n)).collect();
        assert_eq!(blocks, again);
        let differing = blocks.windows(2).filter(|two| two[0] != two[1]).count();
        assert!(differing > 40, "{}: {differing}", kind.name());
    }
    let names: std::collections::BTreeSet<&str> =
        generator::ALL.into_iter().map(Kind::name).collect();
    assert_eq!(names.len(), generator::ALL.len());
}
