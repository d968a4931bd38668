//! How fast: lists made, blocks run and lists run per second, by the proved library and by the second
//! program, in turns within one run, so that what else the machine does meets both.

use compare::{Difference, Manner};
use nephinor::calls;
use second::block::Block;
use second::calls as second_calls;
use second::generator::{self, Kind};
use second::random::Random;
use std::hint::black_box;
use std::process::ExitCode;
use std::time::{Duration, Instant};

const USAGE: &str = "usage: bench [ROUNDS]
  ROUNDS     how often each side is measured, 15 if it is not said
A ratio is the library's time over the second program's in the same round: below 1 the library is faster.
";

/// How many blocks a workload has.
const BLOCKS: usize = 1000;

/// A round is repeated until it takes so long, or the clock would be measured.
const LEAST: Duration = Duration::from_millis(40);

/// A block with its list and contents to run both on.
struct Work {
    block: Vec<u8>,
    list: Vec<u8>,
    variables: Vec<u32>,
    cells: Vec<u32>,
}

/// One side's work, once over all blocks.
type Pass<'a> = Box<dyn FnMut() + 'a>;

fn main() -> ExitCode {
    let arguments: Vec<String> = std::env::args().skip(1).collect();
    let rounds = match arguments.as_slice() {
        [] => Some(15),
        [rounds] => rounds.parse().ok().filter(|&rounds: &usize| rounds > 0),
        _ => None,
    };
    let Some(rounds) = rounds else {
        eprint!("{USAGE}");
        return ExitCode::from(2);
    };
    println!("{:<34}{:>12}{:>12}   library's time over second's", "", "library", "second");
    println!("{:<34}{:>12}{:>12}   median (lowest to highest)", "", "a second", "a second");
    for (name, work) in [("64 statements", sixty_four()), ("mixed sizes", mixed())] {
        if let Err(difference) = work.iter().try_for_each(compared) {
            println!("{difference}");
            return ExitCode::FAILURE;
        }
        let measured = [
            ("lists made", making(&work, rounds)),
            ("blocks run", running_blocks(&work, rounds)),
            ("lists run", running_lists(&work, rounds)),
        ];
        for (what, line) in measured {
            println!("{:<34}{line}", format!("{what}, {name}"));
        }
    }
    ExitCode::SUCCESS
}

/// Blocks of 64 statements: a third are rows of 64 neighbours, which pair into long chains, a third
/// are patterns of all kinds, and of a third no list but S for every statement is made.
fn sixty_four() -> Vec<Work> {
    let chains = of_kind(Kind::LongChains).filter(is_full).take(BLOCKS / 3);
    let patterns = of_kind(Kind::SixtyFour).filter(is_full).take(BLOCKS / 3);
    let without = of_kind(Kind::Uniform).filter(is_full).filter(is_single);
    interleaved(vec![
        chains.collect(),
        patterns.collect(),
        without.take(BLOCKS - 2 * (BLOCKS / 3)).collect(),
    ])
}

/// Blocks of every kind in turn, of whatever size they are.
fn mixed() -> Vec<Work> {
    let numbers = 0..BLOCKS as u64;
    let kinds = generator::ALL.into_iter().cycle();
    numbers.zip(kinds).map(|(number, kind)| work(&generator::block(kind, number))).collect()
}

fn of_kind(kind: Kind) -> impl Iterator<Item = Block> {
    (0..).map(move |number| generator::block(kind, number))
}

fn is_full(block: &Block) -> bool {
    block.statement_count == 64
}

/// Whether the list has no vector instruction, which its price says.
fn is_single(block: &Block) -> bool {
    second::choice::choose(block).1 == block.price()
}

/// The kinds in turn, so that no part of a round has only one of them.
fn interleaved(kinds: Vec<Vec<Block>>) -> Vec<Work> {
    let longest = kinds.iter().map(Vec::len).max().unwrap_or(0);
    (0..longest).flat_map(|i| kinds.iter().filter_map(move |kind| kind.get(i))).map(work).collect()
}

fn work(block: &Block) -> Work {
    let mut random = Random::new(5);
    let mut bytes = vec![0; nephinor::MOST_BLOCK_BYTES];
    let (_, length) = second_calls::write_block(block, &mut bytes);
    bytes.truncate(length);
    let mut list = vec![0; nephinor::LIST_ROOM];
    let made = second_calls::make_list(&bytes, &mut list);
    list.truncate(made.length);
    Work {
        block: bytes,
        list,
        variables: random.contents(usize::from(block.variables)),
        cells: random.contents(block.cell_count()),
    }
}

fn making(work: &[Work], rounds: usize) -> String {
    let mut rooms = [[0; nephinor::LIST_ROOM]; 2];
    let [one, other] = &mut rooms;
    let library = || {
        for w in work {
            black_box(calls::make_list(&w.block, one));
        }
    };
    let second = || {
        for w in work {
            black_box(second_calls::make_list(&w.block, other));
        }
    };
    measured(Box::new(library), Box::new(second), rounds)
}

fn running_blocks(work: &[Work], rounds: usize) -> String {
    let (mut ones, mut others) = (contents(work), contents(work));
    let library = || {
        for (w, (variables, cells)) in work.iter().zip(&mut ones) {
            black_box(calls::run_block(&w.block, variables, cells));
        }
    };
    let second = || {
        for (w, (variables, cells)) in work.iter().zip(&mut others) {
            black_box(second_calls::run_block(&w.block, variables, cells));
        }
    };
    measured(Box::new(library), Box::new(second), rounds)
}

fn running_lists(work: &[Work], rounds: usize) -> String {
    let (mut ones, mut others) = (contents(work), contents(work));
    let library = || {
        for (w, (variables, cells)) in work.iter().zip(&mut ones) {
            black_box(calls::run_list(&w.block, &w.list, variables, cells));
        }
    };
    let second = || {
        for (w, (variables, cells)) in work.iter().zip(&mut others) {
            black_box(second_calls::run_list(&w.block, &w.list, variables, cells));
        }
    };
    measured(Box::new(library), Box::new(second), rounds)
}

/// What is measured is compared first: a library that refuses would be fast.
fn compared(work: &Work) -> Result<(), Difference> {
    let Work { block, list, variables, cells } = work;
    compare::run_block(Manner::Bordered, block, variables, cells)?;
    compare::run_list(Manner::Bordered, block, list, variables, cells)?;
    Ok(())
}

fn contents(work: &[Work]) -> Vec<(Vec<u32>, Vec<u32>)> {
    work.iter().map(|w| (w.variables.clone(), w.cells.clone())).collect()
}

/// Measures both in turns. The round whose ratio is the median says what each does in a second; the
/// lowest and the highest ratio say how far that can be trusted.
fn measured(mut library: Pass, mut second: Pass, rounds: usize) -> String {
    // The first turn of each warms the caches and says how many passes make a round.
    let slower = time(&mut library, 1).max(time(&mut second, 1));
    let passes = (LEAST.as_nanos() / slower.as_nanos().max(1)) as u32 + 1;
    let mut times: Vec<(f64, f64)> = (0..rounds)
        .map(|round| {
            // Each goes first in every other round.
            if round % 2 == 0 {
                let one = time(&mut library, passes);
                (one.as_secs_f64(), time(&mut second, passes).as_secs_f64())
            } else {
                let other = time(&mut second, passes);
                (time(&mut library, passes).as_secs_f64(), other.as_secs_f64())
            }
        })
        .collect();
    let ratio = |&(one, other): &(f64, f64)| one / other;
    times.sort_by(|a, b| ratio(a).total_cmp(&ratio(b)));
    let median = times[rounds / 2];
    let done = BLOCKS as f64 * f64::from(passes);
    format!(
        "{:>12.0}{:>12.0}   {:.2} ({:.2} to {:.2})",
        done / median.0,
        done / median.1,
        ratio(&median),
        ratio(&times[0]),
        ratio(&times[rounds - 1])
    )
}

fn time(pass: &mut Pass, passes: u32) -> Duration {
    let begun = Instant::now();
    (0..passes).for_each(|_| pass());
    begun.elapsed()
}
