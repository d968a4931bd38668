//! The long comparison: so many cases through every call, by the proved library and by the second
//! program, as far as the first difference.

use compare::{Check, Difference, Manner, Seen, CALLS};
use std::io::{IsTerminal, Write};
use std::process::ExitCode;
use std::sync::atomic::{AtomicBool, AtomicU64, Ordering};
use std::time::{Duration, Instant};

const USAGE: &str = "usage: long COUNT [--from NUMBER] [--threads NUMBER] [--exact] [CALL ..]
  COUNT      how many cases: generated blocks of every kind, each as it is and damaged
  --from     the number of the first case, 0 if it is not said; a case is repeated by its number
  --threads  how many at a time, as many as there are processors if it is not said
  --exact    lends every buffer alone in a heap allocation of exactly its length, for a memory checker:
             valgrind --error-exitcode=9 target/release/long 2000 --exact --threads 1
  CALL       read_block, write_block, make_list, run_block or run_list; all if none is named
It ends with 0 if the two agree, with 1 if they differ, and then prints where.
";

struct Wanted {
    count: u64,
    from: u64,
    threads: usize,
    manner: Manner,
    calls: Vec<(&'static str, Check)>,
}

fn main() -> ExitCode {
    let arguments: Vec<String> = std::env::args().skip(1).collect();
    let Some(wanted) = wanted(&arguments) else {
        eprint!("{USAGE}");
        return ExitCode::from(2);
    };
    let begun = Instant::now();
    match run(&wanted) {
        Ok(seen) => {
            print_seen(&wanted, &seen);
            println!(
                "{} cases in {:.1} s: no difference",
                wanted.count,
                begun.elapsed().as_secs_f64()
            );
            ExitCode::SUCCESS
        }
        Err(found) => {
            let (number, difference) = *found;
            println!("case {number}: {difference}");
            println!("again: {}", again(&wanted, number));
            ExitCode::FAILURE
        }
    }
}

/// The words that repeat a case alone. The same calls have to be named, since they draw in turn.
fn again(wanted: &Wanted, number: u64) -> String {
    let mut words = format!("long 1 --from {number}");
    if wanted.manner == Manner::Exact {
        words += " --exact";
    }
    wanted.calls.iter().for_each(|call| words += &format!(" {}", call.0));
    words
}

/// What the arguments ask for; none if they are not as the usage says.
fn wanted(arguments: &[String]) -> Option<Wanted> {
    let processors = std::thread::available_parallelism().map_or(1, usize::from);
    let mut wanted = Wanted {
        count: 0,
        from: 0,
        threads: processors,
        manner: Manner::Bordered,
        calls: Vec::new(),
    };
    let mut words = arguments.iter().map(String::as_str);
    wanted.count = words.next()?.parse().ok()?;
    let mut names = Vec::new();
    while let Some(word) = words.next() {
        match word {
            "--from" => wanted.from = words.next()?.parse().ok()?,
            "--threads" => wanted.threads = words.next()?.parse().ok().filter(|&n| n > 0)?,
            "--exact" => wanted.manner = Manner::Exact,
            name => names.push(name),
        }
    }
    wanted.calls = if names.is_empty() { CALLS.to_vec() } else { compare::calls(&names)? };
    wanted.from.checked_add(wanted.count)?;
    Some(wanted)
}

/// Compares, with a line of progress beside it.
fn run(wanted: &Wanted) -> Result<Seen, Box<(u64, Difference)>> {
    let checks: Vec<Check> = wanted.calls.iter().map(|call| call.1).collect();
    let range = wanted.from..wanted.from + wanted.count;
    let (done, over) = (AtomicU64::new(0), AtomicBool::new(false));
    std::thread::scope(|scope| {
        let watch = scope.spawn(|| watch(wanted.count, &done, &over));
        let found = compare::compare(&checks, wanted.manner, range, wanted.threads, &done);
        over.store(true, Ordering::Relaxed);
        watch.thread().unpark();
        found
    })
}

/// Says every second how far the comparison is: over itself on a terminal, else a line every minute.
fn watch(count: u64, done: &AtomicU64, over: &AtomicBool) {
    let terminal = std::io::stderr().is_terminal();
    let step = Duration::from_secs(if terminal { 1 } else { 60 });
    let begun = Instant::now();
    let mut next = step;
    while !over.load(Ordering::Relaxed) {
        std::thread::park_timeout(next.saturating_sub(begun.elapsed()));
        if begun.elapsed() >= next {
            let cases = done.load(Ordering::Relaxed);
            let speed = cases as f64 / begun.elapsed().as_secs_f64();
            let end = if terminal { '\r' } else { '\n' };
            eprint!("{cases} of {count} cases, {speed:.0} a second   {end}");
            // A line that cannot be shown stops nothing.
            let _ = std::io::stderr().flush();
            next += step;
        }
    }
    if terminal && begun.elapsed() >= step {
        eprintln!();
    }
}

/// How often each status came back: a call that was never refused so, or never done, shows here.
fn print_seen(wanted: &Wanted, seen: &Seen) {
    print!("{:<12}", "status");
    (0..10).for_each(|status| print!("{status:>9}"));
    println!();
    for ((name, _), counts) in wanted.calls.iter().zip(seen) {
        print!("{name:<12}");
        counts.iter().for_each(|count| print!("{count:>9}"));
        println!();
    }
}
