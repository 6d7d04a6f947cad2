//! Compares the library with document 01 as this package has it.

mod tester;

use std::path::Path;
use std::process::exit;
use std::time::Instant;
use tester::compare::Run;
use tester::library::library;
use tester::sides::independent_rules;
use tester::{broken, captures, edges, lines, tallies};

const SHORT_SEEDS: [u64; 4] = [1, 2, 3, 4];
const SHORT_CASES: u64 = 525_000;
const LONG_FIRST_SEED: u64 = 1001;
const LONG_CASES: u64 = 1_000_000;
const PIECES_FIRST_SEED: u64 = 2001;
const GROUPED_FIRST_SEED: u64 = 3001;
const RELAYED_FIRST_SEED: u64 = 4001;
const TALLIES_FIRST_SEED: u64 = 5001;
const SHORT_TALLIES: u64 = 20_000;
const ROUTED_FIRST_SEED: u64 = 6001;

const USAGE: &str = "\
usage: independent [MODE]
  short            the default: all edges, 2,100,000 generated cases, each answer often enough
  long N           N million messages and sheets of other seeds
  pieces N         N million messages, each with an option in pieces over two fields or three
  grouped N        N million grouped files, each with a class, and as many old sheets
  relay N          N million option 82s and as many sheets of sub-options
  tallies N        N thousand files of captures (request 11), each in any parts
  routes N         N million option 121s, as many routes to be written and messages that are asked
  lines SEED N     N generated cases of request 09 with this package's answers
  captures [DIR]   the files *.bin of a folder (../vectors/captures)
  broken           wrong variants and wrong subjects, each of which has to be detected
  case SEED INDEX  one generated case";

fn main() {
    let words: Vec<String> = std::env::args().skip(1).collect();
    let words: Vec<&str> = words.iter().map(String::as_str).collect();
    let status = match words[..] {
        [] | ["short"] => short(),
        ["long", n] => n.parse().map_or_else(|_| usage(), long),
        ["pieces", n] => n.parse().map_or_else(|_| usage(), pieces),
        ["grouped", n] => n.parse().map_or_else(|_| usage(), grouped),
        ["relay", n] => n.parse().map_or_else(|_| usage(), relayed),
        ["tallies", n] => n.parse().map_or_else(|_| usage(), tallied),
        ["routes", n] => n.parse().map_or_else(|_| usage(), routed),
        ["lines", seed, n] => match (seed.parse(), n.parse()) {
            (Ok(seed), Ok(n)) => printed(seed, n),
            _ => usage(),
        },
        ["captures"] => captured(Path::new("../vectors/captures")),
        ["captures", folder] => captured(Path::new(folder)),
        ["broken"] => broken::run(),
        ["case", seed, index] => match (seed.parse(), index.parse()) {
            (Ok(seed), Ok(index)) => one(seed, index),
            _ => usage(),
        },
        _ => usage(),
    };
    exit(status);
}

fn usage() -> i32 {
    eprintln!("{USAGE}");
    2
}

fn new_run() -> Run {
    Run::new(library(), independent_rules())
}

fn short() -> i32 {
    let mut run = new_run();
    let start = Instant::now();
    edges::run(&mut run);
    println!("edges: {} cases", run.counts.compared());
    cases(&mut run, SHORT_SEEDS, SHORT_CASES);
    println!("{:.1} seconds", start.elapsed().as_secs_f64());
    run.counts.print();
    let missing = run.counts.missing();
    for what in &missing {
        println!("TOO SELDOM: {what}");
    }
    let status = end(&run);
    let different = tallies::run(1, SHORT_TALLIES);
    println!("{SHORT_TALLIES} files of captures, {different} differences");
    if missing.is_empty() && different == 0 {
        status
    } else {
        1
    }
}

fn tallied(thousands: u64) -> i32 {
    let different = tallies::run(TALLIES_FIRST_SEED, 1000 * thousands);
    println!("{thousands} thousand files of captures, {different} differences");
    i32::from(different > 0)
}

fn long(millions: u64) -> i32 {
    let mut run = new_run();
    let start = Instant::now();
    cases(&mut run, LONG_FIRST_SEED..LONG_FIRST_SEED + millions, LONG_CASES);
    println!("{:.1} seconds", start.elapsed().as_secs_f64());
    run.counts.print();
    end(&run)
}

fn pieces(millions: u64) -> i32 {
    let mut run = new_run();
    let start = Instant::now();
    for seed in PIECES_FIRST_SEED..PIECES_FIRST_SEED + millions {
        println!("seed {seed}, cases 0 to {}", LONG_CASES - 1);
        for index in 0..LONG_CASES {
            run.across(seed, index);
            if run.over() {
                break;
            }
        }
    }
    println!("{:.1} seconds", start.elapsed().as_secs_f64());
    run.counts.print();
    end(&run)
}

fn grouped(millions: u64) -> i32 {
    let mut run = new_run();
    let start = Instant::now();
    for seed in GROUPED_FIRST_SEED..GROUPED_FIRST_SEED + millions {
        println!("seed {seed}, cases 0 to {}", LONG_CASES - 1);
        for index in 0..LONG_CASES {
            run.grouped(seed, index);
            if run.over() {
                break;
            }
        }
    }
    println!("{:.1} seconds", start.elapsed().as_secs_f64());
    println!("{} million files, {} differences", millions, run.differences);
    i32::from(run.differences > 0)
}

fn relayed(millions: u64) -> i32 {
    let mut run = new_run();
    let start = Instant::now();
    for seed in RELAYED_FIRST_SEED..RELAYED_FIRST_SEED + millions {
        println!("seed {seed}, cases 0 to {}", LONG_CASES - 1);
        for index in 0..LONG_CASES {
            run.relayed(seed, index);
            if run.over() {
                break;
            }
        }
    }
    println!("{:.1} seconds", start.elapsed().as_secs_f64());
    run.counts.print_relay();
    end(&run)
}

fn routed(millions: u64) -> i32 {
    let mut run = new_run();
    let start = Instant::now();
    for seed in ROUTED_FIRST_SEED..ROUTED_FIRST_SEED + millions {
        println!("seed {seed}, cases 0 to {}", LONG_CASES - 1);
        for index in 0..LONG_CASES {
            run.routed(seed, index);
            if run.over() {
                break;
            }
        }
    }
    println!("{:.1} seconds", start.elapsed().as_secs_f64());
    run.counts.print_routes();
    end(&run)
}

fn printed(seed: u64, cases: u64) -> i32 {
    lines::print(seed, cases);
    0
}

fn cases(run: &mut Run, seeds: impl IntoIterator<Item = u64>, count: u64) {
    for seed in seeds {
        println!("seed {seed}, cases 0 to {}", count - 1);
        for index in 0..count {
            run.case(seed, index);
            if run.over() {
                return;
            }
        }
    }
}

fn captured(folder: &Path) -> i32 {
    let mut run = new_run();
    if let Err(error) = captures::run(&mut run, folder) {
        eprintln!("{}: {error}", folder.display());
        return 2;
    }
    run.counts.print();
    end(&run)
}

fn one(seed: u64, index: u64) -> i32 {
    let mut run = new_run();
    run.case(seed, index);
    run.counts.print();
    end(&run)
}

fn end(run: &Run) -> i32 {
    println!("{} compared, {} differences", run.counts.compared(), run.differences);
    i32::from(run.differences > 0)
}
