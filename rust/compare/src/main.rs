//! `compare`: the second implementation against the archive, a server, itself, or wrong variants of itself.

mod options;

use std::io::{stdin, stdout};
use std::process::ExitCode;

use compare::implementations::Second;
use compare::lent::Implementation;
use compare::rng::{fresh_seed, FIXED_SEED};
use compare::run::{run, run_case, Found, Until};
use compare::self_test::{control, try_each};
use compare::serve::serve;
use compare::served::Served;
use compare::tally::Tally;
use options::{Against, Options, USAGE};

/// So many calls have to meet every number that a call may give.
const CALLS_THAT_MEET_ALL: u64 = 20_000;

fn main() -> ExitCode {
    let options = match options::parse(std::env::args().skip(1)) {
        Ok(options) => options,
        Err(words) => {
            eprintln!("{words}\n{USAGE}");
            return ExitCode::from(2);
        }
    };
    match &options.against {
        Against::Itself => exit_code(compare(&options, &Second)),
        Against::Archive => compare_archive(&options),
        Against::WrongVariants => self_test(&options),
        Against::Served { program, words } => compare_served(&options, program, words),
        Against::Nothing => answer_calls(),
    }
}

#[cfg(feature = "archive")]
fn compare_archive(options: &Options) -> ExitCode {
    exit_code(compare(options, &compare::implementations::Archive))
}

#[cfg(not(feature = "archive"))]
fn compare_archive(_: &Options) -> ExitCode {
    eprintln!("compare: built without the archive: build it with --features archive, or see --self-test\n{USAGE}");
    ExitCode::from(2)
}

/// The server's answers have to agree, and it has to end well.
fn compare_served(options: &Options, program: &str, words: &[String]) -> ExitCode {
    let served = match Served::start(program, words) {
        Ok(served) => served,
        Err(error) => {
            eprintln!("compare: {program}: {error}");
            return ExitCode::from(2);
        }
    };
    let fine = compare(options, &served);
    let end = served.end();
    if let Err(words) = &end {
        println!("compare: {words}");
    }
    exit_code(fine && end.is_ok())
}

fn answer_calls() -> ExitCode {
    let outcome = serve(&Second, stdin().lock(), stdout().lock());
    if let Err(error) = &outcome {
        eprintln!("compare: --serve: {error}");
    }
    exit_code(outcome.is_ok())
}

/// The seed that is given, or the fixed one and then a fresh one.
fn compare(options: &Options, other: &dyn Implementation) -> bool {
    let seed = options.seed.unwrap_or(FIXED_SEED);
    if let Some(case) = options.case {
        return told(seed, run_case(&Second, other, seed, case), Meets::Some);
    }
    let fine = compare_seed(options, other, seed, options.until, Meets::All);
    fine && (options.seed.is_some() || compare_fresh(options, other))
}

/// A seed that no run had before, told before it is used: an implementation may not come back.
fn compare_fresh(options: &Options, other: &dyn Implementation) -> bool {
    let seed = fresh_seed();
    println!("compare: fresh seed {seed}");
    compare_seed(options, other, seed, options.until.a_fifth(), Meets::Some)
}

/// What a run has to meet of the numbers that calls may give. With a fresh seed that is chance.
#[derive(Clone, Copy, PartialEq, Eq)]
enum Meets {
    All,
    Some,
}

fn compare_seed(options: &Options, other: &dyn Implementation, seed: u64, until: Until, meets: Meets) -> bool {
    let outcome = run(&Second, other, seed, until, |case| {
        if options.trace {
            eprintln!("case {case}");
        }
    });
    told(seed, outcome, meets)
}

/// Tells what came of a run, and whether it is fine.
fn told(seed: u64, outcome: Result<Tally, Found>, meets: Meets) -> bool {
    match outcome {
        Ok(tally) => report(&tally, meets),
        Err(found) => {
            tell(seed, &found);
            false
        }
    }
}

fn report(tally: &Tally, meets: Meets) -> bool {
    println!("{tally}");
    println!("{} accepted readings compared with a fresh run", tally.fresh_runs);
    println!("{} pictures written straight into the area after a load", tally.pictures_written);
    let not_met = tally.not_met();
    if !not_met.is_empty() {
        println!("not met: {}", not_met.join(", "));
        if meets == Meets::All && tally.calls() >= CALLS_THAT_MEET_ALL {
            return false;
        }
    }
    println!("compare: {} calls, {} networks, 0 differences", tally.calls(), tally.networks);
    true
}

fn tell(seed: u64, found: &Found) {
    let Found { case, calls, difference, .. } = found;
    println!("compare: a difference: seed {seed}, case {case}, after {calls} calls");
    println!("{}", difference.words);
    println!("this case alone: --seed {seed} --case {case}");
}

fn exit_code(fine: bool) -> ExitCode {
    if fine {
        ExitCode::SUCCESS
    } else {
        ExitCode::FAILURE
    }
}

fn self_test(options: &Options) -> ExitCode {
    let seed = options.seed.unwrap_or(FIXED_SEED);
    if let Err(found) = control(seed, options.until) {
        println!("compare: the variant without a fault differs");
        tell(seed, &found);
        return ExitCode::FAILURE;
    }
    let (mut tried, mut missed) = (0, 0);
    try_each(seed, options.until, |variant| {
        tried += 1;
        let words = if variant.in_both { format!("in both: {}", variant.words) } else { variant.words.to_string() };
        match variant.found() {
            Some(Found { calls, case, .. }) => println!("found after {calls:>6} calls in case {case:>4}: {words}"),
            None => {
                missed += 1;
                println!("NOT FOUND: {words}");
            }
        }
    });
    println!("compare: self-test: {tried} wrong variants, {missed} not found");
    exit_code(missed == 0)
}
