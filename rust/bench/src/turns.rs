//! Two builds of this program, over two archives, measured in turns: what a change of the library did to an update of
//! all rows.

use std::io::{Error, Result};
use std::path::Path;
use std::process::Command;

use crate::measure::{best, Kept};
use crate::networks::{single_layers, whole_networks, Sample};

const TURNS: usize = 5;

fn samples() -> impl Iterator<Item = Sample> {
    single_layers().into_iter().chain(whole_networks())
}

/// Prints the microseconds of each layer and network, a line each.
pub fn times() {
    for sample in samples() {
        let mut kept = Kept::new(&sample.file);
        println!(
            "{}",
            best(|| {
                kept.fresh();
            })
        );
    }
}

/// Prints the table of two builds, with the best of what each of them says in its turns.
pub fn beside(before: &Path, after: &Path) -> Result<()> {
    let mut least = [before, after].map(|program| (program, vec![f64::MAX; samples().count()]));
    for _ in 0..TURNS {
        for (program, times) in &mut least {
            for (time, said) in times.iter_mut().zip(said_by(program)?) {
                *time = time.min(said);
            }
        }
    }
    println!("| layer or network, all rows | before | after | share |\n|---|---|---|---|");
    let [(_, before), (_, after)] = least;
    for ((sample, before), after) in samples().zip(before).zip(after) {
        println!("| {} | {before:.1} | {after:.1} | {:.2} |", sample.name, after / before);
    }
    Ok(())
}

fn said_by(program: &Path) -> Result<Vec<f64>> {
    let text = Command::new(program).arg("--times").output()?.stdout;
    let times: Option<Vec<f64>> = String::from_utf8_lossy(&text).lines().map(|line| line.parse().ok()).collect();
    times
        .filter(|times| times.len() == samples().count())
        .ok_or_else(|| Error::other(format!("{}: not a time for each layer and network", program.display())))
}
