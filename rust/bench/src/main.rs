//! Prints the tables of docs/SPEED.md, and draws its plot to the file that is named. All figures are of this one run; the
//! buffers are not cleared between calls. `--beside PROGRAM` prints instead what changed since PROGRAM, an earlier build.

mod measure;
mod networks;
mod plain;
mod plot;
mod turns;

use measure::{best, Kept};
use networks::Sample;

fn main() -> std::io::Result<()> {
    let words: Vec<_> = std::env::args_os().skip(1).collect();
    match words.as_slice() {
        [] => tables(None),
        [word] if word == "--times" => {
            turns::times();
            Ok(())
        }
        [word, program] if word == "--beside" => turns::beside(program.as_ref(), &std::env::current_exe()?),
        [plot] if !plot.to_string_lossy().starts_with('-') => tables(Some(plot.as_ref())),
        _ => {
            eprintln!("bench [PLOT | --beside PROGRAM | --times]");
            std::process::exit(2)
        }
    }
}

fn tables(plot: Option<&std::path::Path>) -> std::io::Result<()> {
    single_layers();
    whole_networks();
    let points = growth(&networks::whole_networks()[2]);
    tests_alone();
    match plot {
        Some(path) => std::fs::write(path, plot::drawn(&points)),
        None => Ok(()),
    }
}

/// The straightforward version and the archive over the same network, which must agree in every byte.
fn both(sample: &Sample) -> (Kept, f64, f64) {
    let mut kept = Kept::new(&sample.file);
    let mut area = kept.area.clone();
    area[kept.network.picture.bytes()..].fill(0);
    plain::run(&kept.network, &mut area);
    assert!(area == kept.area, "{}: the two differ", sample.name);
    let straightforward = best(|| plain::run(&kept.network, &mut area));
    let fresh = best(|| {
        kept.fresh();
    });
    (kept, straightforward, fresh)
}

fn single_layers() {
    println!("| layer | straightforward | update of all rows | share |\n|---|---|---|---|");
    for sample in networks::single_layers() {
        let (_, straightforward, fresh) = both(&sample);
        println!("| {} | {straightforward:.1} | {fresh:.1} | {:.2} |", sample.name, fresh / straightforward);
    }
    println!();
}

fn whole_networks() {
    println!(
        "| network | straightforward | all rows | bytes | three rows | bytes | ns a byte, all | ns a byte, three |"
    );
    println!("|---|---|---|---|---|---|---|---|");
    for sample in networks::whole_networks() {
        let (mut kept, straightforward, fresh) = both(&sample);
        let first = (kept.network.picture.rows / 2) as u16;
        let (all, three) = (kept.fresh(), kept.after_rows(first, 3));
        let changed = best(|| {
            kept.after_rows(first, 3);
        });
        let each = |time: f64, bytes: u32| 1000.0 * time / f64::from(bytes);
        println!(
            "| {} | {straightforward:.1} | {fresh:.1} | {all} | {changed:.1} | {three} | {:.1} | {:.1} |",
            sample.name,
            each(fresh, all),
            each(changed, three)
        );
    }
    println!();
}

/// What is measured for a number of changed rows: the bytes recomputed, and microseconds.
pub struct Point {
    pub rows: u16,
    pub bytes: u32,
    pub time: f64,
}

fn growth(sample: &Sample) -> Vec<Point> {
    println!("| rows changed | bytes recomputed | microseconds |\n|---|---|---|");
    let mut kept = Kept::new(&sample.file);
    let rows = kept.network.picture.rows as u16;
    let mut counts: Vec<u16> = [1, 2, 3, 5, 10, 20, 40, 60].into_iter().filter(|&count| count < rows).collect();
    counts.push(rows);
    let mut points = Vec::new();
    for count in counts {
        let first = (rows - count) / 2;
        let bytes = kept.after_rows(first, count);
        let time = best(|| {
            kept.after_rows(first, count);
        });
        println!("| {count} | {bytes} | {time:.1} |");
        points.push(Point { rows: count, bytes, time });
    }
    println!();
    points
}

fn tests_alone() {
    println!(
        "| network | bytes of the file | decoding and tests | share of an update of all rows |\n|---|---|---|---|"
    );
    for sample in networks::whole_networks() {
        let mut kept = Kept::new(&sample.file);
        let fresh = best(|| {
            kept.fresh();
        });
        let tests = best(|| {
            kept.nothing();
        });
        println!("| {} | {} | {tests:.1} | {:.3} |", sample.name, sample.file.len(), tests / fresh);
    }
}
