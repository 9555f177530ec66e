//! A first use from Rust: load a network, write the picture, update; some camera rows change, update; read.
//!
//!     cargo run --offline -- ../../samples/centre.net ../../samples/picture.bytes 15 3 ../../samples/rows-15-to-17.bytes
//!
//! What is wrong with a word, a file or a call is said on standard error, and the exit status is then 1.

use std::process::ExitCode;
use std::{env, fs};

use clew::{Joiner, Refusal};

fn main() -> ExitCode {
    let words: Vec<String> = env::args().skip(1).collect();
    match first(&words) {
        Ok(()) => ExitCode::SUCCESS,
        Err(why) => {
            eprintln!("{why}");
            ExitCode::FAILURE
        }
    }
}

fn first(words: &[String]) -> Result<(), String> {
    let [network, picture, first, count, rows] = words else {
        return Err("usage: first NETWORK PICTURE FIRST COUNT ROWS".into());
    };
    let (first, count) = (number(first)?, number(count)?);
    let rows = file(rows)?;
    let mut joiner = Joiner::load(file(network)?).map_err(refused("load"))?;
    write_picture(&mut joiner, picture)?;
    update(&mut joiner)?;
    joiner.change_rows(first, count, &rows).map_err(refused("change rows"))?;
    update(&mut joiner)?;
    let reading = joiner.reading().map_err(refused("read"))?;
    println!("{}", reading.iter().map(|byte| format!(" {byte}")).collect::<String>());
    Ok(())
}

/// The picture's file has to have just the picture's bytes.
fn write_picture(joiner: &mut Joiner, name: &str) -> Result<(), String> {
    let (bytes, needed) = (file(name)?, joiner.picture_len());
    if bytes.len() != needed {
        let how = if bytes.len() < needed { "fewer" } else { "more" };
        return Err(format!("{name}: {how} bytes than the network's picture, which has {needed}"));
    }
    joiner.picture_mut().ok_or("the picture is written before the first update")?.copy_from_slice(&bytes);
    Ok(())
}

fn update(joiner: &mut Joiner) -> Result<(), String> {
    println!("{} bytes recomputed", joiner.update().map_err(refused("update"))?);
    Ok(())
}

fn file(name: &str) -> Result<Vec<u8>, String> {
    fs::read(name).map_err(|why| format!("{name}: {why}"))
}

/// Digits and nothing else.
fn number(word: &str) -> Result<usize, String> {
    let digits = word.bytes().all(|byte| byte.is_ascii_digit());
    word.parse().ok().filter(|_| digits).ok_or_else(|| format!("'{word}' is not a number, or too large a one"))
}

/// Which call it was, the refusal's number and its words.
fn refused(call: &str) -> impl Fn(Refusal) -> String + '_ {
    move |refusal| format!("{call}: {refusal}")
}
