//! The oracle: the twelve published files of r9, compiled unchanged (the crate r9), behind a harness that runs scripts of calls over
//! them and prints the answers.
//!
//!     oracle          a script on standard input, an answer for each line
//!     oracle list     an image on standard input, its listing
//!     oracle lists    an image a line, as BYTES; its listing on one line, `;` between the lines
//!
//! What the Rust has no notion of is the harness's own, by the rules: those places say so. With ORACLE_NEEDS=1 a last line
//! on standard error counts the forks and replaces that the harness's own needs of frames decide.

mod answer;
mod calls;
mod listing;
mod names;
mod rule;
mod script;
mod sound;
mod text;
mod world;

use std::io::{Read, Write};
use std::sync::atomic::Ordering::Relaxed;

fn main() {
    // A panic of the Rust is an answer of its own, `assert ..`; no trace of it.
    std::panic::set_hook(Box::new(|_| ()));
    let mut input = Vec::new();
    std::io::stdin().read_to_end(&mut input).expect("standard input");
    let mut out = std::io::BufWriter::new(std::io::stdout());
    let args: Vec<String> = std::env::args().skip(1).collect();
    let args: Vec<&str> = args.iter().map(String::as_str).collect();
    match args[..] {
        [] => {
            let mut w = <world::World as script::Calls>::new(0, 0);
            for line in input.split(|&b| b == b'\n') {
                if let Some(answer) = script::answer(&mut w, line) {
                    writeln!(out, "{answer}").unwrap();
                }
            }
            if std::env::var_os("ORACLE_NEEDS").is_some() {
                eprintln!("needs: {} {}", calls::FORKS.load(Relaxed), calls::REPLACES.load(Relaxed));
            }
        }
        ["list"] => write!(out, "{}", listing::listing(&input)).unwrap(),
        ["lists"] => {
            for line in input.split(|&b| b == b'\n').filter(|l| !l.is_empty()) {
                let image = text::bytes(line).expect("an image as BYTES");
                writeln!(out, "{}", listing::listing(&image).trim_end().replace('\n', ";")).unwrap();
            }
        }
        _ => {
            eprintln!("usage: oracle [list|lists]");
            std::process::exit(2);
        }
    }
    out.flush().unwrap();
}
