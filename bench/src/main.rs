//! The calls of the proved library beside those of the published Rust, and the limit: `memcpy` and `memset` of the same bytes.
//! bench/run builds and runs it. It is no timed test.
//!
//! Each case brings both sides to the same state by the same calls, times them in turns, and then holds both sides' books and frame
//! bytes to each other.
mod calls;
mod clock;
mod growth;
mod image;
mod limit;
mod ours;
mod parts;
mod region;
mod rust;
mod table;

/// All parts, or those that are named.
fn main() {
    let parts: [(&str, fn()); 5] = [
        ("loops", parts::loops),
        ("check", parts::check),
        ("parse", parts::parse),
        ("calls", table::table),
        ("growth", growth::growth),
    ];
    let named: Vec<String> = std::env::args().skip(1).collect();
    if let Some(n) = named.iter().find(|n| parts.iter().all(|(name, _)| name != n)) {
        eprintln!("bench: no part {n}: there are loops, check, parse, calls and growth");
        std::process::exit(2);
    }
    for (name, run) in parts {
        if named.is_empty() || named.iter().any(|n| n == name) {
            run();
        }
    }
}
