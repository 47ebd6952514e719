//! How a piece of the Rust that refuses, ends the process or panics becomes an answer.
use crate::script::{Answer, Stop};
use r9::{error, proc};
use std::panic::{AssertUnwindSafe, catch_unwind};

/// An error string's number.
pub fn number(e: &str) -> u64 {
    match e {
        error::EBADEXEC => 30,
        error::EBADARG => 32,
        error::ENOVMEM => 33,
        error::ESOVERLAP => 34,
        "sys: bad address in syscall" => 35,
        _ => 99,
    }
}

/// Run a piece of the Rust: pexit ends the process, a panic is an assert.
pub fn rust<T>(f: impl FnOnce() -> T) -> Answer<T> {
    catch_unwind(AssertUnwindSafe(f)).map_err(|p| {
        if let Some(exit) = p.downcast_ref::<proc::Exit>() {
            return Stop::Ended(number(&String::from_utf8_lossy(&exit.0)));
        }
        if let Some(s) = p.downcast_ref::<String>() {
            return Stop::Assert(s.clone());
        }
        if let Some(s) = p.downcast_ref::<&str>() {
            return Stop::Assert(s.to_string());
        }
        std::panic::resume_unwind(p)
    })
}

/// As `rust`, for a function that answers with an error string.
pub fn result<T>(f: impl FnOnce() -> r9::Result<T>) -> Answer<T> {
    rust(f)?.map_err(|e| Stop::Refused(number(e)))
}
