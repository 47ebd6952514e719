//! Numbers, bytes and sums, as a script writes them.
use std::fmt::Write;
use std::io::Read;

/// What a word gives, or the answer to its line.
pub type Given<T> = Result<T, &'static str>;

pub const BAD: &str = "bad line";
const MISSING: &str = "no such file";
const FILE_TOO_LARGE: &str = "too large: at most 2097152 bytes";
pub const LINE_TOO_LARGE: &str = "too large: at most 65536 bytes";

/// The longest file that `@FILE` names.
const FILE_MAX: u64 = 2_097_152;

/// A decimal number up to 2^64 − 1.
pub fn number(word: &[u8]) -> Given<u64> {
    if word.is_empty() || !word.iter().all(u8::is_ascii_digit) {
        return Err(BAD);
    }
    std::str::from_utf8(word).ok().and_then(|s| s.parse().ok()).ok_or(BAD)
}

/// The bytes of a file, of which no more are read than tell that it is too long.
fn file(path: &[u8]) -> Given<Vec<u8>> {
    let path = std::str::from_utf8(path).map_err(|_| MISSING)?;
    let mut b = Vec::new();
    let read = std::fs::File::open(path).and_then(|f| f.take(FILE_MAX + 1).read_to_end(&mut b));
    match read.map_err(|_| MISSING)? as u64 > FILE_MAX {
        true => Err(FILE_TOO_LARGE),
        false => Ok(b),
    }
}

/// Pairs of hex digits, `-`, `'` and the bytes themselves, or `@FILE`.
pub fn bytes(word: &[u8]) -> Given<Vec<u8>> {
    match word {
        [] => Err(BAD),
        b"-" => Ok(Vec::new()),
        [b'\'', rest @ ..] => Ok(rest.to_vec()),
        [b'@', path @ ..] => file(path),
        _ => {
            if word.len() % 2 != 0 {
                return Err(BAD);
            }
            let digit = |d: u8| (d as char).to_digit(16).map(|v| v as u8).ok_or(BAD);
            word.chunks(2).map(|pair| Ok(16 * digit(pair[0])? + digit(pair[1])?)).collect()
        }
    }
}

/// Bytes as hex digits, `-` for none.
pub fn hex(b: &[u8]) -> String {
    if b.is_empty() {
        return "-".into();
    }
    let mut s = String::with_capacity(2 * b.len());
    for x in b {
        write!(s, "{x:02x}").unwrap();
    }
    s
}

const CRC: [u32; 256] = {
    let mut table = [0u32; 256];
    let mut i = 0;
    while i < 256 {
        let mut c = i as u32;
        let mut k = 0;
        while k < 8 {
            c = if c & 1 == 1 { 0xedb8_8320 ^ (c >> 1) } else { c >> 1 };
            k += 1;
        }
        table[i] = c;
        i += 1;
    }
    table
};

/// CRC-32 as in gzip.
pub fn crc(b: &[u8]) -> u32 {
    !b.iter().fold(!0u32, |c, &x| CRC[(c as u8 ^ x) as usize] ^ (c >> 8))
}
