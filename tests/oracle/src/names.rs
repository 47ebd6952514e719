//! Names: the Rust's are strings, the rules' any bytes.
use crate::answer::rust;
use crate::script::Answer;
use crate::world::{Machine, World};
use r9::dat::KNAMELEN;
use r9::inside::{self, Exec};

/// The name copy for bytes that aren't UTF-8: the harness's own.
fn own_kstrcpy(src: &[u8]) -> [u8; KNAMELEN] {
    let mut dst = [0; KNAMELEN];
    if src.len() < KNAMELEN {
        dst[..src.len()].copy_from_slice(src);
    } else {
        let cut = (1..=24).rev().find(|&i| !(128..192).contains(&src[i])).unwrap_or(0);
        dst[..cut].copy_from_slice(&src[..cut]);
        dst[cut..cut + 3].copy_from_slice(b"...");
    }
    dst
}

/// The name copy by itself.
pub fn kstrcpy(src: &[u8]) -> Answer<[u8; KNAMELEN]> {
    let Ok(s) = std::str::from_utf8(src) else { return Ok(own_kstrcpy(src)) };
    rust(|| {
        let mut dst = [0xee; KNAMELEN];
        inside::kstrcpy(&mut dst, s);
        dst
    })
}

impl World {
    /// The name of `n`, the current process, by exec.rs's own function if it is a string.
    pub fn set_name(&mut self, n: usize, name: &[u8]) -> Answer<()> {
        if let Ok(s) = std::str::from_utf8(name) {
            return rust(|| Exec::set_text::<Machine>(s));
        }
        let last = name.rsplit(|&b| b == b'/').next().unwrap();
        self.procs.set_name(n, own_kstrcpy(last));
        Ok(())
    }
}

/// `name` as a string that dev.rs opens as a file under /bin, if it is one.
pub fn openable(name: &[u8]) -> Option<&str> {
    let s = std::str::from_utf8(name).ok()?;
    s.strip_prefix("/bin/").is_some_and(|e| !e.is_empty() && e != "." && !e.contains('/')).then_some(s)
}
