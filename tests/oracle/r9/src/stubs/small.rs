//! Stand in for the small parts of r9 that the published files name.
pub mod irq {
    pub fn in_interrupt() -> bool {
        false
    }
    pub mod tests {
        pub fn is_masked() -> bool {
            false
        }
    }
}

pub mod timer {
    #[derive(Default)]
    pub struct Timer;
}

pub mod maths {
    pub const fn round_down2_u64(x: u64, step: u64) -> u64 {
        x & !(step - 1)
    }
}

pub mod console {
    pub trait Uart {
        fn putb(&self, b: u8);
    }
    pub fn set_uart(_u: &'static dyn Uart) {}
}

pub mod proc {
    /// What pexit leaves by: it never returns, so it unwinds to the harness.
    pub struct Exit(pub Vec<u8>);
    pub fn pexit<A: crate::dat::ProcArch>(status: &[u8]) -> ! {
        std::panic::resume_unwind(Box::new(Exit(status.to_vec())))
    }
}

/// The root device: every file under /bin holds the bytes of FILE.
pub mod devroot {
    use crate::chan::{Chan, QTDIR, QTFILE, Qid, openmode};
    use crate::dev::{Dev, readstr};
    use std::cell::RefCell;
    use std::sync::Arc;

    thread_local! {
        pub static FILE: RefCell<Vec<u8>> = const { RefCell::new(Vec::new()) };
    }

    pub struct Root;
    pub static ROOT: Root = Root;

    impl Dev for Root {
        fn dc(&self) -> char {
            '/'
        }
        fn attach(&self, _spec: &str) -> crate::Result<Arc<Chan>> {
            Ok(Chan::new(&ROOT, Qid { path: 0, kind: QTDIR }))
        }
        fn walk(&self, c: &Arc<Chan>, elems: &[&str]) -> crate::Result<Arc<Chan>> {
            let mut path = c.qid().path;
            for e in elems {
                path = match (path, *e) {
                    (0, "boot") => 1,
                    (1, _) => 2,
                    _ => return Err(crate::error::ENONEXIST),
                };
            }
            Ok(Chan::new(&ROOT, Qid { path, kind: if path == 2 { QTFILE } else { QTDIR } }))
        }
        fn open(&self, c: &Arc<Chan>, omode: u32) -> crate::Result<Arc<Chan>> {
            let length = FILE.with(|f| f.borrow().len() as u64);
            Ok(Chan::opened(&ROOT, *c.qid(), openmode(omode)?, length))
        }
        fn read(&self, _c: &Arc<Chan>, buf: &mut [u8], off: u64) -> crate::Result<u64> {
            Ok(FILE.with(|f| readstr(off, buf, &f.borrow())))
        }
        fn write(&self, _c: &Arc<Chan>, _buf: &[u8], _off: u64) -> crate::Result<u64> {
            Err(crate::error::EPERM)
        }
        fn close(&self, _c: &Chan) {}
    }
}

/// The console: never opened.
pub mod devcons {
    use crate::chan::Chan;
    use crate::dev::Dev;
    use crate::error::ENONEXIST;
    use std::sync::Arc;

    pub struct Cons;
    pub static CONS: Cons = Cons;

    impl Dev for Cons {
        fn dc(&self) -> char {
            'c'
        }
        fn attach(&self, _spec: &str) -> crate::Result<Arc<Chan>> {
            Err(ENONEXIST)
        }
        fn walk(&self, _c: &Arc<Chan>, _elems: &[&str]) -> crate::Result<Arc<Chan>> {
            Err(ENONEXIST)
        }
        fn open(&self, _c: &Arc<Chan>, _omode: u32) -> crate::Result<Arc<Chan>> {
            Err(ENONEXIST)
        }
        fn read(&self, _c: &Arc<Chan>, _buf: &mut [u8], _off: u64) -> crate::Result<u64> {
            Err(ENONEXIST)
        }
        fn write(&self, _c: &Arc<Chan>, _buf: &[u8], _off: u64) -> crate::Result<u64> {
            Err(ENONEXIST)
        }
        fn close(&self, _c: &Chan) {}
    }
}
