//! What the published files call `alloc`: the real one, but for `vec!`, which exec.rs uses once, in copy_argv. Besides the vector
//! it expands to functions of `Exec`, a type of the crate r9; as they stand inside exec.rs, they can name exec.rs's private
//! functions, and the file stays unchanged.
#![no_std]
extern crate alloc as real;
#[doc(hidden)]
pub use real::vec as realvec;
pub use real::*;

#[macro_export]
macro_rules! vec {
    ($x:expr; $n:expr) => {{
        #[allow(non_local_definitions)]
        impl crate::inside::Exec {
            pub fn layout<A: ProcArch>(elf: &Elf) -> crate::Result<VirtRange> {
                layout::<A>(elf)
            }
            pub fn segments(elf: &Elf, bss: VirtRange) -> Vec<UserSegment> {
                segments(elf, bss)
            }
            pub fn args_size<A: ProcArch>(argv: &[&[u8]]) -> crate::Result<usize> {
                args_size::<A>(argv)
            }
            pub fn copy_argv<A: ProcArch>(argv: usize) -> Option<crate::Result<Vec<Vec<u8>>>> {
                copy_argv::<A>(argv)
            }
            pub fn replace_pmmu<A: ProcArch>(pmmu: A::Pmmu) {
                replace_pmmu::<A>(pmmu)
            }
            pub fn set_text<A: ProcArch>(name: &str) {
                set_text::<A>(name)
            }
        }
        $crate::realvec![$x; $n]
    }};
}
