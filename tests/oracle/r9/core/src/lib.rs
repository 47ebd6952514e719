//! What the published files call `core`: the real one, but for
//! - `ptr::copy_nonoverlapping` and `ptr::read`, with which uaccess.rs touches user addresses: hooks.rs or straight.rs;
//! - `iter::Step` and `iter::StepBy`, which mem.rs implements as a later nightly has them. Their only use is
//!   `PhysRange::step_by_rounded`, which none of the other files calls, so a trait of the same shape stands in.
#![no_std]
pub use ::core::*;

#[cfg(feature = "hooks")]
#[path = "hooks.rs"]
pub mod ptr;
#[cfg(not(feature = "hooks"))]
#[path = "straight.rs"]
pub mod ptr;

pub mod iter {
    pub use ::core::iter::*;
    use ::core::ops::Range;

    pub struct StepBy<R>(pub R, pub usize);

    pub trait Step: Sized {
        fn steps_between(a: &Self, b: &Self) -> (usize, Option<usize>);
        fn forward_checked(a: Self, n: usize) -> Option<Self>;
        fn forward_overflowing(a: Self, n: usize) -> (Self, bool);
        fn backward_checked(a: Self, n: usize) -> Option<Self>;
        fn backward_overflowing(a: Self, n: usize) -> (Self, bool);
        fn step_by(self, n: usize) -> StepBy<Self> {
            StepBy(self, n)
        }
    }

    /// A range steps by its start.
    impl<T: Step> Step for Range<T> {
        fn steps_between(a: &Self, b: &Self) -> (usize, Option<usize>) {
            T::steps_between(&a.start, &b.start)
        }
        fn forward_checked(a: Self, n: usize) -> Option<Self> {
            Some(T::forward_checked(a.start, n)?..a.end)
        }
        fn forward_overflowing(a: Self, n: usize) -> (Self, bool) {
            let (start, over) = T::forward_overflowing(a.start, n);
            (start..a.end, over)
        }
        fn backward_checked(a: Self, n: usize) -> Option<Self> {
            Some(T::backward_checked(a.start, n)?..a.end)
        }
        fn backward_overflowing(a: Self, n: usize) -> (Self, bool) {
            let (start, over) = T::backward_overflowing(a.start, n);
            (start..a.end, over)
        }
    }
}
