//! Stands in for r9's mcslock.rs: a lock for one thread, which panics if it is
//! taken twice.
use std::cell::{Cell, UnsafeCell};
use std::ops::{Deref, DerefMut};

pub struct LockNode(());

impl LockNode {
    pub const fn new() -> Self {
        LockNode(())
    }
}

pub struct Lock<T> {
    name: &'static str,
    held: Cell<bool>,
    value: UnsafeCell<T>,
}

// SAFETY: the programs over this crate are single threads.
unsafe impl<T> Sync for Lock<T> {}
unsafe impl<T> Send for Lock<T> {}

pub struct LockGuard<'a, T>(&'a Lock<T>);

impl<T> Lock<T> {
    pub const fn new(name: &'static str, value: T) -> Self {
        Lock { name, held: Cell::new(false), value: UnsafeCell::new(value) }
    }
    pub fn lock<'a>(&'a self, _node: &'a LockNode) -> LockGuard<'a, T> {
        assert!(!self.held.replace(true), "lock {} taken twice", self.name);
        LockGuard(self)
    }
}

impl<T> Drop for LockGuard<'_, T> {
    fn drop(&mut self) {
        self.0.held.set(false)
    }
}

impl<T> Deref for LockGuard<'_, T> {
    type Target = T;
    fn deref(&self) -> &T {
        // SAFETY: a guard is the only one of its lock.
        unsafe { &*self.0.value.get() }
    }
}

impl<T> DerefMut for LockGuard<'_, T> {
    fn deref_mut(&mut self) -> &mut T {
        // SAFETY: as above.
        unsafe { &mut *self.0.value.get() }
    }
}
