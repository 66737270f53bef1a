//! Stand-in: a list that is made entry by entry.

use alloc::vec::Vec;

use crate::alloc;

pub trait VecExtns<T> {
    fn new_init<F: FnMut(usize) -> T>(size: usize, f: F) -> Vec<T>;
}

impl<T> VecExtns<T> for Vec<T> {
    fn new_init<F: FnMut(usize) -> T>(size: usize, f: F) -> Vec<T> {
        (0..size).map(f).collect()
    }
}
