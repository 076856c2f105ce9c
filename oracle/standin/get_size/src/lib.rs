//! Stand-in for `get_size`: sizes are only reported, never read by a rule.

use std::collections::HashMap;

pub use derives::GetSize;

pub trait GetSize {
    fn get_heap_size(&self) -> usize {
        0
    }
}

impl GetSize for () {}
impl GetSize for u8 {}
impl GetSize for u64 {}
impl GetSize for usize {}
impl<T: GetSize> GetSize for Option<T> {}
impl<A: GetSize, B: GetSize> GetSize for (A, B) {}
impl<K: GetSize, V: GetSize> GetSize for HashMap<K, V> {}
