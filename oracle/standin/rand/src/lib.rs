//! Stand-in for `rand`: timers are left out, so the only draw is never used.

use std::ops::RangeInclusive;

pub struct ThreadRng;

#[must_use]
pub fn rng() -> ThreadRng {
    ThreadRng
}

pub mod prelude {
    pub use crate::Rng;
}

pub trait Rng {
    fn random_range<T>(&mut self, range: RangeInclusive<T>) -> T {
        range.into_inner().0
    }
}
impl Rng for ThreadRng {}
