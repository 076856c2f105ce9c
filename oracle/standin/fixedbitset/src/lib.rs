//! Stand-in for `fixedbitset::FixedBitSet`, from its public documentation: a
//! set of `bool`s of fixed length. Sets of up to 256 bits are enough here
//! (`Bitmap` has a `u8` size), so the blocks stand in the value itself.

use std::ops::{Index, RangeFull};

const BITS: usize = usize::BITS as usize;
const BLOCKS: usize = 256 / BITS;

#[derive(Clone, Debug, Default, PartialEq, Eq)]
pub struct FixedBitSet {
    blocks: [usize; BLOCKS],
    length: usize,
}

impl FixedBitSet {
    /// A new set of `bits` bits, all clear.
    #[must_use]
    pub fn with_capacity(bits: usize) -> Self {
        assert!(bits <= BLOCKS * BITS, "at most {} bits", BLOCKS * BITS);
        FixedBitSet {
            blocks: [0; BLOCKS],
            length: bits,
        }
    }

    /// A new set of `bits` bits that takes its bits from `blocks`; what is
    /// missing is clear, what is too much is dropped.
    pub fn with_capacity_and_blocks<I: IntoIterator<Item = usize>>(bits: usize, blocks: I) -> Self {
        let mut set = Self::with_capacity(bits);
        for (block, given) in set.blocks.iter_mut().zip(blocks) {
            *block = given;
        }
        set.clear_tail();
        set
    }

    /// The length in bits.
    #[inline]
    #[must_use]
    pub fn len(&self) -> usize {
        self.length
    }

    #[inline]
    #[must_use]
    pub fn is_empty(&self) -> bool {
        self.length == 0
    }

    #[must_use]
    pub fn as_slice(&self) -> &[usize] {
        &self.blocks[..self.length.div_ceil(BITS)]
    }

    /// Whether `bit` is set; false at and above the length.
    #[inline]
    #[must_use]
    pub fn contains(&self, bit: usize) -> bool {
        bit < self.length && self.blocks[bit / BITS] >> (bit % BITS) & 1 == 1
    }

    /// Panics if `bit` is out of bounds.
    #[inline]
    pub fn set(&mut self, bit: usize, enabled: bool) {
        assert!(
            bit < self.length,
            "set at index {bit} exceeds fixedbitset size {}",
            self.length
        );
        let mask = 1 << (bit % BITS);
        if enabled {
            self.blocks[bit / BITS] |= mask;
        } else {
            self.blocks[bit / BITS] &= !mask;
        }
    }

    pub fn set_range(&mut self, _: RangeFull, enabled: bool) {
        self.blocks = [if enabled { usize::MAX } else { 0 }; BLOCKS];
        self.clear_tail();
    }

    pub fn toggle_range(&mut self, _: RangeFull) {
        for block in &mut self.blocks {
            *block = !*block;
        }
        self.clear_tail();
    }

    /// Clears all bits; the length stays.
    #[inline]
    pub fn clear(&mut self) {
        self.blocks = [0; BLOCKS];
    }

    #[inline]
    #[must_use]
    pub fn count_ones(&self, _: RangeFull) -> usize {
        self.blocks.iter().map(|b| b.count_ones() as usize).sum()
    }

    /// In-place union; grows to the longer of the two lengths.
    pub fn union_with(&mut self, other: &Self) {
        self.length = self.length.max(other.length);
        for (block, given) in self.blocks.iter_mut().zip(&other.blocks) {
            *block |= given;
        }
    }

    /// Whether every element of `other` is in this set.
    #[must_use]
    pub fn is_superset(&self, other: &Self) -> bool {
        self.blocks
            .iter()
            .zip(&other.blocks)
            .all(|(mine, theirs)| theirs & !mine == 0)
    }

    fn clear_tail(&mut self) {
        for (i, block) in self.blocks.iter_mut().enumerate() {
            let used = self.length.saturating_sub(i * BITS).min(BITS);
            if used < BITS {
                *block &= (1 << used) - 1;
            }
        }
    }
}

impl Index<usize> for FixedBitSet {
    type Output = bool;

    #[inline]
    fn index(&self, bit: usize) -> &bool {
        if self.contains(bit) { &true } else { &false }
    }
}

#[cfg(test)]
mod tests {
    use super::*;

    #[test]
    fn agrees_with_a_list_of_bools() {
        for length in [1, 2, 63, 64, 65, 127, 128, 200, 255, 256] {
            let mut set = FixedBitSet::with_capacity(length);
            let mut bools = vec![false; length];
            let mut seed = length;
            for _ in 0..500 {
                seed = seed.wrapping_mul(6_364_136_223_846_793_005).wrapping_add(1);
                let (bit, enabled) = ((seed >> 33) % length, seed >> 62 & 1 == 1);
                set.set(bit, enabled);
                bools[bit] = enabled;
                assert_eq!(set[bit], enabled);
            }
            assert_eq!(set.len(), length);
            assert_eq!(set.count_ones(..), bools.iter().filter(|b| **b).count());
            for (bit, enabled) in bools.iter().enumerate() {
                assert_eq!(set.contains(bit), *enabled);
            }
            assert!(!set.contains(length) && !set[length]);
            let old = set.clone();
            set.toggle_range(..);
            assert_eq!(set.count_ones(..), length - old.count_ones(..));
            set.union_with(&old);
            assert_eq!(set.count_ones(..), length);
            assert!(set.is_superset(&old));
            assert!(!FixedBitSet::with_capacity(length).is_superset(&set));
            set.clear();
            assert_eq!((set.len(), set.count_ones(..)), (length, 0));
            set.set_range(.., true);
            assert_eq!(set.count_ones(..), length);
        }
    }

    #[test]
    #[should_panic(expected = "exceeds fixedbitset size")]
    fn set_out_of_bounds_panics() {
        FixedBitSet::with_capacity(3).set(3, true);
    }
}
