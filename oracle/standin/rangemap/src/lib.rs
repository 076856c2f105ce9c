//! Stand-in for `rangemap::RangeInclusiveMap`, from its public documentation:
//! a map whose keys are inclusive ranges. Touching or overlapping ranges of
//! equal value are one range; an insert overwrites what it overlaps.
//!
//! The ranges stand in one ascending vector.

use std::cmp::Ordering;
use std::ops::RangeInclusive;

/// Successor and predecessor of a key.
pub trait StepLite {
    #[must_use]
    fn add_one(&self) -> Self;
    #[must_use]
    fn sub_one(&self) -> Self;
}

macro_rules! impl_step {
    ($($t:ty),*) => {$(
        impl StepLite for $t {
            #[inline]
            fn add_one(&self) -> Self {
                self + 1
            }
            #[inline]
            fn sub_one(&self) -> Self {
                self - 1
            }
        }
    )*};
}
impl_step!(u8, u16, u32, u64, u128, usize);

#[derive(Clone, Debug, PartialEq, Eq)]
pub struct RangeInclusiveMap<K, V> {
    ranges: Vec<(RangeInclusive<K>, V)>,
}

impl<K, V> Default for RangeInclusiveMap<K, V> {
    fn default() -> Self {
        Self { ranges: Vec::new() }
    }
}

impl<K, V> RangeInclusiveMap<K, V>
where
    K: Ord + Clone + StepLite,
    V: Eq + Clone,
{
    #[must_use]
    pub fn new() -> Self {
        Self::default()
    }

    /// The number of stored ranges.
    #[must_use]
    pub fn len(&self) -> usize {
        self.ranges.len()
    }

    #[must_use]
    pub fn is_empty(&self) -> bool {
        self.ranges.is_empty()
    }

    pub fn clear(&mut self) {
        self.ranges.clear();
    }

    /// The value stored for `key`, if any range covers it.
    #[inline]
    pub fn get(&self, key: &K) -> Option<&V> {
        self.ranges
            .binary_search_by(|(range, _)| {
                if range.end() < key {
                    Ordering::Less
                } else if range.start() > key {
                    Ordering::Greater
                } else {
                    Ordering::Equal
                }
            })
            .ok()
            .map(|i| &self.ranges[i].1)
    }

    /// All pairs in ascending order.
    pub fn iter(&self) -> impl Iterator<Item = (&RangeInclusive<K>, &V)> {
        self.ranges.iter().map(|(range, value)| (range, value))
    }

    /// The pairs whose range meets `range`, ascending.
    pub fn overlapping(
        &self,
        range: RangeInclusive<K>,
    ) -> impl Iterator<Item = (&RangeInclusive<K>, &V)> {
        let (start, end) = range.into_inner();
        self.iter()
            .filter(move |(r, _)| *r.end() >= start && *r.start() <= end)
    }

    /// Panics if the range starts above its end.
    pub fn insert(&mut self, range: RangeInclusive<K>, value: V) {
        let (mut start, mut end) = range.into_inner();
        assert!(start <= end, "range starts above its end");

        // ranges[first..last] are those that overlap the new one; one more on
        // either side may touch it
        let mut first = self.ranges.partition_point(|(r, _)| *r.end() < start);
        let mut last = first + self.ranges[first..].partition_point(|(r, _)| *r.start() <= end);
        if first > 0
            && self.ranges[first - 1].1 == value
            && self.ranges[first - 1].0.end().add_one() == start
        {
            first -= 1;
            start = self.ranges[first].0.start().clone();
        }
        if last < self.ranges.len()
            && self.ranges[last].1 == value
            && end.add_one() == *self.ranges[last].0.start()
        {
            end = self.ranges[last].0.end().clone();
            last += 1;
        }

        let mut left = None;
        let mut right = None;
        if first < last {
            let (range, old) = &self.ranges[first];
            if *range.start() < start {
                if *old == value {
                    start = range.start().clone();
                } else {
                    left = Some((range.start().clone()..=start.sub_one(), old.clone()));
                }
            }
            let (range, old) = &self.ranges[last - 1];
            if *range.end() > end {
                if *old == value {
                    end = range.end().clone();
                } else {
                    right = Some((end.add_one()..=range.end().clone(), old.clone()));
                }
            }
        }
        self.ranges.splice(
            first..last,
            left.into_iter()
                .chain(std::iter::once((start..=end, value)))
                .chain(right),
        );
    }
}

impl<K, V> IntoIterator for RangeInclusiveMap<K, V> {
    type Item = (RangeInclusive<K>, V);
    type IntoIter = std::vec::IntoIter<Self::Item>;

    fn into_iter(self) -> Self::IntoIter {
        self.ranges.into_iter()
    }
}

#[cfg(test)]
mod tests {
    use super::*;

    /// Keys 0 to 255 each with its own value or none; ranges are read off by
    /// walking the points.
    struct Points([Option<u8>; 256]);

    impl Points {
        fn spans(&self) -> Vec<(RangeInclusive<u8>, u8)> {
            let mut spans: Vec<(RangeInclusive<u8>, u8)> = Vec::new();
            let mut open: Option<(u8, u8)> = None;
            for key in 0..=255u8 {
                let value = self.0[key as usize];
                if let Some((start, v)) = open
                    && value != Some(v)
                {
                    spans.push((start..=key - 1, v));
                    open = None;
                }
                if let (None, Some(v)) = (open, value) {
                    open = Some((key, v));
                }
            }
            if let Some((start, v)) = open {
                spans.push((start..=255, v));
            }
            spans
        }
    }

    fn step(seed: &mut u64) -> u64 {
        *seed ^= *seed << 13;
        *seed ^= *seed >> 7;
        *seed ^= *seed << 17;
        *seed
    }

    fn check(map: &RangeInclusiveMap<u8, u8>, points: &Points) {
        assert_eq!(map.ranges, points.spans());
        for key in 0..=255u8 {
            assert_eq!(map.get(&key).copied(), points.0[key as usize]);
        }
    }

    #[test]
    fn agrees_with_points() {
        let mut seed = 0x9e37_79b9_7f4a_7c15;
        for round in 0..3000 {
            let mut map = RangeInclusiveMap::new();
            let mut points = Points([None; 256]);
            // small windows at the bottom, in the middle and at the top
            let base = [0u64, 100, 240][round % 3];
            let width = 3 + step(&mut seed) % 14;
            let values = 1 + step(&mut seed) % 4;
            for _ in 0..24 {
                let a = base + step(&mut seed) % width;
                let b = base + step(&mut seed) % width;
                let (a, b) = (a.min(255).min(b), b.min(255).max(a.min(255)));
                let value = (step(&mut seed) % values) as u8;
                map.insert(a as u8..=b as u8, value);
                for key in a..=b {
                    points.0[key as usize] = Some(value);
                }
                check(&map, &points);
                let (lo, hi) = ((step(&mut seed) % 256) as u8, (step(&mut seed) % 256) as u8);
                let met: Vec<_> = map
                    .overlapping(lo.min(hi)..=hi.max(lo))
                    .map(|(r, v)| (r.clone(), *v))
                    .collect();
                let want: Vec<_> = points
                    .spans()
                    .into_iter()
                    .filter(|(r, _)| *r.end() >= lo.min(hi) && *r.start() <= lo.max(hi))
                    .collect();
                assert_eq!(met, want);
            }
            map.clear();
            assert_eq!(map.len(), 0);
        }
    }

    /// Every list of three inserts over keys 252 to 255 with two values.
    #[test]
    fn agrees_with_points_at_the_top() {
        let mut inserts = Vec::new();
        for a in 252..=255u8 {
            for b in a..=255 {
                for v in 0..2 {
                    inserts.push((a, b, v));
                }
            }
        }
        for x in &inserts {
            for y in &inserts {
                for z in &inserts {
                    let mut map = RangeInclusiveMap::new();
                    let mut points = Points([None; 256]);
                    for (a, b, v) in [x, y, z] {
                        map.insert(*a..=*b, *v);
                        for key in *a..=*b {
                            points.0[key as usize] = Some(*v);
                        }
                        check(&map, &points);
                    }
                }
            }
        }
    }

    #[test]
    #[should_panic(expected = "starts above its end")]
    #[allow(clippy::reversed_empty_ranges)]
    fn refuses_an_empty_range() {
        RangeInclusiveMap::new().insert(2u8..=1, 0u8);
    }
}
