//! Times in buckets.

/// The bounds of the buckets, in microseconds. One bucket more has the longer times.
const BOUNDS: [u64; 16] = [
    100, 250, 500, 1_000, 2_500, 5_000, 10_000, 25_000, 50_000, 100_000, 250_000, 500_000, 1_000_000, 2_500_000,
    5_000_000, 10_000_000,
];

/// Times of a tenant's requests, in fixed buckets from 100 microseconds to 10 seconds.
///
/// ```
/// use twodfq::{KindId, Permits};
///
/// let permits = Permits::builder().tenant("acme", 1).open_permits().unwrap();
/// drop(permits.try_acquire("acme", KindId::FIRST));
/// let status = permits.status();
/// let times = &status.tenants[0].wait_times;
/// assert_eq!(times.count(), 1);
/// assert_eq!(times.buckets().next().unwrap().0, 100);
/// ```
#[derive(Clone, Copy, Debug, Default, PartialEq, Eq)]
pub struct Histogram {
    /// How many times are in each bucket alone.
    counts: [u64; BOUNDS.len() + 1],
    microseconds: u64,
}

impl Histogram {
    pub(crate) fn add(&mut self, microseconds: u64) {
        self.counts[BOUNDS.partition_point(|bound| *bound < microseconds)] += 1;
        self.microseconds += microseconds;
    }

    pub(crate) fn add_all(&mut self, other: &Histogram) {
        self.counts.iter_mut().zip(other.counts).for_each(|(count, more)| *count += more);
        self.microseconds += other.microseconds;
    }

    /// How many times there are.
    ///
    /// ```
    /// let pool = twodfq::Pool::builder().tenant("acme", 1).open().unwrap();
    /// assert_eq!(pool.status().tenants[0].run_times.count(), 0);
    /// ```
    pub fn count(&self) -> u64 {
        self.counts.iter().sum()
    }

    /// Their sum in microseconds.
    ///
    /// ```
    /// let pool = twodfq::Pool::builder().tenant("acme", 1).open().unwrap();
    /// assert_eq!(pool.status().tenants[0].run_times.microseconds(), 0);
    /// ```
    pub fn microseconds(&self) -> u64 {
        self.microseconds
    }

    /// Each bucket's bound in microseconds, and how many times are no longer.
    ///
    /// ```
    /// let pool = twodfq::Pool::builder().tenant("acme", 1).open().unwrap();
    /// assert_eq!(pool.status().tenants[0].run_times.buckets().last(), Some((10_000_000, 0)));
    /// ```
    pub fn buckets(&self) -> impl Iterator<Item = (u64, u64)> + '_ {
        let sums = self.counts.iter().scan(0, |sum, count| {
            *sum += count;
            Some(*sum)
        });
        BOUNDS.into_iter().zip(sums)
    }
}

#[cfg(test)]
mod tests {
    use super::*;

    #[test]
    fn a_time_is_in_the_first_bucket_that_has_it() {
        let mut histogram = Histogram::default();
        [0, 100, 101, 10_000_000, 10_000_001, 50_000_000].into_iter().for_each(|time| histogram.add(time));
        let buckets: Vec<_> = histogram.buckets().collect();
        assert_eq!((buckets[0], buckets[1]), ((100, 2), (250, 3)));
        assert_eq!((buckets[14], buckets[15]), ((5_000_000, 3), (10_000_000, 4)));
        assert_eq!((histogram.count(), histogram.microseconds()), (6, 70_000_202));
        let mut sum = histogram;
        sum.add_all(&histogram);
        assert_eq!((sum.count(), sum.buckets().last()), (12, Some((10_000_000, 8))));
    }
}
