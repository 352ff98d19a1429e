//! Whole numbers below 2^384, just enough to compare p^20 with T^13 × 10^67.

const WORDS: usize = 6;

/// Lowest word first.
#[derive(Clone, Debug, PartialEq, Eq)]
pub struct Natural([u64; WORDS]);

impl Natural {
    pub fn one() -> Natural {
        let mut words = [0; WORDS];
        words[0] = 1;
        Natural(words)
    }

    pub fn times(mut self, factor: u64) -> Natural {
        let mut carry = 0u128;
        for word in &mut self.0 {
            let product = u128::from(*word) * u128::from(factor) + carry;
            *word = product as u64;
            carry = product >> 64;
        }
        assert!(carry == 0, "a number of more than 384 bits");
        self
    }

    /// This number times base^exponent.
    pub fn times_power(self, base: u64, exponent: u32) -> Natural {
        (0..exponent).fold(self, |number, _| number.times(base))
    }

    pub fn at_most(&self, other: &Natural) -> bool {
        self.0.iter().rev().le(other.0.iter().rev())
    }
}

/// The largest whole number below 2^bits for which `holds`, which must hold for 0 and, where it
/// holds for a number, for every smaller one.
pub fn largest(bits: u32, holds: impl Fn(u64) -> bool) -> u64 {
    (0..bits).rev().map(|bit| 1 << bit).fold(0, |found, bit| {
        if holds(found + bit) {
            found + bit
        } else {
            found
        }
    })
}

#[cfg(test)]
mod tests {
    use super::*;

    #[test]
    fn carries_over_words() {
        let big = Natural::one().times(u64::MAX).times(u64::MAX);
        assert_eq!(big.0[..3], [1, u64::MAX - 1, 0]);
        assert!(Natural::one().times(u64::MAX).at_most(&big));
        assert!(!big.at_most(&Natural::one().times(u64::MAX)));
        assert!(big.at_most(&big));
    }

    #[test]
    fn a_power_is_a_repeated_product() {
        let thousand = Natural::one().times_power(10, 3);
        assert_eq!(thousand, Natural::one().times(1000));
    }

    #[test]
    fn largest_finds_the_edge() {
        assert_eq!(largest(8, |n| n * n <= 200), 14);
        assert_eq!(largest(8, |_| true), 255);
        assert_eq!(largest(8, |n| n == 0), 0);
    }
}
