//! Whole numbers of any size, so that coordinates can be multiplied with no rounding.

use std::cmp::Ordering;

/// Sign and magnitude; the magnitude has its lowest digit first and no zero at its end.
#[derive(Clone, Debug, Eq, PartialEq)]
pub(crate) struct Whole {
    negative: bool,
    digits: Vec<u32>,
}

/// A finite number as a whole one times a power of two.
fn parts(value: f64) -> (u64, i32) {
    let bits = value.to_bits();
    let (power, low) = ((bits >> 52 & 0x7ff) as i32, bits & ((1 << 52) - 1));
    match power {
        0 => (low, -1074),
        _ => (low | 1 << 52, power - 1075),
    }
}

/// The finite numbers as multiples of one power of two.
pub(crate) fn multiples<const N: usize>(values: [f64; N]) -> [Whole; N] {
    let lowest = values
        .iter()
        .map(|&value| parts(value))
        .filter(|&(digits, _)| digits != 0)
        .map(|(digits, power)| power + digits.trailing_zeros() as i32)
        .min()
        .unwrap_or(0);
    values.map(|value| {
        let (digits, power) = parts(value);
        let by = power - lowest;
        let whole = match by {
            _ if digits == 0 => Whole::of(0, 0),
            0.. => Whole::of(digits, by as usize),
            _ => Whole::of(digits >> -by, 0),
        };
        Whole::signed(value < 0.0, whole.digits)
    })
}

impl Whole {
    /// `value` times two to the power `by`.
    pub(crate) fn of(value: u64, by: usize) -> Whole {
        let mut digits = vec![0; by / 32];
        let mut left = u128::from(value) << (by % 32);
        while left != 0 {
            digits.push(left as u32);
            left >>= 32;
        }
        Whole::signed(false, digits)
    }

    fn signed(negative: bool, mut digits: Vec<u32>) -> Whole {
        while digits.last() == Some(&0) {
            digits.pop();
        }
        let negative = negative && !digits.is_empty();
        Whole { negative, digits }
    }

    pub(crate) fn sign(&self) -> Ordering {
        match (self.digits.is_empty(), self.negative) {
            (true, _) => Ordering::Equal,
            (false, true) => Ordering::Less,
            (false, false) => Ordering::Greater,
        }
    }

    pub(crate) fn negated(&self) -> Whole {
        Whole::signed(!self.negative, self.digits.clone())
    }

    pub(crate) fn plus(&self, other: &Whole) -> Whole {
        let (large, small) = match above(&self.digits, &other.digits) {
            Ordering::Less => (other, self),
            _ => (self, other),
        };
        let same = large.negative == small.negative;
        let mut carry = 0_i64;
        let mut digits = Vec::with_capacity(large.digits.len() + 1);
        for (place, &digit) in large.digits.iter().enumerate() {
            let by = i64::from(small.digits.get(place).copied().unwrap_or(0));
            carry += i64::from(digit) + if same { by } else { -by };
            digits.push(carry as u32);
            carry >>= 32;
        }
        digits.push(carry as u32);
        Whole::signed(large.negative, digits)
    }

    pub(crate) fn minus(&self, other: &Whole) -> Whole {
        self.plus(&other.negated())
    }

    pub(crate) fn times(&self, other: &Whole) -> Whole {
        let mut digits = vec![0_u32; self.digits.len() + other.digits.len()];
        for (place, &digit) in self.digits.iter().enumerate() {
            let mut carry = 0_u64;
            for (more, &by) in other.digits.iter().enumerate() {
                carry += u64::from(digit) * u64::from(by) + u64::from(digits[place + more]);
                digits[place + more] = carry as u32;
                carry >>= 32;
            }
            digits[place + other.digits.len()] = carry as u32;
        }
        Whole::signed(self.negative != other.negative, digits)
    }
}

/// The order of two magnitudes.
fn above(left: &[u32], right: &[u32]) -> Ordering {
    left.len()
        .cmp(&right.len())
        .then_with(|| left.iter().rev().cmp(right.iter().rev()))
}

impl PartialOrd for Whole {
    fn partial_cmp(&self, other: &Whole) -> Option<Ordering> {
        Some(self.cmp(other))
    }
}

impl Ord for Whole {
    fn cmp(&self, other: &Whole) -> Ordering {
        self.minus(other).sign()
    }
}

#[cfg(test)]
mod tests {
    use super::*;

    fn whole(value: i128) -> Whole {
        let (high, low) = (
            (value.unsigned_abs() >> 64) as u64,
            value.unsigned_abs() as u64,
        );
        let sum = Whole::of(high, 64).plus(&Whole::of(low, 0));
        if value < 0 { sum.negated() } else { sum }
    }

    #[test]
    fn as_machine_numbers() {
        let large = (1_i128 << 62) - 1;
        let list = [
            0,
            1,
            -1,
            5,
            1 << 31,
            1 << 32,
            -(1 << 32) + 1,
            1 << 61,
            large,
            -large,
        ];
        for left in list {
            for right in list {
                assert_eq!(whole(left).plus(&whole(right)), whole(left + right));
                assert_eq!(whole(left).minus(&whole(right)), whole(left - right));
                assert_eq!(whole(left).times(&whole(right)), whole(left * right));
                assert_eq!(whole(left).cmp(&whole(right)), left.cmp(&right));
            }
        }
    }

    #[test]
    fn multiples_keep_the_values() {
        let [a, b, c, d] = multiples([1.0, -0.0, -2.5, 0.125]);
        assert_eq!([a, b, c, d], [whole(8), whole(0), whole(-20), whole(1)]);
        let [small, large] = multiples([5e-324, 1.0]);
        assert_eq!(small, whole(1));
        assert_eq!(large, Whole::of(1, 1074));
    }
}
