//! Exact arithmetic on binary64 numbers: whole numbers of any size, which count units of 2^-2148. Every finite number is
//! a whole number of these, and so is every product of two.
use std::cmp::Ordering;

/// The exponent of a unit, sign dropped.
pub const UNIT: usize = 2_148;

/// A whole number that is not negative, 32 bits a digit, the lowest first; the last digit is not 0.
#[derive(Clone, Debug, PartialEq, Eq, Default)]
pub struct Natural {
    digits: Vec<u32>,
}

impl Natural {
    /// The number of a 64-bit one.
    pub fn new(number: u64) -> Natural {
        Natural { digits: vec![number as u32, (number >> 32) as u32] }.trimmed()
    }

    fn trimmed(mut self) -> Natural {
        while self.digits.last() == Some(&0) {
            self.digits.pop();
        }
        self
    }

    fn digit(&self, at: usize) -> u64 {
        self.digits.get(at).copied().map_or(0, u64::from)
    }

    /// The sum of both.
    pub fn plus(&self, other: &Natural) -> Natural {
        let mut digits = Vec::new();
        let mut carry = 0;
        for at in 0..self.digits.len().max(other.digits.len()) + 1 {
            let sum = self.digit(at) + other.digit(at) + carry;
            digits.push(sum as u32);
            carry = sum >> 32;
        }
        Natural { digits }.trimmed()
    }

    /// This number less a smaller one.
    pub fn minus(&self, other: &Natural) -> Natural {
        assert!(*other <= *self, "a difference below zero");
        let mut digits = Vec::new();
        let mut borrow = 0;
        for at in 0..self.digits.len() {
            let wanted = other.digit(at) + borrow;
            borrow = u64::from(self.digit(at) < wanted);
            digits.push((self.digit(at) + (borrow << 32) - wanted) as u32);
        }
        Natural { digits }.trimmed()
    }

    /// The product of both, by long multiplication.
    pub fn times(&self, other: &Natural) -> Natural {
        let mut digits = vec![0u32; self.digits.len() + other.digits.len() + 1];
        for (i, &a) in self.digits.iter().enumerate() {
            let mut carry = 0;
            for j in 0..=other.digits.len() {
                let sum = u64::from(digits[i + j]) + u64::from(a) * other.digit(j) + carry;
                digits[i + j] = sum as u32;
                carry = sum >> 32;
            }
        }
        Natural { digits }.trimmed()
    }

    /// The number times a power of two.
    pub fn shifted(&self, places: usize) -> Natural {
        let mut digits = vec![0; places / 32];
        digits.extend_from_slice(&self.digits);
        Natural { digits }.trimmed().times(&Natural::new(1 << (places % 32)))
    }
}

impl PartialOrd for Natural {
    fn partial_cmp(&self, other: &Natural) -> Option<Ordering> {
        Some(self.cmp(other))
    }
}

impl Ord for Natural {
    fn cmp(&self, other: &Natural) -> Ordering {
        let lengths = self.digits.len().cmp(&other.digits.len());
        lengths.then_with(|| self.digits.iter().rev().cmp(other.digits.iter().rev()))
    }
}

/// A whole number with its sign: plus less minus.
#[derive(Clone, Debug, Default)]
pub struct Whole {
    plus: Natural,
    minus: Natural,
}

impl Whole {
    /// A natural number, or its opposite.
    pub fn signed(size: Natural, negative: bool) -> Whole {
        if negative {
            return Whole { plus: Natural::default(), minus: size };
        }
        Whole { plus: size, minus: Natural::default() }
    }

    /// This number less the other.
    pub fn less(&self, other: &Whole) -> Whole {
        Whole { plus: self.plus.plus(&other.minus), minus: self.minus.plus(&other.plus) }
    }

    /// The size, sign dropped.
    pub fn size(&self) -> Natural {
        if self.plus >= self.minus {
            return self.plus.minus(&self.minus);
        }
        self.minus.minus(&self.plus)
    }
}

/// A finite number's digits and their place: it is digits times 2^(place - 1074), sign dropped.
fn parts(number: f64) -> (u64, usize) {
    assert!(number.is_finite(), "an exact value of {number}");
    let bits = number.to_bits();
    let (exponent, fraction) = ((bits >> 52 & 0x7FF) as usize, bits & ((1 << 52) - 1));
    match exponent {
        0 => (fraction, 0),
        _ => (fraction | 1 << 52, exponent - 1),
    }
}

/// The size of a finite number in units.
pub fn size(number: f64) -> Natural {
    let (digits, place) = parts(number);
    Natural::new(digits).shifted(place + UNIT - 1_074)
}

/// The size of the exact product of two finite numbers in units.
pub fn product_size(a: f64, b: f64) -> Natural {
    let ((m, i), (n, j)) = (parts(a), parts(b));
    Natural::new(m).times(&Natural::new(n)).shifted(i + j)
}

/// A finite number in units.
pub fn value(number: f64) -> Whole {
    Whole::signed(size(number), number.is_sign_negative())
}

/// The exact product of two finite numbers in units.
pub fn product(a: f64, b: f64) -> Whole {
    Whole::signed(product_size(a, b), a.is_sign_negative() != b.is_sign_negative())
}

#[cfg(test)]
mod tests {
    use super::*;

    fn number(n: u128) -> Natural {
        Natural::new((n >> 64) as u64).shifted(64).plus(&Natural::new(n as u64))
    }

    #[test]
    fn as_built_in_numbers() {
        let picked =
            [0, 1, 2, 3, u32::MAX as u64, 1 << 32, (1 << 32) + 1, 0x1234_5678_9ABC_DEF0, u64::MAX - 1, u64::MAX];
        for a in picked {
            for b in picked {
                let (wide, other) = (u128::from(a), u128::from(b));
                assert_eq!(Natural::new(a).plus(&Natural::new(b)), number(wide + other));
                assert_eq!(Natural::new(a).times(&Natural::new(b)), number(wide * other));
                assert_eq!(Natural::new(a).cmp(&Natural::new(b)), a.cmp(&b));
                if a >= b {
                    assert_eq!(Natural::new(a).minus(&Natural::new(b)), Natural::new(a - b));
                }
                assert_eq!(number(wide << 64 | other).minus(&Natural::new(b)), number(wide << 64));
            }
            for places in [0, 1, 31, 32, 33, 63, 64] {
                assert_eq!(Natural::new(a).shifted(places), number(u128::from(a) << places));
            }
        }
    }

    #[test]
    fn values_in_units() {
        let unit = |places: usize| Natural::new(1).shifted(places);
        assert_eq!(size(f64::from_bits(1)), unit(1_074));
        assert_eq!(size(1.0), unit(UNIT));
        assert_eq!(size(-0.0), Natural::default());
        assert_eq!(size(f64::MAX), unit(UNIT + 1_024).minus(&unit(UNIT + 971)));
        assert_eq!(product_size(f64::from_bits(1), f64::from_bits(1)), unit(0));
        assert_eq!(product(-1.5, 2.0).less(&value(-3.0)).size(), Natural::default());
        assert_eq!(value(1.0).less(&product(0.5, -2.0)).size(), unit(UNIT + 1));
    }
}
