//! Exact sums: whole counts of 2 to the -1074, large enough for everything that the comparison adds. A finite double is such a count.

use std::cmp::Ordering;

// 2,304 bits: the largest double is below 2 to the 2,098, which leaves room for long sums and small factors
const LIMBS: usize = 36;

/// A count in two's complement, the lowest limb first.
#[derive(Clone, PartialEq, Eq)]
pub struct Exact([u64; LIMBS]);

impl Exact {
    pub fn zero() -> Exact {
        Exact([0; LIMBS])
    }

    /// Returns the count of a finite double.
    pub fn of(v: f64) -> Exact {
        assert!(v.is_finite());
        let bits = v.to_bits();
        let exponent = (bits >> 52) & 0x7ff;
        let fraction = bits & ((1 << 52) - 1);
        let (mantissa, shift) = if exponent == 0 { (fraction, 0) } else { (fraction | 1 << 52, exponent as usize - 1) };
        let mut out = Exact::zero();
        let (limb, bit) = (shift / 64, shift % 64);
        out.0[limb] = mantissa << bit;
        if bit > 0 {
            out.0[limb + 1] = mantissa >> (64 - bit);
        }
        if v.is_sign_negative() {
            out.negated()
        } else {
            out
        }
    }

    pub fn plus(&self, other: &Exact) -> Exact {
        let mut out = Exact::zero();
        let mut carry = 0u128;
        for i in 0..LIMBS {
            let sum = self.0[i] as u128 + other.0[i] as u128 + carry;
            out.0[i] = sum as u64;
            carry = sum >> 64;
        }
        out
    }

    pub fn negated(&self) -> Exact {
        let mut out = Exact(self.0.map(|limb| !limb));
        let mut one = Exact::zero();
        one.0[0] = 1;
        out = out.plus(&one);
        out
    }

    pub fn minus(&self, other: &Exact) -> Exact {
        self.plus(&other.negated())
    }

    pub fn magnitude(&self) -> Exact {
        if self.0[LIMBS - 1] >> 63 == 1 {
            self.negated()
        } else {
            self.clone()
        }
    }

    pub fn times(&self, factor: i64) -> Exact {
        let magnitude = self.magnitude();
        let mut out = Exact::zero();
        let mut carry = 0u128;
        for i in 0..LIMBS {
            let product = magnitude.0[i] as u128 * factor.unsigned_abs() as u128 + carry;
            out.0[i] = product as u64;
            carry = product >> 64;
        }
        if (*self != magnitude) == (factor < 0) {
            out
        } else {
            out.negated()
        }
    }

    /// Returns 2 to the 53 times the count.
    pub fn times_two_to_53(&self) -> Exact {
        self.times(1 << 53)
    }

    /// Compares two counts that are not negative.
    pub fn compare(&self, other: &Exact) -> Ordering {
        self.0.iter().rev().cmp(other.0.iter().rev())
    }

    /// Returns roughly the quotient of two counts that are not negative.
    pub fn over(&self, other: &Exact) -> f64 {
        let top = (0..LIMBS).rev().find(|&i| self.0[i] != 0 || other.0[i] != 0).unwrap_or(0);
        let near = |e: &Exact| {
            let limb = |i: usize| e.0[i] as f64;
            limb(top) * 2f64.powi(64) + if top > 0 { limb(top - 1) } else { 0.0 }
        };
        near(self) / near(other)
    }
}

#[test]
fn counts() {
    assert!(Exact::of(0.0) == Exact::zero() && Exact::of(-0.0) == Exact::zero());
    let tiny = f64::from_bits(1);
    assert!(Exact::of(tiny).times(3) == Exact::of(3.0 * tiny));
    for v in [1.0, -2.5, 1e300, f64::MAX, f64::MIN_POSITIVE, -1e-310] {
        assert!(Exact::of(v).plus(&Exact::of(-v)) == Exact::zero());
        assert!(Exact::of(v).times(-2) == Exact::of(-v).plus(&Exact::of(-v)));
        assert!(Exact::of(v).magnitude() == Exact::of(v.abs()));
    }
    assert!(Exact::of(3.0).minus(&Exact::of(0.5)) == Exact::of(2.5));
    assert_eq!(Exact::of(1.0).compare(&Exact::of(2.0)), Ordering::Less);
    assert_eq!(Exact::of(1.0).over(&Exact::of(4.0)), 0.25);
}
