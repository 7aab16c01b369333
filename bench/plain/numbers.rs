//! Whole numbers from -(2^127 - 1) to 2^127 - 1, with short ways for those of 64 bits.

/// A number of the run that doesn't fit.
pub struct Overflow;

pub fn is_short(z: i128) -> bool {
    z as i64 as i128 == z
}

pub fn are_short(numbers: &[i128]) -> bool {
    let beyond = |z: &i128| (*z as i64 >> 63) ^ (z >> 64) as i64;
    numbers.iter().fold(0, |bits, z| bits | beyond(z)) == 0
}

fn fitting(z: Option<i128>) -> Result<i128, Overflow> {
    z.filter(|z| *z != i128::MIN).ok_or(Overflow)
}

/// Short numbers' product and difference of products always fit.
pub fn short_product(a: i128, b: i128) -> i128 {
    a as i64 as i128 * b as i64 as i128
}

pub fn product(a: i128, b: i128) -> Result<i128, Overflow> {
    if is_short(a) && is_short(b) {
        return Ok(short_product(a, b));
    }
    fitting(a.checked_mul(b))
}

pub fn difference(a: i128, b: i128) -> Result<i128, Overflow> {
    fitting(a.checked_sub(b))
}

/// z modulo d, from 0 to d - 1.
pub fn modulo(z: i128, d: i128) -> i128 {
    if is_short(z) && is_short(d) {
        return (z as i64).rem_euclid(d as i64) as i128;
    }
    z.rem_euclid(d)
}

pub fn divides(d: i128, z: i128) -> bool {
    if is_short(z) && is_short(d) {
        return d == 1 || z as i64 % d as i64 == 0;
    }
    z % d == 0
}

pub fn floor_quotient(z: i128, d: i128) -> i128 {
    if is_short(z) && is_short(d) {
        return (z as i64).div_euclid(d as i64) as i128;
    }
    z.div_euclid(d)
}

/// One division, then halving and subtracting, which is faster than more divisions.
fn short_gcd(a: u64, b: u64) -> u64 {
    if b == 0 {
        return a;
    }
    let a = a % b;
    if a == 0 {
        return b;
    }
    let twos = (a | b).trailing_zeros();
    let (mut a, mut b) = (a >> a.trailing_zeros(), b >> b.trailing_zeros());
    while a != b {
        (a, b) = (a.abs_diff(b), a.min(b));
        a >>= a.trailing_zeros();
    }
    a << twos
}

/// The same without the division, until both are short.
fn long_gcd(a: u128, b: u128) -> u128 {
    if a == 0 || b == 0 {
        return a | b;
    }
    let twos = (a | b).trailing_zeros();
    let (mut a, mut b) = (a >> a.trailing_zeros(), b >> b.trailing_zeros());
    while (a | b) >> 64 != 0 {
        if a == b {
            return a << twos;
        }
        (a, b) = (a.abs_diff(b), a.min(b));
        a >>= a.trailing_zeros();
    }
    u128::from(short_gcd(a as u64, b as u64)) << twos
}

pub fn gcd(a: u128, b: u128) -> u128 {
    match (u64::try_from(a), u64::try_from(b)) {
        (Ok(a), Ok(b)) => short_gcd(a, b).into(),
        (Err(_), Ok(b)) if b != 0 => short_gcd((a % u128::from(b)) as u64, b).into(),
        _ => long_gcd(a, b),
    }
}

/// The greatest common divisor of a number and of all entries.
pub fn gcd_with(first: i128, entries: &[i128]) -> i128 {
    let mut found = first.unsigned_abs();
    for entry in entries {
        if found == 1 {
            break;
        }
        found = gcd(entry.unsigned_abs(), found);
    }
    found as i128
}

/// A divisor of numbers that are its multiples: they are shifted and multiplied by its odd part's inverse.
pub struct ExactDivisor {
    shift: u32,
    inverse: u128,
}

impl ExactDivisor {
    pub fn new(divisor: i128) -> ExactDivisor {
        let shift = divisor.trailing_zeros();
        let odd = (divisor >> shift) as u128;
        // An odd number is its own inverse modulo 8; each of Newton's steps doubles the number of right bits.
        let mut short = odd as u64;
        for _ in 0..5 {
            short = short.wrapping_mul(2u64.wrapping_sub(short.wrapping_mul(odd as u64)));
        }
        let short = u128::from(short);
        let inverse = short.wrapping_mul(2u128.wrapping_sub(short.wrapping_mul(odd)));
        ExactDivisor { shift, inverse }
    }

    pub fn short_quotient(&self, z: i128) -> i128 {
        (z as i64 >> self.shift).wrapping_mul(self.inverse as i64) as i128
    }

    pub fn quotient(&self, z: i128) -> i128 {
        (z >> self.shift).wrapping_mul(self.inverse as i128)
    }
}
