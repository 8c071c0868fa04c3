//! Whole numbers of any size: what the bounds of PSNR in hundredths need of them.

use std::cmp::Ordering;

/// Limbs of 64 bits, the lowest first; the highest is not 0.
#[derive(Clone, Debug, PartialEq, Eq)]
pub struct Big(Vec<u64>);

impl Big {
    pub fn of(n: u128) -> Big {
        Big::trimmed(vec![n as u64, (n >> 64) as u64])
    }

    fn trimmed(mut limbs: Vec<u64>) -> Big {
        while limbs.last() == Some(&0) {
            limbs.pop();
        }
        Big(limbs)
    }

    /// As by hand: each limb with each.
    pub fn times(&self, other: &Big) -> Big {
        let mut product = vec![0u64; self.0.len() + other.0.len()];
        for (i, a) in self.0.iter().enumerate() {
            let mut carry = 0u128;
            for (place, b) in product[i..].iter_mut().zip(&other.0) {
                // at most 2^128 - 1
                carry += u128::from(*a) * u128::from(*b) + u128::from(*place);
                *place = carry as u64;
                carry >>= 64;
            }
            product[i + other.0.len()] = carry as u64;
        }
        Big::trimmed(product)
    }

    pub fn power(&self, exponent: u32) -> Big {
        let mut power = Big::of(1);
        for bit in (0..32).rev() {
            power = power.times(&power);
            if exponent >> bit & 1 == 1 {
                power = power.times(self);
            }
        }
        power
    }

    /// What a division by a number leaves.
    pub fn rest(&self, by: u64) -> u64 {
        let step = |rest: u128, limb: &u64| (rest << 64 | u128::from(*limb)) % u128::from(by);
        self.0.iter().rev().fold(0, step) as u64
    }
}

impl PartialOrd for Big {
    fn partial_cmp(&self, other: &Big) -> Option<Ordering> {
        Some(self.cmp(other))
    }
}

impl Ord for Big {
    fn cmp(&self, other: &Big) -> Ordering {
        let counts = self.0.len().cmp(&other.0.len());
        counts.then_with(|| self.0.iter().rev().cmp(other.0.iter().rev()))
    }
}

/// Powers leave what the powers of rests leave, products too, and the order is that of numbers.
pub fn check() -> Result<(), String> {
    const PRIMES: [u64; 3] = [4_294_967_291, 1_000_000_007, 65_537];
    let numbers = [2, 10, 999_999_937, u128::from(u64::MAX), u128::from(u64::MAX) + 1, 1 << 100 | 12_345];
    for (a, prime) in numbers.iter().flat_map(|a| PRIMES.map(|prime| (*a, prime))) {
        let product = |x: u64, y: u64| (u128::from(x) * u128::from(y) % u128::from(prime)) as u64;
        let rest = Big::of(a).rest(prime);
        if u128::from(rest) != a % u128::from(prime) {
            return Err(format!("{} over {} leaves {}", a, prime, rest));
        }
        let power = Big::of(a).power(1_000);
        if power.rest(prime) != (0..1_000).fold(1, |so_far, _| product(so_far, rest)) {
            return Err(format!("{}^1000 over {} leaves {}", a, prime, power.rest(prime)));
        }
        if power.times(&Big::of(a)) != Big::of(a).power(1_001) || power >= Big::of(a).power(1_001) {
            return Err(format!("{}^1001 is not {} times {}^1000, or not above it", a, a, a));
        }
    }
    let ordered = |(x, y): (&u128, &u128)| Big::of(*x).cmp(&Big::of(*y)) == x.cmp(y);
    let pairs = || numbers.iter().flat_map(|x| numbers.iter().map(move |y| (x, y)));
    if pairs().all(ordered) {
        Ok(())
    } else {
        Err("an order is not that of the numbers".to_string())
    }
}
