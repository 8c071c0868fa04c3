//! PSNR in hundredths of a decibel by its rule: the chart from big integers, q and k by plain search. And by big integers what the rule promises.

use crate::big::Big;

/// The places of the chart.
pub const PLACES: usize = 1_000;
/// By how much its entries are scaled.
pub const SCALE: u128 = 1_000_000_000;
/// No ratio has so many digits.
const MOST_TENS: usize = 21;

pub struct Rule {
    chart: Vec<u128>,
    /// The powers of ten up to 10^1000.
    tens: Vec<Big>,
}

/// 10^q.
pub fn ten(q: usize) -> u128 {
    10u128.pow(q as u32)
}

/// The largest whole number with 10^q × E ≤ P.
pub fn tens(p: u128, e: u128) -> usize {
    (0..=MOST_TENS).rev().find(|q| ten(*q) * e <= p).expect("an error above P")
}

impl Rule {
    pub fn new() -> Rule {
        let mut tens = vec![Big::of(1)];
        for place in 0..PLACES {
            tens.push(tens[place].times(&Big::of(10)));
        }
        let scale = Big::of(SCALE).power(1_000);
        let chart = (0..PLACES).map(|place| entry(place, &scale.times(&tens[place]))).collect();
        Rule { chart, tens }
    }

    pub fn entry(&self, place: usize) -> u128 {
        self.chart[place]
    }

    /// D: the largest q with 10^q × E ≤ P, and the largest place whose entry times 10^q × E is at most P × 10^9.
    pub fn hundredths(&self, p: u128, e: u128) -> u32 {
        let q = tens(p, e);
        let fits = |k: &usize| self.chart[*k] * ten(q) * e <= p * SCALE;
        let k = (0..PLACES).rev().find(fits).expect("10^q × E above P");
        (PLACES * q + k) as u32
    }

    /// The largest error that the chart still gives this D, or more.
    pub fn edge(&self, p: u128, d: u32) -> u128 {
        p * SCALE / (self.chart[d as usize % PLACES] * ten(d as usize / PLACES))
    }

    /// The largest error that truly has this D, or more: 10^D × E^1000 ≤ P^1000. The chart's is above it by less than a part in 10^8.
    pub fn true_edge(&self, p: u128, d: u32) -> u128 {
        let power = Big::of(p).power(1_000);
        let (mut good, mut bad) = (self.edge(p, d), self.edge(p, d) + 1);
        good -= good / 100_000_000 + 1;
        while bad - good > 1 {
            let middle = (good + bad) / 2;
            if self.scaled(middle, d) <= power {
                good = middle;
            } else {
                bad = middle;
            }
        }
        good
    }

    /// 10^D × E^1000.
    fn scaled(&self, e: u128, d: u32) -> Big {
        let (q, k) = (d as usize / PLACES, d as usize % PLACES);
        Big::of(ten(q) * e).power(1_000).times(&self.tens[k])
    }

    /// Whether D is above the true figure rounded down, where the bounds hold: 10^(D − 1) × E^1000 ≤ P^1000 < 10^(D + 1) × E^1000, and
    /// 999,999 × 10^D × E^1000 ≤ 1,000,000 × P^1000.
    pub fn is_above(&self, p: u128, e: u128, d: u32) -> Result<bool, String> {
        let (ours, power) = (self.scaled(e, d), Big::of(p).power(1_000));
        let times = |big: &Big, by: u128| big.times(&Big::of(by));
        if power >= times(&ours, 10) {
            return Err(format!("P is {}, E {}: P^1000 is not below 10^({} + 1) × E^1000", p, e, d));
        }
        if ours > times(&power, 10) {
            return Err(format!("P is {}, E {}: 10^({} - 1) × E^1000 is above P^1000", p, e, d));
        }
        if times(&ours, 999_999) > times(&power, 1_000_000) {
            return Err(format!("P is {}, E {}: 999,999 × 10^{} × E^1000 is above 1,000,000 × P^1000", p, e, d));
        }
        Ok(ours > power)
    }

    /// The chart rises, and its entries are those of the rule where they are known.
    pub fn check(&self) -> Result<(), String> {
        let known = [(0, SCALE), (1, 1_002_305_238), (500, 3_162_277_660), (999, 9_977_000_638)];
        match known.iter().find(|(place, entry)| self.chart[*place] != *entry) {
            Some((place, entry)) => Err(format!("entry {} is {}, not {}", place, self.chart[*place], entry)),
            None if self.chart.windows(2).all(|two| two[0] < two[1]) => Ok(()),
            None => Err("the chart does not rise".to_string()),
        }
    }
}

/// 10^(k / 1000) × 10^9 rounded down: the largest number whose 1000th power is not above 10^(9000 + k). The host guesses it, and only big integers
/// decide.
fn entry(place: usize, power: &Big) -> u128 {
    let fits = |entry: u128| Big::of(entry).power(1_000) <= *power;
    let mut entry = 10f64.powf(9.0 + place as f64 / 1_000.0) as u128;
    while !fits(entry) {
        entry -= 1;
    }
    while fits(entry + 1) {
        entry += 1;
    }
    entry
}
