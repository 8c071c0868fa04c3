//! PSNR in hundredths of a decibel, of runs of records and of totals, against its rule. That is written here a second time (`decibels_rule.rs`), with a
//! chart from big integers, by which the error that is promised is seen to as well, in a share of the cases.

use crate::big;
use crate::decibels_cases::{any, edges, stated, true_edges, whole, Case, Lent, MOST_TOTAL};
use crate::decibels_rule::{Rule, PLACES};
use crate::decibels_ways::{Met, SHARP, WAYS};
use crate::family::{add, all_seen, also, number, run, Family, Run};
use crate::limits::SAMPLES;
use crate::random::Random;
use crate::records::{bits, of, show, show_figures, smaller, smaller_figures, Whose, LAST, MOST_ERROR};
use crate::series_rule::model;
use fuavelino::{no_alloc, PsnrMetrics as Figures, Record, Refusal};

/// What is left at both places: the hundredths, and whether it is identical.
type Left = (u32, u8);

/// What they hold before a call, and must hold after a refusal.
const BEFORE: Left = (0xDEAD_BEEF, 0xA7);
/// What says that an error is 0.
const IDENTICAL: Left = (10_000, 1);
const RECORD: u8 = 10;

pub fn compare(ask: Run) -> bool {
    let mut made = None;
    let sound = also("decibels: big integers, and the chart by them", || {
        big::check()?;
        made.insert(Rule::new()).check()
    });
    let mut family = match made.filter(|_| sound) {
        Some(rule) => Decibels::new(rule, ask),
        None => return false,
    };
    let cases = if ask.full { 5_000_000 } else { 300_000 };
    if !run("decibels", &mut family, cases, ask) {
        return false;
    }
    let said = family.enough().map(|()| family.exactly());
    println!("decibels: {}", said.as_ref().map_or_else(|why| format!("FAILED: {}", why), String::clone));
    said.is_ok()
}

struct Decibels {
    rule: Rule,
    listed: Vec<Case>,
    /// How many cases told each way from the rule, and were each of the sharp ones.
    ways: [u64; WAYS.len()],
    sharp: [u64; SHARP.len()],
    seen: Seen,
}

/// What big integers saw to.
struct Seen {
    cases: u64,
    /// In how many of them D is above the true figure rounded down; and how many of these are of one record.
    above: u64,
    records: u64,
    /// Of each place, whether the last error that has it was among them, and the first.
    sides: Vec<[bool; 2]>,
}

impl Decibels {
    fn new(rule: Rule, ask: Run) -> Decibels {
        let r = &mut Random::of(ask.seed, "decibels, listed", 0);
        let listed = [stated(), edges(&rule, r), true_edges(&rule, r, 12), whole(&rule, r)].concat();
        let seen = Seen { cases: 0, above: 0, records: 0, sides: vec![[false; 2]; PLACES] };
        Decibels { rule, listed, ways: [0; WAYS.len()], sharp: [0; SHARP.len()], seen }
    }

    /// What the rule says of a total's numbers.
    fn owed(&self, sq_err: f64, n: u64, max: u32) -> Left {
        match sq_err as u128 {
            0 => IDENTICAL,
            e => (self.rule.hundredths(u128::from(n) * u128::from(max).pow(2), e), 0),
        }
    }

    /// What the rules say: the answer, and both places afterwards. And the figures that it is about.
    fn wanted(&self, lent: &Lent) -> (u8, Left, Figures) {
        let (summed, first) = match lent {
            Lent::Run(records) => (model(records), records.first().map(Record::metrics).unwrap_or_default()),
            Lent::Total(total) => (lawful(total).ok_or(RECORD), *total),
        };
        match summed {
            Ok((bits, n_pixels, sample_max)) => {
                let total = Figures { sq_err: f64::from_bits(bits), n_pixels, sample_max };
                (0, self.owed(total.sq_err, n_pixels, sample_max), total)
            }
            Err(refused) => (refused, BEFORE, first),
        }
    }

    /// Counts a case, and sees to its bounds: by the host's logarithm always, by big integers where that is asked.
    fn count(&mut self, met: &Met, exact: bool) -> Result<(), String> {
        add(&mut self.sharp, SHARP.iter().map(|sharp| sharp.1(met)));
        if met.answer != 0 || met.identical == 1 {
            return Ok(());
        }
        let (told, host) = (f64::from(met.hundredths) / 100.0, met.logarithm() / 100.0);
        if !(told - 1e-7..=told + 0.01 + 1e-7).contains(&host) {
            return Err(format!("{} hundredths, where the host has {} dB", met.hundredths, host));
        }
        let rule = &self.rule;
        add(&mut self.ways, WAYS.iter().map(|way| way.1(rule, met) != met.hundredths));
        if exact {
            self.see(met)?;
        }
        Ok(())
    }

    fn see(&mut self, met: &Met) -> Result<(), String> {
        let (p, e, d) = (met.p(), met.e(), met.hundredths);
        let above = self.rule.is_above(p, e, d)?;
        self.seen.cases += 1;
        self.seen.above += u64::from(above);
        self.seen.records += u64::from(above && met.count() == Some(1));
        let sides = &mut self.seen.sides[d as usize % PLACES];
        sides[0] |= e < p && self.rule.hundredths(p, e + 1) + 1 == d;
        sides[1] |= e > 1 && self.rule.hundredths(p, e - 1) == d + 1;
        Ok(())
    }

    /// Each way was told from the rule, each sharp case met, and each place seen from both sides.
    fn enough(&self) -> Result<(), String> {
        all_seen(WAYS.iter().map(|way| way.0).collect(), &self.ways, "tells the rule from")?;
        all_seen(SHARP.iter().map(|sharp| sharp.0).collect(), &self.sharp, "is")?;
        if let Some(place) = self.seen.sides.iter().position(|sides| *sides != [true; 2]) {
            return Err(format!("place {} was not seen from both sides by big integers", place));
        }
        if self.seen.records == 0 || self.seen.above == self.seen.records {
            return Err("no record and no total is above the true figure rounded down".to_string());
        }
        Ok(())
    }

    fn exactly(&self) -> String {
        let Seen { cases, above, records, .. } = self.seen;
        let held =
            format!("both bounds hold by big integers in {} cases, at both sides of each place of the chart", cases);
        format!(
            "{}; of these {} are above the true figure rounded down, {} of them single records",
            held, above, records
        )
    }
}

/// The numbers of a total that some series adds up to.
fn lawful(total: &Figures) -> Option<(u64, u64, u32)> {
    let Figures { sq_err, n_pixels, sample_max } = *total;
    let count = (1..=MOST_TOTAL).contains(&n_pixels);
    let max = (1..=12).any(|depth| u64::from(sample_max) == (1 << depth) - 1);
    let whole = sq_err.is_sign_positive() && sq_err.is_finite() && sq_err.fract() == 0.0;
    let room = u128::from(n_pixels) * u128::from(sample_max).pow(2);
    let fits = sq_err as u128 <= room && sq_err as u128 <= u128::from(MOST_ERROR);
    Some((sq_err.to_bits(), n_pixels, sample_max)).filter(|_| count && max && whole && fits)
}

/// The answer, and both places afterwards.
fn of_run(records: &[Record]) -> (u8, Left) {
    let (mut hundredths, mut identical) = BEFORE;
    let answer = number(no_alloc::decibels(records, &mut hundredths, &mut identical));
    (answer, (hundredths, identical))
}

fn of_total(total: Figures) -> (u8, Left) {
    let (mut hundredths, mut identical) = BEFORE;
    let answer = number(no_alloc::total_decibels(total, &mut hundredths, &mut identical));
    (answer, (hundredths, identical))
}

/// What the functions above `no_alloc` say, as those below say it.
fn above(said: Result<fuavelino::Decibels, Refusal>) -> (u8, Left) {
    match said {
        Ok(fuavelino::Decibels::Hundredths(told)) => (0, (told, 0)),
        Ok(fuavelino::Decibels::Identical) => (0, IDENTICAL),
        Err(refusal) => (refusal.number(), BEFORE),
    }
}

fn same(what: &str, said: (u8, Left), wanted: (u8, Left)) -> Result<(), String> {
    if said == wanted {
        return Ok(());
    }
    let show = |(answer, (hundredths, identical)): (u8, Left)| format!("{}, {} and {}", answer, hundredths, identical);
    Err(format!("{}: {}, not {}", what, show(said), show(wanted)))
}

/// Of a run: the call, the function above it, and that the total which the library gives of it has the same.
fn run_agrees(records: &[Record], wanted: (u8, Left)) -> Result<(), String> {
    let copies = records.to_vec();
    same("of a run", of_run(&copies), wanted)?;
    same("of a run, by the function above", above(fuavelino::decibels(&copies)), wanted)?;
    if !copies.iter().map(bits).eq(records.iter().map(bits)) {
        return Err("a record was altered".to_string());
    }
    if let [record] = records {
        same("of a record, by the method above", above(record.hundredths()), wanted)?;
    }
    match fuavelino::series(records) {
        Ok(total) => same("of its total", of_total(total), wanted),
        Err(refusal) => same("of its series", (refusal.number(), BEFORE), wanted),
    }
}

/// Planes that a record may be of.
const WHOSE: [Whose; 4] = [(0, 0), (1, 1), (1 << 31, 2), LAST];

/// Of a total: the call, the method above it, and that a run of one record of it has the same, whatever its plane, if a record may be so large; and
/// that plane 3 has none.
fn total_agrees(total: Figures, wanted: (u8, Left)) -> Result<(), String> {
    same("of a total", of_total(total), wanted)?;
    same("of a total, by the method above", above(total.hundredths()), wanted)?;
    let alone = if total.n_pixels > SAMPLES { (RECORD, BEFORE) } else { wanted };
    for whose in WHOSE {
        same("of a run of it", of_run(&[of(total, whose)]), alone)?;
    }
    same("of a run of it as plane 3", of_run(&[of(total, (0, 3))]), (RECORD, BEFORE))
}

impl Family for Decibels {
    type Case = Case;

    fn case(&self, number: u64, r: &mut Random) -> Case {
        match self.listed.get(number as usize) {
            Some(case) => case.clone(),
            None => any(&self.rule, r),
        }
    }

    fn judge(&mut self, case: &Case) -> Result<u8, String> {
        let (answer, left, about) = self.wanted(&case.lent);
        let records = match &case.lent {
            Lent::Run(records) => {
                run_agrees(records, (answer, left))?;
                Some(&records[..])
            }
            Lent::Total(total) => {
                total_agrees(*total, (answer, left))?;
                None
            }
        };
        let Figures { sq_err, n_pixels: n, sample_max: max } = about;
        let (hundredths, identical) = left;
        self.count(&Met { records, sq_err, n, max, answer, hundredths, identical }, case.exact)?;
        Ok(answer)
    }

    fn smaller(&self, case: &Case) -> Vec<Case> {
        let exact = case.exact;
        match &case.lent {
            Lent::Run(records) => {
                smaller(records).into_iter().map(|next| Case { lent: Lent::Run(next), exact }).collect()
            }
            Lent::Total(total) => {
                smaller_figures(total).into_iter().map(|next| Case { lent: Lent::Total(next), exact }).collect()
            }
        }
    }

    fn show(&self, case: &Case) -> String {
        match &case.lent {
            Lent::Run(records) => format!("PSNR of {}", show(records)),
            Lent::Total(total) => format!("PSNR of the total {}", show_figures(total)),
        }
    }

    fn answers(&self) -> Vec<u8> {
        vec![0, 10, 11]
    }
}
