//! Series of records, against their rule (`series_rule.rs`); the cases stand in `series_cases.rs`.

use crate::family::{add, all_seen, also, number, run, Family, Run};
use crate::random::Random;
use crate::records::{bits, in_turn, show, smaller, KINDS, MISNUMBERED};
use crate::series_cases::{any, damaged, full, listed};
use crate::series_laws as laws;
use crate::series_rule::{model, summed, Left};
use crate::series_ways::{Met, SHARP, WAYS};
use fuavelino::{no_alloc, PsnrMetrics as Figures, Record};

/// What the three places hold before a call, and must hold after a refusal.
const BEFORE: Left = (0x7FF4_DEAD_BEEF_0001, 0x0123_4567_89AB_CDEF, 0xFEED_F00D);

pub fn compare(ask: Run) -> bool {
    let cases = if ask.full { 5_000_000 } else { 1_000_000 };
    let mut family = Series { listed: listed(), ways: [0; WAYS.len()], sharp: [0; SHARP.len()] };
    run("series", &mut family, cases, ask)
        && also("series: every way told from the rule, every sharp case met", || family.enough())
        && also("series: 1, 2, 3 and more records of the largest error, and 65,536 of none", stated)
        && also("series: a run bad in one record, at every place", || laws::every_place(ask))
        && also("series: renumbered, cut, thinned out, turned round, two exchanged, one twice", || laws::hold(ask))
}

/// The error and the count of a series, or its refusal.
pub type Owed = Result<(u64, u64), u8>;

/// Records of the largest error of one plane, told in numbers: how many of them, and what the series of them is.
const STATED: [(usize, Owed); 6] = [
    (1, Ok((4_501_400_872_550_400, 268_435_456))),
    (2, Ok((9_002_801_745_100_800, 536_870_912))),
    (3, Err(11)),
    // 4,098 of them come to just below 2^64, and one more, in 64 bits, to less than 2^53
    (4_098, Err(11)),
    (4_099, Err(11)),
    (65_536, Err(11)),
];

/// The series in numbers; and each with a bad record after it, or before it, which makes it 10 whatever it comes to.
fn stated() -> Result<(), String> {
    let largest = full(4_501_400_872_550_400);
    for (count, wanted) in STATED {
        told(&in_turn(&vec![largest; count]), wanted)?;
        let longer = in_turn(&vec![largest; count + 1]);
        for (kind, at) in (0..KINDS + MISNUMBERED).flat_map(|kind| [(kind, 0), (kind, count)]) {
            told(&damaged(&longer, at, kind), Err(10))?;
        }
    }
    told(&in_turn(&vec![full(0); 65_536]), Ok((0, 1 << 44)))?;
    told(&in_turn(&vec![full(0); 65_537]), Err(10))
}

/// The answer, and the three places afterwards.
pub fn asked(records: &[Record]) -> (u8, Left) {
    let mut total = Figures { sq_err: f64::from_bits(BEFORE.0), n_pixels: BEFORE.1, sample_max: BEFORE.2 };
    let answer = number(no_alloc::series(records, &mut total));
    (answer, (total.sq_err.to_bits(), total.n_pixels, total.sample_max))
}

/// That the call says this of the records, whose max is the first's.
pub fn told(records: &[Record], wanted: Owed) -> Result<(), String> {
    let wanted = match wanted {
        Ok((error, n)) => (0, ((error as f64).to_bits(), n, records[0].sample_max)),
        Err(refused) => (refused, BEFORE),
    };
    same(asked(records), wanted).map_err(|why| format!("{}, of {}", why, show(records)))
}

pub fn same(said: (u8, Left), wanted: (u8, Left)) -> Result<(), String> {
    if said == wanted {
        return Ok(());
    }
    let show = |(answer, (error, n, max)): (u8, Left)| match (error, n, max) {
        BEFORE => format!("{} and left all as it was", answer),
        _ => format!("{} and left {} ({:#018X}) {} {}", answer, f64::from_bits(error), error, n, max),
    };
    Err(format!("answered {}, not {}", show(said), show(wanted)))
}

struct Series {
    listed: Vec<Vec<Record>>,
    /// How many cases told each way from the rule, and were each of the sharp ones.
    ways: [u64; WAYS.len()],
    sharp: [u64; SHARP.len()],
}

impl Series {
    fn enough(&self) -> Result<(), String> {
        all_seen(WAYS.iter().map(|way| way.0).collect(), &self.ways, "tells the rule from")?;
        all_seen(SHARP.iter().map(|sharp| sharp.0).collect(), &self.sharp, "is")
    }
}

impl Family for Series {
    type Case = Vec<Record>;

    fn case(&self, number: u64, r: &mut Random) -> Vec<Record> {
        match self.listed.get(number as usize) {
            Some(records) => records.clone(),
            None => any(r),
        }
    }

    fn judge(&mut self, records: &Vec<Record>) -> Result<u8, String> {
        let copies = records.clone();
        let (answer, left) = asked(&copies);
        if !copies.iter().map(bits).eq(records.iter().map(bits)) {
            return Err("a record was altered".to_string());
        }
        let wanted = match model(records) {
            Ok(total) => (0, total),
            Err(refused) => (refused, BEFORE),
        };
        same((answer, left), wanted)?;
        let met = Met { records, summed: summed(records), answer };
        add(&mut self.ways, WAYS.iter().map(|way| way.1(&met) != answer));
        add(&mut self.sharp, SHARP.iter().map(|sharp| sharp.1(&met)));
        Ok(answer)
    }

    fn smaller(&self, records: &Vec<Record>) -> Vec<Vec<Record>> {
        smaller(records)
    }

    fn show(&self, records: &Vec<Record>) -> String {
        show(records)
    }

    fn answers(&self) -> Vec<u8> {
        vec![0, 10, 11]
    }
}
