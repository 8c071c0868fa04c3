//! What must hold of series, whatever they come to: a run that is bad in one record is refused wherever that stands; totals do not know of frames and
//! planes; parts of a run that is taken are taken.

use crate::family::Run;
use crate::random::Random;
use crate::records::{
    near_the_limit, numbered, of, rising, show, sound, whose, KINDS, LAST_PLACE, MISNUMBERED, MOST_RECORDS,
};
use crate::series::{asked, same, told};
use crate::series_cases::{damaged, full, stepped, MOST, SMALL};
use fuavelino::Record;

/// A run bad in one record, by figures or numbers of every kind, at every place of some hundreds, and at some places of the longest: 10. As it was
/// before, it is taken, or comes to more than 2^53.
pub fn every_place(ask: Run) -> Result<(), String> {
    let count = 300;
    let short = [
        (stepped(SMALL, 0, 1, count), Ok((900, 2_100))),
        (stepped(SMALL, LAST_PLACE - 3 * count as u64, 3, count), Ok((900, 2_100))),
        (stepped(full(MOST), 3 << 31, 3, count), Err(11)),
    ];
    for (records, owed) in short {
        told(&records, owed)?;
        bad_at(&records, &mut (0..count))?;
    }
    let longest = stepped(SMALL, 0, 1, MOST_RECORDS);
    told(&longest, Ok((3 * MOST_RECORDS as u64, 7 * MOST_RECORDS as u64)))?;
    let r = &mut Random::of(ask.seed, "series, places", 0);
    let ends = [0, 1, 2, MOST_RECORDS - 2, MOST_RECORDS - 1];
    let some: Vec<usize> = (0..if ask.full { 60 } else { 3 }).map(|_| r.below(MOST_RECORDS)).collect();
    bad_at(&longest, &mut ends.into_iter().chain(some))
}

fn bad_at(records: &[Record], places: &mut dyn Iterator<Item = usize>) -> Result<(), String> {
    for (at, kind) in places.flat_map(|at| (0..KINDS + MISNUMBERED).map(move |kind| (at, kind))) {
        let bad = damaged(records, at, kind);
        told(&bad, Err(10)).map_err(|why| format!("bad at place {} by kind {}, {}", at, kind, why))?;
    }
    Ok(())
}

/// The laws, of so many runs with all kinds of numbers.
pub fn hold(ask: Run) -> Result<(), String> {
    let count = if ask.full { 200_000 } else { 20_000 };
    for number in 0..count {
        let r = &mut Random::of(ask.seed, "series, laws", number);
        let records = lawful(r);
        let what = |(law, why): (&str, String)| format!("run {}, {}: {}", number, law, why);
        law_of(r, &records).map_err(what)?;
    }
    Ok(())
}

/// A run without a bad record, long enough to be cut.
fn lawful(r: &mut Random) -> Vec<Record> {
    let depth = r.within(1, 12) as u32;
    let count = if r.once_in(50) { r.within(100, 400) } else { r.within(2, 12) };
    let figures = if r.once_in(4) { near_the_limit(r) } else { (0..count).map(|_| sound(r, depth)).collect() };
    numbered(r, &figures)
}

type Broken = (&'static str, String);

fn law_of(r: &mut Random, records: &[Record]) -> Result<(), Broken> {
    let (answer, left) = asked(records);
    let shown = |why: String| format!("{}, of {}", why, show(records));
    let numbers = rising(r, records.len());
    let other: Vec<Record> = records.iter().zip(numbers).map(|(record, whose)| of(record.metrics(), whose)).collect();
    same(asked(&other), (answer, left)).map_err(|why| ("renumbered", format!("{}, of {}", why, show(&other))))?;
    if records.len() < 2 {
        return Ok(());
    }
    let at = r.within(1, records.len() - 1);
    let (one, two) = records.split_at(at);
    if answer == 0 {
        cut(one, two, left).map_err(|why| ("cut", shown(why)))?;
        let thin: Vec<Record> = records.iter().filter(|_| r.once_in(2)).copied().collect();
        taken(&thin).map_err(|why| ("thinned out", why))?;
    }
    told(&[two, one].concat(), Err(10)).map_err(|why| ("the second part before the first", why))?;
    let mut next = records.to_vec();
    next.swap(r.below(at), at);
    told(&next, Err(10)).map_err(|why| ("two exchanged", why))?;
    let mut next = records.to_vec();
    next.insert(r.within(at, records.len()), records[at - 1]);
    told(&next, Err(10)).map_err(|why| ("one twice", why))?;
    // the figures may change places, if the numbers do not
    let turned: Vec<Record> = records.iter().rev().zip(records).map(|(r, at)| of(r.metrics(), whose(at))).collect();
    same(asked(&turned), (answer, left)).map_err(|why| ("figures turned round", shown(why)))
}

/// Both parts are taken, and come to what the whole came to.
fn cut(one: &[Record], two: &[Record], (error, n, max): (u64, u64, u32)) -> Result<(), String> {
    let mut sum = (0.0, 0);
    for part in [one, two] {
        let (answer, (error, n, of)) = asked(part);
        if (answer, of) != (0, max) {
            return Err(format!("a part of {} records answered {}", part.len(), answer));
        }
        sum = (sum.0 + f64::from_bits(error), sum.1 + n);
    }
    if (sum.0.to_bits(), sum.1) == (error, n) {
        return Ok(());
    }
    Err(format!("the parts, cut at {}, come to {} {}", one.len(), sum.0, sum.1))
}

/// Any records of a run that is taken are taken too, if they stay in order and there are some.
fn taken(records: &[Record]) -> Result<(), String> {
    match asked(records).0 {
        0 => Ok(()),
        10 if records.is_empty() => Ok(()),
        answer => Err(format!("answered {}, of {}", answer, show(records))),
    }
}
