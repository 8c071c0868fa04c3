//! SSIM of both widths: the published pair of the unpadded copies, the rules' refusals, and what is left in the scratch; with the plain engine as one more
//! witness. And what the bindings say of a kernel, lawful or not: the rule that it breaks, and what it is without idle ends.

use crate::family::{add, all_seen, also, number, run, Family, Run};
use crate::fenced::{judging, watch};
use crate::heights;
use crate::limits::SIDE;
use crate::plain_ssim::{Asked, Plain, Said};
use crate::plain_ssim_ways::ways;
use crate::plane::{self, less};
use crate::random::Random;
use crate::samples::{runs, sound, sound_of, Pair};
use crate::ssim_ways;
use fuavelino::{no_alloc, Kernel, KernelFault, Sample};
use published::video::ssim;

/// What the two places hold before a call, and must hold after a refusal.
const BEFORE: [u64; 2] = [0x7FF4_DEAD_BEEF_0001, 0xFFF4_DEAD_BEEF_0002];
/// Random cases lend no more scratch than this.
const ROOM: u128 = 800_000;

pub fn compare(ask: Run) -> bool {
    let _watch = watch();
    let cases = if ask.full { 500_000 } else { 100_000 };
    let telling = match ssim_ways::telling() {
        Ok(list) => list,
        Err(why) => {
            println!("ssim: FAILED: {}", why);
            return false;
        }
    };
    println!("ssim: {} kept pairs tell the published grouping from others", telling.len());
    let kept = telling.into_iter().map(|(pair, kernel)| exact(pair, kernel)).collect();
    let mut pairs = Pairs::new([kept, listed()].concat(), Plain::telling(ways()));
    if !run("ssim", &mut pairs, cases, ask) {
        return false;
    }
    pairs.plain.tell("ssim");
    pairs.kernels_seen()
        && also("ssim: every way told from the plain engine, every sharp case of it met", || pairs.plain.enough())
}

/// Kernels that a run must meet. The published pair is that of the trimmed one where they can be mended.
const KERNELS: [&str; 5] = [
    "taken with a 0 between the ends",
    "with ends of 1",
    "with idle ends and nothing else wrong",
    "padded past the most taps",
    "idle at one end",
];

/// What is asked. The scratch is filled with noise that the seed gives.
#[derive(Clone)]
struct Case {
    pair: Pair,
    kernel: Vec<u16>,
    places: usize,
    seed: u64,
}

struct Pairs {
    listed: Vec<Case>,
    /// How often each of `KERNELS` was met.
    kernels: [u64; 5],
    /// One more witness.
    plain: Plain,
}

impl Pairs {
    fn new(listed: Vec<Case>, plain: Plain) -> Pairs {
        Pairs { listed, kernels: [0; 5], plain }
    }

    /// What the product answers, if it is right, the scratch is as it should be, and the plain engine agrees.
    fn answered(&mut self, c: &Case) -> Result<u8, String> {
        let (answer, left) = answered(c)?;
        let wanted = if answer == 8 { scored(&c.pair, &c.kernel) } else { (answer, left) };
        self.plain.agrees(&Asked { pair: &c.pair, kernel: &c.kernel, before: BEFORE, seed: c.seed }, answer, wanted)?;
        Ok(answer)
    }

    /// Under a kernel that trimming makes lawful, the published pair is the one under the trimmed kernel, and so is the product's. For planes that are
    /// not refused.
    fn mended(&mut self, c: &Case) -> Result<(), String> {
        let inner = trimmed(&c.kernel);
        if lawful(&c.kernel) || !lawful(inner) {
            return Ok(());
        }
        let [long, short] = [&c.kernel[..], inner].map(|taps| bits(published(&c.pair, taps)));
        if long != short {
            return Err(format!("the published pair is {}, and under the trimmed kernel {}", show(long), show(short)));
        }
        let kernel = Kernel::from_taps(c.kernel.clone()).trimmed();
        match self.answered(&exact(c.pair.clone(), kernel.taps().to_vec())) {
            Ok(0 | 9) => Ok(()),
            Ok(answer) => Err(format!("answered {} under the trimmed kernel {}", answer, words(kernel.taps()))),
            Err(why) => Err(format!("under the trimmed kernel: {}", why)),
        }
    }

    fn kernels_seen(&self) -> bool {
        let told: Vec<String> = KERNELS.iter().zip(self.kernels).map(|(what, n)| format!("{} {}", n, what)).collect();
        println!("ssim: kernels: {}; with idle ends the published pair is that of the trimmed one", told.join(", "));
        let seen = all_seen(KERNELS.to_vec(), &self.kernels, "had a kernel");
        if let Err(why) = &seen {
            println!("ssim: FAILED: {}", why);
        }
        seen.is_ok()
    }
}

impl Family for Pairs {
    type Case = Case;

    fn case(&self, number: u64, r: &mut Random) -> Case {
        judging(number);
        match self.listed.get(number as usize) {
            Some(case) => case.clone(),
            None => any(r),
        }
    }

    fn judge(&mut self, c: &Case) -> Result<u8, String> {
        let answer = self.answered(c)?;
        if c.pair.refusal(0) == 0 {
            told(&c.kernel)?;
            self.mended(c)?;
            add(&mut self.kernels, met(&c.kernel).into_iter());
        }
        Ok(answer)
    }

    fn smaller(&self, c: &Case) -> Vec<Case> {
        let sizes = |next: &Case| (needed(next), needed(c));
        let moved = |mut next: Case| {
            // as much over or short of the need as before
            let (now, was) = sizes(&next);
            next.places = (c.places as u128 + now).saturating_sub(was) as usize;
            next
        };
        let pairs = c.pair.smaller().into_iter().map(|pair| Case { pair, ..c.clone() });
        let kernels = smaller_kernels(&c.kernel).into_iter().map(|kernel| Case { kernel, ..c.clone() });
        let mut list: Vec<Case> =
            pairs.chain(kernels).filter(|next| sizes(next).0 <= sizes(next).1).map(moved).collect();
        let exact = needed(c).min(c.places as u128) as usize;
        list.extend(
            less(c.places)
                .into_iter()
                .chain([exact])
                .filter(|n| *n < c.places)
                .map(|places| Case { places, ..c.clone() }),
        );
        list
    }

    fn show(&self, c: &Case) -> String {
        format!("SSIM of {}\n    kernel {}, {} places of scratch", c.pair.show(), words(&c.kernel), c.places)
    }

    fn answers(&self) -> Vec<u8> {
        vec![0, 1, 2, 4, 5, 6, 7, 8]
    }
}

/// What the product answers and leaves, if it is right and the scratch is as it should be.
fn answered(c: &Case) -> Result<Said, String> {
    let mut scratch: Vec<i64> = (0..c.places).map(|i| noise(c.seed, i)).collect();
    let (answer, left) = if c.pair.wide {
        c.pair.lend(|s| s, |a, b| asked(c, &mut scratch, a, b))?
    } else {
        c.pair.lend(|s| s as u8, |a, b| asked(c, &mut scratch, a, b))?
    };
    let (wanted, then) = model(c);
    if (answer, left) != (wanted, then) {
        return Err(format!("answered {} and left {}, not {} and {}", answer, show(left), wanted, show(then)));
    }
    let cleared = if wanted == 0 || wanted == 9 { needed(c) as usize } else { 0 };
    let right = |i: usize| if i < cleared { 0 } else { noise(c.seed, i) };
    match (0..c.places).find(|i| scratch[*i] != right(*i)) {
        Some(i) => Err(format!("left {} at {} of the scratch, of which {} are needed", scratch[i], i, needed(c))),
        None => Ok((answer, left)),
    }
}

/// Never 0, and another at each place.
pub fn noise(seed: u64, at: usize) -> i64 {
    ((seed ^ at as u64).wrapping_mul(0x9E37_79B9_7F4A_7C15) | 1) as i64
}

fn asked<T: Sample>(c: &Case, scratch: &mut [i64], a: &[T], b: &[T]) -> Said {
    let [ssim, cs] = BEFORE.map(f64::from_bits);
    let mut out = fuavelino::Pair { ssim, cs };
    let (a, b, shape) = (c.pair.plane(0, a), c.pair.plane(1, b), c.pair.shape());
    let answer = number(no_alloc::ssim(a, b, shape, &c.kernel, scratch, &mut out));
    (answer, [out.ssim.to_bits(), out.cs.to_bits()])
}

/// The answer, and what the two places hold after it.
fn model(c: &Case) -> Said {
    match c.pair.refusal(0) {
        0 if !lawful(&c.kernel) => (7, BEFORE),
        0 if (c.places as u128) < needed(c) => (8, BEFORE),
        0 => scored(&c.pair, &c.kernel),
        refused => (refused, BEFORE),
    }
}

/// The same of planes and a kernel that are not refused, in enough scratch.
fn scored(pair: &Pair, kernel: &[u16]) -> Said {
    let (ssim, cs) = published(pair, kernel);
    if ssim.is_finite() && cs.is_finite() {
        (0, bits((ssim, cs)))
    } else {
        (9, BEFORE)
    }
}

/// That the plain engine agrees, of planes and a kernel that are not refused.
pub fn witnessed(plain: &mut Plain, pair: &Pair, kernel: &[u16], seed: u64) -> Result<(), String> {
    plain.agrees(&Asked { pair, kernel, before: BEFORE, seed }, 0, scored(pair, kernel))
}

fn bits((ssim, cs): (f64, f64)) -> [u64; 2] {
    [ssim.to_bits(), cs.to_bits()]
}

/// The taps of a kernel, in few words.
fn words(taps: &[u16]) -> String {
    runs(taps, u16::to_string).join(" ")
}

fn show(bits: [u64; 2]) -> String {
    bits.map(|b| format!("{} ({:#018X})", f64::from_bits(b), b)).join(" ")
}

/// What the bindings say of a kernel: whether SSIM takes it, else the first rule that it breaks and where; and what it is without idle ends.
fn told(taps: &[u16]) -> Result<(), String> {
    let kernel = Kernel::from_taps(taps.to_vec());
    let right = match kernel.check() {
        Ok(()) => lawful(taps),
        Err(fault) => shows(fault, taps),
    };
    if !right {
        return Err(format!(
            "the check of the kernel says {:?}; it keeps its rules: {:?}",
            kernel.check(),
            rules(taps)
        ));
    }
    match kernel.trimmed().taps() {
        inner if inner == trimmed(taps) => Ok(()),
        inner => Err(format!("trimmed, the kernel is {}, not {}", words(inner), words(trimmed(taps)))),
    }
}

/// Whether these taps break the rule that a fault names, none before it, and no sooner than at the place that it tells.
fn shows(fault: KernelFault, taps: &[u16]) -> bool {
    let first = rules(taps).iter().position(|kept| !kept);
    let alike = |i: &usize| taps[*i] == taps[taps.len() - 1 - i];
    let (rule, place) = match fault {
        KernelFault::Count { count } => (0, count == taps.len()),
        KernelFault::Tap { at, tap } => (1, taps[at] == tap && tap > 256 && taps[..at].iter().all(|t| *t <= 256)),
        KernelFault::Sum { sum } => (2, sum == taps.iter().map(|t| usize::from(*t)).sum::<usize>()),
        KernelFault::Mirror { at, other } => {
            (3, at + other + 1 == taps.len() && (0..=at).find(|i| !alike(i)) == Some(at))
        }
        KernelFault::Middle { at } => (4, 2 * at + 1 == taps.len()),
        KernelFault::IdleEnds { idle, last } => {
            (5, last + 1 == taps.len() && trimmed(taps).len() + 2 * idle == taps.len())
        }
        _ => return false,
    };
    first == Some(rule) && place
}

/// Which of `KERNELS` this one is.
fn met(taps: &[u16]) -> [bool; 5] {
    let padded = !lawful(taps) && lawful(trimmed(taps));
    let one_end = taps.len() > 1 && (taps[0] == 0) != (taps[taps.len() - 1] == 0);
    [
        lawful(taps) && taps.contains(&0),
        lawful(taps) && taps[0] == 1,
        padded && taps.len() <= 255,
        padded && taps.len() > 255,
        one_end,
    ]
}

/// The published pair of planes and a kernel that are not refused.
pub fn published(pair: &Pair, kernel: &[u16]) -> (f64, f64) {
    let [a, b] = pair.visible().map(|list| list.into_iter().map(u32::from).collect::<Vec<u32>>());
    let kernel: Vec<i64> = kernel.iter().map(|t| i64::from(*t)).collect();
    ssim::probe_pair(&a, &b, pair.width, pair.height, pair.max() as u64, &kernel)
}

/// Judges one call with just enough scratch.
pub fn judged(pair: Pair, kernel: Vec<u16>) -> Result<u8, String> {
    Pairs::new(vec![], Plain::new()).judge(&exact(pair, kernel))
}

/// Whether a lent kernel is lawful.
pub fn lawful(taps: &[u16]) -> bool {
    rules(taps) == [true; 6]
}

/// Which of the rules of a lawful kernel these taps keep: their count, each tap, the sum, the mirror, the middle, and the ends.
fn rules(taps: &[u16]) -> [bool; 6] {
    let sum: u64 = taps.iter().map(|t| u64::from(*t)).sum();
    [
        taps.len() % 2 == 1 && taps.len() <= 255,
        taps.iter().all(|t| *t <= 256),
        sum == 256,
        taps.iter().eq(taps.iter().rev()),
        taps.get(taps.len() / 2) > Some(&0),
        !idle_ended(taps),
    ]
}

/// Order 7: "a kernel of more than one tap whose end taps are 0".
fn idle_ended(taps: &[u16]) -> bool {
    matches!(taps, [0, .., 0])
}

/// Without idle taps at both ends, as long as any are left between them.
pub fn trimmed(taps: &[u16]) -> &[u16] {
    match taps {
        [0, inner @ .., 0] if !inner.is_empty() => trimmed(inner),
        _ => taps,
    }
}

/// The places of scratch that the call needs.
fn needed(c: &Case) -> u128 {
    6 * c.pair.width as u128 * c.kernel.len().next_power_of_two() as u128
}

fn exact(pair: Pair, kernel: Vec<u16>) -> Case {
    let case = Case { pair, kernel, places: 0, seed: 0x5EED };
    Case { places: needed(&case) as usize, ..case }
}

/// With fewer taps, or with taps moved to the middle: lawful ones stay lawful, and those with idle ends lose one at each end.
pub fn smaller_kernels(taps: &[u16]) -> Vec<Vec<u16>> {
    let mut list = Vec::new();
    if taps.len() > 2 {
        let next = gathered(taps, 0);
        let inner = &next[1..next.len() - 1];
        list.push(if idle_ended(taps) { inner } else { trimmed(inner) }.to_vec());
    }
    list.extend((1..taps.len() / 2).filter(|i| taps[*i] > 0).map(|i| gathered(taps, i)));
    list
}

/// With a tap and its mirror moved to the middle.
fn gathered(taps: &[u16], i: usize) -> Vec<u16> {
    let mut next = taps.to_vec();
    let (middle, mirror) = (taps.len() / 2, taps.len() - 1 - i);
    next[middle] = next[middle].wrapping_add(next[i]).wrapping_add(next[mirror]);
    next[i] = 0;
    next[mirror] = 0;
    next
}

/// Some large ones, the longest kernels, and kernels on both sides of each rule, for both widths of samples.
fn listed() -> Vec<Case> {
    let mut r = Random::of(0, "ssim, listed", 0);
    let mut list = Vec::new();
    for (width, height) in [(1, 1), (3, 2), (130, 70), (400, 3), (3, 400), (320, 180)] {
        for kernel in [level(255), hollow(255), vec![256], vec![127, 2, 127], vec![0, 256, 0]] {
            list.push(exact(sound(&mut r, width, height), kernel));
        }
    }
    list.push(exact(sound(&mut r, SIDE, 2), level(255)));
    list.extend(walls(&mut r));
    for kernel in [at_the_ends(), unlawful()].concat() {
        list.extend([8, 12].map(|depth| exact(sound_of(&mut r, depth, 5, 4), kernel.clone())));
    }
    // wide, and little work for the plain engine
    list.extend([8, 12].map(|depth| exact(sound_of(&mut r, depth, 2_400, 1), vec![64, 128, 64])));
    list
}

/// Taps of 1, and the rest in the middle.
pub fn level(count: usize) -> Vec<u16> {
    let mut taps = vec![1; count];
    taps[count / 2] = 257 - count as u16;
    taps
}

/// Ends of 1, the rest in the middle, and 0 between.
pub fn hollow(count: usize) -> Vec<u16> {
    [vec![1], vec![0; count / 2 - 1], vec![254], vec![0; count / 2 - 1], vec![1]].concat()
}

/// With so many idle taps before and after.
fn padded(taps: &[u16], before: usize, after: usize) -> Vec<u16> {
    [&vec![0; before][..], taps, &vec![0; after][..]].concat()
}

/// The runs of order 7 on both sides of its rule, and more: those that are taken stand beside the same with idle ends, up to 255 taps and past them.
pub fn at_the_ends() -> Vec<Vec<u16>> {
    let few: [&[u16]; 6] =
        [&[256], &[1, 254, 1], &[64, 128, 64], &[127, 2, 127], &[1, 0, 254, 0, 1], &[3, 0, 0, 250, 0, 0, 3]];
    let taken = few.iter().map(|taps| taps.to_vec()).chain([level(253), hollow(253), level(255), hollow(255)]);
    let mut list = Vec::new();
    for taps in taken {
        let room = 127 - taps.len() / 2;
        for idle in [1, 2, 5, room, room + 1] {
            list.push(padded(&taps, idle, idle));
        }
        list.extend([(1, 0), (0, 1), (2, 0), (0, 2)].map(|(before, after)| padded(&taps, before, after)));
        list.push(taps);
    }
    list
}

/// Sides at their limit, both widths of samples, under a short kernel and the longest that the published code builds,
/// with just enough scratch and one place less; and sides one past the limit.
fn walls(r: &mut Random) -> Vec<Case> {
    let longest = heights::kernel(SIDE);
    let mut list = Vec::new();
    for depth in [8, 12] {
        for (width, height) in [(SIDE, 1), (SIDE, 3), (1, SIDE), (2, SIDE), (SIDE + 1, 1), (1, SIDE + 1)] {
            for kernel in [&vec![64, 128, 64], &longest] {
                let enough = exact(sound_of(r, depth, width, height), kernel.clone());
                list.extend([Case { places: enough.places - 1, ..enough.clone() }, enough]);
            }
        }
    }
    list
}

pub fn unlawful() -> Vec<Vec<u16>> {
    let ones = [vec![1; 128], vec![0], vec![1; 128]].concat();
    let mut list: Vec<Vec<u16>> = vec![vec![], hollow(257), ones, vec![0; 255], vec![257; 255]];
    list.extend([
        vec![0],
        vec![255],
        vec![257],
        vec![512],
        vec![65_535],
        vec![128, 128],
        vec![0, 256],
        vec![64, 64, 64, 64],
    ]);
    list.extend(
        [[128, 0, 128], [64, 127, 64], [64, 129, 64], [63, 128, 65], [65, 128, 63], [256, 0, 0], [0, 0, 256]]
            .map(|k| k.to_vec()),
    );
    // these come to 256 where sums or taps are kept in too few bits
    list.extend(
        [[65_535, 258, 65_535], [32_768, 256, 32_768], [256, 256, 256], [0, 512, 0], [32_896, 0, 32_896]]
            .map(|k| k.to_vec()),
    );
    list.extend([[1, 2, 250, 2, 2], [1, 2, 249, 3, 1], [100, 28, 0, 28, 100]].map(|k| k.to_vec()));
    // ends that are 0, and something else that is wrong before that is asked
    list.extend([[0, 128, 0, 128, 0], [0, 0, 255, 1, 0], [0, 64, 127, 64, 0], [0, 0, 0, 0, 0]].map(|k| k.to_vec()));
    list.extend([vec![0, 0], vec![0, 128, 128, 0], vec![0, 257, 0]]);
    list
}

fn any(r: &mut Random) -> Case {
    let pair = if r.once_in(6) {
        Pair::of(&plane::any(r, 0))
    } else {
        let (width, height) = sides(r);
        sound(r, width, height)
    };
    let kernel = match r.below(16) {
        0 => spoilt(r, &pair),
        1 => idle(r, &pair),
        2..=4 => gaussian(r, &pair),
        _ => kernel(r, &pair),
    };
    let case = Case { pair, kernel, places: 0, seed: r.next() };
    let need = needed(&case).min(ROOM) as usize;
    let over = r.within(1, 40);
    let list = [need, need, need + 1, need + over, need.saturating_sub(1), need.saturating_sub(over), need / 2, 0];
    let places = if r.once_in(8) { r.pick(&list) } else { r.pick(&list[..4]) };
    Case { places, ..case }
}

fn sides(r: &mut Random) -> (usize, usize) {
    match r.below(500) {
        0 => (r.within(100, 200), r.within(60, 120)),
        1 => (r.within(200, 2_000), r.within(1, 4)),
        2 => (r.within(1, 4), r.within(200, 2_000)),
        3 => (r.within(SIDE - 2, SIDE), r.within(1, 2)),
        4 => (r.within(1, 2), r.within(SIDE - 2, SIDE)),
        5..=80 => (r.within(1, 64), r.within(1, 48)),
        81..=200 => (r.within(1, 4), r.within(1, 4)),
        201..=300 => (r.within(1, 24), r.within(1, 24)),
        _ => (r.within(1, 12), r.within(1, 12)),
    }
}

/// The most taps on one side that scratch of a fair size suffices for.
fn reach(pair: &Pair) -> usize {
    match pair.width {
        0..=256 => 127,
        257..=2_048 => 15,
        _ => 3,
    }
}

/// A lawful kernel: 256 shared out in pairs, the ends first, and the rest in the middle. Few shares leave many a 0 between.
pub fn kernel(r: &mut Random, pair: &Pair) -> Vec<u16> {
    let most = reach(pair);
    let most = r.pick(&[1, 2, 4, 7, 20, 127]).min(most);
    let half = r.below(most + 1);
    let mut side = vec![0; half];
    side.iter_mut().take(1).for_each(|end| *end = 1);
    let share = r.within(1, 127);
    for _ in 1..if half > 0 { r.pick(&[share, 127]) } else { 1 } {
        // the sum of two leans to the middle, so that not all is even
        let at = if r.once_in(2) { r.below(half) } else { (r.below(half) + r.below(half)) / 2 };
        side[at] += 1;
    }
    let middle = 256 - 2 * side.iter().sum::<u16>();
    let other: Vec<u16> = side.iter().rev().copied().collect();
    [side, vec![middle], other].concat()
}

/// One as the published code builds them, of any width.
pub fn gaussian(r: &mut Random, pair: &Pair) -> Vec<u16> {
    let sigma = r.within(1, 400) as f64 / 32.0;
    let side = pair.width.min(pair.height).clamp(1, reach(pair) + 1);
    let most = r.pick(&[side, reach(pair) + 1]);
    let taps = ssim::probe_kernel(sigma, most, 256);
    let taps: Vec<u16> = taps.into_iter().map(|t| t.clamp(0, 65_535) as u16).collect();
    if lawful(&taps) {
        taps
    } else {
        kernel(r, pair)
    }
}

/// A lawful kernel with idle taps: at both ends, up to the most that it may have and one more, or at one end alone.
fn idle(r: &mut Random, pair: &Pair) -> Vec<u16> {
    let taps = kernel(r, pair);
    let most = reach(pair) + 1 - taps.len() / 2;
    let any = r.within(1, most);
    let idle = r.pick(&[1, 1, any, any, most, (most - 1).max(1)]);
    let (before, after) = r.pick(&[(idle, idle), (idle, idle), (idle, idle), (idle, idle), (idle, 0), (0, idle)]);
    padded(&taps, before, after)
}

/// A lawful kernel with one thing changed, or one of the listed.
fn spoilt(r: &mut Random, pair: &Pair) -> Vec<u16> {
    let mut taps = kernel(r, pair);
    let at = r.below(taps.len());
    let middle = taps.len() / 2;
    match r.below(9) {
        0 => taps.truncate(at),
        1 => taps.push(0),
        2 => taps[at] = taps[at].wrapping_add(1),
        3 => taps[at] = taps[at].wrapping_sub(1),
        4 => taps.swap(at, middle),
        5 => taps[at] = r.next() as u16,
        6 => taps[middle] = 0,
        7 => taps = gathered(&taps, 0),
        _ => taps = r.pick(&unlawful().iter().collect::<Vec<_>>()).clone(),
    }
    taps
}
