//! The product beside the published Rust, or plain Rust where that has no such call, in one run: each side's best time of many rounds, taken in
//! turn, and the ratio. Row-fed SSIM beside the product's own SSIM, and the choice between two candidates beside one squared error, by the median of the
//! rounds; the plain SSIM engine beside the fast one. And what the product's scores cost as planes and kernels grow.
//!
//! speed [NAME..]

mod five;
mod plain;
#[allow(dead_code)]
mod random;

use fuavelino::no_alloc::{self, RowState};
use fuavelino::{Kernel, Pair, Place, PlaneKind, PsnrMetrics, Record, Sample, Shape, Tiles};
use published::plane::Plane;
use published::video::pixel::Pixel;
use published::video::{psnr, psnr_hvs, ssim};
use random::Random;
use std::time::{Duration, Instant};

/// Hides a value from the optimiser: `std::hint` has this only since Rust 1.66.
fn black_box<T: Copy>(x: T) -> T {
    unsafe { std::ptr::read_volatile(&x) }
}

/// A side is timed at least and at most so often, and no longer than this once it has been timed often enough.
const FEWEST: usize = 7;
const MOST: usize = 60;
const PATIENCE: Duration = Duration::from_secs(6);

type Named = (&'static str, fn());

const ALL: [Named; 14] = [
    ("root", root),
    ("decibels", decibels),
    ("forward", forward),
    ("squared", || at_both_sizes(squared, squared)),
    ("better", || at_both_sizes(better, better)),
    ("first", || at_both_sizes(first, first)),
    ("map", || at_both_sizes(map, map)),
    ("ssim", || at_both_sizes(similarity, similarity)),
    ("rows", || rows(&bytes(640, 360), 405)),
    ("tall", || rows(&words(1_920, 1_080), 1_080)),
    ("plain", plainly),
    ("hvs", || at_both_sizes(visual, visual)),
    ("scales", || at_both_sizes(scales, scales)),
    ("growth", growth),
];

fn main() {
    let names: Vec<String> = std::env::args().skip(1).collect();
    if let Some(name) = names.iter().find(|name| ALL.iter().all(|known| known.0 != **name)) {
        eprintln!("speed: no {}; there are {}", name, ALL.map(|known| known.0).join(", "));
        std::process::exit(2);
    }
    for (name, run) in ALL.iter().filter(|n| names.is_empty() || names.iter().any(|w| w == n.0)) {
        println!("{}", name);
        run();
    }
}

/// The best time of each side over so many operations, in nanoseconds an operation; the other is what the product is held to.
fn beside(what: &str, count: usize, other_name: &str, product: impl FnMut(), other: impl FnMut()) {
    let [ours, theirs] = in_turn(product, other).map(best);
    tell(what, count, other_name, [ours, theirs], ours / theirs);
}

/// As `beside`, by the median of the rounds and of their ratios: sides that differ by so little would be told apart by one lucky round, and by a
/// processor that changes its speed between rounds.
fn closely_beside(what: &str, count: usize, other_name: &str, product: impl FnMut(), other: impl FnMut()) {
    let [ours, theirs] = in_turn(product, other);
    let ratios = ours.iter().zip(&theirs).map(|(a, b)| a / b).collect();
    tell(what, count, other_name, [ours, theirs].map(median), median(ratios));
}

fn tell(what: &str, count: usize, other_name: &str, times: [f64; 2], ratio: f64) {
    let [ours, theirs] = times.map(|time| time * 1e9 / count as f64);
    println!("  {}: product {:.2} ns, {} {:.2} ns, ratio {:.2}", what, ours, other_name, theirs, ratio);
}

/// The seconds of each side, round by round.
fn in_turn(mut product: impl FnMut(), mut other: impl FnMut()) -> [Vec<f64>; 2] {
    let mut times = [vec![], vec![]];
    let start = Instant::now();
    for round in 0..MOST {
        if round >= FEWEST && start.elapsed() > PATIENCE {
            break;
        }
        times[0].push(once(&mut product));
        times[1].push(once(&mut other));
    }
    times
}

fn best(times: Vec<f64>) -> f64 {
    times.into_iter().fold(f64::MAX, f64::min)
}

fn median(mut times: Vec<f64>) -> f64 {
    times.sort_by(f64::total_cmp);
    times[times.len() / 2]
}

/// The seconds that one run takes.
fn once(run: &mut impl FnMut()) -> f64 {
    let began = Instant::now();
    run();
    began.elapsed().as_secs_f64()
}

/// Random normal numbers; beside the quick guess alone, as the product makes it.
fn root() {
    let mut r = Random::of(1, "speed", 0);
    let list: Vec<f64> =
        (0..100_000).map(|_| f64::from_bits((1 + r.below(2_046) as u64) << 52 | r.next() >> 12)).collect();
    let product = || {
        let mut out = 0.0;
        for x in &list {
            let _ = black_box(no_alloc::root(*x, &mut out));
        }
    };
    let other = || {
        for x in &list {
            black_box(guess(black_box(*x)));
        }
    };
    beside("random numbers", list.len(), "guess alone", product, other);
}

#[inline(never)]
fn guess(x: f64) -> u64 {
    let bits = (x.to_bits() % (1 << 53)) | 0x3FE0_0000_0000_0000;
    let x = f64::from_bits(bits);
    let step = |y: f64| y * (1.5 - 0.5 * x * y * y);
    let y = step(step(step(f64::from_bits(0x5FE6_EB50_C7B5_37A9 - bits / 2))));
    let s = x * y;
    (s + 0.5 * y * (x - s * s)).to_bits()
}

/// Records of any size, depth and error, each as a run of its own and as a total; beside the published three logarithms.
fn decibels() {
    let mut r = Random::of(1, "speed", 3);
    let mut any = || {
        let (n_pixels, sample_max) = (1 + r.bits(28), (1 << r.within(1, 12)) - 1);
        let most = n_pixels * u64::from(sample_max) * u64::from(sample_max);
        Record { sq_err: (1 + r.bits(53) % most) as f64, n_pixels, sample_max, frame: 0, plane: 0 }
    };
    let list: Vec<Record> = (0..20_000).map(|frame| Record { frame, ..any() }).collect();
    let other = || {
        for record in &list {
            let PsnrMetrics { sq_err, n_pixels, sample_max } = black_box(*record).metrics();
            black_box(psnr::probe_decibels((sq_err, n_pixels as usize, sample_max as usize)));
        }
    };
    type Call = fn(Record, &mut u32, &mut u8) -> Result<(), fuavelino::Refusal>;
    let calls: [(&str, Call); 2] = [
        ("one record", |record, hundredths, identical| no_alloc::decibels(&[record], hundredths, identical)),
        ("one total", |record, hundredths, identical| {
            no_alloc::total_decibels(record.metrics(), hundredths, identical)
        }),
    ];
    for (what, call) in calls {
        let product = || {
            let (mut hundredths, mut identical) = (0, 0);
            for record in &list {
                assert_eq!(call(black_box(*record), &mut hundredths, &mut identical), Ok(()));
                black_box((hundredths, identical));
            }
        };
        beside(what, list.len(), "published", product, other);
    }
}

/// Blocks of differences of samples.
fn forward() {
    let mut r = Random::of(1, "speed", 1);
    let blocks: Vec<[i32; 64]> = (0..1_000).map(|_| [0; 64].map(|_: i32| r.within(0, 8_190) as i32 - 4_095)).collect();
    let product = || {
        let mut out = [0; 64];
        for b in &blocks {
            let _ = black_box(no_alloc::forward(b, &mut out));
            black_box(&out);
        }
    };
    let other = || {
        for b in &blocks {
            let mut block = *b;
            psnr_hvs::probe_forward(&mut block);
            black_box(&block);
        }
    };
    beside("one block", blocks.len(), "published", product, other);
}

/// Two planes: a sloping picture with some noise, and the same with other noise.
struct Scene<T> {
    planes: [Plane<T>; 2],
    shape: Shape,
}

impl<T: Sample + Pixel> Scene<T> {
    fn new(width: usize, height: usize, bit_depth: u32, of: fn(usize) -> T) -> Scene<T> {
        let mut r = Random::of(1, "speed", 2);
        let largest = (1 << bit_depth) - 1;
        let noise = largest / 6;
        let planes = [0, 1].map(|_| {
            let sample = |i: usize| of((i % width + i / width) / 5 % (largest - noise) + r.below(noise));
            Plane::new((0..width * height).map(sample).collect(), width, height)
        });
        Scene { planes, shape: Shape { width, height, bit_depth } }
    }

    fn count(&self) -> usize {
        self.shape.width * self.shape.height
    }

    /// Its first plane twice, but for the last sample.
    fn but_last(&self) -> Scene<T>
    where
        T: PartialEq,
    {
        let a = &self.planes[0];
        Scene { planes: [a.clone(), but_last(a)], shape: self.shape }
    }

    /// The planes as the product takes them.
    fn lent(&self) -> [fuavelino::Plane<'_, T>; 2] {
        self.lent_from(0)
    }

    /// The same, from this row on.
    fn lent_from(&self, row: usize) -> [fuavelino::Plane<'_, T>; 2] {
        [&self.planes[0], &self.planes[1]].map(|plane| {
            let stride = plane.cfg.stride;
            fuavelino::Plane { data: &plane.data[row * stride..], stride }
        })
    }

    /// The samples as the published code takes them for SSIM.
    fn wider(&self) -> [Vec<u32>; 2] {
        [&self.planes[0], &self.planes[1]].map(|plane| plane.data.iter().map(|s| u32::from(s.word())).collect())
    }

    fn largest(&self) -> u64 {
        (1 << self.shape.bit_depth) - 1
    }

    fn show(&self) -> String {
        format!("{} × {} of {} bits", self.shape.width, self.shape.height, self.shape.bit_depth)
    }
}

/// A plane with another last sample.
fn but_last<T: Sample + Pixel + PartialEq>(plane: &Plane<T>) -> Plane<T> {
    let mut other = plane.clone();
    let last = other.data.len() - 1;
    other.data[last] = *plane.data.iter().find(|s| **s != plane.data[last]).expect("no picture is flat");
    other
}

fn bytes(width: usize, height: usize) -> Scene<u8> {
    Scene::new(width, height, 8, |s| s as u8)
}

fn words(width: usize, height: usize) -> Scene<u16> {
    Scene::new(width, height, 10, |s| s as u16)
}

/// The time for each sample, of bytes and of words.
fn at_both_sizes(of_bytes: fn(&Scene<u8>), of_words: fn(&Scene<u16>)) {
    of_bytes(&bytes(640, 360));
    of_words(&words(1_920, 1_080));
}

fn squared<T: Sample + Pixel>(scene: &Scene<T>) {
    let [a, b] = &scene.planes;
    let other = || {
        black_box(psnr::probe_squared_error(black_box(a), black_box(b)));
    };
    beside(&scene.show(), scene.count(), "published", run_squared(scene), other);
}

fn run_squared<T: Sample + Pixel>(scene: &Scene<T>) -> impl FnMut() + '_ {
    let [x, y] = scene.lent();
    move || {
        let mut record = Record::default();
        assert_eq!(no_alloc::squared_error(x, y, black_box(scene.shape), 0, 0, &mut record), Ok(()));
        black_box(record);
    }
}

/// The choice between two candidates, which differ in their last sample alone, beside one squared error.
fn better<T: Sample + Pixel + PartialEq>(scene: &Scene<T>) {
    let ([o, a], other) = (scene.lent(), but_last(&scene.planes[1]));
    let b = fuavelino::Plane { data: &other.data, stride: other.cfg.stride };
    let product = || {
        let (mut error, mut which) = (0.0, 0);
        assert_eq!(no_alloc::better(o, a, b, black_box(scene.shape), &mut error, &mut which), Ok(()));
        black_box((error, which));
    };
    closely_beside(&scene.show(), scene.count(), "one squared error", product, run_squared(scene));
}

/// Where the last sample is the first that differs.
fn first<T: Sample + Pixel + PartialEq>(scene: &Scene<T>) {
    let scene = scene.but_last();
    let ([a, b], [x, y], Shape { width, height, .. }) = (&scene.planes, scene.lent(), scene.shape);
    let product = || {
        let (mut differs, mut place) = (0, Place::default());
        assert_eq!(no_alloc::first_difference(x, y, black_box(scene.shape), &mut differs, &mut place), Ok(()));
        assert_eq!((differs, place), (1, Place { row: height - 1, column: width - 1 }));
    };
    let other = || {
        let found = plain::first_difference(black_box(&a.data[..]), black_box(&b.data[..]), black_box(width));
        assert_eq!(found, Some((height - 1, width - 1)));
    };
    beside(&scene.show(), scene.count(), "plain Rust", product, other);
}

fn map<T: Sample + Pixel + Into<i32>>(scene: &Scene<T>) {
    let ([a, b], [x, y], Shape { width, height, .. }) = (&scene.planes, scene.lent(), scene.shape);
    let mut maps = [(); 2].map(|()| vec![0u64; no_alloc::error_map_places(width, height)]);
    let [ours, theirs] = &mut maps;
    let product = || {
        assert_eq!(no_alloc::error_map(x, y, black_box(scene.shape), ours, &mut Tiles::default()), Ok(()));
    };
    let other = || plain::error_map(black_box(&a.data[..]), black_box(&b.data[..]), black_box(width), theirs);
    beside(&scene.show(), scene.count(), "plain Rust", product, other);
    assert_eq!(maps[0], maps[1]);
}

/// With the 15 taps that the published code builds for 405 rows. It is lent planes of wider samples, made beforehand.
fn similarity<T: Sample + Pixel>(scene: &Scene<T>) {
    let kernel = ssim::probe_kernel(405.0 * 1.5 / 256.0, 405, 256);
    assert_eq!(kernel.len(), 15);
    let taps: Vec<u16> = kernel.iter().map(|t| *t as u16).collect();
    let [u, v] = scene.wider();
    let Shape { width, height, .. } = scene.shape;
    let other = || {
        black_box(ssim::probe_pair(black_box(&u), black_box(&v), width, height, scene.largest(), black_box(&kernel)));
    };
    beside(&scene.show(), scene.count(), "published", run_ssim(scene, &taps, &mut Pair::default()), other);
}

fn run_ssim<'a, T: Sample + Pixel>(scene: &'a Scene<T>, taps: &'a [u16], pair: &'a mut Pair) -> impl FnMut() + 'a {
    let [x, y] = scene.lent();
    let mut scratch = vec![0i64; no_alloc::ssim_places(scene.shape.width, taps.len())];
    move || {
        assert_eq!(no_alloc::ssim(x, y, black_box(scene.shape), taps, &mut scratch, pair), Ok(()));
    }
}

/// Rows as they arrive, one by one and 16 together, beside the product's own SSIM of the whole planes, with the chart's kernel for this height.
fn rows<T: Sample + Pixel>(scene: &Scene<T>, height: usize) {
    let kernel = Kernel::charted(height).expect("the chart has this height");
    let taps = kernel.taps();
    for group in [1, 16] {
        let mut pairs = [Pair::default(); 2];
        let [fed, whole] = &mut pairs;
        let what = format!("{}, {} taps, fed by {}", scene.show(), taps.len(), group);
        let (product, other) = (run_rows(scene, taps, group, fed), run_ssim(scene, taps, whole));
        closely_beside(&what, scene.count(), "whole planes", product, other);
        let [fed, whole] = pairs.map(|pair| [pair.ssim, pair.cs].map(f64::to_bits));
        assert_eq!(fed, whole);
    }
}

fn run_rows<'a, T: Sample + Pixel>(
    scene: &'a Scene<T>,
    taps: &'a [u16],
    group: usize,
    pair: &'a mut Pair,
) -> impl FnMut() + 'a {
    let Shape { width, height, .. } = scene.shape;
    let mut scratch = vec![0i64; no_alloc::ssim_places(width, taps.len())];
    move || {
        let mut state = RowState::default();
        assert_eq!(no_alloc::rows_begin::<T>(black_box(scene.shape), taps, &mut scratch, &mut state), Ok(()));
        for row in (0..height).step_by(group) {
            let [x, y] = scene.lent_from(row);
            assert_eq!(no_alloc::rows_feed(x, y, group.min(height - row), &mut scratch, &mut state), Ok(()));
        }
        assert_eq!(no_alloc::rows_finish(&mut scratch, &state, pair), Ok(()));
    }
}

/// The plain engine, which sums the window afresh at every centre, beside the fast one as the count of taps grows.
fn plainly() {
    let scene = bytes(160, 120);
    let ([x, y], n) = (scene.lent(), scene.count());
    for count in [1, 5, 9, 15, 33] {
        let taps = level(count);
        let mut pairs = [Pair::default(); 2];
        let [plain, fast] = &mut pairs;
        let product = || assert_eq!(no_alloc::plain_ssim(x, y, black_box(scene.shape), &taps, plain), Ok(()));
        let what = format!("{}, taps {}", scene.show(), count);
        closely_beside(&what, n, "fast engine", product, run_ssim(&scene, &taps, fast));
        let [plain, fast] = pairs.map(|pair| [pair.ssim, pair.cs].map(f64::to_bits));
        assert_eq!(plain, fast);
    }
}

/// Of luma.
fn visual<T: Sample + Pixel>(scene: &Scene<T>) {
    let [a, b] = &scene.planes;
    let depth = scene.shape.bit_depth as usize;
    let other = || {
        black_box(psnr_hvs::probe_plane(black_box(a), black_box(b), 0, depth));
    };
    beside(&scene.show(), scene.count(), "published", run_hvs(scene), other);
}

fn run_hvs<T: Sample + Pixel>(scene: &Scene<T>) -> impl FnMut() + '_ {
    let [x, y] = scene.lent();
    move || {
        let mut score = 0.0;
        assert_eq!(no_alloc::psnr_hvs(x, y, black_box(scene.shape), PlaneKind::Y, &mut score), Ok(()));
        black_box(score);
    }
}

/// For each sample of the first scale; the published side is its own five pairs, without the power product.
fn scales<T: Sample + Pixel>(scene: &Scene<T>) {
    let planes = scene.wider();
    let Shape { width, height, .. } = scene.shape;
    let other = || {
        black_box(five::pairs(planes.clone(), width, height, scene.largest()));
    };
    beside(&scene.show(), scene.count(), "published", run_scales(scene), other);
}

fn run_scales<T: Sample + Pixel>(scene: &Scene<T>) -> impl FnMut() + '_ {
    let [x, y] = scene.lent();
    let mut scratch = vec![0i64; 96 * scene.shape.width];
    let mut rooms = [vec![0u32; scene.count()], vec![0u32; scene.count()]];
    move || {
        let mut pairs = [Pair::default(); 5];
        let [p, q] = &mut rooms;
        assert_eq!(no_alloc::msssim(x, y, black_box(scene.shape), &mut scratch, p, q, &mut pairs), Ok(()));
        black_box(pairs);
    }
}

/// The product alone, as one side or the count of taps doubles: where the cost is linear, the time for each sample (and tap) stays.
fn growth() {
    for width in [160, 320, 640, 1_280, 2_560] {
        grown(&bytes(width, 360));
    }
    for height in [90, 180, 360, 720, 1_440] {
        grown(&bytes(640, height));
    }
    let scene = bytes(640, 360);
    for count in [7, 15, 31, 63, 127, 255] {
        let taps = level(count);
        let each = alone(scene.count(), run_ssim(&scene, &taps, &mut Pair::default()));
        println!("  SSIM of {} taps: {:.2} ns a sample, {:.2} ns a sample and tap", count, each, each / count as f64);
    }
}

fn grown(scene: &Scene<u8>) {
    let taps = level(15);
    let n = scene.count();
    let times = [
        alone(n, run_squared(scene)),
        alone(n, run_ssim(scene, &taps, &mut Pair::default())),
        alone(n, run_scales(scene)),
        alone(n, run_hvs(scene)),
    ];
    let [error, ssim, scales, hvs] = times;
    println!(
        "  {}: squared error {:.2}, SSIM of 15 taps {:.2}, five scales {:.2}, HVS {:.2} ns a sample",
        scene.show(),
        error,
        ssim,
        scales,
        hvs
    );
}

/// A lawful kernel of so many taps, none of them 0: as level as whole numbers allow.
fn level(count: usize) -> Vec<u16> {
    let mut taps = vec![(256 / count) as u16; count];
    taps[count / 2] += (256 % count) as u16;
    taps
}

/// The best time of one side, in nanoseconds an operation.
fn alone(count: usize, mut run: impl FnMut()) -> f64 {
    let best = (0..15).map(|_| once(&mut run)).fold(f64::MAX, f64::min);
    best * 1e9 / count as f64
}
