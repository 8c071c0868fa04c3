//! SSIM of rows as they arrive: the pair of whole planes however the rows are grouped, each refusal with what it leaves, and any state, scratch and sums.

use fuavelino::no_alloc::{self, RowState, MOST_TAPS};
use fuavelino::*;

/// Two planes to feed from, with padding that no sample of the depth may be.
struct Planes<T> {
    a: Vec<T>,
    b: Vec<T>,
    strides: [usize; 2],
    shape: Shape,
}

impl<T: Sample> Planes<T> {
    fn new(shape: Shape, strides: [usize; 2], make: fn(u32) -> T) -> Planes<T> {
        let sample = |i: usize, seed: usize| ((i * i * 31 + i * 7 + seed * (i % 5)) % (1 << shape.bit_depth)) as u32;
        let drawn = |stride: usize, seed: usize| {
            let at = |i: usize| {
                if i % stride < shape.width {
                    sample(i / stride * 977 + i % stride, seed)
                } else {
                    u32::MAX
                }
            };
            (0..stride * shape.height).map(|i| make(at(i))).collect()
        };
        Planes { a: drawn(strides[0], 0), b: drawn(strides[1], 1), strides, shape }
    }

    /// These rows of both, and not a sample more.
    fn rows(&self, from: usize, count: usize) -> (Plane<'_, T>, Plane<'_, T>) {
        let [a, b] = [(&self.a, self.strides[0]), (&self.b, self.strides[1])].map(|(samples, stride)| {
            let end = if count == 0 { from * stride } else { (from + count - 1) * stride + self.shape.width };
            Plane { data: &samples[from * stride..end], stride }
        });
        (a, b)
    }

    fn whole(&self, kernel: &[u16]) -> Pair {
        let (a, b) = self.rows(0, self.shape.height);
        ssim(a, b, self.shape, &Kernel::from_taps(kernel.to_vec()), &mut Scratch::new()).unwrap()
    }
}

fn bytes(width: usize, height: usize) -> Planes<u8> {
    Planes::new(Shape { width, height, bit_depth: 7 }, [width, width + 3], |value| value as u8)
}

fn words(width: usize, height: usize) -> Planes<u16> {
    Planes::new(Shape { width, height, bit_depth: 10 }, [width + 2, width], |value| value as u16)
}

/// What the calls of one run of rows are lent; scratch has some more than is needed.
struct Lent {
    scratch: Vec<i64>,
    need: usize,
    state: RowState,
}

const MORE: usize = 5;
const SOIL: i64 = -0x1234_5678_9ABC;

/// A state that no call left.
fn soiled() -> RowState {
    RowState { numbers: [77; 6], kernel: [88; MOST_TAPS], sums: [-7.25, f64::NAN, 1e300] }
}

/// All of a state, in bits, so that what is not a number compares too.
fn bits(state: &RowState) -> ([u64; 6], [u16; MOST_TAPS], [u64; 3]) {
    (state.numbers, state.kernel, state.sums.map(f64::to_bits))
}

fn pair_bits(pair: Pair) -> [u64; 2] {
    [pair.ssim, pair.cs].map(f64::to_bits)
}

impl Lent {
    fn begin<T: Sample>(shape: Shape, kernel: &[u16]) -> Lent {
        let need = no_alloc::ssim_places(shape.width, kernel.len());
        let mut lent = Lent { scratch: vec![SOIL; need + MORE], need, state: soiled() };
        assert_eq!(no_alloc::rows_begin::<T>(shape, kernel, &mut lent.scratch, &mut lent.state), Ok(()));
        lent.is_clear();
        let mut held = [0; MOST_TAPS];
        held[..kernel.len()].copy_from_slice(kernel);
        let numbers = [shape.width, shape.height, shape.bit_depth as usize, kernel.len(), 0, 0].map(|n| n as u64);
        assert_eq!(bits(&lent.state), (numbers, held, [0; 3]));
        lent
    }

    fn feed<T: Sample>(&mut self, (a, b): (Plane<'_, T>, Plane<'_, T>), rows: usize) -> Result<(), Refusal> {
        no_alloc::rows_feed(a, b, rows, &mut self.scratch, &mut self.state)
    }

    /// Fed, with as many rows scored as half a kernel has followed.
    fn takes<T: Sample>(&mut self, band: (Plane<'_, T>, Plane<'_, T>), rows: usize) {
        let [width, height, depth, taps, received, _] = self.state.numbers;
        let kernel = self.state.kernel;
        assert_eq!(self.feed(band, rows), Ok(()));
        let now = received + rows as u64;
        let scored = if now == height { height } else { now.saturating_sub(taps / 2) };
        assert_eq!(self.state.numbers, [width, height, depth, taps, now, scored]);
        assert_eq!((self.state.kernel, &self.scratch[self.need..]), (kernel, &[SOIL; MORE][..]));
    }

    /// Refused so, with state and scratch as they were.
    fn refuses<T: Sample>(&mut self, band: (Plane<'_, T>, Plane<'_, T>), rows: usize, places: usize, refusal: Refusal) {
        let (state, scratch) = (self.state, self.scratch.clone());
        let said = no_alloc::rows_feed(band.0, band.1, rows, &mut self.scratch[..places], &mut self.state);
        assert_eq!(said, Err(refusal), "{} rows in {} places", rows, places);
        assert_eq!((bits(&self.state), &self.scratch), (bits(&state), &scratch));
    }

    fn does_not_finish(&mut self, places: usize, refusal: Refusal) {
        let (state, scratch, mut pair) = (self.state, self.scratch.clone(), BEFORE);
        let said = no_alloc::rows_finish(&mut self.scratch[..places], &self.state, &mut pair);
        assert_eq!((said, pair), (Err(refusal), BEFORE));
        assert_eq!((bits(&self.state), &self.scratch), (bits(&state), &scratch));
    }

    fn finishes(&mut self) -> Pair {
        let (state, mut pair) = (self.state, BEFORE);
        assert_eq!(no_alloc::rows_finish(&mut self.scratch, &self.state, &mut pair), Ok(()));
        assert_eq!(bits(&self.state), bits(&state));
        self.is_clear();
        pair
    }

    fn is_clear(&self) {
        assert!(self.scratch[..self.need].iter().all(|place| *place == 0));
        assert_eq!(self.scratch[self.need..], [SOIL; MORE]);
    }
}

const BEFORE: Pair = Pair { ssim: 0.125, cs: -7.5 };
const BELL: [u16; 3] = [64, 128, 64];

/// Planes fed in these groups, with an empty one before each and after the last, give the pair of the whole.
fn grouped<T: Sample>(planes: &Planes<T>, kernel: &[u16], groups: impl Iterator<Item = usize>) {
    let mut lent = Lent::begin::<T>(planes.shape, kernel);
    let mut from = 0;
    for group in groups {
        lent.takes(planes.rows(from, 0), 0);
        lent.takes(planes.rows(from, group), group);
        from += group;
    }
    lent.takes(planes.rows(from, 0), 0);
    let pair = lent.finishes();
    assert_eq!(pair_bits(pair), pair_bits(planes.whole(kernel)), "{:?}, {} taps", planes.shape, kernel.len());
    // a finished state gives its pair again
    assert_eq!(pair_bits(lent.finishes()), pair_bits(pair));
}

/// Groups of these many rows, the last of them smaller.
fn bands(height: usize, most: usize) -> impl Iterator<Item = usize> {
    (0..height).step_by(most).map(move |from| most.min(height - from))
}

/// One tap, few, and more than twice the rows; every grouping of small heights, of narrow planes.
#[test]
fn every_grouping() {
    let kernels = [&[256][..], &BELL, &[10, 60, 116, 60, 10], &[1, 0, 3, 8, 18, 31, 134, 31, 18, 8, 3, 0, 1]];
    for height in 1..=6 {
        // a cut after each row whose bit is set
        for cuts in 0..1 << (height - 1) {
            let groups = |from: usize| (from + 1..height).take_while(|row| cuts >> (row - 1) & 1 == 0).count() + 1;
            let each = std::iter::successors(Some((0, groups(0))), |(from, group)| {
                let next = from + group;
                (next < height).then(|| (next, groups(next)))
            });
            for (kernel, width) in kernels.iter().flat_map(|kernel| [1, 2, 5].map(|width| (kernel, width))) {
                grouped(&bytes(width, height), kernel, each.clone().map(|group| group.1));
                grouped(&words(width, height), kernel, each.clone().map(|group| group.1));
            }
        }
    }
}

/// 255 taps over fewer rows than half of them, than all of them, and more; and over a plane of one column.
#[test]
fn the_most_taps() {
    let mut kernel = [1; MOST_TAPS];
    kernel[127] = 2;
    for (width, height) in [(1, 1), (1, 300), (3, 60), (2, 127), (2, 128), (4, 200), (2, 400)] {
        for most in [1, 16, 129, height] {
            grouped(&bytes(width, height), &kernel, bands(height, most));
            grouped(&words(width, height), &kernel, bands(height, most));
        }
    }
}

/// The widest rows and the most of them.
#[test]
fn the_largest_sides() {
    for (width, height) in [(MOST_SIDE, 4), (1, MOST_SIDE)] {
        for most in [1, 7, height] {
            grouped(&bytes(width, height), &BELL, bands(height, most));
        }
    }
}

/// Each feed may have strides of its own, up to the longest there are.
#[test]
fn strides_that_change() {
    let planes = words(9, 23);
    let mut lent = Lent::begin::<u16>(planes.shape, &BELL);
    let mut from = 0;
    for (rows, strides) in
        [(5, [9, 9]), (0, [9, MOST_STRIDE]), (1, [MOST_STRIDE, 9]), (2, [10, MOST_STRIDE]), (15, [31, 12])]
    {
        let (a, b) = planes.rows(from, rows);
        let respaced = [(a, strides[0]), (b, strides[1])].map(|(plane, stride)| {
            let mut samples: Vec<u16> = Vec::new();
            for row in plane.data.chunks(plane.stride) {
                samples.extend(&row[..9]);
                samples.resize(samples.len() + stride - 9, u16::MAX);
            }
            samples.truncate(samples.len() - (stride - 9).min(samples.len()));
            samples
        });
        let band = |side: usize| Plane { data: &respaced[side][..], stride: strides[side] };
        lent.takes((band(0), band(1)), rows);
        from += rows;
    }
    assert_eq!(pair_bits(lent.finishes()), pair_bits(planes.whole(&BELL)));
}

/// The lowest of 1 2 7 8, with the state and the scratch as they were.
#[test]
fn refused_begins() {
    let shape = Shape { width: 4, height: 3, bit_depth: 8 };
    let begin = |wide: bool, shape: Shape, kernel: &[u16], places: usize, refusal: Refusal| {
        let (mut scratch, mut state) = (vec![SOIL; places], soiled());
        let said = match wide {
            true => no_alloc::rows_begin::<u16>(shape, kernel, &mut scratch, &mut state),
            false => no_alloc::rows_begin::<u8>(shape, kernel, &mut scratch, &mut state),
        };
        assert_eq!(said, Err(refusal), "{:?}, {:?}, {} places", shape, kernel, places);
        assert_eq!((bits(&state), scratch), (bits(&soiled()), vec![SOIL; places]));
    };
    for (wide, depths, good) in [(false, [0, 9, 12, 13, u32::MAX], 8), (true, [0, 1, 8, 13, u32::MAX], 9)] {
        for bit_depth in depths {
            begin(wide, Shape { bit_depth, ..shape }, &BELL, 96, Refusal::Depth);
            // it comes before all others
            begin(wide, Shape { bit_depth, width: 0, height: 0 }, &[], 0, Refusal::Depth);
        }
        let shape = Shape { bit_depth: good, ..shape };
        for side in [0, MOST_SIDE + 1, 1 << 32, usize::MAX] {
            begin(wide, Shape { width: side, ..shape }, &BELL, 96, Refusal::Size);
            begin(wide, Shape { height: side, ..shape }, &[], 0, Refusal::Size);
        }
        for kernel in [&[][..], &[128, 128], &[63, 128, 65], &[257], &[0, 256, 0], &[128, 0, 128], &[0; 300]] {
            begin(wide, shape, kernel, 0, Refusal::Kernel);
            begin(wide, shape, kernel, 2_000, Refusal::Kernel);
        }
        for places in [0, 1, 95] {
            begin(wide, shape, &BELL, places, Refusal::Scratch);
        }
    }
}

/// The first two rows of planes of 6 by 5, fed.
fn fed<T: Sample>(planes: &Planes<T>) -> Lent {
    let mut lent = Lent::begin::<T>(planes.shape, &BELL);
    lent.takes(planes.rows(0, 2), 2);
    lent
}

/// After its refusals the feed is repeated as it should be, and the pair is that of the whole.
fn goes_on<T: Sample>(mut lent: Lent, planes: &Planes<T>) {
    lent.takes(planes.rows(2, 3), 3);
    assert_eq!(pair_bits(lent.finishes()), pair_bits(planes.whole(&BELL)));
}

/// 4 also where no rows are fed; before 5, 8 and rows past the height.
fn refused_strides<T: Sample>(planes: &Planes<T>) {
    let (mut lent, (a, b)) = (fed(planes), planes.rows(2, 3));
    let need = lent.need;
    for stride in [0, 5, MOST_STRIDE + 1, 1 << 32 | 6, usize::MAX] {
        for (rows, data, places) in [(3, a.data, need), (0, a.data, need), (0, &[], 0), (usize::MAX, &[], 0)] {
            lent.refuses((Plane { data, stride }, b), rows, places, Refusal::Stride);
            lent.refuses((a, Plane { data, stride }), rows, places, Refusal::Stride);
        }
    }
    goes_on(lent, planes);
}

/// 5 for any count of rows that are not there, before 8 and rows past the height; no rows are always there.
fn refused_counts<T: Sample>(planes: &Planes<T>) {
    let (mut lent, (a, b)) = (fed(planes), planes.rows(2, 3));
    let need = lent.need;
    // among them some that leave little or nothing in 64 bits, times a stride
    for rows in [4, 1 << 32, (1 << 61) + 1, (1 << 63) + 1, usize::MAX / 6 + 2, usize::MAX] {
        for band in [(a, b), (a, a), (b, b)] {
            lent.refuses(band, rows, need, Refusal::Short);
            lent.refuses(band, rows, 0, Refusal::Short);
        }
    }
    for (rows, less) in [(3, [1, 0]), (3, [0, 1]), (1, [a.data.len(), 0]), (1, [0, b.data.len()])] {
        let band = (Plane { data: &a.data[less[0]..], ..a }, Plane { data: &b.data[less[1]..], ..b });
        lent.refuses(band, rows, need, Refusal::Short);
    }
    goes_on(lent, planes);
}

/// 6 for any sample of the rows that are lent, those past the height too; before 8.
fn refused_samples<T: Sample>(planes: &Planes<T>, bright: T) {
    let mut lent = fed(planes);
    let need = lent.need;
    let (a, b) = planes.rows(1, 4);
    for (row, column) in [(0, 0), (0, 5), (2, 3), (3, 0), (3, 5)] {
        let [x, y] = [a, b].map(|plane| {
            let mut samples = plane.data.to_vec();
            samples[row * plane.stride + column] = bright;
            samples
        });
        let (x, y) = (Plane { data: &x[..], ..a }, Plane { data: &y[..], ..b });
        for (band, places) in [((x, b), need), ((a, y), need), ((x, y), 0)] {
            lent.refuses(band, 4, places, Refusal::Sample);
            if row < 3 {
                lent.refuses(band, 3, places, Refusal::Sample);
            }
        }
    }
    goes_on(lent, planes);
}

/// 8 also where no rows are fed, and before rows past the height.
fn refused_scratch<T: Sample>(planes: &Planes<T>) {
    let (mut lent, band) = (fed(planes), planes.rows(1, 4));
    for places in [0, 1, lent.need - 1] {
        for rows in [0, 1, 3, 4] {
            lent.refuses(band, rows, places, Refusal::Scratch);
        }
    }
    goes_on(lent, planes);
}

/// 15 for one row more than is left, or for more.
fn refused_rows<T: Sample>(planes: &Planes<T>) {
    let mut lent = fed(planes);
    let need = lent.need;
    lent.refuses(planes.rows(1, 4), 4, need, Refusal::State);
    lent.refuses(planes.rows(0, 5), 5, need, Refusal::State);
    goes_on(lent, planes);
    let mut lent = fed(planes);
    lent.takes(planes.rows(2, 3), 3);
    lent.refuses(planes.rows(4, 1), 1, need, Refusal::State);
    assert_eq!(pair_bits(lent.finishes()), pair_bits(planes.whole(&BELL)));
    lent.refuses(planes.rows(4, 1), 1, need, Refusal::State);
}

#[test]
fn refused_feeds() {
    let (bytes, words) = (bytes(6, 5), words(6, 5));
    refused_strides(&bytes);
    refused_strides(&words);
    refused_counts(&bytes);
    refused_counts(&words);
    refused_samples(&bytes, 128);
    refused_samples(&words, 1_024);
    refused_scratch(&bytes);
    refused_scratch(&words);
    refused_rows(&bytes);
    refused_rows(&words);
}

/// 8 before 15 for a finish that is early; then nothing is changed. 9 where the sums were altered: scratch as acceptance leaves it.
#[test]
fn refused_finishes() {
    let planes = words(6, 5);
    let mut lent = fed(&planes);
    let (need, all) = (lent.need, lent.scratch.len());
    for places in [0, need - 1] {
        lent.does_not_finish(places, Refusal::Scratch);
    }
    for places in [need, all] {
        lent.does_not_finish(places, Refusal::State);
    }
    lent.takes(planes.rows(2, 2), 2);
    lent.does_not_finish(all, Refusal::State);
    lent.takes(planes.rows(4, 1), 1);
    lent.does_not_finish(need - 1, Refusal::Scratch);
    let sums = lent.state.sums;
    for wrong in [[sums[0], sums[1], 0.0], [f64::NAN, sums[1], sums[2]], [sums[0], f64::INFINITY, sums[2]], [0.0; 3]] {
        lent.scratch[..need].fill(SOIL);
        let (mut state, mut pair) = (lent.state, BEFORE);
        state.sums = wrong;
        let said = no_alloc::rows_finish(&mut lent.scratch, &state, &mut pair);
        assert_eq!((said, pair), (Err(Refusal::NotFinite), BEFORE));
        lent.is_clear();
    }
    assert_eq!(pair_bits(lent.finishes()), pair_bits(planes.whole(&BELL)));
}

/// A state with something changed.
fn with(state: RowState, change: impl Fn(&mut RowState)) -> RowState {
    let mut changed = state;
    change(&mut changed);
    changed
}

/// What no begin and feeds could give, made of a state that they gave.
fn impossible(state: RowState) -> Vec<RowState> {
    let [width, height, depth, taps, received, scored] = state.numbers;
    let wild = |value: u64| [value | 1 << 32, value | 1 << 63, u64::MAX];
    let sides = |side: u64| [0, MOST_SIDE as u64 + 1].into_iter().chain(wild(side)).collect::<Vec<u64>>();
    let numbers = [
        sides(width),
        sides(height),
        [0, 13, 64, 1 << 32 | 8, 1 << 32 | 9].into_iter().chain(wild(depth)).collect(),
        [0, 1, taps - 1, taps + 1, taps + 2, 256, 257].into_iter().chain(wild(taps)).collect(),
        [received - 1, received + 1, height, height + 1].into_iter().chain(wild(received)).collect(),
        [scored - 1, scored + 1, received, height].into_iter().chain(wild(scored)).collect(),
    ];
    let mut found = Vec::new();
    for (at, values) in numbers.iter().enumerate() {
        found.extend(values.iter().map(|value| with(state, |s| s.numbers[at] = *value)));
    }
    for at in 0..MOST_TAPS {
        found.push(with(state, |s| s.kernel[at] = s.kernel[at].wrapping_add(1)));
        found.push(with(state, |s| s.kernel[at] = s.kernel[at].wrapping_sub(1)));
        found.push(with(state, |s| s.kernel[at] ^= 1 << 15));
    }
    // as many scored as there would be, were there so many rows
    for (rows, high) in
        [(height + 1, height), (received, received - 1), (u64::MAX, height), (1 << 32 | received, height)]
    {
        found.push(with(state, |s| (s.numbers[1], s.numbers[4], s.numbers[5]) = (high, rows, rows - 1)));
    }
    found.push(with(state, |s| s.kernel = [0; MOST_TAPS]));
    found.push(with(state, |s| s.kernel[..3].copy_from_slice(&[0, 256, 0])));
    found.push(with(state, |s| s.kernel[..3].copy_from_slice(&[128, 0, 128])));
    found.push(RowState::default());
    found
}

/// An impossible state is 15 before anything else, of a feed and of a finish; nothing is changed.
fn impossible_first<T: Sample>(planes: &Planes<T>) {
    let mut lent = fed(planes);
    let (need, kept) = (lent.need, lent.state);
    for state in impossible(kept) {
        lent.state = state;
        lent.refuses(planes.rows(2, 3), 3, need, Refusal::State);
        lent.refuses(planes.rows(2, 0), 0, need, Refusal::State);
        let nothing = Plane { data: &[], stride: 0 };
        lent.refuses::<T>((nothing, nothing), usize::MAX, 0, Refusal::State);
        lent.does_not_finish(0, Refusal::State);
        lent.does_not_finish(need, Refusal::State);
    }
    lent.state = kept;
    goes_on(lent, planes);
}

#[test]
fn impossible_states() {
    impossible_first(&bytes(6, 5));
    impossible_first(&words(6, 5));
}

/// A state of one sample width is impossible for a feed of the other; a finish goes by the depth.
#[test]
fn states_of_the_other_width() {
    let (bytes, words) = (bytes(6, 5), words(6, 5));
    let (mut of_bytes, mut of_words) = (fed(&bytes), fed(&words));
    let need = of_bytes.need;
    of_bytes.refuses(words.rows(2, 3), 3, need, Refusal::State);
    of_words.refuses(bytes.rows(2, 3), 3, need, Refusal::State);
    of_bytes.refuses::<u16>((Plane { data: &[], stride: 0 }, words.rows(2, 3).1), 0, 0, Refusal::State);
    of_words.refuses::<u8>((Plane { data: &[], stride: 0 }, bytes.rows(2, 3).1), 0, 0, Refusal::State);
    goes_on(of_bytes, &bytes);
    goes_on(of_words, &words);
}

/// Numbers, one off, that another begin could have given: only what is lent is read and written, whatever is answered.
#[test]
fn possible_states_of_others() {
    let planes = bytes(6, 5);
    let changes: [fn(&mut RowState); 8] = [
        |s| s.numbers[0] += 1,
        |s| s.numbers[0] -= 1,
        |s| s.numbers[0] = MOST_SIDE as u64,
        |s| s.numbers[1] += 1,
        |s| s.numbers[1] = MOST_SIDE as u64,
        |s| s.numbers[2] = 1,
        |s| s.numbers[2] += 1,
        |s| (s.numbers[3], s.numbers[5], s.kernel) = (1, 2, std::array::from_fn(|i| if i == 0 { 256 } else { 0 })),
    ];
    for change in changes {
        let mut lent = fed(&planes);
        change(&mut lent.state);
        let (before, scratch) = (lent.state, lent.scratch.clone());
        if lent.feed(planes.rows(2, 3), 3).is_err() {
            assert_eq!((bits(&lent.state), lent.scratch), (bits(&before), scratch));
        } else {
            assert_eq!((lent.state.numbers[4], &lent.scratch[lent.need..]), (5, &[SOIL; MORE][..]));
        }
    }
}

/// Noise in the scratch and in the sums, and older states: feeds and finishes stay safe, and rows are counted as always.
#[test]
fn altered_by_the_caller() {
    let planes = words(6, 9);
    let noise = [i64::MIN, i64::MAX, -1, 1, SOIL, 1 << 32, 0x7FFF_FFFF_FFFF, -(1 << 48)];
    let sums = [f64::NAN, f64::INFINITY, f64::NEG_INFINITY, f64::MAX, f64::MIN, -0.0, 5e-324];
    for turn in 0..noise.len() * sums.len() {
        let mut lent = Lent::begin::<u16>(planes.shape, &BELL);
        let older = lent.state;
        let need = lent.need;
        for from in (0..9).step_by(3) {
            lent.scratch[..need].iter_mut().enumerate().for_each(|(i, place)| *place = noise[(i + turn) % noise.len()]);
            lent.state.sums = [0, 1, 2].map(|i| sums[(turn + i * from) % sums.len()]);
            lent.takes(planes.rows(from, 3), 3);
        }
        let said = no_alloc::rows_finish(&mut lent.scratch, &lent.state, &mut Pair::default());
        assert!(matches!(said, Ok(()) | Err(Refusal::NotFinite)));
        lent.is_clear();
        lent.state = older;
        lent.takes(planes.rows(0, 9), 9);
    }
}

/// It lies in memory as `fuavelino_rows` does in C.
#[test]
fn laid_out_as_in_c() {
    let state = RowState::default();
    let start = std::ptr::addr_of!(state) as usize;
    let places = [
        std::ptr::addr_of!(state.numbers) as usize,
        std::ptr::addr_of!(state.kernel) as usize,
        std::ptr::addr_of!(state.sums) as usize,
    ];
    assert_eq!((places.map(|place| place - start), std::mem::size_of::<RowState>()), ([0, 48, 560], 584));
}

/// Frames in bands, of more than one shape and kernel, in the memory of the first; the pairs are those of the whole.
#[test]
fn a_clip_in_bands() {
    let mut fed = RowFed::begin(Shape { width: 1, height: 1, bit_depth: 8 }, &Kernel::from_taps(vec![256])).unwrap();
    for (width, height, most, of) in
        [(40, 30, 16, 144), (64, 33, 8, 360), (3, 90, 7, 240), (64, 33, 33, 144), (17, 5, 1, 405)]
    {
        let (planes, kernel) = (bytes(width, height), Kernel::charted(of).unwrap());
        assert_eq!(fed.begin_again(planes.shape, &kernel), Ok(()));
        assert_eq!((fed.shape(), fed.received(), fed.scored()), (planes.shape, 0, 0));
        let mut from = 0;
        for rows in bands(height, most) {
            let (a, b) = planes.rows(from, rows);
            assert_eq!(fed.feed(a, b, rows), Ok(()));
            from += rows;
            let behind = if from == height { 0 } else { kernel.taps().len() / 2 };
            assert_eq!((fed.received(), fed.scored()), (from, from.saturating_sub(behind)));
        }
        let pair = fed.finish().unwrap();
        assert_eq!(pair_bits(pair), pair_bits(planes.whole(kernel.taps())));
        assert_eq!(fed.finish().map(pair_bits), Ok(pair_bits(pair)));
    }
}

/// Whatever it refuses, it goes on as if it had not been asked: begun again, fed, finished.
#[test]
fn refused_it_goes_on() {
    let planes = words(6, 5);
    let mut fed = RowFed::begin(planes.shape, &Kernel::from_taps(BELL.to_vec())).unwrap();
    let (a, b) = planes.rows(0, 5);
    assert_eq!(fed.feed(a, b, 1), Ok(()));
    for row in 1..5 {
        let kernel = Kernel::from_taps(vec![1; 2]);
        assert_eq!(fed.begin_again(Shape { bit_depth: 8, ..planes.shape }, &kernel), Err(Refusal::Depth));
        assert_eq!(fed.begin_again(Shape { width: 0, ..planes.shape }, &kernel), Err(Refusal::Size));
        assert_eq!(fed.begin_again(planes.shape, &kernel), Err(Refusal::Kernel));
        assert_eq!(fed.feed(a, Plane { stride: 5, ..b }, 0), Err(Refusal::Stride));
        assert_eq!(fed.feed(a, b, 6), Err(Refusal::Short));
        assert_eq!(fed.feed(a, Plane { data: &[u16::MAX; 6], ..b }, 1), Err(Refusal::Sample));
        assert_eq!(fed.feed(a, b, 6 - row), Err(Refusal::State));
        assert_eq!((fed.finish(), fed.received()), (Err(Refusal::State), row));
        let (a, b) = planes.rows(row, 1);
        assert_eq!(fed.feed(a, b, 1), Ok(()));
    }
    assert_eq!(fed.finish().map(pair_bits), Ok(pair_bits(planes.whole(&BELL))));
    let said = "RowFed of Shape { width: 6, height: 5, bit_depth: 10 }, 5 rows received, 5 scored";
    assert_eq!(format!("{:?}", fed), said);
    assert_eq!(RowFed::<u8>::begin(planes.shape, &Kernel::from_taps(BELL.to_vec())).map(|_| ()), Err(Refusal::Depth));
}
