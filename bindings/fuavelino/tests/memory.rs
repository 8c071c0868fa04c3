//! What is asked of the heap: nothing for wild shapes, nothing for a second plane of the same size.

use fuavelino::*;
use std::alloc::{GlobalAlloc, Layout, System};
use std::cell::Cell;

/// Counts the bytes that the test's own thread asks for.
struct Counting;

thread_local! {
    static ASKED: Cell<usize> = const { Cell::new(0) };
}

unsafe impl GlobalAlloc for Counting {
    unsafe fn alloc(&self, layout: Layout) -> *mut u8 {
        let _ = ASKED.try_with(|asked| asked.set(asked.get() + layout.size()));
        System.alloc(layout)
    }

    unsafe fn dealloc(&self, place: *mut u8, layout: Layout) {
        System.dealloc(place, layout)
    }
}

#[global_allocator]
static HEAP: Counting = Counting;

/// The bytes that `work` asks for.
fn asked(work: impl FnOnce()) -> usize {
    let before = ASKED.with(Cell::get);
    work();
    ASKED.with(Cell::get) - before
}

const WILD: [usize; 9] =
    [0, 1, MOST_SIDE, MOST_SIDE + 1, MOST_STRIDE + 1, 1 << 32, 1 << 62, usize::MAX - 1, usize::MAX];

#[test]
fn wild_shapes_ask_for_nothing() {
    let samples = [7u8; 64];
    let kernel = Kernel::from_taps(vec![64, 128, 64]);
    let mut scratch = Scratch::new();
    let mut refused = 0;
    let bytes = asked(|| {
        for (width, height, stride) in
            WILD.iter().flat_map(|w| WILD.iter().flat_map(move |h| WILD.iter().map(move |s| (*w, *h, *s))))
        {
            for data in [&samples[..], &[]] {
                let (plane, shape) = (Plane { data, stride }, Shape { width, height, bit_depth: 8 });
                // one sample can be lawful: it is left to the other tests
                if data.is_empty() || (width, height) != (1, 1) {
                    refused += usize::from(ssim(plane, plane, shape, &kernel, &mut scratch).is_err());
                    refused += usize::from(msssim(plane, plane, shape, &mut scratch).is_err());
                    refused += usize::from(plain_ssim(plane, plane, shape, &kernel).is_err());
                    refused += usize::from(squared_error(plane, plane, shape, 7, 1).is_err());
                    refused += usize::from(better(plane, plane, plane, shape).is_err());
                    refused += usize::from(winner(plane, plane, plane, shape).is_empty());
                    refused += usize::from(first_difference(plane, plane, shape).is_err());
                    refused += usize::from(error_map(plane, plane, shape).is_err());
                    refused += usize::from(psnr_hvs(plane, plane, shape, PlaneKind::U).is_err());
                }
                // rows that never come ask for no more than their line store
                let sides = [width, height].map(|side| (1..=MOST_SIDE).contains(&side));
                if sides != [true; 2] {
                    assert_eq!(RowFed::<u8>::begin(shape, &kernel).map(|_| ()), Err(Refusal::Size));
                }
            }
        }
    });
    assert_eq!(bytes, 0);
    assert_eq!(refused, 9 * (2 * 9 * 9 * 9 - 9));
}

#[test]
fn too_many_taps_ask_for_nothing() {
    let samples = [7u8; 64];
    let plane = Plane { data: &samples[..], stride: 8 };
    let shape = Shape { width: 8, height: 8, bit_depth: 8 };
    for kernel in [256, 1 << 20].map(|taps| Kernel::from_taps(vec![0; taps])) {
        let bytes = asked(|| {
            let said = ssim(plane, plane, shape, &kernel, &mut Scratch::new());
            assert_eq!(said, Err(Refusal::Kernel));
            assert_eq!(plain_ssim(plane, plane, shape, &kernel), Err(Refusal::Kernel));
            assert_eq!(RowFed::<u8>::begin(shape, &kernel).map(|_| ()), Err(Refusal::Kernel));
        });
        assert_eq!(bytes, 0);
    }
}

/// A map asks for its own places and nothing else, the first difference for nothing.
#[test]
fn a_map_asks_for_its_places() {
    let samples = [7u8; 17 * 9];
    let plane = Plane { data: &samples[..], stride: 17 };
    let shape = Shape { width: 17, height: 9, bit_depth: 8 };
    assert_eq!(asked(|| assert_eq!(first_difference(plane, plane, shape), Ok(None))), 0);
    assert_eq!(asked(|| assert_eq!(error_map(plane, plane, shape).map(|map| map.total()), Ok(0))), 3 * 2 * 8);
}

/// Nor does PSNR, of one record and of many, taken or refused.
#[test]
fn decibels_ask_for_nothing() {
    let record = Record { sq_err: 25.0, n_pixels: 3, sample_max: 255, frame: 0, plane: 1 };
    let mut many: Vec<Record> = (0..1_000).map(|frame| Record { frame, ..record }).collect();
    let each = |run: &[Record]| [decibels(run), run[999].hundredths(), run[999].metrics().hundredths()];
    assert_eq!(asked(|| assert_eq!(each(&many), [Ok(Decibels::Hundredths(3_892)); 3])), 0);
    many[999].n_pixels = 0;
    assert_eq!(asked(|| assert_eq!(each(&many), [Err(Refusal::Record); 3])), 0);
}

/// Nor do the squared error and a series, taken or refused.
#[test]
fn records_ask_for_nothing() {
    let samples = [7u8; 64];
    let plane = Plane { data: &samples[..], stride: 8 };
    let shape = Shape { width: 8, height: 8, bit_depth: 8 };
    let mut run = [Record::default(); 300];
    let bytes = asked(|| {
        for (frame, place) in (0..).zip(&mut run) {
            *place = squared_error(plane, plane, shape, frame, 2).unwrap();
            assert_eq!(squared_error(plane, plane, shape, frame, 3), Err(Refusal::Record));
        }
        assert_eq!(series(&run).map(|total| total.n_pixels), Ok(300 * 64));
        run[299].frame = 298;
        assert_eq!(series(&run), Err(Refusal::Record));
    });
    assert_eq!(bytes, 0);
}

/// Nor does the better of two candidates, with its slice; nor does SSIM by the plain engine, under the most taps too.
#[test]
fn better_and_plain_ask_for_nothing() {
    let samples = [7u8; 64];
    let plane = Plane { data: &samples[..], stride: 8 };
    let shape = Shape { width: 8, height: 8, bit_depth: 8 };
    let kernels = [vec![64, 128, 64], [vec![1; 127], vec![2], vec![1; 127]].concat()].map(Kernel::from_taps);
    let bytes = asked(|| {
        assert_eq!(better(plane, plane, plane, shape).map(|won| won.which), Ok(Candidate::First));
        assert_eq!(winner(plane, plane, plane, shape).len(), 64);
        for kernel in &kernels {
            assert!(plain_ssim(plane, plane, shape, kernel).is_ok());
        }
    });
    assert_eq!(bytes, 0);
}

/// A kernel asks for its taps, a height that the chart does not list for nothing.
#[test]
fn a_charted_kernel_asks_for_its_taps() {
    assert_eq!(asked(|| assert_eq!(Kernel::charted(1_080).map(|kernel| kernel.taps().len()), Ok(33))), 33 * 2);
    for height in WILD {
        assert_eq!(asked(|| assert_eq!(Kernel::charted(height), Err(Refusal::Height))), 0);
    }
}

/// Judging a kernel asks for nothing, whatever is wrong with it; a trimmed one for the taps that are left.
#[test]
fn a_kernel_is_judged_for_nothing() {
    let kernels =
        [vec![256], vec![1; 256], vec![0, 256, 0], vec![128, 0, 128], vec![0; 1 << 20]].map(Kernel::from_taps);
    let refused = asked(|| assert_eq!(kernels.iter().filter(|kernel| kernel.check().is_err()).count(), 4));
    assert_eq!(refused, 0);
    assert_eq!(asked(|| assert_eq!(kernels[2].trimmed().taps(), [256])), 2);
}

/// Rows that are fed ask for their scratch once, when they are begun, and for nothing after it, refused or taken; nor do frames that follow, unless they
/// need more.
#[test]
fn rows_ask_for_their_scratch() {
    let samples = [7u8; 64 * 9];
    let row = Plane { data: &samples[..], stride: 64 };
    let shape = Shape { width: 64, height: 9, bit_depth: 8 };
    let kernels = [vec![64, 128, 64], vec![256], vec![10, 60, 116, 60, 10]].map(Kernel::from_taps);
    let mut begun = None;
    let bytes = asked(|| begun = RowFed::begin(shape, &kernels[0]).ok());
    assert_eq!(bytes, 6 * 64 * 4 * 8);
    let mut fed = begun.unwrap();
    let mut frame = |shape: Shape, kernel: &Kernel| {
        asked(|| {
            fed.begin_again(shape, kernel).unwrap();
            for _ in 0..shape.height {
                assert_eq!(fed.feed(row, row, 10), Err(Refusal::Short));
                fed.feed(row, row, 0).unwrap();
                fed.feed(row, row, 1).unwrap();
            }
            assert_eq!(fed.feed(row, row, 1), Err(Refusal::State));
            fed.finish().unwrap();
        })
    };
    for (shape, kernel, more) in [
        (shape, 0, 0),
        (Shape { width: 3, height: 90, bit_depth: 4 }, 0, 0),
        (shape, 1, 0),
        (shape, 2, 6 * 64 * 8 * 8),
        (shape, 2, 0),
        (Shape { height: 1, ..shape }, 0, 0),
    ] {
        assert_eq!(frame(shape, &kernels[kernel]), more, "{:?}", shape);
    }
}

#[test]
fn room_is_kept() {
    let samples: Vec<u8> = (0..64 * 64).map(|i| (i * 7) as u8).collect();
    let plane = Plane { data: &samples, stride: 64 };
    let shapes = [(64, 64), (16, 64), (64, 16), (17, 33)];
    let kernels: Vec<Kernel> = shapes.iter().map(|(w, h)| Kernel::for_plane(*w, *h)).collect();
    let mut scratch = Scratch::new();
    let mut round = || {
        for ((width, height), kernel) in shapes.iter().zip(&kernels) {
            let shape = Shape { width: *width, height: *height, bit_depth: 8 };
            ssim(plane, plane, shape, kernel, &mut scratch).unwrap();
            msssim(plane, plane, shape, &mut scratch).unwrap();
        }
    };
    assert!(asked(&mut round) > 0);
    assert_eq!(asked(&mut round), 0);
}
