//! Numbers of SCOPE, "Numbers to hold it to", that the published Rust gives too: they show that stand-ins and probes are sound.

use crate::family::Run;
use published::plane::Plane;
use published::video::{psnr, psnr_hvs, ssim};

/// MS-SSIM's own kernel, as SCOPE, "What a plane may be", has it.
const KERNEL: [i64; 9] = [8, 37, 112, 218, 274, 218, 112, 37, 8];

pub fn compare(_: Run) -> bool {
    let numbers = [
        ("squared error 25", squared_error() == 25.0),
        ("a block of eights", eights() == first_of_64(65)),
        ("one and seven zeros", one_and_zeros() == [1, 1, 1, 0, 1, 0, 0, 0]),
        ("downscaled to 12", ssim::probe_downscale(&[1, 2, 3, 4, 5, 6, 7, 8, 9], 3, 3) == [12]),
        ("MS-SSIM's kernel", ssim::probe_kernel(1.5, 5, 1_024) == KERNEL),
        ("equal planes", ssim::probe_pair(&[9; 12], &[9; 12], 4, 3, 255, &[64, 128, 64]).1 == 1.0),
        ("scales of equal planes", (scales() - 1.0).abs() < 1e-9),
        ("HVS of equal planes", hvs_of_equal() == 0.0),
        ("first contrasts", psnr_hvs::probe_tables().map(|t| t[0][0]) == [1.6193873005, 1.91113096927, 2.03871978502]),
    ];
    for (name, _) in numbers.iter().filter(|(_, held)| !held) {
        println!("published: FAILED: {}", name);
    }
    let held = numbers.iter().filter(|(_, held)| *held).count();
    println!("published: {} of {} numbers of the document", held, numbers.len());
    held == numbers.len()
}

fn squared_error() -> f64 {
    let [a, b] = [[10u8, 20, 30], [13, 20, 26]].map(|list| Plane::new(list.to_vec(), 3, 1));
    let record = psnr::probe_record(&a, &b, 8);
    assert_eq!(record, (psnr::probe_squared_error(&a, &b), 3, 255));
    record.0
}

fn eights() -> [i32; 64] {
    let mut block = [8; 64];
    psnr_hvs::probe_forward(&mut block);
    block
}

fn one_and_zeros() -> [i32; 8] {
    let mut out = [0; 8];
    psnr_hvs::probe_pass(&mut out, &first_of_64(1));
    out
}

fn first_of_64(value: i32) -> [i32; 64] {
    let mut block = [0; 64];
    block[0] = value;
    block
}

fn scales() -> f64 {
    let plane = Plane::new((0..=255u8).collect(), 16, 16);
    ssim::probe_product(&plane, &plane, 8)
}

fn hvs_of_equal() -> f64 {
    let plane = Plane::new((0..64u16).collect(), 8, 8);
    (0..3).map(|kind| psnr_hvs::probe_plane(&plane, &plane, kind, 10)).sum()
}
