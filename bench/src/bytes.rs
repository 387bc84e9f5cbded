//! CRC-32 over uniformly random bytes, and roots of random norms (whole numbers from 1 to 66,064,384).
use crate::{Rng, ratio};
use std::hint::black_box;

extern "C" {
    fn pv_crc32_bytes(p: *const u8, n: usize) -> u32;
    fn pv_crc32(p: *const u8, n: usize) -> u32;
    fn pv_sqrt(x: f64) -> f64;
}

/// storage.rs, `crc_table` and `Crc32`.
const fn crc_table() -> [u32; 256] {
    let mut table = [0; 256];
    let mut i = 0;
    while i < 256 {
        let mut c = i as u32;
        let mut bit = 0;
        while bit < 8 {
            c = if c & 1 == 1 { 0xedb88320 ^ (c >> 1) } else { c >> 1 };
            bit += 1;
        }
        table[i] = c;
        i += 1;
    }
    table
}
static CRC_TABLE: [u32; 256] = crc_table();
fn rust_crc32(bytes: &[u8]) -> u32 {
    let mut crc = !0u32;
    for &byte in bytes {
        crc = CRC_TABLE[((crc ^ u32::from(byte)) & 255) as usize] ^ (crc >> 8);
    }
    !crc
}

pub fn run() {
    let mut rng = Rng(1);
    for n in [1024usize, 65536] {
        let data: Vec<u8> = (0..n).map(|_| rng.next() as u8).collect();
        let by_one = || unsafe { pv_crc32_bytes(black_box(data.as_ptr()), n) };
        let by_eight = || unsafe { pv_crc32(black_box(data.as_ptr()), n) };
        assert!(by_one() == rust_crc32(&data) && by_eight() == rust_crc32(&data));
        let repeat = 200_000 / n + 1;
        let many = |f: &dyn Fn() -> u32| (0..repeat).for_each(|_| _ = black_box(f()));
        println!(
            "crc32 of {n} bytes: by eight / by one {:.2}, by eight / Rust {:.2}",
            ratio(|| many(&by_eight), || many(&by_one)),
            ratio(|| many(&by_eight), || many(&|| rust_crc32(black_box(&data))))
        );
    }
    let norms: Vec<f64> = (0..20_000).map(|_| (1 + rng.next() % 66_064_384) as f64).collect();
    assert!(norms.iter().all(|&x| unsafe { pv_sqrt(x) }.to_bits() == x.sqrt().to_bits()));
    println!(
        "sqrt of norms / the processor's {:.2}",
        ratio(
            || norms.iter().for_each(|&x| _ = black_box(unsafe { pv_sqrt(black_box(x)) })),
            || norms.iter().for_each(|&x| _ = black_box(black_box(x).sqrt()))
        )
    );
}
