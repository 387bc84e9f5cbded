//! One original distance, the record in bytes and the query widened before, against the Rust's `original_distance` with `ScalarKernel`;
//! and four in one call against four single ones of ours. Standard normal vectors.
use crate::{Rng, ratio, record};
use std::hint::black_box;

type Single = unsafe extern "C" fn(*const f64, usize, f64, *const u8, usize, usize) -> f64;
type Four = unsafe extern "C" fn(*const f64, usize, f64, *const u8, usize, usize, usize, usize, usize, *mut f64);
extern "C" {
    fn pv_squared_l2(q: *const f64, n: usize, inverse: f64, s: *const u8, len: usize, at: usize) -> f64;
    fn pv_cosine(q: *const f64, n: usize, inverse: f64, s: *const u8, len: usize, at: usize) -> f64;
    fn pv_inner_product(q: *const f64, n: usize, inverse: f64, s: *const u8, len: usize, at: usize) -> f64;
    fn pv_squared_l2_four(q: *const f64, n: usize, inverse: f64, s: *const u8, len: usize, a: usize, b: usize, c: usize, d: usize, out: *mut f64);
    fn pv_cosine_four(q: *const f64, n: usize, inverse: f64, s: *const u8, len: usize, a: usize, b: usize, c: usize, d: usize, out: *mut f64);
    fn pv_inner_product_four(q: *const f64, n: usize, inverse: f64, s: *const u8, len: usize, a: usize, b: usize, c: usize, d: usize, out: *mut f64);
    fn pv_inverse_norm(q: *const f64, n: usize) -> f64;
}

// math.rs and generation.rs
fn inverse_norm(vector: &[f32]) -> f64 {
    let norm = vector.iter().map(|&x| f64::from(x).powi(2)).sum::<f64>().sqrt();
    if norm == 0.0 { 0.0 } else { norm.recip() }
}
fn dot(a: &[f32], b: &[f32]) -> f64 {
    a.iter().zip(b).map(|(&a, &b)| f64::from(a) * f64::from(b)).sum()
}
fn squared_l2(a: &[f32], b: &[f32]) -> f64 {
    a.iter()
        .zip(b)
        .map(|(&a, &b)| {
            let delta = f64::from(a) - f64::from(b);
            delta * delta
        })
        .sum()
}
fn original(metric: usize, query: &[f32], vector: &[f32]) -> f64 {
    match metric {
        0 => squared_l2(query, vector),
        1 => (1.0 - dot(query, vector) * inverse_norm(query) * inverse_norm(vector)).clamp(0.0, 2.0),
        _ => -dot(query, vector),
    }
}

pub fn run() {
    let mut rng = Rng(4);
    let singles: [Single; 3] = [pv_squared_l2, pv_cosine, pv_inner_product];
    let fours: [Four; 3] = [pv_squared_l2_four, pv_cosine_four, pv_inner_product_four];
    for d in [32usize, 128, 768] {
        let rows = (32_000 / d).max(8) / 4 * 4;
        let v: Vec<f32> = (0..rows * d).map(|_| rng.normal()).collect();
        let s = record(&v);
        let q: Vec<f32> = (0..d).map(|_| rng.normal()).collect();
        let wide: Vec<f64> = q.iter().map(|&x| f64::from(x)).collect();
        let inverse = unsafe { pv_inverse_norm(wide.as_ptr(), d) };
        for metric in 0..3 {
            let single = |r: usize| unsafe { singles[metric](wide.as_ptr(), d, inverse, s.as_ptr(), s.len(), 4 * r * d) };
            let four = |r: usize, out: &mut [f64; 4]| unsafe {
                let at = |k: usize| 4 * (r + k) * d;
                fours[metric](wide.as_ptr(), d, inverse, s.as_ptr(), s.len(), at(0), at(1), at(2), at(3), out.as_mut_ptr())
            };
            let rust = |r: usize| original(metric, black_box(&q), black_box(&v[r * d..(r + 1) * d]));
            let mut out = [0.0; 4];
            for r in (0..rows).step_by(4) {
                four(r, &mut out);
                for k in 0..4 {
                    let bits = rust(r + k).to_bits();
                    assert!(single(r + k).to_bits() == bits && out[k].to_bits() == bits);
                }
            }
            println!(
                "{}, {d} dimensions: one / Rust {:.2}, four / four single {:.2}",
                ["squared L2", "cosine", "inner product"][metric],
                ratio(|| (0..rows).for_each(|r| _ = black_box(single(r))), || (0..rows).for_each(|r| _ = black_box(rust(r)))),
                ratio(
                    || (0..rows).step_by(4).for_each(|r| four(r, black_box(&mut out))),
                    || (0..rows).for_each(|r| _ = black_box(single(r)))
                )
            );
        }
    }
}
