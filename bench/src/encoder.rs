//! The proved encoders against the Rust's `encode`: equal bits on ties, zeros, subnormals, the largest and random patterns, then times on
//! standard normal vectors.
use crate::{Rng, ratio, record};
use std::hint::black_box;

extern "C" {
    fn pv_midpoints(out: *mut f64);
    fn pv_encode_row(t: *const f64, s: *const u8, n: usize, at: usize, out: *mut u8, len: usize, norm: *mut i64) -> f64;
    fn pv_encode_resident(t: *const f64, s: *const u8, n: usize, at: usize, out: *mut i8, len: usize, norm: *mut i64) -> f64;
    fn pv_encode_query(t: *const f64, v: *const f32, n: usize, out: *mut i16, len: usize, norm: *mut i64) -> f64;
}

// The Rust's text.
fn encode(vector: &[f32]) -> (Vec<i8>, f64, i64) {
    let maximum = vector
        .iter()
        .map(|&value| f64::from(value).abs())
        .fold(0.0, f64::max);
    let scale = if maximum == 0.0 { 1.0 } else { maximum / 127.0 };
    let codes: Vec<i8> = vector
        .iter()
        .map(|&value| (f64::from(value) / scale).round().clamp(-127.0, 127.0) as i8)
        .collect();
    let norm = codes
        .iter()
        .map(|&value| i64::from(value) * i64::from(value))
        .sum();
    (codes, scale, norm)
}

struct Ours {
    t: [f64; 127],
}

impl Ours {
    fn new() -> Self {
        let mut t = [0.0; 127];
        unsafe { pv_midpoints(t.as_mut_ptr()) };
        Ours { t }
    }
    fn row(&self, s: &[u8], at: usize, out: &mut [u8]) -> (f64, i64) {
        let mut norm = 0;
        let scale = unsafe { pv_encode_row(self.t.as_ptr(), s.as_ptr(), s.len(), at, out.as_mut_ptr(), out.len(), &mut norm) };
        (scale, norm)
    }
    fn resident(&self, s: &[u8], at: usize, out: &mut [i8]) -> (f64, i64) {
        let mut norm = 0;
        let scale = unsafe { pv_encode_resident(self.t.as_ptr(), s.as_ptr(), s.len(), at, out.as_mut_ptr(), out.len(), &mut norm) };
        (scale, norm)
    }
    fn query(&self, v: &[f32], out: &mut [i16]) -> (f64, i64) {
        let mut norm = 0;
        let scale = unsafe { pv_encode_query(self.t.as_ptr(), v.as_ptr(), v.len(), out.as_mut_ptr(), out.len(), &mut norm) };
        (scale, norm)
    }
}

fn finite(s: &mut Rng) -> f32 {
    loop {
        let x = f32::from_bits(s.next() as u32);
        if x.is_finite() {
            return x;
        }
    }
}
fn equal(ours: &Ours, v: &[f32]) {
    let (codes, scale, norm) = encode(v);
    let at = v.len() % 5;
    let mut s = vec![255u8; at];
    s.extend(record(v));
    s.extend([255u8; 3]);
    let mut wanted = Vec::new();
    wanted.extend(scale.to_le_bytes());
    wanted.extend(norm.to_le_bytes());
    wanted.extend(codes.iter().map(|&c| c as u8));
    let same = |r: (f64, i64)| assert!(r.0.to_bits() == scale.to_bits() && r.1 == norm, "{v:?}");
    let mut row = vec![170u8; 16 + v.len()];
    same(ours.row(&s, at, &mut row));
    assert!(row == wanted, "{v:?}");
    let mut resident = vec![85i8; v.len()];
    same(ours.resident(&s, at, &mut resident));
    assert!(resident == codes, "{v:?}");
    let mut query = vec![12345i16; v.len() + at];
    same(ours.query(v, &mut query));
    assert!(query.iter().enumerate().all(|(i, &c)| c == if i < v.len() { codes[i] as i16 } else { 12345 }), "{v:?}");
}

pub fn run() {
    let ours = Ours::new();
    let mut seed = Rng(3);
    let mut rows: Vec<Vec<f32>> = vec![
        vec![],
        vec![0.0; 7],
        vec![-0.0, 0.0, -0.0],
        vec![-0.0, 0.0, 1e-45, -1e-45],
        vec![1e-45; 3],
        vec![f32::MAX, -f32::MAX, 1.0, 1e-40, -0.0],
        vec![f32::MIN_POSITIVE, -1e-45, 1e-38],
        (0..508).map(|k| (k as f32 - 254.0) * 0.25).chain([127.0, -127.0]).collect(),
    ];
    // ties k + 1/2 at powers of two
    for e in -140..120 {
        rows.push((-254..255).map(|k| k as f32 * 0.5 * 2f32.powi(e)).collect());
    }
    for i in 0..40000 {
        let d = 1 + seed.next() as usize % 40;
        rows.push(match i % 4 {
            0 => (0..d).map(|_| finite(&mut seed)).collect(),
            1 => {
                let b = seed.next() as u32 % 200 + 20;
                (0..d).map(|_| f32::from_bits((seed.next() as u32 & 0x80ffffff) + (b << 23))).collect()
            }
            2 => (0..d).map(|_| f32::from_bits(seed.next() as u32 & 0x807fffff)).collect(),
            _ => (0..d).map(|_| seed.normal()).collect(),
        });
    }
    for d in [31, 32, 100, 384, 4096] {
        for _ in 0..50 {
            rows.push((0..d).map(|_| seed.normal()).collect());
        }
    }
    for v in &rows {
        equal(&ours, v);
    }
    println!("{} vectors: equal bits", rows.len());
    for d in [32usize, 100, 128, 384, 768] {
        let n = (20000 / d).max(8);
        let v: Vec<f32> = (0..n * d).map(|_| seed.normal()).collect();
        let s = record(&v);
        let mut row = vec![0u8; 16 + d];
        let mut resident = vec![0i8; d];
        let mut query = vec![0i16; d];
        let rust = || (0..n).for_each(|r| _ = black_box(encode(black_box(&v[r * d..(r + 1) * d]))));
        println!(
            "encoder, {d} dimensions: row from bytes {:.2}, resident {:.2}, query {:.2}",
            ratio(|| (0..n).for_each(|r| _ = black_box(ours.row(black_box(&s), 4 * r * d, &mut row))), rust),
            ratio(|| (0..n).for_each(|r| _ = black_box(ours.resident(black_box(&s), 4 * r * d, &mut resident))), rust),
            ratio(|| (0..n).for_each(|r| _ = black_box(ours.query(black_box(&v[r * d..(r + 1) * d]), &mut query))), rust)
        );
    }
}
