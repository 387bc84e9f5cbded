//! The proved sums of a row against the Rust's dot product alone, on rows of uniformly random codes from -127 to 127, a quarter of the
//! rows spoilt by a -128.
use crate::{Rng, ratio};
use std::hint::black_box;

extern "C" {
    fn pv_row_sums(c: *const u8, cl: usize, at: usize, q: *const i16, ql: usize, o: *mut u32, ol: usize) -> i32;
    fn pv_row_sums_resident(c: *const i8, cl: usize, at: usize, q: *const i16, ql: usize, o: *mut u32, ol: usize) -> i32;
    fn pv_row_check(c: *const u8, cl: usize, at: usize, n: usize, o: *mut u32, ol: usize);
    fn pv_row_check_resident(c: *const i8, cl: usize, at: usize, n: usize, o: *mut u32, ol: usize);
}

// quantized_cache.rs
#[inline(never)]
fn dot_codes(codes: &[u8], query: &[i8]) -> i64 {
    i64::from(codes.iter().zip(query).map(|(&a, &b)| i32::from(a as i8) * i32::from(b)).sum::<i32>())
}

// quantization.rs, search_selected
#[inline(never)]
fn dot_resident(codes: &[i8], query: &[i8]) -> i64 {
    codes.iter().zip(query).map(|(&a, &b)| i64::from(a) * i64::from(b)).sum()
}

fn code(rng: &mut Rng) -> i8 {
    ((rng.next() % 255) as i32 - 127) as i8
}

pub fn run() {
    let mut rng = Rng(2);
    let mut worst = [(0.0, 0); 4];
    println!("{:>6} {:>9} {:>9} {:>9} {:>9}", "length", "sums", "sums res", "check", "check res");
    for d in (16..=300).chain([383, 511, 768, 1023, 1536, 4095]) {
        let stride = d + 16;
        let rows = 64 * 1024 / stride + 4;
        let q8: Vec<i8> = (0..d).map(|_| code(&mut rng)).collect();
        let q: Vec<i16> = q8.iter().map(|&v| v as i16).collect();
        let mut codes: Vec<i8> = (0..rows * d).map(|_| code(&mut rng)).collect();
        for k in 0..rows / 4 {
            codes[k * d + rng.next() as usize % d] = -128;
        }
        let mut cache = vec![0u8; rows * stride];
        for k in 0..rows {
            for j in 0..d {
                cache[k * stride + 16 + j] = codes[k * d + j] as u8;
            }
        }
        let mut o = [0u32; 2];
        let sums = |k: usize, o: &mut [u32; 2]| unsafe {
            pv_row_sums(cache.as_ptr(), cache.len(), k * stride + 16, q.as_ptr(), d, o.as_mut_ptr(), 2)
        };
        let sums_resident = |k: usize, o: &mut [u32; 2]| unsafe {
            pv_row_sums_resident(codes.as_ptr(), codes.len(), k * d, q.as_ptr(), d, o.as_mut_ptr(), 2)
        };
        let check =
            |k: usize, o: &mut [u32; 2]| unsafe { pv_row_check(cache.as_ptr(), cache.len(), k * stride + 16, d, o.as_mut_ptr(), 2) };
        let check_resident =
            |k: usize, o: &mut [u32; 2]| unsafe { pv_row_check_resident(codes.as_ptr(), codes.len(), k * d, d, o.as_mut_ptr(), 2) };
        for k in 0..rows {
            let row = &codes[k * d..(k + 1) * d];
            let dot = dot_resident(row, &q8);
            let expected = [row.iter().map(|&v| (v as i32 * v as i32) as u32).sum(), u32::from(!row.contains(&-128))];
            assert_eq!(dot_codes(&cache[k * stride + 16..(k + 1) * stride], &q8), dot);
            assert_eq!((i64::from(sums(k, &mut o)), o), (dot, expected));
            assert_eq!((i64::from(sums_resident(k, &mut o)), o), (dot, expected));
            check(k, &mut o);
            assert_eq!(o, expected);
            check_resident(k, &mut o);
            assert_eq!(o, expected);
        }
        let rust = || {
            for k in 0..rows {
                black_box(dot_codes(black_box(&cache[k * stride + 16..(k + 1) * stride]), black_box(&q8)));
            }
        };
        let rust_resident = || {
            for k in 0..rows {
                black_box(dot_resident(black_box(&codes[k * d..(k + 1) * d]), black_box(&q8)));
            }
        };
        let (mut a, mut b, mut c, mut e) = ([0; 2], [0; 2], [0; 2], [0; 2]);
        let ratios = [
            ratio(|| (0..rows).for_each(|k| _ = black_box(sums(k, black_box(&mut a)))), rust),
            ratio(|| (0..rows).for_each(|k| _ = black_box(sums_resident(k, black_box(&mut b)))), rust_resident),
            ratio(|| (0..rows).for_each(|k| check(k, black_box(&mut c))), rust),
            ratio(|| (0..rows).for_each(|k| check_resident(k, black_box(&mut e))), rust_resident),
        ];
        if [16, 31, 32, 63, 100, 128, 300, 768, 1536].contains(&d) {
            println!("{d:>6} {:>9.2} {:>9.2} {:>9.2} {:>9.2}", ratios[0], ratios[1], ratios[2], ratios[3]);
        }
        for (w, r) in worst.iter_mut().zip(ratios) {
            if r > w.0 {
                *w = (r, d);
            }
        }
    }
    println!("worst  {}", worst.map(|(r, d)| format!("{r:.2} at {d}")).join(", "));
}
