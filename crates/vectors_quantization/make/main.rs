//! The Rust's own answers on made-up vectors: writes stdin (the cases) and stdout (what the Rust says of them).
//!
//! A case is a metric byte, then five vectors of 43 f32: query, record and three more. For each kind of vector that the oracle makes
//! (gauss, ties, tiny, huge, zero, half, near, bits) and each metric there are 26 cases, by SplitMix64 from seed 1: 624 cases, 3,120
//! vectors. Of each case the Rust says, a line each:
//!   the record's scale bits, norm and codes, by `encode`; the query's;
//!   the approximate distance's bits, by `approximate_distance` of the two, or 22 where it is not finite;
//!   the original distance's bits, by `original_distance`;
//!   the four original distances of the record and the three more, by `math::distance_four`.
use std::{fmt::Write, fs};
use vecnook::{Metric, generation::probe, inside};

mod data;
use data::{KINDS, Rng, vector};

fn main() {
    let dir = std::env::args().nth(1).expect("the folder to write to");
    let (mut input, mut output) = (Vec::new(), String::new());
    let mut rng = Rng(1);
    for kind in &KINDS[..8] {
        for (byte, metric) in [Metric::SquaredL2, Metric::Cosine, Metric::InnerProduct].into_iter().enumerate() {
            for _ in 0..26 {
                let vectors: Vec<Vec<f32>> =
                    (0..5).map(|_| vector(&mut rng, kind, metric == Metric::Cosine, 43)).collect();
                input.push(byte as u8);
                for x in vectors.iter().flatten() {
                    input.extend_from_slice(&x.to_le_bytes());
                }
                answer(&mut output, metric, &vectors);
            }
        }
    }
    fs::write(format!("{dir}/stdin"), input).unwrap();
    fs::write(format!("{dir}/stdout"), output).unwrap();
}

fn answer(out: &mut String, metric: Metric, vectors: &[Vec<f32>]) {
    let (query, record) = (&vectors[0], &vectors[1]);
    let (codes, scale, norm) = probe::encode(record);
    let (query_codes, query_scale, query_norm) = probe::encode(query);
    for (codes, scale, norm) in [(&codes, scale, norm), (&query_codes, query_scale, query_norm)] {
        write!(out, "{:016x} {norm} ", scale.to_bits()).unwrap();
        for &code in codes {
            write!(out, "{:02x}", code as u8).unwrap();
        }
        out.push('\n');
    }
    let dot = codes.iter().zip(&query_codes).map(|(&a, &b)| i64::from(a) * i64::from(b)).sum();
    let near = probe::approximate(metric, scale, norm, query_scale, query_norm, dot);
    if near.is_finite() {
        writeln!(out, "{:016x}", near.to_bits()).unwrap();
    } else {
        out.push_str("22\n");
    }
    writeln!(out, "{:016x}", probe::original(metric, query, record).unwrap().to_bits()).unwrap();
    let four = inside::distance_four(metric, query, [record, &vectors[2], &vectors[3], &vectors[4]]);
    let bits: Vec<String> = four.iter().map(|d| format!("{:016x}", d.to_bits())).collect();
    writeln!(out, "{}", bits.join(" ")).unwrap();
}
