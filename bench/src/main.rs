//! Times the proved functions beside the Rust's own text at default flags, on the same random data, in alternated runs: each figure is
//! the median of the ratios, ours / Rust. Every part first asserts equal results.
//!
//!     bench bytes|codes|encoder|distances ..
mod bytes;
mod codes;
mod distances;
mod encoder;
mod random;
mod timing;

pub use random::Rng;
pub use timing::{ratio, record};

fn main() {
    for part in std::env::args().skip(1) {
        match part.as_str() {
            "bytes" => bytes::run(),
            "codes" => codes::run(),
            "encoder" => encoder::run(),
            "distances" => distances::run(),
            other => panic!("no such part: {other}"),
        }
    }
}
