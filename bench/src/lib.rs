//! The proved functions as other languages call them, and what the drivers share.

pub mod damage;
pub mod edits;
pub mod files;
pub mod geometry;
pub mod tables;

mod c {
    unsafe extern "C" {
        pub fn square_root_bits(b: u64) -> u64;
        pub fn square_root(x: f64) -> f64;
    }
}

/// squareRoot on bit patterns.
pub fn square_root_bits(b: u64) -> u64 {
    unsafe { c::square_root_bits(b) }
}

/// squareRoot on doubles.
pub fn square_root(x: f64) -> f64 {
    unsafe { c::square_root(x) }
}

/// Nanoseconds a call, the least of several rounds.
pub fn time<T>(rounds: usize, calls: usize, mut work: impl FnMut() -> T) -> f64 {
    let mut best = f64::INFINITY;
    for _ in 0..rounds {
        let start = std::time::Instant::now();
        std::hint::black_box(work());
        best = best.min(start.elapsed().as_nanos() as f64 / calls as f64);
    }
    best
}

/// splitmix64
pub struct Rng(pub u64);

impl Rng {
    pub fn next(&mut self) -> u64 {
        self.0 = self.0.wrapping_add(0x9E37_79B9_7F4A_7C15);
        let mut z = self.0;
        z = (z ^ (z >> 30)).wrapping_mul(0xBF58_476D_1CE4_E5B9);
        z = (z ^ (z >> 27)).wrapping_mul(0x94D0_49BB_1331_11EB);
        z ^ (z >> 31)
    }
}
