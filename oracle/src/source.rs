// The extracted Rust source, every item pub, over document 01's elementary numbers and sums from +0.0.
use crate::elementary::Elementary01;
use std::f64::consts::PI;
use std::sync::atomic::{AtomicUsize, Ordering};

pub type Result<T> = std::result::Result<T, Box<dyn std::error::Error>>;

// Document 01: the oracle sets NMAX to the submission's degree.
static NMAX: AtomicUsize = AtomicUsize::new(180);

pub fn set_nmax(n: usize) {
    NMAX.store(n, Ordering::Relaxed);
}

fn nmax_01() -> usize {
    NMAX.load(Ordering::Relaxed)
}

fn tide_nmax_01() -> usize {
    120
}

include!("extracted.rs");
