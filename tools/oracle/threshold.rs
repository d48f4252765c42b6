// The threshold h: a value v is inside if v < -h (docs/SCOPE.md, S3.1). All ours: tools/oracle/build puts it in the place of the constant in the
// two `is_inside` of the shown Rust.

use std::sync::atomic::{AtomicU64, Ordering::Relaxed};

/// The constant of the Rust, and the threshold of a file that gives none.
pub const BASE: f64 = 1.0e-9;

static NOW: AtomicU64 = AtomicU64::new(BASE.to_bits());

/// The threshold from here on.
pub fn set(h: f64) {
    NOW.store(h.to_bits(), Relaxed);
}

pub fn now() -> f64 {
    f64::from_bits(NOW.load(Relaxed))
}
