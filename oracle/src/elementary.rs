//! ln, exp and hypot of the Rust's side: the port's own, or with `use_platform` those of the platform.

use kesupayro::raw;
use std::sync::atomic::{AtomicBool, Ordering::Relaxed};

static PLATFORM: AtomicBool = AtomicBool::new(false);

/// From here on the Rust uses the platform's routines.
pub fn use_platform() {
    PLATFORM.store(true, Relaxed);
}

pub fn ln(x: f64) -> f64 {
    if PLATFORM.load(Relaxed) { x.ln() } else { raw::ln(x) }
}

pub fn exp(x: f64) -> f64 {
    if PLATFORM.load(Relaxed) { x.exp() } else { raw::exp(x) }
}

pub fn hypot(x: f64, y: f64) -> f64 {
    if PLATFORM.load(Relaxed) { x.hypot(y) } else { raw::hypot(x, y) }
}
