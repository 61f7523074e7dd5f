//! Safe functions over Kesupayro's proved library (include/kesupayro.h): fit the smile of one expiry, put expiries together to a surface.
//!
//! [`fit`] is the one to start with: it drops repeated quotes, as the program does. [`surface`] prices off fitted slices, [`raw`] has the fit without
//! allocation, [`c`] each export as it is.
//! Rust's references rule out what a C caller has to vouch for about memory, so nothing here is unsafe to call; that floats round to nearest is what
//! Rust itself assumes. A library whose ABI number is not [`ABI`] is refused by a panic at the first call.
//!
//! ```
//! use kesupayro::{fit, Quote, Refused};
//! let copies: Vec<Quote> = (0..9).map(|_| Quote { number: 7, k: 0.0, w: 0.25, weight: 1.0 }).collect();
//! let refused = fit(0.25, None, &copies).unwrap_err();
//! assert_eq!(refused, Refused::TooFew { observed: 1, required: 5 });
//! ```
#![deny(missing_docs)]

mod answer;
pub mod c;
pub mod raw;
pub mod surface;

pub use answer::{Fit, Point, Refused};
pub use c::{abi, ABI};
pub use raw::{Counts, FitConfig, KRange, Quote, SviSlice};

/// The most quotes that a fit takes.
pub const MOST_QUOTES: usize = 256;

/// Fits the quotes of one expiry: repeats are dropped, then the rest is fitted. A repeat has the number of an earlier quote and its k, w and weight, bit for
/// bit; the same under another number is a second quote, and both count. So each quote needs a number of its own: one number with two contents is refused
/// as [`Refused::TwoContents`].
/// `settings` is `None` for the defaults. More than [`MOST_QUOTES`] quotes are refused as [`Refused::Size`].
pub fn fit(tau: f64, settings: Option<&FitConfig>, quotes: &[Quote]) -> Result<Fit, Refused> {
    let (mut residuals, mut capped) = (vec![0.0; 4 * quotes.len()], vec![0; quotes.len()]);
    let config = settings.copied().unwrap_or_default();
    let answer = raw::fit_quotes(tau, config, quotes, &mut residuals, &mut capped);
    Fit::of(answer, &residuals, &capped)
}

/// The program's printed answer to a house file.
pub fn answer(file: &[u8]) -> String {
    let mut out = vec![0; raw::MOST_ANSWER];
    let length = raw::run(file, &mut out);
    out.truncate(length);
    String::from_utf8_lossy(&out).into_owned()
}
