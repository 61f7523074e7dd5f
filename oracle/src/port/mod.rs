//! The port, asked through the crate of bindings/rust. What a row of an answer holds before a call is a number that no answer has, since every
//! place of it is to be written.

/// The fit of quotes handed over as they are, without a file.
pub mod quotes;
/// Slices, points, surfaces and diagnostics.
pub mod surfaces;

use kesupayro::raw;

/// Before a call: a count and a float.
const COUNT: usize = 7_777_777;
const FLOAT: f64 = 7_777_777.5;

/// The port's whole answer to a file.
pub fn run(file: &[u8]) -> Vec<u8> {
    let mut out = vec![0; raw::MOST_ANSWER];
    let size = raw::run(file, &mut out);
    if size > out.len() {
        out.resize(size, 0);
        assert_eq!(raw::run(file, &mut out), size, "two sizes of one answer");
    }
    out.truncate(size);
    out
}
