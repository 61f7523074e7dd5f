//! The library as C sees it (include/kesupayro.h): numbers, rows of numbers and lent buffers, one function for each export. [`crate::raw`] and
//! [`crate::surface`] have the same with names; this is for those who compare, and for input that named records cannot say.
//!
//! A function returns the number of a refusal or 0, and where it answers yes or no, 1 or 0. It always writes the rows of its answer: with a refusal
//! zeros, but for the values that belong to its number. A refusal leaves what is lent (`residuals`, `capped`, `room`, `out`) as it was.

#![allow(clippy::too_many_arguments)] // as the exports have them

use crate::surface::Check;
use crate::SviSlice;
use std::sync::atomic::{AtomicBool, Ordering::Relaxed};

#[cfg(not(target_pointer_width = "64"))]
compile_error!("the library counts in 64 bits: usize has to be that wide");
#[cfg(not(target_endian = "little"))]
compile_error!("the library reads quotes as little-endian bytes, and they are handed over as they stand in memory");

// A fixed array or a record crosses as a pointer alone; a slice as a pointer and its count.
extern "C" {
    fn port_abi() -> u32;
    fn port_sqrt(x: f64) -> f64;
    fn port_hypot(x: f64, y: f64) -> f64;
    fn port_ln(x: f64) -> f64;
    fn port_exp(x: f64) -> f64;
    fn port_run(file: *const u8, file_count: usize, out: *mut u8, out_count: usize) -> usize;
    fn port_raw_default_config(sizes: &mut [usize; 4], reals: &mut [f64; 7]);
    fn port_raw_fit_slice(
        tau: f64,
        sizes: &[usize; 4],
        reals: &[f64; 7],
        k: *const f64,
        k_count: usize,
        w: *const f64,
        w_count: usize,
        weight: *const f64,
        weight_count: usize,
        residuals: *mut f64,
        residuals_count: usize,
        capped: *mut usize,
        capped_count: usize,
        counts: &mut [usize; 9],
        values: &mut [f64; 14],
        active: &mut [bool; 7],
    ) -> u32;
    fn port_raw_fit_quotes(
        tau: f64,
        sizes: &[usize; 4],
        reals: &[f64; 7],
        quotes: *const u8,
        quotes_count: usize,
        residuals: *mut f64,
        residuals_count: usize,
        capped: *mut usize,
        capped_count: usize,
        counts: &mut [usize; 11],
        values: &mut [f64; 14],
        active: &mut [bool; 7],
    ) -> u32;
    fn port_raw_k_range(lo: f64, hi: f64, range: &mut [f64; 2]) -> u32;
    fn port_raw_contains(range: &[f64; 2], k: f64) -> u32;
    fn port_raw_slice(tau: f64, a: f64, b: f64, rho: f64, m: f64, sigma: f64, range: &[f64; 2], slice: &mut [f64; 8]) -> u32;
    fn port_raw_minimum(slice: &[f64; 8], value: &mut [f64; 1]) -> u32;
    fn port_raw_lee_slope(slice: &[f64; 8], value: &mut [f64; 1]) -> u32;
    fn port_raw_eval(slice: &[f64; 8], k: f64, values: &mut [f64; 3]) -> u32;
    fn port_check_point(k: f64, tau: f64) -> u32;
    fn port_raw_total(w: f64, w_k: f64, w_kk: f64, w_tau: f64, total: &mut [f64; 4]) -> u32;
    fn port_surface(slices: *const SviSlice, count: usize) -> u32;
    fn port_default_policy() -> u32;
    fn port_raw_bracket(slices: *const SviSlice, count: usize, policy: u32, k: f64, tau: f64, places: &mut [usize; 3], x: &mut [f64; 1]) -> u32;
    fn port_raw_region(slices: *const SviSlice, count: usize, policy: u32, k: f64, tau: f64, calibrated: &mut [usize; 1]) -> u32;
    fn port_raw_total_variance(slices: *const SviSlice, count: usize, policy: u32, k: f64, tau: f64, total: &mut [f64; 4]) -> u32;
    fn port_raw_covers_nodes(
        slices: *const SviSlice,
        count: usize,
        ks: *const f64,
        k_count: usize,
        taus: *const f64,
        tau_count: usize,
        all: &mut [usize; 1],
    ) -> u32;
    fn port_raw_diagnose(
        slices: *const SviSlice,
        count: usize,
        policy: u32,
        ks: *const f64,
        k_count: usize,
        taus: *const f64,
        tau_count: usize,
        butterfly_tolerance: f64,
        calendar_tolerance: f64,
        room: *mut f64,
        room_count: usize,
        counts: &mut [usize; 10],
        worst: &mut [f64; 9],
    ) -> u32;
    fn port_raw_check_record(check: &mut Check, k: f64, tau: f64, value: f64, tolerance: f64);
    fn port_raw_check_clean(counts: &[usize; 3], worst: &[f64; 3]) -> u32;
    fn port_raw_report_clean(counts: &[usize; 10], worst: &[f64; 9]) -> u32;
    fn port_raw_solve(m: &[f64; 36], rhs: &[f64; 6], n: usize, tol: f64, x: &mut [f64; 6], updates: &mut [usize; 1]) -> u32;
    fn port_raw_cell(
        k: *const f64,
        k_count: usize,
        w: *const f64,
        w_count: usize,
        scaled: *const f64,
        scaled_count: usize,
        limits: &[f64; 4],
        m: f64,
        sigma: f64,
        counts: &mut [usize; 2],
        values: &mut [f64; 4],
        active: &mut [bool; 7],
    ) -> u32;
}

// The records that cross by pointer have the sizes that the library takes.
const _: () = assert!(std::mem::size_of::<SviSlice>() == 64 && std::mem::size_of::<Check>() == 48);

/// The ABI number that this crate was written for.
pub const ABI: u32 = 4;

/// The ABI number of the library.
#[inline]
pub fn abi() -> u32 {
    // SAFETY: no argument.
    unsafe { port_abi() }
}

/// Panics unless the library has the ABI number of this crate: its rows could stand in another order. The library is asked once.
#[inline]
fn same_abi() {
    static SAME: AtomicBool = AtomicBool::new(false);
    if !SAME.load(Relaxed) {
        expect_abi(abi());
        SAME.store(true, Relaxed);
    }
}

fn expect_abi(library: u32) {
    assert!(library == ABI, "the library has ABI number {library}, this crate was written for {ABI}: docs/ABI.md");
}

/// Square root, rounded to nearest.
#[inline]
pub fn sqrt(x: f64) -> f64 {
    // SAFETY: numbers alone. So in the next three.
    unsafe { port_sqrt(x) }
}

/// Hypotenuse, rounded to nearest.
#[inline]
pub fn hypot(x: f64, y: f64) -> f64 {
    // SAFETY: as in `sqrt`.
    unsafe { port_hypot(x, y) }
}

/// Natural logarithm.
#[inline]
pub fn ln(x: f64) -> f64 {
    // SAFETY: as in `sqrt`.
    unsafe { port_ln(x) }
}

/// Exponential.
#[inline]
pub fn exp(x: f64) -> f64 {
    // SAFETY: as in `sqrt`.
    unsafe { port_exp(x) }
}

/// Answers a house file as the program prints it. Returns the whole answer's length; it is written where `out` holds at least that, else nothing is.
#[inline]
pub fn run(file: &[u8], out: &mut [u8]) -> usize {
    same_abi();
    // SAFETY, here and below: a pointer and its count are a slice, a reference to an array has the length that the library takes, what is written is
    // borrowed for this call alone, and the library keeps nothing.
    unsafe { port_run(file.as_ptr(), file.len(), out.as_mut_ptr(), out.len()) }
}

/// The default settings. `sizes`: grid, refinements, max_recentres, min_observations; `reals`: sigma_lo, sigma_hi, a_min, max_rmse_vol,
/// pivot_tolerance, feasibility_tolerance, max_weight_ratio.
#[inline]
pub fn default_config(sizes: &mut [usize; 4], reals: &mut [f64; 7]) {
    same_abi();
    // SAFETY: as in `run`.
    unsafe { port_raw_default_config(sizes, reals) }
}

/// The fit of three columns. `counts`: observed, required, passes, recentres, shrinks, cells, faces, updates, capped; `values`: rmse_vol,
/// max_rmse_vol, the slice as [`SviSlice::row`] has it, objective, objective_params, lee_margin, a_margin.
#[inline]
pub fn fit_slice(
    tau: f64,
    sizes: &[usize; 4],
    reals: &[f64; 7],
    k: &[f64],
    w: &[f64],
    weight: &[f64],
    residuals: &mut [f64],
    capped: &mut [usize],
    counts: &mut [usize; 9],
    values: &mut [f64; 14],
    active: &mut [bool; 7],
) -> u32 {
    same_abi();
    // SAFETY: as in `run`.
    unsafe {
        port_raw_fit_slice(
            tau,
            sizes,
            reals,
            k.as_ptr(),
            k.len(),
            w.as_ptr(),
            w.len(),
            weight.as_ptr(),
            weight.len(),
            residuals.as_mut_ptr(),
            residuals.len(),
            capped.as_mut_ptr(),
            capped.len(),
            counts,
            values,
            active,
        )
    }
}

/// [`crate::raw::fit_quotes`] of quotes of 32 bytes each, as in a house file. `counts`: read, kept, then those of [`fit_slice`].
#[inline]
pub fn fit_quotes(
    tau: f64,
    sizes: &[usize; 4],
    reals: &[f64; 7],
    quotes: &[u8],
    residuals: &mut [f64],
    capped: &mut [usize],
    counts: &mut [usize; 11],
    values: &mut [f64; 14],
    active: &mut [bool; 7],
) -> u32 {
    same_abi();
    // SAFETY: as in `run`.
    unsafe {
        port_raw_fit_quotes(
            tau,
            sizes,
            reals,
            quotes.as_ptr(),
            quotes.len(),
            residuals.as_mut_ptr(),
            residuals.len(),
            capped.as_mut_ptr(),
            capped.len(),
            counts,
            values,
            active,
        )
    }
}

/// The range from lo to hi.
#[inline]
pub fn k_range(lo: f64, hi: f64, range: &mut [f64; 2]) -> u32 {
    same_abi();
    // SAFETY: as in `run`.
    unsafe { port_raw_k_range(lo, hi, range) }
}

/// Whether k is in a range.
#[inline]
pub fn contains(range: &[f64; 2], k: f64) -> u32 {
    same_abi();
    // SAFETY: as in `run`.
    unsafe { port_raw_contains(range, k) }
}

/// A slice that passed its tests.
#[inline]
pub fn slice(tau: f64, a: f64, b: f64, rho: f64, m: f64, sigma: f64, range: &[f64; 2], slice: &mut [f64; 8]) -> u32 {
    same_abi();
    // SAFETY: as in `run`.
    unsafe { port_raw_slice(tau, a, b, rho, m, sigma, range, slice) }
}

/// The smallest total variance of a slice.
#[inline]
pub fn minimum(slice: &[f64; 8], value: &mut [f64; 1]) -> u32 {
    same_abi();
    // SAFETY: as in `run`.
    unsafe { port_raw_minimum(slice, value) }
}

/// b (1 + |rho|) of a slice.
#[inline]
pub fn lee_slope(slice: &[f64; 8], value: &mut [f64; 1]) -> u32 {
    same_abi();
    // SAFETY: as in `run`.
    unsafe { port_raw_lee_slope(slice, value) }
}

/// w, dw/dk and d2w/dk2 of a slice at k.
#[inline]
pub fn eval(slice: &[f64; 8], k: f64, values: &mut [f64; 3]) -> u32 {
    same_abi();
    // SAFETY: as in `run`.
    unsafe { port_raw_eval(slice, k, values) }
}

/// Whether a point may be asked.
#[inline]
pub fn check_point(k: f64, tau: f64) -> u32 {
    same_abi();
    // SAFETY: as in `sqrt`.
    unsafe { port_check_point(k, tau) }
}

/// Total variance and its derivatives, tested.
#[inline]
pub fn total(w: f64, w_k: f64, w_kk: f64, w_tau: f64, total: &mut [f64; 4]) -> u32 {
    same_abi();
    // SAFETY: as in `run`.
    unsafe { port_raw_total(w, w_k, w_kk, w_tau, total) }
}

/// Whether slices are a surface.
#[inline]
pub fn surface(slices: &[SviSlice]) -> u32 {
    same_abi();
    // SAFETY: as in `run`.
    unsafe { port_surface(slices.as_ptr(), slices.len()) }
}

/// The policy that refuses before the first tau of a surface.
pub const REJECT: u32 = 0;

/// The policy that scales the first slice there; every number but [`REJECT`] does.
pub const CONSTANT_VOL: u32 = 1;

/// The policy for those who have no choice of their own: [`CONSTANT_VOL`].
#[inline]
pub fn default_policy() -> u32 {
    same_abi();
    // SAFETY: no argument.
    unsafe { port_default_policy() }
}

/// The slices that answer at tau. `policy`: [`REJECT`] refuses before the first tau, every other number is [`CONSTANT_VOL`]. `places`: below (1 or 0), lo, hi.
#[inline]
pub fn bracket(slices: &[SviSlice], policy: u32, k: f64, tau: f64, places: &mut [usize; 3], x: &mut [f64; 1]) -> u32 {
    same_abi();
    // SAFETY: as in `run`.
    unsafe { port_raw_bracket(slices.as_ptr(), slices.len(), policy, k, tau, places, x) }
}

/// Whether a point is between two slices whose k ranges both hold k.
#[inline]
pub fn region(slices: &[SviSlice], policy: u32, k: f64, tau: f64, calibrated: &mut [usize; 1]) -> u32 {
    same_abi();
    // SAFETY: as in `run`.
    unsafe { port_raw_region(slices.as_ptr(), slices.len(), policy, k, tau, calibrated) }
}

/// w, dw/dk, d2w/dk2 and dw/dtau of a surface at a point.
#[inline]
pub fn total_variance(slices: &[SviSlice], policy: u32, k: f64, tau: f64, total: &mut [f64; 4]) -> u32 {
    same_abi();
    // SAFETY: as in `run`.
    unsafe { port_raw_total_variance(slices.as_ptr(), slices.len(), policy, k, tau, total) }
}

/// Whether the tau axis of a grid holds the tau of every slice.
#[inline]
pub fn covers_nodes(slices: &[SviSlice], ks: &[f64], taus: &[f64], all: &mut [usize; 1]) -> u32 {
    same_abi();
    // SAFETY: as in `run`.
    unsafe { port_raw_covers_nodes(slices.as_ptr(), slices.len(), ks.as_ptr(), ks.len(), taus.as_ptr(), taus.len(), all) }
}

/// The tests of a surface on a grid. `counts`: points, violations, found (1 or 0) of butterfly, of calendar slope, of calendar gap, then the points
/// that failed; `worst`: k, tau, value of each.
#[inline]
pub fn diagnose(
    slices: &[SviSlice],
    policy: u32,
    ks: &[f64],
    taus: &[f64],
    butterfly_tolerance: f64,
    calendar_tolerance: f64,
    room: &mut [f64],
    counts: &mut [usize; 10],
    worst: &mut [f64; 9],
) -> u32 {
    same_abi();
    // SAFETY: as in `run`.
    unsafe {
        port_raw_diagnose(
            slices.as_ptr(),
            slices.len(),
            policy,
            ks.as_ptr(),
            ks.len(),
            taus.as_ptr(),
            taus.len(),
            butterfly_tolerance,
            calendar_tolerance,
            room.as_mut_ptr(),
            room.len(),
            counts,
            worst,
        )
    }
}

/// Counts one more point.
#[inline]
pub fn check_record(check: &mut Check, k: f64, tau: f64, value: f64, tolerance: f64) {
    same_abi();
    // SAFETY: as in `run`, and the record has the library's fields in their order.
    unsafe { port_raw_check_record(check, k, tau, value, tolerance) }
}

/// Whether a tally has no violation. `counts`: points, violations, found; `worst`: k, tau, value.
#[inline]
pub fn check_clean(counts: &[usize; 3], worst: &[f64; 3]) -> u32 {
    same_abi();
    // SAFETY: as in `run`.
    unsafe { port_raw_check_clean(counts, worst) }
}

/// Whether the rows that [`diagnose`] wrote have no violation and no failure.
#[inline]
pub fn report_clean(counts: &[usize; 10], worst: &[f64; 9]) -> u32 {
    same_abi();
    // SAFETY: as in `run`.
    unsafe { port_raw_report_clean(counts, worst) }
}

/// Solves m x = rhs in n unknowns, 1 to 6: the first n rows and columns of a 6 by 6 matrix, row by row. `updates`: the matrix entries that the
/// elimination updated, before a refusal too.
#[inline]
pub fn solve(m: &[f64; 36], rhs: &[f64; 6], n: usize, tol: f64, x: &mut [f64; 6], updates: &mut [usize; 1]) -> u32 {
    same_abi();
    // SAFETY: as in `run`.
    unsafe { port_raw_solve(m, rhs, n, tol, x, updates) }
}

/// One point of the search; 1 where a face qualifies. `limits`: a_min, a_max, pivot_tolerance, feasibility_tolerance; `counts`: faces, updates;
/// `values`: objective, a, d, c.
#[inline]
pub fn cell(
    k: &[f64],
    w: &[f64],
    scaled: &[f64],
    limits: &[f64; 4],
    m: f64,
    sigma: f64,
    counts: &mut [usize; 2],
    values: &mut [f64; 4],
    active: &mut [bool; 7],
) -> u32 {
    same_abi();
    // SAFETY: as in `run`.
    unsafe { port_raw_cell(k.as_ptr(), k.len(), w.as_ptr(), w.len(), scaled.as_ptr(), scaled.len(), limits, m, sigma, counts, values, active) }
}

#[cfg(test)]
mod tests {
    #[test]
    fn the_linked_library_is_the_one_meant() {
        assert_eq!(super::abi(), super::ABI);
        super::same_abi();
    }

    #[test]
    #[should_panic = "this crate was written for"]
    fn another_abi_number_is_refused() {
        super::expect_abi(super::ABI + 1);
    }
}
