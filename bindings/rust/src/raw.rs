//! The fit, the program's answer and the elementary functions, as the library has them. They neither allocate nor block nor keep a reference.

use crate::c;
pub use crate::c::{exp, hypot, ln, run, sqrt};

/// Bytes that hold every answer of [`run`].
pub const MOST_ANSWER: usize = 32768;

/// Bytes of stack that are enough for every call of the library, counted from the caller's frame. A thread needs its own share besides: the frames of the
/// functions that lead to the call, and what the system puts there.
pub const STACK: usize = 40960;

/// One quote of an expiry. In memory it is the 32 bytes of a house file's record.
#[repr(C)]
#[derive(Debug, Clone, Copy, PartialEq)]
pub struct Quote {
    /// The quote's own number, which it keeps when it is sent again. It tells a retry from a second quote and does not enter the fit.
    pub number: u64,
    /// Log moneyness, ln(strike / forward).
    pub k: f64,
    /// Total variance, vol * vol * tau.
    pub w: f64,
    /// Weight in the least squares.
    pub weight: f64,
}

/// The bytes of quotes as they stand in memory.
fn bytes(quotes: &[Quote]) -> &[u8] {
    const _: () = assert!(std::mem::size_of::<Quote>() == 32);
    // SAFETY: four fields of eight bytes leave no byte between them, every byte may be read as a number, and the borrow is the same.
    unsafe { std::slice::from_raw_parts(quotes.as_ptr().cast(), std::mem::size_of_val(quotes)) }
}

/// The range of k of a slice.
#[repr(C)]
#[derive(Debug, Clone, Copy, PartialEq, Default)]
pub struct KRange {
    /// Lower end.
    pub lo: f64,
    /// Upper end.
    pub hi: f64,
}

impl KRange {
    pub(crate) fn row(self) -> [f64; 2] {
        [self.lo, self.hi]
    }

    pub(crate) fn of_row([lo, hi]: [f64; 2]) -> Self {
        Self { lo, hi }
    }
}

/// A slice: w(k) = a + b (rho (k - m) + sqrt((k - m)^2 + sigma^2)).
#[repr(C)]
#[derive(Debug, Clone, Copy, PartialEq, Default)]
#[allow(missing_docs)]
pub struct SviSlice {
    /// Time to expiry in years.
    pub tau: f64,
    pub a: f64,
    pub b: f64,
    pub rho: f64,
    pub m: f64,
    pub sigma: f64,
    /// The quoted range.
    pub k_range: KRange,
}

impl SviSlice {
    /// tau, a, b, rho, m, sigma and the two ends of the k range, in the order in which the library takes them.
    pub fn row(self) -> [f64; 8] {
        let [lo, hi] = self.k_range.row();
        [self.tau, self.a, self.b, self.rho, self.m, self.sigma, lo, hi]
    }

    /// The slice of a row, untested.
    pub fn of_row([tau, a, b, rho, m, sigma, lo, hi]: [f64; 8]) -> Self {
        Self { tau, a, b, rho, m, sigma, k_range: KRange::of_row([lo, hi]) }
    }
}

/// The settings of the fit.
#[derive(Debug, Clone, Copy, PartialEq)]
pub struct FitConfig {
    /// Points an axis, 5 to 255.
    pub grid: usize,
    /// At most 1,000.
    pub refinements: usize,
    /// At most 1,000.
    pub max_recentres: usize,
    /// Lower end of sigma, as a part of the span of k.
    pub sigma_lo: f64,
    /// Upper end of sigma, as a part of the span of k.
    pub sigma_hi: f64,
    /// Lower bound of a.
    pub a_min: f64,
    /// Fewest quotes, at least 5.
    pub min_observations: usize,
    /// Largest root mean square residual that is accepted, in volatility.
    pub max_rmse_vol: f64,
    /// Relative tolerance of a pivot.
    pub pivot_tolerance: f64,
    /// Relative tolerance of a constraint.
    pub feasibility_tolerance: f64,
    /// A weight above this many times the median counts as that much.
    pub max_weight_ratio: f64,
}

impl FitConfig {
    /// As [`c::default_config`] lists them.
    fn rows(self) -> ([usize; 4], [f64; 7]) {
        (
            [self.grid, self.refinements, self.max_recentres, self.min_observations],
            [self.sigma_lo, self.sigma_hi, self.a_min, self.max_rmse_vol, self.pivot_tolerance, self.feasibility_tolerance, self.max_weight_ratio],
        )
    }

    fn of_rows(sizes: [usize; 4], reals: [f64; 7]) -> Self {
        let [grid, refinements, max_recentres, min_observations] = sizes;
        let [sigma_lo, sigma_hi, a_min, max_rmse_vol, pivot_tolerance, feasibility_tolerance, max_weight_ratio] = reals;
        Self {
            grid,
            refinements,
            max_recentres,
            sigma_lo,
            sigma_hi,
            a_min,
            min_observations,
            max_rmse_vol,
            pivot_tolerance,
            feasibility_tolerance,
            max_weight_ratio,
        }
    }
}

impl Default for FitConfig {
    fn default() -> Self {
        let (mut sizes, mut reals) = ([0; 4], [0.0; 7]);
        c::default_config(&mut sizes, &mut reals);
        Self::of_rows(sizes, reals)
    }
}

/// What the search did.
#[derive(Debug, Clone, Copy, PartialEq, Eq, Default)]
#[allow(missing_docs)]
pub struct Counts {
    pub passes: usize,
    pub recentres: usize,
    pub shrinks: usize,
    pub cells: usize,
    pub faces: usize,
    /// The solver's work: how many matrix entries its eliminations updated ([`Solved`] says which count), at most 3,438 a cell.
    pub updates: usize,
}

/// The answer of [`fit_slice`]. Of a refusal every field is 0 but the number, the values that belong to it, and the counts of 6 to 9.
#[derive(Debug, Clone, Copy, PartialEq, Default)]
#[allow(missing_docs)]
pub struct FitAnswer {
    /// 0 for an accepted fit, else the refusal.
    pub number: u32,
    /// Of refusal 3.
    pub observed: usize,
    /// Of refusal 3.
    pub required: usize,
    /// Of a fit and of refusal 9.
    pub rmse_vol: f64,
    /// Of refusal 9.
    pub max_rmse_vol: f64,
    pub slice: SviSlice,
    pub objective: f64,
    pub objective_params: f64,
    pub lee_margin: f64,
    pub a_margin: f64,
    /// Flat slice, rho = 1, rho = -1, Lee's bound right and left, a at a_min, a at a_max.
    pub active: [bool; 7],
    pub counts: Counts,
    /// How many positions were written to `capped`.
    pub capped: usize,
}

impl FitAnswer {
    /// From the rows that [`c::fit_slice`] lists.
    fn of_rows(number: u32, counts: [usize; 9], values: [f64; 14], active: [bool; 7]) -> Self {
        let [observed, required, passes, recentres, shrinks, cells, faces, updates, capped] = counts;
        let [rmse_vol, max_rmse_vol, tau, a, b, rho, m, sigma, lo, hi, objective, objective_params, lee_margin, a_margin] = values;
        Self {
            number,
            observed,
            required,
            rmse_vol,
            max_rmse_vol,
            slice: SviSlice::of_row([tau, a, b, rho, m, sigma, lo, hi]),
            objective,
            objective_params,
            lee_margin,
            a_margin,
            active,
            counts: Counts { passes, recentres, shrinks, cells, faces, updates },
            capped,
        }
    }
}

/// Fits a slice to three columns of one length n. An accepted fit writes four numbers for each quote to `residuals` (k, w, fitted w, quoted
/// minus fitted volatility) and the positions whose weight was capped to `capped`: room for 4 n and n. It drops no repeat: [`fit_quotes`] does.
pub fn fit_slice(tau: f64, config: FitConfig, k: &[f64], w: &[f64], weight: &[f64], residuals: &mut [f64], capped: &mut [usize]) -> FitAnswer {
    let (sizes, reals) = config.rows();
    let (mut counts, mut values, mut active) = ([0; 9], [0.0; 14], [false; 7]);
    let number = c::fit_slice(tau, &sizes, &reals, k, w, weight, residuals, capped, &mut counts, &mut values, &mut active);
    FitAnswer::of_rows(number, counts, values, active)
}

/// The answer of [`fit_quotes`].
#[derive(Debug, Clone, Copy, PartialEq)]
pub struct QuotesAnswer {
    /// Quotes handed over.
    pub read: usize,
    /// Quotes left once repeats were dropped; as many as read where a refusal came before that.
    pub kept: usize,
    /// The fit of those.
    pub fit: FitAnswer,
}

/// Fits quotes as they came in: repeats are dropped as by [`crate::fit`], then the rest is fitted as by [`fit_slice`], residuals and capped positions being
/// those of the quotes kept. It wants room for every quote that came in: 4 n and n. One number with two contents is 44, after 12, 11 and 10.
pub fn fit_quotes(tau: f64, config: FitConfig, quotes: &[Quote], residuals: &mut [f64], capped: &mut [usize]) -> QuotesAnswer {
    let (sizes, reals) = config.rows();
    let (mut counts, mut values, mut active) = ([0; 11], [0.0; 14], [false; 7]);
    let number = c::fit_quotes(tau, &sizes, &reals, bytes(quotes), residuals, capped, &mut counts, &mut values, &mut active);
    let [read, kept, of_fit @ ..] = counts;
    QuotesAnswer { read, kept, fit: FitAnswer::of_rows(number, of_fit, values, active) }
}

/// What a fit fixes for all points of its search.
#[derive(Debug, Clone, Copy, PartialEq)]
#[allow(missing_docs)]
pub struct Limits {
    pub a_min: f64,
    pub a_max: f64,
    pub pivot_tolerance: f64,
    pub feasibility_tolerance: f64,
}

impl Limits {
    /// As [`c::cell`] lists them.
    pub fn row(self) -> [f64; 4] {
        [self.a_min, self.a_max, self.pivot_tolerance, self.feasibility_tolerance]
    }
}

/// One point of the search.
#[derive(Debug, Clone, Copy, PartialEq)]
pub struct Cell {
    /// Whether a face qualifies.
    pub some: bool,
    /// Objective of the best face.
    pub objective: f64,
    /// Its a, d and c.
    pub x: [f64; 3],
    /// Its constraints.
    pub active: [bool; 7],
    /// Faces tried.
    pub faces: usize,
    /// Matrix entries updated to try them.
    pub updates: usize,
}

/// The answer of [`solve`].
#[derive(Debug, Clone, Copy, PartialEq)]
pub struct Solved {
    /// The n unknowns, then zeros; nothing where the system is refused.
    pub x: Option<[f64; 6]>,
    /// How many entries of the matrix the elimination updated, before a refusal too. A row below a pivot whose factor is not 0 counts its entries from
    /// the pivot's column on, that column included and the right side not: at most n (n n - 1) / 3, which is 8, 20, 40 and 70 for n from 3 to 6.
    pub updates: usize,
}

/// Solves m x = rhs in n unknowns, 1 to 6: the first n rows and columns of a 6 by 6 matrix, row by row.
pub fn solve(m: &[f64; 36], rhs: &[f64; 6], n: usize, tol: f64) -> Solved {
    let (mut x, mut updates) = ([0.0; 6], [0]);
    let solved = c::solve(m, rhs, n, tol, &mut x, &mut updates) != 0;
    Solved { x: solved.then_some(x), updates: updates[0] }
}

/// The point (m, sigma) of the search over at most 256 quotes, three columns of one length; else nothing qualifies and no face is tried.
pub fn cell(k: &[f64], w: &[f64], scaled: &[f64], limits: Limits, m: f64, sigma: f64) -> Cell {
    let (mut counts, mut values, mut active) = ([0; 2], [0.0; 4], [false; 7]);
    let some = c::cell(k, w, scaled, &limits.row(), m, sigma, &mut counts, &mut values, &mut active) != 0;
    let ([faces, updates], [objective, x @ ..]) = (counts, values);
    Cell { some, objective, x, active, faces, updates }
}
