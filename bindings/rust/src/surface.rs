//! Slices, points, surfaces and their diagnostics. A refusal is the library's number; `Display` says it in words.

use crate::{c, KRange, SviSlice};
use std::fmt;

/// Why the library refused: a number of include/kesupayro.h.
#[derive(Debug, Clone, Copy, PartialEq, Eq)]
pub struct Refusal(pub u32);

impl fmt::Display for Refusal {
    fn fmt(&self, f: &mut fmt::Formatter<'_>) -> fmt::Result {
        let words = match self.0 {
            11 => "over 32 slices or 64 values on an axis",
            12 => "a buffer that is too short",
            21 => "k range not finite, or lo above hi",
            22 => "a number of the slice is not finite",
            23 => "tau of the slice not above 0",
            24 => "b below 0",
            25 => "rho beyond -1 or 1",
            26 => "sigma not above 0",
            27 => "b (1 + |rho|) above 2, Lee's bound",
            28 => "smallest variance not finite and above 0",
            29 => "k not finite",
            30 => "a value that is not finite",
            31 => "curvature not above 0",
            32 => "fewer than two slices",
            33 => "the taus of the slices do not rise",
            34 => "the k asked for is not finite",
            35 => "the tau asked for is not finite and above 0",
            36 => "before the first slice",
            37 => "beyond the last slice",
            38 => "total variance not finite and above 0",
            39 => "a derivative that is not finite",
            40 => "the k axis is empty, or not of finite, rising numbers",
            41 => "the tau axis is empty, or not of finite, rising numbers above 0",
            42 => "a tolerance not finite, or below 0",
            _ => "refused",
        };
        write!(f, "{words} ({})", self.0)
    }
}

impl std::error::Error for Refusal {}

/// The value, or the refusal where the number is not 0.
fn answered<T>(number: u32, value: T) -> Result<T, Refusal> {
    if number == 0 {
        Ok(value)
    } else {
        Err(Refusal(number))
    }
}

impl KRange {
    /// A range; refused as 21 unless both ends are finite and lo is at most hi.
    pub fn new(lo: f64, hi: f64) -> Result<Self, Refusal> {
        let mut range = [0.0; 2];
        let number = c::k_range(lo, hi, &mut range);
        answered(number, Self::of_row(range))
    }

    /// Whether k is inside, ends included.
    pub fn contains(self, k: f64) -> bool {
        c::contains(&self.row(), k) != 0
    }
}

/// w, dw/dk and d2w/dk2.
#[derive(Debug, Clone, Copy, PartialEq)]
#[allow(missing_docs)]
pub struct Values {
    pub w: f64,
    pub w_k: f64,
    pub w_kk: f64,
}

impl Values {
    fn of_row([w, w_k, w_kk]: [f64; 3]) -> Self {
        Self { w, w_k, w_kk }
    }
}

impl SviSlice {
    /// A slice that passed its tests (21 to 28: the k range is tested too, since its fields are public).
    pub fn new(tau: f64, a: f64, b: f64, rho: f64, m: f64, sigma: f64, k_range: KRange) -> Result<Self, Refusal> {
        let mut slice = [0.0; 8];
        let number = c::slice(tau, a, b, rho, m, sigma, &k_range.row(), &mut slice);
        answered(number, Self::of_row(slice))
    }

    /// The smallest total variance.
    pub fn minimum(self) -> Result<f64, Refusal> {
        let mut value = [0.0];
        let number = c::minimum(&self.row(), &mut value);
        answered(number, value[0])
    }

    /// b (1 + |rho|).
    pub fn lee_slope(self) -> Result<f64, Refusal> {
        let mut value = [0.0];
        let number = c::lee_slope(&self.row(), &mut value);
        answered(number, value[0])
    }

    /// The curve at k.
    pub fn eval(self, k: f64) -> Result<Values, Refusal> {
        let mut values = [0.0; 3];
        let number = c::eval(&self.row(), k, &mut values);
        answered(number, Values::of_row(values))
    }
}

/// Total variance at a point, with dw/dk, d2w/dk2 and dw/dtau.
#[derive(Debug, Clone, Copy, PartialEq)]
#[allow(missing_docs)]
pub struct TotalVariance {
    pub w: f64,
    pub w_k: f64,
    pub w_kk: f64,
    pub w_tau: f64,
}

impl TotalVariance {
    /// Refused as 38 or 39 unless w is finite and above 0 and the rest finite.
    pub fn new(w: f64, w_k: f64, w_kk: f64, w_tau: f64) -> Result<Self, Refusal> {
        let mut total = [0.0; 4];
        let number = c::total(w, w_k, w_kk, w_tau, &mut total);
        answered(number, Self::of_row(total))
    }

    fn of_row([w, w_k, w_kk, w_tau]: [f64; 4]) -> Self {
        Self { w, w_k, w_kk, w_tau }
    }
}

/// Refused as 34 or 35 unless k is finite and tau finite and above 0.
pub fn check_point(k: f64, tau: f64) -> Result<(), Refusal> {
    answered(c::check_point(k, tau), ())
}

/// What stands before the first expiry.
#[derive(Debug, Clone, Copy, PartialEq, Eq)]
pub enum Policy {
    /// Nothing: refused as 36. Only who names this policy is refused so.
    Reject,
    /// The first slice, scaled by tau over its tau.
    ConstantVol,
}

impl Policy {
    fn number(self) -> u32 {
        match self {
            Self::Reject => c::REJECT,
            Self::ConstantVol => c::CONSTANT_VOL,
        }
    }

    fn of_number(number: u32) -> Self {
        if number == c::REJECT {
            Self::Reject
        } else {
            Self::ConstantVol
        }
    }
}

impl Default for Policy {
    /// The library's, which is [`Policy::ConstantVol`].
    fn default() -> Self {
        Self::of_number(c::default_policy())
    }
}

/// The slices that answer at a tau.
#[derive(Debug, Clone, Copy, PartialEq)]
#[allow(missing_docs)]
pub enum Bracket {
    /// The first alone.
    Short,
    /// Two positions and the weight of hi.
    Segment { lo: usize, hi: usize, x: f64 },
}

impl Bracket {
    fn of_rows([below, lo, hi]: [usize; 3], [x]: [f64; 1]) -> Self {
        if below != 0 {
            Self::Short
        } else {
            Self::Segment { lo, hi, x }
        }
    }
}

/// 2 to 32 slices with rising tau, borrowed. They are tested by every call again.
#[derive(Debug, Clone, Copy)]
pub struct Surface<'a> {
    slices: &'a [SviSlice],
    policy: Policy,
}

impl<'a> Surface<'a> {
    /// Refused as 11, 21 to 28, 32 or 33.
    pub fn new(slices: &'a [SviSlice], policy: Policy) -> Result<Self, Refusal> {
        answered(c::surface(slices), Self { slices, policy })
    }

    /// Which slices answer at tau.
    pub fn bracket(&self, k: f64, tau: f64) -> Result<Bracket, Refusal> {
        let (mut places, mut x) = ([0; 3], [0.0]);
        let number = c::bracket(self.slices, self.policy.number(), k, tau, &mut places, &mut x);
        answered(number, Bracket::of_rows(places, x))
    }

    /// Whether the point is between two slices whose k ranges both hold k.
    pub fn calibrated(&self, k: f64, tau: f64) -> Result<bool, Refusal> {
        let mut calibrated = [0];
        let number = c::region(self.slices, self.policy.number(), k, tau, &mut calibrated);
        answered(number, calibrated[0] != 0)
    }

    /// Total variance at a point.
    pub fn total_variance(&self, k: f64, tau: f64) -> Result<TotalVariance, Refusal> {
        let mut total = [0.0; 4];
        let number = c::total_variance(self.slices, self.policy.number(), k, tau, &mut total);
        answered(number, TotalVariance::of_row(total))
    }

    /// Whether the tau axis of a grid holds the tau of every slice.
    pub fn covers_nodes(&self, ks: &[f64], taus: &[f64]) -> Result<bool, Refusal> {
        let mut all = [0];
        let number = c::covers_nodes(self.slices, ks, taus, &mut all);
        answered(number, all[0] != 0)
    }

    /// Tests the surface for arbitrage on a grid. Failures are written to `room`, three numbers each (k, tau, refusal), in walking order: room for
    /// three times every grid point.
    pub fn diagnose(&self, ks: &[f64], taus: &[f64], config: DiagnosticsConfig, room: &mut [f64]) -> Result<SurfaceDiagnostics, Refusal> {
        let (mut counts, mut worst) = ([0; 10], [0.0; 9]);
        let DiagnosticsConfig { butterfly_tolerance, calendar_tolerance } = config;
        let number = c::diagnose(self.slices, self.policy.number(), ks, taus, butterfly_tolerance, calendar_tolerance, room, &mut counts, &mut worst);
        answered(number, SurfaceDiagnostics::of_rows(counts, worst))
    }
}

/// One grid point and the value there; for a gap tau is the earlier one.
#[repr(C)]
#[derive(Debug, Clone, Copy, PartialEq, Default)]
#[allow(missing_docs)]
pub struct DiagnosticPoint {
    pub k: f64,
    pub tau: f64,
    pub value: f64,
}

/// The first smallest value, where there is one.
#[repr(C)]
#[derive(Debug, Clone, Copy, PartialEq, Default)]
#[allow(missing_docs)]
pub struct Worst {
    pub found: bool,
    pub at: DiagnosticPoint,
}

/// A running tally of one test.
#[repr(C)]
#[derive(Debug, Clone, Copy, PartialEq, Default)]
#[allow(missing_docs)]
pub struct Check {
    pub points: usize,
    /// Values below minus the tolerance.
    pub violations: usize,
    pub worst: Worst,
}

impl Check {
    /// Counts one more point.
    pub fn record(&mut self, point: DiagnosticPoint, tolerance: f64) {
        c::check_record(self, point.k, point.tau, point.value, tolerance);
    }

    /// No violation.
    pub fn is_clean(self) -> bool {
        let (counts, worst) = self.rows();
        c::check_clean(&counts, &worst) != 0
    }

    /// As [`c::check_clean`] lists them.
    fn rows(self) -> ([usize; 3], [f64; 3]) {
        let DiagnosticPoint { k, tau, value } = self.worst.at;
        ([self.points, self.violations, usize::from(self.worst.found)], [k, tau, value])
    }

    fn of_rows([points, violations, found]: [usize; 3], [k, tau, value]: [f64; 3]) -> Self {
        Self { points, violations, worst: Worst { found: found != 0, at: DiagnosticPoint { k, tau, value } } }
    }
}

/// Tolerances of the tests.
#[derive(Debug, Clone, Copy, PartialEq)]
#[allow(missing_docs)]
pub struct DiagnosticsConfig {
    pub butterfly_tolerance: f64,
    pub calendar_tolerance: f64,
}

impl Default for DiagnosticsConfig {
    fn default() -> Self {
        Self { butterfly_tolerance: 1e-10, calendar_tolerance: 1e-12 }
    }
}

/// The tallies of a grid, and how many of its points failed.
#[derive(Debug, Clone, Copy, PartialEq)]
#[allow(missing_docs)]
pub struct SurfaceDiagnostics {
    pub butterfly: Check,
    pub calendar_slope: Check,
    pub calendar_gap: Check,
    pub evaluation_failures: usize,
}

impl SurfaceDiagnostics {
    /// No violation and no failure.
    pub fn is_clean(self) -> bool {
        let (counts, worst) = self.rows();
        c::report_clean(&counts, &worst) != 0
    }

    /// As [`c::diagnose`] lists them.
    fn rows(self) -> ([usize; 10], [f64; 9]) {
        let (mut counts, mut worst) = ([self.evaluation_failures; 10], [0.0; 9]);
        for (i, check) in [self.butterfly, self.calendar_slope, self.calendar_gap].into_iter().enumerate() {
            let (three, at) = check.rows();
            counts[3 * i..][..3].copy_from_slice(&three);
            worst[3 * i..][..3].copy_from_slice(&at);
        }
        (counts, worst)
    }

    fn of_rows(counts: [usize; 10], worst: [f64; 9]) -> Self {
        let check = |i: usize| Check::of_rows([counts[i], counts[i + 1], counts[i + 2]], [worst[i], worst[i + 1], worst[i + 2]]);
        Self { butterfly: check(0), calendar_slope: check(3), calendar_gap: check(6), evaluation_failures: counts[9] }
    }
}
