//! Slices, surfaces and diagnostics of the Rust, asked with raw records: document 01's number, or the values.

use crate::plain::diagnostics::{Check, DiagnosticGrid, DiagnosticPoint, DiagnosticsConfig, diagnose};
pub use crate::plain::svi::ShortExpiryPolicy;
use crate::plain::svi::{Bracket, KRange, Region, SviSlice, SviSurface};
use crate::plain::{TotalVariance, VolSurface, check_point};
use crate::types::error::MMError;

/// A record as a caller may write it: nothing about it is known.
pub use kesupayro::SviSlice as Raw;

/// Document 01's number of a refusal, by the Rust's own words for it.
pub fn number_of(text: &str) -> u32 {
    const WORDS: &[(&str, u32)] = &[
        ("k range must be finite", 21),
        ("svi slice: tau must be positive", 23),
        ("svi slice: b must be non-negative", 24),
        ("svi slice: |rho| must be at most 1", 25),
        ("svi slice: sigma must be positive", 26),
        ("exceeds Lee's bound", 27),
        ("svi slice: minimum variance", 28),
        ("numerical error: k must be finite", 29),
        ("numerical error: svi slice at k", 30),
        ("butterfly g is not finite", 30),
        ("numerical error: svi slice curvature", 31),
        ("needs at least two slices", 32),
        ("must have strictly increasing tau", 33),
        ("log moneyness k must be finite", 34),
        ("time to expiry must be finite and positive", 35),
        ("is below the first expiry", 36),
        ("is beyond the last expiry", 37),
        ("total variance must be finite and positive", 38),
        ("total variance derivative", 39),
        ("diagnostic k grid", 40),
        ("diagnostic tau grid", 41),
        ("must be finite and non-negative", 42),
        ("svi slice: ", 22),
    ];
    match WORDS.iter().find(|w| text.contains(w.0)) {
        Some(w) => w.1,
        None => panic!("the Rust refused with a text that has no number: {text}"),
    }
}

fn numbered(e: MMError) -> u32 {
    number_of(&e.to_string())
}

pub type Asked<T> = Result<T, u32>;

pub fn k_range(lo: f64, hi: f64) -> Asked<KRange> {
    KRange::new(lo, hi).map_err(numbered)
}

pub fn slice(s: &Raw) -> Asked<SviSlice> {
    let range = k_range(s.k_range.lo, s.k_range.hi)?;
    SviSlice::new(s.tau, s.a, s.b, s.rho, s.m, s.sigma, range).map_err(numbered)
}

pub fn minimum(s: &Raw) -> Asked<f64> {
    Ok(slice(s)?.minimum())
}

pub fn lee_slope(s: &Raw) -> Asked<f64> {
    Ok(slice(s)?.lee_slope())
}

pub fn eval(s: &Raw, k: f64) -> Asked<[f64; 3]> {
    slice(s)?.eval(k).map(|(w, w_k, w_kk)| [w, w_k, w_kk]).map_err(numbered)
}

pub fn point(k: f64, tau: f64) -> Asked<()> {
    check_point(k, tau).map_err(numbered)
}

fn values(t: TotalVariance) -> [f64; 4] {
    [t.w(), t.w_k(), t.w_kk(), t.w_tau()]
}

pub fn total(v: [f64; 4]) -> Asked<[f64; 4]> {
    TotalVariance::new(v[0], v[1], v[2], v[3]).map(values).map_err(numbered)
}

/// The surface of a run of records: over a size (11), the records in order (21 to 28), the count (32), the order of tau (33).
pub fn surface(run: &[Raw], policy: ShortExpiryPolicy) -> Asked<SviSurface> {
    if run.len() > 32 {
        return Err(11);
    }
    let slices = run.iter().map(slice).collect::<Asked<Vec<_>>>()?;
    SviSurface::new(slices, policy).map_err(numbered)
}

/// The slices that answer: the first alone, or a segment and the weight of its later slice.
#[derive(Debug, Clone, Copy, PartialEq)]
pub enum Place {
    Short,
    Segment(usize, usize, f64),
}

pub fn bracket(run: &[Raw], policy: ShortExpiryPolicy, k: f64, tau: f64) -> Asked<Place> {
    let s = surface(run, policy)?;
    let at = |x: &SviSlice| s.slices().iter().position(|y| std::ptr::eq(x, y)).expect("a slice of the surface");
    Ok(match s.bracket(k, tau).map_err(numbered)? {
        Bracket::Short(_) => Place::Short,
        Bracket::Segment { lo, hi, x } => Place::Segment(at(lo), at(hi), x),
    })
}

/// Whether the point is calibrated.
pub fn region(run: &[Raw], policy: ShortExpiryPolicy, k: f64, tau: f64) -> Asked<bool> {
    let s = surface(run, policy)?;
    Ok(s.region(k, tau).map_err(numbered)? == Region::Calibrated)
}

pub fn total_variance(run: &[Raw], policy: ShortExpiryPolicy, k: f64, tau: f64) -> Asked<[f64; 4]> {
    let s = surface(run, policy)?;
    s.total_variance(k, tau).map(values).map_err(numbered)
}

fn grid(ks: &[f64], taus: &[f64]) -> Asked<DiagnosticGrid> {
    DiagnosticGrid::new(ks.to_vec(), taus.to_vec()).map_err(numbered)
}

/// Over 64 values on an axis is 11, before the records.
pub fn covers_nodes(run: &[Raw], ks: &[f64], taus: &[f64]) -> Asked<bool> {
    if run.len() > 32 || ks.len() > 64 || taus.len() > 64 {
        return Err(11);
    }
    let s = surface(run, ShortExpiryPolicy::Reject)?;
    Ok(s.covers_nodes(&grid(ks, taus)?))
}

/// A check's tally: points, violations, and the worst as k, tau, value.
#[derive(Debug, Clone, Copy, PartialEq)]
pub struct Tally {
    pub points: usize,
    pub violations: usize,
    pub worst: Option<[f64; 3]>,
}

pub fn clean(c: Tally) -> bool {
    check(c).is_clean()
}

fn tally(c: Check) -> Tally {
    Tally { points: c.points, violations: c.violations, worst: c.worst.map(|p| [p.k, p.tau, p.value]) }
}

fn diagnostic_point(p: [f64; 3]) -> DiagnosticPoint {
    DiagnosticPoint { k: p[0], tau: p[1], value: p[2] }
}

fn check(c: Tally) -> Check {
    Check { points: c.points, violations: c.violations, worst: c.worst.map(diagnostic_point) }
}

/// One more value recorded.
pub fn record(c: Tally, at: [f64; 3], tolerance: f64) -> Tally {
    let mut check = check(c);
    check.record(diagnostic_point(at), tolerance);
    tally(check)
}

/// Butterfly, slope and gap, and the failures as k, tau, number.
#[derive(Debug, Clone, PartialEq)]
pub struct Report {
    pub checks: [Tally; 3],
    pub failures: Vec<[f64; 3]>,
    pub clean: bool,
}

/// `room` is the number of floats lent, three for each grid point.
pub fn diagnosed(run: &[Raw], policy: ShortExpiryPolicy, ks: &[f64], taus: &[f64], tolerances: [f64; 2], room: usize) -> Asked<Report> {
    if room < 3 * ks.len() * taus.len() {
        return Err(12);
    }
    if run.len() > 32 || ks.len() > 64 || taus.len() > 64 {
        return Err(11);
    }
    let s = surface(run, policy)?;
    let grid = grid(ks, taus)?;
    let config = DiagnosticsConfig { butterfly_tolerance: tolerances[0], calendar_tolerance: tolerances[1] };
    let d = diagnose(&s, &grid, config).map_err(numbered)?;
    let clean = d.is_clean();
    Ok(Report {
        clean,
        checks: [tally(d.butterfly), tally(d.calendar_slope), tally(d.calendar_gap)],
        failures: d.evaluation_failures.iter().map(|(k, tau, why)| [*k, *tau, f64::from(number_of(why))]).collect(),
    })
}

/// Records, points and axes from a seed.
pub mod made {
    use super::Raw;
    use crate::random::Random;
    use kesupayro::KRange;

    /// A record that is mostly accepted.
    pub fn record(r: &mut Random, tau: f64) -> Raw {
        let (vol, rho) = (r.between(0.05, 0.9), r.between(-1.0, 1.0));
        let level = vol * vol * tau;
        let sigma = vol * tau.sqrt() * r.between(0.05, 2.0);
        let width = vol * tau.sqrt() * r.between(1.0, 4.0);
        let mut s = Raw {
            tau,
            a: level * r.between(0.1, 0.9),
            b: (level / sigma * r.between(0.0, 0.8)).min(1.0),
            rho,
            m: width * r.between(-0.4, 0.4),
            sigma,
            k_range: KRange { lo: -width, hi: width * r.between(0.2, 1.0) },
        };
        match r.below(40) {
            0 => s.rho = r.one_of(&[1.0, -1.0]),
            1 => s.b = 0.0,
            2 => s.b = 2.0 / (1.0 + s.rho.abs()),
            3 => s.b = r.near(2.0 / (1.0 + s.rho.abs()), 2),
            4 => s.a = -s.b * s.sigma * (1.0 - s.rho * s.rho).sqrt() * r.between(0.9, 1.0),
            5 => s.a = r.near(-(s.b * s.sigma * (1.0 - s.rho * s.rho).sqrt()), 3),
            6 => s.sigma = r.decades(-200, 200),
            7 => s.b = r.decades(-300, 0),
            8 => s.a = r.decades(-300, 300),
            9 => (s.rho, s.m) = (r.one_of(&[1.0, -1.0]), r.decades(-10, 10)),
            10 => {
                let one = r.one_of(&[1.0, -1.0]);
                s.rho = r.near(one, 3);
            }
            _ => {}
        }
        s
    }

    /// A field of a record spoilt.
    pub fn spoil(r: &mut Random, s: &mut Raw) {
        let x = match r.below(3) {
            0 => r.special(),
            1 => r.any_float(),
            _ => -r.decades(-10, 3),
        };
        match r.below(8) {
            0 => s.tau = x,
            1 => s.a = x,
            2 => s.b = x,
            3 => s.rho = x,
            4 => s.m = x,
            5 => s.sigma = x,
            6 => s.k_range.lo = x,
            _ => s.k_range.hi = x,
        }
    }

    /// A run of records, mostly a surface.
    pub fn run(r: &mut Random) -> Vec<Raw> {
        let count = match r.below(20) {
            0 => r.below(2),
            1 => r.from_to(30, 34),
            2 => 32,
            _ => r.from_to(2, 7),
        };
        let mut tau = r.decades(-3, 0);
        if r.once_in(20) {
            tau = r.decades(-300, 300);
        }
        let mut out = Vec::new();
        for _ in 0..count {
            out.push(record(r, tau));
            tau = match r.below(12) {
                0 => f64::from_bits(tau.to_bits() + r.from_to(1, 8) as u64),
                1 => tau * (1.0 + r.decades(-15, -8)),
                2 => tau * r.decades(0, 3),
                _ => tau * r.between(1.05, 2.5),
            };
        }
        if count > 0 && r.once_in(12) {
            let i = r.below(count);
            spoil(r, &mut out[i]);
            if r.once_in(3) {
                let i = r.below(count);
                spoil(r, &mut out[i]);
            }
        }
        if count > 1 && r.once_in(30) {
            let (i, j) = (r.below(count), r.below(count));
            (out[i].tau, out[j].tau) = (out[j].tau, out[i].tau);
        }
        if count > 1 && r.once_in(60) {
            let i = r.from_to(1, count - 1);
            out[i].tau = out[i - 1].tau;
        }
        out
    }

    /// A k worth asking.
    pub fn k(r: &mut Random, run: &[Raw]) -> f64 {
        if run.is_empty() || r.once_in(25) {
            return if r.once_in(2) { r.special() } else { r.any_float() };
        }
        let s = run[r.below(run.len())];
        match r.below(10) {
            0 => s.k_range.lo,
            1 => s.k_range.hi,
            2 => r.near(s.k_range.lo, 1),
            3 => r.near(s.k_range.hi, 1),
            4 => s.m,
            5 => r.near(s.m, 2),
            6 => s.m + s.sigma * r.decades(-3, 12) * r.one_of(&[1.0, -1.0]),
            _ => r.between(1.5 * s.k_range.lo, 1.5 * s.k_range.hi),
        }
    }

    /// A tau worth asking: on a node, at the rim of its tolerance, between nodes, before and beyond.
    pub fn tau(r: &mut Random, run: &[Raw]) -> f64 {
        if run.is_empty() || r.once_in(25) {
            return if r.once_in(2) { r.special() } else { r.any_float() };
        }
        let i = r.below(run.len());
        let t = run[i].tau;
        let next = run.get(i + 1).map_or(2.0 * t, |s| s.tau);
        match r.below(12) {
            0 | 1 => t,
            2 => r.near(t, 2),
            3 => t * (1.0 + 1e-12 * r.one_of(&[1.0, -1.0, 0.5, -0.5, 2.0, -2.0])),
            4 => {
                let rim = t + r.one_of(&[1.0, -1.0]) * 1e-12 * t;
                r.near(rim, 2)
            }
            5 => {
                let rim = t + 0.25 * (next - t);
                r.near(rim, 1)
            }
            6 => t + 0.5 * (next - t),
            7 => run[0].tau * r.unit(),
            8 => run[run.len() - 1].tau * (1.0 + r.decades(-14, 0)),
            _ => t + r.unit() * (next - t),
        }
    }

    /// A rising axis, now and then spoilt or too long.
    pub fn axis(r: &mut Random, mut values: Vec<f64>) -> Vec<f64> {
        values.retain(|x| x.is_finite());
        values.sort_by(f64::total_cmp);
        values.dedup();
        if r.once_in(15) && !values.is_empty() {
            let i = r.below(values.len());
            values[i] = match r.below(3) {
                0 => r.special(),
                1 => values[r.below(values.len())],
                _ => r.any_float(),
            };
        }
        values
    }

    pub fn ks(r: &mut Random, run: &[Raw]) -> Vec<f64> {
        let n = match r.below(40) {
            0 => 0,
            1 => 64,
            2 => r.from_to(65, 70),
            _ => r.from_to(1, 8),
        };
        let values = (0..n).map(|i| if n > 60 { i as f64 * 0.01 - 0.3 } else { k(r, run) }).collect();
        axis(r, values)
    }

    pub fn taus(r: &mut Random, run: &[Raw]) -> Vec<f64> {
        let n = match r.below(40) {
            0 => 0,
            1 => r.from_to(63, 70),
            _ => r.from_to(1, 8),
        };
        let mut values: Vec<f64> = if r.once_in(2) { run.iter().map(|s| s.tau).collect() } else { Vec::new() };
        let first = run.first().map_or(0.5, |s| s.tau);
        values.extend((0..n).map(|i| if n > 60 { first * (1.0 + i as f64 * 0.05) } else { tau(r, run) }));
        values.retain(|t| *t > 0.0 || r.once_in(30));
        axis(r, values)
    }

    /// The two tolerances.
    pub fn tolerances(r: &mut Random) -> [f64; 2] {
        let mut out = [1e-10, 1e-12];
        for t in &mut out {
            match r.below(8) {
                0 => *t = r.special(),
                1 => *t = 0.0,
                2 => *t = r.decades(-12, 1),
                _ => {}
            }
        }
        out
    }
}
