//! The port's slices, points, surfaces and diagnostics.

use super::{COUNT, FLOAT};
use crate::surfaces::{Raw, Tally};
use kesupayro::c;
use kesupayro::surface::{Check, DiagnosticPoint, Worst};

/// What one side says: document 01's number (0 for none), counts and positions, floats.
#[derive(Debug, Clone)]
pub struct Said {
    pub number: u32,
    pub counts: Vec<usize>,
    pub floats: Vec<f64>,
}

impl std::fmt::Display for Said {
    fn fmt(&self, f: &mut std::fmt::Formatter<'_>) -> std::fmt::Result {
        write!(f, "{}", self.number)?;
        self.counts.iter().try_for_each(|n| write!(f, " {n}"))?;
        self.floats.iter().try_for_each(|x| write!(f, " {:016x}", x.to_bits()))
    }
}

fn said(number: u32, counts: &[usize], floats: &[f64]) -> Said {
    Said { number, counts: counts.to_vec(), floats: floats.to_vec() }
}

pub fn k_range(lo: f64, hi: f64) -> Said {
    let mut range = [FLOAT; 2];
    said(c::k_range(lo, hi, &mut range), &[], &range)
}

pub fn contains(lo: f64, hi: f64, k: f64) -> Said {
    said(0, &[c::contains(&[lo, hi], k) as usize], &[])
}

pub fn slice(s: &Raw) -> Said {
    let mut slice = [FLOAT; 8];
    said(c::slice(s.tau, s.a, s.b, s.rho, s.m, s.sigma, &[s.k_range.lo, s.k_range.hi], &mut slice), &[], &slice)
}

pub fn minimum(s: &Raw) -> Said {
    let mut value = [FLOAT];
    said(c::minimum(&s.row(), &mut value), &[], &value)
}

pub fn lee_slope(s: &Raw) -> Said {
    let mut value = [FLOAT];
    said(c::lee_slope(&s.row(), &mut value), &[], &value)
}

pub fn eval(s: &Raw, k: f64) -> Said {
    let mut values = [FLOAT; 3];
    said(c::eval(&s.row(), k, &mut values), &[], &values)
}

pub fn check_point(k: f64, tau: f64) -> Said {
    said(c::check_point(k, tau), &[], &[])
}

pub fn total([w, w_k, w_kk, w_tau]: [f64; 4]) -> Said {
    let mut total = [FLOAT; 4];
    said(c::total(w, w_k, w_kk, w_tau, &mut total), &[], &total)
}

pub fn surface(run: &[Raw]) -> Said {
    said(c::surface(run), &[], &[])
}

/// 0 is Reject, every other policy ConstantVol.
pub fn bracket(run: &[Raw], policy: u32, k: f64, tau: f64) -> Said {
    let (mut places, mut x) = ([COUNT; 3], [FLOAT]);
    said(c::bracket(run, policy, k, tau, &mut places, &mut x), &places, &x)
}

pub fn region(run: &[Raw], policy: u32, k: f64, tau: f64) -> Said {
    let mut calibrated = [COUNT];
    said(c::region(run, policy, k, tau, &mut calibrated), &calibrated, &[])
}

pub fn total_variance(run: &[Raw], policy: u32, k: f64, tau: f64) -> Said {
    let mut total = [FLOAT; 4];
    said(c::total_variance(run, policy, k, tau, &mut total), &[], &total)
}

pub fn covers_nodes(run: &[Raw], ks: &[f64], taus: &[f64]) -> Said {
    let mut all = [COUNT];
    said(c::covers_nodes(run, ks, taus, &mut all), &all, &[])
}

fn check_of(t: Tally) -> Check {
    let [k, tau, value] = t.worst.unwrap_or([0.0; 3]);
    Check { points: t.points, violations: t.violations, worst: Worst { found: t.worst.is_some(), at: DiagnosticPoint { k, tau, value } } }
}

fn tally_of(check: &Check) -> ([usize; 3], [f64; 3]) {
    let DiagnosticPoint { k, tau, value } = check.worst.at;
    ([check.points, check.violations, usize::from(check.worst.found)], [k, tau, value])
}

pub fn check_record(t: Tally, [k, tau, value]: [f64; 3], tolerance: f64) -> Said {
    let mut check = check_of(t);
    c::check_record(&mut check, k, tau, value, tolerance);
    let (counts, worst) = tally_of(&check);
    said(0, &counts, &worst)
}

pub fn check_clean(t: Tally) -> Said {
    let (counts, worst) = tally_of(&check_of(t));
    said(0, &[c::check_clean(&counts, &worst) as usize], &[])
}

/// The tallies, the failures, whether the report is clean, and the whole room as the port left it, which was `before`.
pub fn diagnose(run: &[Raw], policy: u32, ks: &[f64], taus: &[f64], [butterfly, calendar]: [f64; 2], before: &[f64]) -> Said {
    let mut room = before.to_vec();
    let (mut counts, mut worst) = ([COUNT; 10], [FLOAT; 9]);
    let number = c::diagnose(run, policy, ks, taus, butterfly, calendar, &mut room, &mut counts, &mut worst);
    let mut out = said(number, &counts, &worst);
    out.counts.push(c::report_clean(&counts, &worst) as usize);
    out.floats.extend(room);
    out
}
