//! Slices, surfaces and diagnostics through the safe functions.

use kesupayro::surface::{check_point, Bracket, Check, DiagnosticPoint, DiagnosticsConfig, Policy, Refusal, Surface, TotalVariance};
use kesupayro::{c, raw, KRange, SviSlice};

/// The worked example: w is 1.75 at 0 and 2.75 at 4.
fn slice(tau: f64, a: f64) -> SviSlice {
    SviSlice::new(tau, a, 0.5, 0.0, 0.0, 3.0, KRange::new(-1.0, 1.0).unwrap()).unwrap()
}

#[test]
fn a_slice() {
    let s = slice(1.0, 0.25);
    assert_eq!((s.minimum(), s.lee_slope()), (Ok(1.75), Ok(0.5)));
    assert_eq!((s.eval(0.0).unwrap().w, s.eval(4.0).unwrap().w), (1.75, 2.75));
    assert_eq!(s.eval(f64::NAN), Err(Refusal(29)));
    assert!(s.k_range.contains(1.0) && !s.k_range.contains(1.5));
    assert_eq!(KRange::new(1.0, 0.0), Err(Refusal(21)));
    assert_eq!(SviSlice::new(1.0, 0.25, 3.0, 0.0, 0.0, 3.0, s.k_range), Err(Refusal(27)));
    assert_eq!(SviSlice { sigma: f64::NAN, ..s }.minimum(), Err(Refusal(22)));
    assert_eq!(Refusal(27).to_string(), "b (1 + |rho|) above 2, Lee's bound (27)");
}

#[test]
fn a_surface() {
    let slices = [slice(1.0, 0.25), slice(2.0, 1.25), slice(4.0, 3.25)];
    let s = Surface::new(&slices, Policy::Reject).unwrap();
    assert_eq!(s.bracket(0.0, 2.0), Ok(Bracket::Segment { lo: 0, hi: 1, x: 1.0 }));
    assert_eq!(s.bracket(0.0, 1.5), Ok(Bracket::Segment { lo: 0, hi: 1, x: 0.5 }));
    assert_eq!((s.bracket(0.0, 0.5), s.bracket(0.0, 5.0)), (Err(Refusal(36)), Err(Refusal(37))));
    assert_eq!((s.calibrated(0.5, 1.5), s.calibrated(1.5, 1.5)), (Ok(true), Ok(false)));
    assert_eq!(s.total_variance(0.0, 1.5).map(|t| (t.w, t.w_tau)), Ok((2.25, 1.0)));
    assert_eq!((s.covers_nodes(&[0.0], &[1.0, 2.0, 4.0]), s.covers_nodes(&[0.0], &[1.0, 2.0])), (Ok(true), Ok(false)));
    assert_eq!(s.covers_nodes(&[], &[1.0]), Err(Refusal(40)));
    let early = Surface::new(&slices, Policy::ConstantVol).unwrap();
    assert_eq!(early.bracket(0.0, 0.5), Ok(Bracket::Short));
    assert_eq!(early.total_variance(0.0, 0.5).map(|t| t.w), Ok(0.875));
    assert!(matches!(Surface::new(&slices[..1], Policy::Reject), Err(Refusal(32))));
    assert!(matches!(Surface::new(&[slices[0]; 2], Policy::Reject), Err(Refusal(33))));
    assert!(matches!(Surface::new(&[slices[0]; 33], Policy::Reject), Err(Refusal(11))));
}

/// Before the first tau: whether it is refused with 36, and the number of failures on a grid of three points there and three on the first tau.
fn before_the_first(slices: &[SviSlice], policy: u32) -> (bool, usize) {
    let (mut places, mut x, mut calibrated, mut total) = ([7; 3], [7.0], [7], [7.0; 4]);
    let numbers = [
        c::bracket(slices, policy, 0.0, 0.5, &mut places, &mut x),
        c::region(slices, policy, 0.0, 0.5, &mut calibrated),
        c::total_variance(slices, policy, 0.0, 0.5, &mut total),
    ];
    assert!(numbers == [36; 3] || numbers == [0; 3]);
    let refused = numbers[0] == 36;
    assert_eq!((places, calibrated, total[0]), if refused { ([0; 3], [0], 0.0) } else { ([1, 0, 0], [0], 0.875) });
    let (mut room, mut counts, mut worst) = ([-77.0; 18], [7; 10], [7.0; 9]);
    assert_eq!(c::diagnose(slices, policy, &[-1.0, 0.0, 1.0], &[0.5, 1.0], 1e-10, 1e-12, &mut room, &mut counts, &mut worst), 0);
    let failures: Vec<f64> = [-1.0, 0.0, 1.0].iter().flat_map(|k| [*k, 0.5, 36.0]).take(3 * counts[9]).collect();
    assert!(room.starts_with(&failures) && room[failures.len()..].iter().all(|x| *x == -77.0));
    (refused, counts[9])
}

#[test]
fn only_reject_by_its_name_refuses() {
    let slices = [slice(1.0, 0.25), slice(2.0, 1.25)];
    assert_eq!(before_the_first(&slices, c::REJECT), (true, 3));
    for policy in [c::CONSTANT_VOL, c::default_policy(), 2, 7, 256, 1 << 31, u32::MAX] {
        assert_eq!(before_the_first(&slices, policy), (false, 0), "{policy}");
    }
    assert_eq!((c::default_policy(), Policy::default()), (c::CONSTANT_VOL, Policy::ConstantVol));
    let s = Surface::new(&slices, Policy::default()).unwrap();
    assert_eq!((s.bracket(0.0, 0.5), s.total_variance(0.0, 0.5).map(|t| t.w)), (Ok(Bracket::Short), Ok(0.875)));
}

#[test]
fn diagnostics() {
    let slices = [slice(1.0, 0.25), slice(2.0, 0.125)];
    let s = Surface::new(&slices, Policy::Reject).unwrap();
    let mut room = [-77.0; 18];
    let report = s.diagnose(&[-1.0, 0.0, 1.0], &[1.0, 2.0], DiagnosticsConfig::default(), &mut room).unwrap();
    assert_eq!((report.butterfly.points, report.calendar_gap.points, report.calendar_gap.violations), (6, 3, 3));
    assert!(!report.is_clean() && report.butterfly.is_clean() && room == [-77.0; 18]);
    let short = s.diagnose(&[-1.0, 0.0, 1.0], &[1.0, 2.0], DiagnosticsConfig::default(), &mut room[..17]);
    assert_eq!(short, Err(Refusal(12)));
    let beyond = s.diagnose(&[0.0], &[2.0, 3.0], DiagnosticsConfig::default(), &mut room).unwrap();
    assert_eq!((beyond.evaluation_failures, &room[..4]), (1, &[0.0, 3.0, 37.0, -77.0][..]));
}

#[test]
fn points_and_tallies() {
    assert_eq!((check_point(0.0, 1.0), check_point(f64::NAN, 1.0), check_point(0.0, 0.0)), (Ok(()), Err(Refusal(34)), Err(Refusal(35))));
    assert_eq!(TotalVariance::new(0.0, 0.0, 0.0, 0.0), Err(Refusal(38)));
    let mut check = Check::default();
    check.record(DiagnosticPoint { k: 0.0, tau: 1.0, value: 0.5 }, 0.1);
    check.record(DiagnosticPoint { k: 1.0, tau: 1.0, value: -0.5 }, 0.1);
    assert_eq!((check.points, check.violations, check.worst.at.k, check.is_clean()), (2, 1, 1.0, false));
}

#[test]
fn inside_the_fit() {
    let mut m = [0.0; 36];
    (m[0], m[7], m[14]) = (2.0, 4.0, 8.0);
    let solved = raw::Solved { x: Some([1.0, 2.0, 1.0, 0.0, 0.0, 0.0]), updates: 0 };
    assert_eq!(raw::solve(&m, &[2.0, 8.0, 8.0, 0.0, 0.0, 0.0], 3, 1e-12), solved);
    assert_eq!(raw::solve(&m, &[0.0; 6], 7, 1e-12), raw::Solved { x: None, updates: 0 });
    let limits = raw::Limits { a_min: 1e-8, a_max: 1.0, pivot_tolerance: 1e-12, feasibility_tolerance: 1e-12 };
    let unequal = raw::cell(&[0.0; 5], &[0.0; 4], &[0.0; 5], limits, 0.0, 1.0);
    assert!(!unequal.some && unequal.faces == 0 && unequal.updates == 0);
}

#[test]
fn updates_of_the_solver() {
    let asked = |m: &[f64; 36], n: usize| {
        let s = raw::solve(m, &[1.0, 2.0, 3.0, 4.0, 5.0, 6.0], n, 1e-12);
        (s.x.is_some(), s.updates)
    };
    // No factor is 0: as many as there can be, n (n n - 1) / 3.
    let dense: [f64; 36] = std::array::from_fn(|i| if i % 7 == 0 { 8.0 } else { 1.0 });
    assert_eq!([1, 2, 3, 4, 5, 6].map(|n| asked(&dense, n)), [0, 2, 8, 20, 40, 70].map(|most| (true, most)));
    assert_eq!([0, 7, usize::MAX].map(|n| asked(&dense, n)), [(false, 0); 3]);
    // A row whose factor is 0 is passed over: the last one alone, three entries and then two.
    let mut skipped = dense;
    skipped[6] = 0.0;
    assert_eq!(asked(&skipped, 3), (true, 5));
    // Refused at the second column, after five rows of six; refused for its scale, before the first.
    for (entry, updates) in [(1.0, 30), (0.0, 0), (f64::INFINITY, 0), (f64::NAN, 0)] {
        assert_eq!(asked(&[entry; 36], 6), (false, updates));
    }
    // A NaN is a pivot like another, and what it touches counts.
    let mut unknown = dense;
    unknown[0] = f64::NAN;
    assert_eq!(asked(&unknown, 6), (false, 70));
}
