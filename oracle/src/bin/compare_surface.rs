//! Slices, surfaces and diagnostics: the port beside the Rust on records, points and grids from a seed.

use kesupayro::c;
use oracle::port::surfaces::{self as port, Said};
use oracle::random::Random;
use oracle::surfaces::{self as rust, Asked, Raw, Report, ShortExpiryPolicy, Tally, made};
use oracle::{rule, work};
use std::collections::BTreeMap;

const HOW: &str = "oracle/compare-surface [--seed S] [--count N] [--jobs J] [--platform] [--all]
    N points of random and damaged surfaces under both policies, their slices, brackets, regions and diagnostics;
    exit status 1 where something differs
    --platform   the Rust with the platform's hypot: differences are counted, exit status 0";

/// Points asked of each surface.
const POINTS: usize = 20;

/// Both policies, each named on both sides: the port's number and the Rust's own. Every number but 0 is ConstantVol; the `i`-th question takes one of them.
fn policies(i: usize) -> [(u32, ShortExpiryPolicy); 2] {
    let other = [c::CONSTANT_VOL, 2, c::CONSTANT_VOL, u32::MAX][i % 4];
    [(c::REJECT, ShortExpiryPolicy::Reject), (other, ShortExpiryPolicy::ConstantVol)]
}

/// The policies of those who name none differ, and no question is left to them: docs/DIFFERENCES.md.
fn defaults() -> bool {
    matches!(ShortExpiryPolicy::default(), ShortExpiryPolicy::Reject) && c::default_policy() == c::CONSTANT_VOL
}

/// What a surface showed: questions by function, answers by number, and what differs.
#[derive(Default)]
struct Shown {
    asked: BTreeMap<&'static str, usize>,
    numbers: BTreeMap<u32, usize>,
    differs: Vec<(&'static str, String)>,
}

impl Shown {
    /// Notes one question, with both answers.
    fn ask(&mut self, what: &'static str, question: impl Fn() -> String, port: Said, rust: Said) {
        *self.asked.entry(what).or_default() += 1;
        *self.numbers.entry(rust.number).or_default() += 1;
        let floats = port.floats.len() == rust.floats.len() && port.floats.iter().zip(&rust.floats).all(|(a, b)| rule::same_float(*a, *b));
        if !(port.number == rust.number && port.counts == rust.counts && floats) {
            self.differs.push((what, format!("{what} {}: port {port} rust {rust}", question())));
        }
    }
}

fn said<const N: usize>(a: Asked<[f64; N]>) -> Said {
    match a {
        Ok(v) => Said { number: 0, counts: Vec::new(), floats: v.to_vec() },
        Err(n) => Said { number: n, counts: Vec::new(), floats: vec![0.0; N] },
    }
}

fn number<T>(a: Asked<T>) -> Said {
    Said { number: a.err().unwrap_or(0), counts: Vec::new(), floats: Vec::new() }
}

fn yes(a: Asked<bool>) -> Said {
    let counts = vec![usize::from(*a.as_ref().unwrap_or(&false))];
    Said { counts, ..number(a) }
}

fn placed(a: Asked<rust::Place>) -> Said {
    let (short, lo, hi, x) = match a {
        Ok(rust::Place::Segment(lo, hi, x)) => (0, lo, hi, x),
        Ok(rust::Place::Short) => (1, 0, 0, 0.0),
        Err(_) => (0, 0, 0, 0.0),
    };
    Said { counts: vec![short, lo, hi], floats: vec![x], ..number(a) }
}

fn tallied(t: Tally) -> Said {
    let floats = t.worst.unwrap_or([0.0; 3]).to_vec();
    Said { number: 0, counts: vec![t.points, t.violations, usize::from(t.worst.is_some())], floats }
}

/// The report and the room after it, beyond the failures as it was.
fn reported(a: Asked<Report>, room: &[f64]) -> Said {
    let mut out = Said { number: *a.as_ref().err().unwrap_or(&0), counts: Vec::new(), floats: Vec::new() };
    let nothing = Tally { points: 0, violations: 0, worst: None };
    let report = a.unwrap_or(Report { checks: [nothing; 3], failures: Vec::new(), clean: true });
    for t in report.checks {
        let t = tallied(t);
        out.counts.extend(t.counts);
        out.floats.extend(t.floats);
    }
    out.counts.push(report.failures.len());
    out.counts.push(usize::from(report.clean));
    let failures = report.failures.as_flattened();
    out.floats.extend(failures);
    out.floats.extend(&room[failures.len()..]);
    out
}

fn slices(r: &mut Random, run: &[Raw], shown: &mut Shown) {
    for s in run.iter().take(6) {
        let mut s = *s;
        if r.once_in(3) {
            made::spoil(r, &mut s);
        }
        let range = rust::k_range(s.k_range.lo, s.k_range.hi);
        shown.ask("k_range", || format!("{s:?}"), port::k_range(s.k_range.lo, s.k_range.hi), said(range.map(|g| [g.lo(), g.hi()])));
        if let Ok(range) = range {
            let k = made::k(r, run);
            shown.ask("contains", || format!("{s:?} {k:e}"), port::contains(s.k_range.lo, s.k_range.hi, k), yes(Ok(range.contains(k))));
        }
        let made = rust::slice(&s).map(|t| [t.tau(), t.a(), t.b(), t.rho(), t.m(), t.sigma(), t.k_range().lo(), t.k_range().hi()]);
        shown.ask("slice", || format!("{s:?}"), port::slice(&s), said(made));
        shown.ask("minimum", || format!("{s:?}"), port::minimum(&s), said(rust::minimum(&s).map(|v| [v])));
        shown.ask("lee_slope", || format!("{s:?}"), port::lee_slope(&s), said(rust::lee_slope(&s).map(|v| [v])));
        for _ in 0..3 {
            let k = made::k(r, run);
            shown.ask("eval", || format!("{s:?} {k:e}"), port::eval(&s, k), said(rust::eval(&s, k)));
        }
    }
}

fn points(r: &mut Random, run: &[Raw], shown: &mut Shown) {
    shown.ask("surface", || format!("{run:?}"), port::surface(run), number(rust::surface(run, ShortExpiryPolicy::Reject)));
    for i in 0..POINTS {
        let (k, tau) = (made::k(r, run), made::tau(r, run));
        shown.ask("check_point", || format!("{k:e} {tau:e}"), port::check_point(k, tau), number(rust::point(k, tau)));
        for (policy, named) in policies(i) {
            let question = || format!("{run:?} {policy} {k:e} {tau:e}");
            shown.ask("bracket", question, port::bracket(run, policy, k, tau), placed(rust::bracket(run, named, k, tau)));
            shown.ask("region", question, port::region(run, policy, k, tau), yes(rust::region(run, named, k, tau)));
            shown.ask("total_variance", question, port::total_variance(run, policy, k, tau), said(rust::total_variance(run, named, k, tau)));
        }
    }
    for _ in 0..4 {
        let mut v = [r.decades(-10, 2), r.normal(), r.normal(), r.normal()];
        if r.once_in(2) {
            v[r.below(4)] = r.special();
        }
        shown.ask("total", || format!("{v:?}"), port::total(v), said(rust::total(v)));
    }
}

fn grids(r: &mut Random, run: &[Raw], shown: &mut Shown) {
    for i in 0..2 {
        let (ks, taus) = (made::ks(r, run), made::taus(r, run));
        shown.ask("covers_nodes", || format!("{run:?} {ks:?} {taus:?}"), port::covers_nodes(run, &ks, &taus), yes(rust::covers_nodes(run, &ks, &taus)));
        let tolerances = made::tolerances(r);
        let need = 3 * ks.len() * taus.len();
        for (policy, named) in policies(i) {
            let room = match r.below(6) {
                0 => need.saturating_sub(1),
                1 => r.below(need + 1),
                2 => need + r.below(40),
                _ => need,
            };
            let before: Vec<f64> = (0..room).map(|i| 1000.0 + i as f64).collect();
            let question = || format!("{run:?} {policy} {ks:?} {taus:?} {tolerances:?} room {room}");
            let port = port::diagnose(run, policy, &ks, &taus, tolerances, &before);
            let rust = reported(rust::diagnosed(run, named, &ks, &taus, tolerances, room), &before);
            shown.ask("diagnose", question, port, rust);
        }
    }
}

fn tallies(r: &mut Random, shown: &mut Shown) {
    let mut tally = Tally { points: 0, violations: 0, worst: None };
    if r.once_in(5) {
        tally.points = r.one_of(&[usize::MAX, usize::MAX - 1, 7]);
        tally.violations = r.one_of(&[usize::MAX, 0, 3]);
    }
    for _ in 0..6 {
        let mut at = [r.normal(), r.unit(), r.one_of(&[0.0, -0.0, 1.0, -1.0, -1e-10, -1e-12, 0.5])];
        if r.once_in(4) {
            at[r.below(3)] = if r.once_in(2) { r.special() } else { r.any_float() };
        }
        let mut tolerance = r.one_of(&[0.0, 1e-10, 1e-12, 1.0]);
        if r.once_in(10) {
            tolerance = r.special();
        }
        let next = rust::record(tally, at, tolerance);
        shown.ask("check_record", || format!("{tally:?} {at:?} {tolerance:e}"), port::check_record(tally, at, tolerance), tallied(next));
        tally = next;
        shown.ask("check_clean", || format!("{tally:?}"), port::check_clean(tally), yes(Ok(rust::clean(tally))));
    }
}

fn one(seed: u64, i: u64) -> Shown {
    let r = &mut Random::new(seed, i);
    let mut shown = Shown::default();
    let run = made::run(r);
    slices(r, &run, &mut shown);
    points(r, &run, &mut shown);
    grids(r, &run, &mut shown);
    tallies(r, &mut shown);
    shown
}

fn main() {
    let stop = |e: String| -> ! { work::usage(&e, HOW) };
    let words = work::Words::read(&["seed", "count", "jobs"], &["platform", "all"]).unwrap_or_else(|e| stop(e));
    let seed = words.number("seed", 1).unwrap_or_else(|e| stop(e));
    let count = words.number("count", 10_000).unwrap_or_else(|e| stop(e)) as usize;
    let jobs = words.number("jobs", work::processors() as u64).unwrap_or_else(|e| stop(e)) as usize;
    if !words.rest.is_empty() {
        stop(format!("what is {}?", words.rest[0]));
    }
    let platform = words.has("platform");
    if platform {
        oracle::elementary::use_platform();
    }
    assert!(defaults(), "the default policies are not those that docs/DIFFERENCES.md has");
    let most = if words.has("all") { usize::MAX } else { 10 };
    let surfaces = count.div_ceil(POINTS);
    let (mut asked, mut numbers, mut differs) = (BTreeMap::new(), BTreeMap::new(), BTreeMap::<&str, usize>::new());
    let mut different = 0;
    let progress = work::Progress::new("surfaces", surfaces);
    work::each(surfaces, jobs, |i| one(seed, i as u64), |i, shown| {
        shown.asked.iter().for_each(|(k, n)| *asked.entry(*k).or_insert(0) += n);
        shown.numbers.iter().for_each(|(k, n)| *numbers.entry(*k).or_insert(0) += n);
        for (what, text) in shown.differs {
            if different < most && !platform {
                progress.end();
                println!("seed {seed} surface {i}: {text}");
            }
            *differs.entry(what).or_default() += 1;
            different += 1;
        }
        progress.at(i + 1, &format!("{different} different"));
    });
    progress.end();
    let list = |m: &BTreeMap<&str, usize>| m.iter().map(|(k, n)| format!("{k} {n}")).collect::<Vec<_>>().join(", ");
    let total: usize = asked.values().sum();
    println!("seed {seed}: {surfaces} surfaces, {} points, {total} questions in {:.0} s", surfaces * POINTS, progress.seconds());
    println!("{}", list(&asked));
    let answered = numbers.remove(&0).unwrap_or(0);
    let refused: Vec<String> = numbers.iter().map(|(n, c)| format!("{n}: {c}")).collect();
    println!("answered {answered}, refused {} ({})", total - answered, refused.join(", "));
    println!("different {different}{}", if different > 0 { format!(" ({})", list(&differs)) } else { String::new() });
    std::process::exit(i32::from(different > 0 && !platform));
}
