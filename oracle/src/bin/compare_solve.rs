//! The solver and single cells of the search, and the matrix entries that both update: the port beside the Rust, on systems where pivots tie and on data where faces do.

use kesupayro::c;
use kesupayro::raw::{self, Limits};
use oracle::counted::calibrate::{FitConfig, SliceObservation, inner, solve_linear};
use oracle::random::Random;
use oracle::{counts, plain, rule, work};

const HOW: &str = "oracle/compare-solve [--seed S] [--count N] [--jobs J]
    N systems of 1 to 6 unknowns and a tenth as many cells; exit status 1 where something differs";

/// A system of n unknowns in room for six: mostly small whole numbers, so that pivots tie and eliminate to zero; now and then anything.
fn system(r: &mut Random, n: usize) -> ([f64; 36], [f64; 6], f64) {
    let kind = r.below(9);
    let entry = |r: &mut Random| match kind {
        0 => r.one_of(&[0.0, 1.0, -1.0]),
        1 => r.one_of(&[0.0, -0.0, 1.0, -1.0, 2.0, -2.0, 0.5]),
        2 => r.normal(),
        3 => r.decades(-300, 300) * r.one_of(&[1.0, -1.0]),
        4 => if r.once_in(8) { r.special() } else { r.from_to(0, 4) as f64 - 2.0 },
        5 => r.from_to(0, 16) as f64 * 0.25 - 2.0,
        6 => r.one_of(&[1.0, -1.0]),
        7 => f64::from_bits(r.word() >> r.one_of(&[12, 61])) * r.one_of(&[1.0, -1.0]), // subnormal
        _ => r.special(),
    };
    let mut m: [f64; 36] = std::array::from_fn(|_| entry(r));
    if r.once_in(2) {
        // As a KKT system: symmetric, its last corner zero.
        for i in 0..n {
            for j in 0..i {
                m[i * 6 + j] = m[j * 6 + i];
            }
        }
        for i in 3..n {
            m[i * 6 + 3..i * 6 + n].fill(0.0);
        }
    }
    if r.once_in(16) {
        let row = r.below(n);
        m[row * 6..row * 6 + 6].fill(0.0);
    }
    let rhs = std::array::from_fn(|_| entry(r));
    let tol = match r.below(8) {
        0 => r.one_of(&[0.0, 0.5, 0.25, 1.0, 0.125]),
        1 => r.special(),
        _ => 1e-12,
    };
    (m, rhs, tol)
}

/// What one question showed: whether there was a solution, the entries that the Rust updated, and what was wrong.
struct Shown {
    some: bool,
    updates: u64,
    wrong: Option<String>,
}

/// Whether the port says that it solved a system, 1 or 0, what it wrote of six unknowns, and how many entries it says were updated.
fn solution(m: &[f64; 36], rhs: &[f64; 6], n: usize, tol: f64) -> (u32, [f64; 6], usize) {
    let (mut x, mut updates) = ([7.0; 6], [7_777_777]);
    (c::solve(m, rhs, n, tol, &mut x, &mut updates), x, updates[0])
}

/// A signalling NaN made quiet, as every operation does. On aarch64 the Rust's `max` answers a signalling one with a NaN, and its scale begins anew behind it, which shows in the updates
/// of a system without a solution; on x86-64 it passes every NaN over, and so does the port on any machine (docs/DIFFERENCES.md).
fn quiet(v: &f64) -> f64 {
    if v.is_nan() { f64::from_bits(v.to_bits() | 1 << 51) } else { *v }
}

fn solved(r: &mut Random) -> Shown {
    let n = r.from_to(1, 6);
    let (m, rhs, tol) = system(r, n);
    let rows: Vec<Vec<f64>> = m.chunks(6).take(n).map(|row| row[..n].iter().map(quiet).collect()).collect();
    let rust = plain::calibrate::solve_linear(rows.clone(), rhs[..n].to_vec(), tol);
    counts::take();
    let counted = solve_linear(rows, rhs[..n].to_vec(), tol);
    let updates = counts::take()[5];
    let bits = |x: &Option<Vec<f64>>| x.as_ref().map(|x| x.iter().map(|v| v.to_bits()).collect::<Vec<_>>());
    assert_eq!(bits(&rust), bits(&counted), "the counted copy of the Rust answers otherwise");
    let (ok, x, port) = solution(&m, &rhs, n, tol);
    let found = rust.as_deref().unwrap_or(&[]);
    // Beyond the solution, and where there is none, the port leaves zeros.
    let same = ok == u32::from(rust.is_some())
        && x.iter().zip(found).all(|(a, b)| rule::same_float(*a, *b))
        && x[found.len()..].iter().all(|v| v.to_bits() == 0)
        && port as u64 == updates;
    let wrong = (!same).then(|| format!("system {n} {m:?} {rhs:?} {tol:e}: port {ok} {x:?} updates {port} rust {rust:?} updates {updates}"));
    Shown { some: rust.is_some(), updates, wrong }
}

/// Observations of a cell: a lattice, a smile with noise, any size, or with values that are not finite. Weights at most 1.
fn observations(r: &mut Random) -> Vec<[f64; 3]> {
    let kind = r.below(8);
    let (level, bend) = (r.decades(-4, 0), r.between(-0.5, 3.0));
    let count = if r.once_in(64) { 256 } else { r.from_to(1, 24) };
    let anything = |r: &mut Random, v: f64| if r.once_in(6) { r.special() } else { v };
    (0..count)
        .map(|_| {
            let k = r.between(-1.0, 1.0);
            match kind {
                0..4 => [r.from_to(0, 8) as f64 - 4.0, r.below(5) as f64 * 0.25, r.one_of(&[1.0, 0.5, 0.25])],
                4 | 5 => [k, (level + bend * k * k * r.unit()).max(0.0), r.between(1e-3, 1.0)],
                6 => [k * r.decades(-200, 200), r.decades(-300, 300), r.unit()],
                _ => [anything(r, k), anything(r, level), anything(r, 1.0)],
            }
        })
        .collect()
}

fn cell(r: &mut Random) -> Shown {
    let obs = observations(r);
    let column = |i: usize| obs.iter().map(|o| o[i]).collect::<Vec<f64>>();
    let (k, w, t) = (column(0), column(1), column(2));
    let a_min = r.one_of(&[1e-8, 1e-3, 0.25]);
    let a_max = w.iter().fold(a_min, |a: f64, w| a.max(*w));
    let sigma = r.decades(-4, 2);
    let sigma = r.one_of(&[sigma, sigma, 1.0, 0.5, 1e9, 1e-200]);
    let m = if r.once_in(3) { 0.0 } else { r.between(-2.0, 2.0) };
    let (m, sigma) = if r.once_in(64) { (r.special(), r.special()) } else { (m, sigma) };
    let pivot_tolerance = r.one_of(&[1e-12, 1e-12, 0.25, 1e-3, 0.0, f64::NAN]);
    let feasibility_tolerance = r.one_of(&[1e-12, 1e-12, 0.25, 1e-3, 0.0]);
    let config = FitConfig { a_min, pivot_tolerance, feasibility_tolerance, ..Default::default() };
    let data: Vec<_> = obs.iter().map(|&[k, w, weight]| SliceObservation { k, w, weight }).collect();
    counts::take();
    let rust = inner(&data, m, sigma, a_max, &config);
    let [.., faces, updates] = counts::take();
    let limits = Limits { a_min, a_max, pivot_tolerance, feasibility_tolerance };
    let port = raw::cell(&k, &w, &t, limits, m, sigma);
    let same = (port.faces as u64, port.updates as u64) == (faces, updates)
        && match &rust {
            None => !port.some,
            Some(c) => {
                port.some
                    && rule::same_float(port.objective, c.objective)
                    && port.x.iter().zip(&c.x).all(|(a, b)| rule::same_float(*a, *b))
                    && (0..7).all(|i| port.active[i] == c.active.contains(&i))
            }
        };
    let wrong = (!same).then(|| format!("cell {obs:?} {limits:?} m {m:e} sigma {sigma:e}: port {port:?} rust {rust:?} faces {faces} updates {updates}"));
    Shown { some: rust.is_some(), updates, wrong }
}

/// What only the port can be asked: sizes that it refuses, columns of unequal or too great length.
fn out_of_range() -> usize {
    let sizes = [0, 7, 8, usize::MAX].into_iter().filter(|n| solution(&[1.0; 36], &[1.0; 6], *n, 1e-12) != (0, [0.0; 6], 0));
    let column = [0.0; 257];
    let limits = Limits { a_min: 0.1, a_max: 1.0, pivot_tolerance: 1e-12, feasibility_tolerance: 1e-12 };
    let lengths = [[257; 3], [5, 4, 5], [5, 5, 6]].into_iter().filter(|[k, w, t]| {
        let c = raw::cell(&column[..*k], &column[..*w], &column[..*t], limits, 0.0, 1.0);
        c.some || c.faces != 0 || c.updates != 0
    });
    let (sizes, lengths): (Vec<_>, Vec<_>) = (sizes.collect(), lengths.collect());
    if !sizes.is_empty() || !lengths.is_empty() {
        println!("not refused: systems of sizes {sizes:?}, columns of lengths {lengths:?}");
    }
    sizes.len() + lengths.len()
}

fn main() {
    let stop = |e: String| -> ! { work::usage(&e, HOW) };
    let words = work::Words::read(&["seed", "count", "jobs"], &[]).unwrap_or_else(|e| stop(e));
    let seed = words.number("seed", 1).unwrap_or_else(|e| stop(e));
    let count = words.number("count", 100_000).unwrap_or_else(|e| stop(e)) as usize;
    let jobs = words.number("jobs", work::processors() as u64).unwrap_or_else(|e| stop(e)) as usize;
    if !words.rest.is_empty() {
        stop(format!("what is {}?", words.rest[0]));
    }
    let mut different = out_of_range();
    let mut run = |what: &'static str, count: usize, one: fn(&mut Random) -> Shown| {
        let progress = work::Progress::new(what, count);
        let (mut answered, mut updates, mut most) = (0, 0, 0);
        work::each(count, jobs, |i| one(&mut Random::new(seed, i as u64)), |i, shown| {
            answered += usize::from(shown.some);
            updates += shown.updates;
            most = most.max(shown.updates);
            if let Some(what) = shown.wrong {
                different += 1;
                if different <= 10 {
                    progress.end();
                    println!("seed {seed} number {i}: {what}");
                }
            }
            progress.at(i + 1, "compared");
        });
        progress.end();
        println!("seed {seed}: {count} {what}, {answered} of them with a solution, {updates} entries updated, {most} at most, in {:.0} s", progress.seconds());
    };
    run("systems", count, solved);
    run("cells", count / 10, cell);
    println!("different {different}");
    std::process::exit(i32::from(different > 0));
}
