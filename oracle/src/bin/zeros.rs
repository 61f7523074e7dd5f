//! Where the sign of a zero shows: float sums that start at -0 in this Rust, and its min and max.

use oracle::random::Random;
use oracle::{house, made, plain, started, work};

const HOW: &str = "oracle/zeros [--count N]   where the Rust's sums from -0 and its min and max show a zero's sign";

fn hex(x: f64) -> String {
    format!("{:016x}", x.to_bits())
}

fn bits(v: &[f64]) -> Vec<u64> {
    v.iter().map(|x| x.to_bits()).collect()
}

/// Every system of `n` unknowns with entries of a small set, until the solutions' bits differ.
fn smallest_system(n: usize) -> Option<String> {
    let entries = [0.0, 1.0, -1.0, -0.0];
    let places = n * n + n;
    for code in 0..entries.len().pow(places as u32) {
        let v: Vec<f64> = (0..places).map(|i| entries[code / entries.len().pow(i as u32) % entries.len()]).collect();
        let m: Vec<Vec<f64>> = v[..n * n].chunks(n).map(<[f64]>::to_vec).collect();
        let rhs = v[n * n..].to_vec();
        let a = plain::calibrate::solve_linear(m.clone(), rhs.clone(), 1e-12);
        let b = started::calibrate::solve_linear(m.clone(), rhs.clone(), 1e-12);
        if a.as_deref().map(bits) != b.as_deref().map(bits) {
            let show = |x: Option<Vec<f64>>| x.map_or("none".to_string(), |x| x.iter().map(|x| hex(*x)).collect::<Vec<_>>().join(" "));
            return Some(format!("matrix {m:?}, right side {rhs:?}: sums from -0 give {}, from +0 {}", show(a), show(b)));
        }
    }
    None
}

/// Random cells whose numbers are small and whole, half of them zeros of either sign.
fn cells(count: u64) -> (u64, u64) {
    let (mut found, mut differ) = (0, 0);
    let r = &mut Random::new(7, 0);
    for _ in 0..count {
        let n = r.from_to(1, 5);
        let raw: Vec<[f64; 3]> = (0..n)
            .map(|_| [r.one_of(&[0.0, -0.0, 1.0, -1.0, 2.0]), r.one_of(&[0.0, -0.0, 0.0, 1.0, 2.0]), r.one_of(&[1.0, 2.0, 5e-324])])
            .collect();
        let (m, sigma) = (r.one_of(&[0.0, -0.0, 1.0, -1.0, 0.5]), r.one_of(&[1.0, 0.5, 1e-300, 1e9]));
        let a_max = raw.iter().fold(1e-8, |a: f64, o| a.max(o[1]));
        let p: Vec<_> = raw.iter().map(|o| plain::calibrate::SliceObservation::new(o[0], o[1], o[2]).expect("good")).collect();
        let s: Vec<_> = raw.iter().map(|o| started::calibrate::SliceObservation::new(o[0], o[1], o[2]).expect("good")).collect();
        let a = plain::calibrate::inner(&p, m, sigma, a_max, &Default::default());
        let b = started::calibrate::inner(&s, m, sigma, a_max, &Default::default());
        let a = a.map(|a| (bits(&a.x), a.objective.to_bits(), a.active));
        let b = b.map(|b| (bits(&b.x), b.objective.to_bits(), b.active));
        found += u64::from(a.is_some());
        if a != b {
            differ += 1;
            if differ == 1 {
                println!("  first: observations {raw:?}, m {m}, sigma {sigma}: {a:x?} {b:x?}");
            }
        }
    }
    (found, differ)
}

fn main() {
    let words = work::Words::read(&["count"], &[]).unwrap_or_else(|e| work::usage(&e, HOW));
    let count = words.number("count", 100_000).unwrap_or_else(|e| work::usage(&e, HOW));

    println!("1. The sum of no floats is {} in this Rust.", hex(Vec::<f64>::new().iter().sum()));
    println!("2. The smallest systems of which a zero's sign depends on it:");
    for n in 1..=2 {
        println!("  {n} unknown(s): {}", smallest_system(n).unwrap_or_else(|| "none".to_string()));
    }
    let unit: Vec<Vec<f64>> = (0..3).map(|i| (0..3).map(|j| f64::from(u8::from(i == j))).collect()).collect();
    let rhs = vec![1.0, 1.0, -0.0];
    let show = |x: Option<Vec<f64>>| x.map_or("none".to_string(), |x| x.iter().map(|x| hex(*x)).collect::<Vec<_>>().join(" "));
    println!(
        "  3 unknowns: matrix {unit:?}, right side {rhs:?}: sums from -0 give {}, from +0 {}",
        show(plain::calibrate::solve_linear(unit.clone(), rhs.clone(), 1e-12)),
        show(started::calibrate::solve_linear(unit.clone(), rhs.clone(), 1e-12))
    );
    println!("3. Cells of whole numbers and zeros of either sign:");
    let (found, differ) = cells(count);
    println!("  {count} cells, {found} with a qualifying face: {differ} differ in a bit");

    println!("4. min and max of two zeros in this Rust (first argument, second argument):");
    for (a, b) in [(0.0_f64, -0.0_f64), (-0.0, 0.0)] {
        let (a, b) = (std::hint::black_box(a), std::hint::black_box(b));
        println!("  {} {}: min {} max {}", hex(a), hex(b), hex(a.min(b)), hex(a.max(b)));
    }
    println!("5. The fitted slice's k range where the lowest or the highest k is a zero of both signs:");
    let t = |k: f64, w: f64| house::Record { number: 0, k, w, weight: 1.0 };
    for (name, end) in [("lowest", 1.0), ("highest", -1.0)] {
        for first in [0.0, -0.0] {
            let ks = [first, -first, 0.25 * end, 0.5 * end, 0.75 * end, end];
            let w = |k: f64| 0.04 + 0.1 * ((k - 0.4 * end) * (k - 0.4 * end) + 0.01).sqrt();
            let records: Vec<_> = ks.iter().map(|k| t(*k, w(*k))).collect();
            if let house::Verdict::Accepted(f) = house::fit_plain(0.5, &records, None) {
                println!("  {name} k {} then {}: k range {} {} (not printed by the program)", hex(first), hex(-first), hex(f.k_range[0]), hex(f.k_range[1]));
            } else {
                println!("  {name} k {}: refused", hex(first));
            }
        }
    }
    println!("6. Whole fits, sums from -0 against sums from +0:");
    let (mut files, mut fits, mut differ) = (0, 0, 0);
    for i in 0..count / 200 {
        let (class, bytes) = made::file(11, i, None);
        let Some(h) = house::read(&bytes).filter(|_| class != "default" && class != "damaged") else { continue };
        let Some(kept) = house::kept(&h.records) else { continue };
        if h.settings.is_some_and(|s| s.grid > 9 || s.refinements > 1000 || s.max_recentres > 1000) {
            continue;
        }
        let (a, b) = (house::fit_plain(h.tau, &kept, h.settings.as_ref()), house::fit_started(h.tau, &kept, h.settings.as_ref()));
        files += 1;
        fits += u32::from(a.number() == 0);
        differ += u32::from(!a.same(&b));
    }
    println!("  {files} generated files, {fits} accepted: {differ} differ in a bit");
}
