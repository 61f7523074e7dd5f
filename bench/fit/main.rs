//! Whole fits, single cells of the search and the solver, the port beside the published Rust, which uses the platform's own routines here. See bench/run.

use std::hint::black_box;

/// ln, exp and hypot of the Rust's side: the platform's, as published.
mod elementary {
    #[inline(always)]
    pub fn ln(x: f64) -> f64 {
        x.ln()
    }

    #[inline(always)]
    pub fn exp(x: f64) -> f64 {
        x.exp()
    }

    #[inline(always)]
    pub fn hypot(x: f64, y: f64) -> f64 {
        x.hypot(y)
    }
}

#[path = "../../oracle/src/counts.rs"]
mod counts;
#[path = "../../target/oracle/counted/surface.rs"]
mod counted;
#[path = "../../oracle/src/house.rs"]
mod house;
#[path = "../../target/oracle/plain/surface.rs"]
mod plain;
#[path = "../../target/oracle/started/surface.rs"]
mod started;
#[path = "../../oracle/src/types.rs"]
mod types;

use house::{House, Record, Settings};
use kesupayro::c;
use plain::calibrate::{FitConfig, SliceObservation, inner};
// Of another copy: a second caller in the plain one would change how its cells are compiled.
use started::calibrate::solve_linear;

#[repr(C)]
struct Timespec {
    seconds: i64,
    nanos: i64,
}

unsafe extern "C" {
    fn clock_gettime(clock: i32, now: &mut Timespec) -> i32;
}

/// What callgrind counts: `--toggle-collect=measured_*`.
#[unsafe(no_mangle)]
#[inline(never)]
extern "C" fn measured_rust(h: &House) {
    black_box(house::fit_plain(h.tau, &h.records, h.settings.as_ref()));
}

/// The port reads the file and prints the answer too.
#[unsafe(no_mangle)]
#[inline(never)]
extern "C" fn measured_port(file: &Vec<u8>, out: &mut Vec<u8>) -> usize {
    c::run(file, out)
}

#[unsafe(no_mangle)]
#[inline(never)]
extern "C" fn measured_rust_cell(c: &OneCell) {
    black_box(inner(&c.observations, c.m, c.sigma, c.limits[1], &c.config));
}

#[unsafe(no_mangle)]
#[inline(never)]
extern "C" fn measured_port_cell(one: &OneCell) -> usize {
    let (mut counts, mut values, mut active) = ([0; 2], [0.0; 4], [false; 7]);
    black_box(c::cell(&one.k, &one.w, &one.t, &one.limits, one.m, one.sigma, &mut counts, &mut values, &mut active));
    black_box((values, active));
    counts[0]
}

/// A number from 0 to 1 out of a count, the same on every machine.
fn noise(i: usize) -> f64 {
    let mut z = (i as u64 + 1).wrapping_mul(0x9E37_79B9_7F4A_7C15);
    z = (z ^ (z >> 30)).wrapping_mul(0xBF58_476D_1CE4_E5B9);
    z = (z ^ (z >> 27)).wrapping_mul(0x94D0_49BB_1331_11EB);
    ((z ^ (z >> 31)) >> 11) as f64 / (1u64 << 53) as f64
}

const SIZES: [usize; 4] = [5, 17, 40, 256];
const KINDS: [&str; 3] = ["exact", "noisy", "constrained"];

/// exact: a smile of the family; noisy: the same within one per cent; constrained: quotes that curve down, so that the best point lies on a face.
fn quotes(kind: &str, count: usize) -> Vec<Record> {
    (0..count)
        .map(|i| {
            let k = i as f64 / (count - 1) as f64 - 0.5;
            let x = k - 0.02;
            let smile = 0.01 + 0.1 * (-0.4 * x + (x * x + 0.0225).sqrt());
            let w = match kind {
                "exact" => smile,
                "noisy" => smile * (0.99 + 0.02 * noise(i)),
                _ => 0.04 - 0.02 * k - 0.01 * k * k + 0.0004 * noise(i),
            };
            Record { number: i as u64 + 1, k, w, weight: 1.0 + noise(i + 1000) }
        })
        .collect()
}

fn made(kind: &str, count: usize, settings: Option<Settings>) -> House {
    House { settings, tau: 0.25, records: quotes(kind, count) }
}

/// One cell of the search over these quotes: with the empty face alone ("one"), or with all 64.
struct OneCell {
    observations: Vec<SliceObservation>,
    k: Vec<f64>,
    w: Vec<f64>,
    t: Vec<f64>,
    config: FitConfig,
    /// As `c::cell` lists them; the second is a_max.
    limits: [f64; 4],
    m: f64,
    sigma: f64,
}

fn one_cell(kind: &str, count: usize) -> OneCell {
    let records = quotes(if kind == "one" { "noisy" } else { "constrained" }, count);
    let config = FitConfig::default();
    let column = |f: fn(&Record) -> f64| records.iter().map(f).collect::<Vec<f64>>();
    let (k, w, t) = (column(|r| r.k), column(|r| r.w), column(|r| r.weight / 2.0));
    let a_max = w.iter().copied().fold(config.a_min, f64::max);
    let observations = (0..count).map(|i| SliceObservation::new(k[i], w[i], t[i]).expect("a good quote")).collect();
    let limits = [config.a_min, a_max, config.pivot_tolerance, config.feasibility_tolerance];
    OneCell { observations, k, w, t, config, limits, m: 0.02, sigma: 0.15 }
}

fn median(mut v: Vec<f64>) -> f64 {
    v.sort_by(f64::total_cmp);
    v[v.len() / 2]
}

/// The processor time that this thread has used: what other programs use does not count.
fn used() -> f64 {
    const THREAD: i32 = 3;
    let mut now = Timespec { seconds: 0, nanos: 0 };
    assert_eq!(unsafe { clock_gettime(THREAD, &mut now) }, 0);
    now.seconds as f64 + now.nanos as f64 * 1e-9
}

fn seconds(work: impl FnOnce()) -> f64 {
    let start = used();
    work();
    used() - start
}

/// Medians of both, in turn within each round, and the median of the rounds' ratios.
fn both(rounds: usize, rust: impl Fn(), mut port: impl FnMut()) -> (f64, f64, f64) {
    let (mut r, mut p, mut ratio) = (Vec::new(), Vec::new(), Vec::new());
    for _ in 0..rounds {
        let (a, b) = (seconds(&rust), seconds(&mut port));
        r.push(a);
        p.push(b);
        ratio.push(b / a);
    }
    (median(r), median(p), median(ratio))
}

/// passes, recentres, shrinks, cells, faces and updates, as the port prints them.
fn searched(answer: &[u8]) -> Vec<u64> {
    let text = String::from_utf8_lossy(answer);
    let line = text.lines().find(|l| l.starts_with("search ")).unwrap_or("search 0 0 0 0 0 0");
    line.split(' ').skip(1).map(|v| v.parse().expect("a count")).collect()
}

fn ran(h: &House) -> (Vec<u8>, Vec<u8>) {
    let (file, mut out) = (house::write(h), vec![0; 32 << 10]);
    let size = measured_port(&file, &mut out);
    (file, out[..size].to_vec())
}

fn fits(rounds: usize) {
    println!("{:18}{:>10}{:>10}{:>8}{:>9}{:>9}{:>12}{:>12}{:>12}", "whole fit", "Rust ms", "port ms", "ratio", "cells", "faces", "updates", "cells/s", "faces/s");
    for kind in KINDS {
        for count in SIZES {
            let h = made(kind, count, None);
            let (file, answer) = ran(&h);
            let counts = searched(&answer);
            counts::take();
            house::fit_counted(h.tau, &h.records, None);
            let other = counts::take();
            let mut out = vec![0; 32 << 10];
            let (r, p, ratio) = both(rounds, || measured_rust(&h), || _ = measured_port(&file, &mut out));
            let note = if other[3..5] == counts[3..5] { String::new() } else { format!("  the Rust went another way: {} cells, {} faces", other[3], other[4]) };
            println!(
                "{:18}{:10.2}{:10.2}{ratio:8.2}{:9}{:9}{:12}{:12.0}{:12.0}{note}",
                format!("{kind} {count}"),
                r * 1e3,
                p * 1e3,
                counts[3],
                counts[4],
                counts[5],
                counts[3] as f64 / p,
                counts[4] as f64 / p
            );
        }
    }
}

fn single_cells(rounds: usize) {
    println!("{:18}{:>10}{:>10}{:>8}", "one cell", "Rust us", "port us", "ratio");
    for kind in ["one", "all"] {
        for count in SIZES {
            let c = one_cell(kind, count);
            assert_eq!(measured_port_cell(&c), if kind == "one" { 1 } else { 64 });
            let times = if kind == "one" { 200 } else { 20 };
            let (r, p, ratio) = both(40 * rounds, || (0..times).for_each(|_| measured_rust_cell(&c)), || (0..times).for_each(|_| _ = measured_port_cell(&c)));
            let name = if kind == "one" { format!("1 face, {count}") } else { format!("64 faces, {count}") };
            println!("{name:18}{:10.2}{:10.2}{ratio:8.2}", r * 1e6 / times as f64, p * 1e6 / times as f64);
        }
    }
}

/// Nanoseconds a solve, the least of 400 short rounds. The Rust takes a copy of its matrix, as `inner` makes one for each face; the copy alone is timed too.
fn solves() {
    const SOLVES: usize = 2_000;
    for n in 3..=6 {
        let system = |s: usize| (std::array::from_fn(|i| 2.0 * noise(42 * s + i) - 1.0), std::array::from_fn(|i| 2.0 * noise(42 * s + 36 + i) - 1.0));
        let made: Vec<([f64; 36], [f64; 6])> = (0..256).map(system).collect();
        let vectors: Vec<_> = made.iter().map(|(m, rhs)| (m.chunks(6).take(n).map(|row| row[..n].to_vec()).collect::<Vec<_>>(), rhs[..n].to_vec())).collect();
        let (mut rust, mut bare, mut port) = (f64::MAX, f64::MAX, f64::MAX);
        let nanos = |one: &dyn Fn(usize)| seconds(|| (0..SOLVES).for_each(|i| one(i % 256))) * 1e9 / SOLVES as f64;
        for _ in 0..400 {
            rust = rust.min(nanos(&|i| _ = black_box(solve_linear(black_box(vectors[i].0.clone()), vectors[i].1.clone(), 1e-12))));
            bare = bare.min(nanos(&|i| _ = black_box(vectors[i].clone())));
            port = port.min(nanos(&|i| {
                let (mut x, mut updates) = ([0.0; 6], [0]);
                black_box(c::solve(black_box(&made[i].0), &made[i].1, n, 1e-12, &mut x, &mut updates));
                black_box((x, updates));
            }));
        }
        println!("size {n}: Rust {rust:.0} ns ({bare:.0} of them the copy), port {port:.0} ns, ratio {:.2} (without the copy {:.2})", port / rust, port / (rust - bare));
    }
}

/// One call of one side, for callgrind.
fn once(words: &[String]) {
    let number = |i: usize| words[i].parse::<u64>().expect("a number");
    let count = number(3) as usize;
    if words[0] == "cell" {
        let c = one_cell(&words[2], count);
        match words[1].as_str() {
            "rust" => measured_rust_cell(&c),
            _ => _ = measured_port_cell(&c),
        }
        return;
    }
    let settings = (words.len() > 4).then(|| Settings { grid: number(4), refinements: number(5), max_recentres: number(6), ..Settings::defaults() });
    let h = made(&words[2], count, settings);
    match words[1].as_str() {
        "rust" => measured_rust(&h),
        "port" => println!("{}", searched(&ran(&h).1).iter().map(u64::to_string).collect::<Vec<_>>().join(" ")),
        _ => std::fs::write(&words[1], house::write(&h)).expect("a file that can be written"),
    }
}

fn main() {
    let words: Vec<String> = std::env::args().skip(1).collect();
    let rounds = words.get(1).and_then(|w| w.parse().ok()).unwrap_or(7);
    match words.first().map(String::as_str) {
        Some("fits") => fits(rounds),
        Some("cells") => single_cells(rounds),
        Some("solves") => solves(),
        Some("fit" | "cell") => once(&words),
        _ => std::process::exit(2),
    }
}
