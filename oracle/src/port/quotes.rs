//! The fit of quotes handed over as they are, without a file: every place of the port's answer beside what the Rust says.

use super::{COUNT, FLOAT};
use crate::house::{House, Settings, Told, Verdict};
use crate::rule::{Difference, Kind, same_float};
use kesupayro::c;

/// An answer as the port has it, with the two buffers that it was lent.
struct Rows {
    number: u32,
    counts: [usize; 11],
    values: [f64; 14],
    active: [bool; 7],
    residuals: Vec<f64>,
    capped: Vec<usize>,
}

const COUNTS: [&str; 11] = ["read", "kept", "observed", "required", "passes", "recentres", "shrinks", "cells", "faces", "updates", "capped"];
const VALUES: [&str; 14] = [
    "rmse_vol",
    "max_rmse_vol",
    "tau",
    "a",
    "b",
    "rho",
    "m",
    "sigma",
    "k_range.lo",
    "k_range.hi",
    "objective",
    "objective_params",
    "lee_margin",
    "a_margin",
];

/// Before a call: room for `count` quotes, and a little more.
fn nothing(count: usize) -> Rows {
    Rows {
        number: 0,
        counts: [COUNT; 11],
        values: [FLOAT; 14],
        active: [true; 7],
        residuals: vec![FLOAT; 4 * count + 3],
        capped: vec![COUNT; count + 1],
    }
}

fn settings(settings: Option<&Settings>) -> ([usize; 4], [f64; 7]) {
    let Some(s) = settings else {
        let (mut sizes, mut reals) = ([COUNT; 4], [FLOAT; 7]);
        c::default_config(&mut sizes, &mut reals);
        return (sizes, reals);
    };
    (
        [s.grid, s.refinements, s.max_recentres, s.min_observations].map(|n| n as usize),
        [s.sigma_lo, s.sigma_hi, s.a_min, s.max_rmse_vol, s.pivot_tolerance, s.feasibility_tolerance, s.max_weight_ratio],
    )
}

/// The port on the records of a well-formed file, which are its last bytes.
fn asked(file: &[u8], house: &House) -> Rows {
    let count = house.records.len();
    let (sizes, reals) = settings(house.settings.as_ref());
    let mut r = nothing(count);
    let quotes = &file[file.len() - 32 * count..];
    r.number = c::fit_quotes(
        house.tau,
        &sizes,
        &reals,
        quotes,
        &mut r.residuals,
        &mut r.capped,
        &mut r.counts,
        &mut r.values,
        &mut r.active,
    );
    r
}

/// What the port has to answer where the Rust says this.
fn expected(told: &Told) -> Rows {
    let read = told.house.records.len();
    let mut r = Rows { number: told.verdict.number(), counts: [0; 11], values: [0.0; 14], active: [false; 7], ..nothing(read) };
    (r.counts[0], r.counts[1]) = (read, told.kept);
    r.counts[4..10].iter_mut().zip(told.counts).for_each(|(to, n)| *to = n as usize);
    match &told.verdict {
        Verdict::Accepted(f) => {
            r.counts[10] = f.capped.len();
            r.values[0] = f.margins[4];
            r.values[2..8].copy_from_slice(&f.slice);
            r.values[8..10].copy_from_slice(&f.k_range);
            r.values[10..].copy_from_slice(&f.margins[..4]);
            r.active = f.active;
            r.residuals[..4 * f.points.len()].copy_from_slice(f.points.as_flattened());
            r.capped[..f.capped.len()].copy_from_slice(&f.capped);
        }
        Verdict::TooFew(observed, required) => (r.counts[2], r.counts[3]) = (*observed, *required),
        Verdict::Rmse(rmse, max) => (r.values[0], r.values[1]) = (*rmse, *max),
        Verdict::Refused(_) => {}
    }
    r
}

/// The first place at which two rows differ.
fn unlike<T: std::fmt::Debug>(port: &[T], rust: &[T], same: impl Fn(&T, &T) -> bool, name: impl Fn(usize) -> String) -> Option<String> {
    let at = port.iter().zip(rust).position(|(a, b)| !same(a, b))?;
    Some(format!("quotes, {}: port {:?} rust {:?}", name(at), port[at], rust[at]))
}

/// The first place of the port's answer to the records of a well-formed file that is not what the Rust told.
pub fn difference(file: &[u8], told: &Told) -> Option<Difference> {
    let (port, rust) = (asked(file, &told.house), expected(told));
    let float = |a: &f64, b: &f64| same_float(*a, *b);
    let verdict = || (port.number != rust.number).then(|| format!("quotes, number: port {} rust {}", port.number, rust.number));
    let counts = || unlike(&port.counts, &rust.counts, usize::eq, |i| COUNTS[i].to_string());
    let values = || {
        unlike(&port.values, &rust.values, float, |i| VALUES[i].to_string())
            .or_else(|| unlike(&port.active, &rust.active, bool::eq, |i| format!("active {i}")))
            .or_else(|| unlike(&port.capped, &rust.capped, usize::eq, |i| format!("capped {i}")))
            .or_else(|| unlike(&port.residuals, &rust.residuals, float, |i| format!("residuals {i}")))
    };
    let found = |kind: Kind, first: Option<String>| first.map(|first| Difference { kind, first });
    found(Kind::Verdict, verdict()).or_else(|| found(Kind::Counts, counts())).or_else(|| found(Kind::Values, values()))
}
