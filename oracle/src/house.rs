//! The house file and the printed answer, written from document 01 ("House file and print") with document 02's repeats (M-101) and sixth count (M-102), and the Rust's fit in between.

use crate::counts;
use std::fmt::Write;

/// One record of a house file.
#[derive(Debug, Clone, Copy)]
pub struct Record {
    pub number: u64,
    pub k: f64,
    pub w: f64,
    pub weight: f64,
}

/// `FitConfig`'s eleven values in its order.
#[derive(Debug, Clone, Copy)]
pub struct Settings {
    pub grid: u64,
    pub refinements: u64,
    pub max_recentres: u64,
    pub sigma_lo: f64,
    pub sigma_hi: f64,
    pub a_min: f64,
    pub min_observations: u64,
    pub max_rmse_vol: f64,
    pub pivot_tolerance: f64,
    pub feasibility_tolerance: f64,
    pub max_weight_ratio: f64,
}

/// A well-formed house file; no settings stands for the defaults.
#[derive(Debug, Clone)]
pub struct House {
    pub settings: Option<Settings>,
    pub tau: f64,
    pub records: Vec<Record>,
}

impl Settings {
    /// The eleven values as they stand in a file.
    pub fn words(&self) -> [u64; 11] {
        [
            self.grid,
            self.refinements,
            self.max_recentres,
            self.sigma_lo.to_bits(),
            self.sigma_hi.to_bits(),
            self.a_min.to_bits(),
            self.min_observations,
            self.max_rmse_vol.to_bits(),
            self.pivot_tolerance.to_bits(),
            self.feasibility_tolerance.to_bits(),
            self.max_weight_ratio.to_bits(),
        ]
    }

    pub fn of_words(v: [u64; 11]) -> Self {
        let f = f64::from_bits;
        Self {
            grid: v[0],
            refinements: v[1],
            max_recentres: v[2],
            sigma_lo: f(v[3]),
            sigma_hi: f(v[4]),
            a_min: f(v[5]),
            min_observations: v[6],
            max_rmse_vol: f(v[7]),
            pivot_tolerance: f(v[8]),
            feasibility_tolerance: f(v[9]),
            max_weight_ratio: f(v[10]),
        }
    }

    /// The Rust's own defaults.
    pub fn defaults() -> Self {
        let d = crate::plain::calibrate::FitConfig::default();
        Self {
            grid: d.grid as u64,
            refinements: d.refinements as u64,
            max_recentres: d.max_recentres as u64,
            sigma_lo: d.sigma_lo,
            sigma_hi: d.sigma_hi,
            a_min: d.a_min,
            min_observations: d.min_observations as u64,
            max_rmse_vol: d.max_rmse_vol,
            pivot_tolerance: d.pivot_tolerance,
            feasibility_tolerance: d.feasibility_tolerance,
            max_weight_ratio: d.max_weight_ratio,
        }
    }
}

/// Bytes taken from the front.
struct Bytes<'a>(&'a [u8]);

impl Bytes<'_> {
    fn u32(&mut self) -> Option<u32> {
        let (head, tail) = self.0.split_first_chunk::<4>()?;
        self.0 = tail;
        Some(u32::from_le_bytes(*head))
    }

    fn u64(&mut self) -> Option<u64> {
        let (head, tail) = self.0.split_first_chunk::<8>()?;
        self.0 = tail;
        Some(u64::from_le_bytes(*head))
    }

    fn f64(&mut self) -> Option<f64> {
        self.u64().map(f64::from_bits)
    }
}

/// The file, or nothing where it is malformed (43).
pub fn read(file: &[u8]) -> Option<House> {
    let mut b = Bytes(file);
    let settings = match b.u32()? {
        0 => None,
        1 => {
            let mut v = [0; 11];
            for x in &mut v {
                *x = b.u64()?;
            }
            Some(Settings::of_words(v))
        }
        _ => return None,
    };
    if b.u32()? != 1 {
        return None;
    }
    let tau = b.f64()?;
    let count = b.u32()?;
    if count > 256 {
        return None;
    }
    let mut records = Vec::new();
    for _ in 0..count {
        records.push(Record { number: b.u64()?, k: b.f64()?, w: b.f64()?, weight: b.f64()? });
    }
    b.0.is_empty().then_some(House { settings, tau, records })
}

/// The bytes of a house file.
pub fn write(house: &House) -> Vec<u8> {
    let mut out = Vec::new();
    match &house.settings {
        None => out.extend(0_u32.to_le_bytes()),
        Some(s) => {
            out.extend(1_u32.to_le_bytes());
            s.words().iter().for_each(|v| out.extend(v.to_le_bytes()));
        }
    }
    out.extend(1_u32.to_le_bytes());
    out.extend(house.tau.to_bits().to_le_bytes());
    out.extend((house.records.len() as u32).to_le_bytes());
    for r in &house.records {
        out.extend(r.number.to_le_bytes());
        for x in [r.k, r.w, r.weight] {
            out.extend(x.to_bits().to_le_bytes());
        }
    }
    out
}

/// An accepted fit, of either copy of the Rust.
#[derive(Debug, Clone)]
pub struct Fit {
    /// tau a b rho m sigma
    pub slice: [f64; 6],
    pub k_range: [f64; 2],
    /// objective, objective_params, lee_margin, a_margin, rmse_vol
    pub margins: [f64; 5],
    pub active: [bool; 7],
    pub capped: Vec<usize>,
    /// k, observed w, fitted w, vol residual
    pub points: Vec<[f64; 4]>,
}

/// What the fit answers: accepted, or the documents' number with its two values.
#[derive(Debug, Clone)]
pub enum Verdict {
    Accepted(Box<Fit>),
    Refused(u32),
    /// Number 3.
    TooFew(usize, usize),
    /// Number 9.
    Rmse(f64, f64),
}

impl Verdict {
    /// 0 where accepted.
    pub fn number(&self) -> u32 {
        match self {
            Self::Accepted(_) => 0,
            Self::Refused(n) => *n,
            Self::TooFew(..) => 3,
            Self::Rmse(..) => 9,
        }
    }

    /// Bit for bit the same, but that any NaN equals any NaN.
    pub fn same(&self, other: &Self) -> bool {
        let f = |x: f64| if x.is_nan() { f64::NAN.to_bits() } else { x.to_bits() };
        let v = |s: &[f64]| s.iter().map(|x| f(*x)).collect::<Vec<_>>();
        match (self, other) {
            (Self::Accepted(a), Self::Accepted(b)) => {
                v(&a.slice) == v(&b.slice)
                    && v(&a.k_range) == v(&b.k_range)
                    && v(&a.margins) == v(&b.margins)
                    && a.active == b.active
                    && a.capped == b.capped
                    && v(a.points.as_flattened()) == v(b.points.as_flattened())
            }
            (Self::Refused(a), Self::Refused(b)) => a == b,
            (Self::TooFew(a, b), Self::TooFew(c, d)) => a == c && b == d,
            (Self::Rmse(a, b), Self::Rmse(c, d)) => f(*a) == f(*c) && f(*b) == f(*d),
            _ => false,
        }
    }
}

/// `fit_slice` of one copy of the Rust.
macro_rules! fit_slice_of {
    ($name:ident, $copy:ident) => {
        pub fn $name(tau: f64, records: &[Record], settings: Option<&Settings>) -> Verdict {
            use crate::$copy::calibrate::{ActiveConstraint as A, FitConfig, FitFailure as F, SliceObservation, fit_slice};
            let config = settings.map_or_else(FitConfig::default, |s| FitConfig {
                grid: s.grid as usize,
                refinements: s.refinements as usize,
                max_recentres: s.max_recentres as usize,
                sigma_lo: s.sigma_lo,
                sigma_hi: s.sigma_hi,
                a_min: s.a_min,
                min_observations: s.min_observations as usize,
                max_rmse_vol: s.max_rmse_vol,
                pivot_tolerance: s.pivot_tolerance,
                feasibility_tolerance: s.feasibility_tolerance,
                max_weight_ratio: s.max_weight_ratio,
            });
            let mut observations = Vec::new();
            for r in records {
                match SliceObservation::new(r.k, r.w, r.weight) {
                    Ok(o) => observations.push(o),
                    Err(_) => return Verdict::Refused(10),
                }
            }
            match fit_slice(tau, &observations, &config) {
                Ok(f) => {
                    let s = f.slice;
                    let order = [A::FlatSlice, A::RhoUpper, A::RhoLower, A::LeeUpper, A::LeeLower, A::AMin, A::AMax];
                    Verdict::Accepted(Box::new(Fit {
                        slice: [s.tau(), s.a(), s.b(), s.rho(), s.m(), s.sigma()],
                        k_range: [s.k_range().lo(), s.k_range().hi()],
                        margins: [f.objective, f.objective_params, f.lee_margin, f.a_margin, f.rmse_vol],
                        active: order.map(|c| f.active.contains(&c)),
                        capped: f.capped,
                        points: f.residuals.iter().map(|r| [r.k, r.w_observed, r.w_fitted, r.vol_residual]).collect(),
                    }))
                }
                Err(F::Invalid(why)) if why.starts_with("invalid configuration: svi fit: ") => Verdict::Refused(1),
                Err(F::Invalid(why)) if why.starts_with("tau must be ") => Verdict::Refused(2),
                Err(F::Invalid(why)) if why.starts_with("weights do not scale ") => Verdict::Refused(5),
                Err(F::Invalid(why)) => panic!("the Rust refused with a text that has no number: {why}"),
                Err(F::TooFewObservations { observed, required }) => Verdict::TooFew(observed, required),
                Err(F::NoSpan) => Verdict::Refused(4),
                Err(F::NoFeasibleFace) => Verdict::Refused(6),
                Err(F::GridEdge) => Verdict::Refused(7),
                Err(F::OutOfDomain(_)) => Verdict::Refused(8),
                Err(F::RmseAboveMax { rmse_vol, max }) => Verdict::Rmse(rmse_vol, max),
            }
        }
    };
}

fit_slice_of!(fit_plain, plain);
fit_slice_of!(fit_counted, counted);
fit_slice_of!(fit_started, started);

/// The Rust's whole answer to a file.
#[derive(Debug, Clone)]
pub struct Answer {
    /// The documents' number, 0 where accepted.
    pub number: u32,
    /// As it is printed.
    pub text: String,
    /// What there is to say of a well-formed file.
    pub told: Option<Told>,
}

/// What the Rust says of a well-formed file: the records kept, the verdict on those, and what its search counted.
#[derive(Debug, Clone)]
pub struct Told {
    pub house: House,
    pub kept: usize,
    pub verdict: Verdict,
    pub counts: counts::Counts,
}

/// Check 11 of the program: grid at most 255, refinements and max_recentres at most 1,000 each.
fn over_a_size(settings: &Settings) -> bool {
    settings.grid > 255 || settings.refinements > 1000 || settings.max_recentres > 1000
}

/// Check 10.
fn good(r: &Record) -> bool {
    r.k.is_finite() && r.w.is_finite() && r.w >= 0.0 && r.weight.is_finite() && r.weight > 0.0
}

/// What one quote number stands for: three bit patterns, so that +0 and -0 are two contents.
fn content(r: &Record) -> [u64; 3] {
    [r.k, r.w, r.weight].map(f64::to_bits)
}

/// Check 44: one number stands with two contents, wherever in the file.
fn clash(records: &[Record]) -> bool {
    records.iter().any(|a| records.iter().any(|b| a.number == b.number && content(a) != content(b)))
}

/// The records without those of which an earlier one has the number and the content.
fn without_repeats(records: &[Record]) -> Vec<Record> {
    let mut kept: Vec<Record> = Vec::new();
    for r in records {
        if !kept.iter().any(|q| q.number == r.number && content(q) == content(r)) {
            kept.push(*r);
        }
    }
    kept
}

/// The records that are fitted, or nothing where the quotes clash (44).
pub fn kept(records: &[Record]) -> Option<Vec<Record>> {
    (!clash(records)).then(|| without_repeats(records))
}

fn hex(x: f64) -> String {
    if x.is_nan() { "7ff8000000000000".to_string() } else { format!("{:016x}", x.to_bits()) }
}

fn line(out: &mut String, name: &str, words: impl IntoIterator<Item = String>) {
    out.push_str(name);
    for w in words {
        out.push(' ');
        out.push_str(&w);
    }
    out.push('\n');
}

/// The answer to a house file as document 01 prints it. Panics where the two copies of the Rust differ.
pub fn answer(file: &[u8]) -> Answer {
    answered(file, kept)
}

/// The same with every record weighed as a quote of its own: what the Rust, which has no quote numbers and so no 44, makes of a file that nobody cleaned.
pub fn answer_with_repeats(file: &[u8]) -> Answer {
    answered(file, |records| Some(records.to_vec()))
}

fn answered(file: &[u8], kept: impl Fn(&[Record]) -> Option<Vec<Record>>) -> Answer {
    match read(file).map(|house| told(house, kept)) {
        None => Answer { number: 43, text: "refused 43 0 0\n".to_string(), told: None },
        Some(told) => Answer { number: told.verdict.number(), text: printed(&told), told: Some(told) },
    }
}

fn told(house: House, kept: impl Fn(&[Record]) -> Option<Vec<Record>>) -> Told {
    let early = |number: u32, house: House| Told { kept: house.records.len(), house, verdict: Verdict::Refused(number), counts: [0; 6] };
    if house.settings.as_ref().is_some_and(over_a_size) {
        return early(11, house);
    }
    if !house.records.iter().all(good) {
        return early(10, house);
    }
    let Some(kept) = kept(&house.records) else {
        return early(44, house);
    };
    let plain = fit_plain(house.tau, &kept, house.settings.as_ref());
    counts::take();
    let counted = fit_counted(house.tau, &kept, house.settings.as_ref());
    let counts = counts::take();
    assert!(plain.same(&counted), "the counted copy of the Rust answers otherwise: {plain:?} {counted:?}");
    Told { house, kept: kept.len(), verdict: plain, counts }
}

fn printed(told: &Told) -> String {
    let mut text = String::new();
    let _ = writeln!(text, "read {} kept {}", told.house.records.len(), told.kept);
    let search = |text: &mut String| line(text, "search", told.counts.iter().map(u64::to_string));
    match &told.verdict {
        Verdict::Accepted(f) => {
            line(&mut text, "fit", f.slice.map(hex));
            search(&mut text);
            line(&mut text, "margins", f.margins.map(hex));
            line(&mut text, "active", [f.active.iter().map(|a| if *a { '1' } else { '0' }).collect()]);
            line(&mut text, "capped", std::iter::once(f.capped.len()).chain(f.capped.iter().copied()).map(|n| n.to_string()));
            for p in &f.points {
                line(&mut text, "point", p.map(hex));
            }
        }
        Verdict::TooFew(observed, required) => {
            let _ = writeln!(text, "refused 3 {observed} {required}");
        }
        Verdict::Rmse(rmse, max) => {
            search(&mut text);
            line(&mut text, "refused 9", [hex(*rmse), hex(*max)]);
        }
        Verdict::Refused(n) => {
            if (6..=8).contains(n) {
                search(&mut text);
            }
            let _ = writeln!(text, "refused {n} 0 0");
        }
    }
    text
}
