//! Two ways to one answer: quotes handed over as they are, and the same quotes as a house file, whose answer is printed. Every number is compared.

use kesupayro::raw::{self, FitAnswer, QuotesAnswer};
use kesupayro::{answer, fit, Counts, Fit, FitConfig, Quote, Refused};
use std::path::Path;

/// Takes bytes from the front.
struct Bytes<'a>(&'a [u8]);

impl Bytes<'_> {
    fn take<const N: usize>(&mut self) -> [u8; N] {
        let (head, tail) = self.0.split_at(N);
        self.0 = tail;
        head.try_into().unwrap()
    }

    fn count(&mut self) -> u32 {
        u32::from_le_bytes(self.take())
    }

    fn size(&mut self) -> usize {
        u64::from_le_bytes(self.take()) as usize
    }

    fn float(&mut self) -> f64 {
        f64::from_le_bytes(self.take())
    }
}

/// Settings, tau and quotes of a well-formed house file.
fn read(file: &[u8]) -> (Option<FitConfig>, f64, Vec<Quote>) {
    let b = &mut Bytes(file);
    let settings = (b.count() == 1).then(|| FitConfig {
        grid: b.size(),
        refinements: b.size(),
        max_recentres: b.size(),
        sigma_lo: b.float(),
        sigma_hi: b.float(),
        a_min: b.float(),
        min_observations: b.size(),
        max_rmse_vol: b.float(),
        pivot_tolerance: b.float(),
        feasibility_tolerance: b.float(),
        max_weight_ratio: b.float(),
    });
    assert_eq!(b.count(), 1);
    let tau = b.float();
    let quotes = (0..b.count()).map(|_| Quote { number: b.size() as u64, k: b.float(), w: b.float(), weight: b.float() }).collect();
    (settings, tau, quotes)
}

fn hex(x: f64) -> String {
    if x.is_nan() {
        "7ff8000000000000".to_string()
    } else {
        format!("{:016x}", x.to_bits())
    }
}

fn line(name: &str, words: impl IntoIterator<Item = String>) -> String {
    std::iter::once(name.to_string()).chain(words).collect::<Vec<_>>().join(" ") + "\n"
}

/// What the search did, as the program prints it.
fn search(c: Counts) -> String {
    line("search", [c.passes, c.recentres, c.shrinks, c.cells, c.faces, c.updates].map(|n| n.to_string()))
}

/// What `fit` says of an accepted file, as the program prints it.
fn accepted(f: &Fit) -> String {
    let s = f.slice;
    let digits = f.active.iter().map(|on| if *on { '1' } else { '0' }).collect();
    let mut text = format!("read {} kept {}\n", f.read, f.kept);
    text += &line("fit", [s.tau, s.a, s.b, s.rho, s.m, s.sigma].map(hex));
    text += &search(f.counts);
    text += &line("margins", [f.objective, f.objective_params, f.lee_margin, f.a_margin, f.rmse_vol].map(hex));
    text += &line("active", [digits]);
    text += &line("capped", std::iter::once(f.capped.len()).chain(f.capped.iter().copied()).map(|n| n.to_string()));
    for p in &f.points {
        text += &line("point", [p.k, p.w, p.fitted, p.residual].map(hex));
    }
    text
}

/// The same of a refusal, for which what is read, kept and searched comes from the raw answer.
fn refused(why: Refused, raw: &QuotesAnswer) -> String {
    let mut text = format!("read {} kept {}\n", raw.read, raw.kept);
    let (number, values) = match why {
        Refused::Settings => (1, None),
        Refused::Tau => (2, None),
        Refused::TooFew { observed, required } => (3, Some([observed.to_string(), required.to_string()])),
        Refused::NoSpan => (4, None),
        Refused::Weights => (5, None),
        Refused::NoFace => (6, None),
        Refused::GridEdge => (7, None),
        Refused::OutOfDomain => (8, None),
        Refused::Rmse { rmse_vol, max_rmse_vol } => (9, Some([rmse_vol, max_rmse_vol].map(hex))),
        Refused::BadObservation => (10, None),
        Refused::Size => (11, None),
        Refused::TwoContents => (44, None),
    };
    assert_eq!(number, raw.fit.number);
    if (6..=9).contains(&number) {
        text += &search(raw.fit.counts);
    }
    let [x, y] = values.unwrap_or(["0", "0"].map(String::from));
    text + &format!("refused {number} {x} {y}\n")
}

/// A refusal's answer has its number, what belongs to that, and nothing else.
fn nothing_else(mut a: FitAnswer) -> bool {
    match a.number {
        3 => (a.observed, a.required) = (0, 0),
        9 => (a.rmse_vol, a.max_rmse_vol) = (0.0, 0.0),
        _ => {}
    }
    if (6..=9).contains(&a.number) {
        a.counts = Default::default();
    }
    a == FitAnswer { number: a.number, ..Default::default() }
}

/// Both ways on one file; the number of the answer.
fn same(path: &Path) -> u32 {
    let file = std::fs::read(path).unwrap();
    let text = answer(&file);
    if text == "refused 43 0 0\n" {
        return 43;
    }
    let (settings, tau, quotes) = read(&file);
    let (mut residuals, mut capped) = (vec![-7.0; 4 * quotes.len()], vec![77; quotes.len()]);
    let raw = raw::fit_quotes(tau, settings.unwrap_or_default(), &quotes, &mut residuals, &mut capped);
    match fit(tau, settings.as_ref(), &quotes) {
        Ok(f) => {
            assert_eq!(accepted(&f), text, "{}", path.display());
            let ks = f.points.iter().map(|p| p.k);
            let ends = (ks.clone().fold(f64::INFINITY, f64::min), ks.fold(f64::NEG_INFINITY, f64::max));
            assert_eq!((f.slice.k_range.lo, f.slice.k_range.hi), ends);
            assert!(residuals[4 * f.kept..].iter().all(|x| *x == -7.0) && capped[f.capped.len()..].iter().all(|n| *n == 77));
        }
        Err(why) => {
            assert_eq!(refused(why, &raw), text, "{}", path.display());
            assert!(nothing_else(raw.fit), "{}: {raw:?}", path.display());
            assert!(residuals.iter().all(|x| *x == -7.0) && capped.iter().all(|n| *n == 77));
        }
    }
    // What every search costs at most: 3,438 a cell, where all faces are tried.
    assert!(raw.fit.counts.updates <= 3438 * raw.fit.counts.cells, "{}: {:?}", path.display(), raw.fit.counts);
    raw.fit.number
}

#[test]
fn quotes_and_file_have_one_answer() {
    let root = Path::new(env!("CARGO_MANIFEST_DIR")).join("../..");
    let mut numbers = std::collections::BTreeSet::new();
    for folder in ["samples", "crates/vectors/data"] {
        let files = std::fs::read_dir(root.join(folder)).unwrap().map(|entry| entry.unwrap().path());
        numbers.extend(files.filter(|path| path.extension().is_some_and(|x| x == "house")).map(|path| same(&path)));
    }
    assert_eq!(numbers.into_iter().collect::<Vec<_>>(), [0, 1, 2, 3, 4, 5, 6, 7, 8, 9, 10, 11, 43, 44]);
}
