//! When two printed answers are the same: document 01's rule, "bit for bit, but any NaN equals any NaN and +0 equals -0".

/// How two answers compare.
#[derive(Debug, Clone, PartialEq)]
pub enum Outcome {
    /// The same bytes.
    Same,
    /// The same but for signs of zeros (or NaNs printed in other words).
    SameButZeros,
    Different(Difference),
}

/// What differs: the kind for counting, and the first differing value in words.
#[derive(Debug, Clone, PartialEq)]
pub struct Difference {
    pub kind: Kind,
    pub first: String,
}

#[derive(Debug, Clone, Copy, PartialEq, Eq, PartialOrd, Ord)]
pub enum Kind {
    /// Accepted here and refused there, or another number.
    Verdict,
    /// The same verdict, other counts: the search took another way.
    Counts,
    /// The same verdict and counts, another float or position.
    Values,
    /// Not lines as document 01 prints them.
    Form,
}

impl Kind {
    pub fn words(self) -> &'static str {
        match self {
            Self::Verdict => "verdict differs",
            Self::Counts => "counts differ",
            Self::Values => "values differ",
            Self::Form => "form differs",
        }
    }
}

/// Whether two floats are the same by document 01's rule.
pub fn same_float(a: f64, b: f64) -> bool {
    a == b || (a.is_nan() && b.is_nan())
}

const FIT: &[&str] = &["tau", "a", "b", "rho", "m", "sigma"];
const SEARCH: &[&str] = &["passes", "recentres", "shrinks", "cells", "faces", "updates"];
const MARGINS: &[&str] = &["objective", "objective_params", "lee_margin", "a_margin", "rmse_vol"];
const POINT: &[&str] = &["k", "observed w", "fitted w", "vol residual"];

/// A word of 16 hex digits where document 01 prints a float.
fn float_at(line: &str, number: &str, at: usize, word: &str) -> Option<f64> {
    let float = matches!(line, "fit" | "margins" | "point") || (line == "refused" && number == "9" && at > 1);
    let hex = word.len() == 16 && word.bytes().all(|b| b.is_ascii_digit() || (b'a'..=b'f').contains(&b));
    (float && at > 0 && hex).then(|| f64::from_bits(u64::from_str_radix(word, 16).expect("16 hex digits")))
}

fn place(line: &str, row: usize, at: usize) -> String {
    let name = |names: &[&str]| names.get(at.wrapping_sub(1)).map_or("too many words".to_string(), |s| (*s).to_string());
    match line {
        "read" => format!("read {}", if at == 1 { "records" } else { "kept" }),
        "fit" => format!("fit {}", name(FIT)),
        "search" => format!("search {}", name(SEARCH)),
        "margins" => format!("margins {}", name(MARGINS)),
        "point" => format!("point {row} {}", name(POINT)),
        "refused" => format!("refused {}", name(&["number", "first value", "second value"])),
        "active" => "active".to_string(),
        "capped" if at == 1 => "capped count".to_string(),
        "capped" => format!("capped position {}", at - 2),
        _ => line.to_string(),
    }
}

/// The number an answer refuses with, 0 where it is accepted, nothing where it is no answer.
pub fn number(text: &str) -> Option<u32> {
    let last = text.lines().last()?;
    match text.lines().find_map(|l| l.strip_prefix("refused ")) {
        Some(rest) => rest.split(' ').next()?.parse().ok(),
        None => (last.starts_with("point ") || last.starts_with("capped ")).then_some(0),
    }
}

fn part<'a>(text: &'a str, name: &str) -> Option<&'a str> {
    text.lines().find(|l| l.split(' ').next() == Some(name))
}

/// Compares the port's answer with the Rust's.
pub fn compare(port: &[u8], rust: &[u8]) -> Outcome {
    if port == rust {
        return Outcome::Same;
    }
    let (Ok(p), Ok(r)) = (std::str::from_utf8(port), std::str::from_utf8(rust)) else {
        return Outcome::Different(Difference { kind: Kind::Form, first: "the answer is not text".to_string() });
    };
    let Some(first) = first_difference(p, r) else { return Outcome::SameButZeros };
    let kind = if number(p).is_none() || number(r).is_none() {
        Kind::Form
    } else if number(p) != number(r) {
        Kind::Verdict
    } else if part(p, "search") != part(r, "search") {
        Kind::Counts
    } else {
        Kind::Values
    };
    Outcome::Different(Difference { kind, first })
}

fn first_difference(port: &str, rust: &str) -> Option<String> {
    let (mut ps, mut rs) = (port.split('\n'), rust.split('\n'));
    let mut row = 0;
    loop {
        let (p, r) = match (ps.next(), rs.next()) {
            (None, None) => return None,
            (Some(p), Some(r)) => (p, r),
            (Some(p), None) => return Some(format!("the port prints a line more: {p:?}")),
            (None, Some(r)) => return Some(format!("the port prints a line less: {r:?}")),
        };
        let (pw, rw): (Vec<&str>, Vec<&str>) = (p.split(' ').collect(), r.split(' ').collect());
        let line = rw[0];
        if pw[0] != line {
            return Some(format!("line: port {p:?} rust {r:?}"));
        }
        for at in 1..pw.len().max(rw.len()) {
            let (a, b) = (pw.get(at).copied().unwrap_or("nothing"), rw.get(at).copied().unwrap_or("nothing"));
            if a == b {
                continue;
            }
            match (float_at(line, rw[1], at, a), float_at(line, rw[1], at, b)) {
                (Some(x), Some(y)) if same_float(x, y) => {}
                (Some(x), Some(y)) => return Some(format!("{}: port {a} ({x:e}) rust {b} ({y:e})", place(line, row, at))),
                _ => return Some(format!("{}: port {a} rust {b}", place(line, row, at))),
            }
        }
        if line == "point" {
            row += 1;
        }
    }
}
