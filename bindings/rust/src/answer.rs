//! What a fit says: the curve and how it was found, or why there is none.

use crate::raw::{FitAnswer, QuotesAnswer};
use crate::{Counts, SviSlice};
use std::fmt;

/// An accepted fit.
#[derive(Debug, Clone, PartialEq)]
#[allow(missing_docs)]
pub struct Fit {
    /// Quotes handed over.
    pub read: usize,
    /// Quotes left once repeats were dropped; points and capped positions count these.
    pub kept: usize,
    /// The curve; its k range is that of the quotes kept.
    pub slice: SviSlice,
    pub counts: Counts,
    pub objective: f64,
    pub objective_params: f64,
    pub lee_margin: f64,
    pub a_margin: f64,
    /// Root mean square residual in volatility.
    pub rmse_vol: f64,
    /// Flat slice, rho = 1, rho = -1, Lee's bound right and left, a at a_min, a at a_max.
    pub active: [bool; 7],
    /// Positions of the quotes whose weight was capped.
    pub capped: Vec<usize>,
    /// One for each quote kept.
    pub points: Vec<Point>,
}

/// A quote kept, and the curve there.
#[derive(Debug, Clone, Copy, PartialEq)]
#[allow(missing_docs)]
pub struct Point {
    pub k: f64,
    pub w: f64,
    /// Total variance of the curve.
    pub fitted: f64,
    /// Quoted minus fitted volatility.
    pub residual: f64,
}

/// Why there is no curve.
#[derive(Debug, Clone, Copy, PartialEq)]
#[allow(missing_docs)]
pub enum Refused {
    /// 1: a setting is out of range.
    Settings,
    /// 2: tau is not finite and above 0.
    Tau,
    /// 3: too few quotes are left once repeats are dropped.
    TooFew { observed: u64, required: u64 },
    /// 4: all quotes at one k, or too far apart to measure.
    NoSpan,
    /// 5: the weights do not scale to numbers above 0.
    Weights,
    /// 6: a pass of the search found nothing to compare.
    NoFace,
    /// 7: the best point is on the edge of the search.
    GridEdge,
    /// 8: the slice found is not one that may be used.
    OutOfDomain,
    /// 9: the quotes lie too far from any curve.
    Rmse { rmse_vol: f64, max_rmse_vol: f64 },
    /// 10: a k, w or weight is not finite, a w below 0, or a weight not above 0.
    BadObservation,
    /// 11: more than 256 quotes, or a setting is too large.
    Size,
    /// 44: one quote number with two contents: k, w or weight differ in a bit.
    TwoContents,
}

impl fmt::Display for Refused {
    fn fmt(&self, f: &mut fmt::Formatter<'_>) -> fmt::Result {
        match self {
            Self::Settings => write!(f, "a setting is out of range"),
            Self::Tau => write!(f, "tau is not a time"),
            Self::TooFew { observed, required } => write!(f, "too few quotes: {observed} left, {required} needed"),
            Self::NoSpan => write!(f, "one strike only"),
            Self::Weights => write!(f, "the weights do not scale"),
            Self::NoFace => write!(f, "no curve at all"),
            Self::GridEdge => write!(f, "the best curve is on the edge of the search"),
            Self::OutOfDomain => write!(f, "the curve found is not a valid slice"),
            Self::Rmse { rmse_vol, max_rmse_vol } => write!(f, "the quotes lie too far from any curve: {rmse_vol} in vol, {max_rmse_vol} allowed"),
            Self::BadObservation => write!(f, "a quote is not usable"),
            Self::Size => write!(f, "more than {} quotes, or a setting is too large", crate::MOST_QUOTES),
            Self::TwoContents => write!(f, "two different quotes have one number: give each its own, and send a quote again only unchanged"),
        }
    }
}

impl std::error::Error for Refused {}

impl Fit {
    /// From an answer and the two buffers that it was lent.
    pub(crate) fn of(answer: QuotesAnswer, residuals: &[f64], capped: &[usize]) -> Result<Self, Refused> {
        let QuotesAnswer { read, kept, fit } = answer;
        if fit.number != 0 {
            return Err(Refused::of(fit));
        }
        Ok(Self {
            read,
            kept,
            slice: fit.slice,
            counts: fit.counts,
            objective: fit.objective,
            objective_params: fit.objective_params,
            lee_margin: fit.lee_margin,
            a_margin: fit.a_margin,
            rmse_vol: fit.rmse_vol,
            active: fit.active,
            capped: capped[..fit.capped].to_vec(),
            points: residuals.chunks_exact(4).take(kept).map(Point::of).collect(),
        })
    }
}

impl Point {
    fn of(four: &[f64]) -> Self {
        Self { k: four[0], w: four[1], fitted: four[2], residual: four[3] }
    }
}

impl Refused {
    /// The refusal of an answer whose number is not 0. 12 cannot come: the buffers that are lent have room for all quotes.
    fn of(fit: FitAnswer) -> Self {
        match fit.number {
            1 => Self::Settings,
            2 => Self::Tau,
            3 => Self::TooFew { observed: fit.observed as u64, required: fit.required as u64 },
            4 => Self::NoSpan,
            5 => Self::Weights,
            6 => Self::NoFace,
            7 => Self::GridEdge,
            8 => Self::OutOfDomain,
            9 => Self::Rmse { rmse_vol: fit.rmse_vol, max_rmse_vol: fit.max_rmse_vol },
            10 => Self::BadObservation,
            11 => Self::Size,
            44 => Self::TwoContents,
            other => panic!("no refusal of quotes has the number {other}"),
        }
    }
}
