//! Range-acceleration residuals of a satellite pair, over the proved static library (`tools/staticlib`).
//!
//! Each function here allocates outputs and scratch, makes one call of [`raw`], and answers what it handed out or why it refused.
//! L is (N + 1)(N + 2)/2 for the degree N. A field is one list of 2 + 2·L numbers: GM, radius, all C, all S, by degree and then order.
//!
//! The processor's floating-point mode stays as Rust starts a thread: round to nearest, no flush of subnormal numbers to zero. C code in the same
//! program that was built with `-ffast-math` may change it, and then refusals and bits are not those promised: a time of −2^-1074 is accepted.
//! Calls have no state, so threads may make them side by side; 32 KB of stack are enough for the library's part of any (18.9 KB were measured).
//! Only the elementary numbers (`root`, `sine`, `cosine`, `arctangent`, `arcsine`, `power`) answer NaN; they refuse nothing.
//!
//! Units: metres, seconds, m/s and m/s²; times are GPS seconds past 2000-01-01 12:00, keys the same as whole seconds; angles are radians.
//! Coefficients are fully normalised, positions and velocities Earth-fixed, and each accelerometer's x axis points towards the other satellite.
//!
//! `examples/first_lines.rs` reads the text of a submission, works out its sheet and prints the first lines of the table. A field's own potential:
//!
//! ```
//! let tables = pozsmeteg::Tables::new(2)?;
//! let mut field = vec![0.0; pozsmeteg::field_length(2)];
//! field[..3].copy_from_slice(&[3.986004415e14, 6378136.3, 1.0]); // GM, radius, C(0, 0): a point mass
//! let found = pozsmeteg::partials(&tables, &field, 7.0e6, 0.5, 1.0)?;
//! assert_eq!(found.v, 3.986004415e14 / 7.0e6);
//! # Ok::<(), pozsmeteg::Refusal>(())
//! ```
#![warn(missing_docs)]

pub mod raw;

pub use raw::{Arc, Keyed, Observations, Pair, Reach, arcsine, arctangent, cosine, root, sine};
use std::fmt;

/// The version of this crate, which is that of the other bindings too; `unknown` where it was built without cargo.
pub const VERSION: &str = match option_env!("CARGO_PKG_VERSION") {
    Some(version) => version,
    None => "unknown",
};

/// Why a call refused: document 01's numbers 1 to 10. Where several causes are met, the lowest number is answered.
#[derive(Clone, Copy, Debug, PartialEq, Eq)]
pub enum Refusal {
    /// The degree is not 2 to 180.
    Degree = 1,
    /// A count is outside its bound.
    Count = 2,
    /// Lengths disagree.
    Length = 3,
    /// An input is not finite, or a time or key is outside its bound.
    Value = 4,
    /// Times or keys do not rise strictly.
    Order = 5,
    /// A time of the arc is not covered by the fields.
    Uncovered = 6,
    /// Fewer states are found than a tenth of the arc's steps.
    FewStates = 7,
    /// There is no state at the arc's start.
    NoFirstState = 8,
    /// Least squares has a pivot below 1e-12.
    Singular = 9,
    /// A number to be handed out is not finite.
    NotFinite = 10,
}

const REFUSALS: [Refusal; 10] = [
    Refusal::Degree, Refusal::Count, Refusal::Length, Refusal::Value, Refusal::Order,
    Refusal::Uncovered, Refusal::FewStates, Refusal::NoFirstState, Refusal::Singular, Refusal::NotFinite,
];

impl Refusal {
    /// The number itself.
    ///
    /// ```
    /// assert_eq!(pozsmeteg::Tables::new(181).unwrap_err().number(), 1);
    /// ```
    pub fn number(self) -> u8 {
        self as u8
    }
}

impl fmt::Display for Refusal {
    fn fmt(&self, to: &mut fmt::Formatter) -> fmt::Result {
        let why = match self {
            Refusal::Degree => "the degree is not 2 to 180",
            Refusal::Count => "a count is outside its bound",
            Refusal::Length => "lengths disagree",
            Refusal::Value => "an input is not finite, or a time or key is outside its bound",
            Refusal::Order => "times or keys do not rise",
            Refusal::Uncovered => "a time is not covered by the fields",
            Refusal::FewStates => "too few states for the arc",
            Refusal::NoFirstState => "no state at the arc's start",
            Refusal::Singular => "least squares has too small a pivot",
            Refusal::NotFinite => "a number to be handed out is not finite",
        };
        write!(to, "refused {}: {why}", self.number())
    }
}

impl std::error::Error for Refusal {}

fn judged(number: u8) -> Result<(), Refusal> {
    match number {
        0 => Ok(()),
        n => Err(REFUSALS[n as usize - 1]),
    }
}

/// a to the n, by halving n.
///
/// ```
/// assert_eq!(pozsmeteg::power(2.0, 10), 1024.0);
/// ```
pub fn power(a: f64, n: u32) -> f64 {
    raw::power(a, n, 1.0)
}

/// L, how many coefficients of one kind a field of the degree has; 0 for a degree beyond 180, which every call refuses.
///
/// ```
/// assert_eq!([2, 180, 181].map(pozsmeteg::places), [6, 16_471, 0]);
/// ```
pub fn places(degree: usize) -> usize {
    if degree > 180 { 0 } else { (degree + 1) * (degree + 2) / 2 }
}

/// How many numbers a field has: GM, radius, all C, all S.
pub fn field_length(degree: usize) -> usize {
    2 + 2 * places(degree)
}

/// The scratch of [`raw::legendre_new`] and [`raw::partials`], and the work slice of [`raw::prepare`], in numbers.
pub fn field_scratch(degree: usize) -> usize {
    8 * places(degree)
}

/// The scratch of [`raw::fit_orbit`] with so many added fields, in numbers. Here and below a count beyond its bound, which every
/// call refuses, counts as the bound.
pub fn fit_scratch(degree: usize, fields: usize) -> usize {
    2 * fields.min(32) * places(degree) + field_scratch(degree) + 150_000
}

/// The scratch of [`raw::residuals`], in numbers.
pub fn residuals_scratch(degree: usize, fields: usize, observations: usize) -> usize {
    fit_scratch(degree, fields) + 10 * observations.min(100_000)
}

/// The scratch of [`raw::sheet`], in numbers.
///
/// ```
/// // a day at degree 180: 20 MB
/// assert_eq!(pozsmeteg::sheet_scratch(180, 32, 17, 43_200), 2_555_112);
/// ```
pub fn sheet_scratch(degree: usize, fields: usize, nodes: usize, observations: usize) -> usize {
    residuals_scratch(degree, fields, observations) + 49_200 * nodes.min(64).saturating_sub(1)
}

/// The scratch of [`raw::detrend`] and [`raw::band_pass`], in numbers.
pub fn column_scratch(times: usize) -> usize {
    8 * times.min(100_000)
}

/// The Legendre recursion's tables of one degree.
#[derive(Clone, Debug, PartialEq)]
pub struct Tables {
    degree: usize,
    a: Vec<f64>,
    b: Vec<f64>,
}

impl Tables {
    /// The tables of a degree from 2 to 180.
    pub fn new(degree: usize) -> Result<Tables, Refusal> {
        let l = places(degree);
        let (mut a, mut b) = (vec![0.0; l], vec![0.0; l]);
        judged(raw::legendre_new(degree, &mut a, &mut b, &mut vec![0.0; field_scratch(degree)]))?;
        Ok(Tables { degree, a, b })
    }

    /// The degree that they are of.
    pub fn degree(&self) -> usize {
        self.degree
    }
}

/// The potential and its derivatives by radius, latitude and longitude.
#[derive(Clone, Copy, Debug, PartialEq)]
pub struct Partials {
    /// The potential, m²/s².
    pub v: f64,
    /// By the radius, m/s².
    pub dr: f64,
    /// By the latitude, m²/s² a radian.
    pub dlat: f64,
    /// By the longitude, m²/s² a radian.
    pub dlon: f64,
}

/// The potential of a field and its derivatives at the radius r (m), latitude and longitude (rad).
pub fn partials(tables: &Tables, field: &[f64], r: f64, lat: f64, lon: f64) -> Result<Partials, Refusal> {
    let mut out = [0.0; 4];
    let mut scratch = vec![0.0; field_scratch(tables.degree)];
    judged(raw::partials(tables.degree, field, &tables.a, &tables.b, r, lat, lon, &mut out, &mut scratch))?;
    let [v, dr, dlat, dlon] = out;
    Ok(Partials { v, dr, dlat, dlon })
}

/// A field for many evaluations at one degree: what they share is worked out once.
pub struct Prepared<'a> {
    tables: &'a Tables,
    gm: f64,
    radius: f64,
    work: Vec<f64>,
}

impl<'a> Prepared<'a> {
    /// A field of the tables' degree.
    pub fn new(tables: &'a Tables, field: &[f64]) -> Result<Prepared<'a>, Refusal> {
        let l = tables.a.len();
        if field.len() != field_length(tables.degree) {
            return Err(Refusal::Length);
        }
        let mut work = vec![0.0; 8 * l];
        work[..2 * l].copy_from_slice(&field[2..]);
        judged(raw::prepare(tables.degree, &mut work))?;
        Ok(Prepared { tables, gm: field[0], radius: field[1], work })
    }

    /// As [`partials`]; a number of the field that is not finite shows in the four, which are then refused.
    pub fn partials(&self, r: f64, lat: f64, lon: f64) -> Result<Partials, Refusal> {
        let mut out = [0.0; 4];
        let Tables { degree, a, b } = self.tables;
        judged(raw::partials_prepared(*degree, self.gm, self.radius, a, b, &self.work, r, lat, lon, &mut out))?;
        let [v, dr, dlat, dlon] = out;
        Ok(Partials { v, dr, dlat, dlon })
    }
}

/// The static field and the added fields, end to end, with their times.
#[derive(Clone, Copy)]
pub struct Model<'a> {
    /// The Legendre tables, whose degree is the model's.
    pub tables: &'a Tables,
    /// The static field.
    pub field: &'a [f64],
    /// The rising times of 2 to 32 added fields.
    pub times: &'a [f64],
    /// The added fields, end to end.
    pub added: &'a [f64],
}

impl<'a> Model<'a> {
    /// The same lists as [`raw`] takes them.
    pub fn lent(&self) -> raw::Model<'a> {
        raw::Model { degree: self.tables.degree, field: self.field, a: &self.tables.a, b: &self.tables.b, times: self.times, added: self.added }
    }

    fn scratch(&self) -> usize {
        fit_scratch(self.tables.degree, self.times.len())
    }
}

/// A fitted orbit: six numbers a step, and the rms of its misfits.
#[derive(Clone, Debug, PartialEq)]
pub struct Orbit {
    /// Position (m) and velocity (m/s) at each step.
    pub states: Vec<[f64; 6]>,
    /// The rms of the misfits, m.
    pub rms: f64,
}

/// A dynamic orbit fitted to the positions of `states` at every fifth of an arc's steps of 2 s.
pub fn fit_orbit(model: &Model, states: Keyed, arc: Arc) -> Result<Orbit, Refusal> {
    let mut out = vec![0.0; 6 * (arc.steps.min(5_302) + 1)];
    let mut rms = [0.0];
    judged(raw::fit_orbit(model.lent(), states, arc, &mut out, &mut rms, &mut vec![0.0; model.scratch()]))?;
    Ok(Orbit { states: out.as_chunks().0.to_vec(), rms: rms[0] })
}

/// One epoch's record.
#[derive(Clone, Copy, Debug, PartialEq)]
pub struct Epoch {
    /// Its time.
    pub t: f64,
    /// The observed range acceleration less the terms, m/s².
    pub residual: f64,
    /// Gravity, tides, rotating frame, accelerometers, velocity: along the line of sight, m/s².
    pub terms: [f64; 5],
    /// The pair's midpoint, m.
    pub mid: [f64; 3],
    /// Its velocity, m/s.
    pub vel: [f64; 3],
}

/// The records of the kept epochs, in the observations' order, from the states as they are given (no orbit is fitted).
pub fn residuals(model: &Model, pair: Pair, seen: Observations) -> Result<Vec<Epoch>, Refusal> {
    let m = seen.times.len();
    let (mut times, mut values) = (vec![0.0; m], vec![0.0; m]);
    let (mut terms, mut mids, mut vels) = (vec![[0.0; 5]; m], vec![[0.0; 3]; m], vec![[0.0; 3]; m]);
    let mut counts = [0];
    let out = raw::Records { times: &mut times, residuals: &mut values, terms: &mut terms, mids: &mut mids, vels: &mut vels };
    judged(raw::residuals(model.lent(), pair, seen, out, &mut counts, &mut vec![0.0; residuals_scratch(model.tables.degree, model.times.len(), m)]))?;
    Ok((0..counts[0]).map(|k| Epoch { t: times[k], residual: values[k], terms: terms[k], mid: mids[k], vel: vels[k] }).collect())
}

/// A revolution: its epochs' places, the end excluded, its first node and its period.
#[derive(Clone, Copy, Debug, PartialEq)]
pub struct Revolution {
    /// The place of its first epoch.
    pub first: usize,
    /// The place behind its last epoch.
    pub end: usize,
    /// Its first node, s.
    pub start: f64,
    /// Its period, s.
    pub period: f64,
}

/// The revolutions between neighbouring nodes that have 50 epochs or more.
///
/// ```
/// let times: Vec<f64> = (0..300).map(|k| 2.0 * k as f64).collect();
/// let found = pozsmeteg::revolutions(&times, &[0.0, 500.0, 590.0])?;
/// assert_eq!((found.len(), found[0].first, found[0].end, found[0].period), (1, 0, 250, 500.0));
/// let flat = pozsmeteg::detrend(&times, &times, &found)?;
/// assert!(flat[..250].iter().all(|v| v.abs() < 1e-9) && flat[250..] == times[250..]);
/// # Ok::<(), pozsmeteg::Refusal>(())
/// ```
pub fn revolutions(times: &[f64], nodes: &[f64]) -> Result<Vec<Revolution>, Refusal> {
    let places = nodes.len().saturating_sub(1);
    let (mut firsts, mut ends, mut starts, mut periods) = (vec![0; places], vec![0; places], vec![0.0; places], vec![0.0; places]);
    let mut counts = [0];
    judged(raw::revolutions(times, nodes, &mut firsts, &mut ends, &mut starts, &mut periods, &mut counts))?;
    Ok((0..counts[0]).map(|k| Revolution { first: firsts[k], end: ends[k], start: starts[k], period: periods[k] }).collect())
}

/// The values less a bias, a trend and the waves of one and two turns of each revolution.
pub fn detrend(times: &[f64], values: &[f64], revolutions: &[Revolution]) -> Result<Vec<f64>, Refusal> {
    let mut out = values.to_vec();
    let firsts: Vec<usize> = revolutions.iter().map(|r| r.first).collect();
    let ends: Vec<usize> = revolutions.iter().map(|r| r.end).collect();
    let starts: Vec<f64> = revolutions.iter().map(|r| r.start).collect();
    let periods: Vec<f64> = revolutions.iter().map(|r| r.period).collect();
    judged(raw::detrend(times, &mut out, &firsts, &ends, &starts, &periods, &mut vec![0.0; column_scratch(times.len())]))?;
    Ok(out)
}

/// Each run of the times (steps of at most 3.0 s) through the band from 1 to 10 mHz; runs of 64 samples or fewer give +0.0.
///
/// ```
/// let times: Vec<f64> = (0..65).map(|k| 2.0 * k as f64).collect();
/// let x: Vec<f64> = times.iter().map(|t| pozsmeteg::sine(0.03 * t)).collect();
/// assert!(pozsmeteg::band_pass(&times, &x)?.iter().any(|v| *v != 0.0));
/// assert_eq!(pozsmeteg::band_pass(&times[1..], &x[1..])?, vec![0.0; 64]);
/// # Ok::<(), pozsmeteg::Refusal>(())
/// ```
pub fn band_pass(times: &[f64], x: &[f64]) -> Result<Vec<f64>, Refusal> {
    let mut out = vec![0.0; times.len()];
    judged(raw::band_pass(times, x, &mut out, &mut vec![0.0; column_scratch(times.len())]))?;
    Ok(out)
}

/// What the whole path publishes of the kept epochs, and how many of them are final.
#[derive(Clone, Debug, PartialEq)]
pub struct Sheet {
    /// The times of the kept epochs.
    pub times: Vec<f64>,
    /// Their residuals, m/s².
    pub raws: Vec<f64>,
    /// These, detrended by revolutions.
    pub detrended: Vec<f64>,
    /// These, passed through the band; +0.0 in runs of 64 epochs or fewer.
    pub passed: Vec<f64>,
    /// How many entries, from the first on, no appended data can change.
    pub final_count: usize,
}

/// The whole path: both satellites fitted between the nodes, residuals, detrending, band-pass, and the final count.
///
/// ```
/// use pozsmeteg::*;
/// let tables = Tables::new(2)?;
/// let (field, keyed) = (vec![0.0; field_length(2)], Keyed { keys: &[0, 1], values: &[0.0; 2] });
/// let model = Model { tables: &tables, field: &field, times: &[0.0, 3600.0], added: &[field.clone(), field.clone()].concat() };
/// let states = Keyed { keys: &[], values: &[] };
/// let pair = Pair { c: states, d: states, c_acc: keyed, d_acc: keyed };
/// let seen = Observations { times: &[0.0, 1.0], values: &[1e-9, 2e-9], good: &[1, 1] };
/// assert!(sheet(&model, pair, &[], seen)?.times.is_empty()); // without nodes no orbit is fitted, and no epoch kept
/// assert_eq!(sheet(&model, pair, &[2.0, 1.0], seen), Err(Refusal::Order));
/// # Ok::<(), Refusal>(())
/// ```
pub fn sheet(model: &Model, pair: Pair, nodes: &[f64], seen: Observations) -> Result<Sheet, Refusal> {
    let m = seen.times.len();
    let [mut times, mut raws, mut detrended, mut passed] = [(); 4].map(|_| vec![0.0; m]);
    let mut counts = [0, 0];
    let out = raw::Published { times: &mut times, raws: &mut raws, detrended: &mut detrended, passed: &mut passed };
    let room = sheet_scratch(model.tables.degree, model.times.len(), nodes.len(), m);
    judged(raw::sheet(model.lent(), pair, nodes, seen, out, &mut counts, &mut vec![0.0; room]))?;
    for list in [&mut times, &mut raws, &mut detrended, &mut passed] {
        list.truncate(counts[0]);
    }
    Ok(Sheet { times, raws, detrended, passed, final_count: counts[1] })
}

/// The largest node that every list reaches far enough beyond (bindings/c/pozsmeteg.h says how far), where there is one.
///
/// ```
/// use pozsmeteg::{Reach, final_count, horizon};
/// let (keys, times) = ([16_804], [16_804.0]);
/// let reach = Reach { nodes: &[10_000.0, 15_000.0], c: &keys, d: &keys, c_acc: &keys, d_acc: &keys, fields: &times, observed: &times };
/// assert_eq!(horizon(reach)?, Some(15_000.0));
/// assert_eq!(final_count(reach, &[1.0, 2.0, 14_998.0])?, 2);
/// assert_eq!(horizon(Reach { c: &[], ..reach })?, None);
/// # Ok::<(), pozsmeteg::Refusal>(())
/// ```
pub fn horizon(reach: Reach) -> Result<Option<f64>, Refusal> {
    let mut out = [0.0];
    judged(raw::horizon(reach, &mut out))?;
    Ok(Some(out[0]).filter(|z| *z >= 0.0))
}

/// F: how many of the kept epochs at these times no appended data can change.
pub fn final_count(reach: Reach, kept: &[f64]) -> Result<usize, Refusal> {
    let mut counts = [0];
    judged(raw::final_count(reach, kept, &mut counts))?;
    Ok(counts[0])
}

/// The first F entries of a published list, none where it has not so many.
///
/// ```
/// assert_eq!(pozsmeteg::final_entries(&[1.0, 2.0, 3.0], 2), &[1.0, 2.0]);
/// ```
pub fn final_entries(list: &[f64], count: usize) -> &[f64] {
    &list[..raw::final_entries(list, count)]
}
