// A submission, document 01's checks 1 to 5 of it, and its parts as the source's types.
use crate::fieldlists::{Fields, Rows, are_times, finite, is_degree, is_time, places, rising};
use crate::source::*;

#[derive(Clone, PartialEq)]
pub struct FieldData {
    pub gm: f64,
    pub radius: f64,
    pub c: Vec<f64>,
    pub s: Vec<f64>,
}

impl FieldData {
    /// As a call is lent it.
    pub fn flat(&self) -> Vec<f64> {
        [&[self.gm, self.radius], &self.c[..], &self.s[..]].concat()
    }
}

#[derive(Clone)]
pub struct Submission {
    pub n: usize,
    pub stat: FieldData,
    pub fields: Vec<(f64, FieldData)>, // each added field carries its own GM and radius
    pub states: [Vec<(i64, [f64; 6])>; 2],
    pub acc: [Vec<(i64, f64)>; 2],
    pub nodes: Vec<f64>,
    pub obs: Vec<(f64, f64, u8)>,
}

impl Submission {
    /// The gravity model as a call is lent it.
    pub fn lent_fields(&self) -> Fields {
        Fields::of(self.n, self.stat.flat(), self.fields.iter().map(|f| f.0).collect(), self.fields.iter().flat_map(|f| f.1.flat()).collect())
    }

    /// States of C and D, accelerometer values of C and D, likewise.
    pub fn lent_rows(&self) -> [Rows; 4] {
        let states = |k: usize| Rows { keys: self.states[k].iter().map(|r| r.0).collect(), values: self.states[k].iter().flat_map(|r| r.1).collect(), width: 6 };
        let accs = |k: usize| Rows { keys: self.acc[k].iter().map(|r| r.0).collect(), values: self.acc[k].iter().map(|r| r.1).collect(), width: 1 };
        [states(0), states(1), accs(0), accs(1)]
    }
}

/// Checks 1 to 5 of document 01, lowest number first.
pub fn check(s: &Submission) -> Option<u8> {
    if !is_degree(s.n) { return Some(1); }
    let rows = s.lent_rows();
    if !(2..=32).contains(&s.fields.len()) || s.nodes.len() > 64 || !rows.iter().all(Rows::counted) || s.obs.len() > 100_000 { return Some(2); }
    let l = places(s.n);
    let len = |f: &FieldData| f.c.len() == l && f.s.len() == l;
    if !len(&s.stat) || !s.fields.iter().all(|f| len(&f.1)) { return Some(3); }
    let ok = finite(&s.stat.flat()) && s.fields.iter().all(|f| is_time(f.0) && finite(&f.1.flat())) && rows.iter().all(Rows::fine)
        && are_times(&s.nodes) && s.obs.iter().all(|o| is_time(o.0) && o.1.is_finite());
    if !ok { return Some(4); }
    let fields: Vec<f64> = s.fields.iter().map(|f| f.0).collect();
    let observed: Vec<f64> = s.obs.iter().map(|o| o.0).collect();
    if ![&fields, &s.nodes, &observed].iter().all(|t| rising(t)) || !rows.iter().all(Rows::ordered) { return Some(5); }
    None
}
pub fn coefficients(f: &FieldData, n: usize) -> Coefficients {
    let mut c = Coefficients::zeros(f.gm, f.radius, n);
    c.c.copy_from_slice(&f.c);
    c.s.copy_from_slice(&f.s);
    c
}
pub fn model_of(s: &Submission) -> Model {
    set_nmax(s.n);
    let aod: Vec<(f64, Coefficients)> = s.fields.iter().map(|(t, f)| (*t, coefficients(f, s.n))).collect();
    Model::new(&coefficients(&s.stat, s.n), &aod)
}
pub fn map_states(v: &[(i64, [f64; 6])]) -> States { v.iter().map(|(k, s)| (*k, ([s[0], s[1], s[2]], [s[3], s[4], s[5]]))).collect() }
pub fn map_acc(v: &[(i64, f64)]) -> std::collections::HashMap<i64, f64> { v.iter().copied().collect() }
