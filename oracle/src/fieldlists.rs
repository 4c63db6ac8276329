// The gravity model of a call and lists by whole seconds as they are lent, flat (a field is GM, radius, all C, all S), and the tests that several makers share.
use crate::generate::unit;
use crate::source::{Coefficients, Epoch, Inputs, Legendre, Model, Rng, States, idx, set_nmax};

pub const LAST: f64 = 2147483648.0;
pub const LAST_KEY: i64 = 2147483648;

/// In the place of an argument that should be finite.
pub const WILD: [f64; 3] = [f64::NAN, f64::INFINITY, f64::NEG_INFINITY];

pub fn is_degree(n: usize) -> bool {
    (2..=180).contains(&n)
}

pub fn is_time(t: f64) -> bool {
    (0.0..=LAST).contains(&t)
}

pub fn are_times(list: &[f64]) -> bool {
    list.iter().all(|t| is_time(*t))
}

pub fn are_keys(list: &[i64]) -> bool {
    list.iter().all(|k| (0..=LAST_KEY).contains(k))
}

pub fn rising<T: PartialOrd>(list: &[T]) -> bool {
    list.windows(2).all(|w| w[0] < w[1])
}

pub fn finite(list: &[f64]) -> bool {
    list.iter().all(|v| v.is_finite())
}

pub fn places(n: usize) -> usize {
    (n + 1) * (n + 2) / 2
}

/// A copy with a change.
pub fn with<T: Clone>(base: &T, change: impl Fn(&mut T)) -> T {
    let mut out = base.clone();
    change(&mut out);
    out
}

/// A field with random coefficients of at most half the size.
pub fn random_list(random: &mut Rng, n: usize, gm: f64, radius: f64, size: f64) -> Vec<f64> {
    let mut out = vec![gm, radius];
    out.extend((0..2 * places(n)).map(|_| size * (unit(random) - 0.5)));
    out
}

/// So many small fields, each with a GM and a radius of its own.
pub fn random_added(random: &mut Rng, n: usize, count: usize) -> Vec<f64> {
    (0..count).flat_map(|k| random_list(random, n, 3.986_004_418e14 + 1e6 * k as f64, 6_378_136.6 - k as f64, 1e-9)).collect()
}

pub fn coefficients(n: usize, field: &[f64]) -> Coefficients {
    let l = places(n);
    let mut out = Coefficients::zeros(field[0], field[1], n);
    for d in 0..=n {
        for m in 0..=d {
            out.set(d, m, field[2 + idx(d, m)], field[2 + l + idx(d, m)]);
        }
    }
    out
}

/// The gravity model: the static field, the Legendre tables, and the added fields with their times.
#[derive(Clone)]
pub struct Fields {
    pub degree: usize,
    pub field: Vec<f64>,
    pub a: Vec<f64>,
    pub b: Vec<f64>,
    pub times: Vec<f64>,
    pub added: Vec<f64>,
}

impl Fields {
    /// With the tables that the source fills; of a degree that is none, those of the nearest one that is.
    pub fn of(degree: usize, field: Vec<f64>, times: Vec<f64>, added: Vec<f64>) -> Fields {
        let tables = Legendre::new(degree.clamp(2, 180));
        Fields { degree, field, a: tables.a.clone(), b: tables.b.clone(), times, added }
    }

    /// In the order in which every call takes them.
    pub fn parts(&self) -> [&Vec<f64>; 5] {
        [&self.field, &self.a, &self.b, &self.times, &self.added]
    }

    pub fn source(&self) -> Model {
        set_nmax(self.degree);
        let size = 2 + 2 * places(self.degree);
        let added: Vec<(f64, Coefficients)> = self.times.iter().zip(self.added.chunks(size)).map(|(t, f)| (*t, coefficients(self.degree, f))).collect();
        Model::new(&coefficients(self.degree, &self.field), &added)
    }

    /// The scratch of a model call, beside which the others count their own; of counts out of bounds any.
    pub fn least_scratch(&self) -> usize {
        let l = places(self.degree.min(180));
        2 * self.times.len().min(32) * l + 8 * l + 150_000
    }

    // The tests 1 to 5 of these arguments.
    pub fn degree_fine(&self) -> bool {
        is_degree(self.degree)
    }

    pub fn counted(&self) -> bool {
        (2..=32).contains(&self.times.len())
    }

    pub fn fits(&self) -> bool {
        let l = places(self.degree);
        self.field.len() == 2 + 2 * l && self.a.len() == l && self.b.len() == l && self.added.len() == self.times.len() * (2 + 2 * l)
    }

    pub fn fine(&self) -> bool {
        finite(&self.field) && finite(&self.a) && finite(&self.b) && finite(&self.added) && are_times(&self.times)
    }

    pub fn ordered(&self) -> bool {
        rising(&self.times)
    }
}

/// Values beside their whole seconds, so many a second.
#[derive(Clone)]
pub struct Rows {
    pub keys: Vec<i64>,
    pub values: Vec<f64>,
    pub width: usize,
}

impl Rows {
    pub fn states(&self) -> States {
        self.keys.iter().zip(self.values.chunks(6)).map(|(k, s)| (*k, ([s[0], s[1], s[2]], [s[3], s[4], s[5]]))).collect()
    }

    pub fn numbers(&self) -> std::collections::HashMap<i64, f64> {
        self.keys.iter().copied().zip(self.values.iter().copied()).collect()
    }

    // The tests 2 to 5.
    pub fn counted(&self) -> bool {
        self.keys.len() <= 200_000
    }

    pub fn fits(&self) -> bool {
        self.values.len() == self.width * self.keys.len()
    }

    pub fn fine(&self) -> bool {
        finite(&self.values) && are_keys(&self.keys)
    }

    pub fn ordered(&self) -> bool {
        rising(&self.keys)
    }

    /// Without the entry k.
    pub fn drop_entry(&mut self, k: usize) {
        self.keys.remove(k);
        self.values.drain(k * self.width..(k + 1) * self.width);
    }
}

/// What the calls of module 5 are lent.
#[derive(Clone)]
pub struct Observing {
    pub fields: Fields,
    // states of C and D, accelerometer values of C and D
    pub rows: [Rows; 4],
    pub obs: Vec<f64>,
    pub values: Vec<f64>,
    pub good: Vec<u8>,
    // lengths of the five outputs
    pub outs: [usize; 5],
    pub scratch: usize,
}

impl Observing {
    /// Causes 1 to 5, in order; of one epoch, or of all.
    pub fn refusal(&self, all: bool) -> u8 {
        let (fields, m) = (&self.fields, if all { self.obs.len() } else { 0 });
        if !fields.degree_fine() { return 1; }
        if !fields.counted() || !self.rows.iter().all(Rows::counted) || m > 100_000 { return 2; }
        let observed = self.values.len() == m && self.good.len() == m && self.outs == [m; 5];
        if !fields.fits() || !self.rows.iter().all(Rows::fits) || self.scratch < fields.least_scratch() + 10 * m || all && !observed { return 3; }
        if !fields.fine() || !self.rows.iter().all(Rows::fine) || !finite(&self.values) || !are_times(&self.obs) { return 4; }
        if !fields.ordered() || !self.rows.iter().all(Rows::ordered) || all && !rising(&self.obs) { return 5; }
        0
    }

    /// Records by the source.
    pub fn records(&self, work: impl Fn(&Inputs) -> Vec<Epoch>) -> Vec<Epoch> {
        let model = self.fields.source();
        let [c, d, ca, da] = &self.rows;
        work(&Inputs { model: &model, c: &c.states(), d: &d.states(), c_acc: &ca.numbers(), d_acc: &da.numbers() })
    }

    /// The observations as the source takes them.
    pub fn observations(&self) -> Vec<(f64, f64, bool)> {
        (0..self.obs.len()).map(|i| (self.obs[i], self.values[i], self.good[i] != 0)).collect()
    }
}

pub fn record_fine(e: &Epoch) -> bool {
    finite(&[e.t, e.residual]) && finite(&e.terms) && finite(&e.mid) && finite(&e.vel)
}
