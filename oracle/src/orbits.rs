// Least squares, single fits and fitted windows of module 4. Answers by the source's `ols`, `fit_orbit` and `fitted_orbits`; refusals by document 01's table.
// Outputs stand at 3.0, keys at 3, and scratch at 7.0 before a call: all unchanged after refusals 1 to 5, +0.0 after 6 to 10; scratch is +0.0 after a fit as well.
use crate::generate::{gauss, random_fields, rk1, unit};
use crate::fieldlists::{Fields, LAST, Rows, WILD, are_times, finite, is_time, rising, with};
use crate::list::{List, step};
use crate::source::*;
use crate::whole::single_fit;
use std::f64::consts::PI;

const OLS: u64 = 0;
const FIT: u64 = 1;
const ORBITS: u64 = 2;

fn kept(values: &[f64], bits: u64) -> u64 {
    let all = |w: u64| values.iter().all(|v| v.to_bits() == w);
    if all(0) { 0 } else if all(bits) { 1 } else { 2 }
}

fn tell_output(list: &mut List, values: &[f64], between: usize) {
    list.tell(kept(values, 3.0f64.to_bits()));
    list.tell(values.iter().fold(0u64, |sum, v| sum.wrapping_add(v.to_bits())));
    values.iter().step_by(between + 1).for_each(|v| list.tell_float(*v));
}

#[derive(Clone)]
struct Design {
    rows: Vec<f64>,
    y: Vec<f64>,
    columns: usize,
    beta: usize,
    residuals: usize,
}

fn rows(columns: usize, rows: &[f64], y: &[f64]) -> Design {
    Design { rows: rows.to_vec(), y: y.to_vec(), columns, beta: columns, residuals: y.len() }
}

impl Design {
    fn answer(&self) -> std::result::Result<(Vec<f64>, Vec<f64>), u8> {
        if !(1..=15).contains(&self.columns) || !(1..=100_000).contains(&self.y.len()) { return Err(2); }
        if self.rows.len() != self.y.len() * self.columns || self.beta != self.columns || self.residuals != self.y.len() { return Err(3); }
        if !finite(&self.rows) || !finite(&self.y) { return Err(4); }
        let x: Vec<Vec<f64>> = self.rows.chunks(self.columns).map(|row| row.to_vec()).collect();
        let (beta, residuals) = shared::ols(&x, &self.y).map_err(|_| 9u8)?;
        if finite(&beta) && finite(&residuals) { Ok((beta, residuals)) } else { Err(10) }
    }

    fn call(&self, list: &mut List) {
        let between = self.y.len() / 60;
        list.call(OLS);
        list.ask_slice(&self.rows);
        list.ask_slice(&self.y);
        list.ask_counts(&[self.columns, self.beta, self.residuals, between]);
        let (number, (beta, residuals)) = match self.answer() {
            Ok(both) => (0, both),
            Err(n) => {
                let stands = if n < 6 { 3.0 } else { 0.0 };
                (n, (vec![stands; self.beta], vec![stands; self.residuals]))
            }
        };
        list.tell(number as u64);
        tell_output(list, &beta, 0);
        tell_output(list, &residuals, between);
    }
}

fn least_squares(list: &mut List, r: &mut Rng) {
    rows(1, &[1.0, 1.0], &[2.0, 4.0]).call(list);
    for p in 1..=15 {
        for n in [p, p + 1, 2 * p + 3] {
            let x: Vec<f64> = (0..n * p).map(|_| gauss(r)).collect();
            let y: Vec<f64> = (0..n).map(|_| 10.0 * gauss(r)).collect();
            rows(p, &x, &y).call(list);
        }
    }
    // small whole numbers: many pivots of equal magnitude, and singular ones
    for p in 2..=9 {
        for n in [p, p + 2] {
            let x: Vec<f64> = (0..n * p).map(|_| r.below(3) as f64 - 1.0).collect();
            let y: Vec<f64> = (0..n).map(|_| r.below(5) as f64 - 2.0).collect();
            rows(p, &x, &y).call(list);
        }
    }
    rows(2, &[1.0, 1.0, 0.0, 1.0], &[1.0, 2.0]).call(list);
    rows(2, &[1.0, -1.0, 0.0, 1.0], &[1.0, 2.0]).call(list);
    rows(3, &[1.0, 1.0, -1.0, 0.0, 1.0, 0.0, 0.0, 0.0, 1.0], &[1.0, 2.0, 3.5]).call(list);
    rows(3, &[0.1, 0.1, 0.1, 0.0, 0.3, 0.0, 0.0, 0.0, 0.7], &[1.0, 2.0, 3.5]).call(list);
    // a column of zeros of either sign, and fewer rows than columns
    for (p, k) in [(1, 0), (2, 0), (2, 1), (5, 2), (15, 14)] {
        for zero in [0.0, -0.0] {
            let x: Vec<f64> = (0..2 * p * p).map(|i| if i % p == k { zero } else { gauss(r) }).collect();
            rows(p, &x, &vec![1.5; 2 * p]).call(list);
        }
    }
    for p in 2..=6 {
        let x: Vec<f64> = (0..(p - 1) * p).map(|_| gauss(r)).collect();
        rows(p, &x, &vec![-0.25; p - 1]).call(list);
    }
    // pivots around 1e-12
    for k in [-40, -3, -2, -1, 0, 1, 2, 3, 40] {
        rows(1, &[step(1e-6, k)], &[1.0]).call(list);
        rows(2, &[1.0, 0.0, 0.0, step(-1e-6, k)], &[1.0, -1.0]).call(list);
        rows(2, &[1.0, 1.0, 0.0, step(1e-6, k)], &[3.0, 7.0]).call(list);
    }
    for tiny in [1e-7, 5e-324, 1e-160, 1e-300] {
        rows(1, &[tiny], &[1.0]).call(list);
        rows(2, &[1.0, 1.0, 1.0, 1.0 + tiny, 2.0, 2.0 - tiny], &[1.0, 2.0, 3.0]).call(list);
    }
    // numbers that leave the range
    for huge in [1e150, 1e154, 1.4e154, 1e155, 1e200, f64::MAX] {
        rows(1, &[huge], &[1.0]).call(list);
        rows(1, &[1.0], &[huge]).call(list);
        rows(2, &[huge, 1.0, 1.0, 1.0], &[1.0, huge]).call(list);
        rows(3, &[1.0, huge, 0.0, 0.0, 1.0, -huge, 2.0, 0.5, 1.0, 3.0, 1.0, 1.0], &[1.0, -2.0, 3.0, 4.0]).call(list);
    }
    rows(2, &[1e-3, 0.0, 0.0, 1.0], &[f64::MAX, 1.0]).call(list);
    rows(1, &[1.0, -1.0], &[0.0, -0.0]).call(list);
    rows(2, &[1.0, 2.0, -3.0, 4.0, -0.0, 1.0], &[-0.0, -0.0, 0.0]).call(list);
    // many rows
    let mut y = vec![0.0; 100_000];
    y[..50].iter_mut().for_each(|v| *v = gauss(r));
    let mut x = vec![0.0; 100_000];
    x[..60].iter_mut().for_each(|v| *v = gauss(r));
    rows(1, &x, &y).call(list);
    let base = rows(2, &[1.0, 2.0, 3.0, -1.0, 0.5, 0.25], &[1.0, 2.0, 3.0]);
    // 2, with others after it
    for columns in [0, 16, 1000, usize::MAX] {
        with(&base, |a| { a.columns = columns; a.beta = 0; a.y[0] = f64::NAN }).call(list);
    }
    with(&base, |a| { a.y.clear(); a.rows.clear(); a.residuals = 0 }).call(list);
    with(&base, |a| { a.y = vec![0.0; 100_001]; a.rows = vec![0.0; 100_001] }).call(list);
    // 3
    with(&base, |a| { a.rows.pop(); a.y[0] = f64::NAN }).call(list);
    with(&base, |a| a.rows.push(0.0)).call(list);
    for off in [1, 3, 0] {
        with(&base, |a| a.beta = off).call(list);
    }
    for off in [2, 4, 0] {
        with(&base, |a| a.residuals = off).call(list);
    }
    // 4
    for wild in WILD {
        with(&base, |a| a.rows[0] = wild).call(list);
        with(&base, |a| a.rows[5] = wild).call(list);
        with(&base, |a| a.y[0] = wild).call(list);
        with(&base, |a| a.y[2] = wild).call(list);
    }
}

#[derive(Clone)]
struct Asked {
    fields: Fields,
    states: Rows,
    arc: Arc,
    out: usize,
    scratch: usize,
    whole: bool,
}

impl Asked {
    fn refusal(&self) -> u8 {
        let (fields, states) = (&self.fields, &self.states);
        if !fields.degree_fine() { return 1; }
        if !fields.counted() || self.arc.steps > 5302 || !states.counted() { return 2; }
        if !fields.fits() || !states.fits() || self.out != 6 * (self.arc.steps + 1) || self.scratch < fields.least_scratch() { return 3; }
        let arc = self.arc.period.is_finite() && is_time(self.arc.node) && (-LAST..=LAST).contains(&self.arc.t0);
        if !fields.fine() || !states.fine() || !arc { return 4; }
        if !fields.ordered() || !states.ordered() { return 5; }
        0
    }

    fn answer(&self) -> std::result::Result<(Vec<(V3, V3)>, f64), u8> {
        let refused = self.refusal();
        if refused != 0 { return Err(refused); }
        single_fit(&self.fields.source(), &self.states.states(), self.arc)
    }

    // what fits and windows are asked alike
    fn ask(&self, list: &mut List) {
        list.ask(self.fields.degree as u64);
        self.fields.parts().iter().for_each(|part| list.ask_slice(part));
        list.ask_words(self.states.keys.iter().map(|k| *k as u64).collect());
        list.ask_slice(&self.states.values);
    }

    fn call(&self, list: &mut List) {
        let between = if self.whole { 0 } else { self.out / 30 };
        list.call(FIT);
        self.ask(list);
        list.ask_float(self.arc.t0);
        list.ask(self.arc.steps as u64);
        list.ask_float(self.arc.node);
        list.ask_float(self.arc.period);
        list.ask_counts(&[self.out, self.scratch, between]);
        let (number, out) = match self.answer() {
            Ok((states, rms)) => {
                list.tell(0);
                list.tell_float(rms);
                (0, states.iter().flat_map(|s| [s.0, s.1].concat()).collect())
            }
            Err(n) => {
                list.tell(n as u64);
                (n, vec![if n < 6 { 3.0 } else { 0.0 }; self.out])
            }
        };
        tell_output(list, &out, between);
        list.tell_left((1..6).contains(&number), self.scratch);
    }
}

// A low orbit under point mass and J2, with noise; the states of every `apart` seconds are known. A short arc has a short period: else its fit is singular.
fn asked(r: &mut Rng, n: usize, t0: f64, steps: usize, apart: i64, noise: f64) -> Asked {
    let first = t0.max(0.0) as i64;
    let end = first as f64 + 2.0 * steps as f64;
    let times = vec![(first as f64 - 100.0).max(0.0), first as f64 + 311.0, (end + 100.25).min(LAST).max(first as f64 + 400.0)];
    let fields = random_fields(r, n, times);
    let (radius, inc, u0) = (6.871e6, 89.0 * PI / 180.0, 6.0 * unit(r));
    let speed = (GM_E / radius).sqrt();
    let ((su, cu), (si, ci)) = (crate::elementary::sine_cosine(u0), crate::elementary::sine_cosine(inc));
    let mut x = [radius * cu, radius * su * ci, radius * su * si];
    let mut v = [-speed * su + OMEGA * x[1], speed * cu * ci - OMEGA * x[0], speed * cu * si];
    let mut states = Rows { keys: vec![], values: vec![], width: 6 };
    let mut force = |_: f64, x: V3, v: V3| add(j2_gravity(x), fictitious(x, v));
    for k in 0..=2 * steps as i64 {
        if k % apart == 0 {
            states.keys.push(first + k);
            states.values.extend(x.iter().chain(&v).enumerate().map(|(i, w)| w + noise * if i < 3 { 1.0 } else { 1e-3 } * gauss(r)));
        }
        (x, v) = rk1(1.0, (first + k) as f64, x, v, &mut force);
    }
    let arc = Arc { t0, steps, node: (t0 + 60.0 * unit(r)).clamp(0.0, LAST), period: unit(r) + if steps < 250 { 1.1 * steps as f64 } else { 5650.0 } };
    Asked { scratch: fields.least_scratch(), fields, states, arc, out: 6 * (steps + 1), whole: false }
}

impl Asked {
    fn forget(&mut self, gone: impl Fn(usize) -> bool) {
        (0..self.states.keys.len()).rev().filter(|k| gone(*k)).for_each(|k| self.states.drop_entry(k));
    }
}

fn fits(list: &mut List, r: &mut Rng) {
    for n in [2, 3, 6] {
        for (k, steps) in [100, 125, 204, 300, 401, 500, 600].into_iter().enumerate() {
            // a whole start and a revolution's period, which is singular below some 300 steps; a start with a fraction; gaps
            let base = 10_000.0 * (1 + k) as f64;
            with(&asked(r, n, base, steps, 10, 0.02), |a| { a.whole = n == 6 && k == 4; a.arc.period = 5652.5 }).call(list);
            let part = 0.0625 + 0.9 * unit(r);
            asked(r, n, base + part, steps, 10, 0.02).call(list);
            with(&asked(r, n, base + 1.0, steps, 10, 5.0), |a| a.forget(|i| i % 7 == 3 || i % 5 == 4)).call(list);
        }
    }
    asked(r, 20, 777_777.5, 150, 10, 0.1).call(list);
    asked(r, 2, 800_000.0, 5302, 10, 0.1).call(list);
    // states at every second, and at every other step only
    asked(r, 2, 1000.25, 100, 1, 0.1).call(list);
    asked(r, 3, 1000.0, 200, 20, 0.1).call(list);
    // the ends of time
    with(&asked(r, 2, 0.0, 110, 10, 0.1), |a| a.whole = true).call(list);
    with(&asked(r, 2, 0.0, 110, 10, 0.1), |a| a.arc.t0 = -0.0).call(list);
    asked(r, 2, 5e-324, 110, 10, 0.1).call(list);
    asked(r, 2, LAST - 1000.0, 200, 10, 0.1).call(list);
    asked(r, 2, LAST - 1000.5, 200, 10, 0.1).call(list);
    // arcs too short for fifteen parameters, and the first that are not
    for steps in [0, 1, 4, 5, 9, 10, 15, 20, 25, 30, 40, 50, 75] {
        asked(r, 2, 5000.0, steps, 10, 0.01).call(list);
    }
    // periods and nodes without sense
    for period in [-5650.0, 1e-3, 1e300, -1e300, 5e-324, 0.0] {
        with(&asked(r, 2, 5000.0, 120, 10, 0.01), |a| a.arc.period = period).call(list);
    }
    with(&asked(r, 2, 5000.0, 120, 10, 0.01), |a| { a.arc.node = a.arc.t0; a.arc.period = 100.0 }).call(list);
}

fn uncovered(list: &mut List, r: &mut Rng) {
    let base = asked(r, 2, 9000.0, 120, 10, 0.01);
    let end = 9000.0 + 240.0;
    // 6, and beside it
    for first in [9000.0, step(9000.0, 1), 9001.0] {
        with(&base, |a| a.fields.times[0] = first).call(list);
    }
    for last in [end, step(end, 1), step(end, -1)] {
        with(&base, |a| { a.fields.times[1] = 9100.0; a.fields.times[2] = last }).call(list);
    }
    for t0 in [-LAST, -1.0, -5e-324, 8899.5, 9500.0, LAST] {
        with(&base, |a| { a.arc.t0 = t0; a.states.keys.clear(); a.states.values.clear() }).call(list);
    }
    // 7: twelve positions are needed, the start's is one of them
    for left in [13, 12, 11, 1, 0] {
        with(&base, |a| a.forget(|i| i >= left)).call(list);
        with(&base, |a| a.forget(|i| i == 0 || i > left)).call(list);
    }
    with(&base, |a| a.states.keys.iter_mut().for_each(|k| *k += 1)).call(list);
    // 8
    with(&base, |a| a.states.keys[0] += 1).call(list);
    with(&base, |a| { a.arc.t0 = 9000.75; a.states.keys[0] -= 1 }).call(list);
    // nothing to fit
    with(&asked(r, 2, 9000.0, 5, 10, 0.0), |a| a.forget(|_| true)).call(list);
    // 9: one place for all
    with(&base, |a| { let s = a.states.values[..6].to_vec(); a.states.values = s.repeat(a.states.keys.len()) }).call(list);
    // 10
    with(&base, |a| a.states.values[0] = 1e308).call(list);
    with(&base, |a| a.states.values[..3].fill(0.0)).call(list);
    with(&base, |a| a.states.values.fill(0.0)).call(list);
    with(&base, |a| a.states.values.fill(-0.0)).call(list);
    with(&base, |a| a.states.values[4] = 1e200).call(list);
    with(&base, |a| a.states.values[66] = f64::MAX).call(list);
    with(&base, |a| a.states.values[66] = 1e160).call(list);
    with(&base, |a| a.fields.field[0] = 1e308).call(list);
    with(&base, |a| a.fields.field[0] = 0.0).call(list);
    with(&base, |a| a.fields.added[1] = 1e200).call(list);
}

fn refusals(list: &mut List, r: &mut Rng) {
    let base = asked(r, 2, 9000.0, 20, 10, 0.01);
    // 1, with others after it
    for n in [0, 1, 181, usize::MAX] {
        with(&base, |a| { a.fields.degree = n; a.fields.times.clear(); a.arc.period = f64::NAN }).call(list);
    }
    // 2
    with(&base, |a| { a.fields.times.truncate(1); a.fields.field.clear() }).call(list);
    with(&base, |a| a.fields.times = (0..33).map(|k| k as f64).collect()).call(list);
    with(&base, |a| { a.arc.steps = 5303; a.out = 0 }).call(list);
    with(&base, |a| a.arc.steps = usize::MAX).call(list);
    with(&base, |a| a.states.keys = vec![0; 200_001]).call(list);
    // 3
    with(&base, |a| a.states.keys = vec![0; 200_000]).call(list);
    with(&base, |a| { a.fields.field.pop(); a.arc.t0 = f64::NAN }).call(list);
    with(&base, |a| a.fields.field.push(0.0)).call(list);
    with(&base, |a| { a.fields.a.pop(); }).call(list);
    with(&base, |a| a.fields.b.push(0.0)).call(list);
    with(&base, |a| { a.fields.added.pop(); }).call(list);
    with(&base, |a| { a.fields.times.pop(); }).call(list);
    with(&base, |a| { a.states.values.pop(); }).call(list);
    with(&base, |a| a.states.keys.push(10_000)).call(list);
    for off in [0, 125, 127] {
        with(&base, |a| a.out = off).call(list);
    }
    with(&base, |a| a.arc.steps = 21).call(list);
    with(&base, |a| a.scratch -= 1).call(list);
    with(&base, |a| a.scratch = 0).call(list);
    // 4
    for w in WILD {
        with(&base, |a| { a.fields.field[0] = w; a.fields.times[1] = a.fields.times[0] }).call(list);
        with(&base, |a| *a.fields.field.last_mut().unwrap() = w).call(list);
        with(&base, |a| a.fields.a[3] = w).call(list);
        with(&base, |a| a.fields.b[5] = w).call(list);
        with(&base, |a| a.fields.added[15] = w).call(list);
        with(&base, |a| a.fields.times[2] = w).call(list);
        with(&base, |a| a.states.values[1] = w).call(list);
        with(&base, |a| *a.states.values.last_mut().unwrap() = w).call(list);
        with(&base, |a| a.arc.t0 = w).call(list);
        with(&base, |a| a.arc.node = w).call(list);
        with(&base, |a| a.arc.period = w).call(list);
    }
    for t in [-5e-324, step(LAST, 1)] {
        with(&base, |a| a.fields.times[2] = t).call(list);
        with(&base, |a| a.arc.node = t).call(list);
    }
    with(&base, |a| a.arc.t0 = step(LAST, 1)).call(list);
    with(&base, |a| a.arc.t0 = step(-LAST, -1)).call(list);
    with(&base, |a| a.arc.t0 = step(-LAST, 1)).call(list);
    with(&base, |a| a.states.keys[0] = -1).call(list);
    with(&base, |a| *a.states.keys.last_mut().unwrap() = (1 << 31) + 1).call(list);
    with(&base, |a| a.states.keys[0] = i64::MIN).call(list);
    // 5
    with(&base, |a| a.fields.times[1] = a.fields.times[0]).call(list);
    with(&base, |a| a.fields.times.reverse()).call(list);
    with(&base, |a| a.states.keys[1] = a.states.keys[0]).call(list);
    with(&base, |a| a.states.keys.reverse()).call(list);
    // more scratch than is needed is cleared as well
    with(&asked(r, 2, 9000.0, 130, 10, 0.01), |a| a.scratch += 99).call(list);
}

// A list of words: whether all are 0 or as they stood, their sum, the sum of its values after each word, and every so many words.
fn tell_sums(list: &mut List, words: &[u64], stood: u64, between: usize) {
    let all = |w: u64| words.iter().all(|v| *v == w);
    list.tell(if all(0) { 0 } else if all(stood) { 1 } else { 2 });
    let (mut sum, mut sums) = (0u64, 0u64);
    for w in words {
        sum = sum.wrapping_add(*w);
        sums = sums.wrapping_add(sum);
    }
    list.tell(sum);
    list.tell(sums);
    words.iter().step_by(between + 1).for_each(|w| list.tell(*w));
}

// The arc of `of` plays no part.
#[derive(Clone)]
struct Windows {
    of: Asked,
    nodes: Vec<f64>,
    keys: usize,
    states: usize,
    rms: usize,
    scratch: usize,
}

impl Windows {
    fn refusal(&self) -> u8 {
        let of = with(&self.of, |a| { a.arc = Arc { t0: 0.0, steps: 0, node: 0.0, period: 1.0 }; a.out = 6; a.scratch = usize::MAX });
        let first = of.refusal();
        if first == 1 { return 1; }
        if first == 2 || self.nodes.len() > 64 { return 2; }
        let pairs = self.nodes.len().saturating_sub(1);
        let least = of.fields.least_scratch() + 49_200 * pairs;
        if first == 3 || self.keys != 3500 * pairs || self.states != 21_000 * pairs || self.rms != pairs || self.scratch < least { return 3; }
        if first == 4 || !are_times(&self.nodes) { return 4; }
        if first == 5 || !rising(&self.nodes) { return 5; }
        0
    }

    fn answer(&self) -> std::result::Result<(Vec<i64>, Vec<f64>, Vec<f64>), u8> {
        let refused = self.refusal();
        if refused != 0 { return Err(refused); }
        let (fitted, rms) = fitted_orbits(&self.of.fields.source(), &self.of.states.states(), &self.nodes);
        let mut keys: Vec<i64> = fitted.keys().copied().collect();
        keys.sort();
        let states: Vec<f64> = keys.iter().flat_map(|k| [fitted[k].0, fitted[k].1].concat()).collect();
        if finite(&states) && finite(&rms) { Ok((keys, states, rms)) } else { Err(10) }
    }

    fn call(&self, list: &mut List) {
        let between = [self.keys / 50, self.states / 50];
        list.call(ORBITS);
        self.of.ask(list);
        list.ask_slice(&self.nodes);
        list.ask_counts(&[self.keys, self.states, self.rms, self.scratch, between[0], between[1]]);
        let (number, (mut keys, mut states, mut rms)) = match self.answer() {
            Ok(lists) => {
                list.tell(0);
                list.tell(lists.0.len() as u64);
                list.tell(lists.2.len() as u64);
                (0, lists)
            }
            Err(n) => {
                list.tell(n as u64);
                let (key, stands) = if n < 6 { (3, 3.0) } else { (0, 0.0) };
                (n, (vec![key; self.keys], vec![stands; self.states], vec![stands; self.rms]))
            }
        };
        keys.resize(self.keys, 0);
        states.resize(self.states, 0.0);
        rms.resize(self.rms, 0.0);
        let bits = |v: &[f64]| v.iter().map(|x| x.to_bits()).collect::<Vec<u64>>();
        tell_sums(list, &keys.iter().map(|k| *k as u64).collect::<Vec<u64>>(), 3, between[0]);
        tell_sums(list, &bits(&states), 3.0f64.to_bits(), between[1]);
        tell_sums(list, &bits(&rms), 3.0f64.to_bits(), 0);
        list.tell_left((1..6).contains(&number), self.scratch);
    }
}

// States every 20 s from half an hour before the first node, on an even second, to half an hour after the last.
fn windows(r: &mut Rng, n: usize, nodes: &[f64], noise: f64) -> Windows {
    let (first, last) = (nodes.first().map_or(9000.0, |t| *t), nodes.last().map_or(9000.0, |t| *t));
    let t0 = 2.0 * ((first - 1800.0) / 2.0).floor();
    let of = asked(r, n, t0, ((last + 1800.0 - t0.max(0.0)) / 2.0).ceil() as usize, 20, noise);
    let pairs = nodes.len().saturating_sub(1);
    Windows { scratch: of.scratch + 49_200 * pairs, of, nodes: nodes.to_vec(), keys: 3500 * pairs, states: 21_000 * pairs, rms: pairs }
}

fn fitted_windows(list: &mut List, r: &mut Rng) {
    // one to four windows; nodes with a fraction, each in the even second that its arc's states begin at
    for (n, count) in [(2, 1), (3, 2), (6, 1), (12, 1), (2, 3), (2, 4), (4, 2)] {
        let base = 10_000.0 + 2_000.0 * n as f64;
        let nodes: Vec<f64> = (0..=count).map(|k| base + 120.0 * k as f64 + 1.9 * unit(r)).collect();
        windows(r, n, &nodes, 0.02).call(list);
    }
    windows(r, 2, &[20_000.0, 20_100.0], 0.5).call(list);
    // a state on a node belongs to the window that begins there
    windows(r, 2, &[20_000.0, 20_100.0, 20_200.0], 0.02).call(list);
    windows(r, 2, &[step(20_000.0, 1), step(20_100.0, 1)], 0.02).call(list);
    windows(r, 2, &[], 0.02).call(list);
    windows(r, 2, &[12_345.5], 0.02).call(list);
    // 7,000 s and beside it; the difference rounded to 7,000
    for (a, b) in [(10_000.0, 17_000.0), (10_000.0, step(17_000.0, -1)), (1800.0 + 0.5f64.powi(42), 8800.0)] {
        with(&windows(r, 2, &[a, b], 0.02), |w| if b - a >= 7000.0 { w.of.forget(|_| true) }).call(list);
    }
    // a long window between two others
    let long = windows(r, 2, &[10_000.0, 10_120.0, 17_200.0, 17_320.5], 0.02);
    with(&long, |w| w.of.forget(|i| (195..350).contains(&i))).call(list);
    // uncovered: before 1800 s, and beyond the last field
    windows(r, 2, &[1700.0, 1820.0, 1940.25], 0.02).call(list);
    windows(r, 2, &[0.0, 5.5, 60.0], 0.02).call(list);
    let three = windows(r, 2, &[10_000.0, 10_120.0, 10_240.0], 0.02);
    three.call(list);
    with(&three, |w| w.of.fields.times[2] = 12_000.0).call(list);
    with(&three, |w| w.of.fields.times[0] = 8_250.0).call(list);
    with(&three, |w| { w.of.fields.times[0] = 20_000.0; w.of.fields.times[1] = 20_001.0; w.of.fields.times[2] = 20_002.0 }).call(list);
    // too few states in the first window, in both, no state at a start
    with(&three, |w| w.of.forget(|i| i < 6)).call(list);
    with(&three, |w| w.of.forget(|i| i > 60)).call(list);
    with(&three, |w| w.of.forget(|i| i == 6)).call(list);
    with(&three, |w| w.of.forget(|i| i == 0)).call(list);
    with(&three, |w| w.of.forget(|_| true)).call(list);
    // windows too short for a fit, with and without an even second
    windows(r, 2, &[20_000.0, 20_040.0, 20_080.0], 0.02).call(list);
    windows(r, 2, &[10_000.4, 10_001.7], 0.02).call(list);
    windows(r, 2, &[10_000.25, 10_001.25], 0.02).call(list);
    windows(r, 2, &[10_000.0, 10_002.0, 10_120.0], 0.02).call(list);
    windows(r, 2, &[10_000.0, 10_001.0, 10_020.0, 10_140.0], 0.02).call(list);
    // so short that no angle has a sine, with and without an even second: 10
    windows(r, 2, &[10_000.0, 10_000.001], 0.02).call(list);
    windows(r, 2, &[10_001.0, 10_001.001], 0.02).call(list);
    windows(r, 2, &[10_000.0, 10_120.0, 10_120.001], 0.02).call(list);
    windows(r, 2, &[10_000.0, 10_000.001, 10_120.0], 0.02).call(list);
    // numbers that leave the range
    with(&three, |w| w.of.states.values[66] = f64::MAX).call(list);
    with(&three, |w| w.of.states.values[0] = 1e308).call(list);
    with(&three, |w| w.of.fields.field[0] = 0.0).call(list);
    // the end of time
    windows(r, 2, &[LAST - 2100.0, LAST - 1980.5], 0.02).call(list);
    with(&windows(r, 2, &[LAST - 2100.0, LAST - 1980.0], 0.02), |w| w.nodes = vec![LAST - 2100.0, LAST]).call(list);
    with(&windows(r, 2, &[LAST - 2100.0, LAST - 1980.0], 0.02), |w| { w.nodes = vec![LAST - 0.5, LAST]; w.of.forget(|_| true) }).call(list);
    // more scratch than is needed is cleared as well
    with(&three, |w| w.scratch += 99).call(list);
}

fn window_refusals(list: &mut List, r: &mut Rng) {
    let base = with(&windows(r, 2, &[9000.0, 9001.0, 9002.5], 0.01), |w| w.of.forget(|i| i > 4));
    // 1, with others after it
    for n in [0, 1, 181, usize::MAX] {
        with(&base, |w| { w.of.fields.degree = n; w.of.fields.times.clear(); w.nodes[0] = f64::NAN }).call(list);
    }
    // 2
    with(&base, |w| { w.of.fields.times.truncate(1); w.of.fields.field.clear() }).call(list);
    with(&base, |w| w.of.fields.times = (0..33).map(|k| k as f64).collect()).call(list);
    with(&base, |w| w.of.states.keys = vec![0; 200_001]).call(list);
    with(&base, |w| { w.nodes = (0..65).map(|k| k as f64).collect(); w.scratch = 0 }).call(list);
    // 3
    with(&base, |w| w.nodes = (0..64).map(|k| k as f64).collect()).call(list);
    with(&base, |w| w.of.states.keys = vec![0; 200_000]).call(list);
    with(&base, |w| { w.of.fields.field.pop(); w.nodes[0] = f64::NAN }).call(list);
    with(&base, |w| w.of.fields.field.push(0.0)).call(list);
    with(&base, |w| { w.of.fields.a.pop(); }).call(list);
    with(&base, |w| w.of.fields.b.push(0.0)).call(list);
    with(&base, |w| { w.of.fields.added.pop(); }).call(list);
    with(&base, |w| { w.of.fields.times.pop(); }).call(list);
    with(&base, |w| { w.of.states.values.pop(); }).call(list);
    with(&base, |w| w.of.states.keys.push(20_000)).call(list);
    with(&base, |w| w.nodes.push(9100.0)).call(list);
    with(&base, |w| { w.nodes.pop(); }).call(list);
    with(&base, |w| w.nodes.clear()).call(list);
    for off in [0, 3500, 6999, 7001] {
        with(&base, |w| w.keys = off).call(list);
    }
    for off in [0, 21_000, 41_999, 42_001] {
        with(&base, |w| w.states = off).call(list);
    }
    for off in [0, 1, 3] {
        with(&base, |w| w.rms = off).call(list);
    }
    with(&base, |w| w.scratch -= 1).call(list);
    with(&base, |w| w.scratch -= 49_200).call(list);
    with(&base, |w| w.scratch = 0).call(list);
    with(&windows(r, 2, &[], 0.0), |w| w.keys = 1).call(list);
    with(&windows(r, 2, &[9000.0], 0.0), |w| { w.of.forget(|_| true); w.scratch -= 1 }).call(list);
    // 4
    for x in WILD {
        with(&base, |w| { w.of.fields.field[0] = x; w.of.fields.times[1] = w.of.fields.times[0] }).call(list);
        with(&base, |w| *w.of.fields.field.last_mut().unwrap() = x).call(list);
        with(&base, |w| w.of.fields.a[3] = x).call(list);
        with(&base, |w| w.of.fields.b[5] = x).call(list);
        with(&base, |w| w.of.fields.added[15] = x).call(list);
        with(&base, |w| w.of.fields.times[2] = x).call(list);
        with(&base, |w| w.of.states.values[1] = x).call(list);
        with(&base, |w| *w.of.states.values.last_mut().unwrap() = x).call(list);
        with(&base, |w| w.nodes[0] = x).call(list);
        with(&base, |w| w.nodes[2] = x).call(list);
    }
    for t in [-5e-324, step(LAST, 1)] {
        with(&base, |w| w.of.fields.times[2] = t).call(list);
        with(&base, |w| w.nodes[2] = t).call(list);
    }
    with(&base, |w| w.of.states.keys[0] = -1).call(list);
    with(&base, |w| *w.of.states.keys.last_mut().unwrap() = (1 << 31) + 1).call(list);
    // 5
    with(&base, |w| w.of.fields.times[1] = w.of.fields.times[0]).call(list);
    with(&base, |w| w.of.fields.times.reverse()).call(list);
    with(&base, |w| w.of.states.keys[1] = w.of.states.keys[0]).call(list);
    with(&base, |w| w.of.states.keys.reverse()).call(list);
    with(&base, |w| w.nodes[1] = w.nodes[0]).call(list);
    with(&base, |w| w.nodes.reverse()).call(list);
}

pub fn make(list: &mut List, seed: u64) {
    let mut random = Rng::new(seed);
    least_squares(list, &mut random);
    fits(list, &mut random);
    uncovered(list, &mut random);
    refusals(list, &mut random);
    fitted_windows(list, &mut random);
    window_refusals(list, &mut random);
}
