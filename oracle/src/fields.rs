// The fields of module 1. Answers by the source's `Legendre`, `Coefficients` and `Partials`; refusals by document 01's table. Outputs
// stand at 3.0 and scratch at 7.0 before a call: all unchanged after refusals 1 to 4, +0.0 after 10.
use crate::fieldlists::{WILD, coefficients, finite, is_degree, places};
use crate::generate::unit;
use crate::list::{List, step};
use crate::source::{Legendre, Partials, Rng, derive, idx};
use std::f64::consts::{FRAC_PI_2, PI};

const INDEX: u64 = 0;
const NEU: u64 = 1;
const NEW: u64 = 2;
const RESCALED: u64 = 3;
const DERIVE: u64 = 4;
const COMPUTE: u64 = 5;
const PARTIALS: u64 = 6;

/// The refusal before the work: by the degree, by the lengths, by the numbers.
fn early(n: usize, lengths: bool, numbers: bool) -> u64 {
    if !is_degree(n) { 1 } else if !lengths { 3 } else if !numbers { 4 } else { 0 }
}

fn tell_some(list: &mut List, values: &[f64], between: usize) {
    values.iter().step_by(between + 1).for_each(|v| list.tell_float(*v));
}

/// From -1 to 1.
fn signed(random: &mut Rng) -> f64 {
    2.0 * unit(random) - 1.0
}

/// GM, radius, C, S of a plausible field.
fn field(random: &mut Rng, n: usize) -> Vec<f64> {
    let mut out = vec![3.986004415e14, 6378136.3];
    for _ in 0..2 {
        for d in 0..=n {
            for _ in 0..=d {
                out.push(1e-5 / (1.0 + (d * d) as f64) * signed(random));
            }
        }
    }
    out[2] = 1.0;
    out
}

/// The answer's number and the outputs: by an early refusal, or by the numbers worked out.
fn outputs(list: &mut List, early: u64, lengths: &[usize], scratch: usize, between: usize, work: impl Fn() -> Vec<Vec<f64>>) {
    let (number, new, unchanged) = if early != 0 {
        (early, lengths.iter().map(|l| vec![3.0; *l]).collect(), true)
    } else {
        let new = work();
        if new.iter().all(|x| finite(x)) { (0, new, false) } else { (10, lengths.iter().map(|l| vec![0.0; *l]).collect(), false) }
    };
    list.tell(number);
    new.iter().for_each(|x: &Vec<f64>| tell_some(list, x, between));
    list.tell_left(unchanged, scratch);
}

fn index(list: &mut List, n: usize, m: usize) {
    list.call(INDEX);
    list.ask(n as u64);
    list.ask(m as u64);
    if m <= n && n <= 180 {
        list.tell(0);
        list.tell(idx(n, m) as u64);
    } else {
        list.tell(2);
    }
}

fn neu(list: &mut List, v: [f64; 6]) {
    list.call(NEU);
    list.ask_all(&v);
    if !finite(&v) {
        return list.tell(4);
    }
    let a = Partials { v: v[0], dr: v[1], dlat: v[2], dlon: v[3] }.acceleration_neu(v[4], v[5]);
    if !finite(&a) {
        return list.tell(10);
    }
    list.tell(0);
    list.tell_all(&a);
}

fn new(list: &mut List, n: usize, la: usize, lb: usize, scratch: usize, between: usize) {
    list.call(NEW);
    list.ask_counts(&[n, la, lb, scratch, between]);
    let l = places(n);
    let early = early(n, la == l && lb == l && scratch >= 8 * l, true);
    outputs(list, early, &[la, lb], scratch, between, || {
        let t = Legendre::new(n);
        vec![t.a.clone(), t.b.clone()]
    });
}

fn rescaled(list: &mut List, n: usize, field: &[f64], gm: f64, radius: f64, lc: usize, ls: usize, scratch: usize) {
    list.call(RESCALED);
    list.ask(n as u64);
    list.ask_list(field);
    list.ask_counts(&[lc, ls, scratch]);
    list.ask_all(&[gm, radius]);
    let l = places(n);
    let early = early(n, field.len() == 2 + 2 * l && lc == l && ls == l && scratch >= 8 * l, finite(field) && finite(&[gm, radius]));
    outputs(list, early, &[lc, ls], scratch, 0, || {
        let out = coefficients(n, field).rescaled(gm, radius);
        vec![out.c.clone(), out.s.clone()]
    });
}

fn derived(list: &mut List, n: usize, p: &[f64], ld: usize, scratch: usize) {
    list.call(DERIVE);
    list.ask(n as u64);
    list.ask_list(p);
    list.ask_counts(&[ld, scratch]);
    let l = places(n);
    let early = early(n, p.len() == l && ld == l && scratch >= 8 * l, finite(p));
    outputs(list, early, &[ld], scratch, 0, || {
        let mut dp = vec![0.0; l];
        derive(p, &mut dp, n);
        vec![dp]
    });
}

fn compute(list: &mut List, n: usize, la: usize, lb: usize, first: f64, lat: f64, lp: usize, ld: usize, scratch: usize, between: usize) {
    list.call(COMPUTE);
    list.ask_counts(&[n, la, lb]);
    list.ask_float(first);
    list.ask_counts(&[lp, ld, scratch]);
    list.ask_float(lat);
    list.ask(between as u64);
    let l = places(n);
    let early = early(n, [la, lb, lp, ld] == [l; 4] && scratch >= 8 * l, finite(&[first, lat]));
    outputs(list, early, &[lp, ld], scratch, between, || {
        let mut t = Legendre::new(n);
        t.compute_with_derivative(lat);
        vec![t.p.clone(), t.dp.clone()]
    });
}

fn partials(list: &mut List, n: usize, field: &[f64], la: usize, lb: usize, first: f64, scratch: usize, at: &[[f64; 3]]) {
    list.call(PARTIALS);
    list.ask(n as u64);
    list.ask_list(field);
    list.ask_counts(&[la, lb]);
    list.ask_float(first);
    list.ask_counts(&[scratch, at.len()]);
    let l = places(n);
    let lengths = field.len() == 2 + 2 * l && la == l && lb == l && scratch >= 8 * l;
    let mut unchanged = true;
    for place in at {
        list.ask_all(place);
        let early = early(n, lengths, finite(field) && first.is_finite() && finite(place));
        if early != 0 {
            list.tell(early);
        } else {
            let p = coefficients(n, field).partials(place[0], place[1], place[2]);
            let four = [p.v, p.dr, p.dlat, p.dlon];
            unchanged = false;
            if finite(&four) {
                list.tell(0);
                list.tell_all(&four);
            } else {
                list.tell(10);
            }
        }
        list.tell_left(unchanged, scratch);
    }
}

pub fn make(list: &mut List, seed: u64) {
    let mut random = Rng::new(seed);
    for (n, m) in [(0, 0), (2, 1), (180, 180), (180, 0), (1, 2), (181, 0), (181, 181), (1000000, 3), (12, 12), (60, 17), (179, 179), (0, 1)] {
        index(list, n, m);
    }
    for _ in 0..40 {
        neu(list, std::array::from_fn(|i| if i == 4 { 6.8e6 } else { 2.0 * signed(&mut random) }));
    }
    let fine = [1.0, -2.0, 3.0, -4.0, 7e6, 0.5];
    for i in 0..6 {
        for bad in [f64::NAN, f64::INFINITY] {
            let mut v = fine;
            v[i] = bad;
            neu(list, v);
        }
    }
    for v in [[1.0, -9.8, 0.0, 0.0, 0.0, 0.5], [1.0, 1.0, 1e300, 1.0, 1e-300, 0.0], [0.0, -0.0, -0.0, 0.0, -7e6, FRAC_PI_2], [1.0, 1.0, 1.0, 1.0, 7e6, 2e6]] {
        neu(list, v);
    }
    for (n, between) in [(2, 0), (3, 0), (12, 0), (60, 40), (180, 400)] {
        let l = places(n);
        new(list, n, l, l, 8 * l, between);
        for lat in [0.0, -0.0, FRAC_PI_2, -FRAC_PI_2, 0.3, -1.1, step(FRAC_PI_2, -1), 1e-9, 1048576.0] {
            compute(list, n, l, l, 0.0, lat, l, l, 8 * l, between);
        }
        compute(list, n, l, l, 0.0, 1048577.0, l, l, 8 * l, 100 * between + 100);
    }
    for n in [0, 1, 181, 1000000] {
        new(list, n, 3, 3, 48, 0);
        rescaled(list, n, &[1.0; 14], 1.0, 1.0, 6, 6, 48);
        derived(list, n, &[1.0; 6], 6, 48);
        compute(list, n, 6, 6, 0.0, 0.1, 6, 6, 48, 0);
        partials(list, n, &[1.0; 14], 6, 6, 0.0, 48, &[[7e6, 0.1, 0.2]]);
    }
    for (la, lb, scratch) in [(5, 6, 48), (6, 7, 48), (6, 6, 47), (0, 0, 0), (6, 6, 60)] {
        new(list, 2, la, lb, scratch, 0);
    }
    for n in [2, 3, 12, 60] {
        let l = places(n);
        let f = field(&mut random, n);
        let p: Vec<f64> = (0..l).map(|_| signed(&mut random)).collect();
        derived(list, n, &p, l, 8 * l);
        for (gm, radius) in [(f[0], f[1]), (3.986004418e14, 6378137.0), (1.0, -2.0), (0.0, 1.0), (1.0, 1e-300)] {
            rescaled(list, n, &f, gm, radius, l, l, 8 * l);
        }
    }
    let f = field(&mut random, 2);
    for (lf, lc, ls, scratch) in [(13, 6, 6, 48), (14, 5, 6, 48), (14, 6, 7, 48), (14, 6, 6, 47), (0, 6, 6, 48)] {
        rescaled(list, 2, &f[..lf], 1.0, 1.0, lc, ls, scratch);
        partials(list, 2, &f[..lf], lc, ls, 0.0, scratch, &[[7e6, 0.1, 0.2], [7e6, f64::NAN, 0.2]]);
    }
    for (lp, ld, scratch) in [(5, 6, 48), (6, 5, 48), (6, 6, 47), (0, 0, 0)] {
        derived(list, 2, &vec![1.0; lp], ld, scratch);
        compute(list, 2, 6, 6, 0.0, 0.1, lp, ld, scratch, 0);
    }
    compute(list, 2, 5, 6, 0.0, 0.1, 6, 6, 48, 0);
    compute(list, 2, 6, 7, 0.0, 0.1, 6, 6, 48, 0);
    for bad in WILD {
        let mut g = f.clone();
        g[13] = bad;
        rescaled(list, 2, &g, 1.0, 1.0, 6, 6, 48);
        rescaled(list, 2, &f, bad, 1.0, 6, 6, 48);
        rescaled(list, 2, &f, 1.0, bad, 6, 6, 48);
        derived(list, 2, &[1.0, 1.0, 1.0, 1.0, bad, 1.0], 6, 48);
        compute(list, 2, 6, 6, bad, 0.1, 6, 6, 48, 0);
        compute(list, 2, 6, 6, 0.0, bad, 6, 6, 48, 0);
        partials(list, 2, &g, 6, 6, 0.0, 48, &[[7e6, 0.1, 0.2]]);
        partials(list, 2, &f, 6, 6, bad, 48, &[[7e6, 0.1, 0.2]]);
        partials(list, 2, &f, 6, 6, 0.0, 48, &[[bad, 0.1, 0.2], [7e6, bad, 0.2], [7e6, 0.1, bad]]);
    }
    derived(list, 2, &[1e308; 6], 6, 48);
    for n in [2, 3, 12, 60, 180] {
        let l = places(n);
        let f = field(&mut random, n);
        let mut at = vec![];
        for lat in [0.0, FRAC_PI_2, -FRAC_PI_2, 0.7, -0.2, step(FRAC_PI_2, -1)] {
            for lon in [0.0, -0.0, PI, -PI, 1.0, -3.0, 5000.0, -5800.0] {
                at.push([6.878e6, lat, lon]);
            }
        }
        for place in [[6378136.3, 0.1, 0.2], [1e9, 0.1, 0.2], [0.0, 0.1, 0.2], [-7e6, 0.1, 0.2], [7e6, 2e6, 0.1], [7e6, 0.1, 1e6], [7e6, 0.1, 0.2], [1.0, 0.1, 0.2]] {
            at.push(place);
        }
        partials(list, n, &f, l, l, 0.0, 8 * l, &at);
    }
}
