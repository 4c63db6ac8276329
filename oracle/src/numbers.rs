// The elementary numbers: ties of the reduction, limits, zeros, subnormal numbers, infinities, NaN, and random patterns.
use crate::elementary::{arcsine, arctangent, power, sine_cosine};
use crate::generate::unit;
use crate::list::{List, step};
use crate::source::Rng;
use std::f64::consts::PI;

const ROOT: u64 = 0;
const SINE: u64 = 1;
const COSINE: u64 = 2;
const BOTH: u64 = 3;
const ARCTANGENT: u64 = 4;
const ARCSINE: u64 = 5;
const POWER: u64 = 6;
const FINITE: u64 = 7;

fn one(list: &mut List, number: u64, x: f64, answer: f64) {
    list.call(number);
    list.ask_float(x);
    list.tell_float(answer);
}

fn waves(list: &mut List, x: f64) {
    let (s, c) = sine_cosine(x);
    one(list, SINE, x, s);
    one(list, COSINE, x, c);
}

fn both(list: &mut List, x: f64) {
    let (s, c) = sine_cosine(x);
    list.call(BOTH);
    list.ask_float(x);
    list.tell_all(&[s, c]);
}

fn angle(list: &mut List, y: f64, x: f64) {
    list.call(ARCTANGENT);
    list.ask_all(&[y, x]);
    list.tell_float(arctangent(y, x));
}

fn raised(list: &mut List, a: f64, n: u32, c: f64) {
    list.call(POWER);
    list.ask_float(a);
    list.ask(n as u64);
    list.ask_float(c);
    list.tell_float(power(a, n, c));
}

fn finite(list: &mut List, x: f64) {
    list.call(FINITE);
    list.ask_float(x);
    list.tell(x.is_finite() as u64);
}

fn edges() -> Vec<f64> {
    let mut edges = vec![0.0, 5e-324, 2.0f64.powi(-1050), f64::MIN_POSITIVE, 0.5, 1.0, 2.0, 4.0, PI, PI / 2.0, PI / 4.0, 1e308, f64::MAX, f64::INFINITY, f64::NAN];
    edges.extend([f64::from_bits(0x3FE9_21FB_5444_2D17), f64::from_bits(0x3FE9_21FB_5444_2D18), 0.4142135623730951]);
    for x in [1.0, 1048576.0, 0.4142135623730951] {
        edges.extend([step(x, -1), step(x, 1)]);
    }
    edges.push(1048576.0);
    let negative: Vec<f64> = edges.iter().map(|x| -x).collect();
    edges.extend(negative);
    edges.push(f64::from_bits(0xFFF8_0000_0000_0001));
    edges
}

pub fn make(list: &mut List, seed: u64) {
    let mut random = Rng::new(seed);
    let edges = edges();
    for x in &edges {
        one(list, ROOT, *x, x.sqrt());
        waves(list, *x);
        both(list, *x);
        one(list, ARCSINE, *x, arcsine(*x));
        finite(list, *x);
        for y in &edges {
            angle(list, *y, *x);
        }
        for n in [0, 1, 2, 3, 10, 1074] {
            raised(list, *x, n, 1.0);
        }
    }
    // near the whole and the half multiples of a quarter turn
    for k in (0..40).chain([1000, 333_333, 667_543, 1_335_088]) {
        for half in [0.0, 0.5] {
            for ulps in [-1, 0, 1] {
                let x = step((k as f64 + half) * (PI / 2.0), ulps);
                waves(list, x);
                both(list, -x);
            }
        }
    }
    // random patterns, and random sizes where the work is done
    for _ in 0..250 {
        let wild = f64::from_bits(random.next_u64());
        let other = f64::from_bits(random.next_u64());
        let unit = unit(&mut random);
        let near = (unit - 0.5) * 2.0f64.powi(random.below(24) as i32 - 2);
        one(list, ROOT, wild.abs(), wild.abs().sqrt());
        one(list, ROOT, unit, unit.sqrt());
        one(list, ROOT, wild, wild.sqrt());
        waves(list, near);
        waves(list, wild);
        both(list, near);
        angle(list, wild, other);
        angle(list, near, unit - 0.5);
        one(list, ARCSINE, 2.02 * unit - 1.01, arcsine(2.02 * unit - 1.01));
        raised(list, 3.0 * unit - 1.5, random.below(181) as u32, 1.0);
        raised(list, wild, random.next_u64() as u32, other);
        finite(list, wild);
    }
}
