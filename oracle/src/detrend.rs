// Revolutions, detrending and nodes: windows of 49, 50 and 51 epochs, samples before the first node and after the last, times on a node, gaps, zero values, singular
// fits, overlapping and empty ranges, crossings at ±0.0 and beside gaps, and each refusal but those that need lists of more than 100,000.
use crate::fieldlists::finite;
use crate::generate::unit;
use crate::list::List;
use crate::source::{Epoch, Rng, Satellite, ascending_nodes, detrend, remove_per_revolution, revolutions};
use std::collections::HashMap;

const REVOLUTIONS: u64 = 0;
const DETREND: u64 = 1;
const REMOVE: u64 = 2;
const NODES: u64 = 3;

const HELD: f64 = 7.0;

fn slice(list: &mut List, values: &[f64]) {
    list.ask_first(values.len(), values);
}

fn counts(list: &mut List, values: &[usize]) {
    list.ask_counts(&[values.len(), values.len()]);
    list.ask_counts(values);
}

/// Times two seconds apart, with a gap now and then.
pub fn moments(random: &mut Rng, n: usize, start: f64) -> Vec<f64> {
    let mut t = start;
    (0..n).map(|_| { let now = t; t += if random.below(40) == 0 { 2.0 + random.below(9) as f64 } else { 2.0 }; now }).collect()
}

pub fn values_at(random: &mut Rng, times: &[f64]) -> Vec<f64> {
    let (a, b, w) = (unit(random) - 0.5, 1e-3 * (unit(random) - 0.5), 1e-3 + 1e-2 * unit(random));
    times.iter().map(|t| 1e-7 * (a + b * t + (w * t).sin() + 0.1 * (unit(random) - 0.5))).collect()
}

/// Nodes that part a list of times into windows of about 50 epochs, some on a time itself.
pub fn parting(random: &mut Rng, times: &[f64]) -> Vec<f64> {
    let mut nodes = Vec::new();
    let mut i = random.below(8) as usize;
    while i < times.len() {
        nodes.push(times[i] - if random.below(2) == 0 { 0.0 } else { unit(random) });
        i += 47 + random.below(7) as usize;
    }
    nodes
}

fn ask_revolutions(list: &mut List, times: &[f64], nodes: &[f64], places: [usize; 4]) {
    list.call(REVOLUTIONS);
    slice(list, times);
    slice(list, nodes);
    list.ask_counts(&places);
}

fn accepted_revolutions(list: &mut List, times: &[f64], nodes: &[f64]) {
    let places = nodes.len().saturating_sub(1);
    ask_revolutions(list, times, nodes, [places; 4]);
    let found = revolutions(times, nodes);
    list.tell(0);
    list.tell(found.len() as u64);
    for k in 0..places { list.tell(found.get(k).map_or(0, |r| r.0.start as u64)); }
    for k in 0..places { list.tell(found.get(k).map_or(0, |r| r.0.end as u64)); }
    for k in 0..places { list.tell_float(found.get(k).map_or(0.0, |r| r.1)); }
    for k in 0..places { list.tell_float(found.get(k).map_or(0.0, |r| r.2)); }
}

fn refused_revolutions(list: &mut List, number: u64, times: &[f64], nodes: &[f64], places: [usize; 4]) {
    ask_revolutions(list, times, nodes, places);
    list.tell(number);
    list.tell(0);
    for _ in 0..places[0] + places[1] { list.tell(7); }
    for _ in 0..places[2] + places[3] { list.tell_float(HELD); }
}

struct Ranges {
    firsts: Vec<usize>,
    ends: Vec<usize>,
    starts: Vec<f64>,
    periods: Vec<f64>,
}

fn ask_detrend(list: &mut List, times: &[f64], values: &[f64], r: &Ranges, room: usize) {
    list.call(DETREND);
    slice(list, times);
    slice(list, values);
    counts(list, &r.firsts);
    counts(list, &r.ends);
    slice(list, &r.starts);
    slice(list, &r.periods);
    list.ask(room as u64);
}

/// Accepted, or 10 where a value is not finite.
fn worked(list: &mut List, times: &[f64], values: &[f64], r: &Ranges) {
    ask_detrend(list, times, values, r, 8 * times.len() + 3);
    let mut out = values.to_vec();
    let all: Vec<_> = (0..r.firsts.len()).map(|k| (r.firsts[k]..r.ends[k], r.starts[k], r.periods[k])).collect();
    detrend(times, &mut out, &all);
    if finite(&out) {
        list.tell(0);
        list.tell_all(&out);
    } else {
        list.tell(10);
        values.iter().for_each(|_| list.tell(0));
    }
    list.tell(0);
}

fn refused(list: &mut List, number: u64, times: &[f64], values: &[f64], r: &Ranges, room: usize) {
    ask_detrend(list, times, values, r, room);
    list.tell(number);
    list.tell_all(values);
    list.tell_left(true, room);
}

fn removed(list: &mut List, times: &[f64], values: &[f64], nodes: &[f64], short: usize) {
    let n = times.len();
    list.call(REMOVE);
    list.ask(n as u64);
    list.ask(2 * n as u64);
    list.ask_all(times);
    list.ask_all(values);
    slice(list, nodes);
    list.ask((8 * n - short) as u64);
    let mut epochs: Vec<Epoch> = times.iter().zip(values).map(|(t, v)| Epoch { t: *t, residual: *v, terms: [1.0; 5], mid: [2.0; 3], vel: [3.0; 3] }).collect();
    if short == 0 {
        remove_per_revolution(&mut epochs, nodes);
    }
    epochs.iter().for_each(|e| list.tell_float(e.t));
    epochs.iter().for_each(|e| list.tell_float(e.residual));
}

fn ask_nodes(list: &mut List, keys: &[i64], states: &[f64], places: usize) {
    list.call(NODES);
    list.ask(keys.len() as u64);
    list.ask(keys.len() as u64);
    list.ask_keys(keys);
    slice(list, states);
    list.ask(places as u64);
}

fn found_nodes(list: &mut List, keys: &[i64], heights: &[f64]) {
    let states: Vec<f64> = heights.iter().flat_map(|z| [1.0, 2.0, *z, 4.0, 5.0, 6.0]).collect();
    ask_nodes(list, keys, &states, keys.len());
    let sat = Satellite { states: keys.iter().zip(heights).map(|(k, z)| (*k, ([1.0, 2.0, *z], [4.0, 5.0, 6.0]))).collect(), accel_x: HashMap::new() };
    let nodes = ascending_nodes(&sat);
    if finite(&nodes) {
        list.tell(0);
        list.tell(nodes.len() as u64);
        for k in 0..keys.len() { list.tell_float(nodes.get(k).copied().unwrap_or(0.0)); }
    } else {
        list.tell(10);
        list.tell(0);
        keys.iter().for_each(|_| list.tell(0));
    }
}

fn refused_nodes(list: &mut List, number: u64, keys: &[i64], states: &[f64], places: usize) {
    ask_nodes(list, keys, states, places);
    list.tell(number);
    list.tell(0);
    for _ in 0..places { list.tell_float(HELD); }
}

/// Document 01's instance: 49 epochs pass undetrended, 50 are fitted; and the ends of a window.
fn instances(list: &mut List) {
    for n in [49usize, 50, 51] {
        let times: Vec<f64> = (0..n + 4).map(|k| 1000.0 + 2.0 * k as f64).collect();
        let values: Vec<f64> = (0..n + 4).map(|k| 1.0 + k as f64 + if k % 3 == 0 { 0.25 } else { -0.5 }).collect();
        // two epochs before the first node, n from it on, two from the second on
        let nodes = [1004.0, 1004.0 + 2.0 * n as f64];
        accepted_revolutions(list, &times, &nodes);
        removed(list, &times, &values, &nodes, 0);
        removed(list, &times, &values, &nodes[..1], 0);
        removed(list, &times, &values, &[], 0);
        removed(list, &times, &values, &nodes, 1);
    }
}

fn refusals(list: &mut List) {
    let times: Vec<f64> = (0..60).map(|k| 2.0 * k as f64).collect();
    let values: Vec<f64> = (0..60).map(|k| (k as f64).sin()).collect();
    let nodes = [0.0, 110.0];
    let many: Vec<f64> = (0..65).map(|k| k as f64).collect();
    for bad in [f64::NAN, f64::INFINITY, -1e-300, 2147483649.0] {
        let mut wrong = times.clone();
        wrong[7] = bad;
        refused_revolutions(list, 4, &wrong, &nodes, [1; 4]);
        refused_revolutions(list, 4, &times, &[0.0, bad], [1; 4]);
    }
    let mut level = times.clone();
    level[8] = level[7];
    refused_revolutions(list, 2, &times, &many, [64; 4]);
    for k in 0..4 {
        let mut places = [1; 4];
        places[k] = 2;
        refused_revolutions(list, 3, &times, &nodes, places);
        refused_revolutions(list, 3, &level, &nodes, places);
    }
    refused_revolutions(list, 5, &level, &nodes, [1; 4]);
    refused_revolutions(list, 5, &times, &[110.0, 110.0], [1; 4]);
    refused_revolutions(list, 5, &times, &[110.0, 0.0], [1; 4]);
    accepted_revolutions(list, &times, &[]);
    accepted_revolutions(list, &[], &nodes);
    accepted_revolutions(list, &[-0.0, 2147483648.0], &[-0.0, 2147483648.0]);

    let good = || Ranges { firsts: vec![0, 30], ends: vec![30, 60], starts: vec![0.0, 60.0], periods: vec![60.0, 60.0] };
    let room = 480;
    let many = Ranges { firsts: vec![0; 64], ends: vec![0; 64], starts: (0..64).map(|k| k as f64).collect(), periods: vec![1.0; 64] };
    refused(list, 2, &times, &values, &many, room);
    refused(list, 2, &times, &values, &Ranges { ends: vec![30, 61], ..good() }, room);
    refused(list, 2, &times, &values, &Ranges { firsts: vec![31, 30], ..good() }, room);
    refused(list, 3, &times, &values[1..], &good(), room);
    refused(list, 3, &times, &values, &Ranges { ends: vec![30], ..good() }, room);
    refused(list, 3, &times, &values, &Ranges { firsts: vec![0], ..good() }, room);
    refused(list, 3, &times, &values, &Ranges { starts: vec![0.0], ..good() }, room);
    refused(list, 3, &times, &values, &Ranges { periods: vec![60.0], ..good() }, room);
    refused(list, 3, &times, &values, &good(), room - 1);
    refused(list, 3, &times, &values, &good(), 0);
    for bad in [f64::NAN, f64::NEG_INFINITY] {
        let mut wrong = values.clone();
        wrong[59] = bad;
        refused(list, 4, &times, &wrong, &good(), room);
        refused(list, 4, &times, &values, &Ranges { periods: vec![60.0, bad], ..good() }, room);
        refused(list, 4, &times, &values, &Ranges { starts: vec![0.0, bad], ..good() }, room);
    }
    let mut late = times.clone();
    late[59] = 2147483649.0;
    refused(list, 4, &late, &values, &good(), room);
    refused(list, 4, &times, &values, &Ranges { starts: vec![-1.0, 60.0], ..good() }, room);
    refused(list, 5, &level, &values, &good(), room);
    refused(list, 5, &times, &values, &Ranges { starts: vec![60.0, 60.0], ..good() }, room);
    // 10: a period of 0 gives NaN rows, and large values overflow
    worked(list, &times, &values, &Ranges { periods: vec![0.0, 60.0], ..good() });
    let large: Vec<f64> = values.iter().map(|v| 1.7e308 * v).collect();
    worked(list, &times, &large, &good());
    // zeros of both signs, singular fits, empty and overlapping ranges, a negative period
    worked(list, &times, &vec![-0.0; 60], &good());
    worked(list, &times, &values, &Ranges { firsts: vec![3, 5], ends: vec![8, 5], ..good() });
    worked(list, &times, &values, &Ranges { firsts: vec![0, 20], ends: vec![40, 60], ..good() });
    worked(list, &times, &values, &Ranges { periods: vec![-60.0, 1e-3], ..good() });
    worked(list, &times, &values, &Ranges { firsts: vec![], ends: vec![], starts: vec![], periods: vec![] });
    worked(list, &[], &[], &Ranges { firsts: vec![0], ends: vec![0], starts: vec![0.0], periods: vec![1.0] });

    let keys: Vec<i64> = (100..110).collect();
    let states: Vec<f64> = (0..60).map(|k| k as f64 - 30.0).collect();
    refused_nodes(list, 3, &keys, &states[1..], 10);
    refused_nodes(list, 3, &keys, &states, 9);
    for bad in [-1, 2147483649, i64::MIN, i64::MAX] {
        let mut wrong = keys.clone();
        wrong[9] = bad;
        refused_nodes(list, 4, &wrong, &states, 10);
    }
    for bad in [f64::NAN, f64::INFINITY] {
        let mut wrong = states.clone();
        wrong[59] = bad;
        refused_nodes(list, 4, &keys, &wrong, 10);
    }
    let mut level = keys.clone();
    level[4] = level[3];
    refused_nodes(list, 5, &level, &states, 10);
    level[4] = 0;
    refused_nodes(list, 5, &level, &states, 10);
    found_nodes(list, &[], &[]);
    found_nodes(list, &[2147483647, 2147483648], &[-1.0, 1.0]);
    found_nodes(list, &[5, 6, 7, 8], &[-1.0, 0.0, -1.0, -0.0]);
    found_nodes(list, &[5, 6, 7, 8], &[0.0, 1.0, -0.0, 1.0]);
    found_nodes(list, &[5, 7, 8, 10], &[-1.0, 1.0, -1.0, 1.0]);
    found_nodes(list, &[5, 6], &[-1.7e308, 1.7e308]);
    found_nodes(list, &[5, 6, 7], &[1.0, 2.0, 3.0]);
}

pub fn make(list: &mut List, seed: u64) {
    let mut random = Rng::new(seed);
    instances(list);
    refusals(list);
    for _ in 0..40 {
        let start = random.below(2_000_000) as f64 + if random.below(2) == 0 { 0.0 } else { unit(&mut random) };
        let n = 40 + random.below(160) as usize;
        let times = moments(&mut random, n, start);
        let values = values_at(&mut random, &times);
        let nodes = parting(&mut random, &times);
        accepted_revolutions(list, &times, &nodes);
        removed(list, &times, &values, &nodes, 0);
        let found = revolutions(&times, &nodes);
        let split = times.len() / 2;
        let mut ranges = Ranges { firsts: vec![0, split], ends: vec![split, n], starts: vec![times[0], times[split]], periods: vec![5600.0, times[n - 1] - times[split]] };
        if !found.is_empty() {
            ranges = Ranges { firsts: found.iter().map(|r| r.0.start).collect(), ends: found.iter().map(|r| r.0.end).collect(), starts: found.iter().map(|r| r.1).collect(), periods: found.iter().map(|r| r.2).collect() };
        }
        worked(list, &times, &values, &ranges);
        let mut key = random.below(1_000_000) as i64;
        let keys: Vec<i64> = (0..30).map(|_| { key += 1 + (random.below(6) == 0) as i64; key }).collect();
        let heights: Vec<f64> = (0..30).map(|_| 6e6 * (unit(&mut random) - 0.5)).collect();
        found_nodes(list, &keys, &heights);
    }
}
