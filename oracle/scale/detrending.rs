// Revolutions and detrending: windows about 50 epochs, times on nodes, zeros, singular ranges, 100,000 times and one more, 64 nodes
// and one more, each cause of refusal.
use crate::fieldlists::{finite, is_time, rising};
use crate::generate::{gauss, unit};
use crate::lent::*;
use crate::source::{Rng, detrend, revolutions};
use crate::tally::Tally;
use pozsmeteg::raw;

fn samples(random: &mut Rng) -> Vec<f64> {
    let n = match random.below(200) { 0 => 100_000, 1 => 100_001, 2..20 => random.below(60), _ => random.below(900) };
    if n > 10_000 { (0..n).map(|k| 2.0 * k as f64).collect() } else { rising_times(random, n) }
}

/// Nodes on times, between them and outside, some windows of 49, 50 and 51 epochs.
fn parting(random: &mut Rng, times: &[f64]) -> Vec<f64> {
    let mut nodes: Vec<f64> = Vec::new();
    let mut at = random.below(30);
    while at < times.len() && nodes.len() < 64 {
        let t = times[at];
        let node = match random.below(4) { 0 => t, 1 => t.next_up(), 2 => if t > 0.0 { t.next_down() } else { t }, _ => t + 0.7 * unit(random) };
        if nodes.last().is_none_or(|last| *last < node) { nodes.push(node); }
        at += if times.len() > 10_000 { 1_000 + random.below(2_000) } else { [1, 20, 48, 49, 50, 51, 52, 90, 200][random.below(9)] };
    }
    match random.below(30) {
        0 => nodes = (0..65).map(|k| k as f64).collect(),
        1 => nodes = (0..64).map(|k| k as f64).collect(),
        2 => nodes.clear(),
        3 => nodes.truncate(1),
        _ => (),
    }
    nodes
}

fn listing(tally: &mut Tally, rounds: u64) {
    tally.begin("revolutions");
    for case in 0..2 * rounds {
        let mut random = tally.random(case);
        let mut times = samples(&mut random);
        let mut nodes = parting(&mut random, &times);
        let k = nodes.len().saturating_sub(1);
        let mut lengths = [k; 4];
        for _ in 0..[0, 0, 1, 1, 2][random.below(5)] {
            let time = edge_time(&mut random);
            match random.below(5) {
                0 => lengths[random.below(4)] = (k + 1).saturating_sub(2 * random.below(2)),
                1 => put_edge(&mut times, time),
                2 => put_edge(&mut nodes, time),
                3 => unsorted(&mut random, &mut times),
                _ => unsorted(&mut random, &mut nodes),
            }
        }
        let handed = if random.below(20) == 0 { [0, 2][random.below(2)] } else { 1 };
        let (mut firsts, mut ends, mut counts) = (vec![77; lengths[0]], vec![88; lengths[1]], vec![99; handed]);
        let (mut starts, mut periods) = (Lent::new(&mut random, lengths[2]), Lent::new(&mut random, lengths[3]));
        let told = raw::revolutions(&times, &nodes, &mut firsts, &mut ends, &mut starts.now, &mut periods.now, &mut counts);
        let number = if times.len() > 100_000 || nodes.len() > 64 { 2 } else if lengths != [k; 4] || handed != 1 { 3 }
            else if !times.iter().chain(&nodes).all(|t| is_time(*t)) { 4 } else if !rising(&times) || !rising(&nodes) { 5 } else { 0 };
        let found = if number == 0 { revolutions(&times, &nodes) } else { vec![] };
        tally.answered(number);
        let whole = |f: &dyn Fn(usize) -> usize| (0..k).map(|i| if i < found.len() { f(i) } else { 0 }).collect::<Vec<usize>>();
        let broken = |f: &dyn Fn(usize) -> f64| (0..k).map(|i| if i < found.len() { f(i) } else { 0.0 }).collect::<Vec<f64>>();
        let equal = told == number && starts.settled(number, &broken(&|i| found[i].1)) && periods.settled(number, &broken(&|i| found[i].2))
            && if number == 0 { firsts == whole(&|i| found[i].0.start) && ends == whole(&|i| found[i].0.end) && counts == [found.len()] }
            else { firsts == vec![77; lengths[0]] && ends == vec![88; lengths[1]] && counts == vec![99; handed] };
        tally.judge(equal, || format!("case {case}: {} times, {} nodes, told {told}, expected {number}", times.len(), nodes.len()));
    }
    tally.end("");
}

/// Ranges of any kind: of revolutions, empty, overlapping, short.
fn ranges(random: &mut Rng, n: usize) -> Vec<(usize, usize, f64, f64)> {
    let count = match random.below(30) { 0 => 63, 1 => 64, 2 => 0, _ => 1 + random.below(6) };
    let mut start = 1e3 * unit(random);
    (0..count).map(|_| {
        let (a, b) = (random.below(n + 1), random.below(n + 1));
        let range = match random.below(6) { 0 => (a, a), 1 => (a, (a + random.below(8)).min(n)), _ => (a.min(b), a.max(b)) };
        start += 1.0 + 100.0 * unit(random);
        let period = match random.below(60) { 0 => 0.0, 1 => 1e-5, 2..6 => -5_650.0, _ => 200.0 + 6_000.0 * unit(random) };
        (range.0, range.1, start, period)
    }).collect()
}

fn removing(tally: &mut Tally, rounds: u64) {
    tally.begin("detrend");
    for case in 0..2 * rounds {
        let mut random = tally.random(case);
        let mut times = samples(&mut random);
        let n = times.len();
        let size = 10f64.powi(random.below(20) as i32 - 12);
        let mut values: Vec<f64> = times.iter().map(|t| size * (1.0 + 1e-4 * t + (1.1e-3 * t).sin() + 0.1 * gauss(&mut random))).collect();
        let asked = if n > 10_000 && random.below(2) == 0 { vec![(0, n, 1.0, 5_650.0)] } else { ranges(&mut random, n) };
        let mut firsts: Vec<usize> = asked.iter().map(|r| r.0).collect();
        let mut ends: Vec<usize> = asked.iter().map(|r| r.1).collect();
        let mut starts: Vec<f64> = asked.iter().map(|r| r.2).collect();
        let mut periods: Vec<f64> = asked.iter().map(|r| r.3).collect();
        for _ in 0..[0, 0, 0, 1, 1, 2][random.below(6)] {
            let (bad, time) = (strange(&mut random), edge_time(&mut random));
            match random.below(13) {
                0 => off_by_one(&mut random, &mut values, bad),
                1 => off_by_one(&mut random, &mut firsts, 0),
                2 => off_by_one(&mut random, &mut ends, n),
                3 => off_by_one(&mut random, &mut starts, bad),
                4 => off_by_one(&mut random, &mut periods, bad),
                5 => put(&mut random, &mut ends, n + 1),
                6 => if let Some(k) = firsts.len().min(ends.len()).checked_sub(1) { firsts[k] = [ends[k] + 1, usize::MAX][random.below(2)] },
                7 => put_edge(&mut times, time),
                8 => put(&mut random, &mut values, bad),
                9 => put_edge(&mut starts, time),
                10 => put(&mut random, &mut periods, bad),
                11 => { unsorted(&mut random, &mut times); if random.below(2) == 0 { unsorted(&mut random, &mut starts) } }
                _ => values.iter_mut().for_each(|v| *v = if random.below(2) == 0 { 0.0 } else { -0.0 }),
            }
        }
        let room = scratch_length(&mut random, 8 * n);
        let (mut out, mut scratch) = (Lent::holding(values.clone()), Lent::new(&mut random, room));
        let told = raw::detrend(&times, &mut out.now, &firsts, &ends, &starts, &periods, &mut scratch.now);
        let k = firsts.len();
        let inside = firsts.iter().zip(&ends).all(|(a, b)| a <= b && *b <= n);
        let early = if n > 100_000 || starts.len() > 63 || !inside { 2 }
            else if values.len() != n || ends.len() != k || starts.len() != k || periods.len() != k || room < 8 * n { 3 }
            else if !times.iter().chain(&starts).all(|t| is_time(*t)) || !finite(&values) || !finite(&periods) { 4 }
            else if !rising(&times) || !rising(&starts) { 5 } else { 0 };
        let mut detrended = values.clone();
        if early == 0 {
            let revolutions: Vec<_> = (0..k).map(|i| (firsts[i]..ends[i], starts[i], periods[i])).collect();
            detrend(&times, &mut detrended, &revolutions);
        }
        let number = if early != 0 { early } else if finite(&detrended) { 0 } else { 10 };
        tally.answered(number);
        let equal = told == number && out.settled(number, &detrended) && scratch.left(number);
        tally.judge(equal, || format!("case {case}: {n} times, {k} ranges, told {told}, expected {number}"));
    }
    tally.end("");
}

pub fn compare(tally: &mut Tally, rounds: u64) {
    listing(tally, rounds);
    removing(tally, rounds);
}
