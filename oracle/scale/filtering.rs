// The band-pass: runs about 64 samples, 100,000 samples and one more, each cause of refusal.
use crate::fieldlists::{finite, is_time, rising};
use crate::generate::{gauss, unit};
use crate::lent::*;
use crate::source::band_pass;
use crate::tally::Tally;
use pozsmeteg::raw;

pub fn compare(tally: &mut Tally, rounds: u64) {
    tally.begin("band_pass");
    for case in 0..2 * rounds {
        let mut random = tally.random(case);
        let n = match random.below(200) { 0 => 100_000, 1 => 100_001, 2..10 => random.below(4), 10..60 => 62 + random.below(6), 60..70 => 1_500 + random.below(10), _ => random.below(1_000) };
        let mut times = if n > 10_000 { (0..n).map(|k| 2.0 * k as f64).collect() } else { rising_times(&mut random, n) };
        let size = 10f64.powi(random.below(20) as i32 - 12);
        let wave = 0.05 * unit(&mut random);
        let mut x: Vec<f64> = times.iter().map(|t| size * ((wave * t).sin() + 0.1 * gauss(&mut random))).collect();
        let mut places = n;
        for _ in 0..[0, 0, 0, 1, 1, 2][random.below(6)] {
            let (bad, time) = (strange(&mut random), edge_time(&mut random));
            match random.below(7) {
                0 => off_by_one(&mut random, &mut x, bad),
                1 => places = (n + 1).saturating_sub(2 * random.below(2)),
                2 => put_edge(&mut times, time),
                3 => put(&mut random, &mut x, bad),
                4 => unsorted(&mut random, &mut times),
                5 => x.iter_mut().for_each(|v| *v = 1.7e308 * (*v / size).signum()),
                _ => x.iter_mut().for_each(|v| *v *= 0.0),
            }
        }
        let room = scratch_length(&mut random, 8 * n);
        let (mut out, mut scratch) = (Lent::new(&mut random, places), Lent::new(&mut random, room));
        let told = raw::band_pass(&times, &x, &mut out.now, &mut scratch.now);
        let early = if n > 100_000 { 2 } else if x.len() != n || places != n || room < 8 * n { 3 }
            else if !times.iter().all(|t| is_time(*t)) || !finite(&x) { 4 } else if !rising(&times) { 5 } else { 0 };
        let passed = if early == 0 { band_pass(&times, &x) } else { vec![] };
        let number = if early != 0 { early } else if finite(&passed) { 0 } else { 10 };
        tally.answered(number);
        let equal = told == number && out.settled(number, &passed) && scratch.left(number);
        tally.judge(equal, || format!("case {case}: {n} samples, told {told}, expected {number}"));
    }
    tally.end("");
}
