// Module 8: the whole path, one revolution at each N, and by windows and by observations at N = 2.
use crate::flat::Flat;
use crate::generate::{Plan, generate};
use crate::timing::Bench;
use crate::whole::whole;
use pozsmeteg::raw;

fn sheet(bench: &mut Bench, name: &str, n: usize, windows: usize, window: f64, thin: usize, runs: usize) -> (usize, (f64, f64)) {
    let plan = Plan { seed: 3, n, base: 695_304_000, windows, window, real: false, step: 1, noise: 0.01, truth_j2: true, tail: 1_815.0, frac: true, field_step: 10_800.0 };
    let mut s = generate(&plan);
    let mut k = 0;
    s.obs.retain(|_| { k += 1; k % thin == 0 });
    let (lists, m) = (Flat::new(&s), s.obs.len());
    let mut scratch = vec![0.0; lists.room()];
    let times = bench.compare_runs(
        name,
        runs,
        &mut || { let w = whole(&s).expect("a sheet"); w.lists.concat().into_iter().chain([w.f as f64]).collect() },
        &mut || {
            let [mut times, mut raws, mut detrended, mut passed] = [(); 4].map(|_| vec![0.0; m]);
            let mut counts = [0, 0];
            let out = raw::Published { times: &mut times, raws: &mut raws, detrended: &mut detrended, passed: &mut passed };
            raw::sheet(lists.model(), lists.pair(), lists.nodes(), lists.observations(), out, &mut counts, &mut scratch);
            [&times[..counts[0]], &raws[..counts[0]], &detrended[..counts[0]], &passed[..counts[0]], &[counts[1] as f64]].concat()
        },
    );
    (m, times)
}

pub fn works(bench: &mut Bench) {
    let points: Vec<_> = [(2, 2), (20, 2), (60, 1), (180, 1)].iter().map(|(n, runs)| (*n as f64, sheet(bench, &format!("whole path, N = {n}"), *n, 1, 5_650.0, 1, *runs).1)).collect();
    bench.growth("whole path in N", &points[1..]);
    let points: Vec<_> = [1, 2, 4].iter().map(|k| (*k as f64, sheet(bench, &format!("whole path, {k} windows"), 2, *k, 400.0, 1, 2).1)).collect();
    bench.growth("whole path in windows", &points);
    let points: Vec<_> = [8, 2, 1].iter().map(|thin| { let (m, t) = sheet(bench, &format!("whole path, every {thin}. obs."), 2, 1, 5_650.0, *thin, 2); (m as f64, t) }).collect();
    bench.growth("whole path in M", &points);
}
