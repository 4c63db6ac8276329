// Module 4: the fit of one window, a revolution of 5,650 s with 30 minutes either side, to states of every second.
use crate::generate::{low_orbit, random_fields, unit};
use crate::source::*;
use crate::timing::Bench;
use pozsmeteg::raw;

fn window(bench: &mut Bench, n: usize, runs: usize) -> (f64, f64) {
    let mut r = Rng::new(3);
    let a = 12_345.0 + unit(&mut r);
    let b = a + 5_650.0 + unit(&mut r);
    let t0 = 2.0 * ((a - 1800.0) / 2.0).floor();
    let arc = Arc { t0, steps: ((b + 1800.0 - t0) / 2.0).ceil() as usize, node: a, period: b - a };
    let states = low_orbit(&mut r, t0 as i64, 2 * arc.steps as i64 + 1, -0.25, 0);
    let fields = random_fields(&mut r, n, vec![0.0, 10_800.0, 21_600.0]);
    let (model, known) = (fields.source(), states.states());
    let mut buffer = model.fields[0].1.clone();
    let mut scratch = vec![0.0; fields.least_scratch()];
    bench.compare_runs(
        &format!("fitted window, N = {n}"),
        runs,
        &mut || {
            let (states, rms) = fit_orbit(&model, &known, arc, &mut buffer).expect("a fit");
            states.iter().flat_map(|s| [s.0, s.1].concat()).chain([rms]).collect()
        },
        &mut || {
            let mut out = vec![0.0; 6 * (arc.steps + 1)];
            let asked = raw::Arc { t0: arc.t0, steps: arc.steps, node: arc.node, period: arc.period };
            let mut rms = [0.0];
            raw::fit_orbit(fields.lent(), states.lent(), asked, &mut out, &mut rms, &mut scratch);
            out.extend(rms);
            out
        },
    )
}

pub fn works(bench: &mut Bench) {
    let points: Vec<_> = [(2, 3), (20, 3), (60, 2), (180, 1)].iter().map(|(n, runs)| (*n as f64, window(bench, *n, *runs))).collect();
    bench.growth("fitted window in N", &points[1..]);
}
