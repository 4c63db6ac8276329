// Module 5: one epoch of a list of observations, all of them kept.
use crate::fieldlists::Rows;
use crate::generate::{gauss, polar, random_fields};
use crate::source::{Inputs, Rng, residuals};
use crate::timing::Bench;
use pozsmeteg::raw;

fn epochs(bench: &mut Bench, n: usize, m: usize, count: usize) -> (f64, f64) {
    let mut random = Rng::new(9);
    let fields = random_fields(&mut random, n, vec![0.0, 10_800.0, 21_600.0]);
    let model = fields.source();
    let keys: Vec<i64> = (0..2 * m as i64).step_by(2).collect();
    let (c, d) = (polar(&keys, 0.0), polar(&keys, 0.032));
    let acc = Rows { values: keys.iter().map(|_| 1e-8 * gauss(&mut random)).collect(), keys: keys.clone(), width: 1 };
    let obs: Vec<(f64, f64, bool)> = keys.iter().map(|k| (*k as f64, 1e-3 * gauss(&mut random), true)).collect();
    let (cs, ds, accs) = (c.states(), d.states(), acc.numbers());
    let inputs = Inputs { model: &model, c: &cs, d: &ds, c_acc: &accs, d_acc: &accs };
    let (seen, values): (Vec<f64>, Vec<f64>) = obs.iter().map(|o| (o.0, o.1)).unzip();
    let good = vec![1; m];
    let mut scratch = vec![0.0; fields.least_scratch() + 10 * m];
    bench.compare(
        &format!("epoch, N = {n}, M = {m}"), count, m,
        &mut || residuals(&inputs, &obs).iter().flat_map(|e| [&[e.t, e.residual], &e.terms[..], &e.mid[..], &e.vel[..]].concat()).collect(),
        &mut || {
            let (mut times_out, mut out, mut terms, mut mids, mut vels) = (vec![0.0; m], vec![0.0; m], vec![[0.0; 5]; m], vec![[0.0; 3]; m], vec![[0.0; 3]; m]);
            let mut counts = [0];
            raw::residuals(
                fields.lent(),
                raw::Pair { c: c.lent(), d: d.lent(), c_acc: acc.lent(), d_acc: acc.lent() },
                raw::Observations { times: &seen, values: &values, good: &good },
                raw::Records { times: &mut times_out, residuals: &mut out, terms: &mut terms, mids: &mut mids, vels: &mut vels }, &mut counts, &mut scratch,
            );
            (0..counts[0]).flat_map(|k| [&[times_out[k], out[k]], &terms[k][..], &mids[k][..], &vels[k][..]].concat()).collect()
        },
    )
}

pub fn works(bench: &mut Bench) {
    let points: Vec<_> = [(2, 2_000, 5), (20, 1_000, 3), (60, 400, 2), (180, 100, 1)].iter().map(|(n, m, count)| (*n as f64, epochs(bench, *n, *m, *count))).collect();
    bench.growth("epoch in N", &points[1..]);
    let points: Vec<_> = [(500, 10), (2_000, 5), (8_000, 1)].iter().map(|(m, count)| { let t = epochs(bench, 2, *m, *count); (*m as f64, (t.0 * *m as f64, t.1 * *m as f64)) }).collect();
    bench.growth("residuals in M", &points);
}
