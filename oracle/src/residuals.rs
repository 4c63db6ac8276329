// Module 5. Answers by the source's `epoch` and `residuals`, refusals by document 01's table. Scratch and outputs stand at
// 7.0 before a call: unchanged after refusals 1 to 5; else the scratch is +0.0, and so are outputs after the count.
use crate::fieldlists::{Fields, LAST, Observing, Rows, WILD, coefficients, places, random_added, random_list, record_fine, with};
use crate::generate::{polar, unit};
use crate::list::{List, step};
use crate::source::{Epoch, Rng, epoch, residuals};

const EPOCH: u64 = 0;
const RESIDUALS: u64 = 1;

impl Observing {
    fn ask(&self, list: &mut List, number: u64) {
        list.call(number);
        list.ask(self.fields.degree as u64);
        self.fields.parts().iter().for_each(|part| list.ask_list(part));
        for rows in &self.rows {
            list.ask(rows.keys.len() as u64);
            list.ask_keys(&rows.keys);
            list.ask_list(&rows.values);
        }
    }

    // one epoch: its time, value and byte are the first observation's
    fn epoch(&self, list: &mut List) {
        self.ask(list, EPOCH);
        list.ask(self.scratch as u64);
        list.ask_float(self.obs[0]);
        list.ask_float(self.values[0]);
        list.ask(self.good[0] as u64);
        self.tell_epoch(list);
    }

    fn tell_epoch(&self, list: &mut List) {
        let early = self.refusal(false);
        let kept = if early != 0 || self.good[0] == 0 { vec![] } else {
            let mut buf = coefficients(self.fields.degree, &self.fields.field);
            self.records(|inp| epoch(inp, &mut buf.clone(), self.obs[0], self.values[0]).into_iter().collect())
        };
        let told = |list: &mut List, number: u64, kept: u64, e: &Epoch| {
            list.tell(number);
            list.tell(kept);
            tell_record(list, e);
        };
        let zeros = Epoch::default();
        match kept.first() {
            Some(e) if record_fine(e) => told(list, 0, 1, e),
            Some(_) => told(list, 10, 0, &zeros),
            None => told(list, early as u64, 0, &zeros),
        }
        list.tell_left(early != 0, self.scratch);
    }
}

impl Observing {
    // all epochs: what was asked for one, with room for each observation
    fn with(&self, obs: &[f64], random: &mut Rng) -> Observing {
        let m = obs.len();
        let mut out = self.clone();
        out.obs = obs.to_vec();
        out.values = obs.iter().map(|_| 1e-3 * (unit(random) - 0.5)).collect();
        out.good = vec![1; m];
        out.outs = [m; 5];
        out.scratch += 10 * m;
        out
    }

    fn all(&self, list: &mut List) {
        self.ask(list, RESIDUALS);
        list.ask(self.scratch as u64);
        list.ask_list(&self.obs);
        list.ask_list(&self.values);
        list.ask(self.good.len() as u64);
        self.good.iter().for_each(|b| list.ask(*b as u64));
        list.ask_counts(&self.outs);
        let early = self.refusal(true);
        let obs = if early != 0 { vec![] } else { self.observations() };
        let kept = if obs.is_empty() { vec![] } else { self.records(|inp| residuals(inp, &obs)) };
        let late = if kept.iter().all(record_fine) { 0 } else { 10 };
        let kept = if late == 0 { kept } else { vec![] };
        list.tell(if early != 0 { early as u64 } else { late });
        list.tell(kept.len() as u64);
        let rest = if early != 0 { 7.0 } else { 0.0 };
        let told = |list: &mut List, places: usize, width: usize, number: &dyn Fn(&Epoch) -> Vec<f64>| {
            kept.iter().for_each(|e| list.tell_all(&number(e)));
            list.tell_all(&vec![rest; (places - kept.len()) * width]);
        };
        told(list, self.outs[0], 1, &|e| vec![e.t]);
        told(list, self.outs[1], 1, &|e| vec![e.residual]);
        told(list, self.outs[2], 5, &|e| e.terms.to_vec());
        told(list, self.outs[3], 3, &|e| e.mid.to_vec());
        told(list, self.outs[4], 3, &|e| e.vel.to_vec());
        list.tell_left(early != 0, self.scratch);
    }
}

pub fn tell_record(list: &mut List, e: &Epoch) {
    list.tell_float(e.t);
    list.tell_float(e.residual);
    list.tell_all(&e.terms);
    list.tell_all(&e.mid);
    list.tell_all(&e.vel);
}

fn asked(random: &mut Rng, n: usize, count: usize, keys: &[i64], obs: &[f64]) -> Observing {
    let times: Vec<f64> = (0..count).map(|k| 10800.0 * k as f64).collect();
    let mut added = random_added(random, n, count);
    added.chunks_mut(2 + 2 * places(n)).for_each(|f| f[2] = 0.0);
    let mut field = random_list(random, n, 3.986_004_415e14, 6_378_136.3, 1e-5);
    field[2] = 1.0;
    let fields = Fields::of(n, field, times, added);
    let accs = |random: &mut Rng| Rows { keys: keys.to_vec(), values: keys.iter().map(|_| 1e-7 * (unit(random) - 0.5)).collect(), width: 1 };
    Observing {
        rows: [polar(keys, 0.0), polar(keys, 0.032), accs(random), accs(random)],
        obs: obs.to_vec(), values: obs.iter().map(|_| 1e-3 * (unit(random) - 0.5)).collect(), good: vec![1; obs.len()], outs: [0; 5],
        scratch: fields.least_scratch(), fields,
    }
}

fn refusals(list: &mut List, base: &Observing) {
    let mut said = |change: &dyn Fn(&mut Observing)| with(base, |a| change(a)).epoch(list);
    // 1
    for n in [0, 1, 181, 100000] {
        said(&|a| a.fields.degree = n);
        said(&|a| { a.fields.degree = n; a.fields.times.clear(); a.fields.field.pop(); a.values[0] = f64::NAN });
    }
    // 2
    said(&|a| { a.fields.times.truncate(1); a.fields.field.pop(); });
    said(&|a| { a.fields.times.clear(); a.obs[0] = -1.0 });
    said(&|a| { a.fields.times = (0..33).map(|k| k as f64).collect(); a.fields.a.pop(); });
    // 3
    said(&|a| { a.fields.field.pop(); });
    said(&|a| a.fields.field.push(f64::NAN));
    said(&|a| { a.fields.a.pop(); });
    said(&|a| a.fields.a.push(f64::NAN));
    said(&|a| { a.fields.b.pop(); });
    said(&|a| a.fields.b.push(0.0));
    said(&|a| { a.fields.added.pop(); });
    said(&|a| a.fields.added.push(0.0));
    said(&|a| { a.fields.times.pop(); a.fields.times[0] = f64::NAN });
    for k in 0..4 {
        said(&|a| { a.rows[k].values.pop(); });
        said(&|a| a.rows[k].values.push(f64::NAN));
        said(&|a| { a.rows[k].keys.pop(); a.rows[k].keys[0] = -1 });
    }
    said(&|a| a.scratch -= 1);
    said(&|a| a.scratch = 0);
    // 4
    for w in WILD {
        said(&|a| a.fields.field[3] = w);
        said(&|a| a.fields.field[0] = w);
        said(&|a| { a.fields.a[2] = w; a.fields.times[1] = a.fields.times[0] });
        said(&|a| *a.fields.b.last_mut().unwrap() = w);
        said(&|a| *a.fields.added.last_mut().unwrap() = w);
        said(&|a| a.fields.times[0] = w);
        for k in 0..4 {
            said(&|a| { *a.rows[k].values.last_mut().unwrap() = w; a.rows[k].keys.reverse() });
        }
        said(&|a| a.obs[0] = w);
        said(&|a| a.values[0] = w);
        said(&|a| { a.values[0] = w; a.good[0] = 0 });
    }
    for t in [-5e-324, -1.0, step(LAST, 1)] {
        said(&|a| a.obs[0] = t);
        said(&|a| *a.fields.times.last_mut().unwrap() = t);
    }
    for k in 0..4 {
        said(&|a| a.rows[k].keys[0] = -1);
        said(&|a| *a.rows[k].keys.last_mut().unwrap() = 2147483649);
        said(&|a| *a.rows[k].keys.last_mut().unwrap() = i64::MAX);
        said(&|a| a.rows[k].keys[1] = i64::MIN);
    }
    // 5
    said(&|a| a.fields.times[1] = a.fields.times[0]);
    said(&|a| a.fields.times.reverse());
    for k in 0..4 {
        said(&|a| a.rows[k].keys[1] = a.rows[k].keys[0]);
        said(&|a| a.rows[k].keys.reverse());
    }
    // no refusal: more scratch than is needed is cleared as well
    said(&|a| a.scratch += 77);
    // 10: D where C is, and numbers that overflow
    said(&|a| a.rows[1].values = a.rows[0].values.clone());
    said(&|a| a.rows[0].values[3] = 1e300);
    said(&|a| a.fields.field[0] = 1e308);
}

// all epochs: refusals, and lists of which some are kept
fn lists(list: &mut List, random: &mut Rng, base: &Observing) {
    let obs = [0.0, 0.999, 1.0, 2.0, step(3.0, -1), 3.0, 4.5, 5.0, 100.75, 5400.5, 10800.0, 21599.5, step(21600.0, -1), 21600.0, 21600.5];
    let all = base.with(&obs, random);
    let few = base.with(&obs[2..5], random);
    let mut said = |asked: &Observing, change: &dyn Fn(&mut Observing)| with(asked, |a| change(a)).all(list);
    said(&all, &|_| ());
    said(&all, &|a| a.good = (0..15).map(|i| [0, 1, 255][i % 3]).collect());
    said(&all, &|a| a.good.fill(0));
    said(&all, &|a| a.good[14] = 0);
    said(&all, &|a| a.scratch += 77);
    said(&base.with(&[], random), &|_| ());
    for t in [0.0, 1.0, 5e-324, 21600.5] {
        said(&base.with(&[t], random), &|_| ());
    }
    for k in 0..4 {
        said(&all, &|a| a.rows[k].drop_entry(1));
        said(&all, &|a| { a.rows[k].keys.clear(); a.rows[k].values.clear(); });
    }
    for n in [3, 5] {
        let a = asked(random, n, 3, &base.rows[0].keys, &[0.0]);
        said(&a.with(&obs[..9], random), &|_| ());
    }
    // 1 and 2
    for n in [1, 181] {
        said(&few, &|a| { a.fields.degree = n; a.fields.times.clear(); a.outs[0] = 2 });
    }
    said(&few, &|a| { a.fields.times.truncate(1); a.good.pop(); });
    // 3
    said(&few, &|a| { a.values.pop(); });
    said(&few, &|a| a.values.push(f64::NAN));
    said(&few, &|a| { a.good.pop(); });
    said(&few, &|a| a.good.push(1));
    for k in 0..5 {
        said(&few, &|a| { a.outs[k] -= 1; a.obs[0] = -1.0 });
        said(&few, &|a| a.outs[k] += 1);
    }
    said(&few, &|a| { a.scratch -= 1; a.obs[0] = a.obs[1] });
    said(&few, &|a| a.scratch -= 30);
    said(&few, &|a| { a.fields.field.pop(); });
    said(&few, &|a| { a.rows[3].values.pop(); });
    // 4, also of an observation that is not good
    for w in WILD {
        said(&few, &|a| a.obs[2] = w);
        said(&few, &|a| { a.values[1] = w; a.obs.reverse() });
        said(&few, &|a| { a.values[0] = w; a.good[0] = 0 });
        said(&few, &|a| { a.obs[1] = w; a.good.fill(0) });
        said(&few, &|a| a.rows[0].values[7] = w);
    }
    for t in [-5e-324, step(LAST, 1)] {
        said(&few, &|a| { a.obs[0] = t; a.good[0] = 0 });
    }
    // 5
    said(&few, &|a| a.obs.reverse());
    said(&few, &|a| { a.obs[1] = a.obs[0]; a.good[0] = 0 });
    said(&few, &|a| { a.obs[0] = -0.0; a.obs[1] = 0.0 });
    said(&few, &|a| a.fields.times.reverse());
    said(&few, &|a| a.rows[2].keys.reverse());
    // 10: one record, the first, one between and the last; and none where its epoch is not kept
    for k in [0, 1, 4, 8] {
        let same = |a: &mut Observing| { let w = a.rows[0].values[6 * k..6 * k + 6].to_vec(); a.rows[1].values[6 * k..6 * k + 6].copy_from_slice(&w); };
        said(&all, &|a| same(a));
        said(&all, &|a| { same(a); let key = a.rows[0].keys[k] as f64; for i in 0..15 { if a.obs[i].floor() == key { a.good[i] = 0; } } });
    }
}

pub fn make(list: &mut List, seed: u64) {
    let mut random = Rng::new(seed);
    let keys: Vec<i64> = vec![0, 2, 4, 5, 100, 5400, 10799, 10800, 21599];
    let base = asked(&mut random, 2, 3, &keys, &[100.5]);
    refusals(list, &base);
    // one epoch: whole and broken times, the ends of the fields, seconds without an entry, each byte
    let mut times = vec![0.0, -0.0, 5e-324, 0.999, 1.0, 2.0, step(3.0, -1), 3.0, 3.999, step(4.0, -1), 4.0, 4.5, 5.0, step(6.0, -1), 99.99, 100.0, 100.75, 101.0];
    times.extend([5400.0, 5400.5, step(10800.0, -1), 10800.0, 10800.001, 16200.5, 21599.0, step(21600.0, -1), 21600.0, 21600.5, 1e9, LAST]);
    for n in [2, 3, 5] {
        for t in times.iter().step_by(n - 1) {
            let a = asked(&mut random, n, 3, &keys, &[*t]);
            a.epoch(list);
            if n == 2 {
                for k in 0..4 {
                    with(&a, |a| a.rows[k].drop_entry(3)).epoch(list);
                }
                with(&a, |a| a.good[0] = 0).epoch(list);
                with(&a, |a| a.good[0] = 255).epoch(list);
            }
        }
    }
    // the last key, and a model that covers it
    let end = vec![2147483646, 2147483647, 2147483648];
    for t in [LAST - 2.0, LAST - 1.5, LAST - 1.0, step(LAST, -1), LAST] {
        let mut a = asked(&mut random, 2, 2, &end, &[t]);
        a.fields.times = vec![0.0, LAST];
        a.epoch(list);
        a.fields.times = vec![LAST - 1.0, LAST];
        a.epoch(list);
    }
    // signs of zero: nothing observed and no acceleration
    with(&base, |a| a.values[0] = 0.0).epoch(list);
    with(&base, |a| { a.values[0] = -0.0; a.rows[2].values.fill(0.0); a.rows[3].values.fill(-0.0) }).epoch(list);
    with(&base, |a| { a.rows[2].values.fill(-0.0); a.rows[3].values.fill(0.0) }).epoch(list);
    lists(list, &mut random, &base);
}
