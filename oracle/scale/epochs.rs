// The records of a list of observations: bounds of every list, each length off by one, each cause of refusal, seconds without an entry.
use crate::fieldlists::{Fields, LAST, LAST_KEY, Observing, Rows, record_fine};
use crate::fields::field;
use crate::generate::{gauss, polar, unit};
use crate::lent::*;
use crate::source::{Epoch, Rng, residuals};
use crate::tally::Tally;
use pozsmeteg::raw;

/// GM or radius of the first field, or any number.
fn put_either(random: &mut Rng, fields: &mut [f64], value: f64) {
    let first = fields.len().min(2);
    let part = if random.below(2) == 0 { &mut fields[..first] } else { fields };
    put(random, part, value);
}

impl Fields {
    pub fn new(random: &mut Rng, n: usize, times: Vec<f64>) -> Fields {
        let mut main = field(random, n, 1.0, 1e-6);
        main[2 + 3] = -4.841_65e-4;
        let added = times.iter().flat_map(|_| field(random, n, 0.0, 1e-9)).collect();
        Fields::of(n, main, times, added)
    }

    /// One cause of refusal, at times one that is none.
    pub fn damage(&mut self, random: &mut Rng) {
        let (bad, time) = (strange(random), edge_time(random));
        match random.below(13) {
            0 => self.degree = [0, 1, 181, usize::MAX][random.below(4)],
            1 => self.times.truncate(random.below(2)),
            2 => self.times = (0..33).map(|k| k as f64).collect(),
            3 => off_by_one(random, &mut self.field, bad),
            4 => off_by_one(random, &mut self.a, bad),
            5 => off_by_one(random, &mut self.b, bad),
            6 => off_by_one(random, &mut self.added, bad),
            7 => put_either(random, &mut self.field, bad),
            8 => put(random, &mut self.a, bad),
            9 => put(random, &mut self.b, bad),
            10 => put_either(random, &mut self.added, bad),
            11 => put_edge(&mut self.times, time),
            _ => unsorted(random, &mut self.times),
        }
    }
}

impl Rows {
    pub fn damage(&mut self, random: &mut Rng) {
        let (bad, key) = (strange(random), edge_key(random));
        match random.below(7) {
            0 => off_by_one(random, &mut self.values, bad),
            1 => put(random, &mut self.values, bad),
            2 => put_edge(&mut self.keys, key),
            3 => unsorted(random, &mut self.keys),
            4 => { self.keys.clear(); self.values.clear() }
            5 => { self.keys.pop(); }
            _ => put(random, &mut self.values, 1e300),
        }
    }
}

fn keys(random: &mut Rng, base: i64) -> Vec<i64> {
    let n = match random.below(300) { 0 => 200_000, 1 => 200_001, 2..20 => random.below(10), _ => 20 + random.below(60) };
    let mut key = base;
    let last = LAST_KEY + (random.below(20) == 0) as i64;
    (0..n).map(|_| { let now = key; key += if n > 1000 || random.below(25) > 0 { 1 } else { 1 + random.below(4) as i64 }; now }).take_while(|key| *key <= last).collect()
}

impl Observing {
    pub fn new(random: &mut Rng) -> Observing {
        let n = match random.below(50) { 0 => 180, 1 => 20 + random.below(20), _ => 2 + random.below(7) };
        let base = match random.below(6) { 0 => 0, 1 => LAST_KEY - 40, _ => random.below(1 << 30) as i64 };
        let count = match random.below(20) { 0 => 32, 1 => 33, _ => 2 + random.below(3) };
        let first = (base - random.below(30) as i64).max(0) as f64;
        let mut times: Vec<f64> = (0..count).map(|k| first + if count > 5 { k as f64 } else { 30.5 * k as f64 }).collect();
        times.iter_mut().for_each(|t| *t = t.min(LAST));
        let fields = Fields::new(random, n, times);
        let (c, d) = (keys(random, base), keys(random, base));
        let mut acc = || { let keys = keys(random, base); Rows { values: keys.iter().map(|_| 1e-7 * gauss(random)).collect(), keys, width: 1 } };
        let (c_acc, d_acc) = (acc(), acc());
        let m = match random.below(100) { 0 => 0, 1 => 1, _ => random.below(25) };
        let mut t = base as f64;
        let obs: Vec<f64> = (0..m).map(|_| { let now = t; t += if random.below(3) == 0 { 0.01 + 5.0 * unit(random) } else { 1.0 + random.below(3) as f64 }; now }).collect();
        let values = obs.iter().map(|_| 1e-3 * gauss(random)).collect();
        let good = obs.iter().map(|_| [0, 1, 1, 1, 255][random.below(5)]).collect();
        let scratch = scratch_length(random, fields.least_scratch() + 10 * m);
        Observing { fields, rows: [polar(&c, 0.0), polar(&d, 0.032), c_acc, d_acc], obs, values, good, outs: [m; 5], scratch }
    }

    pub fn damage(&mut self, random: &mut Rng) {
        let (bad, time, m) = (strange(random), edge_time(random), self.obs.len());
        match random.below(12) {
            0..=3 => self.fields.damage(random),
            4..=6 => { let k = random.below(4); self.rows[k].damage(random) }
            7 => off_by_one(random, &mut self.values, bad),
            8 => off_by_one(random, &mut self.good, 1),
            9 => self.outs[random.below(5)] = (m + 1).saturating_sub(2 * random.below(2)),
            10 => if random.below(2) == 0 { put_edge(&mut self.obs, time) } else { put(random, &mut self.values, bad) },
            _ => match random.below(3) {
                0 => unsorted(random, &mut self.obs),
                1 => self.rows[1] = self.rows[0].clone(),
                _ => {
                    let long = 100_000 + random.below(2);
                    self.obs = (0..long).map(|k| k as f64).collect();
                    self.values = vec![0.0; long];
                    self.good = vec![0; long];
                    self.outs = [long; 5];
                    self.scratch = self.fields.least_scratch() + 10 * long;
                }
            },
        }
    }
}

pub fn compare(tally: &mut Tally, rounds: u64) {
    tally.begin("residuals");
    let mut records = 0;
    for case in 0..rounds {
        let mut random = tally.random(case);
        let mut asked = Observing::new(&mut random);
        for _ in 0..[0, 0, 0, 1, 1, 2][random.below(6)] { asked.damage(&mut random) }
        let widths = [1, 1, 5, 3, 3];
        let [mut times, mut values, mut terms, mut mids, mut vels] = [0, 1, 2, 3, 4].map(|k| Lent::new(&mut random, widths[k] * asked.outs[k]));
        let mut scratch = Lent::new(&mut random, asked.scratch);
        let handed = if random.below(20) == 0 { [0, 2][random.below(2)] } else { 1 };
        let mut counts = vec![99; handed];
        let [c, d, c_acc, d_acc] = &asked.rows;
        let told = raw::residuals(
            asked.fields.lent(), raw::Pair { c: c.lent(), d: d.lent(), c_acc: c_acc.lent(), d_acc: d_acc.lent() },
            raw::Observations { times: &asked.obs, values: &asked.values, good: &asked.good },
            raw::Records { times: &mut times.now, residuals: &mut values.now, terms: terms.now.as_chunks_mut().0, mids: mids.now.as_chunks_mut().0, vels: vels.now.as_chunks_mut().0 },
            &mut counts, &mut scratch.now,
        );
        // a list of counts without its place is a length that does not fit
        let early = match asked.refusal(true) { n @ 1..=3 => n, _ if handed != 1 => 3, n => n };
        let kept = if early == 0 { asked.records(|inputs| residuals(inputs, &asked.observations())) } else { vec![] };
        let number = if early != 0 { early } else if kept.iter().all(record_fine) { 0 } else { 10 };
        tally.answered(number);
        records += kept.len();
        let padded = |width: usize, part: &dyn Fn(&Epoch) -> Vec<f64>| { let mut out: Vec<f64> = kept.iter().flat_map(|e| part(e)).collect(); out.resize(width * asked.obs.len(), 0.0); out };
        let equal = told == number && scratch.left(number)
            && times.settled(number, &padded(1, &|e| vec![e.t])) && values.settled(number, &padded(1, &|e| vec![e.residual]))
            && terms.settled(number, &padded(5, &|e| e.terms.to_vec())) && mids.settled(number, &padded(3, &|e| e.mid.to_vec())) && vels.settled(number, &padded(3, &|e| e.vel.to_vec()))
            && counts == match number { 0 => vec![kept.len()], 1..=5 => vec![99; handed], _ => vec![0] };
        tally.judge(equal, || format!("case {case}: degree {}, {} observations, told {told}, expected {number}, counts {counts:?}, expected {}", asked.fields.degree, asked.obs.len(), kept.len()));
    }
    tally.end(&format!("{records} records"));
}
