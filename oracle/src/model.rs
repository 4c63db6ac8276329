// The model of module 3. Answers by the source's `Model`; refusals by document 01's table. Outputs stand at 3.0 and scratch
// at 7.0 before a call: all unchanged after refusals 1 to 5, +0.0 after 6 and 10.
use crate::fieldlists::{Fields, LAST, WILD, are_times, coefficients, finite, is_time, places, random_added, random_list, rising, with};
use crate::list::{List, step};
use crate::source::Rng;

const COVERS: u64 = 0;
const AT: u64 = 1;
const KERNEL: u64 = 2;
const WEIGHT: u64 = 3;

#[derive(Clone)]
struct Asked {
    // the model calls take no tables
    fields: Fields,
    t: f64,
    cosines: usize,
    sines: usize,
    scratch: usize,
}

impl Asked {
    fn ask(&self, list: &mut List, number: u64) {
        list.call(number);
        list.ask(self.fields.degree as u64);
        for part in [&self.fields.field, &self.fields.times, &self.fields.added] {
            list.ask_list(part);
        }
        list.ask_float(self.t);
    }

    fn work(&self) -> (Vec<f64>, Vec<f64>) {
        let mut buf = coefficients(self.fields.degree, &self.fields.field);
        self.fields.source().at(self.t, &mut buf);
        (buf.c.clone(), buf.s.clone())
    }

    fn refusal(&self) -> u64 {
        let fields = &self.fields;
        if !fields.degree_fine() {
            return 1;
        }
        if !fields.counted() {
            return 2;
        }
        let l = places(fields.degree);
        if !fields.fits() || self.cosines != l || self.sines != l || self.scratch < fields.least_scratch() {
            return 3;
        }
        if !fields.fine() || !is_time(self.t) {
            return 4;
        }
        if !fields.ordered() {
            return 5;
        }
        0
    }

    fn call(&self, list: &mut List) {
        self.ask(list, AT);
        list.ask_counts(&[self.cosines, self.sines, self.scratch]);
        let told = |list: &mut List, number: u64, c: Vec<f64>, s: Vec<f64>| {
            list.tell(number);
            list.tell_all(&c);
            list.tell_all(&s);
            list.tell_left((1..6).contains(&number), self.scratch);
        };
        let zeros = (vec![0.0; self.cosines], vec![0.0; self.sines]);
        let early = self.refusal();
        if early != 0 {
            return told(list, early, vec![3.0; self.cosines], vec![3.0; self.sines]);
        }
        if !self.fields.source().covers(self.t) {
            return told(list, 6, zeros.0, zeros.1);
        }
        let (c, s) = self.work();
        if finite(&c) && finite(&s) {
            told(list, 0, c, s);
        } else {
            told(list, 10, zeros.0, zeros.1);
        }
    }

    // into a list of so many numbers, at any time
    fn kernel(&self, list: &mut List, room: usize) {
        self.ask(list, KERNEL);
        list.ask(room as u64);
        let (c, s) = self.work();
        let whole = [c, s].concat();
        if room < whole.len() {
            list.tell_all(&vec![3.0; room]);
        } else {
            list.tell_all(&whole);
            list.tell_all(&vec![3.0; room - whole.len()]);
        }
    }
}

fn covered(list: &mut List, times: &[f64], t: f64) {
    list.call(COVERS);
    list.ask_list(times);
    list.ask_float(t);
    let number = if !(2..=32).contains(&times.len()) {
        2
    } else if !are_times(times) || !is_time(t) {
        4
    } else if !rising(times) {
        5
    } else {
        0
    };
    list.tell(number);
    if number == 0 {
        list.tell((times[0] <= t && t < times[times.len() - 1]) as u64);
    }
}

// The bracket and the weight, as `Model::at` computes them.
fn weighed(list: &mut List, times: &[f64], t: f64) {
    list.call(WEIGHT);
    list.ask_list(times);
    list.ask_float(t);
    let j = times.iter().rposition(|f| *f <= t).unwrap_or(0).min(times.len() - 2);
    list.tell(j as u64);
    list.tell_float((t - times[j]) / (times[j + 1] - times[j]));
}

fn asked(random: &mut Rng, n: usize, times: &[f64], t: f64) -> Asked {
    let added = random_added(random, n, times.len());
    let fields = Fields::of(n, random_list(random, n, 3.986_004_415e14, 6_378_136.3, 1e-5), times.to_vec(), added);
    Asked { t, cosines: places(n), sines: places(n), scratch: fields.least_scratch(), fields }
}

fn refusals(list: &mut List, base: &Asked) {
    // 1, with others after it
    for n in [0, 1, 181, 1000] {
        with(base, |a| a.fields.degree = n).call(list);
        with(base, |a| { a.fields.degree = n; a.fields.times = vec![]; a.t = f64::NAN }).call(list);
    }
    // 2
    with(base, |a| { a.fields.times.truncate(1); a.fields.field.clear() }).call(list);
    with(base, |a| { a.fields.times = vec![]; a.fields.added = vec![] }).call(list);
    with(base, |a| { a.fields.times = (0..33).map(|k| k as f64).collect(); a.t = -1.0 }).call(list);
    // 3
    with(base, |a| { a.fields.field.pop(); }).call(list);
    with(base, |a| { a.fields.field.push(f64::NAN) }).call(list);
    with(base, |a| { a.fields.added.pop(); }).call(list);
    with(base, |a| { a.fields.added.push(0.0) }).call(list);
    with(base, |a| { a.fields.times.pop(); a.fields.times[0] = f64::NAN }).call(list);
    with(base, |a| a.cosines -= 1).call(list);
    with(base, |a| a.cosines += 1).call(list);
    with(base, |a| a.sines -= 1).call(list);
    with(base, |a| a.sines += 1).call(list);
    with(base, |a| a.scratch -= 1).call(list);
    with(base, |a| a.scratch = 0).call(list);
    // 4
    for w in WILD {
        for k in [0, 1, 2, base.fields.field.len() - 1] {
            with(base, |a| a.fields.field[k] = w).call(list);
        }
        for k in [0, 1, 2, base.fields.added.len() - 1] {
            with(base, |a| { a.fields.added[k] = w; a.fields.times[1] = a.fields.times[0] }).call(list);
        }
        with(base, |a| a.t = w).call(list);
        with(base, |a| a.fields.times[0] = w).call(list);
    }
    for t in [-5e-324, step(LAST, 1), -1.0] {
        with(base, |a| a.t = t).call(list);
        with(base, |a| *a.fields.times.last_mut().unwrap() = t).call(list);
    }
    // 5
    with(base, |a| a.fields.times[1] = a.fields.times[0]).call(list);
    with(base, |a| a.fields.times.reverse()).call(list);
    with(base, |a| a.fields.times[2] = a.fields.times[1]).call(list);
    // more scratch than is needed is cleared as well
    with(base, |a| a.scratch += 77).call(list);
    // 10
    with(base, |a| a.fields.added[0] = 1e308).call(list);
    with(base, |a| a.fields.field[0] = 0.0).call(list);
    with(base, |a| { a.fields.field[1] = 0.0; a.fields.added[1] = 0.0 }).call(list);
}

pub fn make(list: &mut List, seed: u64) {
    let mut random = Rng::new(seed);
    let starred = [0.0, 10800.0, 21600.0];
    let far = [step(0.0, 0) + 2.0f64.powi(-23), LAST - 5.0 * 2.0f64.powi(-22)];
    let uneven = [-0.0, 5e-324, 0.1, 7.0, 1e9 + 0.25, step(LAST, -1), LAST];
    let times = |k: usize| match k {
        0 => starred.to_vec(),
        1 => far.to_vec(),
        _ => uneven.to_vec(),
    };
    let mut asks = vec![0.0, -0.0, 5e-324, 0.05, 5400.0, 10800.0, step(10800.0, -1), step(10800.0, 1), 16200.0, step(21600.0, -1), 21600.0, 21600.5];
    asks.extend([far[0], step(far[0], -1), far[1], LAST - 6.0 * 2.0f64.powi(-22), 1e9, 1e9 + 0.25, LAST, step(LAST, -1)]);
    for k in 0..3 {
        for t in &asks {
            covered(list, &times(k), *t);
            weighed(list, &times(k), *t);
        }
        for t in [-1.0, -1e9, 1e300, f64::INFINITY, f64::NAN] {
            covered(list, &times(k), t);
            weighed(list, &times(k), t);
        }
    }
    covered(list, &[], 0.0);
    covered(list, &[0.0], 0.0);
    covered(list, &[f64::NAN], f64::NAN);
    covered(list, &(0..33).map(|k| k as f64).collect::<Vec<_>>(), 1.0);
    covered(list, &(0..32).map(|k| k as f64).collect::<Vec<_>>(), 1.0);
    covered(list, &[0.0, 0.0], 0.0);
    covered(list, &[0.0, -0.0], 0.0);
    covered(list, &[1.0, 0.0], 0.5);
    covered(list, &[1.0, 0.0], -0.5);
    covered(list, &[1.0, f64::INFINITY], 2.0);
    covered(list, &[-1.0, 1.0], 0.5);
    let base = asked(&mut random, 2, &starred, 5400.0);
    refusals(list, &base);
    for k in 0..3 {
        for t in &asks {
            asked(&mut random, 2 + k % 2, &times(k), *t).call(list);
            asked(&mut random, 2, &times(k), *t).kernel(list, 12 + k);
        }
        // outside the covered times, and less room than is needed
        for t in [-1e9, -1.0, 3e9, 1e300, f64::INFINITY, f64::NAN] {
            asked(&mut random, 2, &times(k), t).kernel(list, 12);
        }
        asked(&mut random, 2, &times(k), 1.0).kernel(list, 11);
    }
    for n in [4, 7, 20] {
        for t in [0.0, 777.25, 10800.0, 20000.0, 21600.0] {
            let a = asked(&mut random, n, &starred, t);
            a.call(list);
            a.kernel(list, 480.min(2 * places(n) + 3));
        }
    }
}
