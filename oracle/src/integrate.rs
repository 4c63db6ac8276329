// `integrate` of module 4. Answers by the source's `integrate` under the force of its `fit_orbit`; refusals by document 01's
// table. The output stands at 3.0 and the scratch at 7.0 before a call: unchanged after refusals 1 to 5, +0.0 after 10.
use crate::fieldlists::{Fields, LAST, WILD, coefficients, finite, is_time, random_added, random_list, with};
use crate::generate::unit;
use crate::list::{List, step};
use crate::source::*;
use std::f64::consts::PI;

#[derive(Clone)]
struct Asked {
    fields: Fields,
    out: usize,
    scratch: usize,
    full: bool,
    t0: f64,
    steps: usize,
    node: f64,
    period: f64,
    start: [f64; 6],
    e: [f64; 9],
}

impl Asked {
    fn ask(&self, list: &mut List) {
        list.call(0);
        list.ask(self.fields.degree as u64);
        self.fields.parts().iter().for_each(|part| list.ask_list(part));
        list.ask(self.out as u64);
        list.ask(self.scratch as u64);
        list.ask(!self.full as u64);
        list.ask_float(self.t0);
        list.ask(self.steps as u64);
        list.ask_float(self.node);
        list.ask_float(self.period);
        list.ask_all(&self.start);
        list.ask_all(&self.e);
    }

    fn work(&self) -> Vec<f64> {
        let model = self.fields.source();
        let mut buf = coefficients(self.fields.degree, &self.fields.field);
        let s = &self.start;
        let e = self.e.to_vec();
        let states = integrate(self.t0, self.steps, [s[0], s[1], s[2]], [s[3], s[4], s[5]], &mut |t, x, v| {
            let g = if self.full {
                model.at(t, &mut buf);
                add(gravity(&buf, x), tides(t, x))
            } else {
                j2_gravity(x)
            };
            let u = 2.0 * PI * (t - self.node) / self.period;
            add(g, add(fictitious(x, v), empirical(x, v, u, &e)))
        });
        states.iter().flat_map(|(x, v)| x.iter().chain(v).copied().collect::<Vec<f64>>()).collect()
    }

    fn refusal(&self) -> u64 {
        let fields = &self.fields;
        if !fields.degree_fine() {
            return 1;
        }
        if !fields.counted() || self.steps > 5302 {
            return 2;
        }
        if !fields.fits() || self.out != 6 * (self.steps + 1) || self.scratch < fields.least_scratch() {
            return 3;
        }
        if !fields.fine() || !finite(&self.start) || !finite(&self.e) || !self.period.is_finite() || !is_time(self.node) || !(-LAST..=LAST).contains(&self.t0) {
            return 4;
        }
        if !fields.ordered() {
            return 5;
        }
        0
    }

    fn call(&self, list: &mut List) {
        self.ask(list);
        let early = self.refusal();
        if early != 0 {
            list.tell(early);
            list.tell_all(&vec![3.0; self.out]);
            list.tell_left(true, self.scratch);
            return;
        }
        let states = self.work();
        if finite(&states) {
            list.tell(0);
            list.tell_all(&states);
        } else {
            list.tell(10);
            list.tell_all(&vec![0.0; self.out]);
        }
        list.tell_left(false, self.scratch);
    }
}

fn asked(random: &mut Rng, n: usize, times: &[f64], full: bool, t0: f64, steps: usize) -> Asked {
    set_nmax(n);
    let added = random_added(random, n, times.len());
    let (u, inclination, r, speed) = (6.3 * unit(random), 1.55 + 0.05 * unit(random), 6.87e6 + 1e4 * unit(random), 7.6e3);
    let (su, cu) = f64::sin_cos(u);
    let (si, ci) = f64::sin_cos(inclination);
    let start = [r * cu, r * su * ci, r * su * si, -speed * su, speed * cu * ci, speed * cu * si];
    let mut e = [0.0; 9];
    e.iter_mut().for_each(|v| *v = 20.0 * (unit(random) - 0.5));
    let mut field = random_list(random, n, 3.986_004_415e14, 6_378_136.3, 1e-5);
    field[2] = 1.0;
    field[2 + idx(2, 0)] = -4.841_65e-4;
    let fields = Fields::of(n, field, times.to_vec(), added);
    Asked {
        out: 6 * (steps + 1),
        scratch: fields.least_scratch(),
        fields,
        full,
        t0,
        steps,
        node: 5000.0 + 0.125 * unit(random),
        period: 5650.0 + unit(random),
        start,
        e,
    }
}

fn refusals(list: &mut List, base: &Asked) {
    // 1, with others after it
    for n in [0, 1, 181, 1000] {
        with(base, |a| a.fields.degree = n).call(list);
        with(base, |a| { a.fields.degree = n; a.fields.times = vec![]; a.steps = 6000 }).call(list);
    }
    // 2
    with(base, |a| { a.fields.times.truncate(1); a.fields.field.clear() }).call(list);
    with(base, |a| { a.fields.times = vec![]; a.fields.added = vec![] }).call(list);
    with(base, |a| { a.fields.times = (0..33).map(|k| k as f64).collect(); a.t0 = f64::NAN }).call(list);
    with(base, |a| a.steps = 5303).call(list);
    with(base, |a| { a.steps = 1_000_000; a.out = 0 }).call(list);
    // 3
    with(base, |a| a.steps = 5302).call(list);
    for more in [false, true] {
        let bend = |v: &mut Vec<f64>| if more { v.push(f64::NAN) } else { v.truncate(v.len() - 1) };
        with(base, |a| bend(&mut a.fields.field)).call(list);
        with(base, |a| bend(&mut a.fields.a)).call(list);
        with(base, |a| bend(&mut a.fields.b)).call(list);
        with(base, |a| bend(&mut a.fields.added)).call(list);
        with(base, |a| a.out = if more { a.out + 1 } else { a.out - 1 }).call(list);
    }
    with(base, |a| { a.fields.times.pop(); a.fields.times[0] = f64::NAN }).call(list);
    with(base, |a| a.out += 6).call(list);
    with(base, |a| a.out = 0).call(list);
    with(base, |a| a.scratch -= 1).call(list);
    with(base, |a| a.scratch = 0).call(list);
    // 4, with 5 after it
    for w in WILD {
        with(base, |a| a.fields.field[0] = w).call(list);
        with(base, |a| *a.fields.field.last_mut().unwrap() = w).call(list);
        with(base, |a| a.fields.a[5] = w).call(list);
        with(base, |a| a.fields.b[3] = w).call(list);
        with(base, |a| { *a.fields.added.last_mut().unwrap() = w; a.fields.times[1] = a.fields.times[0] }).call(list);
        with(base, |a| a.start[2] = w).call(list);
        with(base, |a| a.start[5] = w).call(list);
        with(base, |a| a.e[8] = w).call(list);
        with(base, |a| a.t0 = w).call(list);
        with(base, |a| a.node = w).call(list);
        with(base, |a| a.period = w).call(list);
        with(base, |a| a.fields.times[0] = w).call(list);
    }
    for t in [-5e-324, step(LAST, 1), -1.0] {
        with(base, |a| *a.fields.times.last_mut().unwrap() = t).call(list);
        with(base, |a| a.node = t).call(list);
    }
    for t in [step(LAST, 1), step(-LAST, 1), -1e300] {
        with(base, |a| a.t0 = t).call(list);
    }
    // 5
    with(base, |a| a.fields.times[1] = a.fields.times[0]).call(list);
    with(base, |a| a.fields.times.reverse()).call(list);
    // more scratch than is needed is cleared as well
    with(base, |a| a.scratch += 77).call(list);
    // 10
    with(base, |a| a.period = 0.0).call(list);
    with(base, |a| a.start = [0.0; 6]).call(list);
    with(base, |a| a.t0 = 1e9).call(list);
    with(base, |a| a.e[0] = f64::MAX).call(list);
    with(base, |a| { a.full = false; a.start[3] = 1e300 }).call(list);
    with(base, |a| { a.fields.field[0] = 0.0 }).call(list);
    // the bounds themselves; nothing is asked of the force where there is no step
    for t in [LAST, -LAST, 0.0, -0.0] {
        with(base, |a| a.t0 = t).call(list);
    }
    with(base, |a| { a.steps = 0; a.out = 6; a.period = 0.0 }).call(list);
    with(base, |a| a.period = -a.period).call(list);
}

pub fn make(list: &mut List, seed: u64) {
    let mut random = Rng::new(seed);
    let times = [0.0, 10800.0, 21600.0];
    let base = asked(&mut random, 2, &times, true, 4000.0, 2);
    refusals(list, &base);
    // covered and not, whole and not; one that leaves the fields on its way
    let starts = [4000.0, f64::from_bits(0x3FF4_ED79_E4D8_EF3E), 10799.0, 21597.3, -500.25, 1e8 + 0.1];
    for n in [2, 3, 6, 12] {
        for (k, t0) in starts.iter().enumerate() {
            for steps in [0, 1, 2, 100] {
                for full in [true, false] {
                    if (n == 12 && steps == 1) || (steps == 100 && k % 2 == 1 && !full) || (steps == 0 && n > 3) {
                        continue;
                    }
                    asked(&mut random, n, if n == 12 { &times[..2] } else { &times }, full, *t0, steps).call(list);
                }
            }
        }
    }
}
