// Modules 8 and 9 by the public whole path. Answers by the source's functions in whole.rs, refusals by document 01's table. Outputs stand at 3.0 and scratch at 7.0
// before a call: all unchanged after refusals 1 to 5; else the scratch is +0.0, and so are outputs after the kept entries.
use crate::fieldlists::{Fields, LAST, Rows, WILD, are_times, finite, places, rising, with};
use crate::generate::{Plan, generate};
use crate::list::{List, step};
use crate::submission::{FieldData, Submission};
use crate::whole::whole;

const SHEET: u64 = 0;

#[derive(Clone)]
struct Asked {
    fields: Fields,
    // states of C and D, accelerometer values of C and D
    rows: [Rows; 4],
    nodes: Vec<f64>,
    obs: Vec<f64>,
    observed: Vec<f64>,
    good: Vec<u8>,
    // lengths of the four outputs
    outs: [usize; 4],
    scratch: usize,
}

fn lent(s: &Submission) -> Asked {
    let mut asked = Asked {
        fields: s.lent_fields(), rows: s.lent_rows(), nodes: s.nodes.clone(),
        obs: s.obs.iter().map(|o| o.0).collect(), observed: s.obs.iter().map(|o| o.1).collect(), good: s.obs.iter().map(|o| o.2).collect(), outs: [s.obs.len(); 4],
        scratch: 0,
    };
    asked.scratch = asked.least_scratch();
    asked
}

impl Asked {
    fn least_scratch(&self) -> usize {
        self.fields.least_scratch() + 49_200 * self.nodes.len().saturating_sub(1) + 10 * self.obs.len()
    }

    // causes 1 to 5, in order
    fn refusal(&self) -> u8 {
        let (fields, m) = (&self.fields, self.obs.len());
        if !fields.degree_fine() { return 1; }
        if !fields.counted() || !self.rows.iter().all(Rows::counted) || self.nodes.len() > 64 || m > 100_000 { return 2; }
        let observed = self.observed.len() == m && self.good.len() == m && self.outs.iter().all(|n| *n == m);
        if !fields.fits() || !self.rows.iter().all(Rows::fits) || !observed || self.scratch < self.least_scratch() { return 3; }
        if !fields.fine() || !self.rows.iter().all(Rows::fine) || !are_times(&self.nodes) || !are_times(&self.obs) || !finite(&self.observed) { return 4; }
        if !fields.ordered() || !self.rows.iter().all(Rows::ordered) || !rising(&self.nodes) || !rising(&self.obs) { return 5; }
        0
    }

    fn submission(&self) -> Submission {
        let (fields, l) = (&self.fields, places(self.fields.degree));
        let field = |f: &[f64]| FieldData { gm: f[0], radius: f[1], c: f[2..2 + l].to_vec(), s: f[2 + l..].to_vec() };
        let states = |k: usize| self.rows[k].keys.iter().zip(self.rows[k].values.chunks(6)).map(|(key, s)| (*key, [s[0], s[1], s[2], s[3], s[4], s[5]])).collect();
        let acc = |k: usize| self.rows[k].keys.iter().copied().zip(self.rows[k].values.iter().copied()).collect();
        Submission {
            n: fields.degree, stat: field(&fields.field), fields: fields.times.iter().zip(fields.added.chunks(2 + 2 * l)).map(|(t, f)| (*t, field(f))).collect(),
            states: [states(0), states(1)], acc: [acc(2), acc(3)], nodes: self.nodes.clone(),
            obs: (0..self.obs.len()).map(|i| (self.obs[i], self.observed[i], self.good[i])).collect(),
        }
    }

    // what is answered: the number, the kept count and F
    fn call(&self, list: &mut List) -> (u8, usize, usize) {
        list.call(SHEET);
        list.ask(self.fields.degree as u64);
        self.fields.parts().iter().for_each(|part| list.ask_slice(part));
        self.rows.iter().for_each(|r| list.ask_words(r.keys.iter().map(|key| *key as u64).collect()));
        self.rows.iter().map(|r| &r.values).chain([&self.nodes, &self.obs, &self.observed]).for_each(|v| list.ask_slice(v));
        list.ask_words(self.good.iter().map(|g| *g as u64).collect());
        list.ask_counts(&self.outs);
        list.ask(self.scratch as u64);
        let early = self.refusal();
        let answer = if early == 0 { whole(&self.submission()) } else { Err(early) };
        let (number, kept, f) = match &answer {
            Ok(w) => (0, w.lists[0].len(), w.f),
            Err(n) => (*n, 0, 0),
        };
        [number as usize, kept, f].iter().for_each(|n| list.tell(*n as u64));
        for k in 0..4 {
            list.tell_all(answer.as_ref().map_or(&[], |w| &w.lists[k]));
            list.tell_left(early != 0, self.outs[k]);
        }
        list.tell_left(early != 0, self.scratch);
        (number, kept, f)
    }
}

// A submission of degree n whose nodes come so many seconds after base + 1800. States are known every `apart` seconds after the even second base, so that a window
// reads each or each second of them; accelerometer values every two seconds, and observations, from 10 s before the first node to 10 s after the last; then one last
// of each that reaches past the last node's horizon.
fn made(seed: u64, n: usize, base: i64, after: &[f64], apart: i64) -> Submission {
    let last = after.last().map_or(0.0, |t| t.ceil());
    let plan = Plan { seed, n, base, windows: 1, window: last, real: false, step: 2, noise: 0.02, truth_j2: false, tail: 1830.0, frac: false, field_step: 2100.0 };
    let mut s = generate(&plan);
    let first = base as f64 + 1800.0;
    s.nodes = after.iter().map(|t| first + t).collect();
    let (from, to) = (first + after.first().unwrap_or(&0.0) - 10.0, first + last + 10.0);
    for k in 0..2 {
        let end = s.acc[k].len() - 1;
        s.states[k].retain(|r| (r.0 - base) % apart == 0);
        s.acc[k] = s.acc[k].iter().enumerate().filter(|(i, r)| *i == end || from <= r.0 as f64 && r.0 as f64 <= to).map(|(_, r)| *r).collect();
    }
    let end = s.obs.len() - 1;
    s.obs = s.obs.iter().enumerate().filter(|(i, o)| *i == end || from <= o.0 && o.0 <= to).map(|(_, o)| *o).collect();
    s
}

// An observation at each even second between the two, and all of them good.
fn gapless(s: &mut Submission, from: i64, to: i64) {
    s.obs.iter_mut().for_each(|o| o.2 = 1);
    for key in (from..=to).step_by(2) {
        if s.obs.iter().all(|o| o.0 as i64 != key) {
            s.obs.push((key as f64, 1e-9, 1));
        }
    }
    s.obs.sort_by(|p, q| p.0.total_cmp(&q.0));
}


// Observations and accelerometer values at these times only, and the last of each.
fn thin(s: &mut Submission, at: impl Fn(f64) -> bool) {
    let end = s.obs.last().map(|o| o.0);
    s.obs.retain(|o| at(o.0) || Some(o.0) == end);
    for list in s.acc.iter_mut() {
        let end = list.last().map(|r| r.0);
        list.retain(|r| at(r.0 as f64) || Some(r.0) == end);
    }
}

fn holds(list: &mut List, s: &Submission, is: impl Fn(usize, usize) -> bool) {
    let (number, kept, f) = lent(s).call(list);
    assert!(number == 0 && is(kept, f), "call {}: {number}, {kept} kept, F {f}", list.calls);
}

fn not_finite(list: &mut List, s: &Submission) {
    let (number, _, _) = lent(s).call(list);
    assert!(number == 10, "call {}: {number}", list.calls);
}

const BASE: i64 = 695_304_000;
const NODE: i64 = BASE + 1800;

// degrees, gaps, bad flags and fractions; F none, some and all of the kept
fn final_parts(list: &mut List, seed: u64) {
    // one run that reaches the last node
    let mut s = made(seed, 2, BASE, &[0.0, 300.0], 20);
    gapless(&mut s, NODE - 10, NODE + 310);
    holds(list, &s, |kept, f| kept == 150 && f == 0);
    for (n, after, apart) in [
        (2, vec![0.0, 200.0, 400.0], 20),
        (3, vec![0.375, 260.5, 521.25, 800.0625], 20),
        (4, vec![1.9375, 280.5, 560.0], 10),
        (5, vec![0.5, 181.75], 20),
        (6, vec![1.25, 220.0], 5),
        (8, vec![0.0, 201.0, 400.25], 20),
        (12, vec![0.125, 240.5], 20),
    ] {
        let mut s = made(seed + n as u64, n, BASE, &after, apart);
        // of the higher degrees one long run, and a short one
        if n > 4 {
            gapless(&mut s, NODE, NODE + *after.last().unwrap() as i64);
        }
        let late = s.obs.len() * 4 / 5;
        s.obs[late].2 = 0;
        holds(list, &s, |kept, f| 0 < f && (f < kept || n < 5));
        // the last run ends before the last node
        let end = *s.nodes.last().unwrap();
        if n == 5 {
            holds(list, &with(&s, |s| s.obs.retain(|o| o.0 < end - 6.0 || o.0 > end)), |kept, f| 0 < f && f == kept);
        }
    }
    // the last run ends 3.0 s before the horizon, and one step more
    for (after, all) in [(203.0, false), (203.0 + 2f64.powi(-23), true)] {
        let mut s = made(seed, 2, BASE, &[0.0, after], 20);
        gapless(&mut s, NODE, NODE + 200);
        s.obs.retain(|o| o.0 < NODE as f64 + 199.0 || o.0 > NODE as f64 + 205.0);
        s.obs.push((NODE as f64 + 200.0, 1e-9, 1));
        s.obs.sort_by(|p, q| p.0.total_cmp(&q.0));
        holds(list, &s, |kept, f| kept == 101 && f == if all { kept } else { 0 });
    }
    // runs of 64 and of 65 epochs
    let mut s = made(seed, 3, BASE, &[0.0, 270.0], 20);
    gapless(&mut s, NODE, NODE + 270);
    s.obs.iter_mut().for_each(|o| o.2 = (o.0 as i64 != NODE + 128 && o.0 as i64 != NODE + 260) as u8);
    holds(list, &s, |kept, f| kept == 133 && f == 129);
    // revolutions of 49 and of 50 epochs
    let mut s = made(seed, 2, BASE, &[0.0, 100.5, 201.0], 20);
    gapless(&mut s, NODE, NODE + 200);
    s.obs.iter_mut().for_each(|o| o.2 = ![98, 100].contains(&(o.0 as i64 - NODE)) as u8);
    holds(list, &s, |kept, f| kept == 99 && f == 49);
}

// windows that are passed over
fn skipped(list: &mut List, seed: u64) {
    let near = |t: f64| t < (NODE + 400) as f64 || (t > (NODE + 3000) as f64 && t < (NODE + 3140) as f64) || t > (NODE + 7230) as f64;
    for (end, all) in [(7240.0, false), (7239.75, true)] {
        let s = with(&made(seed, 2, BASE, &[0.0, 240.0, end], 20), |s| thin(s, near));
        holds(list, &s, |kept, _| if all { kept > 250 } else { kept <= 120 && kept > 100 });
    }
    // uncovered by one step, and covered
    for past in [0, 1] {
        let mut s = made(seed + 1, 2, BASE, &[0.0, 200.0, 400.0, 600.0], 20);
        s.fields.truncate(3);
        s.fields[0].0 = step(BASE as f64, 1 - past);
        s.fields[2].0 = step((BASE + 4200) as f64, past);
        holds(list, &s, |kept, _| if past == 0 { kept <= 100 && kept > 80 } else { kept > 250 });
    }
    // D's states in the second window one fewer than a tenth of its steps, and a tenth
    for gone in [3840, 3820] {
        let mut s = made(seed + 2, 3, BASE, &[0.0, 200.0, 420.0], 20);
        s.states[1].retain(|r| ![20, 3820, gone].contains(&(r.0 - BASE)));
        holds(list, &s, |kept, _| if gone == 3840 { kept <= 100 && kept > 80 } else { kept > 180 });
    }
    // no state of C at the start of the first window
    let mut s = made(seed + 3, 2, BASE, &[0.5, 200.5, 400.5], 10);
    s.states[0].retain(|r| r.0 != BASE);
    holds(list, &s, |kept, _| kept <= 100 && kept > 80);
    // the first node is before all times: its arc would start at a negative one
    let mut s = made(seed + 4, 2, 0, &[0.0, 200.0], 20);
    s.fields[0].0 = -0.0;
    s.nodes.insert(0, -0.0);
    holds(list, &s, |kept, _| kept <= 100 && kept > 80);
    // the last times there are
    let mut s = made(seed + 5, 2, (1 << 31) - 3900, &[1.0 - 2f64.powi(-22), 201.0 - 2f64.powi(-22)], 20);
    s.fields.last_mut().unwrap().0 = LAST;
    holds(list, &s, |kept, _| kept > 80);
}

// states that are not finite, read by no epoch and by one
fn wild(list: &mut List, seed: u64) {
    let node = NODE + 200;
    let mut s = made(seed, 2, BASE, &[0.0, 200.0, 200.001], 20);
    gapless(&mut s, NODE, node);
    let bad = |key: i64| move |s: &mut Submission| s.obs.iter_mut().for_each(|o| if o.0 as i64 == key { o.2 = 0 });
    bad(NODE + 140)(&mut s);
    not_finite(list, &s);
    holds(list, &with(&s, |s| s.obs.retain(|o| o.0 as i64 != node)), |kept, f| kept == 99 && f == 70);
    holds(list, &with(&s, bad(node)), |kept, f| kept == 99 && f == 70);
    // C's first position in the second window is the Earth's centre
    let mut s = made(seed + 1, 2, BASE, &[0.0, 200.0, 400.0], 20);
    s.states[0].iter_mut().for_each(|r| if r.0 == BASE + 200 { r.1 = [0.0; 6] });
    not_finite(list, &s);
    holds(list, &with(&s, |s| s.obs.iter_mut().for_each(|o| if o.0 > node as f64 - 1.0 { o.2 = 0 })), |kept, _| kept <= 100 && kept > 80);
    // D where C is
    not_finite(list, &with(&made(seed + 2, 3, BASE, &[0.0, 100.0], 20), |s| s.states[1] = s.states[0].clone()));
    // finite residuals whose detrended values are not, and detrended values whose passed ones are not
    let huge = |s: &mut Submission| s.obs.iter_mut().enumerate().for_each(|(i, o)| o.1 = [1.7e308, -1.7e308][i / 3 % 2]);
    let mut s = made(seed + 3, 2, BASE, &[0.0, 100.0], 20);
    gapless(&mut s, NODE, NODE + 100);
    not_finite(list, &with(&s, huge));
    let mut s = made(seed + 4, 2, BASE, &[0.0, 80.0, 160.0], 20);
    gapless(&mut s, NODE, NODE + 160);
    not_finite(list, &with(&s, huge));
    // the same values in runs of at most 64 epochs pass
    holds(list, &with(&s, |s| { huge(s); bad(NODE + 80)(s) }), |kept, f| kept == 79 && f == 40);
}

// few nodes, few observations, none kept
fn few(list: &mut List, seed: u64) {
    let s = made(seed, 2, BASE, &[0.0, 60.0], 20);
    let none = |kept: usize, f: usize| kept == 0 && f == 0;
    for nodes in [0, 1] {
        holds(list, &with(&s, |s| { s.nodes.truncate(nodes); s.states[0].truncate(9); s.states[1].truncate(7) }), none);
    }
    holds(list, &with(&s, |s| s.obs.clear()), none);
    holds(list, &with(&s, |s| s.obs.iter_mut().for_each(|o| o.2 = 0)), none);
    holds(list, &with(&s, |s| s.acc[1].clear()), none);
    holds(list, &with(&s, |s| s.states[0].clear()), none);
    // no horizon, as the accelerometer values or the observations end early
    let early = |list: &mut List, change: &dyn Fn(&mut Submission)| holds(list, &with(&s, |s| { s.obs.retain(|o| o.0 as i64 != NODE + 30); change(s) }), |kept, f| kept > 0 && f == 0);
    early(list, &|s| { s.acc[0].pop(); });
    early(list, &|s| { s.obs.pop(); });
    holds(list, &with(&s, |s| s.obs.retain(|o| o.0 as i64 != NODE + 30)), |kept, f| 0 < f && f < kept);
}

// A submission and one that begins with it: the first F entries are equal, by the source as well.
fn appended(list: &mut List, seed: u64) {
    let mut long = made(seed, 2, BASE, &[0.25, 200.0, 400.5, 600.0], 20);
    long.fields[2].0 = (BASE + 4006) as f64;
    long.obs.iter_mut().for_each(|o| if [150, 300, 500].contains(&(o.0 as i64 - NODE)) { o.2 = 0 });
    let cut = BASE + 4008;
    for k in 0..2 {
        let end = long.acc[k].len() - 1;
        long.acc[k].insert(end, (cut, 1e-8));
    }
    let end = long.obs.len() - 1;
    long.obs.insert(end, (cut as f64, 1e-9, 1));
    let short = with(&long, |s| {
        s.fields.truncate(3);
        (0..2).for_each(|k| { s.states[k].retain(|r| r.0 <= BASE + 4020); s.acc[k].retain(|r| r.0 <= cut) });
        s.obs.retain(|o| o.0 <= cut as f64);
    });
    // what follows need not be likely: a field a thousand times as large, and C five kilometres off
    let known = short.states[0].len();
    long.fields[3].1.c.iter_mut().for_each(|c| *c *= 1e3);
    long.states[0][known..].iter_mut().for_each(|r| r.1[0] += 5e3);
    let [first, second] = [&short, &long].map(|s| whole(s).unwrap_or_else(|n| panic!("refused {n}")));
    assert!((0..4).all(|k| (0..first.f).all(|i| first.lists[k][i].to_bits() == second.lists[k][i].to_bits())));
    holds(list, &short, |_, f| 0 < f);
    holds(list, &long, |_, f| first.f < f);
}

// causes 1 to 5 of each argument
fn refusals(list: &mut List, seed: u64) {
    let base = lent(&with(&made(seed, 2, BASE, &[0.0, 200.0], 20), |s| {
        s.fields.truncate(3);
        (0..2).for_each(|k| { s.states[k].truncate(4); s.acc[k].truncate(5) });
        s.obs.truncate(6);
    }));
    let mut said = |number: u8, change: &dyn Fn(&mut Asked)| assert!(with(&base, |a| change(a)).call(list).0 == number);
    said(0, &|_| ());
    // more scratch than is needed is cleared as well
    said(0, &|a| a.scratch += 77);
    // 1, with others after it
    for n in [0, 1, 181, usize::MAX] {
        said(1, &|a| { a.fields.degree = n; a.fields.times.clear(); a.outs[0] = 0; a.observed[0] = f64::NAN });
    }
    // 2
    said(2, &|a| { a.fields.times.truncate(1); a.fields.field.pop(); });
    said(2, &|a| { a.fields.times.clear(); a.obs[0] = -1.0 });
    said(2, &|a| { a.fields.times = (0..33).map(|k| k as f64).collect(); a.fields.a.pop(); });
    for k in 0..4 {
        said(2, &|a| { a.rows[k].keys = vec![0; 200_001]; a.good.pop(); });
        said(3, &|a| a.rows[k].keys = vec![0; 200_000]);
    }
    said(2, &|a| { a.nodes = (0..65).map(|k| k as f64).collect(); a.scratch = 0 });
    said(3, &|a| a.nodes = (0..64).map(|k| k as f64).collect());
    said(2, &|a| a.obs = vec![0.0; 100_001]);
    said(3, &|a| a.obs = vec![0.0; 100_000]);
    // 3
    for off in [-1, 1] {
        let resize = |v: &mut Vec<f64>| if off < 0 { v.pop(); } else { v.push(f64::NAN) };
        said(3, &|a| resize(&mut a.fields.field));
        said(3, &|a| resize(&mut a.fields.a));
        said(3, &|a| resize(&mut a.fields.b));
        said(3, &|a| resize(&mut a.fields.times));
        said(3, &|a| resize(&mut a.fields.added));
        said(3, &|a| resize(&mut a.obs));
        said(3, &|a| resize(&mut a.observed));
        for k in 0..4 {
            said(3, &|a| resize(&mut a.rows[k].values));
            said(3, &|a| if off < 0 { a.rows[k].keys.pop(); } else { a.rows[k].keys.push(-1) });
            said(3, &|a| a.outs[k] = a.outs[k].wrapping_add_signed(off));
        }
        said(3, &|a| if off < 0 { a.good.pop(); } else { a.good.push(1) });
    }
    said(3, &|a| a.nodes.push(a.nodes[0]));
    said(3, &|a| { a.scratch -= 1; a.obs.reverse() });
    said(3, &|a| a.scratch = 0);
    // 4
    for w in WILD {
        said(4, &|a| { a.fields.field[0] = w; a.fields.times[1] = a.fields.times[0] });
        said(4, &|a| *a.fields.field.last_mut().unwrap() = w);
        said(4, &|a| a.fields.a[3] = w);
        said(4, &|a| a.fields.b[5] = w);
        said(4, &|a| a.fields.times[2] = w);
        said(4, &|a| *a.fields.added.last_mut().unwrap() = w);
        for k in 0..4 {
            said(4, &|a| { a.rows[k].values[0] = w; a.rows[k].keys.reverse() });
            said(4, &|a| *a.rows[k].values.last_mut().unwrap() = w);
        }
        said(4, &|a| a.nodes[1] = w);
        said(4, &|a| { a.obs[5] = w; a.good.fill(0) });
        said(4, &|a| { a.observed[2] = w; a.good[2] = 0 });
    }
    for t in [-5e-324, step(LAST, 1)] {
        said(4, &|a| a.fields.times[2] = t);
        said(4, &|a| a.nodes[0] = t);
        said(4, &|a| a.obs[1] = t);
    }
    for k in 0..4 {
        said(4, &|a| a.rows[k].keys[0] = -1);
        said(4, &|a| *a.rows[k].keys.last_mut().unwrap() = (1 << 31) + 1);
        said(4, &|a| a.rows[k].keys[1] = i64::MIN);
        said(0, &|a| { a.rows[k].keys[0] = 0; *a.rows[k].keys.last_mut().unwrap() = 1 << 31 });
        // 5
        said(5, &|a| a.rows[k].keys[1] = a.rows[k].keys[0]);
        said(5, &|a| a.rows[k].keys.reverse());
    }
    said(5, &|a| a.fields.times[1] = a.fields.times[0]);
    said(5, &|a| a.fields.times.reverse());
    said(5, &|a| a.nodes[1] = a.nodes[0]);
    said(5, &|a| a.nodes.reverse());
    said(5, &|a| a.obs.reverse());
    said(5, &|a| { a.obs[0] = -0.0; a.obs[1] = 0.0; a.good[0] = 0 });
}

pub fn make(list: &mut List, seed: u64) {
    let seed = 100 * seed;
    refusals(list, seed);
    final_parts(list, seed + 10);
    skipped(list, seed + 30);
    wild(list, seed + 40);
    few(list, seed + 50);
    appended(list, seed + 60);
}
