// `remove_per_revolution` over records, by the source's function; refusals by document 01's table. Scratch stands at 7.0 before a call. After refusals 2 to 5 all is
// unchanged; after 10 the residual of each record is +0.0; of a record nothing else ever changes. Not asked: more than 100,000 records.
use crate::detrend::{moments, parting, values_at};
use crate::fieldlists::{LAST, WILD, are_times, is_time, record_fine, rising, with};
use crate::generate::unit;
use crate::list::{List, step};
use crate::residuals::tell_record;
use crate::source::{Epoch, Rng, remove_per_revolution};

const REMOVE: u64 = 0;

#[derive(Clone)]
struct Asked {
    epochs: Vec<Epoch>,
    nodes: Vec<f64>,
    scratch: usize,
}

impl Asked {
    fn refusal(&self) -> u64 {
        let times: Vec<f64> = self.epochs.iter().map(|e| e.t).collect();
        if self.epochs.len() > 100_000 || self.nodes.len() > 64 { return 2; }
        if self.scratch < 8 * self.epochs.len() { return 3; }
        if !self.epochs.iter().all(|e| is_time(e.t) && record_fine(e)) || !are_times(&self.nodes) { return 4; }
        if !rising(&times) || !rising(&self.nodes) { return 5; }
        0
    }

    /// Asks it, and says the number that is answered.
    fn call(&self, list: &mut List) -> u64 {
        list.call(REMOVE);
        list.ask(self.epochs.len() as u64);
        for e in &self.epochs {
            list.ask_all(&[&[e.t, e.residual], &e.terms[..], &e.mid, &e.vel].concat());
        }
        list.ask_list(&self.nodes);
        list.ask(self.scratch as u64);
        let (early, mut left) = (self.refusal(), self.epochs.clone());
        if early == 0 {
            remove_per_revolution(&mut left, &self.nodes);
        }
        let number = if early == 0 && !left.iter().all(|e| e.residual.is_finite()) { 10 } else { early };
        if number == 10 {
            left.iter_mut().for_each(|e| e.residual = 0.0);
        }
        list.tell(number);
        left.iter().for_each(|e| tell_record(list, e));
        list.tell_left(early != 0, self.scratch);
        number
    }
}

/// Records at these times, no two with a number in common.
fn asked(random: &mut Rng, times: &[f64], nodes: &[f64]) -> Asked {
    let values = values_at(random, times);
    let mut size = |size: f64| size * (unit(random) - 0.5);
    let epochs: Vec<Epoch> = times.iter().zip(values).map(|(t, v)| Epoch {
        t: *t, residual: v, terms: std::array::from_fn(|_| size(1e-6)), mid: std::array::from_fn(|_| size(1.4e7)), vel: std::array::from_fn(|_| size(1.5e4)),
    }).collect();
    Asked { scratch: 8 * epochs.len(), epochs, nodes: nodes.to_vec() }
}

fn even(from: f64, n: usize) -> Vec<f64> {
    (0..n).map(|k| from + 2.0 * k as f64).collect()
}

/// Document 01's instance, 49 epochs pass undetrended and 50 are fitted, with two epochs before the first node and two from the last on; two revolutions.
fn counted(list: &mut List, random: &mut Rng) {
    for n in [49, 50, 51] {
        let nodes = [1004.0, 1004.0 + 2.0 * n as f64];
        let base = asked(random, &even(1000.0, n + 4), &nodes);
        for some in 0..3 {
            assert!(with(&base, |a| a.nodes.truncate(some)).call(list) == 0);
        }
        // a node between two epochs, and one step after an epoch
        assert!(with(&base, |a| a.nodes = vec![1003.0, nodes[1] - 1.0]).call(list) == 0);
        assert!(with(&base, |a| a.nodes[0] = step(1004.0, 1)).call(list) == 0);
    }
    for (n, m) in [(49, 50), (50, 49), (50, 50), (49, 49)] {
        let middle = 504.0 + 2.0 * n as f64;
        assert!(asked(random, &even(500.0, n + m + 4), &[504.0, middle, middle + 2.0 * m as f64]).call(list) == 0);
    }
    // all before the first node, all after the last, a revolution without an epoch
    let base = asked(random, &even(300.0, 60), &[]);
    for nodes in [[420.0, 900.0], [100.0, 300.0], [418.0, 420.0], [0.0, 2.0]] {
        assert!(with(&base, |a| a.nodes = nodes.to_vec()).call(list) == 0);
    }
}

fn edges(list: &mut List, random: &mut Rng) {
    // no record, with and without nodes and scratch; one
    for (nodes, scratch) in [(&[][..], 0), (&[], 5), (&[10.0, 400.0], 0), (&[10.0, 400.0], 9)] {
        assert!(with(&asked(random, &[], nodes), |a| a.scratch = scratch).call(list) == 0);
    }
    assert!(asked(random, &[20.0], &[10.0, 400.0]).call(list) == 0);
    let base = asked(random, &even(0.0, 55), &[0.0, 110.0]);
    // more scratch than is needed is cleared as well; the bounds of the times and of the nodes' count
    assert!(with(&base, |a| a.scratch += 77).call(list) == 0);
    assert!(with(&base, |a| { a.epochs[0].t = -0.0; a.epochs[54].t = LAST; a.nodes = vec![-0.0, LAST] }).call(list) == 0);
    assert!(with(&base, |a| a.nodes = (0..64).map(|k| 110.0 * k as f64).collect()).call(list) == 0);
    // zeros of either sign are passed over, one number that is none is not
    for zero in [0.0, -0.0] {
        assert!(with(&base, |a| a.epochs.iter_mut().for_each(|e| e.residual = zero)).call(list) == 0);
        assert!(with(&base, |a| { a.epochs.iter_mut().for_each(|e| e.residual = zero); a.epochs[30].residual = 1e-9 }).call(list) == 0);
    }
    // a singular fit: 54 steps of 2^-20 s in a revolution of some 68 years
    assert!(with(&base, |a| { (0..55).for_each(|k| a.epochs[k].t = k as f64 * 2f64.powi(-20)); a.nodes = vec![0.0, LAST] }).call(list) == 0);
    // 10: in the only revolution, and in the second of two
    let large = |epochs: &mut [Epoch]| epochs.iter_mut().enumerate().for_each(|(k, e)| e.residual = [1.7e308, -1.7e308][k / 3 % 2]);
    assert!(with(&base, |a| large(&mut a.epochs)).call(list) == 10);
    assert!(with(&base, |a| { large(&mut a.epochs); a.scratch += 3 }).call(list) == 10);
    // 128 records of which the last 60 are large
    let two = asked(random, &even(0.0, 128), &[0.0, 136.0, 256.0]);
    assert!(with(&two, |a| large(&mut a.epochs[68..])).call(list) == 10);
    assert!(two.call(list) == 0);
}

fn refusals(list: &mut List, random: &mut Rng) {
    let base = asked(random, &even(40.0, 6), &[42.0, 48.0]);
    let mut said = |number: u64, change: &dyn Fn(&mut Asked)| assert!(with(&base, |a| change(a)).call(list) == number);
    said(0, &|_| ());
    // 2, with others after it
    said(2, &|a| a.nodes = (0..65).map(|k| k as f64).collect());
    said(2, &|a| { a.nodes = vec![f64::NAN; 65]; a.scratch = 0; a.epochs[0].t = -1.0 });
    // 3
    said(3, &|a| a.scratch -= 1);
    said(3, &|a| { a.scratch = 0; a.epochs.reverse() });
    said(3, &|a| { a.scratch = 40; a.epochs[5].vel[2] = f64::NAN });
    // 4, each number of a record; with 5 after it
    for w in WILD {
        said(4, &|a| a.epochs[0].t = w);
        said(4, &|a| a.epochs[5].residual = w);
        said(4, &|a| a.epochs[2].terms[0] = w);
        said(4, &|a| { a.epochs[5].terms[4] = w; a.epochs.reverse() });
        said(4, &|a| a.epochs[0].mid[0] = w);
        said(4, &|a| a.epochs[3].mid[2] = w);
        said(4, &|a| a.epochs[1].vel[0] = w);
        said(4, &|a| { a.epochs[5].vel[2] = w; a.nodes.reverse() });
        said(4, &|a| { a.nodes[1] = w; a.epochs[1].t = a.epochs[0].t });
    }
    for t in [-5e-324, -1.0, step(LAST, 1)] {
        said(4, &|a| a.epochs[0].t = t);
        said(4, &|a| a.epochs[5].t = t);
        said(4, &|a| a.nodes[0] = t);
    }
    // 5
    said(5, &|a| a.epochs[3].t = a.epochs[2].t);
    said(5, &|a| a.epochs.reverse());
    said(5, &|a| { a.epochs[0].t = -0.0; a.epochs[1].t = 0.0 });
    said(5, &|a| a.epochs[5].t = step(a.epochs[4].t, -1));
    said(5, &|a| a.nodes[1] = a.nodes[0]);
    said(5, &|a| a.nodes.reverse());
}

pub fn make(list: &mut List, seed: u64) {
    let mut random = Rng::new(seed);
    counted(list, &mut random);
    edges(list, &mut random);
    refusals(list, &mut random);
    for _ in 0..12 {
        let start = random.below(2_000_000) as f64 + unit(&mut random);
        let n = 100 + random.below(29) as usize;
        let times = moments(&mut random, n, start);
        let nodes = parting(&mut random, &times);
        assert!(asked(&mut random, &times, &nodes).call(list) == 0);
    }
}
