// The horizon, F, and the arc of a window. Horizon and F by `whole`, from document 01's module 9: the source has neither. The arc by the source's two lines
// (`arc_of`, which extract.py takes out of `fitted_orbits`); two numbers that are no window shorter than 7,000 s have the arc of no steps.
use crate::fieldlists::{LAST, WILD, are_keys, are_times, is_time, rising, with};
use crate::generate::unit;
use crate::list::{List, step};
use crate::source::{Rng, arc_of};
use crate::whole::{final_count, last_reached};

const FINAL: u64 = 0;
const ARC: u64 = 1;

#[derive(Clone)]
struct Asked {
    nodes: Vec<f64>,
    keys: [Vec<i64>; 4], // of the states and the accelerometer values of C and D
    times: [Vec<f64>; 2], // of the fields and the observations
    kept: Vec<f64>,
}

impl Asked {
    /// Every list ends at this whole second.
    fn until(second: i64, nodes: &[f64], kept: &[f64]) -> Asked {
        let (keys, times) = (vec![second - 7, second], vec![second as f64 - 5.5, second as f64]);
        Asked { nodes: nodes.to_vec(), keys: std::array::from_fn(|_| keys.clone()), times: [times.clone(), times], kept: kept.to_vec() }
    }

    /// Document 01's number for these lists and the kept times.
    fn refusal(&self, kept: &[f64]) -> u64 {
        let [fields, observed] = &self.times;
        let times: [&[f64]; 4] = [&self.nodes, fields, observed, kept];
        let many = times.iter().zip([64, 32, 100_000, 100_000]).any(|(l, most)| l.len() > most) || self.keys.iter().any(|k| k.len() > 200_000);
        if many {
            2
        } else if !times.iter().all(|l| are_times(l)) || !self.keys.iter().all(|k| are_keys(k)) {
            4
        } else if !times.iter().all(|l| rising(l)) || !self.keys.iter().all(|k| rising(k)) {
            5
        } else {
            0
        }
    }

    /// Asks it, and says the horizon and F that are answered, or would be.
    fn call(&self, list: &mut List) -> (Option<f64>, usize) {
        list.call(FINAL);
        list.ask_list(&self.nodes);
        for keys in &self.keys {
            list.ask(keys.len() as u64);
            list.ask_keys(keys);
        }
        self.times.iter().for_each(|times| list.ask_list(times));
        list.ask_list(&self.kept);
        let [a, b, c, d] = self.keys.each_ref().map(|k| k.last().map(|k| *k as f64));
        let [e, f] = self.times.each_ref().map(|t| t.last().copied());
        let z = last_reached(&self.nodes, [a, b, c, d, e, f]);
        let count = final_count(&self.kept, z);
        list.tell(self.refusal(&[]));
        if self.refusal(&[]) == 0 {
            list.tell(z.is_some() as u64);
            z.iter().for_each(|z| list.tell_float(*z));
        }
        list.tell(self.refusal(&self.kept));
        if self.refusal(&self.kept) == 0 {
            list.tell(count as u64);
        }
        (z, count)
    }
}

/// Document 01's instance, and each list in turn too short by a second or by one step of a double, empty, or of one entry.
fn ends(list: &mut List) {
    let base = Asked::until(16804, &[10_000.0, 15_000.0], &[14_990.0, 14_992.0, 14_997.0, 15_001.0]);
    assert!(base.call(list) == (Some(15_000.0), 2));
    assert!(Asked::until(16803, &base.nodes, &base.kept).call(list) == (Some(10_000.0), 0));
    assert!(Asked::until(11803, &base.nodes, &base.kept).call(list) == (None, 0));
    let mut said = |z: Option<f64>, change: &dyn Fn(&mut Asked)| assert!(with(&base, |a| change(a)).call(list).0 == z);
    for k in 0..4 {
        said(Some(10_000.0), &|a| a.keys[k][1] = 16803);
        said(Some(15_000.0), &|a| a.keys[k] = vec![16804]);
        said(None, &|a| a.keys[k].clear());
    }
    for k in 0..2 {
        said(Some(10_000.0), &|a| a.times[k][1] = step(16804.0, -1));
        said(Some(15_000.0), &|a| a.times[k] = vec![16804.0]);
        said(None, &|a| a.times[k].clear());
    }
    // of many nodes the last that is reached; none; a node whose sum with 1,804 is rounded
    said(Some(15_000.0), &|a| a.nodes = (0..64).map(|k| 9000.0 + 1000.0 * k as f64).collect());
    said(None, &|a| a.nodes.clear());
    for z in [step(15_000.0, 1), 15_000.0 + 1e-9, 14_999.999_999_999] {
        said(Some(if z + 1804.0 <= 16804.0 { z } else { 10_000.0 }), &|a| a.nodes[1] = z);
    }
    for second in [0, 1804, 1805, LAST as i64] {
        Asked::until(second, &[-0.0, 1.0, LAST - 1804.0, LAST], &[0.0]).call(list);
    }
}

/// Each cause of 2, 4 and 5 that fits the list, in each of its places, and two causes at once; one field, and none.
fn refused(list: &mut List) {
    let base = Asked::until(16804, &[10_000.0, 15_000.0], &[14_990.0, 14_992.0]);
    let many = |n: usize| (0..n).map(|k| k as f64).collect::<Vec<f64>>();
    let mut said = |number: u64, change: &dyn Fn(&mut Asked)| {
        let asked = with(&base, |a| change(a));
        assert!(asked.refusal(&asked.kept) == number);
        asked.call(list);
    };
    said(0, &|a| a.nodes = many(64));
    said(2, &|a| a.nodes = many(65));
    said(0, &|a| a.times[0] = many(32));
    said(2, &|a| a.times[0] = many(33));
    said(0, &|a| a.times[0] = many(1));
    said(0, &|a| a.times[0] = vec![]);
    for w in WILD.into_iter().chain([-1.0, -5e-324, step(LAST, 1)]) {
        said(4, &|a| a.nodes[1] = w);
        said(4, &|a| a.kept[0] = w);
        (0..2).for_each(|k| said(4, &|a| a.times[k][1] = w));
        said(2, &|a| { a.nodes = many(65); a.nodes[3] = w });
    }
    for key in [-1, LAST as i64 + 1, i64::MIN, i64::MAX] {
        (0..4).for_each(|k| said(4, &|a| a.keys[k][1] = key));
    }
    for equal in [true, false] {
        let before = |t: f64| if equal { t } else { t - 1.0 };
        said(5, &|a| a.nodes[1] = before(a.nodes[0]));
        said(5, &|a| a.kept[1] = before(a.kept[0]));
        (0..2).for_each(|k| said(5, &|a| a.times[k][1] = before(a.times[k][0])));
        (0..4).for_each(|k| said(5, &|a| a.keys[k][1] = before(a.keys[k][0] as f64) as i64));
        said(4, &|a| { a.nodes[1] = before(a.nodes[0]); a.kept[1] = f64::NAN });
    }
}

/// Kept epochs with steps of 3.0 s and one step of a double beside it, and a last one so far before the horizon.
fn runs(list: &mut List, random: &mut Rng) {
    let far = |z: f64, kept: &[f64]| Asked::until(LAST as i64, &[z], kept);
    let three = [3.0, step(3.0, 1), step(3.0, -1), 2.0, 4.0];
    for before in three {
        for between in three {
            let kept = [100.0, 102.0, 102.0 + between, 104.0 + between];
            far(kept[3] + before, &kept).call(list);
        }
    }
    assert!(far(1000.0, &[]).call(list).1 == 0);
    assert!(far(1000.0, &(0..64).map(|k| 500.0 + 2.0 * k as f64).collect::<Vec<f64>>()).call(list).1 == 64);
    for _ in 0..60 {
        let mut t = random.below(4000) as f64;
        let kept: Vec<f64> = (0..random.below(24)).map(|_| {
            t += [2.0, 3.0, 4.0, step(3.0, 1), 1.0 + 3.0 * unit(random)][random.below(5) as usize];
            t
        }).collect();
        let at = kept.get(random.below(24) as usize).copied().unwrap_or(t);
        far(at + [0.0, 3.0, step(3.0, 1), 6.0 * unit(random)][random.below(4) as usize], &kept).call(list);
    }
}

fn arc(list: &mut List, from: f64, to: f64) {
    list.call(ARC);
    list.ask_all(&[from, to]);
    let window = is_time(from) && is_time(to) && from < to && to - from < 7000.0;
    let (t0, steps, node, period) = if window { let a = arc_of(from, to); (a.t0, a.steps, a.node, a.period) } else { (0.0, 0, 0.0, 0.0) };
    list.tell_float(t0);
    list.tell(steps as u64);
    list.tell_all(&[node, period]);
}

fn arcs(list: &mut List, random: &mut Rng) {
    // starts before 0 and at it, odd and even seconds, and one step of a double beside them
    for a in [-0.0, 0.0, 5e-324, 1.0, 1799.0, 1800.0, 1801.0, 1802.0, 1803.0, 65_536.0] {
        for a in [a, step(a, 1)] {
            [1.0, 5650.0, 6999.5, 7000.0].iter().for_each(|p| arc(list, a, a + p));
        }
    }
    // 7,000 s and the doubles beside it, in every magnitude of a time
    for power in 0..31 {
        let a = 2f64.powi(power) + 1e-3 * unit(random);
        (-2..=1).for_each(|k| arc(list, a, step(a + 7000.0, k)));
        arc(list, a, a + 5650.0 + unit(random));
    }
    // the last time; no window
    [LAST - 5650.0, LAST - 7000.0, step(LAST, -1)].iter().for_each(|a| arc(list, *a, LAST));
    for (a, b) in [(LAST - 1.0, step(LAST, 1)), (10.0, 10.0), (11.0, 10.0), (-1.0, 10.0)] {
        arc(list, a, b);
    }
    for w in WILD {
        arc(list, w, 10.0);
        arc(list, 10.0, w);
    }
    for _ in 0..60 {
        let a = random.below(2_000_000_000) as f64 + [0.0, unit(random)][random.below(2) as usize];
        arc(list, a, a + [7000.0 * unit(random), random.below(7000) as f64][random.below(2) as usize]);
    }
}

pub fn make(list: &mut List, seed: u64) {
    let mut random = Rng::new(seed);
    ends(list);
    refused(list);
    runs(list, &mut random);
    arcs(list, &mut random);
}
