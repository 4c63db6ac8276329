// The whole path's tests 1 to 5: each count, length, time and key at its bound and beside it, in every list. All nodes but the last
// stand before second 1,800, where no window is covered, so that what is accepted keeps no epoch and costs no fit.
use crate::fieldlists::{Observing, are_times, rising};
use crate::lent::*;
use crate::source::Rng;
use crate::tally::Tally;
use pozsmeteg::raw;

fn nodes(random: &mut Rng) -> Vec<f64> {
    let count = match random.below(10) { 0 => 64, 1 => 65, _ => random.below(5) };
    (0..count).map(|k| k as f64 * 20.0).collect()
}

pub fn compare(tally: &mut Tally, rounds: u64) {
    tally.begin("whole path, 1 to 5");
    for case in 0..rounds {
        let mut random = tally.random(case);
        let mut asked = Observing::new(&mut random);
        let mut nodes = nodes(&mut random);
        for _ in 0..[0, 1, 1, 2][random.below(4)] {
            let time = edge_time(&mut random);
            match random.below(8) {
                0 => put_edge(&mut nodes, time),
                1 => unsorted(&mut random, &mut nodes),
                _ => asked.damage(&mut random),
            }
        }
        asked.outs[4] = asked.obs.len();
        let own = if nodes.len() > 64 { 2 } else if !are_times(&nodes) { 4 } else if !rising(&nodes) { 5 } else { 0 };
        let places = if random.below(4) == 0 { [0, 1, 3][random.below(3)] } else { 2 };
        let unplaced = if places == 2 { 0 } else { 3 };
        let number = [asked.refusal(true), own, unplaced].into_iter().filter(|n| *n > 0).min().unwrap_or(0);
        // Observing::scratch is without the part of the nodes
        let room = asked.scratch + 49_200 * nodes.len().min(64).saturating_sub(1);
        let [mut first, mut second, mut third, mut fourth] = [0, 1, 2, 3].map(|k| Lent::new(&mut random, asked.outs[k]));
        let mut scratch = Lent::new(&mut random, room);
        let mut counts = vec![99; places];
        let [c, d, c_acc, d_acc] = &asked.rows;
        let told = raw::sheet(
            asked.fields.lent(), raw::Pair { c: c.lent(), d: d.lent(), c_acc: c_acc.lent(), d_acc: d_acc.lent() }, &nodes,
            raw::Observations { times: &asked.obs, values: &asked.values, good: &asked.good },
            raw::Published { times: &mut first.now, raws: &mut second.now, detrended: &mut third.now, passed: &mut fourth.now }, &mut counts, &mut scratch.now,
        );
        tally.answered(number);
        let expected = vec![if number == 0 { 0 } else { 99 }; places];
        let equal = told == number && scratch.left(number) && counts == expected && [first, second, third, fourth].iter().all(|o| o.left(number));
        tally.judge(equal, || format!("case {case}: degree {}, {} nodes, {} observations, told {told}, expected {number}", asked.fields.degree, nodes.len(), asked.obs.len()));
    }
    tally.end("");
}
