// Horizon, final count and final entries: ends of lists at and beside 1,804 s after a node, empty lists, runs that end at and beside
// 3.0 s before the horizon, and lists that are refused.
use crate::fieldlists::{are_keys, are_times, rising};
use crate::generate::unit;
use crate::lent::{edge_key, edge_time, put_edge, rising_times, unsorted};
use crate::source::Rng;
use crate::submission::{FieldData, Submission};
use crate::tally::Tally;
use crate::whole::{final_count, horizon};
use pozsmeteg::raw;

/// Where a list ends: beside a node's reach, or anywhere.
fn last(random: &mut Rng, nodes: &[f64]) -> f64 {
    if nodes.is_empty() { return 1e4 * unit(random) }
    let z = nodes[random.below(nodes.len())] + 1804.0;
    match random.below(5) { 0 => z.next_down(), 1 => z.next_up(), 2 => z, 3 => z.ceil(), _ => z + 4e3 * (unit(random) - 0.3) }
}

fn submission(random: &mut Rng) -> (Submission, Vec<f64>) {
    let count = [0, 1, 2, 5, 64][random.below(5)];
    let mut t = 3e3 * unit(random);
    let mut nodes: Vec<f64> = (0..count).map(|_| { t += if random.below(3) == 0 { 0.3 } else { 50.0 + 6e3 * unit(random) }; if random.below(2) == 0 { t } else { t.floor() } }).collect();
    nodes.dedup();
    let none = || FieldData { gm: 0.0, radius: 0.0, c: vec![], s: vec![] };
    let mut s = Submission { n: 2, stat: none(), fields: vec![], states: [vec![], vec![]], acc: [vec![], vec![]], nodes, obs: vec![] };
    let far = random.below(3) > 0;
    let mut end = |random: &mut Rng, s: &Submission| if random.below(60) == 0 { None } else if far { Some(1e6) } else { Some(last(random, &s.nodes).max(0.0)) };
    for i in 0..2 {
        if let Some(t) = end(random, &s) { s.states[i] = vec![(0, [0.0; 6]), (t as i64, [0.0; 6])]; }
        if let Some(t) = end(random, &s) { s.acc[i] = vec![(t as i64, 0.0)]; }
    }
    if let Some(t) = end(random, &s) { s.fields = vec![(0.0, none()), (t, none())]; }
    if let Some(t) = end(random, &s) { s.obs = vec![(t, 0.0, 0)]; }
    // one list decides where all others go far
    if far {
        let t = last(random, &s.nodes).max(0.0);
        match random.below(6) {
            0 => s.states[0] = vec![(t as i64, [0.0; 6])],
            1 => s.states[1] = vec![(t as i64, [0.0; 6])],
            2 => s.acc[0] = vec![(t as i64, 0.0)],
            3 => s.acc[1] = vec![(t as i64, 0.0)],
            4 => s.fields = vec![(t, none())],
            _ => s.obs = vec![(t, 0.0, 0)],
        }
    }
    // kept epochs: many up to a node, the last ones beside 3.0 s before it
    let count = [0, 1, 30, 400][random.below(4)];
    let mut kept = rising_times(random, count);
    if let (Some(z), true) = (horizon(&s), random.below(3) > 0) {
        kept = kept.iter().map(|t| t - kept[0]).filter(|t| *t < z - 5.0).collect();
        let e = z - 3.0;
        kept.push(match random.below(4) { 0 => e, 1 => e.next_down(), 2 => e.next_up(), _ => z - 4.0 });
        if kept[0] < 0.0 { kept.clear() }
    }
    (s, kept)
}

/// Which of 3 to 5 the lists and the places of the answer call for: none here is too long.
fn refusal(reach: raw::Reach, kept: &[f64], handed: usize) -> u8 {
    let raw::Reach { nodes, c, d, c_acc, d_acc, fields, observed } = reach;
    let (times, keys) = ([nodes, fields, observed, kept], [c, d, c_acc, d_acc]);
    if handed != 1 { return 3 }
    if !times.iter().all(|l| are_times(l)) || !keys.iter().all(|l| are_keys(l)) { return 4 }
    if !times.iter().all(|l| rising(l)) || !keys.iter().all(|l| rising(l)) { return 5 }
    0
}

pub fn compare(tally: &mut Tally, rounds: u64) {
    tally.begin("horizon and F");
    let (mut some, mut all) = (0, 0);
    for case in 0..10 * rounds {
        let mut random = tally.random(case);
        let (mut s, mut kept) = submission(&mut random);
        let (time, key) = (edge_time(&mut random), edge_key(&mut random));
        match random.below(20) {
            0 => s.fields.iter_mut().last().into_iter().for_each(|f| f.0 = time),
            1 => s.obs.iter_mut().last().into_iter().for_each(|o| o.0 = time),
            2 => put_edge(&mut kept, time),
            3 => unsorted(&mut random, &mut kept),
            4 => s.states[0].iter_mut().last().into_iter().for_each(|r| r.0 = key),
            _ => {}
        }
        let keys = |list: &[(i64, [f64; 6])]| list.iter().map(|r| r.0).collect::<Vec<i64>>();
        let (c, d) = (keys(&s.states[0]), keys(&s.states[1]));
        let (ca, da): (Vec<i64>, Vec<i64>) = (s.acc[0].iter().map(|r| r.0).collect(), s.acc[1].iter().map(|r| r.0).collect());
        let (fields, observed): (Vec<f64>, Vec<f64>) = (s.fields.iter().map(|f| f.0).collect(), s.obs.iter().map(|o| o.0).collect());
        let handed = if random.below(20) == 0 { [0, 2][random.below(2)] } else { 1 };
        let reach = raw::Reach { nodes: &s.nodes, c: &c, d: &d, c_acc: &ca, d_acc: &da, fields: &fields, observed: &observed };
        let (number, counted) = (refusal(reach, &[], handed), refusal(reach, &kept, handed));
        tally.answered(counted);
        let (z, f) = (horizon(&s), final_count(&kept, horizon(&s)));
        some += (number == 0 && z.is_some()) as u64;
        all += (counted == 0 && f > 0) as u64;
        let (mut out, mut counts) = (vec![7.0; handed], vec![7; handed]);
        let told = raw::horizon(reach, &mut out);
        let equal = told == number && out == vec![if number == 0 { z.unwrap_or(-1.0) } else { 7.0 }; handed];
        tally.judge(equal, || format!("case {case}: told {told}, horizon {out:?}, expected {number}, {z:?}"));
        let told = raw::final_count(reach, &kept, &mut counts);
        let equal = told == counted && counts == vec![if counted == 0 { f } else { 7 }; handed];
        tally.judge(equal, || format!("case {case}: told {told}, F {counts:?}, expected {counted}, {f}"));
        let count = [f, kept.len(), kept.len() + 1, usize::MAX][random.below(4)];
        let part = raw::final_entries(&kept, count);
        tally.judge(part == if count <= kept.len() { count } else { 0 }, || format!("case {case}: a part of {part} for {count} of {}", kept.len()));
    }
    tally.end(&format!("a horizon in {some}, F above 0 in {all}"));
}
