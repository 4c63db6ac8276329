// The whole path beside the oracle's modules 8 and 9, and demand 3: pairs of submissions, the second beginning with the first.
use crate::fieldlists::LAST;
use crate::flat::Flat;
use crate::generate::{Plan, gauss, generate, random_field, unit};
use crate::lent::*;
use crate::source::Rng;
use crate::submission::{Submission, check};
use crate::tally::Tally;
use crate::text;
use crate::whole::whole;
use pozsmeteg::raw;

/// What is published of the kept epochs, and F.
pub struct Sheet {
    lists: [Vec<f64>; 4],
    f: usize,
}

// ---- the engine

/// The call, and whether every lent slice is left as its answer says.
fn engine(random: &mut Rng, s: &Submission) -> (Result<Sheet, u8>, bool) {
    let (m, lists) = (s.obs.len(), Flat::new(s));
    let room = lists.room() + [0, 0, 0, 77][random.below(4)];
    let [mut first, mut second, mut third, mut fourth] = [(); 4].map(|_| Lent::new(random, m));
    let mut scratch = Lent::new(random, room);
    let mut counts = [77, 88];
    let out = raw::Published { times: &mut first.now, raws: &mut second.now, detrended: &mut third.now, passed: &mut fourth.now };
    let number = raw::sheet(lists.model(), lists.pair(), lists.nodes(), lists.observations(), out, &mut counts, &mut scratch.now);
    let outs = [first, second, third, fourth];
    if number != 0 {
        let left = outs.iter().all(|o| o.settled(number, &[])) && scratch.left(number) && counts == if number < 6 { [77, 88] } else { [0, 0] };
        return (Err(number), left);
    }
    let (kept, f) = (counts[0], counts[1]);
    let left = kept <= m && scratch.clear() && outs.iter().all(|o| o.now[kept.min(m)..].iter().all(|v| v.to_bits() == 0));
    (Ok(Sheet { lists: outs.map(|o| o.now[..kept.min(m)].to_vec()), f }), left)
}

fn rust(s: &Submission) -> Result<Sheet, u8> {
    whole(s).map(|w| Sheet { lists: w.lists, f: w.f })
}

fn same(ours: &Result<Sheet, u8>, theirs: &Result<Sheet, u8>) -> bool {
    match (ours, theirs) {
        (Err(a), Err(b)) => a == b,
        (Ok(a), Ok(b)) => a.f == b.f && (0..4).all(|k| bits(&a.lists[k]) == bits(&b.lists[k])),
        _ => false,
    }
}

fn told(answer: &Result<Sheet, u8>) -> String {
    match answer {
        Ok(s) => format!("kept {} final {}", s.lists[0].len(), s.f),
        Err(n) => format!("refused {n}"),
    }
}

// ---- submissions

const FAR: f64 = 7_000.0;

fn plan(random: &mut Rng, n: usize, most: usize) -> Plan {
    let windows = 1 + random.below(most);
    let window = 60.0 + 20.0 * random.below(10) as f64;
    // now and then states enough for a window of just under 7,000 s behind the others
    let far = if random.below(16) == 0 { FAR } else { 0.0 };
    let span = windows as f64 * (window + 20.0) + 4_100.0 + far;
    let base = [695_304_000, 695_304_001, 4_000, 200, 1 << 30, 777_777_777, (1 << 31) - span as i64 - 40][random.below(7)];
    Plan {
        seed: random.next_u64(), n, base, windows, window, real: false, step: [1, 1, 1, 2, 5][random.below(5)], noise: 0.01, truth_j2: n > 6 || random.below(3) > 0,
        tail: 1_806.0 + far + 100.0 * random.below(5) as f64, frac: random.below(4) > 0, field_step: [97.25, 211.5, 1000.0, 1803.0, 10800.0f64][random.below(5)].max(span / 28.0),
    }
}

/// A submission of some odd shape.
fn shaped(random: &mut Rng, n: usize, most: usize) -> Submission {
    let mut s = generate(&plan(random, n, most));
    for f in s.fields.iter_mut() { f.0 = f.0.clamp(0.0, LAST) }
    s.fields.dedup_by(|b, a| a.0 == b.0);
    for i in 0..2 {
        s.states[i].retain(|r| r.0 as f64 <= LAST);
        s.acc[i].retain(|r| r.0 as f64 <= LAST);
    }
    s.obs.retain(|o| o.0 <= LAST);
    s.nodes.retain(|t| *t <= LAST);
    if s.obs.is_empty() || s.nodes.len() < 2 { return s }
    let last = s.nodes[s.nodes.len() - 1];
    if s.obs[s.obs.len() - 1].0 > last + FAR + 1_800.0 { s.nodes.push(last + [6_999.999, FAR.next_down(), FAR, 7_000.5][random.below(4)]) }
    if random.below(3) > 0 {
        let (b, w, every) = (s.obs[0].0, 9.0 + random.below(40) as f64, 2 + random.below(4) as i64);
        s.obs.retain(|o| ((o.0 - b) / w) as i64 % every != every - 1);
    }
    for _ in 0..random.below(3) { odd(random, &mut s) }
    s
}

fn odd(random: &mut Rng, s: &mut Submission) {
    let j = random.below(s.nodes.len() - 1);
    let (a, b) = (s.nodes[j], s.nodes[j + 1]);
    match random.below(16) {
        0 => s.obs.iter_mut().for_each(|o| o.0 = o.0.floor() + 0.96875),
        1 => { s.nodes.iter_mut().for_each(|t| *t = 2.0 * (*t / 2.0).floor()); s.nodes.dedup() }
        2 => { s.nodes.extend([a + 1.0 + unit(random), a + 3.9, a + 7.5]); sort(&mut s.nodes) }
        // windows so short that the angle of their waves is beyond 2^20
        3 => { let e = 2.0 * (a / 2.0).floor(); s.nodes.extend([e, e + 0.001]); sort(&mut s.nodes) }
        4 => { let e = s.nodes[s.nodes.len() - 1]; s.nodes.extend([e + 1.5, e + 2.9]) }
        5 => { let e = s.nodes[s.nodes.len() - 1]; s.nodes.push(e + [6999.999, 7000.0, 7000.5][random.below(3)]) }
        6 => { let every = [2, 10][random.below(2)]; s.states.iter_mut().for_each(|l| l.retain(|r| r.0 % every == 0)) }
        7 => s.states.iter_mut().for_each(|l| l.retain(|r| r.0 % 2 == 1)),
        8 => { let t0 = (2.0 * ((b - 1800.0) / 2.0).floor()) as i64; let i = random.below(2); s.states[i].iter_mut().filter(|r| r.0 == t0).for_each(|r| r.1 = [0.0; 6]) }
        9 => { let mid = a as i64 / 10 * 10; let i = random.below(2); s.states[i].iter_mut().filter(|r| (mid..mid + 30).contains(&r.0)).for_each(|r| r.1 = [1e300; 6]) }
        10 => { let k = random.below(s.acc[0].len().max(1)); if k < s.acc[0].len() { s.acc[0].remove(k); } let n = s.states[1].len(); s.states[1].drain(n / 2..(n / 2 + 40).min(n)); }
        // epochs at a node, and at and beside 3.0 s before it
        11 => {
            s.obs.retain(|o| !(o.0 > b - 12.5 && o.0 < b + 2.0));
            for q in [11.0, 9.0, 7.0, [2.75, 3.0, 3.25, 4.0, 3.0f64.next_up()][random.below(5)], 0.0] { s.obs.push((b - q, 1e-9 * gauss(random), 1)) }
            s.obs.sort_by(|x, y| x.0.total_cmp(&y.0));
            s.obs.dedup_by(|y, x| x.0 == y.0);
        }
        // nodes on the seconds of the only states
        12 => {
            s.nodes.iter_mut().for_each(|t| *t = 10.0 * (*t / 10.0).floor());
            s.nodes.dedup();
            s.states.iter_mut().for_each(|l| l.retain(|r| r.0 % 10 == 0));
        }
        // just below a whole second, as far as doubles near 2^31 tell
        13 => { s.nodes.iter_mut().for_each(|t| *t = t.floor() + (1.0 - 2f64.powi(-22))); s.nodes.dedup() }
        14 => match random.below(6) { 0 => s.nodes.clear(), 1 => s.nodes.truncate(1), 2 => s.obs.clear(), 3 => s.states[1].clear(), 4 => s.acc[0].clear(), _ => s.nodes.insert(0, -0.0) },
        _ => s.obs.iter_mut().for_each(|o| o.2 = (random.below(4) > 0) as u8),
    }
    if s.nodes.len() < 2 { s.nodes = vec![a, b] }
}

fn sort(list: &mut Vec<f64>) {
    list.sort_by(f64::total_cmp);
    list.dedup();
}

/// One cause of refusal, at times one that is none.
fn damage(random: &mut Rng, s: &mut Submission) {
    let (bad, time, key) = (strange(random), edge_time(random), edge_key(random));
    match random.below(17) {
        0 => s.n = [0, 1, 181][random.below(3)],
        1 => s.fields.truncate(random.below(2)),
        2 => { let f = s.fields[0].1.clone(); s.fields = (0..33).map(|k| (k as f64, f.clone())).collect() }
        3 => { s.stat.c.pop(); }
        4 => { let k = random.below(s.fields.len()); s.fields[k].1.s.push(bad) }
        5 => put(random, &mut s.stat.c, bad),
        6 => { let k = random.below(s.fields.len()); if random.below(2) == 0 { s.fields[k].1.gm = bad } else { s.fields[k].0 = time } }
        7 => { let i = random.below(2); let k = random.below(s.states[i].len().max(1)); if let Some(r) = s.states[i].get_mut(k) { r.1[random.below(6)] = bad } }
        8 => { let i = random.below(2); let k = random.below(s.states[i].len().max(1)); if let Some(r) = s.states[i].get_mut(k) { r.0 = key } }
        9 => { let i = random.below(2); let k = random.below(s.acc[i].len().max(1)); if let Some(r) = s.acc[i].get_mut(k) { if random.below(2) == 0 { r.0 = key } else { r.1 = bad } } }
        10 => put(random, &mut s.nodes, time),
        11 => unsorted(random, &mut s.nodes),
        12 => { let k = random.below(s.obs.len().max(1)); if let Some(o) = s.obs.get_mut(k) { if random.below(2) == 0 { o.0 = time } else { o.1 = bad } } }
        13 => unsorted(random, &mut s.obs),
        14 => { let i = random.below(2); if random.below(2) == 0 { unsorted(random, &mut s.states[i]) } else { unsorted(random, &mut s.acc[i]) } }
        15 => { s.nodes = (0..[64, 65][random.below(2)]).map(|k| k as f64).collect() }
        _ => s.obs.iter_mut().for_each(|o| o.1 = 1.7e308),
    }
}

/// A submission and what the Rust answered, as texts.
fn write(folder: &str, case: u64, s: &Submission) {
    std::fs::write(format!("{folder}/{case}.txt"), text::write(s)).expect("a folder");
    std::fs::write(format!("{folder}/{case}.sheet"), text::sheet(s)).expect("a folder");
}

pub fn sheets(tally: &mut Tally, count: u64, texts: Option<&str>) {
    tally.begin("whole path");
    let (mut kept, mut finals) = (0, 0);
    for case in 0..count {
        let mut random = tally.random(case);
        let n = if case % 100 == 99 { [12, 20, 12, 60][(tally.seed + case / 100) as usize % 4] } else { 2 + random.below(5) };
        let mut s = shaped(&mut random, n, if n > 12 { 1 } else { 4 });
        if random.below(6) == 0 { damage(&mut random, &mut s) }
        let (ours, left) = engine(&mut random, &s);
        let theirs = rust(&s);
        if let Some(folder) = texts { write(folder, case, &s) }
        tally.answered(theirs.as_ref().err().copied().unwrap_or(0));
        if let Ok(w) = &theirs { kept += w.lists[0].len(); finals += (w.f > 0) as u64 }
        tally.judge(left && same(&ours, &theirs), || format!("case {case}: degree {n}, ours {}, Rust {}, slices left {left}", told(&ours), told(&theirs)));
    }
    tally.end(&format!("{kept} epochs kept, F above 0 in {finals}"));
}

// ---- demand 3

fn cut<T: Clone>(list: &mut Vec<T>, keep: impl Fn(&T) -> bool) {
    let n = list.iter().position(|x| !keep(x)).unwrap_or(list.len());
    list.truncate(n);
}

/// Each list cut at a place of its own, many beside a node's reach.
fn shorter(random: &mut Rng, s: &Submission) -> Submission {
    let mut out = s.clone();
    let together = random.below(3) == 0;
    let node = s.nodes[random.below(s.nodes.len())];
    let mut end = |random: &mut Rng| {
        let z = if together { node } else { s.nodes[random.below(s.nodes.len())] };
        match random.below(12) {
            0..=3 if !together => f64::INFINITY,
            4 => z + random.below(5) as f64 - 2.0,
            5 if !s.obs.is_empty() => s.obs[random.below(s.obs.len())].0,
            _ => z + 1804.0 + random.below(9) as f64 - 4.0,
        }
    };
    let t = end(random);
    let n = out.fields.iter().filter(|f| f.0 <= t).count();
    out.fields.truncate(n.max(2));
    for i in 0..2 {
        let (t, u) = (end(random), end(random));
        cut(&mut out.states[i], |r| r.0 as f64 <= t);
        cut(&mut out.acc[i], |r| r.0 as f64 <= u);
    }
    let (t, u) = (end(random), end(random));
    if random.below(2) == 0 { cut(&mut out.nodes, |z| *z <= t) }
    cut(&mut out.obs, |o| o.0 <= u);
    out
}

/// The shortest prefixes that make one node the horizon, or that would if its reach were shorter.
fn tight(random: &mut Rng, s: &Submission) -> Submission {
    let mut out = s.clone();
    let j = random.below(s.nodes.len());
    let reach = s.nodes[j] + [1804.0, 1804.0, 1802.0, 1800.0, 1790.0, 1700.0][random.below(6)];
    fn upto<T>(list: &mut Vec<T>, time: impl Fn(&T) -> f64, reach: f64) {
        if let Some(k) = list.iter().position(|x| time(x) >= reach) { list.truncate(k + 1) }
    }
    upto(&mut out.fields, |f| f.0, reach);
    if out.fields.len() < 2 { out.fields = s.fields[..2].to_vec() }
    for i in 0..2 {
        upto(&mut out.states[i], |r| r.0 as f64, reach);
        upto(&mut out.acc[i], |r| r.0 as f64, reach);
    }
    upto(&mut out.obs, |o| o.0, reach);
    out.nodes.truncate(j + 1 + (random.below(3) == 0) as usize);
    out
}

/// The submission with strange data appended to some of its lists.
fn longer(random: &mut Rng, s: &Submission) -> Submission {
    let mut out = s.clone();
    if random.below(2) == 0 && let Some(last) = s.nodes.last() {
        let mut t = *last;
        for _ in 0..1 + random.below(3) { t += [0.3, 1.0, 2.9, 3.0, 150.0, 900.0, 7000.0][random.below(7)]; if t <= LAST && out.nodes.len() < 64 { out.nodes.push(t) } }
    }
    if random.below(2) == 0 && let Some(last) = s.fields.last() {
        let mut t = last.0;
        for _ in 0..1 + random.below(2) {
            t += [1.0, 10.0, 5000.0][random.below(3)];
            let mut f = random_field(random, s.n, 1e14, 7e6, 1e-4, false);
            f.c[0] = 0.3;
            if t <= LAST && out.fields.len() < 32 { out.fields.push((t, f)) }
        }
    }
    for i in 0..2 {
        if random.below(2) == 0 && let Some((mut key, state)) = s.states[i].last().copied() {
            for _ in 0..1 + random.below(1200) { key += 1 + (random.below(12) == 0) as i64; if key as f64 <= LAST { out.states[i].push((key, state.map(|v| v * (1.0 + 1e-3 * gauss(random))))) } }
        }
        if random.below(2) == 0 && let Some((mut key, _)) = s.acc[i].last().copied() {
            for _ in 0..1 + random.below(1200) { key += 1; if key as f64 <= LAST { out.acc[i].push((key, 1e3 * gauss(random))) } }
        }
    }
    if random.below(2) == 0 && let Some((mut t, _, _)) = s.obs.last().copied() {
        for _ in 0..1 + random.below(600) { t += [0.25, 1.0, 2.0, 3.0, 5.0][random.below(5)]; if t <= LAST { out.obs.push((t, 1e6 * gauss(random), random.below(2) as u8)) } }
    }
    out
}

/// What of demand 3 fails between an answer and that of the longer submission.
fn broken(short: &Sheet, long: &Sheet) -> Option<String> {
    if long.f < short.f { return Some(format!("F fell from {} to {}", short.f, long.f)) }
    (0..4).find(|k| bits(&short.lists[*k][..short.f]) != bits(&long.lists[*k][..short.f.min(long.lists[*k].len())])).map(|k| format!("a final entry of list {k} moved"))
}

/// Pairs on both sides, or on the engine alone.
pub fn pairs(tally: &mut Tally, count: u64, alone: bool) {
    tally.begin(if alone { "pairs, engine alone" } else { "pairs" });
    let (mut done, mut positive, mut grew, mut next) = (0, 0, 0, 0);
    let answer = |random: &mut Rng, s: &Submission, tally: &mut Tally, case: u64| {
        let (ours, left) = engine(random, s);
        let theirs = if alone { Err(0) } else { rust(s) };
        tally.judge(left && (alone || same(&ours, &theirs)), || format!("case {case}: ours {}, Rust {}, slices left {left}", told(&ours), told(&theirs)));
        ours.ok()
    };
    while done < count && next < 20 * count + 20 {
        let case = next;
        next += 1;
        let mut random = tally.random(case);
        let n = if case % 50 == 49 { 6 } else { 2 + random.below(2) };
        let most = if random.below(8) == 0 { 6 } else { 3 };
        let s = shaped(&mut random, n, most);
        if check(&s).is_some() || s.nodes.is_empty() { continue }
        let Some(long) = answer(&mut random, &s, tally, case) else { continue };
        for kind in 0..4 {
            // cut, cut tightly, and twice appended to the tightly cut one
            let short = if kind % 2 == 0 { shorter(&mut random, &s) } else { tight(&mut random, &s) };
            let Some(first) = answer(&mut random, &short, tally, case) else { continue };
            let mut against = vec![broken(&first, &long)];
            for _ in 0..2 * (kind % 2) {
                let appended = longer(&mut random, &short);
                if let Some(second) = answer(&mut random, &appended, tally, case) {
                    grew += (second.f > first.f) as u64;
                    against.push(broken(&first, &second));
                }
            }
            grew += (long.f > first.f) as u64;
            for why in against {
                done += 1;
                positive += (first.f > 0) as u64;
                tally.judge(why.is_none(), || format!("case {case}, demand 3: {}", why.unwrap()));
            }
        }
    }
    tally.end(&format!("{done} pairs, F above 0 in {positive}, F grew in {grew}"));
}
