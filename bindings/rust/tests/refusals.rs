// Each call of the library, refused once with every number that it can answer: a good call, and what is spoiled of it.
mod orbits;

use orbits::{GM, orbit};
use pozsmeteg::raw::{self, Arc, Keyed, Model, Observations, Pair, Published, Reach, Records};

const NAN: f64 = f64::NAN;

/// Whether lent lists that held 7 are as they were after 1 to 5, and at zero after 6 to 10.
fn left(number: u8, lists: &[&[f64]], counts: &[usize]) -> bool {
    match number {
        0 => true,
        1..=5 => lists.iter().all(|l| l.iter().all(|v| *v == 7.0)) && counts.iter().all(|k| *k == 7),
        _ => lists.iter().all(|l| l.iter().all(|v| v.to_bits() == 0)) && counts.iter().all(|k| *k == 0),
    }
}

/// The good call is accepted, and each spoiled one refused by the number beside it, with its lists left as that number says.
fn each<A: Clone>(good: &A, call: fn(&A) -> (u8, bool), rows: &[(u8, fn(&mut A))]) {
    assert_eq!(call(good), (0, true));
    for (row, (number, spoil)) in rows.iter().enumerate() {
        let mut asked = good.clone();
        spoil(&mut asked);
        assert_eq!(call(&asked), (*number, true), "row {row}");
    }
}

fn tables() -> (Vec<f64>, Vec<f64>) {
    let (mut a, mut b) = (vec![0.0; 6], vec![0.0; 6]);
    assert_eq!(raw::legendre_new(2, &mut a, &mut b, &mut [0.0; 48]), 0);
    (a, b)
}

/// A point mass with J2, as a field of degree 2.
fn earth() -> Vec<f64> {
    let mut out = vec![0.0; 14];
    out[..3].copy_from_slice(&[GM, 6_378_136.3, 1.0]);
    out[5] = -4.841_65e-4;
    out
}

#[derive(Clone)]
struct Evaluation { degree: usize, field: Vec<f64>, r: f64, lat: f64, places: usize, room: usize }

#[test]
fn tables_filled() {
    let rows: [(u8, fn(&mut Evaluation)); 3] = [(1, |e| e.degree = 181), (3, |e| e.places = 5), (3, |e| e.room = 47)];
    let good = Evaluation { degree: 2, field: vec![], r: 0.0, lat: 0.0, places: 6, room: 48 };
    each(&good, |e| {
        let (mut a, mut b, mut scratch) = (vec![7.0; e.places], vec![7.0; 6], vec![7.0; e.room]);
        let told = raw::legendre_new(e.degree, &mut a, &mut b, &mut scratch);
        (told, left(told, &[&a, &b, &scratch], &[]))
    }, &rows);
    each(&good, |e| {
        let mut work = vec![7.0; e.room];
        let told = raw::prepare(e.degree, &mut work);
        (told, left(told, &[&work], &[]))
    }, &[rows[0], rows[2], (1, |e| e.degree = 1)]);
}

#[test]
fn partials() {
    let good = Evaluation { degree: 2, field: earth(), r: 6.878e6, lat: 0.4, places: 4, room: 48 };
    let rows: [(u8, fn(&mut Evaluation)); 8] = [
        (1, |e| (e.degree, e.places) = (1, 5)), (3, |e| e.places = 5), (3, |e| (e.places, e.r) = (3, NAN)), (3, |e| e.room = 47),
        (4, |e| e.r = NAN), (4, |e| e.lat = f64::INFINITY), (4, |e| e.field[1] = NAN), (10, |e| e.r = 0.0),
    ];
    each(&good, |e| {
        let ((a, b), mut out, mut scratch) = (tables(), vec![7.0; e.places], vec![7.0; e.room]);
        let told = raw::partials(e.degree, &e.field, &a, &b, e.r, e.lat, 1.0, &mut out, &mut scratch);
        (told, left(told, &[&out, &scratch], &[]))
    }, &rows);
    // a number of the work slice that is not finite shows in what comes of it
    each(&good, |e| {
        let ((a, b), mut work, mut out) = (tables(), vec![0.0; 48], vec![7.0; e.places]);
        work[..12].copy_from_slice(&e.field[2..]);
        assert_eq!(raw::prepare(2, &mut work), 0);
        let told = raw::partials_prepared(e.degree, e.field[0], e.field[1], &a, &b, &work[..e.room], e.r, e.lat, 1.0, &mut out);
        (told, left(told, &[&out], &[]))
    }, &[&rows[..], &[(10, |e| e.field[2] = NAN)]].concat());
}

#[derive(Clone)]
struct Lists {
    degree: usize, times: Vec<f64>, keys: Vec<i64>, first: usize, arc: Arc, apart: f64, nodes: Vec<f64>, seen: Vec<f64>, values: Vec<f64>, outs: usize, places: usize,
}

fn lists(seconds: i64, places: usize) -> Lists {
    let arc = Arc { t0: 100.0, steps: 800, node: 200.0, period: 1_500.0 };
    Lists {
        degree: 2, times: vec![0.0, 12_000.0], keys: (0..seconds).collect(), first: 0, arc, apart: 28.0, nodes: vec![1_900.5, 2_500.5],
        seen: vec![1.0, 2.5, 3.0, 200.0], values: vec![0.0; 4], outs: 4, places,
    }
}

fn with_model<R>(l: &Lists, call: impl FnOnce(Model) -> R) -> R {
    let ((a, b), field) = (tables(), earth());
    let mut still = vec![0.0; 14];
    still[..2].copy_from_slice(&field[..2]);
    call(Model { degree: l.degree, field: &field, a: &a, b: &b, times: &l.times, added: &still.repeat(2) })
}

#[test]
fn fits() {
    each(&lists(2_000, 1), |l| with_model(l, |model| {
        let states = orbit(&l.keys, 0.0);
        let (keys, states) = (&l.keys[l.first..], &states[6 * l.first..]);
        let (mut out, mut rms, mut scratch) = (vec![7.0; 6 * (l.arc.steps + 1)], vec![7.0; l.places], vec![7.0; 150_072]);
        let told = raw::fit_orbit(model, Keyed { keys, values: states }, l.arc, &mut out, &mut rms, &mut scratch);
        (told, left(told, &[&out, &rms, &scratch], &[]))
    }), &[
        (1, |l| (l.degree, l.places) = (181, 0)), (2, |l| (l.arc.steps, l.places) = (5_303, 0)), (3, |l| (l.arc.t0, l.places) = (NAN, 0)), (3, |l| l.places = 2),
        (4, |l| l.arc.t0 = NAN), (4, |l| (l.keys[0], l.keys[1]) = (-1, -1)), (5, |l| l.keys.reverse()), (6, |l| l.arc.t0 = 11_900.0), (7, |l| l.first = 2_000),
        (8, |l| l.first = 101), (9, |l| l.arc.steps = 10), (10, |l| l.arc.period = 0.0),
    ]);
}

fn pair<'a>(keys: &'a [i64], c: &'a [f64], d: &'a [f64], acc: &'a [f64]) -> Pair<'a> {
    let keyed = |values| Keyed { keys, values };
    Pair { c: keyed(c), d: keyed(d), c_acc: keyed(acc), d_acc: keyed(acc) }
}

#[test]
fn epochs() {
    each(&lists(300, 1), |l| with_model(l, |model| {
        let (c, d, acc, good, m) = (orbit(&l.keys, 0.0), orbit(&l.keys, l.apart), vec![0.0; l.keys.len()], vec![1; l.seen.len()], l.outs);
        let (mut times, mut residuals, mut terms, mut mids, mut vels) = (vec![7.0; m], vec![7.0; m], vec![[7.0; 5]; m], vec![[7.0; 3]; m], vec![[7.0; 3]; m]);
        let (mut counts, mut scratch) = (vec![7; l.places], vec![7.0; 150_072 + 10 * m]);
        let out = Records { times: &mut times, residuals: &mut residuals, terms: &mut terms, mids: &mut mids, vels: &mut vels };
        let told = raw::residuals(model, pair(&l.keys, &c, &d, &acc), Observations { times: &l.seen, values: &l.values, good: &good }, out, &mut counts, &mut scratch);
        (told, left(told, &[&times, &residuals, terms.as_flattened(), mids.as_flattened(), vels.as_flattened(), &scratch], &counts))
    }), &[
        (1, |l| (l.degree, l.places) = (0, 2)), (2, |l| (l.seen, l.places) = (vec![0.0; 100_001], 0)), (3, |l| (l.seen[0], l.places) = (NAN, 0)), (3, |l| l.places = 2),
        (3, |l| l.outs = 3), (4, |l| l.values[3] = NAN), (5, |l| l.seen.swap(1, 2)), (10, |l| l.apart = 0.0),
    ]);
}

#[test]
fn whole_path() {
    let mut good = lists(6_000, 2);
    good.seen = (0..1_500).map(|k| 2.0 * k as f64).collect();
    (good.values, good.outs) = (vec![0.0; 1_500], 1_500);
    each(&good, |l| with_model(l, |model| {
        let (c, d, acc, good, m) = (orbit(&l.keys, 0.0), orbit(&l.keys, l.apart), vec![0.0; l.keys.len()], vec![1; l.seen.len()], l.outs);
        let [mut times, mut raws, mut detrended, mut passed] = [(); 4].map(|_| vec![7.0; m]);
        let (mut counts, mut scratch) = (vec![7; l.places], vec![7.0; 150_072 + 49_200 + 10 * m]);
        let out = Published { times: &mut times, raws: &mut raws, detrended: &mut detrended, passed: &mut passed };
        let seen = Observations { times: &l.seen, values: &l.values, good: &good };
        let told = raw::sheet(model, pair(&l.keys, &c, &d, &acc), &l.nodes, seen, out, &mut counts, &mut scratch);
        (told, left(told, &[&times, &raws, &detrended, &passed, &scratch], &counts))
    }), &[
        (1, |l| (l.degree, l.places) = (181, 1)), (2, |l| (l.nodes, l.places) = (vec![0.0; 65], 1)), (3, |l| (l.nodes, l.places) = (vec![-1.0], 1)), (3, |l| l.places = 0),
        (3, |l| l.places = 3), (3, |l| l.outs = 1_499), (4, |l| l.nodes[0] = -1.0), (5, |l| l.nodes.reverse()), (10, |l| l.values.fill(1.7e308)),
    ]);
}

#[derive(Clone)]
struct Columns { times: Vec<f64>, values: Vec<f64>, nodes: Vec<f64>, first: usize, end: usize, ranges: usize, period: f64, places: usize, room: usize }

#[test]
fn columns() {
    let times: Vec<f64> = (0..300).map(|k| 2.0 * k as f64).collect();
    let good = Columns { values: times.clone(), times, nodes: vec![0.0, 600.0], first: 0, end: 300, ranges: 1, period: 600.0, places: 1, room: 2_400 };
    each(&good, |c| {
        let k = c.nodes.len() - 1;
        let (mut firsts, mut ends, mut starts, mut periods, mut counts) = (vec![7; k], vec![7; k], vec![7.0; k], vec![7.0; k], vec![7; c.places]);
        let told = raw::revolutions(&c.times, &c.nodes, &mut firsts, &mut ends, &mut starts, &mut periods, &mut counts);
        (told, left(told, &[&starts, &periods], &[firsts, ends, counts].concat()))
    }, &[
        (2, |c| (c.times, c.places) = (vec![0.0; 100_001], 0)), (2, |c| (c.nodes, c.places) = (vec![0.0; 65], 0)), (3, |c| (c.times[0], c.places) = (NAN, 0)), (3, |c| c.places = 2),
        (4, |c| c.times[299] = NAN), (4, |c| c.nodes[0] = -1.0), (5, |c| c.times.reverse()), (5, |c| c.nodes.reverse()),
    ]);
    each(&good, |c| {
        let (mut values, mut scratch) = (vec![7.0; c.values.len()], vec![7.0; c.room]);
        let told = raw::detrend(&c.times, &mut values, &vec![c.first; c.ranges], &vec![c.end; c.ranges], &vec![c.nodes[0]; c.ranges], &vec![c.period; c.ranges], &mut scratch);
        (told, left(told, &[&values, &scratch], &[]))
    }, &[
        (2, |c| c.end = 301), (2, |c| c.ranges = 64), (3, |c| c.room = 2_399), (3, |c| c.values.truncate(299)), (4, |c| c.times[0] = NAN), (4, |c| c.period = NAN), (5, |c| c.times.reverse()),
        (5, |c| c.ranges = 2), (10, |c| c.period = 0.0),
    ]);
    each(&good, |c| {
        let (mut out, mut scratch) = (vec![7.0; c.times.len()], vec![7.0; c.room]);
        let told = raw::band_pass(&c.times, &c.values, &mut out, &mut scratch);
        (told, left(told, &[&out, &scratch], &[]))
    }, &[
        (2, |c| c.times = vec![0.0; 100_001]), (3, |c| c.room = 2_399), (3, |c| c.values.truncate(299)), (4, |c| c.values[0] = NAN), (4, |c| c.times[0] = -1.0), (5, |c| c.times.swap(0, 1)),
        (10, |c| c.values.fill(1.7e308)),
    ]);
}

#[derive(Clone)]
struct Final { nodes: Vec<f64>, keys: [Vec<i64>; 4], fields: Vec<f64>, observed: Vec<f64>, kept: Vec<f64>, places: usize }

#[test]
fn finality() {
    let ends = vec![0.0, 16_804.0];
    let good = Final { nodes: vec![10_000.0, 15_000.0], keys: [(); 4].map(|_| vec![0, 16_804]), fields: ends.clone(), observed: ends, kept: vec![1.0, 2.0, 14_998.0], places: 1 };
    fn reach(f: &Final) -> Reach<'_> {
        let [c, d, c_acc, d_acc] = &f.keys;
        Reach { nodes: &f.nodes, c, d, c_acc, d_acc, fields: &f.fields, observed: &f.observed }
    }
    let rows: [(u8, fn(&mut Final)); 12] = [
        (2, |f| (f.nodes, f.places) = (vec![0.0; 65], 0)), (2, |f| f.keys[2] = vec![0; 200_001]), (2, |f| f.fields = vec![0.0; 33]), (2, |f| f.observed = vec![0.0; 100_001]),
        (3, |f| (f.nodes[0], f.places) = (NAN, 0)), (3, |f| f.places = 2), (4, |f| f.fields[0] = -5e-324), (4, |f| f.keys[3][1] = 2_147_483_649), (4, |f| f.observed[1] = f64::INFINITY),
        (5, |f| f.nodes = vec![15_000.0, 10_000.0]), (5, |f| f.keys[0] = vec![16_804, 16_804]), (5, |f| f.fields.reverse()),
    ];
    each(&good, |f| {
        let mut out = vec![7.0; f.places];
        let told = raw::horizon(reach(f), &mut out);
        (told, left(told, &[&out], &[]) && (told != 0 || out == [15_000.0]))
    }, &rows);
    each(&good, |f| {
        let mut counts = vec![7; f.places];
        let told = raw::final_count(reach(f), &f.kept, &mut counts);
        (told, left(told, &[], &counts) && (told != 0 || counts == [2]))
    }, &[&rows[..], &[(2, |f| f.kept = vec![0.0; 100_001]), (4, |f| f.kept[0] = NAN), (5, |f| f.kept.reverse())]].concat());
}

/// Lists of the least lengths that the crate names are long enough, and shorter scratch is not.
#[test]
fn sizes() {
    use pozsmeteg::*;
    let room = |l: &Lists| sheet_scratch(2, l.times.len(), l.nodes.len(), l.seen.len());
    assert_eq!((field_length(2), field_scratch(2), fit_scratch(2, 2), residuals_scratch(2, 2, 4), column_scratch(300)), (14, 48, 150_072, 150_112, 2_400));
    assert_eq!(sheet_scratch(180, usize::MAX, usize::MAX, usize::MAX), sheet_scratch(180, 32, 64, 100_000));
    for (short, number) in [(0, 0), (1, 3)] {
        let l = lists(300, 2);
        let told = with_model(&l, |model| {
            let (c, acc, good, [mut times, mut raws, mut detrended, mut passed]) = (orbit(&l.keys, 0.0), vec![0.0; 300], [1; 4], [[7.0; 4]; 4]);
            let out = Published { times: &mut times, raws: &mut raws, detrended: &mut detrended, passed: &mut passed };
            let seen = Observations { times: &l.seen, values: &l.values, good: &good };
            raw::sheet(model, pair(&l.keys, &c, &c, &acc), &l.nodes, seen, out, &mut [7, 7], &mut vec![7.0; room(&l) - short])
        });
        assert_eq!(told, number);
    }
    assert_eq!(VERSION, env!("CARGO_PKG_VERSION"));
}
