// Legendre tables and partials: degrees at and beyond the bounds, each length off by one, each input that is not finite.
use crate::fieldlists::{coefficients, finite, places};
use crate::generate::{gauss, unit};
use crate::lent::*;
use crate::source::{Legendre, Rng};
use crate::tally::Tally;
use pozsmeteg::raw;

fn degree(random: &mut Rng) -> usize {
    match random.below(40) {
        0 => [0, 1, 181, 182, 100_000][random.below(5)],
        1 => [178, 179, 180][random.below(3)],
        2 => 13 + random.below(60),
        _ => 2 + random.below(11),
    }
}

fn tables(tally: &mut Tally, rounds: u64) {
    tally.begin("legendre_new");
    for case in 0..rounds {
        let mut random = tally.random(case);
        let n = degree(&mut random);
        let l = if n > 200 { 10 } else { places(n) };
        let length = |random: &mut Rng| if random.below(20) == 0 { l + 1 - 2 * random.below(2).min(l) } else { l };
        let (x, y) = (length(&mut random), length(&mut random));
        let (mut a, mut b) = (Lent::new(&mut random, x), Lent::new(&mut random, y));
        let room = scratch_length(&mut random, 8 * l);
        let mut scratch = Lent::new(&mut random, room);
        let told = raw::legendre_new(n, &mut a.now, &mut b.now, &mut scratch.now);
        let number = if !(2..=180).contains(&n) { 1 } else if x != l || y != l || room < 8 * l { 3 } else { 0 };
        tally.answered(number);
        let table = if number == 0 { Legendre::new(n) } else { Legendre::new(2) };
        let l = l.min(table.a.len());
        let equal = told == number && a.settled(number, &table.a[..l]) && b.settled(number, &table.b[..l]) && scratch.left(number);
        tally.judge(equal, || format!("case {case}: degree {n}, told {told}, expected {number}"));
    }
    tally.end("");
}

/// GM, radius, and coefficients that fall with the degree.
pub fn field(random: &mut Rng, n: usize, first: f64, size: f64) -> Vec<f64> {
    let mut out = vec![3.986_004_415e14 * (1.0 + 1e-9 * gauss(random)), 6_378_136.3 + gauss(random)];
    out.extend((0..2 * places(n)).map(|_| size * gauss(random)));
    out[2] = first;
    out
}

fn latitude(random: &mut Rng) -> f64 {
    let pole = std::f64::consts::FRAC_PI_2;
    match random.below(10) {
        0 => pole,
        1 => -pole,
        2 => pole.next_down(),
        3 => if random.below(2) == 0 { 0.0 } else { -0.0 },
        4 => 4e6 * (unit(random) - 0.5),
        _ => pole * (2.0 * unit(random) - 1.0),
    }
}

fn partials(tally: &mut Tally, rounds: u64) {
    tally.begin("partials");
    for case in 0..4 * rounds {
        let mut random = tally.random(case);
        let n = degree(&mut random);
        let l = if n > 200 { 10 } else { places(n) };
        let mut values = if n > 200 { vec![0.0; 22] } else { field(&mut random, n, 1.0, 1e-5) };
        let table = Legendre::new(n.clamp(2, 180));
        let (mut a, mut b) = (table.a.clone(), table.b.clone());
        a.resize(l, 0.0);
        b.resize(l, 0.0);
        let mut place = [6.878e6 + 1e5 * gauss(&mut random), latitude(&mut random), 7.0 * (unit(&mut random) - 0.5)];
        for _ in 0..[0, 0, 0, 1, 1, 2][random.below(6)] {
            let bad = strange(&mut random);
            match random.below(10) {
                0 => off_by_one(&mut random, &mut values, bad),
                1 => off_by_one(&mut random, &mut a, 0.5),
                2 => off_by_one(&mut random, &mut b, 0.5),
                3 => put(&mut random, &mut values, bad),
                4 => put(&mut random, &mut a, bad),
                5 => put(&mut random, &mut b, bad),
                6 => place[random.below(3)] = bad,
                7 => place[0] = [0.0, -0.0, 1e-300, 1e300][random.below(4)],
                8 => place[2] = 1e6 + 1e5 * unit(&mut random),
                _ => put(&mut random, &mut values, 1e308),
            }
        }
        let room = scratch_length(&mut random, 8 * l);
        let handed = if random.below(20) == 0 { [0, 1, 3, 5][random.below(4)] } else { 4 };
        let (mut out, mut scratch) = (Lent::new(&mut random, handed), Lent::new(&mut random, room));
        let told = raw::partials(n, &values, &a, &b, place[0], place[1], place[2], &mut out.now, &mut scratch.now);
        let early = if !(2..=180).contains(&n) { 1 } else if values.len() != 2 + 2 * l || a.len() != l || b.len() != l || handed != 4 || room < 8 * l { 3 }
            else if !(finite(&values) && finite(&a) && finite(&b) && finite(&place)) { 4 } else { 0 };
        let four = if early != 0 { [0.0; 4] } else {
            let p = coefficients(n, &values).partials(place[0], place[1], place[2]);
            [p.v, p.dr, p.dlat, p.dlon]
        };
        let number = if early != 0 { early } else if finite(&four) { 0 } else { 10 };
        tally.answered(number);
        let equal = told == number && out.settled(number, &four) && scratch.left(number);
        tally.judge(equal, || format!("case {case}: degree {n}, told {told}, expected {number}, {place:?}"));
        if early == 0 {
            prepared(tally, &mut random, case, n, &values, &a, &b, place, four);
        }
    }
    tally.end("");
}

// From a prepared work slice the same numbers, or the same 10; a length, a degree or a number that does not fit is refused, and nothing changes.
fn prepared(tally: &mut Tally, random: &mut Rng, case: u64, n: usize, values: &[f64], a: &[f64], b: &[f64], place: [f64; 3], four: [f64; 4]) {
    let l = places(n);
    let mut work = vec![f64::NAN; 8 * l];
    work[..2 * l].copy_from_slice(&values[2..]);
    let made = raw::prepare(n, &mut work);
    let mut asked = |degree, gm, a: &[f64], b: &[f64], work: &[f64], handed, number, four: &[f64]| {
        let mut out = Lent::new(random, handed);
        let told = raw::partials_prepared(degree, gm, values[1], a, b, work, place[0], place[1], place[2], &mut out.now);
        told == number && out.settled(number, four)
    };
    let equal = asked(n, values[0], a, b, &work, 4, if finite(&four) { 0 } else { 10 }, &four);
    let (short, of_a, of_b) = (&work[1..], &a[1..], &b[1..]);
    let refused = match case % 6 {
        0 => asked(n, values[0], of_a, b, &work, 4, 3, &[]),
        1 => asked(n, values[0], a, of_b, &work, 4, 3, &[]),
        2 => asked(n, values[0], a, b, short, 4, 3, &[]),
        3 => asked(181, values[0], a, b, &work, 5, 1, &[]),
        4 => asked(n, f64::NAN, a, b, &work, 4, 4, &[]),
        _ => asked(n, f64::INFINITY, a, b, &work, 5, 3, &[]),
    };
    let mut few = vec![7.0; 8 * l - 1];
    let unprepared = raw::prepare(n, &mut few) == 3 && raw::prepare(181, &mut few) == 1 && raw::prepare(1, &mut few) == 1 && few.iter().all(|v| *v == 7.0);
    tally.judge(made == 0 && equal && refused && unprepared, || format!("case {case}, prepared: degree {n}, {place:?}"));
}

pub fn compare(tally: &mut Tally, rounds: u64) {
    tables(tally, rounds);
    partials(tally, rounds);
}
