// Module 1: one evaluation of the partials, the tables lent and the work slice prepared.
use crate::generate::unit;
use crate::source::{Coefficients, Legendre, Rng, idx};
use crate::timing::Bench;
use pozsmeteg::raw;
use std::hint::black_box;

const GM: f64 = 3.986004415e14;
const RADIUS: f64 = 6378136.3;

fn field(n: usize, seed: u64) -> Coefficients {
    let mut random = Rng::new(seed);
    let mut unit = || 2.0 * unit(&mut random) - 1.0;
    let mut out = Coefficients::zeros(GM, RADIUS, n);
    for d in 0..=n {
        for m in 0..=d {
            let size = 1e-5 / (1.0 + (d * d) as f64);
            out.set(d, m, size * unit(), size * unit());
        }
    }
    out.set(0, 0, 1.0, 0.0);
    out
}

pub fn works(bench: &mut Bench) {
    let mut points = vec![];
    for (n, count) in [(2, 2000), (20, 500), (60, 200), (180, 20)] {
        let f = field(n, 7);
        let l = idx(n, n) + 1;
        let tables = Legendre::new(n);
        let mut work = vec![0.0; 8 * l];
        work[..l].copy_from_slice(&f.c);
        work[l..2 * l].copy_from_slice(&f.s);
        assert_eq!(raw::prepare(n, &mut work), 0);
        let places: Vec<(f64, f64, f64)> = [(0.3, 1.0), (-1.2, -3.0), (std::f64::consts::FRAC_PI_2, 100.0), (0.0, 0.0)].iter().map(|(lat, lon)| (6.878e6, *lat, *lon)).collect();
        let times = bench.compare(
            &format!("partials, N = {n}"),
            count,
            places.len(),
            &mut || places.iter().flat_map(|(r, lat, lon)| { let p = f.partials(black_box(*r), *lat, *lon); [p.v, p.dr, p.dlat, p.dlon] }).collect(),
            &mut || places.iter().flat_map(|(r, lat, lon)| {
                let mut out = [0.0; 4];
                raw::partials_prepared(n, GM, RADIUS, &tables.a, &tables.b, &work, black_box(*r), *lat, *lon, &mut out);
                out
            }).collect(),
        );
        points.push((n as f64, times));
    }
    bench.growth("partials in N", &points[1..]);
}
