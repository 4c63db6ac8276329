// Modules 6 and 7: detrending by revolutions and the band-pass, by the number of samples M.
use crate::generate::{gauss, unit};
use crate::source::{Rng, band_pass, detrend, revolutions};
use crate::timing::Bench;
use pozsmeteg::raw;

// Samples two seconds apart with a gap now and then, and nodes 5,650 s apart.
fn samples(m: usize) -> (Vec<f64>, Vec<f64>, Vec<f64>) {
    let mut random = Rng::new(5);
    let mut t = 1e6;
    let times: Vec<f64> = (0..m).map(|_| { t += if random.below(700) == 0 { 20.0 } else { 2.0 }; t }).collect();
    let values = times.iter().map(|t| 1e-8 * ((1.1e-3 * t).sin() + 1e-7 * t + 0.1 * gauss(&mut random))).collect();
    let mut node = times[0] + 100.0 * unit(&mut random);
    let mut nodes = vec![];
    while node < t && nodes.len() < 64 {
        nodes.push(node);
        node += 5_650.0;
    }
    (times, values, nodes)
}

pub fn works(bench: &mut Bench) {
    let (mut removed, mut passed) = (vec![], vec![]);
    for (m, count) in [(3_000, 20), (12_000, 5), (48_000, 2)] {
        let (times, values, nodes) = samples(m);
        let ranges = revolutions(&times, &nodes);
        let (firsts, ends): (Vec<usize>, Vec<usize>) = ranges.iter().map(|r| (r.0.start, r.0.end)).unzip();
        let (starts, periods): (Vec<f64>, Vec<f64>) = ranges.iter().map(|r| (r.1, r.2)).unzip();
        let mut scratch = vec![0.0; 8 * m];
        removed.push((m as f64, bench.compare(
            &format!("detrending, M = {m}"), count, 1,
            &mut || { let mut out = values.clone(); detrend(&times, &mut out, &ranges); out },
            &mut || { let mut out = values.clone(); raw::detrend(&times, &mut out, &firsts, &ends, &starts, &periods, &mut scratch); out },
        )));
        passed.push((m as f64, bench.compare(
            &format!("band-pass, M = {m}"), count, 1,
            &mut || band_pass(&times, &values),
            &mut || { let mut out = vec![0.0; m]; raw::band_pass(&times, &values, &mut out, &mut scratch); out },
        )));
    }
    bench.growth("detrending in M", &removed);
    bench.growth("band-pass in M", &passed);
}
