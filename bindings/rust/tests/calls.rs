// Each safe function once accepted, and once refused with each number that it can answer: the lengths that this crate makes itself are right.
mod orbits;

use orbits::{GM, orbit};
use pozsmeteg::*;

const RADIUS: f64 = 6_378_136.3;

/// A point mass with J2, as a field of a degree.
fn earth(degree: usize) -> Vec<f64> {
    let mut out = vec![0.0; 2 + 2 * places(degree)];
    out[..2].copy_from_slice(&[GM, RADIUS]);
    out[2] = 1.0;
    out[2 + 3] = -4.841_65e-4;
    out
}

/// An added field that adds nothing.
fn nothing(degree: usize) -> Vec<f64> {
    let mut out = vec![0.0; 2 + 2 * places(degree)];
    out[..2].copy_from_slice(&[GM, RADIUS]);
    out
}

#[test]
fn numbers() {
    assert_eq!(root(2.0).to_bits(), 0x3FF6_A09E_667F_3BCD);
    assert!(root(-1.0).is_nan());
    assert_eq!((sine(0.0), cosine(0.0)), (0.0, 1.0));
    assert!(sine(1e7).is_nan());
    assert_eq!(arctangent(1.0, 1.0).to_bits(), 0x3FE9_21FB_5444_2D18);
    assert!(arcsine(1.5).is_nan());
    assert_eq!(power(2.0, 10), 1024.0);
}

#[test]
fn tables_and_partials() {
    assert_eq!(Tables::new(1), Err(Refusal::Degree));
    assert_eq!(Tables::new(181), Err(Refusal::Degree));
    let tables = Tables::new(4).unwrap();
    let p = partials(&tables, &earth(4), 6.878e6, 0.4, 1.0).unwrap();
    assert!((p.v / (GM / 6.878e6) - 1.0).abs() < 1e-2 && p.dr < 0.0);
    assert_eq!(partials(&tables, &earth(3), 6.878e6, 0.4, 1.0), Err(Refusal::Length));
    assert_eq!(partials(&tables, &earth(4), f64::NAN, 0.4, 1.0), Err(Refusal::Value));
    assert_eq!(partials(&tables, &earth(4), 0.0, 0.4, 1.0), Err(Refusal::NotFinite));
    assert!(Prepared::new(&tables, &earth(3)).is_err_and(|why| why == Refusal::Length));
    let prepared = Prepared::new(&tables, &earth(4)).unwrap();
    assert_eq!(prepared.partials(6.878e6, 0.4, 1.0), Ok(p));
    assert_eq!(prepared.partials(6.878e6, f64::NAN, 1.0), Err(Refusal::Value));
    assert_eq!(prepared.partials(0.0, 0.4, 1.0), Err(Refusal::NotFinite));
}

#[test]
fn passing() {
    let times: Vec<f64> = (0..300).map(|k| 2.0 * k as f64).collect();
    let wave: Vec<f64> = times.iter().map(|t| (0.025 * t).sin()).collect();
    let passed = band_pass(&times, &wave).unwrap();
    assert!(passed[100..200].iter().any(|v| v.abs() > 0.5));
    assert_eq!(band_pass(&[], &[]), Ok(vec![]));
    assert_eq!(band_pass(&times[..64], &wave[..64]), Ok(vec![0.0; 64]));
    assert_eq!(band_pass(&times, &wave[1..]), Err(Refusal::Length));
    assert_eq!(band_pass(&[0.0, -1.0], &[0.0, 0.0]), Err(Refusal::Value));
    assert_eq!(band_pass(&[1.0, 1.0], &[0.0, 0.0]), Err(Refusal::Order));
    assert_eq!(band_pass(&vec![0.0; 100_001], &[]), Err(Refusal::Count));
    assert_eq!(band_pass(&times, &vec![1.7e308; 300]), Err(Refusal::NotFinite));
}

#[test]
fn detrending() {
    let times: Vec<f64> = (0..120).map(|k| 50.0 * k as f64).collect();
    let line: Vec<f64> = times.iter().map(|t| 3.0 + 1e-3 * t).collect();
    let found = revolutions(&times, &[100.0, 5700.0]).unwrap();
    assert_eq!(found, vec![Revolution { first: 2, end: 114, start: 100.0, period: 5600.0 }]);
    let flat = detrend(&times, &line, &found).unwrap();
    assert!(flat[2..114].iter().all(|v| v.abs() < 1e-9));
    assert_eq!(flat[..2], line[..2]);
    assert_eq!(flat[114..], line[114..]);
    assert_eq!(revolutions(&times, &[5.0, 5.0]), Err(Refusal::Order));
    assert_eq!(revolutions(&times, &[]), Ok(vec![]));
    assert_eq!(revolutions(&vec![0.0; 100_001], &[]), Err(Refusal::Count));
    assert_eq!(revolutions(&[-1.0], &[]), Err(Refusal::Value));
    assert_eq!(detrend(&times, &line, &[Revolution { first: 2, end: 121, start: 0.0, period: 1.0 }]), Err(Refusal::Count));
    assert_eq!(detrend(&times, &line[1..], &[]), Err(Refusal::Length));
    assert_eq!(detrend(&times, &line, &[Revolution { start: -1.0, ..found[0] }]), Err(Refusal::Value));
    assert_eq!(detrend(&times, &line, &[found[0], found[0]]), Err(Refusal::Order));
    assert_eq!(detrend(&times, &line, &[Revolution { period: 0.0, ..found[0] }]), Err(Refusal::NotFinite));
}

#[test]
fn fitting() {
    let (tables, field, times) = (Tables::new(2).unwrap(), earth(2), [0.0, 5_000.0]);
    let added = [nothing(2), nothing(2)].concat();
    let model = Model { tables: &tables, field: &field, times: &times, added: &added };
    let keys: Vec<i64> = (0..2_000).collect();
    let values = orbit(&keys, 0.0);
    let states = Keyed { keys: &keys, values: &values };
    let arc = Arc { t0: 100.0, steps: 800, node: 200.0, period: 1_500.0 };
    let fit = fit_orbit(&model, states, arc).unwrap();
    assert_eq!(fit.states.len(), 801);
    assert!(fit.rms < 100.0);
    assert_eq!(fit_orbit(&model, states, Arc { steps: 5_303, ..arc }), Err(Refusal::Count));
    assert_eq!(fit_orbit(&model, Keyed { values: &values[1..], ..states }, arc), Err(Refusal::Length));
    assert_eq!(fit_orbit(&model, states, Arc { t0: f64::NAN, ..arc }), Err(Refusal::Value));
    let falling: Vec<i64> = keys.iter().rev().copied().collect();
    assert_eq!(fit_orbit(&model, Keyed { keys: &falling, ..states }, arc), Err(Refusal::Order));
    assert_eq!(fit_orbit(&model, states, Arc { period: 0.0, ..arc }), Err(Refusal::NotFinite));
    assert_eq!(fit_orbit(&model, states, Arc { t0: 4_900.0, ..arc }), Err(Refusal::Uncovered));
    assert_eq!(fit_orbit(&model, Keyed { keys: &[], values: &[] }, arc), Err(Refusal::FewStates));
    assert_eq!(fit_orbit(&model, Keyed { keys: &keys[101..], values: &values[606..] }, arc), Err(Refusal::NoFirstState));
    assert_eq!(fit_orbit(&model, states, Arc { steps: 10, ..arc }), Err(Refusal::Singular));
}

#[test]
fn epochs() {
    let (tables, field, times) = (Tables::new(2).unwrap(), earth(2), [0.0, 5_000.0]);
    let added = [nothing(2), nothing(2)].concat();
    let model = Model { tables: &tables, field: &field, times: &times, added: &added };
    let keys: Vec<i64> = (0..100).collect();
    let (c, d, acc) = (orbit(&keys, 0.0), orbit(&keys, 28.0), vec![0.0; 100]);
    let keyed = |values| Keyed { keys: &keys, values };
    let pair = Pair { c: keyed(&c), d: keyed(&d), c_acc: keyed(&acc), d_acc: keyed(&acc) };
    let seen = Observations { times: &[1.0, 2.5, 3.0, 200.0], values: &[0.0; 4], good: &[1, 255, 0, 1] };
    let kept = residuals(&model, pair, seen).unwrap();
    assert_eq!(kept.iter().map(|e| e.t).collect::<Vec<_>>(), vec![1.0, 2.5]);
    // the same observations, a value more: the residual grows by it
    let more = residuals(&model, pair, Observations { values: &[1.0, 2.0, 3.0, 4.0], ..seen }).unwrap();
    assert!(kept.iter().zip(&more).zip([1.0, 2.0]).all(|((a, b), value)| (b.residual - a.residual - value).abs() < 1e-9));
    let long = vec![0.0; 100_001];
    assert_eq!(residuals(&model, pair, Observations { times: &long, values: &long, good: &vec![0; 100_001] }), Err(Refusal::Count));
    assert_eq!(residuals(&model, pair, Observations { values: &[f64::NAN, 0.0, 0.0, 0.0], ..seen }), Err(Refusal::Value));
    assert_eq!(residuals(&model, pair, Observations { good: &[1; 3], ..seen }), Err(Refusal::Length));
    assert_eq!(residuals(&model, pair, Observations { times: &[1.0, 3.0, 2.0, 200.0], ..seen }), Err(Refusal::Order));
    assert_eq!(residuals(&model, Pair { d: pair.c, ..pair }, seen), Err(Refusal::NotFinite));
}

#[test]
fn finality() {
    let reach = |keys: &'static [i64], times: &'static [f64]| Reach { nodes: &[10_000.0, 15_000.0], c: keys, d: keys, c_acc: keys, d_acc: keys, fields: times, observed: times };
    let far = reach(&[0, 16_804], &[0.0, 16_804.0]);
    assert_eq!(horizon(far), Ok(Some(15_000.0)));
    assert_eq!(horizon(reach(&[0, 16_803], &[0.0, 16_804.0])), Ok(Some(10_000.0)));
    assert_eq!(horizon(reach(&[], &[0.0, 16_804.0])), Ok(None));
    assert_eq!(horizon(Reach { nodes: &[0.0; 65], ..far }), Err(Refusal::Count));
    assert_eq!(horizon(Reach { c: &[-1], ..far }), Err(Refusal::Value));
    assert_eq!(horizon(Reach { nodes: &[15_000.0, 10_000.0], ..far }), Err(Refusal::Order));
    let kept = [1.0, 2.0, 14_996.5, 14_998.0];
    assert_eq!(final_count(far, &kept), Ok(2));
    assert_eq!(final_count(far, &vec![0.0; 100_001]), Err(Refusal::Count));
    assert_eq!(final_count(far, &[f64::NAN]), Err(Refusal::Value));
    assert_eq!(final_count(far, &[2.0, 1.0]), Err(Refusal::Order));
    assert_eq!(final_entries(&kept, 2), &kept[..2]);
    assert!(final_entries(&kept, 5).is_empty());
}

#[test]
fn whole_path() {
    let (tables, field, times) = (Tables::new(2).unwrap(), earth(2), [0.0, 12_000.0]);
    let added = [nothing(2), nothing(2)].concat();
    let model = Model { tables: &tables, field: &field, times: &times, added: &added };
    let keys: Vec<i64> = (0..6_000).collect();
    let (c, d, acc) = (orbit(&keys, 0.0), orbit(&keys, 28.0), vec![0.0; 6_000]);
    let keyed = |values| Keyed { keys: &keys, values };
    let pair = Pair { c: keyed(&c), d: keyed(&d), c_acc: keyed(&acc), d_acc: keyed(&acc) };
    // a gap between 2,300 and 2,400 s ends a run before the second node
    let seen: Vec<f64> = (0..3_000).map(|k| 2.0 * k as f64).filter(|t| !(2_300.0..2_400.0).contains(t)).collect();
    let (values, good) = (vec![0.0; seen.len()], vec![1; seen.len()]);
    let seen = Observations { times: &seen, values: &values, good: &good };
    let sheet_of = |nodes: &[f64]| sheet(&model, pair, nodes, seen);
    let found = sheet_of(&[1_900.5, 2_500.5, 3_100.5]).unwrap();
    assert!(found.times.iter().all(|t| (1_900.5..3_100.5).contains(t)));
    assert_eq!(found.final_count, found.times.iter().filter(|t| **t < 2_300.0).count());
    assert!(found.final_count > 0);
    assert_eq!([found.raws.len(), found.detrended.len(), found.passed.len()], [found.times.len(); 3]);
    // no observed value, so the raw residual is what the model gives; a run of 64 or fewer is passed as zeros
    let first = found.times.iter().position(|t| *t > 2_300.0).unwrap();
    assert!(found.raws.iter().all(|v| *v != 0.0) && found.detrended[..first] != found.raws[..first]);
    assert!(found.passed[..first].iter().any(|v| *v != 0.0));
    assert_eq!(sheet_of(&[]).unwrap().times, Vec::<f64>::new());
    assert_eq!(sheet(&model, Pair { c: Keyed { values: &c[1..], ..pair.c }, ..pair }, &[], seen), Err(Refusal::Length));
    assert_eq!(sheet_of(&[-1.0]), Err(Refusal::Value));
    let large = vec![1.7e308; values.len()];
    assert_eq!(sheet(&model, pair, &[1_900.5, 2_500.5], Observations { values: &large, ..seen }), Err(Refusal::NotFinite));
    assert_eq!(sheet_of(&[2.0, 1.0]), Err(Refusal::Order));
    assert_eq!(sheet_of(&vec![0.0; 65]), Err(Refusal::Count));
}
