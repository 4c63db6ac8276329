// Modules 8 and 9 of document 01, which the source does not have, over the extracted functions.
use crate::source::*;
use crate::submission::*;

pub struct Whole {
    pub lists: [Vec<f64>; 4], // time, raw, detrended, passed, kept entries only
    pub f: usize,
}
/// The last node that every list's last time reaches 1,804 s beyond.
pub fn last_reached(nodes: &[f64], lasts: [Option<f64>; 6]) -> Option<f64> {
    nodes.iter().rev().copied().find(|z| lasts.iter().all(|last| last.is_some_and(|last| z + 1804.0 <= last)))
}
pub fn horizon(s: &Submission) -> Option<f64> {
    let lasts = [
        s.states[0].last().map(|r| r.0 as f64), s.states[1].last().map(|r| r.0 as f64),
        s.acc[0].last().map(|r| r.0 as f64), s.acc[1].last().map(|r| r.0 as f64),
        s.fields.last().map(|r| r.0), s.obs.last().map(|r| r.0),
    ];
    last_reached(&s.nodes, lasts)
}
pub fn final_count(times: &[f64], z: Option<f64>) -> usize {
    let Some(z) = z else { return 0 };
    let (mut f, mut start) = (0, 0);
    for i in 1..=times.len() {
        if i == times.len() || times[i] - times[i - 1] > 3.0 {
            if z - times[i - 1] > 3.0 { f += i - start; }
            start = i;
        }
    }
    f
}
pub fn whole(s: &Submission) -> std::result::Result<Whole, u8> {
    if let Some(r) = check(s) { return Err(r); }
    let model = model_of(s);
    let gnv = [map_states(&s.states[0]), map_states(&s.states[1])];
    let (c, _) = fitted_orbits(&model, &gnv[0], &s.nodes);
    let (d, _) = fitted_orbits(&model, &gnv[1], &s.nodes);
    let (ca, da) = (map_acc(&s.acc[0]), map_acc(&s.acc[1]));
    let inp = Inputs { model: &model, c: &c, d: &d, c_acc: &ca, d_acc: &da };
    let obs: Vec<(f64, f64, bool)> = s.obs.iter().map(|o| (o.0, o.1, o.2 != 0)).collect();
    let mut epochs = residuals(&inp, &obs);
    let times: Vec<f64> = epochs.iter().map(|e| e.t).collect();
    let raw: Vec<f64> = epochs.iter().map(|e| e.residual).collect();
    remove_per_revolution(&mut epochs, &s.nodes);
    let det: Vec<f64> = epochs.iter().map(|e| e.residual).collect();
    let passed = band_pass(&times, &det);
    let f = final_count(&times, horizon(s));
    let lists = [times, raw, det, passed];
    if lists.iter().flatten().any(|v| !v.is_finite()) { return Err(10); }
    Ok(Whole { lists, f })
}
/// A single fit: Ok or the refusal 6 to 10 (the Rust answers None for 6 to 9).
pub fn single_fit(model: &Model, gnv: &States, arc: Arc) -> std::result::Result<(Vec<(V3, V3)>, f64), u8> {
    if !model.covers(arc.t0) || !model.covers(arc.t0 + arc.steps as f64 * DT) { return Err(6); }
    let found = (0..=arc.steps).step_by(5).filter(|k| gnv.contains_key(&((arc.t0 + *k as f64 * DT) as i64))).count();
    if found < arc.steps / 10 { return Err(7); }
    if !gnv.contains_key(&(arc.t0 as i64)) { return Err(8); }
    let mut buf = model.fields[0].1.clone();
    match fit_orbit(model, gnv, arc, &mut buf) {
        None => Err(9),
        Some((st, rms)) if !rms.is_finite() || st.iter().any(|s| s.0.iter().chain(&s.1).any(|v| !v.is_finite())) => Err(10),
        Some(r) => Ok(r),
    }
}
