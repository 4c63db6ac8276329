// A seeded generator of physically sensible submissions.
use crate::elementary::sine_cosine;
use crate::fieldlists::{Fields, LAST_KEY, Rows, places};
use crate::source::*;
use crate::submission::*;
use std::f64::consts::PI;

pub struct Plan {
    pub seed: u64,
    pub n: usize,
    pub base: i64,
    pub windows: usize,
    pub window: f64,
    pub real: bool,
    pub step: i64,
    pub noise: f64,
    pub truth_j2: bool,
    pub tail: f64,
    pub frac: bool,
    pub field_step: f64,
}

pub fn unit(r: &mut Rng) -> f64 { (r.next_u64() >> 11) as f64 / (1u64 << 53) as f64 }
pub fn gauss(r: &mut Rng) -> f64 { (0..12).map(|_| unit(r)).sum::<f64>() - 6.0 }

pub fn random_field(r: &mut Rng, n: usize, gm: f64, radius: f64, scale: f64, main: bool) -> FieldData {
    let l = places(n);
    let mut f = FieldData { gm, radius, c: vec![0.0; l], s: vec![0.0; l] };
    for d in 2..=n { for m in 0..=d {
        let k = idx(d, m);
        f.c[k] = scale / (d * d) as f64 * gauss(r);
        f.s[k] = if m == 0 { 0.0 } else { scale / (d * d) as f64 * gauss(r) };
    } }
    if main { f.c[0] = 1.0; f.c[idx(2, 0)] = -4.841_65e-4; }
    f
}
/// A static field and a small one for each time.
pub fn random_fields(r: &mut Rng, n: usize, times: Vec<f64>) -> Fields {
    let field = random_field(r, n, 3.986_004_415e14, 6_378_136.3, 1e-6, true).flat();
    let added = times.iter().flat_map(|_| random_field(r, n, GM_E, 6_378_136.6, 1e-9, false).flat()).collect();
    Fields::of(n, field, times, added)
}
/// A polar orbit at about 490 km, so many radians ahead.
pub fn polar(keys: &[i64], ahead: f64) -> Rows {
    let values = keys.iter().flat_map(|k| {
        let (s, c) = (1.1e-3 * *k as f64 + ahead).sin_cos();
        let (r, v) = (6.868e6 + 3e3 * c, 7.616e3);
        [r * c, 0.1 * r * s, r * s, -v * s, 0.1 * v * c, v * c]
    }).collect();
    Rows { keys: keys.to_vec(), values, width: 6 }
}
/// A low orbit under point mass and J2 with noise, from an angle on: the states of so many seconds, one in `gaps` left out, and those that are no keys.
pub fn low_orbit(r: &mut Rng, first: i64, seconds: i64, angle: f64, gaps: usize) -> Rows {
    let radius = 6.871e6;
    let speed = (GM_E / radius).sqrt();
    let ((su, cu), (si, ci)) = (sine_cosine(angle), sine_cosine(1.55));
    let mut x = [radius * cu, radius * su * ci, radius * su * si];
    let mut v = [-speed * su + OMEGA * x[1], speed * cu * ci - OMEGA * x[0], speed * cu * si];
    let mut out = Rows { keys: vec![], values: vec![], width: 6 };
    for key in first..first + seconds {
        if (0..=LAST_KEY).contains(&key) && (gaps == 0 || r.below(gaps) > 0) {
            out.keys.push(key);
            out.values.extend(x.iter().chain(&v).enumerate().map(|(i, w)| w + 0.01 * if i < 3 { 1.0 } else { 1e-3 } * gauss(r)));
        }
        (x, v) = rk1(1.0, key as f64, x, v, &mut |_, x, v| add(j2_gravity(x), fictitious(x, v)));
    }
    out
}
pub fn rk1(h: f64, t: f64, x: V3, v: V3, a: &mut dyn FnMut(f64, V3, V3) -> V3) -> (V3, V3) {
    let a1 = a(t, x, v);
    let (x2, v2) = (add(x, scale(v, h / 2.0)), add(v, scale(a1, h / 2.0)));
    let a2 = a(t + h / 2.0, x2, v2);
    let (x3, v3) = (add(x, scale(v2, h / 2.0)), add(v, scale(a2, h / 2.0)));
    let a3 = a(t + h / 2.0, x3, v3);
    let (x4, v4) = (add(x, scale(v3, h)), add(v, scale(a3, h)));
    let a4 = a(t + h, x4, v4);
    (add(x, scale(add(add(v, scale(v2, 2.0)), add(scale(v3, 2.0), v4)), h / 6.0)),
     add(v, scale(add(add(a1, scale(a2, 2.0)), add(scale(a3, 2.0), a4)), h / 6.0)))
}
pub fn generate(p: &Plan) -> Submission {
    let mut r = Rng::new(p.seed);
    set_nmax(p.n);
    let stat = random_field(&mut r, p.n, 3.986_004_415e14, 6_378_136.3, 1e-5, true);
    let span = 1810.0 + p.windows as f64 * if p.real { 5700.0 } else { p.window } + if p.real { 5700.0 } else { 0.0 } + p.tail + 20.0;
    let start = p.base as f64;
    let mut fields = Vec::new();
    let mut t = start - 200.0;
    loop {
        fields.push((t, random_field(&mut r, p.n, GM_E, 6_378_136.6, 1e-9, false)));
        if t > start + span { break; }
        t += p.field_step;
    }
    let mut s = Submission { n: p.n, stat, fields, states: [vec![], vec![]], acc: [vec![], vec![]], nodes: vec![], obs: vec![] };
    let model = model_of(&s);
    let mut buf = model.fields[0].1.clone();
    let (a, inc) = (6.871e6, 89.0f64 * PI / 180.0);
    let speed = (GM_E / a).sqrt();
    let mut force = |t: f64, x: V3, v: V3| -> V3 {
        let g = if p.truth_j2 { j2_gravity(x) } else { model.at(t, &mut buf); add(gravity(&buf, x), tides(t, x)) };
        add(g, fictitious(x, v))
    };
    let mut truth: [States; 2] = [States::new(), States::new()];
    for sat in 0..2 {
        let u0 = -0.25 + if sat == 1 { 220e3 / a } else { 0.0 };
        let (su, cu) = f64::sin_cos(u0);
        let (si, ci) = f64::sin_cos(inc);
        let mut x = [a * cu, a * su * ci, a * su * si];
        let vi = [-speed * su, speed * cu * ci, speed * cu * si];
        let mut v = [vi[0] + OMEGA * x[1], vi[1] - OMEGA * x[0], vi[2]];
        for k in 0..=(span as i64) {
            let key = p.base + k;
            truth[sat].insert(key, (x, v));
            if k % p.step == 0 {
                let q = |r: &mut Rng, w: f64, s: f64| w + p.noise * s * gauss(r);
                s.states[sat].push((key, [q(&mut r, x[0], 1.0), q(&mut r, x[1], 1.0), q(&mut r, x[2], 1.0), q(&mut r, v[0], 1e-3), q(&mut r, v[1], 1e-3), q(&mut r, v[2], 1e-3)]));
                s.acc[sat].push((key, 1e-8 * gauss(&mut r)));
            }
            (x, v) = rk1(1.0, key as f64, x, v, &mut force);
        }
    }
    if p.real {
        s.nodes = ascending_nodes(&Satellite { states: truth[0].clone(), accel_x: Default::default() });
    } else {
        let mut t = start + 1805.0;
        for _ in 0..=p.windows {
            s.nodes.push(t + if p.frac { unit(&mut r) } else { 0.0 });
            t += p.window + if p.frac { (20.0 * unit(&mut r)).floor() } else { 0.0 };
        }
    }
    // observations every 2 s on even seconds, some with fractions, gaps, bad flags
    let (ca, da) = (map_acc(&s.acc[0]), map_acc(&s.acc[1]));
    let inp = Inputs { model: &model, c: &truth[0], d: &truth[1], c_acc: &ca, d_acc: &da };
    let mut b2 = model.fields[0].1.clone();
    let mut key = p.base + p.base % 2;
    let mut skip = 0;
    while (key as f64) < start + span {
        let t = key as f64 + if unit(&mut r) < 0.1 { (unit(&mut r) * 8.0).floor() / 16.0 } else { 0.0 };
        let good = unit(&mut r) >= 0.01;
        if skip > 0 { skip -= 1; } else {
            if unit(&mut r) < 0.004 { skip = 1 + (unit(&mut r) * 4.0) as usize; }
            let model_value = if p.truth_j2 && p.n > 60 { 0.0 } else { epoch(&inp, &mut b2, t, 0.0).map_or(0.0, |e| -e.residual) };
            s.obs.push((t, model_value + 1e-9 * gauss(&mut r) + 3e-9 * f64::sin(2.0 * PI * 4e-3 * (t - start)), if good { 1 + (r.next_u64() % 255) as u8 } else { 0 }));
        }
        key += 2;
    }
    s
}
