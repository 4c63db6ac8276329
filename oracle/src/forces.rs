// The forces of module 2. Answers by the source; refusals by document 01's table: 4 for an argument that is not finite or
// a time outside 0 to 2^31, 10 for an answer that is not finite; 1 and 3 too where a field is lent. Scratch stands at 7.0
// before a call: +0.0 after an answer and after 10, unchanged after the others.
use crate::fieldlists::{LAST, WILD, coefficients, finite, is_degree, is_time, places, random_list, with};
use crate::generate::unit;
use crate::list::{List, step};
use crate::source::{GM_MOON, GM_SUN, Legendre, Rng, V3, empirical, fictitious, gravity, j2_gravity, set_nmax, solid_tide, sun_moon, third_body, tides};

const SUN_MOON: u64 = 0;
const THIRD_BODY: u64 = 1;
const SOLID_TIDE: u64 = 2;
const TIDES: u64 = 3;
const FICTITIOUS: u64 = 4;
const EMPIRICAL: u64 = 5;
const J2_GRAVITY: u64 = 6;
const GRAVITY: u64 = 7;

fn told(list: &mut List, fine: bool, values: &[f64]) {
    if !fine {
        list.tell(4);
    } else if !finite(values) {
        list.tell(10);
    } else {
        list.tell(0);
        list.tell_all(values);
    }
}

fn sun_and_moon(list: &mut List, t: f64) {
    list.call(SUN_MOON);
    list.ask_float(t);
    let (sun, moon) = sun_moon(t);
    told(list, is_time(t), &[sun, moon].concat());
}

fn body(list: &mut List, x: V3, other: V3, gm: f64) {
    list.call(THIRD_BODY);
    let asked = [&x[..], &other[..], &[gm]].concat();
    list.ask_all(&asked);
    told(list, finite(&asked), &third_body(x, other, gm));
}

fn raised(list: &mut List, sun: V3, moon: V3) {
    list.call(SOLID_TIDE);
    let asked = [sun, moon].concat();
    list.ask_all(&asked);
    let tide = solid_tide(sun, moon);
    let values = [tide.c.clone(), tide.s.clone()].concat();
    let number = if !finite(&asked) { 4 } else if !finite(&values) { 10 } else { 0 };
    list.tell(number);
    list.tell_all(if number == 0 { &values } else { &[0.0; 20] });
}

fn pulled(list: &mut List, t: f64, x: V3) {
    list.call(TIDES);
    list.ask_float(t);
    list.ask_all(&x);
    told(list, is_time(t) && finite(&x), &tides(t, x));
}

fn turning(list: &mut List, x: V3, v: V3) {
    list.call(FICTITIOUS);
    let asked = [x, v].concat();
    list.ask_all(&asked);
    told(list, finite(&asked), &fictitious(x, v));
}

fn pushed(list: &mut List, x: V3, v: V3, u: f64, e: &[f64]) {
    list.call(EMPIRICAL);
    let asked = [&x[..], &v[..], &[u], e].concat();
    list.ask_all(&asked);
    told(list, finite(&asked), &empirical(x, v, u, e));
}

fn flattened(list: &mut List, x: V3) {
    list.call(J2_GRAVITY);
    list.ask_all(&x);
    told(list, finite(&x), &j2_gravity(x));
}

#[derive(Clone)]
struct Lent {
    degree: usize,
    field: Vec<f64>,
    a: Vec<f64>,
    b: Vec<f64>,
    x: V3,
    scratch: usize,
}

impl Lent {
    fn new(random: &mut Rng, n: usize, x: V3) -> Lent {
        let mut field = random_list(random, n, 3.986_004_415e14, 6_378_136.3, 1e-5);
        field[2] = 1.0;
        let tables = Legendre::new(n);
        Lent { degree: n, field, a: tables.a.clone(), b: tables.b.clone(), x, scratch: 8 * places(n) }
    }

    fn refusal(&self) -> u64 {
        if !is_degree(self.degree) {
            return 1;
        }
        let l = places(self.degree);
        if self.field.len() != 2 + 2 * l || self.a.len() != l || self.b.len() != l || self.scratch < 8 * l {
            return 3;
        }
        if !finite(&self.field) || !finite(&self.a) || !finite(&self.b) || !finite(&self.x) {
            return 4;
        }
        0
    }

    fn call(&self, list: &mut List) {
        list.call(GRAVITY);
        list.ask(self.degree as u64);
        for part in [&self.field, &self.a, &self.b] {
            list.ask_list(part);
        }
        list.ask_all(&self.x);
        list.ask(self.scratch as u64);
        let early = self.refusal();
        if early != 0 {
            list.tell(early);
            list.tell_left(true, self.scratch);
            return;
        }
        set_nmax(self.degree);
        told(list, true, &gravity(&coefficients(self.degree, &self.field), self.x));
        list.tell_left(false, self.scratch);
    }
}

fn lent(list: &mut List, random: &mut Rng) {
    for x in corners() {
        Lent::new(random, 2, x).call(list);
        Lent::new(random, 3, x).call(list);
    }
    for n in [2, 5, 8, 20] {
        for k in 0..6 {
            let mut part = || 1.5e7 * (unit(random) - 0.5);
            let x = if k == 0 { [1e-3 * part(), 0.0, part()] } else { [part(), part(), part()] };
            Lent::new(random, n, x).call(list);
        }
    }
    let base = Lent::new(random, 2, [7e6, -1e5, 2e5]);
    for n in [0, 1, 181, 1000] {
        with(&base, |l| l.degree = n).call(list);
        with(&base, |l| { l.degree = n; l.field.clear(); l.x[0] = f64::NAN }).call(list);
    }
    with(&base, |l| { l.field.pop(); }).call(list);
    with(&base, |l| l.field.push(f64::NAN)).call(list);
    with(&base, |l| { l.a.pop(); }).call(list);
    with(&base, |l| l.a.push(1.0)).call(list);
    with(&base, |l| { l.b.pop(); }).call(list);
    with(&base, |l| l.b.push(1.0)).call(list);
    with(&base, |l| l.scratch -= 1).call(list);
    with(&base, |l| l.scratch = 0).call(list);
    with(&base, |l| l.scratch += 77).call(list);
    for w in WILD {
        for k in [0, 1, 2, base.field.len() - 1] {
            with(&base, |l| l.field[k] = w).call(list);
        }
        with(&base, |l| l.a[5] = w).call(list);
        with(&base, |l| l.b[0] = w).call(list);
        with(&base, |l| l.x[2] = w).call(list);
    }
    with(&base, |l| l.field[0] = f64::MAX).call(list);
}

// On the axes, beside them, near the centre, far out, at the centre.
fn corners() -> Vec<V3> {
    let r = 6.9e6;
    let mut corners = vec![[0.0, 0.0, 0.0], [-0.0, -0.0, -0.0], [1e-160, 0.0, 0.0], [1e160, 1e160, 1e160], [1e-5, -1e-5, 1e-5], [r, r, r]];
    for k in 0..3 {
        for s in [r, -r] {
            let mut x = [0.0; 3];
            x[k] = s;
            corners.push(x);
            x[(k + 1) % 3] = 5e-324;
            corners.push(x);
            x[(k + 2) % 3] = -1e-3;
            corners.push(x);
        }
    }
    corners
}

fn edges() -> Vec<f64> {
    vec![0.0, -0.0, 5e-324, 5.0, 43200.0, 86400.0, 695_492_103.0, 1e9 + 0.25, step(LAST, -1), LAST]
}

fn refusals(list: &mut List) {
    let x = [7e6, -1e5, 2e5];
    let v = [100.0, 7000.0, -300.0];
    let (sun, moon) = sun_moon(1000.0);
    for t in [step(LAST, 1), -5e-324, -1.0, 1e300, f64::NAN, f64::INFINITY, f64::NEG_INFINITY] {
        sun_and_moon(list, t);
        pulled(list, t, x);
        pulled(list, t, [f64::NAN, 0.0, 0.0]);
    }
    for w in WILD {
        for k in 0..3 {
            let spoiled = |mut p: V3| {
                p[k] = w;
                p
            };
            body(list, spoiled(x), moon, GM_MOON);
            body(list, x, spoiled(moon), GM_MOON);
            raised(list, spoiled(sun), moon);
            raised(list, sun, spoiled(moon));
            pulled(list, 1000.0, spoiled(x));
            turning(list, spoiled(x), v);
            turning(list, x, spoiled(v));
            pushed(list, spoiled(x), v, 0.5, &[1.0; 9]);
            pushed(list, x, spoiled(v), 0.5, &[1.0; 9]);
            flattened(list, spoiled(x));
        }
        body(list, x, moon, w);
        pushed(list, x, v, w, &[1.0; 9]);
        for k in 0..9 {
            let mut e = [1.0; 9];
            e[k] = w;
            pushed(list, x, v, 0.5, &e);
        }
    }
}

pub fn make(list: &mut List, seed: u64) {
    let mut random = Rng::new(seed);
    lent(list, &mut random);
    let mut unit = || unit(&mut random);
    for t in edges() {
        sun_and_moon(list, t);
        for x in corners() {
            pulled(list, t, x);
        }
    }
    let (sun, moon) = sun_moon(1000.0);
    for x in corners() {
        let v = [7e3, -2.0, 1e-3];
        flattened(list, x);
        body(list, x, moon, GM_MOON);
        body(list, moon, x, GM_SUN);
        body(list, x, x, 1.0);
        raised(list, sun, x);
        raised(list, x, moon);
        turning(list, x, v);
        turning(list, v, x);
        pushed(list, x, v, 0.25, &[1.0, 2.0, 3.0, 4.0, 5.0, 6.0, 7.0, 8.0, 9.0]);
        pushed(list, x, x, 0.25, &[1.0; 9]);
    }
    for u in [0.0, -0.0, 1048576.0, step(1048576.0, 1), -1e300, 3.14159] {
        pushed(list, [7e6, 0.0, 0.0], [0.0, 7e3, 0.0], u, &[-0.0, 0.0, 1e300, -1e308, 1.0, 2.0, 5e-324, -3.0, 1e10]);
    }
    turning(list, [1e308; 3], [1e308; 3]);
    turning(list, [f64::MAX; 3], [-f64::MAX; 3]);
    body(list, [1.0, 2.0, 3.0], [3.0, 2.0, 1.0], f64::MAX);
    refusals(list);
    for _ in 0..60 {
        let t = unit() * LAST;
        let mut vector = |size: f64| [size * (unit() - 0.5), size * (unit() - 0.5), size * (unit() - 0.5)];
        let (x, v) = (vector(1.5e7), vector(1.5e4));
        let near_pole = [vector(1e-3)[0], vector(1e-3)[1], vector(1.5e7)[2]];
        let (sun, moon) = sun_moon(t);
        let u = 40.0 * (unit() - 0.5);
        let e: Vec<f64> = (0..9).map(|_| unit() - 0.5).collect();
        sun_and_moon(list, t);
        body(list, x, moon, GM_MOON);
        body(list, x, sun, GM_SUN);
        raised(list, sun, moon);
        pulled(list, t, x);
        pulled(list, t.floor(), near_pole);
        turning(list, x, v);
        pushed(list, x, v, u, &e);
        flattened(list, x);
        flattened(list, near_pole);
    }
}
