// Single fits: short and long arcs, whole, fractional and negative starts, gaps in the states, the edges of the fields, each cause of
// refusal, 5,302 steps and one more, 200,000 keys and one more.
use crate::fieldlists::{Fields, LAST, LAST_KEY, Rows, rising};
use crate::generate::{low_orbit, unit};
use crate::lent::*;
use crate::source::{Arc, Rng};
use crate::tally::Tally;
use crate::whole::single_fit;
use pozsmeteg::raw;

struct Asked {
    fields: Fields,
    states: Rows,
    arc: raw::Arc,
    places: usize,
    scratch: usize,
}

impl Asked {
    fn new(random: &mut Rng) -> Asked {
        let steps = match random.below(200) { 0 => 5_302, 1..20 => random.below(12), _ => 300 + random.below(400) };
        let n = match random.below(60) { 0 => 20, 1..15 if steps < 12 => 180, _ => 2 + random.below(5) };
        let base = match random.below(8) { 0 => -(random.below(20) as i64), 1 => LAST_KEY - 2 * steps as i64 - random.below(4) as i64, _ => random.below(1 << 30) as i64 };
        let t0 = base as f64 + match random.below(3) { 0 => 0.0, 1 => unit(random), _ => 2.0f64.powi(-20) };
        let period = match random.below(12) { 0 => 0.0, 1 => -700.0, 2 => 1e-6, _ => 2.0 * steps as f64 * (0.5 + 0.3 * unit(random)) };
        let last = t0 + 2.0 * steps as f64;
        let mut times = vec![(t0 - 10.0).max(0.0), t0 + 0.4 * (last - t0), last + 10.0];
        match random.below(12) {
            0 => times[0] = t0.max(0.0),
            1 => times[2] = last,
            2 => times[2] = last.next_up(),
            3 => times[0] = t0.next_up().max(0.0),
            _ => (),
        }
        match random.below(30) {
            0 => { times.remove(1); }
            1 => times = (0..32).map(|k| times[0] + (times[2] - times[0]) * k as f64 / 31.0).collect(),
            _ => (),
        }
        times.iter_mut().for_each(|t| *t = t.clamp(0.0, LAST));
        times.dedup();
        let fields = Fields::new(random, n, times);
        let gaps = [0, 0, 2, 4, 20][random.below(5)];
        let angle = 6.0 * unit(random);
        let mut states = low_orbit(random, base, 2 * steps as i64 + 2, angle, gaps);
        if random.below(12) == 0 {
            // about as many positions as a fit needs
            let wanted = (steps / 10 + random.below(3)).saturating_sub(1);
            let every: Vec<i64> = (0..=steps).step_by(5).map(|k| (t0 + 2.0 * k as f64) as i64).take(wanted).collect();
            let at: Vec<usize> = (0..states.keys.len()).filter(|i| every.contains(&states.keys[*i])).collect();
            states.values = at.iter().flat_map(|i| states.values[6 * i..6 * i + 6].to_vec()).collect();
            states.keys = at.iter().map(|i| states.keys[*i]).collect();
        }
        let arc = raw::Arc { t0, steps, node: (t0 + 100.0 * unit(random)).clamp(0.0, LAST), period };
        let scratch = scratch_length(random, fields.least_scratch());
        Asked { fields, states, arc, places: 6 * (steps + 1), scratch }
    }

    fn damage(&mut self, random: &mut Rng) {
        let (bad, time) = (strange(random), edge_time(random));
        match random.below(12) {
            0..=3 => self.fields.damage(random),
            4..=6 => self.states.damage(random),
            7 => self.places = (self.places + 1).saturating_sub(2 * random.below(2)),
            8 => self.arc.t0 = [bad, time, -2147483648.0, (-2147483648.0f64).next_down(), 2147483648.0f64.next_up()][random.below(5)],
            9 => self.arc.node = if random.below(2) == 0 { bad } else { time },
            10 => self.arc.period = bad,
            _ => match random.below(3) {
                0 => { self.arc.steps = 5_303; self.places = 6 * 5_304 }
                1 => self.arc.steps = usize::MAX,
                _ => { let n = 200_000 + random.below(2); self.states = Rows { keys: (0..n as i64).collect(), values: vec![1.0; 6 * n], width: 6 } }
            },
        }
    }

    fn refusal(&self) -> u8 {
        let (f, s, arc) = (&self.fields, &self.states, self.arc);
        if !f.degree_fine() { return 1 }
        if !f.counted() || arc.steps > 5_302 || s.keys.len() > 200_000 { return 2 }
        if !f.fits() || !s.fits() || self.places != 6 * (arc.steps + 1) || self.scratch < f.least_scratch() { return 3 }
        let start = (-2147483648.0..=2147483648.0).contains(&arc.t0);
        if !f.fine() || !s.fine() || !start || !(0.0..=2147483648.0).contains(&arc.node) || !arc.period.is_finite() { return 4 }
        if !rising(&f.times) || !rising(&s.keys) { return 5 }
        0
    }
}

pub fn compare(tally: &mut Tally, rounds: u64) {
    tally.begin("fit_orbit");
    for case in 0..rounds {
        let mut random = tally.random(case);
        let mut asked = Asked::new(&mut random);
        for _ in 0..[0, 0, 0, 1, 1, 2][random.below(6)] { asked.damage(&mut random) }
        let (mut out, mut scratch) = (Lent::new(&mut random, asked.places), Lent::new(&mut random, asked.scratch));
        let handed = if random.below(20) == 0 { [0, 2][random.below(2)] } else { 1 };
        let mut spread = Lent::new(&mut random, handed);
        let told = raw::fit_orbit(asked.fields.lent(), asked.states.lent(), asked.arc, &mut out.now, &mut spread.now, &mut scratch.now);
        // an rms without its place is a length that does not fit
        let early = match asked.refusal() { n @ 1..=3 => n, _ if handed != 1 => 3, n => n };
        let raw::Arc { t0, steps, node, period } = asked.arc;
        let fit = if early != 0 { Err(early) } else { single_fit(&asked.fields.source(), &asked.states.states(), Arc { t0, steps, node, period }) };
        let (number, states, rms) = match fit {
            Ok((states, rms)) => (0, states.iter().flat_map(|s| [s.0, s.1].concat()).collect(), rms),
            Err(n) => (n, vec![], 0.0),
        };
        tally.answered(number);
        let equal = told == number && spread.settled(number, &[rms]) && out.settled(number, &states) && scratch.left(number);
        tally.judge(equal, || format!("case {case}: degree {}, {steps} steps, t0 {t0}, told {told}, rms {:?}, expected {number}, {rms}", asked.fields.degree, spread.now));
    }
    tally.end("");
}
