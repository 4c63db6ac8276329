// The filter: bands; runs of 1 to 1,502 samples; gaps; 0 to 8 sections; each refusal of each call, with what it leaves behind.
use crate::fieldlists::{WILD, finite};
use crate::generate::unit;
use crate::list::{List, step};
use crate::source::{Rng, band_pass, butterworth_band, filtfilt, run};

const BAND: u64 = 0;
const RUN: u64 = 1;
const FILTFILT: u64 = 2;
const BAND_PASS: u64 = 3;

type Section = [f64; 5];

/// An answer that stands in an output of its own, or the output cleared after 10; and the cleared scratch.
fn tell_answer(list: &mut List, y: &[f64]) {
    if finite(y) {
        list.tell(0);
        list.tell_all(y);
    } else {
        list.tell(10);
        list.tell_left(false, y.len());
    }
    list.tell_left(false, 8 * y.len());
}

/// A refusal 2 to 5, and so many places of output and scratch unchanged.
fn tell_refused(list: &mut List, number: u64, places: usize, room: usize) {
    list.tell(number);
    list.tell_left(true, places);
    list.tell_left(true, room);
}

fn band(list: &mut List, low: f64, high: f64, dt: f64) {
    list.call(BAND);
    list.ask_all(&[low, high, dt]);
    let flat: Vec<f64> = butterworth_band(low, high, dt).into_iter().flatten().collect();
    let number = if !finite(&[low, high, dt]) { 4 } else if !finite(&flat) { 10 } else { 0 };
    list.tell(number);
    list.tell_all(if number == 0 { &flat } else { &[0.0; 20] });
}

fn flat(sections: &[Section]) -> Vec<f64> {
    sections.iter().flatten().copied().collect()
}

fn accepted_run(list: &mut List, sections: &[Section], x: &[f64], spare: usize) {
    let mut y = x.to_vec();
    run(sections, &mut y);
    list.call(RUN);
    list.ask_first(5 * sections.len(), &flat(sections));
    list.ask_first(x.len(), x);
    list.ask((8 * x.len() + spare) as u64);
    let fine = finite(&y);
    list.tell(if fine { 0 } else { 10 });
    list.tell_all(&if fine { y } else { vec![0.0; x.len()] });
    list.tell_left(false, x.len());
}

fn refused_run(list: &mut List, number: u64, cs: (usize, &[f64]), x: (usize, &[f64]), room: usize) {
    list.call(RUN);
    list.ask_first(cs.0, cs.1);
    list.ask_first(x.0, x.1);
    list.ask(room as u64);
    list.tell(number);
    list.tell_all(x.1);
    list.tell_left(true, room);
}

fn accepted_filtfilt(list: &mut List, sections: &[Section], x: &[f64], pad: usize, spare: usize) {
    list.call(FILTFILT);
    list.ask_first(5 * sections.len(), &flat(sections));
    list.ask_first(x.len(), x);
    list.ask(pad as u64);
    list.ask(x.len() as u64);
    list.ask((8 * x.len() + spare) as u64);
    tell_answer(list, &filtfilt(sections, x, pad));
}

fn refused_filtfilt(list: &mut List, number: u64, cs: (usize, &[f64]), x: (usize, &[f64]), places: usize, room: usize) {
    list.call(FILTFILT);
    list.ask_first(cs.0, cs.1);
    list.ask_first(x.0, x.1);
    list.ask(3);
    list.ask(places as u64);
    list.ask(room as u64);
    tell_refused(list, number, places, room);
}

fn accepted_pass(list: &mut List, times: &[f64], x: &[f64], spare: usize) {
    list.call(BAND_PASS);
    list.ask_first(times.len(), times);
    list.ask_first(x.len(), x);
    list.ask(x.len() as u64);
    list.ask((8 * x.len() + spare) as u64);
    tell_answer(list, &band_pass(times, x));
}

fn refused_pass(list: &mut List, number: u64, times: (usize, &[f64]), x: (usize, &[f64]), places: usize, room: usize) {
    list.call(BAND_PASS);
    list.ask_first(times.0, times.1);
    list.ask_first(x.0, x.1);
    list.ask(places as u64);
    list.ask(room as u64);
    tell_refused(list, number, places, room);
}

fn noise(random: &mut Rng, n: usize) -> Vec<f64> {
    (0..n).map(|_| 2.0 * unit(random) - 1.0).collect()
}

fn sections(random: &mut Rng, k: usize) -> Vec<Section> {
    let mut all = butterworth_band(1e-3, 10e-3, 2.0);
    all.extend(butterworth_band(0.01, 0.1, 2.0));
    (0..k).map(|i| if i % 3 == 2 { [unit(random), unit(random), unit(random), 0.5 * unit(random), 0.25 * unit(random)] } else { all[i] }).collect()
}

fn even_times(n: usize) -> Vec<f64> {
    (0..n).map(|i| 2.0 * i as f64).collect()
}

fn bands(list: &mut List, random: &mut Rng) {
    band(list, 1e-3, 10e-3, 2.0);
    band(list, 0.0, 0.0, 0.0);
    band(list, -1e-3, 10e-3, 2.0);
    band(list, 0.25, 0.5, 1.0);
    band(list, 1e5, 1e5, 2.0);
    band(list, 1e-3, 1e6, 2.0);
    for bad in WILD {
        band(list, bad, 10e-3, 2.0);
        band(list, 1e-3, bad, 2.0);
        band(list, 1e-3, 10e-3, bad);
    }
    for _ in 0..25 {
        band(list, unit(random), unit(random), 4.0 * unit(random));
    }
}

fn runs(list: &mut List, random: &mut Rng) {
    for k in 0..9 {
        for n in [1, 2, 7] {
            let cs = sections(random, k);
            let x = noise(random, n);
            accepted_run(list, &cs, &x, k);
        }
    }
    let four = sections(random, 4);
    accepted_run(list, &four, &noise(random, 300), 0);
    accepted_run(list, &four, &[-0.0, 0.0, 5e-324, -5e-324], 0);
    accepted_run(list, &[[1e308, 0.0, 0.0, 0.0, 0.0]], &[10.0, 1.0], 0);
    accepted_run(list, &[[1.0, 0.0, 0.0, 1e308, 1e308]], &[1.0; 9], 3);
    let c = flat(&sections(random, 8));
    let x = noise(random, 6);
    refused_run(list, 2, (41, &c), (6, &x), 48);
    refused_run(list, 2, (45, &c), (6, &x), 48);
    refused_run(list, 2, (5, &c[..5]), (0, &[]), 0);
    refused_run(list, 2, (5, &c[..5]), (100001, &x), 48);
    refused_run(list, 3, (4, &c[..4]), (6, &x), 48);
    refused_run(list, 3, (39, &c[..39]), (6, &x), 48);
    refused_run(list, 3, (5, &c[..5]), (6, &x), 47);
    refused_run(list, 3, (5, &c[..5]), (100000, &x), 48);
    for bad in WILD {
        refused_run(list, 4, (5, &[1.0, 2.0, bad, 0.0, 0.0]), (6, &x), 48);
        refused_run(list, 4, (5, &c[..5]), (3, &[1.0, bad, 0.0]), 24);
        // two causes: the lower number
        refused_run(list, 3, (5, &c[..5]), (3, &[1.0, bad, 0.0]), 23);
        refused_run(list, 2, (41, &c), (3, &[1.0, bad, 0.0]), 23);
    }
}

fn zero_phase(list: &mut List, random: &mut Rng) {
    for k in 0..9 {
        for (n, pad) in [(1, 0), (1, 1500), (2, 1), (9, 3), (9, 8), (9, 9)] {
            let cs = sections(random, k);
            let x = noise(random, n);
            accepted_filtfilt(list, &cs, &x, pad, k);
        }
    }
    let four = sections(random, 4);
    accepted_filtfilt(list, &four, &noise(random, 250), 1500, 0);
    accepted_filtfilt(list, &[[1e308, 0.0, 0.0, 0.0, 0.0]], &[10.0, 1.0], 1, 0);
    accepted_filtfilt(list, &[], &[1e308, -1e308, 0.0], 2, 5);
    let c = flat(&sections(random, 8));
    let x = noise(random, 6);
    refused_filtfilt(list, 2, (41, &c), (6, &x), 6, 48);
    refused_filtfilt(list, 2, (5, &c[..5]), (0, &[]), 0, 0);
    refused_filtfilt(list, 2, (5, &c[..5]), (100001, &x), 6, 48);
    refused_filtfilt(list, 3, (6, &c[..6]), (6, &x), 6, 48);
    refused_filtfilt(list, 3, (5, &c[..5]), (6, &x), 5, 48);
    refused_filtfilt(list, 3, (5, &c[..5]), (6, &x), 7, 48);
    refused_filtfilt(list, 3, (5, &c[..5]), (6, &x), 6, 47);
    for bad in WILD {
        refused_filtfilt(list, 4, (5, &[bad, 2.0, 1.0, 0.0, 0.0]), (6, &x), 6, 48);
        refused_filtfilt(list, 4, (5, &c[..5]), (3, &[1.0, 0.0, bad]), 3, 24);
        refused_filtfilt(list, 3, (5, &c[..5]), (3, &[1.0, 0.0, bad]), 2, 24);
    }
}

fn gaps(random: &mut Rng, lengths: &[usize]) -> Vec<f64> {
    let mut times = Vec::new();
    let mut t = 100.0 * unit(random);
    for n in lengths {
        for _ in 0..*n {
            times.push(t);
            t += 1.0 + 2.0 * unit(random);
        }
        t += 2.5 + unit(random);
    }
    times
}

fn passes(list: &mut List, random: &mut Rng) {
    for n in [0, 1, 64, 65, 66, 130, 1501, 1502] {
        let x = noise(random, n);
        accepted_pass(list, &even_times(n), &x, n % 7);
        accepted_pass(list, &even_times(n), &vec![0.0; n], 0);
    }
    // a step of 3.0 joins, the next double above splits
    for joint in [3.0, step(3.0, 1), step(3.0, -1), 4.0] {
        let mut times = even_times(65);
        times.extend((0..65).map(|i| 128.0 + joint + 2.0 * i as f64));
        let x = noise(random, 130);
        accepted_pass(list, &times, &x, 0);
    }
    for lengths in [&[64, 65][..], &[65, 64], &[65, 66], &[1, 1, 1], &[3, 70, 2], &[100, 64, 65, 80]] {
        let times = gaps(random, lengths);
        let x = noise(random, times.len());
        accepted_pass(list, &times, &x, 1);
    }
    let mut x = vec![1e308; 70];
    x[3] = -1e308;
    accepted_pass(list, &even_times(70), &x, 0);
    accepted_pass(list, &[-0.0, 2.0, 2147483648.0], &[1.0, 1.0, 1.0], 0);
    let t = even_times(6);
    let x = noise(random, 6);
    refused_pass(list, 2, (100001, &t), (6, &x), 6, 48);
    refused_pass(list, 3, (6, &t), (100001, &x), 6, 48);
    refused_pass(list, 3, (6, &t), (5, &x[..5]), 6, 48);
    refused_pass(list, 3, (6, &t), (6, &x), 5, 48);
    refused_pass(list, 3, (6, &t), (6, &x), 6, 47);
    for bad in [f64::NAN, f64::INFINITY, f64::NEG_INFINITY, -5e-324, step(2147483648.0, 1), -1.0] {
        refused_pass(list, 4, (3, &[0.0, bad, 4.0]), (3, &x[..3]), 3, 24);
        refused_pass(list, 3, (3, &[0.0, bad, 4.0]), (3, &x[..3]), 3, 23);
    }
    for bad in WILD {
        refused_pass(list, 4, (3, &t[..3]), (3, &[1.0, 2.0, bad]), 3, 24);
        refused_pass(list, 4, (3, &[4.0, 2.0, 0.0]), (3, &[1.0, 2.0, bad]), 3, 24);
    }
    refused_pass(list, 5, (3, &[0.0, 0.0, 2.0]), (3, &x[..3]), 3, 24);
    refused_pass(list, 5, (3, &[0.0, -0.0, 2.0]), (3, &x[..3]), 3, 30);
    refused_pass(list, 5, (3, &[0.0, 4.0, 2.0]), (3, &x[..3]), 3, 24);
}

pub fn make(list: &mut List, seed: u64) {
    let mut random = Rng::new(seed);
    bands(list, &mut random);
    runs(list, &mut random);
    zero_phase(list, &mut random);
    passes(list, &mut random);
}
