// The elementary numbers, a thousand arguments a call.
use crate::elementary::{arcsine, arctangent, power, sine_cosine};
use crate::generate::unit;
use crate::source::Rng;
use crate::timing::Bench;
use pozsmeteg::raw;
use std::hint::black_box;

// The machine's instruction, and the Rust's arcsine and power, behind a call, as ours are.
#[inline(never)]
extern "C" fn machine_root(x: f64) -> f64 {
    x.sqrt()
}

#[inline(never)]
extern "C" fn rust_arcsine(x: f64) -> f64 {
    arcsine(x)
}

#[inline(never)]
extern "C" fn rust_power(a: f64, n: u32, c: f64) -> f64 {
    power(a, n, c)
}

fn each(xs: &[f64], f: impl Fn(f64) -> f64) -> Vec<f64> {
    xs.iter().map(|x| f(black_box(*x))).collect()
}

// Each argument waits for the answer before it.
fn chained(xs: &[f64], f: impl Fn(f64) -> f64) -> Vec<f64> {
    let mut last = 0.0;
    xs.iter().map(|x| { last = f(last + *x); last }).collect()
}

pub fn works(bench: &mut Bench) {
    let mut random = Rng::new(1);
    let units: Vec<f64> = (0..1000).map(|_| 2.0 * unit(&mut random) - 1.0).collect();
    let angles: Vec<f64> = units.iter().map(|x| 50.0 * x).collect();
    let sizes: Vec<f64> = units.iter().map(|x| 7e6 * x.abs()).collect();
    bench.compare("root, inlined instruction", 200, 1000, &mut || each(&sizes, |x| x.sqrt()), &mut || each(&sizes, |x| raw::root(x)));
    bench.compare("root, behind a call", 200, 1000, &mut || each(&sizes, |x| black_box(machine_root as extern "C" fn(f64) -> f64)(x)), &mut || each(&sizes, |x| raw::root(x)));
    bench.compare("root, behind a call, chained", 200, 1000, &mut || chained(&sizes, |x| black_box(machine_root as extern "C" fn(f64) -> f64)(x)), &mut || chained(&sizes, |x| raw::root(x)));
    bench.compare("sine", 200, 1000, &mut || each(&angles, |x| sine_cosine(x).0), &mut || each(&angles, |x| raw::sine(x)));
    bench.compare("cosine", 200, 1000, &mut || each(&angles, |x| sine_cosine(x).1), &mut || each(&angles, |x| raw::cosine(x)));
    bench.compare("arctangent", 200, 1000, &mut || each(&units, |x| arctangent(x, 0.3)), &mut || each(&units, |x| raw::arctangent(x, 0.3)));
    bench.compare("arcsine", 200, 1000, &mut || each(&units, arcsine), &mut || each(&units, |x| raw::arcsine(x)));
    bench.compare("arcsine, behind a call", 200, 1000, &mut || each(&units, |x| black_box(rust_arcsine as extern "C" fn(f64) -> f64)(x)), &mut || each(&units, |x| raw::arcsine(x)));
    bench.compare("power, n = 20, behind a call", 200, 1000, &mut || each(&units, |x| black_box(rust_power as extern "C" fn(f64, u32, f64) -> f64)(x, black_box(20), 1.0)), &mut || each(&units, |x| raw::power(x, black_box(20), 1.0)));
    bench.compare("power, n = 20", 200, 1000, &mut || each(&units, |x| power(x, black_box(20), 1.0)), &mut || each(&units, |x| raw::power(x, black_box(20), 1.0)));
}
