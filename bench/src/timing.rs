// Times of two ways to do one work. The process's CPU time is taken, the best of seven batches: other work shares the machine.
use std::hint::black_box;

#[repr(C)]
struct TimeSpec {
    seconds: i64,
    nanoseconds: i64,
}

unsafe extern "C" {
    fn clock_gettime(clock: i32, time: *mut TimeSpec) -> i32;
}

// CLOCK_PROCESS_CPUTIME_ID: the source works in threads of its own in some calls
const PROCESS_CPU: i32 = 2;

fn cpu() -> f64 {
    let mut t = TimeSpec { seconds: 0, nanoseconds: 0 };
    unsafe { clock_gettime(PROCESS_CPU, &mut t) };
    t.seconds as f64 + 1e-9 * t.nanoseconds as f64
}

fn batch(count: usize, work: &mut dyn FnMut()) -> f64 {
    let start = cpu();
    for _ in 0..count {
        work();
    }
    (cpu() - start) / count as f64
}

pub struct Bench {
    pub unequal: usize,
}

pub fn same(a: f64, b: f64) -> bool {
    a.to_bits() == b.to_bits() || a.is_nan() && b.is_nan()
}

fn readable(seconds: f64) -> String {
    if seconds < 1e-6 {
        format!("{:.2} ns", seconds * 1e9)
    } else if seconds < 1e-3 {
        format!("{:.3} us", seconds * 1e6)
    } else if seconds < 1.0 {
        format!("{:.3} ms", seconds * 1e3)
    } else {
        format!("{:.3} s", seconds)
    }
}

impl Bench {
    pub fn new() -> Bench {
        Bench { unequal: 0 }
    }

    /// One work, whose two times are answered: `rust` and `ours` each give the numbers that they hand out; `count` calls make a batch, and a call does `each` works.
    pub fn compare(&mut self, name: &str, count: usize, each: usize, rust: &mut dyn FnMut() -> Vec<f64>, ours: &mut dyn FnMut() -> Vec<f64>) -> (f64, f64) {
        let (a, b) = (rust(), ours());
        let (mut first, mut second) = (f64::INFINITY, f64::INFINITY);
        for _ in 0..7 {
            first = first.min(batch(count, &mut || { black_box(rust()); }) / each as f64);
            second = second.min(batch(count, &mut || { black_box(ours()); }) / each as f64);
        }
        self.told(name, first, second, &a, &b);
        (first, second)
    }

    /// One long work: the best of so many runs of each, whose last are compared.
    pub fn compare_runs(&mut self, name: &str, runs: usize, rust: &mut dyn FnMut() -> Vec<f64>, ours: &mut dyn FnMut() -> Vec<f64>) -> (f64, f64) {
        let (mut first, mut second) = (f64::INFINITY, f64::INFINITY);
        let (mut a, mut b) = (vec![], vec![]);
        for _ in 0..runs {
            first = first.min(batch(1, &mut || a = rust()));
            second = second.min(batch(1, &mut || b = ours()));
        }
        self.told(name, first, second, &a, &b);
        (first, second)
    }

    /// By which power of its size the time grows, fitted to the logarithms by least squares: sizes with the Rust's time and ours.
    pub fn growth(&self, name: &str, points: &[(f64, (f64, f64))]) {
        let slope = |time: &dyn Fn(&(f64, f64)) -> f64| {
            let logs: Vec<(f64, f64)> = points.iter().map(|(size, times)| (size.ln(), time(times).ln())).collect();
            let n = logs.len() as f64;
            let (x, y) = (logs.iter().map(|p| p.0).sum::<f64>() / n, logs.iter().map(|p| p.1).sum::<f64>() / n);
            logs.iter().map(|p| (p.0 - x) * (p.1 - y)).sum::<f64>() / logs.iter().map(|p| (p.0 - x) * (p.0 - x)).sum::<f64>()
        };
        let sizes: Vec<String> = points.iter().map(|p| format!("{}", p.0)).collect();
        println!("{:<28} {:>12.2} {:>12.2}          at {}", format!("exponent, {name}"), slope(&|t| t.0), slope(&|t| t.1), sizes.join(", "));
    }

    fn told(&mut self, name: &str, first: f64, second: f64, a: &[f64], b: &[f64]) {
        let equal = a.len() == b.len() && a.iter().zip(b).all(|(x, y)| same(*x, *y));
        self.unequal += !equal as usize;
        println!("{:<28} {:>12} {:>12} {:>7.2}  {}", name, readable(first), readable(second), second / first, if equal { format!("{} equal", a.len()) } else { "UNEQUAL".into() });
    }
}
