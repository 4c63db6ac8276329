// The elementary numbers: random bit patterns, the places where the reduction and the branches turn, and the edges.
use crate::elementary;
use crate::generate::unit;
use crate::source::Rng;
use crate::tally::Tally;
use pozsmeteg::raw;

const QUARTER: f64 = std::f64::consts::FRAC_PI_2;
const EDGES: [f64; 22] = [
    0.0, -0.0, 5e-324, -5e-324, f64::MIN_POSITIVE, -f64::MIN_POSITIVE, f64::MAX, f64::MIN, f64::INFINITY, f64::NEG_INFINITY, f64::NAN,
    1.0, -1.0, 0.5, 2.0, 1048576.0, -1048576.0, 0.4142135623730951, -0.4142135623730951, std::f64::consts::PI, QUARTER, 4503599627370496.0,
];

/// So many doubles above x in the order of the bits.
fn steps(x: f64, k: i64) -> f64 {
    if x.is_nan() { x } else { f64::from_bits(x.to_bits().wrapping_add(k as u64)) }
}

fn near(random: &mut Rng, x: f64) -> f64 {
    steps(x, random.below(9) as i64 - 4)
}

fn pattern(random: &mut Rng) -> f64 {
    f64::from_bits(random.next_u64())
}

fn signed(random: &mut Rng) -> f64 {
    2.0 * unit(random) - 1.0
}

/// Of any size between 2^-60 and 2^22.
fn sized(random: &mut Rng) -> f64 {
    signed(random) * f64::from_bits((963 + random.below(83) as u64) << 52)
}

fn angle(random: &mut Rng) -> f64 {
    match random.below(8) {
        0 => pattern(random),
        1 => { let x = EDGES[random.below(EDGES.len())]; near(random, x) }
        2 | 3 => { let k = random.below(1_335_090) as f64 - 667_545.0; near(random, (k + 0.5) * QUARTER) }
        4 => { let k = random.below(1_335_090) as f64 - 667_545.0; near(random, k * QUARTER) }
        5 => signed(random) * 1048576.0,
        6 => signed(random) * 10.0,
        _ => sized(random),
    }
}

fn size(random: &mut Rng) -> f64 {
    match random.below(6) {
        0 => pattern(random),
        1 => { let x = EDGES[random.below(EDGES.len())]; near(random, x) }
        // beside squares, and beside squares of numbers that lie between two doubles
        2 => { let m = (1u64 << 52 | random.next_u64() >> 12) as f64; near(random, m * m) }
        3 => { let m = (1u64 << 26 | random.next_u64() >> 38) as f64 + 0.5; near(random, m * m) }
        4 => f64::from_bits(random.next_u64() >> (1 + random.below(60))),
        _ => 1e7 * unit(random),
    }
}

fn share(random: &mut Rng) -> f64 {
    match random.below(5) {
        0 => pattern(random),
        1 => { let x = EDGES[random.below(EDGES.len())]; near(random, x) }
        2 => { let x = if random.below(2) == 0 { 1.0 } else { -1.0 }; near(random, x) }
        3 => sized(random),
        _ => signed(random),
    }
}

/// Two coordinates: also equal, beside equal, and in the ratio where the branch turns.
fn point(random: &mut Rng) -> (f64, f64) {
    let x = share(random);
    match random.below(6) {
        0 => (pattern(random), pattern(random)),
        1 => (near(random, x), x),
        2 => (near(random, -x), x),
        3 => (near(random, 0.4142135623730951 * x), x),
        4 => (x, near(random, -0.4142135623730951 * x)),
        _ => (share(random), x),
    }
}

fn exponent(random: &mut Rng) -> u32 {
    match random.below(4) {
        0 => random.next_u64() as u32,
        1 => random.below(4) as u32,
        _ => random.below(400) as u32,
    }
}

fn each<A: Copy + std::fmt::Debug>(tally: &mut Tally, kind: &str, count: u64, make: impl Fn(&mut Rng) -> A, ours: impl Fn(A) -> f64, rust: impl Fn(A) -> f64) {
    tally.begin(kind);
    let block = 1 << 16;
    let mut done = 0;
    while done < count {
        let mut random = tally.random(done / block);
        let size = block.min(count - done);
        let mut unequal = 0;
        for k in 0..size {
            let input = make(&mut random);
            let (a, b) = (ours(input), rust(input));
            if a.to_bits() == b.to_bits() || a.is_nan() && b.is_nan() {
                continue;
            }
            unequal += 1;
            tally.judge(false, || format!("input {k} of block {}, {input:?}: ours {:016X}, Rust {:016X}", done / block, a.to_bits(), b.to_bits()));
        }
        tally.equal(size - unequal);
        done += size;
    }
    tally.end("");
}

pub fn compare(tally: &mut Tally, count: u64) {
    each(tally, "root", count, size, raw::root, f64::sqrt);
    each(tally, "sine", count, angle, raw::sine, |x| elementary::sine_cosine(x).0);
    each(tally, "cosine", count, angle, raw::cosine, |x| elementary::sine_cosine(x).1);
    each(tally, "arctangent", count, point, |(y, x)| raw::arctangent(y, x), |(y, x)| elementary::arctangent(y, x));
    each(tally, "arcsine", count, share, raw::arcsine, elementary::arcsine);
    let powers = |random: &mut Rng| (if random.below(3) == 0 { pattern(random) } else { 1.0 + 0.1 * signed(random) }, exponent(random), if random.below(2) == 0 { 1.0 } else { share(random) });
    each(tally, "power", count, powers, |(a, n, c)| raw::power(a, n, c), |(a, n, c)| elementary::power(a, n, c));
}
