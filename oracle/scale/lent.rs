// Lent slices: what stood in them before a call, and what document 01's table leaves there.
use crate::generate::unit;
use crate::source::Rng;

pub struct Lent {
    before: Vec<u64>,
    pub now: Vec<f64>,
}

/// Contents that a call must neither read nor leave behind.
fn old(random: &mut Rng) -> f64 {
    [7.0, -0.0, f64::NAN, f64::INFINITY, 1e300, -1e-300][random.below(6)]
}

pub fn bits(list: &[f64]) -> Vec<u64> {
    list.iter().map(|v| v.to_bits()).collect()
}

impl Lent {
    pub fn new(random: &mut Rng, length: usize) -> Lent {
        // two values, so that places exchanged would show
        let (value, other) = (old(random), old(random));
        Lent::holding((0..length).map(|k| if k % 3 == 1 { other } else { value }).collect())
    }

    pub fn holding(now: Vec<f64>) -> Lent {
        Lent { before: bits(&now), now }
    }

    pub fn same(&self) -> bool {
        self.now.iter().zip(&self.before).all(|(v, b)| v.to_bits() == *b)
    }

    pub fn clear(&self) -> bool {
        self.now.iter().all(|v| v.to_bits() == 0)
    }

    /// Unchanged after 1 to 5, +0.0 after 6 to 10, else these numbers.
    pub fn settled(&self, number: u8, new: &[f64]) -> bool {
        match number {
            0 => bits(&self.now) == bits(new),
            1..=5 => self.same(),
            _ => self.clear(),
        }
    }

    /// As scratch: unchanged after 1 to 5, else +0.0.
    pub fn left(&self, number: u8) -> bool {
        if (1..=5).contains(&number) { self.same() } else { self.clear() }
    }
}

/// Now and then one off, now and then more than is asked, of a scratch that may be longer.
pub fn scratch_length(random: &mut Rng, least: usize) -> usize {
    match random.below(40) {
        0 => least.saturating_sub(1),
        1 => 0,
        2 => least + 1,
        3 => least + random.below(100),
        _ => least,
    }
}

/// A number that no call takes.
pub fn strange(random: &mut Rng) -> f64 {
    [f64::NAN, f64::INFINITY, f64::NEG_INFINITY, -f64::NAN][random.below(4)]
}

/// A time outside 0 to 2^31, or beside its ends.
pub fn edge_time(random: &mut Rng) -> f64 {
    let top = 2147483648.0f64;
    [-0.0, -5e-324, -1.0, 0.0, 5e-324, top, top.next_up(), top.next_down(), f64::NAN, f64::INFINITY, f64::NEG_INFINITY, 4e9][random.below(12)]
}

pub fn edge_key(random: &mut Rng) -> i64 {
    [-1, 0, 2147483648, 2147483649, i64::MAX, i64::MIN, 2147483647][random.below(7)]
}

/// One place of a list changed; a list without places stays.
pub fn put<T>(random: &mut Rng, list: &mut [T], value: T) {
    if !list.is_empty() {
        let k = random.below(list.len());
        list[k] = value;
    }
}

/// A time or key at or beside a bound, at the end of the list where it belongs, so that the list may still rise.
pub fn put_edge<T: PartialOrd + Copy>(list: &mut [T], value: T) {
    if let Some(k) = list.len().checked_sub(1) {
        list[if value > list[0] { k } else { 0 }] = value;
    }
}

/// One entry more or less.
pub fn off_by_one<T: Clone>(random: &mut Rng, list: &mut Vec<T>, more: T) {
    if random.below(2) == 0 { list.push(more) } else { list.pop(); }
}

/// Two neighbours exchanged or made equal.
pub fn unsorted<T: Copy>(random: &mut Rng, list: &mut [T]) {
    if list.len() > 1 {
        let k = random.below(list.len() - 1);
        match random.below(3) {
            0 => list[k + 1] = list[k],
            1 => list.swap(k, k + 1),
            _ => list.reverse(),
        }
    }
}

/// Rising times of steps about 2 s, some of 3.0 s and its neighbours, some gaps.
pub fn rising_times(random: &mut Rng, n: usize) -> Vec<f64> {
    let mut t = match random.below(4) { 0 => 0.0, 1 => -0.0, 2 => 1e9 * unit(random), _ => (random.below(100_000)) as f64 };
    (0..n).map(|_| {
        let now = t;
        t += match random.below(60) {
            0 => 3.0,
            1 => 3.0f64.next_up(),
            2 => 3.0f64.next_down(),
            3 => 4.0 + 20.0 * unit(random),
            4 => 1e-3 + unit(random),
            _ => 2.0,
        };
        now
    }).collect()
}
