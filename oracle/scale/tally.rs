// Counts, progress on the terminal, and the differences found. Every case has a generator of its own, made from the seed, the
// kind's name and the case's number, so that one case can be made again alone.
use crate::source::Rng;
use std::io::{IsTerminal, Write};
use std::time::Instant;

pub struct Tally {
    pub seed: u64,
    compared: u64,
    differed: u64,
    kind: String,
    begun: Instant,
    shown: Instant,
    from: u64,
    answers: [u64; 11],
}

impl Tally {
    pub fn new(seed: u64) -> Tally {
        Tally { seed, compared: 0, differed: 0, kind: String::new(), begun: Instant::now(), shown: Instant::now(), from: 0, answers: [0; 11] }
    }

    pub fn begin(&mut self, kind: &str) {
        (self.kind, self.begun, self.from, self.answers) = (kind.into(), Instant::now(), self.compared, [0; 11]);
    }

    /// The generator of one case of this kind.
    pub fn random(&self, case: u64) -> Rng {
        let name = self.kind.bytes().fold(0xcbf2_9ce4_8422_2325, |h: u64, b| (h ^ b as u64).wrapping_mul(0x100_0000_01b3));
        Rng::new(self.seed.wrapping_mul(0x9E37_79B9_7F4A_7C15) ^ name ^ case.wrapping_mul(0xD1B5_4A32_D192_ED03))
    }

    /// One comparison; `what` is asked only where they differ.
    pub fn judge(&mut self, equal: bool, what: impl FnOnce() -> String) {
        self.compared += 1;
        if !equal {
            self.differed += 1;
            if self.differed <= 40 {
                println!("\nDIFFERS: {}, seed {}: {}", self.kind, self.seed, what());
            }
        }
        self.show();
    }

    /// The number that a call answered, 0 for acceptance.
    pub fn answered(&mut self, number: u8) {
        self.answers[number as usize] += 1;
    }

    fn show(&mut self) {
        if self.shown.elapsed().as_millis() > 500 && std::io::stderr().is_terminal() {
            self.shown = Instant::now();
            eprint!("\r{:<24} {:>12}", self.kind, self.compared - self.from);
            std::io::stderr().flush().ok();
        }
    }

    /// Many comparisons at once, all equal.
    pub fn equal(&mut self, count: u64) {
        self.compared += count;
        self.show();
    }

    /// How many were compared, what was answered how often, and a note.
    pub fn end(&mut self, note: &str) {
        let answers: Vec<String> = self.answers.iter().enumerate().filter(|a| *a.1 > 0).map(|(n, count)| format!(" {n}: {count}")).collect();
        let answers = if answers.is_empty() { String::new() } else { format!("; answers{}", answers.join(",")) };
        let note = if note.is_empty() { String::new() } else { format!("; {note}") };
        println!("\r{:<24} {:>12} compared, {:.1} s{answers}{note}", self.kind, self.compared - self.from, self.begun.elapsed().as_secs_f64());
    }

    pub fn summary(&self) {
        println!("seed {}: compared {}, differed {}", self.seed, self.compared, self.differed);
        if self.differed > 0 {
            std::process::exit(1);
        }
    }
}
