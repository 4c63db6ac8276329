// One fixed list: what a replaying program reads, and what it must print. Lines of 16 uppercase hexadecimal digits.
pub struct List {
    pub stdin: String,
    pub stdout: String,
    pub calls: usize,
}

fn line(text: &mut String, word: u64) {
    text.push_str(&format!("{word:016X}\n"));
}

impl List {
    pub fn new() -> List {
        List { stdin: String::new(), stdout: String::new(), calls: 0 }
    }

    /// Begins a call: its number in the replaying program.
    pub fn call(&mut self, number: u64) {
        self.calls += 1;
        self.ask(number);
    }

    pub fn ask(&mut self, word: u64) {
        line(&mut self.stdin, word);
    }

    pub fn ask_float(&mut self, x: f64) {
        self.ask(x.to_bits());
    }

    pub fn ask_all(&mut self, values: &[f64]) {
        values.iter().for_each(|v| self.ask_float(*v));
    }

    pub fn ask_keys(&mut self, keys: &[i64]) {
        keys.iter().for_each(|k| self.ask(*k as u64));
    }

    pub fn ask_counts(&mut self, counts: &[usize]) {
        counts.iter().for_each(|c| self.ask(*c as u64));
    }

    /// A slice: its length and its numbers.
    pub fn ask_list(&mut self, values: &[f64]) {
        self.ask(values.len() as u64);
        self.ask_all(values);
    }

    /// A slice of so many places: the numbers of the first are given, the program's others are 0.
    pub fn ask_first(&mut self, length: usize, values: &[f64]) {
        self.ask(length as u64);
        self.ask_list(values);
    }

    /// A slice: its length, how many numbers are given, and these; the program's others are 0.
    pub fn ask_words(&mut self, words: Vec<u64>) {
        let given = words.iter().rposition(|w| *w != 0).map_or(0, |k| k + 1);
        self.ask(words.len() as u64);
        self.ask(given as u64);
        words[..given].iter().for_each(|w| self.ask(*w));
    }

    pub fn ask_slice(&mut self, values: &[f64]) {
        self.ask_words(values.iter().map(|v| v.to_bits()).collect());
    }

    pub fn tell(&mut self, word: u64) {
        line(&mut self.stdout, word);
    }

    /// A NaN is told as 7FF8000000000000, whatever its bits.
    pub fn tell_float(&mut self, x: f64) {
        self.tell(if x.is_nan() { 0x7FF8_0000_0000_0000 } else { x.to_bits() });
    }

    pub fn tell_all(&mut self, values: &[f64]) {
        values.iter().for_each(|v| self.tell_float(*v));
    }

    /// Whether a slice of so many places is unchanged, 1, as refusals 1 to 5 leave it, or +0.0 throughout, 0, as an empty one is told too.
    pub fn tell_left(&mut self, unchanged: bool, length: usize) {
        self.tell((unchanged && length > 0) as u64);
    }

    pub fn tell_keys(&mut self, keys: &[i64]) {
        keys.iter().for_each(|k| self.tell(*k as u64));
    }
}

/// The double k steps above x in the order of its bits, for x that is not NaN.
pub fn step(x: f64, k: i64) -> f64 {
    f64::from_bits((x.to_bits() as i64 + if x.is_sign_negative() { -k } else { k }) as u64)
}
