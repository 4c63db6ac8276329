// A submission and its sheet as text, in the format of the program that reads and prints them: sections `NAME COUNT`, then so many
// lines of words of 16 uppercase hexadecimal digits.
use crate::submission::*;
use crate::whole::whole;

fn words(numbers: impl IntoIterator<Item = u64>) -> String {
    let all: Vec<String> = numbers.into_iter().map(|w| format!("{w:016X}")).collect();
    all.join(" ") + "\n"
}

fn bits(values: &[f64]) -> impl Iterator<Item = u64> {
    values.iter().map(|v| v.to_bits())
}

fn field(f: &FieldData) -> Vec<u64> {
    bits(&[f.gm, f.radius]).chain(bits(&f.c)).chain(bits(&f.s)).collect()
}

pub fn write(s: &Submission) -> String {
    let mut out = format!("degree 1\n{}static 1\n{}fields {}\n", words([s.n as u64]), words(field(&s.stat)), s.fields.len());
    s.fields.iter().for_each(|(t, f)| out += &words([t.to_bits()].into_iter().chain(field(f))));
    for (i, name) in ["c", "d"].iter().enumerate() {
        out += &format!("states_{name} {}\n", s.states[i].len());
        s.states[i].iter().for_each(|(key, state)| out += &words([*key as u64].into_iter().chain(bits(state))));
        out += &format!("acc_{name} {}\n", s.acc[i].len());
        s.acc[i].iter().for_each(|(key, value)| out += &words([*key as u64, value.to_bits()]));
    }
    out += &format!("nodes {}\n", s.nodes.len());
    s.nodes.iter().for_each(|t| out += &words([t.to_bits()]));
    out += &format!("observations {}\n", s.obs.len());
    s.obs.iter().for_each(|(t, value, good)| out += &words([t.to_bits(), value.to_bits(), *good as u64]));
    out
}

/// A well-formed text; what is malformed ends the program.
pub fn read(text: &str) -> Submission {
    let mut lines = text.lines();
    let mut section = |name: &str| -> Vec<Vec<u64>> {
        let (found, count) = lines.next().and_then(|l| l.split_once(' ')).expect("a section");
        assert_eq!(found, name);
        (0..count.parse().expect("a count")).map(|_| lines.next().expect("a line").split(' ').map(|w| u64::from_str_radix(w, 16).expect("a word")).collect()).collect()
    };
    let floats = |w: &[u64]| -> Vec<f64> { w.iter().map(|b| f64::from_bits(*b)).collect() };
    let field = |w: &[u64]| -> FieldData {
        let (v, l) = (floats(w), (w.len() - 2) / 2);
        FieldData { gm: v[0], radius: v[1], c: v[2..2 + l].to_vec(), s: v[2 + l..].to_vec() }
    };
    let states = |rows: Vec<Vec<u64>>| rows.iter().map(|w| (w[0] as i64, floats(&w[1..]).try_into().expect("six numbers"))).collect();
    let accs = |rows: Vec<Vec<u64>>| rows.iter().map(|w| (w[0] as i64, f64::from_bits(w[1]))).collect();
    let n = section("degree")[0][0] as usize;
    let stat = field(&section("static")[0]);
    let fields = section("fields").iter().map(|w| (f64::from_bits(w[0]), field(&w[1..]))).collect();
    let (c, c_acc) = (states(section("states_c")), accs(section("acc_c")));
    let (d, d_acc) = (states(section("states_d")), accs(section("acc_d")));
    let nodes = section("nodes").iter().map(|w| f64::from_bits(w[0])).collect();
    let obs = section("observations").iter().map(|w| (f64::from_bits(w[0]), f64::from_bits(w[1]), w[2] as u8)).collect();
    Submission { n, stat, fields, states: [c, d], acc: [c_acc, d_acc], nodes, obs }
}

pub fn sheet(s: &Submission) -> String {
    match whole(s) {
        Err(n) => format!("refused {n}\n"),
        Ok(w) => {
            let rows = (0..w.lists[0].len()).map(|i| words(w.lists.iter().map(|l| l[i].to_bits())));
            format!("kept {} final {}\n", w.lists[0].len(), w.f) + &rows.collect::<String>()
        }
    }
}
