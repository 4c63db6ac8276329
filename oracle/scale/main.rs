// compare [--seed S] [--elementary N] [--calls N] [--sheets N] [--pairs N] [--alone N] [--texts FOLDER]: the engine, through
// bindings/rust, beside the Rust source. N inputs of each elementary number, N rounds of every call, N whole submissions, N pairs of
// submissions on both sides, N on the engine alone; the whole submissions and the Rust's answers as texts in FOLDER.
#![allow(dead_code)]
mod elementary;
mod fieldlists;
mod generate;
mod source;
mod submission;
mod text;
mod whole;

mod detrending;
mod epochs;
mod fields;
mod filtering;
mod finals;
mod fits;
mod flat;
mod lent;
mod numbers;
mod refusals;
mod sheets;
mod tally;

fn main() {
    let args: Vec<String> = std::env::args().skip(1).collect();
    let number = |name: &str, default: u64| -> u64 {
        let at = args.iter().position(|a| a == &format!("--{name}"));
        at.map_or(default, |i| args.get(i + 1).and_then(|v| v.parse().ok()).unwrap_or_else(|| panic!("--{name} takes a number")))
    };
    let seed = number("seed", 1);
    let mut tally = tally::Tally::new(seed);
    numbers::compare(&mut tally, number("elementary", 100_000));
    let calls = number("calls", 200);
    fields::compare(&mut tally, calls);
    filtering::compare(&mut tally, calls);
    detrending::compare(&mut tally, calls);
    finals::compare(&mut tally, calls);
    epochs::compare(&mut tally, calls);
    fits::compare(&mut tally, calls);
    refusals::compare(&mut tally, calls);
    let texts = args.iter().position(|a| a == "--texts").map(|i| args.get(i + 1).expect("--texts takes a folder"));
    sheets::sheets(&mut tally, number("sheets", 20), texts.map(|t| t.as_str()));
    sheets::pairs(&mut tally, number("pairs", 20), false);
    sheets::pairs(&mut tally, number("alone", 20), true);
    tally.summary();
}
