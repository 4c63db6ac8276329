// bench [NAME...]: ours beside the Rust source in one program: equal bits are checked first, then both are timed.
#![allow(dead_code)]
mod elementary;
mod fieldlists;
mod flat;
mod generate;
mod source;
mod submission;
mod timing;
mod whole;

// made by run: a `mod` for each src/NAME.rs that has `pub fn works(bench: &mut Bench)`, and WORKS
include!("works.rs");

fn main() {
    let mut bench = timing::Bench::new();
    println!("{:<28} {:>12} {:>12} {:>7}  {}", "work", "Rust", "ours", "ratio", "bits");
    let named: Vec<String> = std::env::args().skip(1).collect();
    for (name, work) in WORKS {
        if named.is_empty() || named.iter().any(|n| n == name) {
            work(&mut bench);
        }
    }
    if bench.unequal > 0 {
        println!("{} works with unequal bits", bench.unequal);
        std::process::exit(1);
    }
}
