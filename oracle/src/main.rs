// oracle NAME SEED FOLDER: makes the fixed list NAME and writes FOLDER/stdin and FOLDER/stdout.
// oracle gen [--seed S] [--n N] .. FILE: writes a synthetic submission; the options and what they stand at are in `plan`.
// oracle sheet FILE: prints the sheet of a submission.
#![allow(dead_code)]
mod elementary;
mod fieldlists;
mod generate;
mod list;
mod source;
mod submission;
mod text;
mod whole;

// made by build.sh: a `mod` for each src/NAME.rs that has `pub fn make(list: &mut List, seed: u64)`, and MAKERS
include!("makers.rs");

fn plan(args: &[String]) -> generate::Plan {
    let option = |name: &str, default: f64| -> f64 {
        let at = args.iter().position(|a| a == &format!("--{name}"));
        at.map_or(default, |i| args.get(i + 1).and_then(|v| v.parse().ok()).unwrap_or_else(|| panic!("--{name} takes a number")))
    };
    generate::Plan {
        seed: option("seed", 1.0) as u64,
        n: option("n", 4.0) as usize,
        base: option("base", 695_304_000.0) as i64,    // the first second
        windows: option("windows", 3.0) as usize,
        window: option("window", 400.0),               // seconds between nodes
        real: option("real", 0.0) != 0.0,              // nodes where the orbit crosses the equator
        step: option("step", 1.0) as i64,              // seconds between states
        noise: option("noise", 0.01),                  // metres
        truth_j2: option("j2", 0.0) != 0.0,            // the true orbit under point mass and J2 alone
        tail: option("tail", 1810.0),                  // seconds after the last node
        frac: option("frac", 1.0) != 0.0,              // nodes with fractions of a second
        field_step: option("fieldstep", 10_800.0),
    }
}

fn main() {
    let args: Vec<String> = std::env::args().collect();
    let last = args.last().unwrap();
    match args.get(1).map(|a| a.as_str()) {
        Some("gen") => return std::fs::write(last, text::write(&generate::generate(&plan(&args)))).unwrap(),
        // with a seed and a folder it is the list of that name
        Some("sheet") if args.len() == 3 => return print!("{}", text::sheet(&text::read(&std::fs::read_to_string(last).unwrap()))),
        _ => (),
    }
    let maker = args.get(1).and_then(|name| MAKERS.iter().find(|m| m.0 == name));
    let (Some((_, make)), Some(seed), Some(folder)) = (maker, args.get(2).and_then(|s| s.parse().ok()), args.get(3)) else {
        let names: Vec<&str> = MAKERS.iter().map(|m| m.0).collect();
        eprintln!("oracle NAME SEED FOLDER, where NAME is one of: {}", names.join(" "));
        std::process::exit(1);
    };
    let mut list = list::List::new();
    make(&mut list, seed);
    std::fs::write(format!("{folder}/stdin"), &list.stdin).unwrap();
    std::fs::write(format!("{folder}/stdout"), &list.stdout).unwrap();
    println!("{}: {} calls, {} words in, {} words out", args[1], list.calls, list.stdin.len() / 17, list.stdout.len() / 17);
}
