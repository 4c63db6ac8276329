//! `first_lines FILE`: the sheet of a submission's text (crates/submission_text/specs/Text.antt says what a line is), and the first lines of its table.
use pozsmeteg::{Keyed, Model, Observations, Pair, Reach, Sheet, Tables, horizon, sheet};
use std::error::Error;

const LINES: usize = 5;
type Fallible<T> = Result<T, Box<dyn Error>>;

/// A submission's text, section by section.
struct Text<'a>(std::str::Lines<'a>);

impl Text<'_> {
    /// The rows of the next section, which has to have the name, as words.
    fn section(&mut self, name: &str) -> Fallible<Vec<Vec<u64>>> {
        let header = self.0.next().and_then(|line| line.split_once(' ')).filter(|header| header.0 == name);
        let count: usize = header.ok_or(format!("there is no section {name}"))?.1.parse()?;
        let row = |line: &str| line.split(' ').map(|word| u64::from_str_radix(word, 16)).collect();
        Ok(self.0.by_ref().take(count).map(row).collect::<Result<_, _>>()?)
    }

    fn keyed(&mut self, name: &str) -> Fallible<(Vec<i64>, Vec<f64>)> {
        let rows = self.section(name)?;
        Ok((rows.iter().map(|row| row[0] as i64).collect(), rest(&rows)))
    }
}

fn column(rows: &[Vec<u64>], k: usize) -> Vec<f64> {
    rows.iter().map(|row| f64::from_bits(row[k])).collect()
}

/// What stands behind the first word of each row, end to end.
fn rest(rows: &[Vec<u64>]) -> Vec<f64> {
    rows.iter().flat_map(|row| &row[1..]).map(|word| f64::from_bits(*word)).collect()
}

fn table(sheet: &Sheet, horizon: Option<f64>) {
    let horizon = horizon.map_or("none".to_string(), |z| format!("{z:.3} s"));
    println!("{} entries, {} of them final; horizon: {horizon}", sheet.times.len(), sheet.final_count);
    println!("{:>6} {:>15} {:>12} {:>12} {:>12}  (nm/s²)", "entry", "time (GPS s)", "raw", "detrended", "passed");
    for i in 0..sheet.times.len().min(LINES) {
        let [raw, detrended, passed] = [&sheet.raws, &sheet.detrended, &sheet.passed].map(|list| list[i] * 1e9);
        let word = if i < sheet.final_count { "final" } else { "may still move" };
        println!("{:6} {:15.4} {raw:12.4} {detrended:12.4} {passed:12.4}  {word}", i + 1, sheet.times[i]);
    }
}

fn main() -> Fallible<()> {
    let path = std::env::args().nth(1).ok_or("name one file, the text of a submission")?;
    let whole = std::fs::read_to_string(path)?;
    let mut text = Text(whole.lines());
    let tables = Tables::new(text.section("degree")?[0][0] as usize)?;
    let field: Vec<f64> = text.section("static")?[0].iter().map(|word| f64::from_bits(*word)).collect();
    let fields = text.section("fields")?;
    let (times, added) = (column(&fields, 0), rest(&fields));
    let [c, c_acc, d, d_acc] = [text.keyed("states_c")?, text.keyed("acc_c")?, text.keyed("states_d")?, text.keyed("acc_d")?];
    let nodes = column(&text.section("nodes")?, 0);
    let rows = text.section("observations")?;
    let (seen, values, good) = (column(&rows, 0), column(&rows, 1), rows.iter().map(|row| row[2] as u8).collect::<Vec<u8>>());

    fn keyed((keys, values): &(Vec<i64>, Vec<f64>)) -> Keyed<'_> {
        Keyed { keys, values }
    }
    let model = Model { tables: &tables, field: &field, times: &times, added: &added };
    let pair = Pair { c: keyed(&c), d: keyed(&d), c_acc: keyed(&c_acc), d_acc: keyed(&d_acc) };
    let found = sheet(&model, pair, &nodes, Observations { times: &seen, values: &values, good: &good })?;
    let reach = Reach { nodes: &nodes, c: &c.0, d: &d.0, c_acc: &c_acc.0, d_acc: &d_acc.0, fields: &times, observed: &seen };
    table(&found, horizon(reach)?);
    Ok(())
}
