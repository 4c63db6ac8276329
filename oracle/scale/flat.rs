// What the library is lent: a gravity model, values by second, and a submission as its flat lists.
use crate::fieldlists::{Fields, Rows};
use crate::submission::Submission;
use pozsmeteg::raw;

impl Fields {
    pub fn lent(&self) -> raw::Model<'_> {
        raw::Model { degree: self.degree, field: &self.field, a: &self.a, b: &self.b, times: &self.times, added: &self.added }
    }
}

impl Rows {
    pub fn lent(&self) -> raw::Keyed<'_> {
        raw::Keyed { keys: &self.keys, values: &self.values }
    }
}

pub struct Flat {
    fields: Fields,
    rows: [Rows; 4],
    nodes: Vec<f64>,
    seen: Vec<f64>,
    values: Vec<f64>,
    good: Vec<u8>,
}

impl Flat {
    pub fn new(s: &Submission) -> Flat {
        Flat {
            fields: s.lent_fields(), rows: s.lent_rows(), nodes: s.nodes.clone(),
            seen: s.obs.iter().map(|o| o.0).collect(), values: s.obs.iter().map(|o| o.1).collect(), good: s.obs.iter().map(|o| o.2).collect(),
        }
    }

    pub fn model(&self) -> raw::Model<'_> {
        self.fields.lent()
    }

    pub fn pair(&self) -> raw::Pair<'_> {
        let [c, d, c_acc, d_acc] = &self.rows;
        raw::Pair { c: c.lent(), d: d.lent(), c_acc: c_acc.lent(), d_acc: d_acc.lent() }
    }

    pub fn nodes(&self) -> &[f64] {
        &self.nodes
    }

    pub fn observations(&self) -> raw::Observations<'_> {
        raw::Observations { times: &self.seen, values: &self.values, good: &self.good }
    }

    /// The scratch that the whole path needs.
    pub fn room(&self) -> usize {
        self.fields.least_scratch() + 49_200 * self.nodes.len().saturating_sub(1) + 10 * self.seen.len()
    }
}
