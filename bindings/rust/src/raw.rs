//! The library's calls on lent slices, one to one: bindings/c/pozsmeteg.h says what each refuses and leaves behind.
//! They are safe, since every slice is passed with its own length and the library tests lengths itself.

type Floats = *const f64;
type FloatsMut = *mut f64;

mod linked {
    use super::{Floats, FloatsMut};

    unsafe extern "C" {
        pub safe fn pozsmeteg_root(x: f64) -> f64;
        pub safe fn pozsmeteg_sine(x: f64) -> f64;
        pub safe fn pozsmeteg_cosine(x: f64) -> f64;
        pub safe fn pozsmeteg_arctangent(y: f64, x: f64) -> f64;
        pub safe fn pozsmeteg_arcsine(v: f64) -> f64;
        pub safe fn pozsmeteg_power(a: f64, n: u32, c: f64) -> f64;
        pub fn pozsmeteg_prepare(degree: usize, work: FloatsMut, length: usize) -> u8;
        pub fn pozsmeteg_partials_prepared(
            degree: usize, gm: f64, radius: f64, a: Floats, a_length: usize, b: Floats, b_length: usize, work: Floats, work_length: usize,
            r: f64, lat: f64, lon: f64, out: FloatsMut, out_length: usize,
        ) -> u8;
        pub fn pozsmeteg_legendre_new(degree: usize, a: FloatsMut, a_length: usize, b: FloatsMut, b_length: usize, scratch: FloatsMut, scratch_length: usize) -> u8;
        pub fn pozsmeteg_partials(
            degree: usize, field: Floats, field_length: usize, a: Floats, a_length: usize, b: Floats, b_length: usize, r: f64, lat: f64, lon: f64,
            out: FloatsMut, out_length: usize, scratch: FloatsMut, scratch_length: usize,
        ) -> u8;
        pub fn pozsmeteg_band_pass(
            times: Floats, times_length: usize, x: Floats, x_length: usize, out: FloatsMut, out_length: usize, scratch: FloatsMut, scratch_length: usize,
        ) -> u8;
        pub fn pozsmeteg_revolutions(
            times: Floats, times_length: usize, nodes: Floats, nodes_length: usize, firsts: *mut usize, firsts_length: usize, ends: *mut usize, ends_length: usize,
            starts: FloatsMut, starts_length: usize, periods: FloatsMut, periods_length: usize, counts: *mut usize, counts_length: usize,
        ) -> u8;
        pub fn pozsmeteg_detrend(
            times: Floats, times_length: usize, values: FloatsMut, values_length: usize, firsts: *const usize, firsts_length: usize, ends: *const usize, ends_length: usize,
            starts: Floats, starts_length: usize, periods: Floats, periods_length: usize, scratch: FloatsMut, scratch_length: usize,
        ) -> u8;
        pub fn pozsmeteg_fit_orbit(
            degree: usize, field: Floats, field_length: usize, a: Floats, a_length: usize, b: Floats, b_length: usize, times: Floats, times_length: usize,
            added: Floats, added_length: usize, keys: *const i64, keys_length: usize, states: Floats, states_length: usize,
            t0: f64, steps: usize, node: f64, period: f64, out: FloatsMut, out_length: usize, rms: FloatsMut, rms_length: usize,
            scratch: FloatsMut, scratch_length: usize,
        ) -> u8;
        pub fn pozsmeteg_residuals(
            degree: usize, field: Floats, field_length: usize, a: Floats, a_length: usize, b: Floats, b_length: usize, times: Floats, times_length: usize,
            added: Floats, added_length: usize, ckeys: *const i64, ckeys_length: usize, cstates: Floats, cstates_length: usize,
            dkeys: *const i64, dkeys_length: usize, dstates: Floats, dstates_length: usize, cacckeys: *const i64, cacckeys_length: usize, caccs: Floats, caccs_length: usize,
            dacckeys: *const i64, dacckeys_length: usize, daccs: Floats, daccs_length: usize, obstimes: Floats, obstimes_length: usize,
            obsvalues: Floats, obsvalues_length: usize, good: *const u8, good_length: usize, outtimes: FloatsMut, outtimes_length: usize,
            outresiduals: FloatsMut, outresiduals_length: usize, outterms: *mut [f64; 5], outterms_length: usize, outmids: *mut [f64; 3], outmids_length: usize,
            outvels: *mut [f64; 3], outvels_length: usize, counts: *mut usize, counts_length: usize, scratch: FloatsMut, scratch_length: usize,
        ) -> u8;
        pub fn pozsmeteg_sheet(
            degree: usize, field: Floats, field_length: usize, a: Floats, a_length: usize, b: Floats, b_length: usize, times: Floats, times_length: usize,
            added: Floats, added_length: usize, ckeys: *const i64, ckeys_length: usize, cstates: Floats, cstates_length: usize,
            dkeys: *const i64, dkeys_length: usize, dstates: Floats, dstates_length: usize, cacckeys: *const i64, cacckeys_length: usize, caccs: Floats, caccs_length: usize,
            dacckeys: *const i64, dacckeys_length: usize, daccs: Floats, daccs_length: usize, nodes: Floats, nodes_length: usize, obstimes: Floats, obstimes_length: usize,
            obsvalues: Floats, obsvalues_length: usize, good: *const u8, good_length: usize, outtimes: FloatsMut, outtimes_length: usize, outraws: FloatsMut, outraws_length: usize,
            outdetrended: FloatsMut, outdetrended_length: usize, outpassed: FloatsMut, outpassed_length: usize, counts: *mut usize, counts_length: usize,
            scratch: FloatsMut, scratch_length: usize,
        ) -> u8;
        pub fn pozsmeteg_horizon(
            nodes: Floats, nodes_length: usize, cstates: *const i64, cstates_length: usize, dstates: *const i64, dstates_length: usize, caccs: *const i64, caccs_length: usize,
            daccs: *const i64, daccs_length: usize, fields: Floats, fields_length: usize, observed: Floats, observed_length: usize, out: FloatsMut, out_length: usize,
        ) -> u8;
        pub fn pozsmeteg_final_count(
            nodes: Floats, nodes_length: usize, cstates: *const i64, cstates_length: usize, dstates: *const i64, dstates_length: usize, caccs: *const i64, caccs_length: usize,
            daccs: *const i64, daccs_length: usize, fields: Floats, fields_length: usize, observed: Floats, observed_length: usize, kept: Floats, kept_length: usize,
            counts: *mut usize, counts_length: usize,
        ) -> u8;
        pub fn pozsmeteg_final_entries(list: Floats, list_length: usize, count: usize) -> usize;
    }
}

/// The double nearest the square root, ties to even; NaN below zero, −0.0 for −0.0.
#[inline]
pub fn root(x: f64) -> f64 {
    linked::pozsmeteg_root(x)
}

/// The sine of x radians; NaN for an x that is not finite or beyond 2^20 either way.
#[inline]
pub fn sine(x: f64) -> f64 {
    linked::pozsmeteg_sine(x)
}

/// The cosine of x radians; NaN for an x that is not finite or beyond 2^20 either way.
#[inline]
pub fn cosine(x: f64) -> f64 {
    linked::pozsmeteg_cosine(x)
}

/// The angle of the point (x, y), −π to π; +0.0 for two zeros of any sign.
#[inline]
pub fn arctangent(y: f64, x: f64) -> f64 {
    linked::pozsmeteg_arctangent(y, x)
}

/// The angle whose sine is v; NaN beyond 1 either way.
#[inline]
pub fn arcsine(v: f64) -> f64 {
    linked::pozsmeteg_arcsine(v)
}

/// c times a to the n, by halving n.
#[inline]
pub fn power(a: f64, n: u32, c: f64) -> f64 {
    linked::pozsmeteg_power(a, n, c)
}

/// What many evaluations at one degree share, into a work slice whose first 2·L numbers, the caller's C and S, stay.
pub fn prepare(degree: usize, work: &mut [f64]) -> u8 {
    unsafe { linked::pozsmeteg_prepare(degree, work.as_mut_ptr(), work.len()) }
}

/// As [`partials`], from a prepared work slice.
pub fn partials_prepared(degree: usize, gm: f64, radius: f64, a: &[f64], b: &[f64], work: &[f64], r: f64, lat: f64, lon: f64, out: &mut [f64]) -> u8 {
    unsafe {
        linked::pozsmeteg_partials_prepared(
            degree, gm, radius, a.as_ptr(), a.len(), b.as_ptr(), b.len(), work.as_ptr(), work.len(), r, lat, lon, out.as_mut_ptr(), out.len(),
        )
    }
}

/// The Legendre recursion's tables of a degree.
pub fn legendre_new(degree: usize, a: &mut [f64], b: &mut [f64], scratch: &mut [f64]) -> u8 {
    unsafe { linked::pozsmeteg_legendre_new(degree, a.as_mut_ptr(), a.len(), b.as_mut_ptr(), b.len(), scratch.as_mut_ptr(), scratch.len()) }
}

/// The potential and its derivatives by radius, latitude and longitude, into the four places of out.
pub fn partials(degree: usize, field: &[f64], a: &[f64], b: &[f64], r: f64, lat: f64, lon: f64, out: &mut [f64], scratch: &mut [f64]) -> u8 {
    unsafe {
        linked::pozsmeteg_partials(
            degree, field.as_ptr(), field.len(), a.as_ptr(), a.len(), b.as_ptr(), b.len(), r, lat, lon,
            out.as_mut_ptr(), out.len(), scratch.as_mut_ptr(), scratch.len(),
        )
    }
}

/// Each run of the times through the band from 1 to 10 mHz.
pub fn band_pass(times: &[f64], x: &[f64], out: &mut [f64], scratch: &mut [f64]) -> u8 {
    unsafe {
        linked::pozsmeteg_band_pass(
            times.as_ptr(), times.len(), x.as_ptr(), x.len(), out.as_mut_ptr(), out.len(), scratch.as_mut_ptr(), scratch.len(),
        )
    }
}

/// The revolutions between neighbouring nodes that have 50 epochs or more; their count goes into `counts[0]`.
pub fn revolutions(times: &[f64], nodes: &[f64], firsts: &mut [usize], ends: &mut [usize], starts: &mut [f64], periods: &mut [f64], counts: &mut [usize]) -> u8 {
    unsafe {
        linked::pozsmeteg_revolutions(
            times.as_ptr(), times.len(), nodes.as_ptr(), nodes.len(), firsts.as_mut_ptr(), firsts.len(), ends.as_mut_ptr(), ends.len(),
            starts.as_mut_ptr(), starts.len(), periods.as_mut_ptr(), periods.len(), counts.as_mut_ptr(), counts.len(),
        )
    }
}

/// Each range's values less a bias, a trend and the waves of one and two turns, in place.
pub fn detrend(times: &[f64], values: &mut [f64], firsts: &[usize], ends: &[usize], starts: &[f64], periods: &[f64], scratch: &mut [f64]) -> u8 {
    unsafe {
        linked::pozsmeteg_detrend(
            times.as_ptr(), times.len(), values.as_mut_ptr(), values.len(), firsts.as_ptr(), firsts.len(), ends.as_ptr(), ends.len(),
            starts.as_ptr(), starts.len(), periods.as_ptr(), periods.len(), scratch.as_mut_ptr(), scratch.len(),
        )
    }
}

/// The lists that describe the gravity field: degree, static field, Legendre tables, times and added fields end to end.
#[derive(Clone, Copy)]
pub struct Model<'a> {
    /// N, 2 to 180.
    pub degree: usize,
    /// The static field.
    pub field: &'a [f64],
    /// The first Legendre table, L numbers.
    pub a: &'a [f64],
    /// The second.
    pub b: &'a [f64],
    /// The rising times of 2 to 32 added fields.
    pub times: &'a [f64],
    /// The added fields, end to end.
    pub added: &'a [f64],
}

/// Values beside the whole seconds that they belong to, six a second for states, one for accelerometer values.
#[derive(Clone, Copy)]
pub struct Keyed<'a> {
    /// Rising whole seconds.
    pub keys: &'a [i64],
    /// The numbers of each, flat: position (m) and velocity (m/s), or m/s².
    pub values: &'a [f64],
}

/// Where an arc starts, its steps of two seconds, and the node and period of its empirical accelerations.
#[derive(Clone, Copy)]
pub struct Arc {
    /// Its start, s.
    pub t0: f64,
    /// At most 5,302.
    pub steps: usize,
    /// s.
    pub node: f64,
    /// s.
    pub period: f64,
}

/// A dynamic orbit fitted to the positions of `states`: six numbers a step into out, the rms of the misfits into `rms[0]`.
pub fn fit_orbit(model: Model, states: Keyed, arc: Arc, out: &mut [f64], rms: &mut [f64], scratch: &mut [f64]) -> u8 {
    let Model { degree, field, a, b, times, added } = model;
    unsafe {
        linked::pozsmeteg_fit_orbit(
            degree, field.as_ptr(), field.len(), a.as_ptr(), a.len(), b.as_ptr(), b.len(), times.as_ptr(), times.len(), added.as_ptr(), added.len(),
            states.keys.as_ptr(), states.keys.len(), states.values.as_ptr(), states.values.len(), arc.t0, arc.steps, arc.node, arc.period,
            out.as_mut_ptr(), out.len(), rms.as_mut_ptr(), rms.len(), scratch.as_mut_ptr(), scratch.len(),
        )
    }
}

/// Both satellites' lists: states of C and of D, accelerometer values of C and of D.
#[derive(Clone, Copy)]
pub struct Pair<'a> {
    /// The states of C.
    pub c: Keyed<'a>,
    /// The states of D.
    pub d: Keyed<'a>,
    /// The accelerometer values of C, its x axis towards D.
    pub c_acc: Keyed<'a>,
    /// The accelerometer values of D, its x axis towards C.
    pub d_acc: Keyed<'a>,
}

/// Observed range accelerations.
#[derive(Clone, Copy)]
pub struct Observations<'a> {
    /// Their rising times.
    pub times: &'a [f64],
    /// m/s².
    pub values: &'a [f64],
    /// A byte for each, 0 where it is not good.
    pub good: &'a [u8],
}

/// The five output lists of `residuals`.
pub struct Records<'a> {
    /// Of the kept epochs.
    pub times: &'a mut [f64],
    /// m/s².
    pub residuals: &'a mut [f64],
    /// The five terms of each, m/s².
    pub terms: &'a mut [[f64; 5]],
    /// The pair's midpoint, m.
    pub mids: &'a mut [[f64; 3]],
    /// Its velocity, m/s.
    pub vels: &'a mut [[f64; 3]],
}

/// The records of the kept epochs; their count goes into `counts[0]`.
pub fn residuals(model: Model, pair: Pair, seen: Observations, out: Records, counts: &mut [usize], scratch: &mut [f64]) -> u8 {
    let Model { degree, field, a, b, times, added } = model;
    let Pair { c, d, c_acc, d_acc } = pair;
    unsafe {
        linked::pozsmeteg_residuals(
            degree, field.as_ptr(), field.len(), a.as_ptr(), a.len(), b.as_ptr(), b.len(), times.as_ptr(), times.len(), added.as_ptr(), added.len(),
            c.keys.as_ptr(), c.keys.len(), c.values.as_ptr(), c.values.len(), d.keys.as_ptr(), d.keys.len(), d.values.as_ptr(), d.values.len(),
            c_acc.keys.as_ptr(), c_acc.keys.len(), c_acc.values.as_ptr(), c_acc.values.len(), d_acc.keys.as_ptr(), d_acc.keys.len(), d_acc.values.as_ptr(), d_acc.values.len(),
            seen.times.as_ptr(), seen.times.len(), seen.values.as_ptr(), seen.values.len(), seen.good.as_ptr(), seen.good.len(),
            out.times.as_mut_ptr(), out.times.len(), out.residuals.as_mut_ptr(), out.residuals.len(), out.terms.as_mut_ptr(), out.terms.len(),
            out.mids.as_mut_ptr(), out.mids.len(), out.vels.as_mut_ptr(), out.vels.len(), counts.as_mut_ptr(), counts.len(), scratch.as_mut_ptr(), scratch.len(),
        )
    }
}

/// The four published lists of the whole path.
pub struct Published<'a> {
    /// Of the kept epochs.
    pub times: &'a mut [f64],
    /// Their residuals, m/s².
    pub raws: &'a mut [f64],
    /// These, detrended.
    pub detrended: &'a mut [f64],
    /// These, passed through the band.
    pub passed: &'a mut [f64],
}

/// The whole path; the number of kept epochs goes into `counts[0]`, F into `counts[1]`.
pub fn sheet(model: Model, pair: Pair, nodes: &[f64], seen: Observations, out: Published, counts: &mut [usize], scratch: &mut [f64]) -> u8 {
    let Model { degree, field, a, b, times, added } = model;
    let Pair { c, d, c_acc, d_acc } = pair;
    unsafe {
        linked::pozsmeteg_sheet(
            degree, field.as_ptr(), field.len(), a.as_ptr(), a.len(), b.as_ptr(), b.len(), times.as_ptr(), times.len(), added.as_ptr(), added.len(),
            c.keys.as_ptr(), c.keys.len(), c.values.as_ptr(), c.values.len(), d.keys.as_ptr(), d.keys.len(), d.values.as_ptr(), d.values.len(),
            c_acc.keys.as_ptr(), c_acc.keys.len(), c_acc.values.as_ptr(), c_acc.values.len(), d_acc.keys.as_ptr(), d_acc.keys.len(), d_acc.values.as_ptr(), d_acc.values.len(),
            nodes.as_ptr(), nodes.len(), seen.times.as_ptr(), seen.times.len(), seen.values.as_ptr(), seen.values.len(), seen.good.as_ptr(), seen.good.len(),
            out.times.as_mut_ptr(), out.times.len(), out.raws.as_mut_ptr(), out.raws.len(), out.detrended.as_mut_ptr(), out.detrended.len(),
            out.passed.as_mut_ptr(), out.passed.len(), counts.as_mut_ptr(), counts.len(), scratch.as_mut_ptr(), scratch.len(),
        )
    }
}

/// What the horizon looks at: the nodes, the four lists of keys, the fields' times, the observations' times.
#[derive(Clone, Copy)]
pub struct Reach<'a> {
    /// The nodes.
    pub nodes: &'a [f64],
    /// The keys of C's states.
    pub c: &'a [i64],
    /// The keys of D's states.
    pub d: &'a [i64],
    /// The keys of C's accelerometer values.
    pub c_acc: &'a [i64],
    /// The keys of D's accelerometer values.
    pub d_acc: &'a [i64],
    /// The times of the fields.
    pub fields: &'a [f64],
    /// The times of the observations.
    pub observed: &'a [f64],
}

/// The horizon, into `out[0]`; −1.0 where there is none.
pub fn horizon(reach: Reach, out: &mut [f64]) -> u8 {
    let Reach { nodes, c, d, c_acc, d_acc, fields, observed } = reach;
    unsafe {
        linked::pozsmeteg_horizon(
            nodes.as_ptr(), nodes.len(), c.as_ptr(), c.len(), d.as_ptr(), d.len(), c_acc.as_ptr(), c_acc.len(), d_acc.as_ptr(), d_acc.len(),
            fields.as_ptr(), fields.len(), observed.as_ptr(), observed.len(), out.as_mut_ptr(), out.len(),
        )
    }
}

/// F, into `counts[0]`.
pub fn final_count(reach: Reach, kept: &[f64], counts: &mut [usize]) -> u8 {
    let Reach { nodes, c, d, c_acc, d_acc, fields, observed } = reach;
    unsafe {
        linked::pozsmeteg_final_count(
            nodes.as_ptr(), nodes.len(), c.as_ptr(), c.len(), d.as_ptr(), d.len(), c_acc.as_ptr(), c_acc.len(), d_acc.as_ptr(), d_acc.len(),
            fields.as_ptr(), fields.len(), observed.as_ptr(), observed.len(), kept.as_ptr(), kept.len(),
            counts.as_mut_ptr(), counts.len(),
        )
    }
}

/// How many entries the final part of a published list has: count, or 0 for a shorter list.
pub fn final_entries(list: &[f64], count: usize) -> usize {
    unsafe { linked::pozsmeteg_final_entries(list.as_ptr(), list.len(), count) }
}
