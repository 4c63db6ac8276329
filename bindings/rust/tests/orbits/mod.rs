// The Earth's GM and a made orbit, for both files of tests.
pub const GM: f64 = 3.986_004_415e14;

/// Earth-fixed states of a circular polar orbit, so many seconds ahead of the first satellite.
pub fn orbit(keys: &[i64], ahead: f64) -> Vec<f64> {
    let (radius, turn) = (6.871e6_f64, 7.292_115e-5);
    let rate = (GM / radius.powi(3)).sqrt();
    keys.iter().flat_map(|k| {
        let (s, c) = (rate * (*k as f64 + ahead)).sin_cos();
        let (sine, cosine) = (turn * *k as f64).sin_cos();
        let (x, y, speed) = (radius * c * cosine, -radius * c * sine, -radius * rate * s);
        [x, y, radius * s, speed * cosine + turn * y, -speed * sine - turn * x, radius * rate * c]
    }).collect()
}
