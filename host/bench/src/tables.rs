//! Tables to time on, by seed: uniform legs, and points in the plane with a
//! wind that differs by place. They are without landing charges (request A.4),
//! and the days end at home: the unverified code beside ours knows neither
//! charges nor days that end away (request A.5).

use gondamuy::PLACES;
use samples::Random;

use crate::peer::Rows;

pub fn table(kind: &str, n: usize, seed: u64) -> Vec<u32> {
    let mut random = Random(seed * 1000 + n as u64);
    let places: Vec<[f64; 4]> =
        (0..=n).map(|_| [random.unit(), random.unit(), random.unit() - 0.5, random.unit() - 0.5]).collect();
    let mut table = vec![0; (n + 1) * (n + 1)];
    for i in 0..=n {
        for j in 0..=n {
            if i != j {
                let uniform = (random.unit() * 1001.0) as u32;
                table[i * (n + 1) + j] = if kind == "uniform" { uniform } else { windy(&places[i], &places[j]) };
            }
        }
    }
    table
}

/// The time to fly at speed 1 in the mean of the two places' winds, which are half a unit strong at most.
fn windy(from: &[f64; 4], to: &[f64; 4]) -> u32 {
    let (dx, dy) = (to[0] - from[0], to[1] - from[1]);
    let far = (dx * dx + dy * dy).sqrt();
    let tail = if far > 0.0 { ((from[2] + to[2]) * dx + (from[3] + to[3]) * dy) / (2.0 * far) } else { 0.0 };
    (1000.0 * far / (1.0 + tail)) as u32
}

/// The legs in rows of one length.
pub fn rows(n: usize, table: &[u32]) -> Rows {
    let mut rows = [[0; PLACES]; PLACES];
    for (row, legs) in rows.iter_mut().zip(table.chunks(n + 1)) {
        row[..=n].copy_from_slice(legs);
    }
    rows
}
