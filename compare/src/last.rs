// A synthetic last: lattice cells within the truncation of its surface, with their distances.
use crate::plain::keys::key_of;
use crate::rng::Rng;
use std::f64::consts::PI;

pub const SIZE: f32 = 0.001;
pub const HEAD: u16 = 0x8000;

// Between the middles of heel and toe, and the radii of both, in cells.
fn measures(scale: f64) -> (f64, f64, f64) {
    (150.0 * scale, 26.0 * scale, 17.0 * scale)
}

// From end to end, in cells.
pub fn length(scale: f64) -> f64 {
    let (length, heel, toe) = measures(scale);
    heel + length + toe
}

// Of the body where the distance is below zero, in cells: discs from heel to toe, and half a ball at either end.
pub fn volume(scale: f64) -> f64 {
    let (length, heel, toe) = measures(scale);
    PI * length * (heel * heel + heel * toe + toe * toe) / 3.0 + 2.0 / 3.0 * PI * (heel.powi(3) + toe.powi(3))
}

// The distance, in cells: a rounded cone from heel to toe, bent upwards at the toe.
fn distance(at: [f64; 3], scale: f64) -> f64 {
    let (length, heel, toe) = measures(scale);
    let x = at[0].clamp(0.0, length);
    let along = x / length;
    let rise = 12.0 * scale * along * along;
    let radius = heel + (toe - heel) * along;
    let (dx, dy, dz) = (at[0] - x, at[1], at[2] - rise);
    (dx * dx + dy * dy + dz * dz).sqrt() - radius
}

// Keys ascending, and their distances in metres. Scale 1 and truncation 4.6 cells give about 60,000 rows.
pub fn rows(scale: f64, truncation: f64) -> (Vec<u64>, Vec<f32>) {
    let mut rows = Vec::new();
    let (from, to) = ([-60, -60, -60], [240, 60, 80]);
    for x in from[0]..to[0] {
        for y in from[1]..to[1] {
            for z in from[2]..to[2] {
                let d = distance([x as f64, y as f64, z as f64], scale);
                if (x - y) % 2 == 0 && (y - z) % 2 == 0 && d.abs() <= truncation {
                    let at = [x, y, z].map(|v: i32| (v + 1_000) as u16);
                    rows.push((key_of(HEAD, at[0], at[1], at[2]), (d * SIZE as f64) as f32));
                }
            }
        }
    }
    rows.sort_unstable_by_key(|r| r.0);
    rows.into_iter().unzip()
}

// Exactly n rows, those nearest to the surface of a last whose area goes with n.
pub fn rows_nearest(n: usize) -> (Vec<u64>, Vec<f32>) {
    let (keys, distances) = rows((n as f64 / 60_797.0).sqrt(), 4.8);
    assert!(keys.len() >= n, "{} rows are fewer than {n}", keys.len());
    let mut all: Vec<(u64, f32)> = keys.into_iter().zip(distances).collect();
    all.sort_by(|a, b| a.1.abs().total_cmp(&b.1.abs()));
    all.truncate(n);
    all.sort_unstable_by_key(|r| r.0);
    all.into_iter().unzip()
}

// 0 to n, shuffled.
pub fn shuffled(n: usize) -> Vec<usize> {
    let mut order: Vec<usize> = (0..n).collect();
    let mut r = Rng::new(1, "shuffle");
    for i in (1..n).rev() {
        order.swap(i, r.below(i + 1));
    }
    order
}
