// Marching.
use super::keys::neighbours;
use super::table::{near_surface, sound_rows, Row};
use super::*;
use crate::shape::{Settings, Table};

// The f32 root of 3.
const DIAGONAL: u32 = 0x3fdd_b3d7;

struct March {
    rows: Vec<(u64, f32)>,
    waiting: Vec<(f32, u64)>,
    takings: usize,
    most_waiting: usize,
    rows_room: usize,
    waiting_room: usize,
}

impl March {
    fn stored(&self, key: u64) -> Option<f32> {
        self.rows.iter().find(|r| r.0 == key).map(|r| r.1)
    }

    fn waits(&self, key: u64) -> bool {
        self.waiting.iter().any(|w| w.1 == key)
    }

    fn store(&mut self, key: u64, distance: f32) -> Done<()> {
        need(self.rows.len() < self.rows_room, 6)?;
        let at = self.rows.iter().position(|r| r.0 > key).unwrap_or(self.rows.len());
        self.rows.insert(at, (key, distance));
        Ok(())
    }

    // Each neighbour neither stored nor waiting waits at the estimate.
    fn neighbours_wait(&mut self, key: u64, estimate: f32) -> Done<()> {
        for n in neighbours(key) {
            if self.stored(n).is_none() && !self.waits(n) {
                need(self.waiting.len() < self.waiting_room, 8)?;
                self.waiting.push((estimate, n));
                self.most_waiting = self.most_waiting.max(self.waiting.len());
            }
        }
        Ok(())
    }

    // The least (estimate, key), which leaves its waiting place.
    fn take(&mut self) -> u64 {
        let mut least = 0;
        for i in 1..self.waiting.len() {
            let ((e, k), (le, lk)) = (self.waiting[i], self.waiting[least]);
            if e < le || e == le && k < lk {
                least = i;
            }
        }
        self.takings += 1;
        self.waiting.swap_remove(least).1
    }

    // Over stored neighbours, sign × (|d| + length × size), the first of least size.
    fn distance(&self, s: Settings, key: u64) -> f32 {
        let mut best: Option<f32> = None;
        for (i, n) in neighbours(key).into_iter().enumerate() {
            let Some(d) = self.stored(n) else { continue };
            let length = if i < 8 { f32::from_bits(DIAGONAL) } else { 2.0 };
            let sign = if d.is_sign_negative() { -1.0 } else { 1.0 };
            let candidate: f32 = sign * (d.abs() + length * s.voxel_size);
            if best.map_or(true, |b| candidate.abs() < b.abs()) {
                best = Some(candidate);
            }
        }
        best.expect("a waiting cell has a stored neighbour")
    }
}

fn clamped(x: f32, limit: f32) -> f32 {
    if x < -limit {
        -limit
    } else if x > limit {
        limit
    } else {
        x
    }
}

fn run(s: Settings, rows: &[Row], threshold: f32, m: &mut March) -> Done<()> {
    for seed in rows.iter().filter(|r| near_surface(r, threshold)) {
        m.store(seed.key, seed.distance)?;
        m.neighbours_wait(seed.key, seed.distance.abs())?;
    }
    while !m.waiting.is_empty() {
        let key = m.take();
        if m.stored(key).is_some() {
            continue;
        }
        let distance = clamped(m.distance(s, key), s.max_distance);
        m.store(key, distance)?;
        let estimate = distance.abs() + f32::from_bits(DIAGONAL) * s.voxel_size;
        if estimate <= s.max_distance {
            m.neighbours_wait(key, estimate)?;
        }
    }
    Ok(())
}

// For making cases: what a march of accepted rows gives within these rooms (nothing where they don't suffice).
pub fn rows(s: Settings, rows: &[Row], threshold: f32, rows_room: usize, waiting_room: usize) -> (Vec<u64>, Vec<f32>) {
    let mut m = March { rows: Vec::new(), waiting: Vec::new(), takings: 0, most_waiting: 0, rows_room, waiting_room };
    match run(s, rows, threshold, &mut m) {
        Ok(()) => m.rows.into_iter().unzip(),
        Err(_) => (Vec::new(), Vec::new()),
    }
}

// And the rooms that it takes, at most these; whether they suffice.
pub fn rooms(s: Settings, rows: &[Row], threshold: f32, rows_room: usize, waiting_room: usize) -> (usize, usize, bool) {
    let mut m = March { rows: Vec::new(), waiting: Vec::new(), takings: 0, most_waiting: 0, rows_room, waiting_room };
    let ends = run(s, rows, threshold, &mut m).is_ok();
    (m.rows.len(), m.most_waiting, ends)
}

#[allow(clippy::too_many_arguments)]
fn march(s: Settings, t: Table, threshold: f32, keys: usize, distances: usize, estimates: usize, waiting: usize) -> Done<March> {
    let lists = one_set(&[keys, distances], LISTS_LIMIT) && one_set(&[estimates, waiting], LISTS_LIMIT);
    let rows = sound_rows(s, t, lists)?;
    need(threshold.is_finite(), 5)?;
    let mut m = March { rows: Vec::new(), waiting: Vec::new(), takings: 0, most_waiting: 0, rows_room: keys, waiting_room: waiting };
    run(s, &rows, threshold, &mut m)?;
    Ok(m)
}

#[allow(clippy::too_many_arguments)]
pub fn compute_from_tsdf(
    s: Settings,
    t: Table,
    threshold: f32,
    keys: &mut [u64],
    distances: &mut [f32],
    waiting_estimates: &mut [f32],
    waiting_keys: &mut [u64],
    rows: &mut usize,
    takings: &mut usize,
) -> u32 {
    let made = march(s, t, threshold, keys.len(), distances.len(), waiting_estimates.len(), waiting_keys.len());
    let all = made.as_ref().map_or(&[][..], |m| &m.rows);
    *rows = all.len();
    *takings = made.as_ref().map_or(0, |m| m.takings);
    fill(keys, &all.iter().map(|r| r.0).collect::<Vec<_>>());
    fill(distances, &all.iter().map(|r| r.1).collect::<Vec<_>>());
    fill(waiting_estimates, &[]);
    fill(waiting_keys, &[]);
    number(&made)
}
