// Fusing.
use super::keys::{coords_of, on_lattice};
use super::table::{distance_ok, lengths_ok, rows_ok, settings_ok};
use super::*;
use crate::shape::{Settings, Table, TableMut};

#[derive(Clone, Copy)]
pub enum Reading {
    Direct { distance: f32, confidence: f32 },
    Ray { sensor: [f32; 3], depth: f32, confidence: f32 },
}

fn reading_ok(reading: Reading) -> bool {
    let (finite, confidence) = match reading {
        Reading::Direct { distance, confidence } => (distance.is_finite(), confidence),
        Reading::Ray { sensor, depth, confidence } => (sensor.iter().all(|v| v.is_finite()) && depth.is_finite(), confidence),
    };
    finite && confidence >= 0.0 && confidence <= 1.0
}

// A ray becomes depth minus the rooted distance.
fn direct(s: Settings, key: u64, reading: Reading) -> (f32, f32) {
    match reading {
        Reading::Direct { distance, confidence } => (distance, confidence),
        Reading::Ray { sensor, depth, confidence } => {
            let [x, y, z] = coords_of(key);
            let dx = x as f32 * s.voxel_size - sensor[0];
            let dy = y as f32 * s.voxel_size - sensor[1];
            let dz = z as f32 * s.voxel_size - sensor[2];
            (depth - (dx * dx + dy * dy + dz * dz).sqrt(), confidence)
        }
    }
}

// One reading into a table that passed 1, 2 and 3. The answer is NEW, CHANGED or FAR.
fn fuse(s: Settings, t: &mut TableMut, key: u64, reading: Reading) -> Done<u32> {
    need(on_lattice(key), 4)?;
    need(reading_ok(reading), 5)?;
    let (distance, confidence) = direct(s, key, reading);
    if distance.abs() > s.truncation {
        return Ok(FAR);
    }
    let count = *t.count;
    let place = (0..count).find(|&i| t.keys[i] == key);
    need(place.is_some() || count < t.keys.len(), 6)?;
    // a new key gets a row (0, 0) first
    let (old_distance, old_weight) = place.map_or((0.0, 0.0), |i| (t.distances[i], t.weights[i]));
    let sum = old_weight + confidence;
    let new_weight = if sum < s.max_weight { sum } else { s.max_weight };
    let new_distance = if old_weight > 0.0 { (old_distance * old_weight + distance * confidence) / new_weight } else { distance };
    need(distance_ok(new_distance), 7)?;
    let at = place.unwrap_or_else(|| {
        // rows with larger keys move up by one place
        let at = (0..count).find(|&i| t.keys[i] > key).unwrap_or(count);
        for i in (at..count).rev() {
            t.keys[i + 1] = t.keys[i];
            t.distances[i + 1] = t.distances[i];
            t.weights[i + 1] = t.weights[i];
        }
        *t.count = count + 1;
        at
    });
    t.keys[at] = key;
    t.distances[at] = new_distance;
    t.weights[at] = new_weight;
    // by the key alone: whatever the confidence, the weights and the bits
    Ok(if place.is_some() { CHANGED } else { NEW })
}

fn sound(s: Settings, t: Table, lists: bool) -> Done<()> {
    need(settings_ok(s), 1)?;
    need(lengths_ok(t) && lists, 2)?;
    need(rows_ok(s, t), 3)
}

fn fuse_one(s: Settings, mut t: TableMut, key: u64, reading: Reading) -> u32 {
    match sound(s, t.seen(), true).and_then(|()| fuse(s, &mut t, key, reading)) {
        Ok(answer) => answer,
        Err(n) => n,
    }
}

pub fn update_from_depth(s: Settings, t: TableMut, key: u64, distance: f32, confidence: f32) -> u32 {
    fuse_one(s, t, key, Reading::Direct { distance, confidence })
}

pub fn update_from_depth_ray(s: Settings, t: TableMut, key: u64, sensor: [f32; 3], depth: f32, confidence: f32) -> u32 {
    fuse_one(s, t, key, Reading::Ray { sensor, depth, confidence })
}

// Direct readings, taken in order, and counted by their answers. A refused batch names the reading; the earlier ones stand and
// are what it has counted.
#[allow(clippy::too_many_arguments)]
pub fn batch_update(
    s: Settings,
    mut t: TableMut,
    keys: &[u64],
    distances: &[f32],
    confidences: &[f32],
    added: &mut usize,
    changed: &mut usize,
    far: &mut usize,
    at: &mut usize,
) -> u32 {
    (*added, *changed, *far, *at) = (0, 0, 0, 0);
    let batch = one_set(&[keys.len(), distances.len(), confidences.len()], ROWS_LIMIT);
    if let Err(n) = sound(s, t.seen(), batch) {
        return n;
    }
    for i in 0..keys.len() {
        let reading = Reading::Direct { distance: distances[i], confidence: confidences[i] };
        match fuse(s, &mut t, keys[i], reading) {
            Ok(NEW) => *added += 1,
            Ok(CHANGED) => *changed += 1,
            Ok(_) => *far += 1,
            Err(n) => {
                *at = i;
                return n;
            }
        }
    }
    DONE
}
