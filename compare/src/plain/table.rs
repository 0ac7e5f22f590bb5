// The table, its rules, and the questions and statistics about it.
use super::keys::{neighbours, on_lattice};
use super::*;
use crate::shape::{Settings, Table};

#[derive(Clone, Copy)]
pub struct Row {
    pub key: u64,
    pub distance: f32,
    pub weight: f32,
}

// Above 0 to a limit: NaN and -0 are not.
pub fn positive_to(x: f32, limit: f32) -> bool {
    x > 0.0 && x <= limit
}

// 1
pub fn settings_ok(s: Settings) -> bool {
    positive_to(s.truncation, 1_000.0)
        && positive_to(s.max_weight, 1_000_000.0)
        && positive_to(s.voxel_size, 1_000.0)
        && s.max_distance >= 0.0
        && s.max_distance <= 1_000_000.0
        && s.max_distance.is_sign_positive()
}

// 2
pub fn lengths_ok(t: Table) -> bool {
    one_set(&[t.keys.len(), t.distances.len(), t.weights.len()], ROWS_LIMIT) && t.count <= t.keys.len()
}

pub fn distance_ok(d: f32) -> bool {
    d.is_finite() && d.abs() <= 1_000_000.0
}

// Strictly ascending, every key on the lattice.
pub fn keys_ok(keys: &[u64]) -> bool {
    keys.iter().all(|&k| on_lattice(k)) && keys.windows(2).all(|pair| pair[0] < pair[1])
}

// 3
pub fn rows_ok(s: Settings, t: Table) -> bool {
    keys_ok(&t.keys[..t.count])
        && t.distances[..t.count].iter().all(|&d| distance_ok(d))
        && t.weights[..t.count].iter().all(|&w| w >= 0.0 && w <= s.max_weight)
}

pub fn rows_of(t: Table) -> Vec<Row> {
    (0..t.count).map(|i| Row { key: t.keys[i], distance: t.distances[i], weight: t.weights[i] }).collect()
}

pub fn find(rows: &[Row], key: u64) -> Option<Row> {
    rows.iter().find(|r| r.key == key).copied()
}

// 1, 2 and 3, `lists` being the test of all other lent lists.
pub fn sound_rows(s: Settings, t: Table, lists: bool) -> Done<Vec<Row>> {
    need(settings_ok(s), 1)?;
    need(lengths_ok(t) && lists, 2)?;
    need(rows_ok(s, t), 3)?;
    Ok(rows_of(t))
}

fn asked(s: Settings, t: Table, key: u64) -> Done<Option<Row>> {
    let rows = sound_rows(s, t, true)?;
    need(on_lattice(key), 4)?;
    Ok(find(&rows, key))
}

fn answer(asked: Done<Option<Row>>, part: fn(Row) -> f32, out: &mut f32) -> u32 {
    *out = 0.0;
    match asked {
        Ok(Some(row)) => {
            *out = part(row);
            DONE
        }
        Ok(None) => ABSENT,
        Err(n) => n,
    }
}

pub fn tsdf_get_distance(s: Settings, t: Table, key: u64, distance: &mut f32) -> u32 {
    answer(asked(s, t, key), |r| r.distance, distance)
}

pub fn tsdf_get_weight(s: Settings, t: Table, key: u64, weight: &mut f32) -> u32 {
    answer(asked(s, t, key), |r| r.weight, weight)
}

pub fn is_surface_voxel(s: Settings, t: Table, key: u64, threshold: f32, yes: &mut u32) -> u32 {
    let told = asked(s, t, key).and_then(|row| {
        need(threshold.is_finite(), 5)?;
        Ok(row.is_some_and(|r| r.distance.abs() < threshold))
    });
    *yes = (told == Ok(true)) as u32;
    number(&told)
}

// The earlier value, unless the later is strictly beyond it.
pub fn smaller(earlier: f32, later: f32) -> f32 {
    if later < earlier {
        later
    } else {
        earlier
    }
}

pub fn larger(earlier: f32, later: f32) -> f32 {
    if later > earlier {
        later
    } else {
        earlier
    }
}

#[derive(Default)]
struct Stats {
    surface: usize,
    smallest: Option<f32>,
    largest: Option<f32>,
    average: f32,
}

fn stats(s: Settings, rows: &[Row]) -> Stats {
    let mut st = Stats::default();
    let mut total = 0.0f32;
    for row in rows.iter().filter(|r| r.weight > 0.0) {
        st.smallest = Some(st.smallest.map_or(row.distance, |d| smaller(d, row.distance)));
        st.largest = Some(st.largest.map_or(row.distance, |d| larger(d, row.distance)));
        total += row.weight;
        if row.distance.abs() < s.voxel_size {
            st.surface += 1;
        }
    }
    if !rows.is_empty() {
        st.average = total / rows.len() as f32;
    }
    st
}

#[allow(clippy::too_many_arguments)]
pub fn tsdf_stats(s: Settings, t: Table, voxels: &mut usize, surface: &mut usize, smallest: &mut f32, largest: &mut f32, average: &mut f32) -> u32 {
    let rows = sound_rows(s, t, true);
    let st = rows.as_ref().map_or(Stats::default(), |rows| stats(s, rows));
    *voxels = rows.as_ref().map_or(0, |rows| rows.len());
    *surface = st.surface;
    *smallest = st.smallest.unwrap_or(0.0);
    *largest = st.largest.unwrap_or(0.0);
    *average = st.average;
    number(&rows)
}

// |distance| below the threshold and weight above 0.
pub fn near_surface(row: &Row, threshold: f32) -> bool {
    row.distance.abs() < threshold && row.weight > 0.0
}

fn surface_voxels(s: Settings, t: Table, threshold: f32, room: usize) -> Done<Vec<u64>> {
    let rows = sound_rows(s, t, room <= LISTS_LIMIT)?;
    need(threshold.is_finite(), 5)?;
    let all: Vec<u64> = rows.iter().filter(|r| near_surface(r, threshold)).map(|r| r.key).collect();
    need(all.len() <= room, 6)?;
    Ok(all)
}

pub fn get_surface_voxels(s: Settings, t: Table, threshold: f32, out: &mut [u64], listed: &mut usize) -> u32 {
    let made = surface_voxels(s, t, threshold, out.len());
    *listed = made.as_ref().map_or(0, |l| l.len());
    fill(out, made.as_ref().map_or(&[], |l| l));
    number(&made)
}

// Rows ascending; for each, neighbours in their order: both weights nonzero, the f32 product below zero, the row's key the smaller.
pub fn edges(rows: &[Row]) -> Vec<(u64, u64)> {
    let mut all = Vec::new();
    for row in rows {
        for key in neighbours(row.key) {
            let Some(other) = find(rows, key) else { continue };
            if row.weight != 0.0 && other.weight != 0.0 && row.distance * other.distance < 0.0 && row.key < other.key {
                all.push((row.key, other.key));
            }
        }
    }
    all
}

fn edge_lists(s: Settings, t: Table, first: usize, second: usize) -> Done<Vec<(u64, u64)>> {
    let rows = sound_rows(s, t, one_set(&[first, second], LISTS_LIMIT))?;
    let all = edges(&rows);
    need(all.len() <= first, 6)?;
    Ok(all)
}

pub fn get_zero_crossing_edges(s: Settings, t: Table, first: &mut [u64], second: &mut [u64], listed: &mut usize) -> u32 {
    let made = edge_lists(s, t, first.len(), second.len());
    let all = made.as_ref().map_or(&[][..], |l| l);
    *listed = all.len();
    fill(first, &all.iter().map(|e| e.0).collect::<Vec<_>>());
    fill(second, &all.iter().map(|e| e.1).collect::<Vec<_>>());
    number(&made)
}
