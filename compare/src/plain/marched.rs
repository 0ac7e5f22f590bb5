// Questions about a marched table, its gradient and statistics.
use super::keys::{coords_of, neighbours, on_lattice};
use super::table::{distance_ok, keys_ok, larger, smaller};
use super::*;
use crate::shape::Marched;

// 2 and 3, `lists` being the test of all other lent lists.
fn sound_rows(m: Marched, lists: bool) -> Done<Vec<(u64, f32)>> {
    need(one_set(&[m.keys.len(), m.distances.len()], LISTS_LIMIT) && m.count <= m.keys.len() && lists, 2)?;
    need(keys_ok(&m.keys[..m.count]) && m.distances[..m.count].iter().all(|&d| distance_ok(d)), 3)?;
    Ok((0..m.count).map(|i| (m.keys[i], m.distances[i])).collect())
}

fn find(rows: &[(u64, f32)], key: u64) -> Option<f32> {
    rows.iter().find(|r| r.0 == key).map(|r| r.1)
}

fn asked(m: Marched, key: u64) -> Done<Vec<(u64, f32)>> {
    let rows = sound_rows(m, true)?;
    need(on_lattice(key), 4)?;
    Ok(rows)
}

pub fn esdf_get_distance(m: Marched, key: u64, distance: &mut f32) -> u32 {
    let told = asked(m, key).and_then(|rows| find(&rows, key).ok_or(ABSENT));
    *distance = *told.as_ref().unwrap_or(&0.0);
    number(&told)
}

pub fn is_free_space(m: Marched, key: u64, threshold: f32, yes: &mut u32) -> u32 {
    let told = asked(m, key).and_then(|rows| {
        need(threshold.is_finite(), 5)?;
        Ok(find(&rows, key).is_some_and(|d| d > threshold))
    });
    *yes = (told == Ok(true)) as u32;
    number(&told)
}

fn gradient(rows: &[(u64, f32)], key: u64) -> Option<[f32; 3]> {
    let here = find(rows, key)?;
    let at = coords_of(key);
    let mut g = [0.0f32; 3];
    let mut count = 0;
    for n in neighbours(key) {
        let Some(there) = find(rows, n) else { continue };
        let to = coords_of(n);
        let dd = there - here;
        for axis in 0..3 {
            g[axis] += dd * (to[axis] as i32 - at[axis] as i32) as f32;
        }
        count += 1;
    }
    if count == 0 {
        return None;
    }
    let g = g.map(|v| v / count as f32);
    let length = (g[0] * g[0] + g[1] * g[1] + g[2] * g[2]).sqrt();
    if length > 1e-6 {
        Some(g.map(|v| v / length))
    } else {
        None
    }
}

pub fn get_gradient(m: Marched, key: u64, gx: &mut f32, gy: &mut f32, gz: &mut f32) -> u32 {
    let told = asked(m, key).and_then(|rows| gradient(&rows, key).ok_or(ABSENT));
    [*gx, *gy, *gz] = *told.as_ref().unwrap_or(&[0.0; 3]);
    number(&told)
}

fn within(m: Marched, threshold: f32, keys: usize, distances: usize) -> Done<Vec<(u64, f32)>> {
    let rows = sound_rows(m, one_set(&[keys, distances], LISTS_LIMIT))?;
    need(threshold.is_finite(), 5)?;
    let all: Vec<(u64, f32)> = rows.into_iter().filter(|r| r.1.abs() <= threshold).collect();
    need(all.len() <= keys, 6)?;
    Ok(all)
}

pub fn get_voxels_within_distance(m: Marched, threshold: f32, keys: &mut [u64], distances: &mut [f32], listed: &mut usize) -> u32 {
    let made = within(m, threshold, keys.len(), distances.len());
    let all = made.as_ref().map_or(&[][..], |l| l);
    *listed = all.len();
    fill(keys, &all.iter().map(|r| r.0).collect::<Vec<_>>());
    fill(distances, &all.iter().map(|r| r.1).collect::<Vec<_>>());
    number(&made)
}

pub fn esdf_stats(m: Marched, voxels: &mut usize, obstacles: &mut usize, free: &mut usize, smallest: &mut f32, largest: &mut f32) -> u32 {
    let told = sound_rows(m, true);
    let rows = told.as_ref().map_or(&[][..], |r| r);
    *voxels = rows.len();
    // the free count includes zero, of either sign
    *obstacles = rows.iter().filter(|r| r.1 < 0.0).count();
    *free = rows.len() - *obstacles;
    *smallest = rows.iter().map(|r| r.1).reduce(smaller).unwrap_or(0.0);
    *largest = rows.iter().map(|r| r.1).reduce(larger).unwrap_or(0.0);
    number(&told)
}
