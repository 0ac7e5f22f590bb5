// Snapping.
use super::keys::same_parity;
use super::*;

const ENDS: [i64; 2] = [i32::MIN as i64, i32::MAX as i64];

// The nearest of the eight even candidates, then of the eight odd ones, the first of equals; the even one where they tie.
fn nearest(at: [i64; 3]) -> [i64; 3] {
    let mut best = [0; 3];
    let mut best_square = i64::MAX;
    for odd in [false, true] {
        for n in 0..8 {
            let mut c = [0; 3];
            for axis in 0..3 {
                let moved = n >> axis & 1 == 1;
                let v = at[axis];
                let even_below = v - v.rem_euclid(2);
                c[axis] = match (odd, moved) {
                    (false, false) => even_below,
                    (false, true) => even_below + 2 * v.rem_euclid(2),
                    (true, false) => even_below + 1,
                    (true, true) => even_below + 2 * v.rem_euclid(2) - 1,
                };
            }
            let square = (0..3).map(|a| (c[a] - at[a]) * (c[a] - at[a])).sum::<i64>();
            if square < best_square {
                best_square = square;
                best = c;
            }
        }
    }
    best
}

fn snapped(at: [i64; 3]) -> Done<[i64; 3]> {
    if same_parity(at[0], at[1], at[2]) {
        return Ok(at);
    }
    need(!at.iter().any(|v| ENDS.contains(v)), 9)?;
    Ok(nearest(at))
}

// Half away from zero. A binary32 and a half is exact in binary64.
fn rounded(x: f32) -> f64 {
    let size = (x.abs() as f64 + 0.5).floor();
    if x < 0.0 {
        -size
    } else {
        size
    }
}

fn voxel(at: [f32; 3], size: f32) -> Done<[i64; 3]> {
    need(table::positive_to(size, 1_000.0), 1)?;
    need(at.iter().all(|v| v.is_finite()), 5)?;
    let mut whole = [0; 3];
    for axis in 0..3 {
        let r = rounded(at[axis] / size);
        need(r >= i32::MIN as f64 && r <= i32::MAX as f64, 9)?;
        whole[axis] = r as i64;
    }
    snapped(whole)
}

fn put(done: Done<[i64; 3]>, x: &mut i32, y: &mut i32, z: &mut i32) -> u32 {
    let to = done.unwrap_or([0; 3]);
    [*x, *y, *z] = [to[0] as i32, to[1] as i32, to[2] as i32];
    number(&done)
}

pub fn snap_to_nearest_bcc(x: i32, y: i32, z: i32, sx: &mut i32, sy: &mut i32, sz: &mut i32) -> u32 {
    put(snapped([x as i64, y as i64, z as i64]), sx, sy, sz)
}

pub fn physical_to_bcc_voxel(x: f32, y: f32, z: f32, size: f32, sx: &mut i32, sy: &mut i32, sz: &mut i32) -> u32 {
    put(voxel([x, y, z], size), sx, sy, sz)
}

pub fn is_valid_bcc(x: i32, y: i32, z: i32) -> u32 {
    same_parity(x as i64, y as i64, z as i64) as u32
}
