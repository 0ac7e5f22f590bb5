// Keys and adjacency.
use super::*;

// The low 48 bits: bit i of x, y, z stands at 3i, 3i+1, 3i+2. The top 16 are the head.
pub fn key_of(head: u16, x: u16, y: u16, z: u16) -> u64 {
    let mut key = (head as u64) << 48;
    for i in 0..16 {
        key |= (x as u64 >> i & 1) << (3 * i);
        key |= (y as u64 >> i & 1) << (3 * i + 1);
        key |= (z as u64 >> i & 1) << (3 * i + 2);
    }
    key
}

pub fn head_of(key: u64) -> u16 {
    (key >> 48) as u16
}

pub fn coords_of(key: u64) -> [u16; 3] {
    let mut c = [0u16; 3];
    for i in 0..16 {
        for axis in 0..3 {
            c[axis] |= ((key >> (3 * i + axis) & 1) as u16) << i;
        }
    }
    c
}

// All even or all odd.
pub fn same_parity(x: i64, y: i64, z: i64) -> bool {
    x.rem_euclid(2) == y.rem_euclid(2) && y.rem_euclid(2) == z.rem_euclid(2)
}

pub fn on_lattice(key: u64) -> bool {
    let [x, y, z] = coords_of(key);
    same_parity(x as i64, y as i64, z as i64)
}

// The order of BCC_NEIGHBORS_14: the eight diagonals, then the six along the axes.
pub fn offsets() -> Vec<[i64; 3]> {
    let mut all = Vec::new();
    for dx in [1, -1] {
        for dy in [1, -1] {
            for dz in [1, -1] {
                all.push([dx, dy, dz]);
            }
        }
    }
    for axis in 0..3 {
        for d in [2, -2] {
            let mut offset = [0; 3];
            offset[axis] = d;
            all.push(offset);
        }
    }
    all
}

// Neighbours in that order, head kept, those outside 0 to 65,535 left out.
pub fn neighbours(key: u64) -> Vec<u64> {
    let at = coords_of(key);
    let mut all = Vec::new();
    for offset in offsets() {
        let c = [at[0] as i64 + offset[0], at[1] as i64 + offset[1], at[2] as i64 + offset[2]];
        if c.iter().all(|v| (0..=65_535).contains(v)) {
            all.push(key_of(head_of(key), c[0] as u16, c[1] as u16, c[2] as u16));
        }
    }
    all
}

pub fn index64_new(head: u16, x: u16, y: u16, z: u16, key: &mut u64) -> u32 {
    *key = 0;
    if !same_parity(x as i64, y as i64, z as i64) {
        return 4;
    }
    *key = key_of(head, x, y, z);
    DONE
}

pub fn decode_coords(key: u64, x: &mut u16, y: &mut u16, z: &mut u16) -> u32 {
    [*x, *y, *z] = [0; 3];
    if !on_lattice(key) {
        return 4;
    }
    [*x, *y, *z] = coords_of(key);
    DONE
}

pub fn neighbors_index64(key: u64, out: &mut [u64], listed: &mut usize) -> u32 {
    let made = listed_neighbours(key, out.len());
    *listed = made.as_ref().map_or(0, |l| l.len());
    fill(out, made.as_ref().map_or(&[], |l| l));
    number(&made)
}

fn listed_neighbours(key: u64, room: usize) -> Done<Vec<u64>> {
    need(room <= LISTS_LIMIT, 2)?;
    need(on_lattice(key), 4)?;
    let all = neighbours(key);
    need(all.len() <= room, 6)?;
    Ok(all)
}
