// Makes a case that shows a difference smaller: fewer rows, readings, vertices and places, then simpler values, as long as it
// still shows one.
use crate::case::Case;
use crate::plain::keys::{coords_of, head_of, key_of};
use std::fmt::Write;

// A float's simplicity: 0, 1, powers of two, then by the digits it needs; the larger, the less simple.
fn rank(x: f32) -> u32 {
    let b = x.to_bits();
    let sign = b >> 31;
    match b & 0x7fff_ffff {
        0 => sign,
        0x3f80_0000 => 2 + sign,
        m => {
            let e = ((m >> 23) as i32 - 127).unsigned_abs();
            let digits = 23 - (m & 0x7f_ffff | 0x80_0000).trailing_zeros().min(23);
            4 + sign + 2 * (digits * 300 + e)
        }
    }
}

fn simpler(x: f32) -> Vec<f32> {
    let b = x.to_bits();
    let mut all = vec![0.0, 1.0, -x, 0.5, -0.0, -1.0, -0.5, 0.25, -0.25, 2.0, x.trunc()];
    for keep in [0u32, 2, 4, 8, 12, 16, 20] {
        all.push(f32::from_bits(b & !(0x7f_ffff >> keep)));
    }
    all.retain(|y| rank(*y) < rank(x));
    all
}

// Takes the places a..b out of lists of one set, where they have them.
fn without<T: Clone>(l: &mut Vec<T>, a: usize, b: usize) {
    let n = l.len();
    l.drain(a.min(n)..b.min(n));
}

fn drop_rows(c: &mut Case, a: usize, b: usize) {
    without(&mut c.keys, a, b);
    without(&mut c.distances, a, b);
    without(&mut c.weights, a, b);
    if c.count != usize::MAX {
        c.count -= c.count.min(b) - c.count.min(a);
    }
}

fn drop_readings(c: &mut Case, a: usize, b: usize) {
    without(&mut c.batch_keys, a, b);
    without(&mut c.batch_distances, a, b);
    without(&mut c.batch_confidences, a, b);
}

fn drop_vertices(c: &mut Case, a: usize, b: usize) {
    c.vertices.iter_mut().for_each(|l| without(l, a, b));
    if c.vertex_count != usize::MAX {
        c.vertex_count -= c.vertex_count.min(b) - c.vertex_count.min(a);
    }
}

fn drop_triangles(c: &mut Case, a: usize, b: usize) {
    c.triangles.iter_mut().for_each(|l| without(l, a, b));
    if c.triangle_count != usize::MAX {
        c.triangle_count -= c.triangle_count.min(b) - c.triangle_count.min(a);
    }
}

fn drop_edges(c: &mut Case, a: usize, b: usize) {
    c.edges.iter_mut().for_each(|l| without(l, a, b));
    if c.edge_count != usize::MAX {
        c.edge_count -= c.edge_count.min(b) - c.edge_count.min(a);
    }
}

// Whole triangles of a file, out of its count too where it had them.
fn drop_file_triangles(c: &mut Case, a: usize, b: usize) {
    let before = file_triangles(c);
    without(&mut c.file, 84 + 50 * a, 84 + 50 * b);
    let gone = before - file_triangles(c);
    if let Some(field) = c.file.get_mut(80..84) {
        let count = u32::from_le_bytes([field[0], field[1], field[2], field[3]]);
        field.copy_from_slice(&count.wrapping_sub(gone as u32).to_le_bytes());
    }
}

fn file_triangles(c: &Case) -> usize {
    file_bytes(c).saturating_sub(84) / 50
}

// Of a file that is not made smaller, since trying it takes too long, none.
fn file_bytes(c: &Case) -> usize {
    if c.file.len() > 100_000 { 0 } else { c.file.len() }
}

// One way of taking places out, and how many there are.
type Taking = (fn(&mut Case, usize, usize), fn(&Case) -> usize);

const TAKINGS: [Taking; 8] = [
    (drop_rows, |c| c.keys.len().max(c.distances.len()).max(c.weights.len())),
    (drop_readings, |c| c.batch_keys.len().max(c.batch_distances.len())),
    (drop_vertices, |c| c.vertices[0].len().max(c.vertices[1].len())),
    (drop_triangles, |c| c.triangles[0].len().max(c.triangles[1].len())),
    (drop_edges, |c| c.edges[0].len().max(c.edges[1].len())),
    (|c, a, b| without(&mut c.groups, a, b), |c| c.groups.len()),
    (drop_file_triangles, file_triangles),
    (|c, a, b| without(&mut c.file, a, b), file_bytes),
];

fn floats(c: &mut Case) -> Vec<&mut f32> {
    let Case { settings, distances, weights, reals, batch_distances, batch_confidences, vertices, .. } = c;
    settings
        .iter_mut()
        .chain(distances)
        .chain(weights)
        .chain(reals)
        .chain(batch_distances)
        .chain(batch_confidences)
        .chain(vertices.iter_mut().flatten())
        .collect()
}

// Every key moved, by even steps, or put under another head.
fn moved(c: &Case, to: impl Fn(u64) -> u64) -> Case {
    let mut m = c.clone();
    let Case { keys, key, batch_keys, edges, .. } = &mut m;
    for k in keys.iter_mut().chain([key]).chain(batch_keys).chain(edges.iter_mut().flatten()) {
        *k = to(*k);
    }
    m
}

fn shifted(key: u64, axis: usize, by: u16) -> u64 {
    let mut at = coords_of(key);
    at[axis] = at[axis].wrapping_sub(by);
    key_of(head_of(key), at[0], at[1], at[2])
}

pub fn shrink(mut c: Case, shows: &dyn Fn(&Case) -> bool) -> Case {
    let mut tries = 0;
    let mut try_it = |c: &mut Case, smaller: Case| {
        tries += 1;
        let better = tries < 20_000 && shows(&smaller);
        if better {
            *c = smaller;
        }
        better
    };
    loop {
        let mut better = false;
        for (take, len) in TAKINGS {
            let mut step = len(&c).next_power_of_two();
            while step > 0 {
                let mut a = 0;
                while a < len(&c) {
                    let mut s = c.clone();
                    take(&mut s, a, a + step);
                    if try_it(&mut c, s) {
                        better = true;
                    } else {
                        a += step;
                    }
                }
                step /= 2;
            }
        }
        for i in 0..c.rooms.len() {
            for n in [0, 1, c.rooms[i] / 2, c.rooms[i].saturating_sub(1)] {
                let mut s = c.clone();
                s.rooms[i] = n;
                better |= n < c.rooms[i] && try_it(&mut c, s);
            }
            // a whole set at once
            let mut s = c.clone();
            s.rooms.iter_mut().filter(|r| **r == c.rooms[i]).for_each(|r| *r = r.saturating_sub(1));
            better |= c.rooms[i] > 0 && try_it(&mut c, s);
        }
        for i in 0..floats(&mut c).len() {
            for y in simpler(*floats(&mut c)[i]) {
                let mut s = c.clone();
                let at = floats(&mut s);
                if rank(y) < rank(*at[i]) {
                    *at.into_iter().nth(i).unwrap() = y;
                    better |= try_it(&mut c, s);
                }
            }
        }
        for i in (0..file_bytes(&c)).filter(|&i| c.file[i] != 0).collect::<Vec<_>>() {
            let mut s = c.clone();
            s.file[i] = 0;
            better |= try_it(&mut c, s);
        }
        if !c.keys.is_empty() && !c.keys.contains(&c.key) {
            let mut s = c.clone();
            s.key = c.keys[0];
            better |= try_it(&mut c, s);
        }
        for axis in 0..3 {
            // to the border, to 10, halfway
            for to in [0, 10, u16::MAX] {
                let least = c.keys.iter().chain([&c.key]).chain(&c.batch_keys).map(|&k| coords_of(k)[axis]).min().unwrap();
                let by = if to == u16::MAX { least / 2 } else { least.saturating_sub(to) } & !1;
                let s = moved(&c, |k| shifted(k, axis, by));
                better |= by > 0 && try_it(&mut c, s);
            }
            for y in [0, 1, 2, c.coords[axis] / 2, c.coords[axis] - c.coords[axis].signum()] {
                let mut s = c.clone();
                s.coords[axis] = y;
                better |= y.unsigned_abs() < c.coords[axis].unsigned_abs() && try_it(&mut c, s);
            }
        }
        for head in [0u64, 0x8000] {
            let s = moved(&c, |k| k & 0xffff_ffff_ffff | head << 48);
            let heads = |c: &Case| c.keys.iter().chain([&c.key]).chain(&c.batch_keys).map(|&k| head_of(k) as u64).sum::<u64>();
            better |= heads(&s) < heads(&c) && try_it(&mut c, s);
        }
        if !better {
            return c;
        }
    }
}

// A case in words: what stands in it, floats with their bits.

fn float(x: f32) -> String {
    format!("{x:e}={:08x}", x.to_bits())
}

fn key(k: u64) -> String {
    let [x, y, z] = coords_of(k);
    format!("{k:016x}=({x},{y},{z})")
}

fn list<T: Copy>(text: &mut String, name: &str, l: &[T], show: impl Fn(T) -> String) {
    if !l.is_empty() {
        let shown: Vec<String> = l.iter().take(24).map(|&v| show(v)).collect();
        let more = if l.len() > 24 { format!(" .. {} in all", l.len()) } else { String::new() };
        writeln!(text, "    {name}: {}{more}", shown.join(" ")).unwrap();
    }
}

pub fn show(c: &Case) -> String {
    let mut t = String::new();
    list(&mut t, "settings", &c.settings, float);
    list(&mut t, "keys", &c.keys, key);
    list(&mut t, "distances", &c.distances, float);
    list(&mut t, "weights", &c.weights, float);
    if c.count > 0 {
        writeln!(t, "    count: {}", c.count).unwrap();
    }
    if c.key != 0 || c.head != 0 {
        writeln!(t, "    key: {}, head {:04x}", key(c.key), c.head).unwrap();
    }
    if c.coords != [0; 3] {
        writeln!(t, "    coordinates: {:?}", c.coords).unwrap();
    }
    list(&mut t, "floats", &c.reals, float);
    list(&mut t, "reading keys", &c.batch_keys, key);
    list(&mut t, "reading distances", &c.batch_distances, float);
    list(&mut t, "reading confidences", &c.batch_confidences, float);
    list(&mut t, "rooms", &c.rooms, |n| n.to_string());
    for axis in 0..3 {
        list(&mut t, "vertex part", &c.vertices[axis], float);
    }
    for axis in 0..3 {
        list(&mut t, "triangle part", &c.triangles[axis], |n| n.to_string());
    }
    if c.vertex_count + c.triangle_count > 0 {
        writeln!(t, "    vertices {}, triangles {}", c.vertex_count, c.triangle_count).unwrap();
    }
    for e in &c.edges {
        list(&mut t, "edge ends", e, key);
    }
    if c.edge_count > 0 {
        writeln!(t, "    edges: {}", c.edge_count).unwrap();
    }
    list(&mut t, "groups", &c.groups, |n| n.to_string());
    if !c.file.is_empty() {
        writeln!(t, "    file: {} bytes, zero but for those named", c.file.len()).unwrap();
        let others: Vec<usize> = (0..c.file.len()).filter(|&i| c.file[i] != 0).collect();
        list(&mut t, "byte", &others, |i| format!("{i}:{:02x}", c.file[i]));
    }
    t
}
