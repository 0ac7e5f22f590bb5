// What the Rust gives, with its maps and sets ordered. None where the Rust is no judge: inputs that document 01 refuses by 1 to 5,
// 9 or 10 (there the Rust panics, saturates or stores what document 01 keeps out), and heads that it cannot make.
// Rooms are not the Rust's; that a table or a march outgrows its lent lists is read off the Rust's own tables.
use crate::case::{Bits, Case, Outcome};
use crate::make::{rust_key, rust_table};
use crate::ordered::ids::Index64;
use crate::ordered::layers::esdf::{ESDFLayer, ESDFVoxel};
use crate::ordered::layers::mesh::{extract_mesh_from_tsdf as rust_mesh, Mesh, Triangle, Vertex};
use crate::ordered::layers::tsdf::{TSDFLayer, TSDFVoxel};
use crate::ordered::layers::bcc_utils;
use crate::ordered::counted;
use crate::ordered::neighbors::neighbors_index64 as rust_neighbors;
use crate::plain::keys::{head_of, on_lattice};
use crate::plain::table::{distance_ok, Row};
use crate::plain::{one_set, ABSENT, CHANGED, DONE, FAR, LISTS_LIMIT, NEW, ROWS_LIMIT};
use std::panic::{catch_unwind, AssertUnwindSafe};

fn index(key: u64) -> Index64 {
    Index64::from_value(key).expect("a key under a head of the Rust's")
}

fn same_parity(c: [i32; 3]) -> bool {
    c[0] & 1 == c[1] & 1 && c[1] & 1 == c[2] & 1
}

// The values, then zeros to the room's end.
fn padded<T: Bits + Default>(values: &[T], room: usize) -> Vec<T> {
    let mut l = values.to_vec();
    l.resize(room, T::default());
    l
}

// A list that succeeded, or 6 with zeros throughout.
fn listed<T: Bits + Default>(name: &'static str, values: &[T], room: usize) -> Outcome {
    let fits = values.len() <= room;
    let values = if fits { values } else { &[] };
    Outcome::answer(if fits { DONE } else { 6 }).number("listed", values.len()).list(name, &padded(values, room))
}

pub fn index64_new(c: &Case) -> Option<Outcome> {
    if !(0x8000..=0xbfff).contains(&c.head) || !same_parity(c.coords) {
        return None;
    }
    let [x, y, z] = c.coords.map(|v| v as u16);
    let (tier, frame, lod) = ((c.head >> 12 & 3) as u8, (c.head >> 4) as u8, (c.head & 15) as u8);
    let key = Index64::new(frame, tier, lod, x, y, z).unwrap();
    Some(Outcome::answer(DONE).number("key", key.raw()))
}

pub fn decode_coords(c: &Case) -> Option<Outcome> {
    rust_key(c.key).then(|| {
        let (x, y, z) = index(c.key).decode_coords();
        Outcome::answer(DONE).number("x", x).number("y", y).number("z", z)
    })
}

pub fn neighbors_index64(c: &Case) -> Option<Outcome> {
    if !rust_key(c.key) || c.rooms[0] > LISTS_LIMIT {
        return None;
    }
    let all: Vec<u64> = rust_neighbors(index(c.key)).iter().map(|k| k.raw()).collect();
    Some(listed("out", &all, c.rooms[0]))
}

pub fn snap_to_nearest_bcc(c: &Case) -> Option<Outcome> {
    let [x, y, z] = c.coords;
    if !same_parity(c.coords) && c.coords.iter().any(|v| [i32::MIN, i32::MAX].contains(v)) {
        return None;
    }
    let (sx, sy, sz) = bcc_utils::snap_to_nearest_bcc(x, y, z);
    Some(Outcome::answer(DONE).number("sx", sx).number("sy", sy).number("sz", sz))
}

pub fn physical_to_bcc_voxel(c: &Case) -> Option<Outcome> {
    let (x, y, z, size) = (c.reals[0], c.reals[1], c.reals[2], c.settings[2]);
    if !(size > 0.0 && size <= 1_000.0) || [x, y, z].iter().any(|v| !v.is_finite()) {
        return None;
    }
    let rounded = [x, y, z].map(|v| (v / size).round());
    if rounded.iter().any(|&v| !(-2_147_483_648.0..2_147_483_648.0).contains(&v)) {
        return None;
    }
    let whole = rounded.map(|v| v as i32);
    if !same_parity(whole) && whole.contains(&i32::MIN) {
        return None;
    }
    let (sx, sy, sz) = bcc_utils::physical_to_bcc_voxel((x, y, z), size);
    Some(Outcome::answer(DONE).number("sx", sx).number("sy", sy).number("sz", sz))
}

pub fn is_valid_bcc(c: &Case) -> Option<Outcome> {
    let [x, y, z] = c.coords;
    Some(Outcome::answer(bcc_utils::is_valid_bcc(x, y, z) as u32))
}

// Tables

pub fn layer(c: &Case) -> TSDFLayer {
    let mut l = TSDFLayer::with_params(c.settings[0], c.settings[1], c.settings[2]);
    for i in 0..c.count {
        l.voxels.insert(index(c.keys[i]), TSDFVoxel { distance: c.distances[i], weight: c.weights[i] });
    }
    l
}

pub fn rows_of(l: &TSDFLayer) -> Vec<Row> {
    l.voxels.iter().map(|(k, v)| Row { key: k.raw(), distance: v.distance, weight: v.weight }).collect()
}

pub fn restore(l: &mut TSDFLayer, rows: &[Row]) {
    l.voxels = rows.iter().map(|r| (index(r.key), TSDFVoxel { distance: r.distance, weight: r.weight })).collect();
}

fn confidence_ok(x: f32) -> bool {
    (0.0..=1.0).contains(&x)
}

// The three lists of a layer: its rows ascending, then what stood past them.
fn lists_of(c: &Case, l: &TSDFLayer, answer: Option<u32>) -> Outcome {
    let (mut keys, mut distances, mut weights) = (c.keys.clone(), c.distances.clone(), c.weights.clone());
    for (i, (k, v)) in l.voxels.iter().enumerate() {
        (keys[i], distances[i], weights[i]) = (k.raw(), v.distance, v.weight);
    }
    Outcome { answer, ..Outcome::default() }
        .number("count", l.voxels.len())
        .list("keys", &keys)
        .list("distances", &distances)
        .list("weights", &weights)
}

// One update of the Rust's, and the answer to it: NEW where its table did not have the key and CHANGED where it had, FAR where a
// new key was not stored, 6 or 7 where the row that it stored has no place or is too large (then the row is taken back). None where
// a stored row came out as it was: FAR and CHANGED look alike.
pub fn updated(l: &mut TSDFLayer, room: usize, key: u64, update: impl FnOnce(&mut TSDFLayer, Index64)) -> Option<u32> {
    let k = index(key);
    let before = l.voxels.get(&k).copied();
    update(l, k);
    let after = l.voxels.get(&k).copied();
    match (before, after) {
        (None, None) => Some(FAR),
        (None, Some(_)) if l.voxels.len() > room => {
            l.voxels.remove(&k);
            Some(6)
        }
        (None, Some(_)) => Some(NEW),
        (Some(b), Some(a)) if !distance_ok(a.distance) => {
            l.voxels.insert(k, b);
            Some(7)
        }
        (Some(b), Some(a)) => (b.distance.to_bits() != a.distance.to_bits() || b.weight.to_bits() != a.weight.to_bits()).then_some(CHANGED),
        (Some(_), None) => unreachable!("the Rust never drops a row"),
    }
}

pub fn update_from_depth(c: &Case) -> Option<Outcome> {
    if !rust_table(c) || !rust_key(c.key) || !c.reals[0].is_finite() || !confidence_ok(c.reals[1]) {
        return None;
    }
    let mut l = layer(c);
    let answer = updated(&mut l, c.keys.len(), c.key, |l, k| l.update_from_depth(k, c.reals[0], c.reals[1]).unwrap());
    Some(lists_of(c, &l, answer))
}

pub fn update_from_depth_ray(c: &Case) -> Option<Outcome> {
    let [x, y, z, depth, confidence] = c.reals;
    if !rust_table(c) || !rust_key(c.key) || [x, y, z, depth].iter().any(|v| !v.is_finite()) || !confidence_ok(confidence) {
        return None;
    }
    let mut l = layer(c);
    let answer = updated(&mut l, c.keys.len(), c.key, |l, k| l.update_from_depth_ray(k, (x, y, z), depth, confidence).unwrap());
    Some(lists_of(c, &l, answer))
}

// The readings one by one find the first that document 01 refuses; the Rust's own batch then takes those before it. The Rust
// counts nothing: its table tells which readings add a row, its own test of the truncation which are far, and the others change one.
pub fn batch_update(c: &Case) -> Option<Outcome> {
    let n = c.batch_keys.len();
    if !rust_table(c) || !one_set(&[n, c.batch_distances.len(), c.batch_confidences.len()], ROWS_LIMIT) {
        return None;
    }
    let mut l = layer(c);
    let (mut answer, mut at) = (DONE, 0);
    let (mut added, mut far) = (0, 0);
    let mut taken = Vec::new();
    for i in 0..n {
        let (key, distance, confidence) = (c.batch_keys[i], c.batch_distances[i], c.batch_confidences[i]);
        let rows = l.voxels.len();
        let refused = if !on_lattice(key) {
            Some(4)
        } else if !rust_key(key) {
            return None;
        } else if !distance.is_finite() || !confidence_ok(confidence) {
            Some(5)
        } else {
            updated(&mut l, c.keys.len(), key, |l, k| l.update_from_depth(k, distance, confidence).unwrap()).filter(|&a| a == 6 || a == 7)
        };
        if let Some(n) = refused {
            (answer, at) = (n, i);
            break;
        }
        taken.push((index(key), distance, confidence));
        added += l.voxels.len() - rows;
        far += (distance.abs() > c.settings[0]) as usize;
    }
    let mut l = layer(c);
    l.batch_update(&taken).unwrap();
    let changed = taken.len() - added - far;
    Some(lists_of(c, &l, Some(answer)).number("added", added).number("changed", changed).number("far", far).number("at", at))
}

fn told<T: Bits + Default>(name: &'static str, value: Option<T>) -> Outcome {
    Outcome::answer(if value.is_some() { DONE } else { ABSENT }).number(name, value.unwrap_or_default())
}

pub fn tsdf_get_distance(c: &Case) -> Option<Outcome> {
    (rust_table(c) && rust_key(c.key)).then(|| told("distance", layer(c).get_distance(index(c.key))))
}

pub fn tsdf_get_weight(c: &Case) -> Option<Outcome> {
    (rust_table(c) && rust_key(c.key)).then(|| told("weight", layer(c).get_weight(index(c.key))))
}

pub fn is_surface_voxel(c: &Case) -> Option<Outcome> {
    (rust_table(c) && rust_key(c.key) && c.reals[0].is_finite())
        .then(|| Outcome::answer(DONE).number("yes", layer(c).is_surface_voxel(index(c.key), c.reals[0]) as u32))
}

pub fn tsdf_stats(c: &Case) -> Option<Outcome> {
    rust_table(c).then(|| {
        let s = layer(c).stats();
        Outcome::answer(DONE)
            .number("voxel_count", s.voxel_count)
            .number("surface_voxel_count", s.surface_voxel_count)
            .number("smallest", s.min_distance)
            .number("largest", s.max_distance)
            .number("average_weight", s.average_weight)
    })
}

pub fn get_surface_voxels(c: &Case) -> Option<Outcome> {
    if !rust_table(c) || !c.reals[0].is_finite() || c.rooms[0] > LISTS_LIMIT {
        return None;
    }
    let all: Vec<u64> = layer(c).get_surface_voxels(c.reals[0]).iter().map(|k| k.raw()).collect();
    Some(listed("out", &all, c.rooms[0]))
}

pub fn get_zero_crossing_edges(c: &Case) -> Option<Outcome> {
    if !rust_table(c) || !one_set(&c.rooms, LISTS_LIMIT) {
        return None;
    }
    let mut all = layer(c).get_zero_crossing_edges();
    let fits = all.len() <= c.rooms[0];
    if !fits {
        all.clear();
    }
    let first: Vec<u64> = all.iter().map(|e| e.0.raw()).collect();
    let second: Vec<u64> = all.iter().map(|e| e.1.raw()).collect();
    let made = Outcome::answer(if fits { DONE } else { 6 }).number("listed", all.len());
    Some(made.list("first", &padded(&first, c.rooms[0])).list("second", &padded(&second, c.rooms[1])))
}

// The march

pub fn compute_from_tsdf(c: &Case) -> Option<Outcome> {
    let r = &c.rooms;
    if !rust_table(c) || !c.reals[0].is_finite() || !one_set(&r[..2], LISTS_LIMIT) || !one_set(&r[2..], LISTS_LIMIT) {
        return None;
    }
    let tsdf = layer(c);
    let mut esdf = ESDFLayer::new(c.settings[2], c.settings[3]);
    counted::begin(r[0], r[2]);
    // the count of the first room outgrown ends the march by unwinding: without rooms it might walk the whole lattice
    let _ = catch_unwind(AssertUnwindSafe(|| esdf.compute_from_tsdf(&tsdf, c.reals[0]).unwrap()));
    let march = counted::end();
    let rows: Vec<(u64, f32)> = esdf.voxels.iter().map(|(k, v)| (k.raw(), v.distance)).collect();
    let (answer, rows, takings) = match march.outgrown {
        Some(n) => (n, Vec::new(), 0),
        None => (DONE, rows, march.takings),
    };
    let (keys, distances): (Vec<u64>, Vec<f32>) = rows.into_iter().unzip();
    Some(
        Outcome::answer(answer)
            .number("rows", keys.len())
            .number("takings", takings)
            .list("marched_keys", &padded(&keys, r[0]))
            .list("marched_distances", &padded(&distances, r[1]))
            .list("waiting_estimates", &padded::<f32>(&[], r[2]))
            .list("waiting_keys", &padded::<u64>(&[], r[3])),
    )
}

// Marched tables

fn marched_ok(c: &Case) -> bool {
    let keys = &c.keys;
    one_set(&[keys.len(), c.distances.len()], LISTS_LIMIT)
        && c.count <= keys.len()
        && keys[..c.count].iter().all(|&k| rust_key(k))
        && keys[..c.count].windows(2).all(|p| p[0] < p[1])
        && c.distances[..c.count].iter().all(|&d| distance_ok(d))
}

fn marched(c: &Case) -> ESDFLayer {
    let mut l = ESDFLayer::new(1.0, 1.0);
    for i in 0..c.count {
        l.voxels.insert(index(c.keys[i]), ESDFVoxel { distance: c.distances[i], fixed: true });
    }
    l
}

pub fn esdf_get_distance(c: &Case) -> Option<Outcome> {
    (marched_ok(c) && rust_key(c.key)).then(|| told("distance", marched(c).get_distance(index(c.key))))
}

pub fn is_free_space(c: &Case) -> Option<Outcome> {
    (marched_ok(c) && rust_key(c.key) && c.reals[0].is_finite())
        .then(|| Outcome::answer(DONE).number("yes", marched(c).is_free_space(index(c.key), c.reals[0]) as u32))
}

pub fn get_gradient(c: &Case) -> Option<Outcome> {
    (marched_ok(c) && rust_key(c.key)).then(|| {
        let g = marched(c).get_gradient(index(c.key));
        let (x, y, z) = g.unwrap_or_default();
        Outcome::answer(if g.is_some() { DONE } else { ABSENT }).number("gx", x).number("gy", y).number("gz", z)
    })
}

pub fn get_voxels_within_distance(c: &Case) -> Option<Outcome> {
    if !marched_ok(c) || !c.reals[0].is_finite() || !one_set(&c.rooms, LISTS_LIMIT) {
        return None;
    }
    let mut all = marched(c).get_voxels_within_distance(c.reals[0]);
    let fits = all.len() <= c.rooms[0];
    if !fits {
        all.clear();
    }
    let keys: Vec<u64> = all.iter().map(|r| r.0.raw()).collect();
    let distances: Vec<f32> = all.iter().map(|r| r.1).collect();
    let made = Outcome::answer(if fits { DONE } else { 6 }).number("listed", all.len());
    Some(made.list("out_keys", &padded(&keys, c.rooms[0])).list("out_distances", &padded(&distances, c.rooms[1])))
}

pub fn esdf_stats(c: &Case) -> Option<Outcome> {
    marched_ok(c).then(|| {
        let s = marched(c).stats();
        Outcome::answer(DONE)
            .number("voxel_count", s.voxel_count)
            .number("obstacle_voxel_count", s.obstacle_voxel_count)
            .number("free_voxel_count", s.free_voxel_count)
            .number("smallest", s.min_distance)
            .number("largest", s.max_distance)
    })
}

// The mesh. The Rust has no list of groups; it is worked out here from its edges, cells and numbers ascending.

pub fn extract_mesh_from_tsdf(c: &Case) -> Option<Outcome> {
    let r = &c.rooms;
    let sets = one_set(&r[..2], LISTS_LIMIT) && one_set(&r[2..8], LISTS_LIMIT) && one_set(&r[8..9], LISTS_LIMIT) && one_set(&r[9..], LISTS_LIMIT);
    if !rust_table(c) || !sets {
        return None;
    }
    let l = layer(c);
    let mut edges = l.get_zero_crossing_edges();
    let mut m = rust_mesh(&l).unwrap();
    assert_eq!(m.vertices.len(), edges.len(), "the Rust has a vertex for each edge");
    let fits = edges.len() <= r[0] && m.vertices.len() <= r[2] && 2 * edges.len() <= r[8] && m.triangles.len() <= r[9];
    if !fits {
        edges.clear();
        m = Mesh::new();
    }
    let mut ends: Vec<(u64, u32)> = Vec::new();
    for (i, e) in edges.iter().enumerate() {
        ends.push((e.0.raw(), i as u32));
        ends.push((e.1.raw(), i as u32));
    }
    ends.sort_unstable();
    let first: Vec<u64> = edges.iter().map(|e| e.0.raw()).collect();
    let second: Vec<u64> = edges.iter().map(|e| e.1.raw()).collect();
    let place = |axis: usize| padded(&m.vertices.iter().map(|v| v.position[axis]).collect::<Vec<_>>(), r[2]);
    let normal = |axis: usize| padded(&m.vertices.iter().map(|v| v.normal.unwrap_or([0.0; 3])[axis]).collect::<Vec<_>>(), r[5]);
    let corner = |n: usize| padded(&m.triangles.iter().map(|t| t.indices[n] as u32).collect::<Vec<_>>(), r[9]);
    Some(
        Outcome::answer(if fits { DONE } else { 6 })
            .number("edges", edges.len())
            .number("triangles", m.triangles.len())
            .list("first", &padded(&first, r[0]))
            .list("second", &padded(&second, r[1]))
            .list("px", &place(0))
            .list("py", &place(1))
            .list("pz", &place(2))
            .list("nx", &normal(0))
            .list("ny", &normal(1))
            .list("nz", &normal(2))
            .list("groups", &padded(&ends.iter().map(|e| e.1).collect::<Vec<_>>(), r[8]))
            .list("t0", &corner(0))
            .list("t1", &corner(1))
            .list("t2", &corner(2)),
    )
}

fn shape_ok(c: &Case) -> bool {
    let v = &c.vertices;
    one_set(&[v[0].len(), v[1].len(), v[2].len()], LISTS_LIMIT)
        && c.vertex_count <= v[0].len()
        && v.iter().all(|l| l[..c.vertex_count].iter().all(|x| x.abs() <= 100_000_000.0))
}

fn shape(c: &Case) -> Mesh {
    let mut m = Mesh::new();
    for i in 0..c.vertex_count {
        m.add_vertex(Vertex::new(c.vertices[0][i], c.vertices[1][i], c.vertices[2][i]));
    }
    m
}

pub fn surface_area(c: &Case) -> Option<Outcome> {
    let t = &c.triangles;
    let triangles_ok = one_set(&[t[0].len(), t[1].len(), t[2].len()], LISTS_LIMIT)
        && c.triangle_count <= t[0].len()
        && t.iter().all(|l| l[..c.triangle_count].iter().all(|&n| (n as usize) < c.vertex_count));
    if !shape_ok(c) || !triangles_ok {
        return None;
    }
    let mut m = shape(c);
    for i in 0..c.triangle_count {
        m.add_triangle(Triangle::new(t[0][i] as usize, t[1][i] as usize, t[2][i] as usize));
    }
    Some(Outcome::answer(DONE).number("area", m.surface_area()))
}

pub fn bounding_box(c: &Case) -> Option<Outcome> {
    shape_ok(c).then(|| {
        let b = shape(c).bounding_box();
        let (min, max) = b.unwrap_or_default();
        Outcome::answer(if b.is_some() { DONE } else { ABSENT })
            .number("min_x", min[0])
            .number("min_y", min[1])
            .number("min_z", min[2])
            .number("max_x", max[0])
            .number("max_y", max[1])
            .number("max_z", max[2])
    })
}

// A normal is None exactly where its three parts are zero.
pub fn mesh_stats(c: &Case) -> Option<Outcome> {
    let v = &c.vertices;
    if !one_set(&[v[0].len(), v[1].len(), v[2].len()], LISTS_LIMIT) || c.vertex_count > v[0].len() {
        return None;
    }
    let mut m = Mesh::new();
    for i in 0..c.vertex_count {
        let n = [v[0][i], v[1][i], v[2][i]];
        m.add_vertex(if n == [0.0; 3] { Vertex::new(0.0, 0.0, 0.0) } else { Vertex::with_normal(0.0, 0.0, 0.0, n[0], n[1], n[2]) });
    }
    Some(Outcome::answer(DONE).number("has_normals", m.stats().has_normals as u32))
}

// The head's fields are the Rust's: tier in bits 60 and 61, frame in 52 to 59, lod in 48 to 51.
pub fn head_fields(key: u64) -> bool {
    let k = index(key);
    let head = 0x8000 | (k.scale_tier() as u16) << 12 | (k.frame_id() as u16) << 4 | k.lod() as u16;
    head == head_of(key)
}
