// Where the Rust and document 01 part, each by the smallest input found: what the Rust really does there, run and printed.
use crate::calls::{self, Side};
use crate::case::{Case, Outcome};
use crate::face::FACE;
use crate::hashed;
use crate::make;
use crate::ordered::layers::bcc_utils::{physical_to_bcc_voxel, snap_to_nearest_bcc};
use crate::ordered::layers::esdf::{ESDFLayer, ESDFVoxel};
use crate::ordered::layers::mesh::{Mesh, Triangle, Vertex};
use crate::ordered::layers::tsdf::TSDFLayer;
use crate::ordered::neighbors::neighbors_index64;
use crate::ordered::Index64;
use crate::plain::DONE;
use crate::rng::Rng;
use crate::shrink::{show, shrink};
use crate::table::{judge, Judged, COMPARED};
use std::collections::BTreeSet;
use std::panic::{catch_unwind, set_hook, AssertUnwindSafe};

fn said<T: std::fmt::Debug>(what: &str, rust: impl FnOnce() -> T, here: String) {
    let told = catch_unwind(AssertUnwindSafe(rust)).map_or("a panic".to_string(), |v| format!("{v:?}"));
    println!("{what}: the Rust {told}; here {here}");
}

// The face's answer: its number, and where it is done what it gave, by bits, of lists the first places.
fn here(ask: fn(&Side, &Case) -> Outcome, c: Case) -> String {
    let o = ask(&FACE, &c);
    let mut text = format!("answer {}", o.answer.unwrap_or(0));
    if o.answer == Some(DONE) {
        o.numbers.iter().for_each(|(name, n)| text += &format!(", {name} {n:x}"));
        o.lists.iter().for_each(|(name, l)| text += &format!(", {name} {:x?}", &l[..l.len().min(4)]));
    }
    text
}

fn key(x: u16, y: u16, z: u16) -> Index64 {
    Index64::new(0, 0, 0, x, y, z).unwrap()
}

// A march of the Rust's with its own hash tables: rows, and the bits of their distances.
fn hashed_march(c: &Case) -> Vec<(u64, u32)> {
    let mut l = hashed::layers::TSDFLayer::with_params(c.settings[0], c.settings[1], c.settings[2]);
    for i in 0..c.count {
        let v = hashed::layers::tsdf::TSDFVoxel { distance: c.distances[i], weight: c.weights[i] };
        l.voxels.insert(hashed::Index64::from_value(c.keys[i]).unwrap(), v);
    }
    let mut e = hashed::layers::ESDFLayer::new(c.settings[2], c.settings[3]);
    e.compute_from_tsdf(&l, c.reals[0]).unwrap();
    let mut rows: Vec<(u64, u32)> = e.voxels.iter().map(|(k, v)| (k.raw(), v.distance.to_bits())).collect();
    rows.sort_unstable();
    rows
}

// Forty runs, each with tables hashed anew, and not all alike. A march that might not end is not asked.
fn undetermined(c: &Case) -> bool {
    let short = c.settings[3] <= 8.0 * c.settings[2] && c.settings[2] >= 1e-3;
    if !make::rust_table(c) || !c.reals[0].is_finite() || !short || c.count < 2 {
        return false;
    }
    let first = hashed_march(c);
    (0..40).any(|_| hashed_march(c) != first)
}

pub fn print() {
    set_hook(Box::new(|_| {}));
    println!("-- stated by document 01: smallest input of each, found and made smaller");
    for c in COMPARED {
        let Some(rust) = c.rust else { continue };
        let stated = |case: &Case| rust(case).is_some_and(|o| matches!(judge(&(c.ask)(&crate::calls::PLAIN, case), &o, true), Judged::Stated));
        let mut r = Rng::new(1, c.name);
        if let Some(case) = (0..5_000).map(|_| (c.make)(&mut r)).find(|case| stated(case)) {
            let small = shrink(case, &stated);
            let (plain, rust) = ((c.ask)(&crate::calls::PLAIN, &small), rust(&small).unwrap());
            println!("{}: document 01 {:x?}, the Rust {:x?}\n{}", c.name, plain.numbers, rust.numbers, show(&small));
        }
    }

    println!("-- the Rust with its own hash tables is not determined: the smallest field found whose march differs from run to run");
    let mut r = Rng::new(1, "undetermined");
    let found = (0..20_000).map(|_| make::for_march(&mut r)).find(undetermined);
    if let Some(case) = found {
        let small = shrink(case, &|c| undetermined(c));
        let mut seen: Vec<Vec<(u64, u32)>> = (0..200).map(|_| hashed_march(&small)).collect();
        seen.sort_unstable();
        seen.dedup();
        println!("{} outcomes in 200 runs\n{}", seen.len(), show(&small));
        for s in seen.iter().take(3) {
            println!("    rows {}: {:x?}", s.len(), &s[..s.len().min(6)]);
        }
    }

    let two = Case {
        settings: [1.0, 1.0, 1.0, 0.0],
        keys: vec![key(0, 2, 0).raw(), key(4, 2, 0).raw()],
        distances: vec![1.0, -0.0],
        weights: vec![1.0; 2],
        count: 2,
        reals: [2.0, 0.0, 0.0, 0.0, 0.0],
        ..Case::default()
    };
    let at = key(1, 1, 1).raw();
    let signs: BTreeSet<u32> = (0..200).flat_map(|_| hashed_march(&two)).filter(|row| row.0 == at).map(|row| row.1).collect();
    println!("rows (0,2,0) at 1 and (4,2,0) at -0, threshold 2, maximum distance 0: in 200 runs (1,1,1) got {signs:x?}");

    println!("-- header bits: heads other than 8000 to BFFF");
    said("the key of (0, 0, 0) under frame, tier and lod 0", || format!("{:x}", key(0, 0, 0).raw()), here(calls::index64_new, Case::default()));
    said("whether key 0 is turned away", || Index64::from_value(0).is_err(), here(calls::decode_coords, Case::default()));
    let around = Case { rooms: vec![14], ..Case::default() };
    said("the first neighbour of key 0", || format!("{:x}", neighbors_index64(Index64 { value: 0 })[0].raw()), here(calls::neighbors_index64, around));

    println!("-- what document 01 refuses: the Rust's own answer, and the face's");
    let snap = |x: i32, y: i32, z: i32| {
        let c = Case { coords: [x, y, z], ..Case::default() };
        said(&format!("snap ({x}, {y}, {z})"), || snap_to_nearest_bcc(x, y, z), here(calls::snap_to_nearest_bcc, c));
    };
    snap(i32::MAX, 0, 0);
    snap(i32::MIN, 1, 0);
    let position = |x: f32, y: f32, z: f32, size: f32| {
        let c = Case { settings: [1.0, 1.0, size, 0.0], reals: [x, y, z, 0.0, 0.0], ..Case::default() };
        said(&format!("position ({x:?}, {y:?}, {z:?}), size {size:?}"), || physical_to_bcc_voxel((x, y, z), size), here(calls::physical_to_bcc_voxel, c));
    };
    position(3e9, 3e9, 3e9, 1.0);
    position(f32::NAN, 0.0, 0.0, 1.0);
    position(1.0, 1.0, 1.0, 0.0);
    let off = Case { head: 0x8000, coords: [1, 0, 0], ..Case::default() };
    said("the key of (1, 0, 0), off the lattice", || format!("{:x}", key(1, 0, 0).raw()), here(calls::index64_new, off));
    let asked = Case { settings: [1.0, 100.0, 1.0, 0.0], key: key(1, 0, 0).raw(), ..Case::default() };
    said("a question about it", || TSDFLayer::with_params(1.0, 100.0, 1.0).get_distance(key(1, 0, 0)), here(calls::tsdf_get_distance, asked));
    for x in [-1.0, f32::NAN] {
        said(&format!("the root of {x:?}"), || x.sqrt(), here(calls::root, Case { reals: [x, 0.0, 0.0, 0.0, 0.0], ..Case::default() }));
    }
    // readings of (10,10,10) into a table with one place
    let fused = |truncation: f32, max_weight: f32, readings: &[(f32, f32)]| {
        let k = key(10, 10, 10);
        let rust = || {
            let mut l = TSDFLayer::with_params(truncation, max_weight, 1.0);
            readings.iter().for_each(|&(d, c)| l.update_from_depth(k, d, c).unwrap());
            (l.get_distance(k), l.get_weight(k))
        };
        let c = Case {
            settings: [truncation, max_weight, 1.0, 0.0],
            keys: vec![0],
            distances: vec![0.0],
            weights: vec![0.0],
            batch_keys: vec![k.raw(); readings.len()],
            batch_distances: readings.iter().map(|r| r.0).collect(),
            batch_confidences: readings.iter().map(|r| r.1).collect(),
            ..Case::default()
        };
        said(&format!("truncation {truncation:?}, maximum weight {max_weight:?}, readings {readings:?}"), rust, here(calls::batch_update, c));
    };
    fused(1.0, 100.0, &[(f32::NAN, 1.0)]);
    fused(1.0, 100.0, &[(0.5, 2.0)]);
    fused(1.0, 100.0, &[(0.5, -1.0)]);
    fused(-1.0, 100.0, &[(0.0, 1.0)]);
    fused(f32::NAN, 100.0, &[(0.0, 1.0)]);
    fused(1.0, 0.0, &[(0.5, 1.0)]);
    fused(10.0, 1e-38, &[(10.0, 1.0), (10.0, 1.0)]);
    let marched = |max_distance: f32, threshold: f32| {
        let rust = || {
            let mut l = TSDFLayer::with_params(1.0, 100.0, 1.0);
            l.update_from_depth(key(10, 10, 10), 0.0, 1.0).unwrap();
            let mut e = ESDFLayer::new(1.0, max_distance);
            e.compute_from_tsdf(&l, threshold).map(|()| e.voxels.len())
        };
        let c = Case { settings: [1.0, 100.0, 1.0, max_distance], reals: [threshold, 0.0, 0.0, 0.0, 0.0], rooms: vec![99; 4], weights: vec![1.0], ..rows(&[(key(10, 10, 10), 0.0)]) };
        said(&format!("a march of one row 0, maximum distance {max_distance:?}, threshold {threshold:?}: rows"), rust, here(calls::compute_from_tsdf, c));
    };
    marched(-1.0, 0.5);
    marched(-0.0, 0.5);
    marched(1.0, f32::NAN);
    // a mesh of these vertices, and one triangle or none
    let mesh = |places: &[[f32; 3]], triangle: Option<[u32; 3]>| {
        let mut m = Mesh::new();
        let mut c = Case { vertex_count: places.len(), triangle_count: triangle.iter().len(), ..Case::default() };
        for p in places {
            m.add_vertex(Vertex::new(p[0], p[1], p[2]));
        }
        for axis in 0..3 {
            c.vertices[axis] = places.iter().map(|p| p[axis]).collect();
            c.triangles[axis] = triangle.iter().map(|t| t[axis]).collect();
        }
        if let Some([i, j, k]) = triangle {
            m.add_triangle(Triangle::new(i as usize, j as usize, k as usize));
        }
        (m, c)
    };
    let (m, c) = mesh(&[[0.0; 3]], Some([0, 0, 1]));
    said("the area of a triangle (0, 0, 1) over one vertex", || m.surface_area(), here(calls::surface_area, c));
    let (m, c) = mesh(&[[1e20, 0.0, 0.0], [0.0, 1e20, 0.0], [0.0, 0.0, 1e20]], Some([0, 1, 2]));
    said("the area over vertices of 1e20", || m.surface_area(), here(calls::surface_area, c));
    let (m, c) = mesh(&[[f32::NAN, 0.0, 0.0]], None);
    said("the box of one vertex NaN", || m.bounding_box(), here(calls::bounding_box, c));

    println!("-- what its comments say otherwise: the Rust's answer, and the face's, which is the same");
    fused(1.0, 1.0, &[(0.5, 1.0), (0.5, 1.0)]);
    snap(0, 0, 1);
    position(0.0, 0.0, 1.25, 1.0);
    farthest();
    let two = rows(&[(key(10, 10, 10), 0.0), (key(12, 10, 10), 1.0)]);
    said("(10,10,10) at 0 and (12,10,10) at 1: the gradient", || esdf(&two).get_gradient(key(10, 10, 10)), here(calls::get_gradient, two.clone()));
    let zero = rows(&[(key(10, 10, 10), 0.0)]);
    said("one marched row 0: the statistics", || esdf(&zero).stats(), here(calls::esdf_stats, zero.clone()));
    let below = Case { reals: [-2.0, 0.0, 0.0, 0.0, 0.0], ..rows(&[(key(10, 10, 10), -1.0)]) };
    said("one marched row -1, threshold -2: free", || esdf(&below).is_free_space(key(10, 10, 10), -2.0), here(calls::is_free_space, below.clone()));
    let border = Case { key: key(0, 0, 0).raw(), rooms: vec![14], ..Case::default() };
    let neighbours = || neighbors_index64(key(0, 0, 0)).iter().map(|k| k.decode_coords()).collect::<Vec<_>>();
    said("the neighbours of (0,0,0), the axial three within the first eight places", neighbours, here(calls::neighbors_index64, border));
}

// Marched rows, the first of which is asked for.
fn rows(of: &[(Index64, f32)]) -> Case {
    let (keys, distances): (Vec<u64>, Vec<f32>) = of.iter().map(|&(k, d)| (k.raw(), d)).unzip();
    Case { key: keys[0], count: keys.len(), keys, distances, ..Case::default() }
}

fn esdf(c: &Case) -> ESDFLayer {
    let mut e = ESDFLayer::new(1.0, 10.0);
    for i in 0..c.count {
        e.voxels.insert(Index64::from_value(c.keys[i]).unwrap(), ESDFVoxel { distance: c.distances[i], fixed: true });
    }
    e
}

// The farthest that rounding and snapping move a position.
fn farthest() {
    let mut r = Rng::new(1, "snapping");
    let mut worst = (0.0f64, [0.0f32; 3]);
    for _ in 0..1_000_000 {
        let at = [r.unit() * 4.0, r.unit() * 4.0, r.unit() * 4.0];
        let (x, y, z) = physical_to_bcc_voxel((at[0], at[1], at[2]), 1.0);
        let moved = [x, y, z].iter().zip(at).map(|(&p, v)| (p as f64 - v as f64).powi(2)).sum::<f64>().sqrt();
        if moved > worst.0 {
            worst = (moved, at);
        }
    }
    println!("a million positions, size 1: the farthest moved is {:?}, by {:.4}", worst.1, worst.0);
}
