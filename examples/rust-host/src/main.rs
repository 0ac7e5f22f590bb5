//! What a plug-in in Rust does. Two passes over a small last are fused, with the counter that an operator watches, the
//! surface is meshed, and counts, area and box are printed; then the mesh that closes, the same with its triangles
//! turned outwards, this as an STL file and read back, refusals and what single readings did. Lengths are millimetres,
//! which lathes and slicers read.
mod akfelzun;

use akfelzun::{key, read_stl, root, Answer, Mesh, Room, Settings, Table};
use std::collections::BTreeMap;

/// Millimetres a cell.
const CELL: f32 = 1.25;

/// How far a cell lies outside a ball.
fn outside_ball(cell: [u16; 3], centre: [f32; 3], radius: f32) -> f32 {
    let squares: f32 = cell
        .iter()
        .zip(centre)
        .map(|(&a, c)| (a as f32 * CELL - c).powi(2))
        .sum();
    let Answer::Done(length) = root(squares) else {
        unreachable!("a sum of squares has a root")
    };
    length - radius
}

/// A last in little: a heel and a toe.
fn outside_last(cell: [u16; 3]) -> f32 {
    let heel = outside_ball(cell, [20.0, 20.0, 20.0], 5.625);
    heel.min(outside_ball(cell, [27.5, 20.0, 18.75], 4.375))
}

/// One pass of the scanner, whose readings are all off by the same length.
fn scan(off: f32) -> (Vec<u64>, Vec<f32>) {
    let mut keys = Vec::new();
    let mut distances = Vec::new();
    for x in 8..30 {
        for y in 8..26 {
            for z in 8..26 {
                if let Answer::Done(k) = key(0, x, y, z) {
                    keys.push(k);
                    distances.push(outside_last([x, y, z]) + off);
                }
            }
        }
    }
    (keys, distances)
}

/// The vertex numbers of each triangle.
fn triangles(mesh: &Mesh) -> Vec<[u32; 3]> {
    let [t0, t1, t2] = &mesh.triangles;
    (0..t0.len()).map(|i| [t0[i], t1[i], t2[i]]).collect()
}

/// How often each side is run through, from its lower vertex number to its higher and back.
fn runs_of_sides(mesh: &Mesh) -> Vec<[usize; 2]> {
    let mut runs: BTreeMap<[u32; 2], [usize; 2]> = BTreeMap::new();
    for t in triangles(mesh) {
        for (a, b) in [(t[0], t[1]), (t[1], t[2]), (t[2], t[0])] {
            runs.entry([a.min(b), a.max(b)]).or_default()[(a > b) as usize] += 1;
        }
    }
    runs.into_values().collect()
}

/// How many triangles are those of another mesh with the last two vertex numbers swapped.
fn swapped(mesh: &Mesh, other: &Mesh) -> usize {
    let pairs = triangles(mesh).into_iter().zip(triangles(other));
    pairs.filter(|(t, o)| *t == [o[0], o[2], o[1]]).count()
}

/// How many vertices that were read are the corners of the mesh, bit for bit.
fn same_corners(mesh: &Mesh, read: &[Vec<f32>; 3]) -> usize {
    let is_corner = |v: &usize| {
        let number = mesh.triangles[v % 3][v / 3] as usize;
        (0..3).all(|axis| read[axis][*v].to_bits() == mesh.positions[axis][number].to_bits())
    };
    (0..read[0].len()).filter(is_corner).count()
}

/// The mesh as a file, the file read back, and what is said of one that lacks a byte.
fn tell_file(mesh: &Mesh) {
    let Answer::Done(file) = mesh.stl() else {
        unreachable!("a mesh of a table is in range")
    };
    if let Answer::Done(read) = read_stl(&file) {
        println!(
            "as STL: {} bytes; read back: vertices {}, the mesh's own {}",
            file.len(),
            read[0].len(),
            same_corners(mesh, &read)
        );
    }
    println!(
        "cut short by a byte: {:?}",
        read_stl(&file[..file.len() - 1]).refusal()
    );
}

/// The mesh that closes, and the same turned outwards, which is written as a file.
fn tell_closed(closed: &Mesh, turned: &Mesh) {
    let runs = runs_of_sides(closed);
    println!(
        "closed mesh: vertices {}, triangles {}, sides of two triangles {} of {}, area {:.3?}",
        closed.positions[0].len(),
        closed.triangles[0].len(),
        runs.iter()
            .filter(|[there, back]| there + back == 2)
            .count(),
        runs.len(),
        closed.area()
    );
    let runs = runs_of_sides(turned);
    println!(
        "turned mesh: triangles {}, of them turned {}, sides run through once each way {} of {}",
        turned.triangles[0].len(),
        swapped(turned, closed),
        runs.iter().filter(|&&r| r == [1, 1]).count(),
        runs.len()
    );
    tell_file(turned);
}

fn main() {
    let settings = Settings {
        truncation: 2.0 * CELL,
        max_weight: 100.0,
        voxel_size: CELL,
        max_distance: 12.5,
    };
    let mut table = Table::new(settings, 4096);
    for off in [0.15625, -0.15625] {
        let (keys, distances) = scan(off);
        match table.batch_update(&keys, &distances, &vec![0.5; keys.len()]) {
            Ok(counts) => println!(
                "pass: {} readings, {counts}, rows {}",
                keys.len(),
                table.rows()
            ),
            Err(stopped) => println!("pass: {stopped:?}"),
        }
    }
    match table.mesh(Room {
        edges: 16384,
        groups: 32768,
        triangles: 262144,
    }) {
        Answer::Done(mesh) => {
            println!(
                "mesh: vertices {}, triangles {}",
                mesh.positions[0].len(),
                mesh.triangles[0].len()
            );
            println!("area: {:.3?}", mesh.area());
            println!("box: {:.3?}", mesh.bounding_box());
            println!(
                "normal of vertex 0: {:.3?}",
                mesh.normals.each_ref().map(|parts| parts[0])
            );
        }
        other => println!("mesh: {:?}", other.refusal()),
    }
    let room = |triangles| Room {
        edges: 16384,
        groups: 0,
        triangles,
    };
    match (
        table.closed_mesh(room(262144)),
        table.turned_mesh(room(262144)),
    ) {
        (Answer::Done(closed), Answer::Done(turned)) => tell_closed(&closed, &turned),
        (closed, turned) => println!(
            "closed mesh: {:?}, turned mesh: {:?}",
            closed.refusal(),
            turned.refusal()
        ),
    }
    println!(
        "turned mesh with room for one triangle: {:?}",
        table.turned_mesh(room(1)).refusal()
    );
    println!("key of (16, 16, 17): {:?}", key(0, 16, 16, 17));
    println!(
        "mesh with room for one triangle: {:?}",
        table
            .mesh(Room {
                edges: 16384,
                groups: 32768,
                triangles: 1
            })
            .refusal()
    );
    let Answer::Done(k) = key(0, 16, 16, 16) else {
        unreachable!("an even cell is on the lattice")
    };
    for (distance, what) in [(0.5, "0.5 mm"), (0.5, "0.5 mm once more"), (3.0, "3 mm")] {
        println!(
            "a reading of {what}: {:?}",
            table.update_from_depth(k, distance, 1.0)
        );
    }
    let halves = table.batch_update(&[k, k, 1], &[0.5, 3.0, 0.5], &[1.0; 3]);
    println!("a batch with a key off the lattice: {halves:?}");
}
