// The turned mesh: No. 14's triangles in their order, each turned where it has to be so that it looks outwards. Directions are by
// whole numbers: in doubled coordinates a cell stands at twice its own, and the middle of an edge at the sum of its ends'.
use super::closed::{extract, mesh, parted, triangles_in, Closed, Tetrahedron};
use super::keys::coords_of;
use super::table::Row;
use crate::shape::{ClosedLists, Settings, Table};

type Place = [i64; 3];

fn cell(key: u64) -> Place {
    coords_of(key).map(|v| 2 * v as i64)
}

fn middle(edge: (u64, u64)) -> Place {
    let (a, b) = (coords_of(edge.0), coords_of(edge.1));
    [0, 1, 2].map(|axis| a[axis] as i64 + b[axis] as i64)
}

fn from_to(a: Place, b: Place) -> Place {
    [0, 1, 2].map(|axis| b[axis] - a[axis])
}

fn cross(a: Place, b: Place) -> Place {
    [a[1] * b[2] - a[2] * b[1], a[2] * b[0] - a[0] * b[2], a[0] * b[1] - a[1] * b[0]]
}

fn dot(a: Place, b: Place) -> i64 {
    (0..3).map(|axis| a[axis] * b[axis]).sum()
}

fn normal(edges: &[(u64, u64)], triangle: [u32; 3]) -> Place {
    let [a, b, c] = triangle.map(|v| middle(edges[v as usize]));
    cross(from_to(a, b), from_to(a, c))
}

// Whether a direction leads from the inside corners to the outside ones: every pair must say the same, and none 0.
fn outwards(rows: &[Row], t: &Tetrahedron, direction: Place) -> bool {
    let (inside, outside) = parted(rows, t);
    let mut signs = Vec::new();
    for &i in &inside {
        signs.extend(outside.iter().map(|&o| dot(direction, from_to(cell(i), cell(o))).signum()));
    }
    assert!(signs[0] != 0 && signs.iter().all(|&s| s == signs[0]), "corners {t:x?} and direction {direction:?}: {signs:?}");
    signs[0] > 0
}

// The last two vertices are exchanged where it looks inwards.
fn turned_in(rows: &[Row], edges: &[(u64, u64)], t: &Tetrahedron) -> Vec<[u32; 3]> {
    let mut triangles = triangles_in(rows, edges, t);
    for [a, b, c] in &mut triangles {
        if !outwards(rows, t, normal(edges, [*a, *b, *c])) {
            (*b, *c) = (*c, *b);
        }
    }
    triangles
}

pub fn turned(s: Settings, rows: &[Row]) -> Closed {
    mesh(turned_in, s, rows)
}

pub fn extract_turned_mesh(s: Settings, t: Table, l: ClosedLists, edges: &mut usize, triangles: &mut usize) -> u32 {
    extract(turned_in, s, t, l, edges, triangles)
}
