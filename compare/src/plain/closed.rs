// Document 02, No. 14: a surface that closes, made from the tetrahedra whose four corners count.
use super::keys::{coords_of, head_of, neighbours};
use super::mesh::{vertices_on, Vertex};
use super::table::{find, sound_rows, Row};
use super::*;
use crate::shape::{ClosedLists, Settings, Table};
use std::collections::BTreeSet;

// Four keys, ascending.
pub type Tetrahedron = [u64; 4];

pub struct Closed {
    pub tetrahedra: Vec<Tetrahedron>,
    pub edges: Vec<(u64, u64)>,
    pub vertices: Vec<Vertex>,
    pub triangles: Vec<[u32; 3]>,
}

// How far two cells of one head lie apart on each axis.
fn apart(a: u64, b: u64) -> [u16; 3] {
    let (p, q) = (coords_of(a), coords_of(b));
    [0, 1, 2].map(|axis| p[axis].abs_diff(q[axis]))
}

// By 2 on one axis, and 0 on the others.
fn axial(a: u64, b: u64) -> bool {
    head_of(a) == head_of(b) && [[2, 0, 0], [0, 2, 0], [0, 0, 2]].contains(&apart(a, b))
}

// By 1 on all three axes.
fn one_diagonal_step(a: u64, b: u64) -> bool {
    head_of(a) == head_of(b) && apart(a, b) == [1, 1, 1]
}

// The cells one diagonal step from both ends of an axial pair.
fn ring(a: u64, b: u64) -> Vec<u64> {
    neighbours(a).into_iter().filter(|&k| one_diagonal_step(a, k) && one_diagonal_step(b, k)).collect()
}

fn ascending(mut keys: [u64; 4]) -> Tetrahedron {
    keys.sort_unstable();
    keys
}

// An axial pair with two points of the ring around it that differ by 2 on one axis.
fn tetrahedra_around(a: u64, b: u64) -> Vec<Tetrahedron> {
    let ring = ring(a, b);
    let mut all = Vec::new();
    for &c in &ring {
        for &d in ring.iter().filter(|&&d| axial(c, d)) {
            all.push(ascending([a, b, c, d]));
        }
    }
    all
}

// A corner counts when it is stored with weight above 0.
fn counts(rows: &[Row], key: u64) -> bool {
    find(rows, key).is_some_and(|r| r.weight > 0.0)
}

// Those whose four corners count, each once, in dictionary order of their four ascending keys.
pub fn tetrahedra(rows: &[Row]) -> Vec<Tetrahedron> {
    let mut all = BTreeSet::new();
    for row in rows {
        for other in neighbours(row.key).into_iter().filter(|&k| axial(row.key, k)) {
            // an end that does not count leaves none around the pair
            if row.key < other && counts(rows, row.key) && counts(rows, other) {
                all.extend(tetrahedra_around(row.key, other).into_iter().filter(|t| t.iter().all(|&k| counts(rows, k))));
            }
        }
    }
    all.into_iter().collect()
}

// Below zero; zeros of both signs are outside.
fn inside(rows: &[Row], key: u64) -> bool {
    find(rows, key).unwrap().distance < 0.0
}

fn crossed(rows: &[Row], a: u64, b: u64) -> bool {
    inside(rows, a) != inside(rows, b)
}

// The six pairs of its corners, smaller key first.
fn pairs(t: &Tetrahedron) -> [(u64, u64); 6] {
    [(t[0], t[1]), (t[0], t[2]), (t[0], t[3]), (t[1], t[2]), (t[1], t[3]), (t[2], t[3])]
}

// Rows ascending; for each, neighbours in their order: the crossed edges of such tetrahedra, smaller key first.
fn edges(rows: &[Row], tetrahedra: &[Tetrahedron]) -> Vec<(u64, u64)> {
    let of_tetrahedra: BTreeSet<(u64, u64)> = tetrahedra.iter().flat_map(pairs).collect();
    let mut all = Vec::new();
    for row in rows {
        for key in neighbours(row.key) {
            if row.key < key && of_tetrahedra.contains(&(row.key, key)) && crossed(rows, row.key, key) {
                all.push((row.key, key));
            }
        }
    }
    all
}

// The number of the vertex between two cells, in either order.
fn number_of(edges: &[(u64, u64)], a: u64, b: u64) -> u32 {
    edges.iter().position(|&e| e == (a.min(b), a.max(b))).unwrap() as u32
}

// One corner against three: its vertices ascending by number.
fn single(edges: &[(u64, u64)], alone: u64, others: &[u64]) -> [u32; 3] {
    let mut vertices = [0, 1, 2].map(|i| number_of(edges, alone, others[i]));
    vertices.sort_unstable();
    vertices
}

// Inside keys p < q and outside r < s: (pr, ps, qs) and (pr, qs, qr).
fn two(edges: &[(u64, u64)], inside: &[u64], outside: &[u64]) -> [[u32; 3]; 2] {
    let (p, q, r, s) = (inside[0], inside[1], outside[0], outside[1]);
    let (pr, ps, qs, qr) = (number_of(edges, p, r), number_of(edges, p, s), number_of(edges, q, s), number_of(edges, q, r));
    [[pr, ps, qs], [pr, qs, qr]]
}

// The corners inside and those outside; both stand ascending, as the corners do.
pub fn parted(rows: &[Row], t: &Tetrahedron) -> (Vec<u64>, Vec<u64>) {
    t.iter().partition(|&&k| inside(rows, k))
}

pub fn triangles_in(rows: &[Row], edges: &[(u64, u64)], t: &Tetrahedron) -> Vec<[u32; 3]> {
    let (inside, outside) = parted(rows, t);
    match inside.len() {
        1 => vec![single(edges, inside[0], &outside)],
        2 => two(edges, &inside, &outside).to_vec(),
        3 => vec![single(edges, outside[0], &inside)],
        _ => Vec::new(),
    }
}

// How the triangles of a tetrahedron are made: the one thing in which the turned mesh is another.
pub type Cut = fn(&[Row], &[(u64, u64)], &Tetrahedron) -> Vec<[u32; 3]>;

pub fn mesh(cut: Cut, s: Settings, rows: &[Row]) -> Closed {
    let tetrahedra = tetrahedra(rows);
    let edges = edges(rows, &tetrahedra);
    let vertices = vertices_on(s, rows, &edges);
    let triangles = tetrahedra.iter().flat_map(|t| cut(rows, &edges, t)).collect();
    Closed { tetrahedra, edges, vertices, triangles }
}

pub fn closed(s: Settings, rows: &[Row]) -> Closed {
    mesh(triangles_in, s, rows)
}

fn made(cut: Cut, s: Settings, t: Table, l: &ClosedLists) -> Done<Closed> {
    let edge_lens = [l.edges[0].len(), l.edges[1].len()];
    let vertex_lens: Vec<usize> = l.places.iter().chain(&l.normals).map(|v| v.len()).collect();
    let triangle_lens = [0, 1, 2].map(|i: usize| l.triangles[i].len());
    let lists = one_set(&edge_lens, LISTS_LIMIT) && one_set(&vertex_lens, LISTS_LIMIT) && one_set(&triangle_lens, LISTS_LIMIT);
    let rows = sound_rows(s, t, lists)?;
    let m = mesh(cut, s, &rows);
    need(m.edges.len() <= edge_lens[0], 6)?;
    need(m.vertices.len() <= vertex_lens[0], 6)?;
    need(m.triangles.len() <= triangle_lens[0], 6)?;
    Ok(m)
}

pub fn extract(cut: Cut, s: Settings, t: Table, l: ClosedLists, edges: &mut usize, triangles: &mut usize) -> u32 {
    let made = made(cut, s, t, &l);
    let none = Closed { tetrahedra: Vec::new(), edges: Vec::new(), vertices: Vec::new(), triangles: Vec::new() };
    let m = made.as_ref().unwrap_or(&none);
    *edges = m.edges.len();
    *triangles = m.triangles.len();
    let [first, second] = l.edges;
    fill(first, &m.edges.iter().map(|e| e.0).collect::<Vec<_>>());
    fill(second, &m.edges.iter().map(|e| e.1).collect::<Vec<_>>());
    for (axis, list) in l.places.into_iter().enumerate() {
        fill(list, &m.vertices.iter().map(|v| v.place[axis]).collect::<Vec<_>>());
    }
    for (axis, list) in l.normals.into_iter().enumerate() {
        fill(list, &m.vertices.iter().map(|v| v.normal[axis]).collect::<Vec<_>>());
    }
    for (corner, list) in l.triangles.into_iter().enumerate() {
        fill(list, &m.triangles.iter().map(|t| t[corner]).collect::<Vec<_>>());
    }
    number(&made)
}

pub fn extract_closed_mesh(s: Settings, t: Table, l: ClosedLists, edges: &mut usize, triangles: &mut usize) -> u32 {
    extract(triangles_in, s, t, l, edges, triangles)
}
