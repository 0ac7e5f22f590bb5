// Mesh, normals, groups, area, box.
use super::keys::{coords_of, neighbours, on_lattice};
use super::table::{edges, find, larger, smaller, sound_rows, Row};
use super::*;
use crate::shape::{Lists, Places, Settings, Table, Triangles};

// 1e-6
const TINY: u32 = 0x3586_37bd;

pub struct Vertex {
    pub place: [f32; 3],
    pub normal: [f32; 3],
}

pub struct Mesh {
    pub edges: Vec<(u64, u64)>,
    pub vertices: Vec<Vertex>,
    pub groups: Vec<u32>,
    pub triangles: Vec<[u32; 3]>,
}

fn place(key: u64, size: f32) -> [f32; 3] {
    coords_of(key).map(|c| c as f32 * size)
}

// t = -d1/e if |e| > 1e-6, else 0.5, clamped to 0..1; place p1 + t(p2 - p1).
fn crossing(a: Row, b: Row, size: f32) -> [f32; 3] {
    let e = b.distance - a.distance;
    let t = if e.abs() > f32::from_bits(TINY) { -a.distance / e } else { 0.5 };
    let t = if t < 0.0 {
        0.0
    } else if t > 1.0 {
        1.0
    } else {
        t
    };
    let (p1, p2) = (place(a.key, size), place(b.key, size));
    [0, 1, 2].map(|i| p1[i] + t * (p2[i] - p1[i]))
}

// `compute_normal`, over all stored neighbours, weight 0 too; three +0 where there is none.
fn normal(rows: &[Row], at: Row, size: f32) -> [f32; 3] {
    let here = coords_of(at.key);
    let mut g = [0.0f32; 3];
    let mut count = 0;
    for n in neighbours(at.key) {
        let Some(other) = find(rows, n) else { continue };
        let there = coords_of(n);
        let dd = other.distance - at.distance;
        for axis in 0..3 {
            g[axis] += dd * ((there[axis] as f32 - here[axis] as f32) * size);
        }
        count += 1;
    }
    let g = g.map(|v| v / count as f32);
    let length = (g[0] * g[0] + g[1] * g[1] + g[2] * g[2]).sqrt();
    if length > f32::from_bits(TINY) {
        g.map(|v| v / length)
    } else {
        [0.0; 3]
    }
}

// Vertex i comes from edge i.
pub fn vertices_on(s: Settings, rows: &[Row], edges: &[(u64, u64)]) -> Vec<Vertex> {
    let mut vertices = Vec::new();
    for &(k1, k2) in edges {
        let (a, b) = (find(rows, k1).unwrap(), find(rows, k2).unwrap());
        vertices.push(Vertex { place: crossing(a, b, s.voxel_size), normal: normal(rows, a, s.voxel_size) });
    }
    vertices
}

pub fn mesh(s: Settings, rows: &[Row]) -> Mesh {
    let edges = edges(rows);
    let vertices = vertices_on(s, rows, &edges);
    let (mut groups, mut triangles) = (Vec::new(), Vec::new());
    for row in rows {
        let of: Vec<u32> = (0..edges.len() as u32).filter(|&i| edges[i as usize].0 == row.key || edges[i as usize].1 == row.key).collect();
        for i in 0..of.len() {
            for j in i + 1..of.len() {
                for k in j + 1..of.len() {
                    triangles.push([of[i], of[j], of[k]]);
                }
            }
        }
        groups.extend(of);
    }
    Mesh { edges, vertices, groups, triangles }
}

fn extract(s: Settings, t: Table, l: &Lists) -> Done<Mesh> {
    let edge_lens = [l.edges[0].len(), l.edges[1].len()];
    let vertex_lens: Vec<usize> = l.places.iter().chain(&l.normals).map(|v| v.len()).collect();
    let triangle_lens = [0, 1, 2].map(|i: usize| l.triangles[i].len());
    let lists = one_set(&edge_lens, LISTS_LIMIT)
        && one_set(&vertex_lens, LISTS_LIMIT)
        && l.groups.len() <= LISTS_LIMIT
        && one_set(&triangle_lens, LISTS_LIMIT);
    let rows = sound_rows(s, t, lists)?;
    let m = mesh(s, &rows);
    need(m.edges.len() <= edge_lens[0], 6)?;
    need(m.vertices.len() <= vertex_lens[0], 6)?;
    need(m.groups.len() <= l.groups.len(), 6)?;
    need(m.triangles.len() <= triangle_lens[0], 6)?;
    Ok(m)
}

pub fn extract_mesh_from_tsdf(s: Settings, t: Table, l: Lists, edges: &mut usize, triangles: &mut usize) -> u32 {
    let made = extract(s, t, &l);
    let none = Mesh { edges: Vec::new(), vertices: Vec::new(), groups: Vec::new(), triangles: Vec::new() };
    let m = made.as_ref().unwrap_or(&none);
    *edges = m.edges.len();
    *triangles = m.triangles.len();
    let [first, second] = l.edges;
    fill(first, &m.edges.iter().map(|e| e.0).collect::<Vec<_>>());
    fill(second, &m.edges.iter().map(|e| e.1).collect::<Vec<_>>());
    for (axis, list) in l.places.into_iter().enumerate() {
        fill(list, &m.vertices.iter().map(|v| v.place[axis]).collect::<Vec<_>>());
    }
    for (axis, list) in l.normals.into_iter().enumerate() {
        fill(list, &m.vertices.iter().map(|v| v.normal[axis]).collect::<Vec<_>>());
    }
    fill(l.groups, &m.groups);
    for (corner, list) in l.triangles.into_iter().enumerate() {
        fill(list, &m.triangles.iter().map(|t| t[corner]).collect::<Vec<_>>());
    }
    number(&made)
}

// Placed by counting the edge list: it starts after the edge ends with smaller keys, and has a number for each edge of the cell.
pub fn cell_edges(groups: &[u32], first: &[u64], second: &[u64], edges: usize, cell: u64, start: &mut usize, length: &mut usize) {
    (*start, *length) = (0, 0);
    let lists = one_set(&[first.len(), second.len()], LISTS_LIMIT) && groups.len() <= LISTS_LIMIT && edges <= first.len();
    if !lists || !on_lattice(cell) {
        return;
    }
    let before = (0..edges).map(|i| (first[i] < cell) as usize + (second[i] < cell) as usize).sum::<usize>();
    let of = (0..edges).filter(|&i| first[i] == cell || second[i] == cell).count();
    if of > 0 && before + of <= groups.len() {
        (*start, *length) = (before, of);
    }
}

// Area and box

fn places_ok(p: Places) -> bool {
    one_set(&p.lists.map(|l| l.len()), LISTS_LIMIT) && p.count <= p.lists[0].len()
}

// Document 01's range of vertices.
pub fn in_range(vertices: &[[f32; 3]]) -> Done<()> {
    need(vertices.iter().flatten().all(|v| v.is_finite() && v.abs() <= 100_000_000.0), 10)
}

fn vertices(p: Places) -> Done<Vec<[f32; 3]>> {
    let all: Vec<[f32; 3]> = (0..p.count).map(|i| p.lists.map(|l| l[i])).collect();
    in_range(&all)?;
    Ok(all)
}

pub fn shape_ok(p: Places, t: Triangles) -> bool {
    places_ok(p) && one_set(&t.lists.map(|l| l.len()), LISTS_LIMIT) && t.count <= t.lists[0].len()
}

// The corners of each triangle: all vertices are tested, and the numbers that each triangle names.
pub fn corners(p: Places, t: Triangles) -> Done<Vec<[[f32; 3]; 3]>> {
    let vertices = vertices(p)?;
    let triangles: Vec<[usize; 3]> = (0..t.count).map(|i| t.lists.map(|l| l[i] as usize)).collect();
    need(triangles.iter().flatten().all(|&v| v < p.count), 10)?;
    Ok(triangles.into_iter().map(|numbers| numbers.map(|v| vertices[v])).collect())
}

fn area_of(p: Places, t: Triangles) -> Done<f32> {
    need(shape_ok(p, t), 2)?;
    let mut area = 0.0f32;
    for [v0, v1, v2] in corners(p, t)? {
        let e1 = [0, 1, 2].map(|i| v1[i] - v0[i]);
        let e2 = [0, 1, 2].map(|i| v2[i] - v0[i]);
        let cross = [e1[1] * e2[2] - e1[2] * e2[1], e1[2] * e2[0] - e1[0] * e2[2], e1[0] * e2[1] - e1[1] * e2[0]];
        area += 0.5 * (cross[0] * cross[0] + cross[1] * cross[1] + cross[2] * cross[2]).sqrt();
    }
    Ok(area)
}

pub fn surface_area(p: Places, t: Triangles, area: &mut f32) -> u32 {
    let told = area_of(p, t);
    *area = *told.as_ref().unwrap_or(&0.0);
    number(&told)
}

fn box_of(p: Places) -> Done<[[f32; 3]; 2]> {
    need(places_ok(p), 2)?;
    let all = vertices(p)?;
    need(!all.is_empty(), ABSENT)?;
    let (mut least, mut most) = (all[0], all[0]);
    for v in &all {
        for axis in 0..3 {
            least[axis] = smaller(least[axis], v[axis]);
            most[axis] = larger(most[axis], v[axis]);
        }
    }
    Ok([least, most])
}

pub fn bounding_box(p: Places, ends: &mut [[f32; 3]; 2]) -> u32 {
    let told = box_of(p);
    *ends = *told.as_ref().unwrap_or(&[[0.0; 3]; 2]);
    number(&told)
}

pub fn mesh_stats(normals: Places, has_normals: &mut u32) -> u32 {
    let told = need(places_ok(normals), 2).map(|()| (0..normals.count).any(|i| normals.lists.iter().any(|l| l[i] != 0.0)));
    *has_normals = (told == Ok(true)) as u32;
    number(&told)
}
