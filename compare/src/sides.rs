// Sides of triangles by their vertex numbers: where document 02's No. 14 says that a side lies, to how many triangles it
// belongs there, and in which directions they run through it. All of it is judged from a table's rows and from lists of
// edges and triangles, whoever filled them; how the plain reading turns a triangle is not used.
use crate::plain::closed::{tetrahedra, Tetrahedron};
use crate::plain::keys::{coords_of, head_of};
use crate::plain::table::Row;
use std::collections::{BTreeMap, BTreeSet};
use std::ops::{Add, Mul, Sub};

pub type Side = (u32, u32);

pub fn sides_of(t: [u32; 3]) -> [Side; 3] {
    [(t[0], t[1]), (t[1], t[2]), (t[2], t[0])]
}

pub fn unordered(s: Side) -> Side {
    (s.0.min(s.1), s.0.max(s.1))
}

// The cells of a table that lie inside, its tetrahedra, and how many of these have each face.
pub struct Field {
    inside: BTreeSet<u64>,
    tetrahedra: BTreeSet<Tetrahedron>,
    faces: BTreeMap<[u64; 3], usize>,
}

impl Field {
    pub fn of(rows: &[Row]) -> Field {
        Field::with(rows, tetrahedra(rows))
    }

    pub fn with(rows: &[Row], tetrahedra: Vec<Tetrahedron>) -> Field {
        let mut faces = BTreeMap::new();
        for [a, b, c, d] in &tetrahedra {
            for face in [[*a, *b, *c], [*a, *b, *d], [*a, *c, *d], [*b, *c, *d]] {
                *faces.entry(face).or_default() += 1;
            }
        }
        let inside = rows.iter().filter(|r| r.distance < 0.0).map(|r| r.key).collect();
        Field { inside, tetrahedra: tetrahedra.into_iter().collect(), faces }
    }

    // To how many triangles a side belongs by the request, by the corners of its two crossed edges: three are a face, four
    // lie inside. Inside a tetrahedron and on a face of two to two, on a face of one to one, anywhere else to none.
    pub fn triangles_at(&self, edges: &[(u64, u64)], s: Side) -> usize {
        let (u, v) = (edges[s.0 as usize], edges[s.1 as usize]);
        let corners: Vec<u64> = BTreeSet::from([u.0, u.1, v.0, v.1]).into_iter().collect();
        match corners[..] {
            [a, b, c] => self.faces.get(&[a, b, c]).copied().unwrap_or(0),
            [a, b, c, d] if self.tetrahedra.contains(&[a, b, c, d]) => 2,
            _ => 0,
        }
    }

    // Whether a triangle's corners turn to the left, seen from outside: the plane through the middles of its three edges has
    // their outside ends before it and the inside ones behind. In doubled coordinates all of these are whole numbers.
    fn looks_outwards(&self, edges: &[(u64, u64)], t: [u32; 3]) -> bool {
        let at = |key: u64| coords_of(key).map(|v| v as i64);
        let ends = t.map(|v| edges[v as usize]);
        let [a, b, c] = ends.map(|e| [0, 1, 2].map(|axis| at(e.0)[axis] + at(e.1)[axis]));
        let before = |key: u64| determinant([b, c, at(key).map(|v| 2 * v)].map(|p| [0, 1, 2].map(|axis| p[axis] - a[axis])));
        ends.into_iter().flat_map(|e| [e.0, e.1]).all(|key| before(key).signum() == if self.inside.contains(&key) { -1 } else { 1 })
    }
}

pub fn determinant<T: Copy + Add<Output = T> + Sub<Output = T> + Mul<Output = T>>([a, b, c]: [[T; 3]; 3]) -> T {
    a[0] * (b[1] * c[2] - b[2] * c[1]) + a[1] * (b[2] * c[0] - b[0] * c[2]) + a[2] * (b[0] * c[1] - b[1] * c[0])
}

// What is counted of directions; nothing is said of sides at an open border.
#[derive(Default)]
pub struct Directions {
    // sides of two triangles, and of those the ones that are not run through exactly once each way
    sides: usize,
    not_so: usize,
    open: usize,
    triangles: usize,
    inwards: usize,
    // triangles that name no vertex, or have a side where none can be: of these nothing else is counted
    astray: usize,
}

impl Directions {
    pub fn add(&mut self, field: &Field, edges: &[(u64, u64)], triangles: &[[u32; 3]]) {
        let mut runs: BTreeMap<Side, [usize; 2]> = BTreeMap::new();
        for &t in triangles {
            self.triangles += 1;
            if t.iter().any(|&v| v as usize >= edges.len()) || sides_of(t).iter().any(|&s| field.triangles_at(edges, s) == 0) {
                self.astray += 1;
                continue;
            }
            self.inwards += !field.looks_outwards(edges, t) as usize;
            sides_of(t).into_iter().for_each(|s| runs.entry(unordered(s)).or_default()[(s.0 > s.1) as usize] += 1);
        }
        for (s, ways) in runs {
            let shared = field.triangles_at(edges, s) == 2;
            self.sides += shared as usize;
            self.not_so += (shared && ways != [1, 1]) as usize;
            self.open += !shared as usize;
        }
    }

    pub fn plus(&mut self, other: &Directions) {
        self.sides += other.sides;
        self.not_so += other.not_so;
        self.open += other.open;
        self.triangles += other.triangles;
        self.inwards += other.inwards;
        self.astray += other.astray;
    }

    pub fn failures(&self) -> usize {
        self.not_so + self.inwards + self.astray
    }

    pub fn told(&self) -> String {
        let Directions { sides, not_so, open, triangles, inwards, astray } = self;
        let ways = format!("{sides} sides of two triangles, {not_so} not run through once each way");
        format!("{ways}, {open} open; {triangles} triangles, {inwards} inwards, {astray} astray")
    }
}

// What fields with triangles hold: cells at the border, zeros of either sign, weights of 0, several heads.
#[derive(Default)]
pub struct Kinds {
    bordering: usize,
    zeros: usize,
    light: usize,
    heads: usize,
}

fn at_border(key: u64) -> bool {
    coords_of(key).iter().any(|&v| v < 2 || v > 65_533)
}

fn heads(rows: &[Row]) -> usize {
    rows.iter().map(|r| head_of(r.key)).collect::<BTreeSet<_>>().len()
}

impl Kinds {
    pub fn add(&mut self, rows: &[Row], edges: &[(u64, u64)]) {
        self.bordering += edges.iter().any(|e| at_border(e.0) || at_border(e.1)) as usize;
        self.zeros += rows.iter().any(|r| r.distance == 0.0) as usize;
        self.light += rows.iter().any(|r| r.weight == 0.0) as usize;
        self.heads += (heads(rows) > 1) as usize;
    }

    pub fn told(&self) -> String {
        format!("at the border {}, with zeros {}, with weights 0 {}, under several heads {}", self.bordering, self.zeros, self.light, self.heads)
    }
}
