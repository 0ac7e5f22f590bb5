// compare closed: the plain reading of document 02's No. 14 and of the turned mesh by itself, without the C face: that a ball and a last close (every side belongs
// to two triangles, the Euler characteristic is 2, the enclosed volume is the body's within a bound), how many sides stand open where cells are missing, and
// over random cases that a side belongs to as many triangles as its place says. Of the turned mesh, that through each side of two triangles one runs one way
// and one the other, that each triangle looks outwards, and that the volume is the body's with its sign.
use crate::case::Case;
use crate::last;
use crate::make::{accepted, for_closed_mesh};
use crate::plain::closed::{closed, Closed};
use crate::plain::keys::key_of;
use crate::plain::table::{edges, rows_of, Row};
use crate::plain::turned::turned;
use crate::rng::Rng;
use crate::shape::Settings;
use crate::sides::{determinant, sides_of, unordered, Directions, Field, Kinds, Side};
use std::collections::{BTreeMap, VecDeque};
use std::f64::consts::PI;

const SETTINGS: Settings = Settings { truncation: 1.0, max_weight: 100.0, voxel_size: last::SIZE, max_distance: 0.0 };

// Sides

// Each side, and the numbers of the triangles that it belongs to.
fn sides(m: &Closed) -> BTreeMap<Side, Vec<usize>> {
    let mut all: BTreeMap<Side, Vec<usize>> = BTreeMap::new();
    for (i, &t) in m.triangles.iter().enumerate() {
        sides_of(t).into_iter().for_each(|s| all.entry(unordered(s)).or_default().push(i));
    }
    all
}

// The request's sentence: inside a tetrahedron, or on a face of two, a side belongs to exactly two triangles; on a face of one it stands open.
fn misplaced(m: &Closed, field: &Field, sides: &BTreeMap<Side, Vec<usize>>) -> usize {
    sides.iter().filter(|(&s, t)| field.triangles_at(&m.edges, s) != t.len()).count()
}

// Pieces, and the volume within

// The side as a triangle walks along it.
fn walked(t: [u32; 3], s: Side) -> Side {
    sides_of(t).into_iter().find(|&w| unordered(w) == s).unwrap()
}

// Every triangle turned so that the two of a side walk along it in opposite directions, piece by piece; None where that cannot be.
fn turned_alike(m: &Closed, sides: &BTreeMap<Side, Vec<usize>>) -> Option<Vec<Vec<[u32; 3]>>> {
    let mut way: Vec<Option<[u32; 3]>> = vec![None; m.triangles.len()];
    let mut pieces = Vec::new();
    for first in 0..m.triangles.len() {
        if way[first].is_some() {
            continue;
        }
        way[first] = Some(m.triangles[first]);
        let (mut piece, mut waiting) = (Vec::new(), VecDeque::from([first]));
        while let Some(i) = waiting.pop_front() {
            let t = way[i].unwrap();
            piece.push(t);
            for s in sides_of(t) {
                for &j in sides[&unordered(s)].iter().filter(|&&j| j != i) {
                    let other = way[j].unwrap_or_else(|| {
                        waiting.push_back(j);
                        let o = m.triangles[j];
                        if walked(o, unordered(s)) == s { [o[0], o[2], o[1]] } else { o }
                    });
                    if walked(other, unordered(s)) == s {
                        return None;
                    }
                    way[j] = Some(other);
                }
            }
        }
        pieces.push(piece);
    }
    Some(pieces)
}

// In cells, by the signed volumes of the tetrahedra to the first vertex: above 0 where the triangles look outwards.
fn signed_volume(m: &Closed, piece: &[[u32; 3]]) -> f64 {
    let at = |v: u32| m.vertices[v as usize].place.map(|x| x as f64 / last::SIZE as f64);
    let middle = at(piece[0][0]);
    let from = |v: u32| [0, 1, 2].map(|i| at(v)[i] - middle[i]);
    piece.iter().map(|t| determinant(t.map(from))).sum::<f64>() / 6.0
}

// What is counted of a mesh, and of the same mesh turned

struct Counted {
    open: usize,
    shared: usize,
    crowded: usize,
    misplaced: usize,
    euler: i64,
    // none where the triangles cannot be turned alike
    volumes: Option<Vec<f64>>,
    directions: Directions,
    turned_volume: f64,
}

fn counted(m: &Closed, rows: &[Row]) -> Counted {
    let (sides, field, turned) = (sides(m), Field::with(rows, m.tetrahedra.clone()), turned(SETTINGS, rows));
    let belong = |wanted: &dyn Fn(usize) -> bool| sides.values().filter(|t| wanted(t.len())).count();
    let mut directions = Directions::default();
    directions.add(&field, &turned.edges, &turned.triangles);
    Counted {
        open: belong(&|n| n == 1),
        shared: belong(&|n| n == 2),
        crowded: belong(&|n| n > 2),
        misplaced: misplaced(m, &field, &sides),
        euler: m.edges.len() as i64 - sides.len() as i64 + m.triangles.len() as i64,
        volumes: turned_alike(m, &sides).map(|pieces| pieces.iter().map(|p| signed_volume(m, p).abs()).collect()),
        directions,
        turned_volume: signed_volume(&turned, &turned.triangles),
    }
}

fn tell(what: &str, rows: usize, m: &Closed, c: &Counted) {
    println!("{what}: {rows} rows, {} tetrahedra, {} vertices, {} triangles", m.tetrahedra.len(), m.vertices.len(), m.triangles.len());
    println!("  sides of two triangles {}, open {}, of more {}, not as placed {}; Euler characteristic {}", c.shared, c.open, c.crowded, c.misplaced, c.euler);
    println!("  turned: {}", c.directions.told());
}

// Fields

fn made(rows: &[(u64, f32)]) -> Vec<Row> {
    rows.iter().map(|&(key, distance)| Row { key, distance, weight: 1.0 }).collect()
}

fn ball(radius: f64, truncation: f64) -> Vec<(u64, f32)> {
    let far = (radius + truncation) as i64 + 1;
    let mut rows = Vec::new();
    for x in -far..=far {
        for y in -far..=far {
            for z in -far..=far {
                let d = ((x * x + y * y + z * z) as f64).sqrt() - radius;
                if (x - y) % 2 == 0 && (y - z) % 2 == 0 && d.abs() <= truncation {
                    let [x, y, z] = [x, y, z].map(|v| (v + 1_000) as u16);
                    rows.push((key_of(last::HEAD, x, y, z), (d * last::SIZE as f64) as f32));
                }
            }
        }
    }
    rows.sort_unstable_by_key(|r| r.0);
    rows
}

fn of_last(scale: f64, truncation: f64) -> Vec<(u64, f32)> {
    let (keys, distances) = last::rows(scale, truncation);
    keys.into_iter().zip(distances).collect()
}

fn ball_volume(radius: f64) -> f64 {
    4.0 / 3.0 * PI * radius * radius * radius
}

// The mesh is where the distance, drawn straight within each tetrahedron, is zero. A tetrahedron lies in a ball of radius root of 5 over 2, and the distance
// bends by at most 1 / (radius - 2) within 2 cells of the surface, so that the straight one is at most half of 5/4 of that too large, and never too small.
fn least_ball(radius: f64) -> f64 {
    let sunk = 0.625 / (radius - 2.0);
    ((radius - sunk) / radius).powi(3)
}

// The last's distance is straight neither at the rings where its ends begin, nor along its rise: a bound that is measured, not derived.
const LAST_WITHIN: f64 = 0.05;

// Where no cell lies on the surface and the band is wide enough, crossing by sides is crossing by product: the edges are those of document 01, which the
// Rust judges.
fn edges_of_document_01(rows: &[Row], m: &Closed) -> bool {
    rows.iter().any(|r| r.distance == 0.0) || edges(rows) == m.edges
}

// Closed, in one piece, and within these parts of the true volume, turned too.
fn closes(all: &mut Directions, what: &str, rows: &[(u64, f32)], truth: f64, least: f64, most: f64) -> bool {
    let rows = made(rows);
    let m = closed(SETTINGS, &rows);
    let c = counted(&m, &rows);
    tell(what, rows.len(), &m, &c);
    all.plus(&c.directions);
    if !edges_of_document_01(&rows, &m) {
        println!("  its edges are not those of document 01's mesh: NOT SO");
        return false;
    }
    let Some(volumes) = &c.volumes else {
        println!("  its triangles cannot be turned alike: NOT SO");
        return false;
    };
    let within = |volume: f64| volume >= least * truth && volume <= most * truth;
    let whole = c.open == 0 && c.crowded == 0 && c.misplaced == 0 && c.euler == 2 && volumes.len() == 1;
    let so = whole && within(volumes[0]) && c.directions.failures() == 0 && within(c.turned_volume);
    println!(
        "  pieces {}, volume {:.1} cells, turned {:+.1}, {:.4} of the body's {truth:.1} (from {least:.4} to {most:.4}): {}",
        volumes.len(),
        volumes.iter().sum::<f64>(),
        c.turned_volume,
        c.turned_volume / truth,
        if so { "closed" } else { "NOT SO" }
    );
    so
}

// With cells missing sides stand open, and only those on a face of a single tetrahedron; the others are run through once each way.
fn opens(all: &mut Directions, what: &str, rows: &[(u64, f32)]) -> bool {
    let rows = made(rows);
    let m = closed(SETTINGS, &rows);
    let c = counted(&m, &rows);
    tell(what, rows.len(), &m, &c);
    all.plus(&c.directions);
    c.open > 0 && c.misplaced == 0 && c.directions.failures() == 0
}

fn without_some(rows: Vec<(u64, f32)>, seldom: usize) -> Vec<(u64, f32)> {
    let mut r = Rng::new(1, "holes");
    rows.into_iter().filter(|_| !r.one_in(seldom)).collect()
}

// Readings off by at most so many cells; of those a host stores what it reads within the truncation.
fn noisy(scale: f64, off: f64, truncation: f64) -> Vec<(u64, f32)> {
    let mut r = Rng::new(1, "noise");
    let size = last::SIZE as f64;
    let read = of_last(scale, truncation + off).into_iter().map(|(key, d)| (key, d as f64 + (2.0 * r.unit() as f64 - 1.0) * off * size));
    read.filter(|row| row.1.abs() <= truncation * size).map(|(key, d)| (key, d as f32)).collect()
}

// What random cases hold, added up.
#[derive(Default)]
struct Held {
    accepted: usize,
    meshed: usize,
    closed: usize,
    // those with triangles
    kinds: Kinds,
    // rooms for edges, vertices, triangles: exactly enough, and one too few
    enough: [usize; 3],
    short: [usize; 3],
    shared: usize,
    open: usize,
    misplaced: usize,
    // more edges or triangles to a row than the header says
    crowded: usize,
    directions: Directions,
}

impl Held {
    fn add(&mut self, c: &Case) {
        let rows = rows_of(c.table());
        let m = closed(c.settings(), &rows);
        let turned = turned(c.settings(), &rows);
        let (sides, field) = (sides(&m), Field::with(&rows, m.tetrahedra.clone()));
        let open = sides.values().filter(|t| t.len() == 1).count();
        self.accepted += 1;
        for (i, needed) in [m.edges.len(), m.vertices.len(), m.triangles.len()].into_iter().enumerate() {
            let room = c.rooms[[0, 2, 8][i]];
            self.enough[i] += (needed > 0 && room == needed) as usize;
            self.short[i] += (room + 1 == needed) as usize;
        }
        self.shared += sides.len() - open;
        self.open += open;
        self.misplaced += misplaced(&m, &field, &sides);
        self.directions.add(&field, &turned.edges, &turned.triangles);
        self.crowded += (m.edges.len() > 7 * rows.len() || m.triangles.len() > 12 * rows.len()) as usize;
        if !m.triangles.is_empty() {
            self.meshed += 1;
            self.closed += (open == 0) as usize;
            self.kinds.add(&rows, &m.edges);
        }
    }

    fn tell(&self, cases: usize) {
        println!("{cases} random cases, {} accepted, {} with triangles, {} of them closed:", self.accepted, self.meshed, self.closed);
        println!("  {}", self.kinds.told());
        println!("  rooms for edges, vertices, triangles exactly enough {:?}, one too few {:?}", self.enough, self.short);
        println!("  sides of two triangles {}, open {}, not as placed {}; more than 7 edges or 12 triangles a row: {}", self.shared, self.open, self.misplaced, self.crowded);
        println!("  turned: {}", self.directions.told());
    }
}

// The request's sentence over random cases.
fn at_random(all: &mut Directions, cases: usize) -> bool {
    let mut r = Rng::new(1, "closing");
    let mut held = Held::default();
    for _ in 0..cases {
        let c = for_closed_mesh(&mut r);
        if accepted(&c) {
            held.add(&c);
        }
    }
    held.tell(cases);
    all.plus(&held.directions);
    held.misplaced == 0 && held.crowded == 0 && held.closed > 0 && held.open > 0 && held.directions.failures() == 0
}

// Whether all is so.
pub fn run() -> bool {
    let (mut so, mut all) = (true, Directions::default());
    for (radius, truncation) in [(4.5, 2.2), (8.0, 2.0), (8.0, 2.2), (8.0, 3.5), (12.3, 2.2)] {
        let what = format!("a ball of radius {radius} cells, within {truncation} of its surface");
        so &= closes(&mut all, &what, &ball(radius, truncation), ball_volume(radius), least_ball(radius), 1.0);
    }
    for (scale, truncation) in [(0.2, 2.2), (0.3, 2.0), (0.3, 2.2), (0.3, 4.0)] {
        let what = format!("a last {:.1} cells long, within {truncation} of its surface", last::length(scale));
        so &= closes(&mut all, &what, &of_last(scale, truncation), last::volume(scale), 1.0 - LAST_WITHIN, 1.0 + LAST_WITHIN);
    }
    let noisy_last = "the last of scale 0.3, read to 0.1 cells, within";
    so &= closes(&mut all, &format!("{noisy_last} 2.2 of its surface"), &noisy(0.3, 0.1, 2.2), last::volume(0.3), 1.0 - LAST_WITHIN, 1.0 + LAST_WITHIN);
    so &= opens(&mut all, &format!("{noisy_last} 2 only"), &noisy(0.3, 0.1, 2.0));
    so &= opens(&mut all, "the ball of radius 8 without every 50th row or so", &without_some(ball(8.0, 2.2), 50));
    so &= opens(&mut all, "the ball of radius 8, within 1.5 of its surface only", &ball(8.0, 1.5));
    so &= opens(&mut all, "the last of scale 0.3, within 1.98 of its surface only", &of_last(0.3, 1.98));
    so &= opens(&mut all, "the last of scale 0.3 without every 200th row or so", &without_some(of_last(0.3, 2.2), 200));
    so &= at_random(&mut all, 3_000);
    println!("turned in all: {}", all.told());
    println!("closed: {}", if so { "all as said" } else { "NOT AS SAID" });
    so
}
