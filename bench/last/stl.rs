// Document 02's No. 1: a mesh of 228,840 triangles written as STL and read back by the face, beside a plain writer and
// reader in Rust that make the same tests, once into the same lent lists, once into vectors of their own, as is more
// usual in Rust; then what a refusal costs beside an answer.
use super::{best, closed_in, last_settings, lent, over, shown, LONGEST};
use compare::face::FACE;
use compare::last::rows_nearest;
use compare::shape::{Places, Table, Triangles};
use std::hint::black_box;

const TRIANGLES: usize = 228_840;
const LONGEST_FILE: usize = 52_428_884;
const FARTHEST: f32 = 100_000_000.0;

// The plain writer and reader

fn one_length<T>(lists: &[&[T]; 3], most: usize) -> bool {
    lists.iter().all(|l| l.len() == lists[0].len()) && lists[0].len() <= most
}

fn within(x: f32) -> bool {
    x.abs() <= FARTHEST
}

// The vertices and triangles below their counts, tested.
type Tested<'a> = ([&'a [f32]; 3], [&'a [u32]; 3]);

fn tested<'a>(p: Places<'a>, t: Triangles<'a>) -> Result<Tested<'a>, u32> {
    if !one_length(&p.lists, LONGEST) || p.count > p.lists[0].len() {
        return Err(2);
    }
    if !one_length(&t.lists, LONGEST) || t.count > t.lists[0].len() {
        return Err(2);
    }
    let places = p.lists.map(|l| &l[..p.count]);
    let numbers = t.lists.map(|l| &l[..t.count]);
    if places.iter().any(|l| l.iter().any(|&x| !within(x))) {
        return Err(10);
    }
    if numbers.iter().any(|l| l.iter().any(|&v| v as usize >= p.count)) {
        return Err(10);
    }
    Ok((places, numbers))
}

fn write(p: Places, t: Triangles, file: &mut [u8]) -> Result<usize, u32> {
    if file.len() > LONGEST_FILE {
        return Err(2);
    }
    let (places, numbers) = tested(p, t)?;
    let length = 84 + 50 * t.count;
    if length > file.len() {
        return Err(6);
    }
    let (used, rest) = file.split_at_mut(length);
    used[..80].fill(0);
    used[80..84].copy_from_slice(&(t.count as u32).to_le_bytes());
    for (i, facet) in used[84..].chunks_exact_mut(50).enumerate() {
        facet[..12].fill(0);
        for corner in 0..3 {
            let v = numbers[corner][i] as usize;
            for axis in 0..3 {
                let at = 12 + 12 * corner + 4 * axis;
                facet[at..at + 4].copy_from_slice(&places[axis][v].to_le_bytes());
            }
        }
        facet[48..].fill(0);
    }
    rest.fill(0);
    Ok(length)
}

fn write_vector(p: Places, t: Triangles) -> Result<Vec<u8>, u32> {
    let (places, numbers) = tested(p, t)?;
    let mut file = Vec::with_capacity(84 + 50 * t.count);
    file.extend_from_slice(&[0; 80]);
    file.extend_from_slice(&(t.count as u32).to_le_bytes());
    for i in 0..t.count {
        file.extend_from_slice(&[0; 12]);
        for list in numbers {
            let v = list[i] as usize;
            for axis in places {
                file.extend_from_slice(&axis[v].to_le_bytes());
            }
        }
        file.extend_from_slice(&[0; 2]);
    }
    Ok(file)
}

fn float_at(facet: &[u8], at: usize) -> f32 {
    f32::from_le_bytes(facet[at..at + 4].try_into().unwrap())
}

// The triangles of a file, 50 bytes each, tested.
fn facets(file: &[u8]) -> Result<std::slice::ChunksExact<'_, u8>, u32> {
    if file.len() > LONGEST_FILE {
        return Err(2);
    }
    if file.len() < 84 {
        return Err(11);
    }
    let count = u32::from_le_bytes(file[80..84].try_into().unwrap()) as usize;
    if file.len() != 84 + 50 * count {
        return Err(11);
    }
    let facets = file[84..].chunks_exact(50);
    if facets.clone().any(|facet| (12..48).step_by(4).any(|at| !within(float_at(facet, at)))) {
        return Err(10);
    }
    Ok(facets)
}

fn read(file: &[u8], places: &mut [&mut [f32]; 3]) -> Result<usize, u32> {
    let room = places[0].len();
    if room > LONGEST || places.iter().any(|l| l.len() != room) {
        return Err(2);
    }
    let facets = facets(file)?;
    let count = facets.len();
    if 3 * count > room {
        return Err(6);
    }
    for (i, facet) in facets.enumerate() {
        for corner in 0..3 {
            for axis in 0..3 {
                places[axis][3 * i + corner] = float_at(facet, 12 + 12 * corner + 4 * axis);
            }
        }
    }
    places.iter_mut().for_each(|l| l[3 * count..].fill(0.0));
    Ok(3 * count)
}

fn read_vectors(file: &[u8]) -> Result<[Vec<f32>; 3], u32> {
    let facets = facets(file)?;
    let mut places = [0; 3].map(|_| Vec::with_capacity(3 * facets.len()));
    for facet in facets {
        for corner in 0..3 {
            for (axis, list) in places.iter_mut().enumerate() {
                list.push(float_at(facet, 12 + 12 * corner + 4 * axis));
            }
        }
    }
    Ok(places)
}

// Refused, what is lent is zero.
fn plain_write(p: Places, t: Triangles, file: &mut [u8], written: &mut usize) -> u32 {
    let done = write(p, t, file);
    *written = *done.as_ref().unwrap_or(&0);
    done.map_or_else(
        |n| {
            file.fill(0);
            n
        },
        |_| 0,
    )
}

fn plain_read(file: &[u8], mut places: [&mut [f32]; 3], vertices: &mut usize) -> u32 {
    let done = read(file, &mut places);
    *vertices = *done.as_ref().unwrap_or(&0);
    done.map_or_else(
        |n| {
            places.iter_mut().for_each(|l| l.fill(0.0));
            n
        },
        |_| 0,
    )
}

// The mesh: three closed lasts of 65,536 rows side by side, as far as the triangles go
struct Mesh {
    places: [Vec<f32>; 3],
    numbers: [Vec<u32>; 3],
}

fn lasts() -> Mesh {
    let (keys, distances) = rows_nearest(65_536);
    let weights = vec![1.0; keys.len()];
    let mut lists = lent();
    let rows = Table { keys: &keys, distances: &distances, weights: &weights, count: keys.len() };
    let (_, answer, vertices, triangles) = closed_in(FACE.extract_closed_mesh, &mut lists, last_settings(), rows, LONGEST);
    assert!(answer == 0 && 3 * triangles >= TRIANGLES, "answer {answer}, {triangles} triangles");
    let side_by_side = |axis: usize| {
        let moved = |n: usize| lists.parts[axis][..vertices].iter().map(move |x| if axis == 1 { x + 0.1 * n as f32 } else { *x });
        (0..3).flat_map(moved).collect::<Vec<f32>>()
    };
    let renumbered = |corner: usize| {
        let moved = |n: usize| lists.corners[corner][..triangles].iter().map(move |v| v + (n * vertices) as u32);
        (0..3).flat_map(moved).take(TRIANGLES).collect::<Vec<u32>>()
    };
    Mesh { places: [0, 1, 2].map(side_by_side), numbers: [0, 1, 2].map(renumbered) }
}

type Write = fn(Places, Triangles, &mut [u8], &mut usize) -> u32;
type Read = fn(&[u8], [&mut [f32]; 3], &mut usize) -> u32;

impl Mesh {
    fn places(&self) -> Places<'_> {
        Places { lists: self.places.each_ref().map(|l| &l[..]), count: self.places[0].len() }
    }

    fn triangles(&self) -> Triangles<'_> {
        Triangles { lists: self.numbers.each_ref().map(|l| &l[..]), count: self.numbers[0].len() }
    }

    // Milliseconds that writing takes; the answer and the length must be these.
    fn written(&self, by: Write, file: &mut [u8], meant: (u32, usize)) -> f64 {
        best(|| {
            let mut length = 7;
            let answer = by(self.places(), self.triangles(), file, &mut length);
            assert!((answer, length) == meant, "written: answer {answer}, {length} bytes");
        })
    }
}

fn read_by(by: Read, file: &[u8], lists: &mut [Vec<f32>; 3], room: usize, meant: (u32, usize)) -> f64 {
    best(|| {
        let [px, py, pz] = &mut *lists;
        let mut vertices = 7;
        let answer = by(file, [&mut px[..room], &mut py[..room], &mut pz[..room]], &mut vertices);
        assert!((answer, vertices) == meant, "read: answer {answer}, {vertices} vertices");
    })
}

fn told(what: &str, vectors: Option<f64>, rust: f64, face: f64) {
    let (rust, face) = (Some(rust), Some(face));
    println!("| {what} | {} | {} | {} | {} | {} |", shown(vectors), shown(rust), shown(face), over(face, vectors), over(face, rust));
}

// What each refusal costs, the face and the plain Rust.
fn refusals(mesh: &mut Mesh, file: &mut [u8], lists: &mut [Vec<f32>; 3]) {
    let (length, corners) = (file.len(), 3 * TRIANGLES);
    let sides: [(Write, Read); 2] = [(plain_write, plain_read), (FACE.export_mesh_stl, FACE.import_mesh_stl)];
    let both = |what: &str, mut run: Box<dyn FnMut((Write, Read)) -> f64 + '_>| {
        let [rust, face] = sides.map(|side| run(side));
        told(what, None, rust, face);
    };
    both("read, the last coordinate infinite: 10", Box::new(|side| {
        let end: [u8; 4] = file[length - 6..length - 2].try_into().unwrap();
        file[length - 6..length - 2].copy_from_slice(&f32::INFINITY.to_le_bytes());
        let ms = read_by(side.1, file, lists, corners, (10, 0));
        file[length - 6..length - 2].copy_from_slice(&end);
        ms
    }));
    both("read, a place too few: 6", Box::new(|side| read_by(side.1, file, lists, corners - 1, (6, 0))));
    both("read, a byte too few: 11", Box::new(|side| read_by(side.1, &file[..length - 1], lists, corners, (11, 0))));
    both("read, lists too long: 2", Box::new(|side| read_by(side.1, file, &mut [0; 3].map(|_| vec![0.0; LONGEST + 1]), LONGEST + 1, (2, 0))));
    let last = mesh.places[2].len() - 1;
    both("written, the last vertex infinite: 10", Box::new(|side| {
        let z = std::mem::replace(&mut mesh.places[2][last], f32::INFINITY);
        let ms = mesh.written(side.0, file, (10, 0));
        mesh.places[2][last] = z;
        ms
    }));
    both("written, the last number too large: 10", Box::new(|side| {
        let v = std::mem::replace(&mut mesh.numbers[2][TRIANGLES - 1], last as u32 + 1);
        let ms = mesh.written(side.0, file, (10, 0));
        mesh.numbers[2][TRIANGLES - 1] = v;
        ms
    }));
    both("written, a byte too few: 6", Box::new(|side| mesh.written(side.0, &mut file[..length - 1], (6, 0))));
    let mut longer = vec![0; LONGEST_FILE + 1];
    both("written, the file too long: 2", Box::new(|side| mesh.written(side.0, &mut longer, (2, 0))));
}

pub fn tell() {
    let mut mesh = lasts();
    let (length, corners) = (84 + 50 * TRIANGLES, 3 * TRIANGLES);
    let [mut by_rust, mut file] = [0; 2].map(|_| vec![0; length]);
    let mut vector = Vec::new();
    let vectors = best(|| vector = black_box(write_vector(mesh.places(), mesh.triangles())).unwrap());
    let rust = mesh.written(plain_write, &mut by_rust, (0, length));
    let face = mesh.written(FACE.export_mesh_stl, &mut file, (0, length));
    assert!(by_rust == file && vector == file, "the files differ");
    println!("A file of {TRIANGLES} triangles over {} vertices; plain Rust into vectors of its own, and into the lists that the face is lent", mesh.places[0].len());
    println!("| STL | vectors, ms | lent lists, ms | the face, ms | face / vectors | face / lent |");
    println!("|---|---|---|---|---|---|");
    told(&format!("written, {length} bytes"), Some(vectors), rust, face);
    let [mut lists_of_rust, mut lists] = [0; 2].map(|_| [0; 3].map(|_| vec![0.0; corners]));
    let mut own = [0; 3].map(|_| Vec::new());
    let vectors = best(|| own = black_box(read_vectors(&file)).unwrap());
    let rust = read_by(plain_read, &file, &mut lists_of_rust, corners, (0, corners));
    let face = read_by(FACE.import_mesh_stl, &file, &mut lists, corners, (0, corners));
    assert!(lists_of_rust == lists && own == lists, "the readers differ");
    told(&format!("read, {corners} vertices"), Some(vectors), rust, face);
    refusals(&mut mesh, &mut file, &mut lists);
}
