// Document 01's "Samples at the edges", and after them some of document 02's No. 14, of the turned mesh and of document 02's
// No. 1 and No. 2, held against a side.
// Truncation 1, maximum weight 100, size 1, confidence and weight 1 unless said.
use crate::calls::{self, Side};
use crate::case::{Case, Outcome};
use crate::plain::keys::{key_of, neighbours};
use crate::plain::{ABSENT, CHANGED, DONE, FAR, NEW};
use crate::shape::{Places, Triangles};
use std::collections::BTreeSet;

pub struct Sample {
    pub what: &'static str,
    // the calls that it needs
    pub calls: &'static [&'static str],
    pub holds: fn(&Side) -> bool,
}

const ROOT_OF_3: u64 = 0x3fdd_b3d7;

fn empty() -> Case {
    Case { settings: [1.0, 100.0, 1.0, 2.0], ..Case::default() }
}

fn at(x: u16, y: u16, z: u16) -> u64 {
    key_of(0, x, y, z)
}

fn rows(rows: &[(u64, f32)]) -> Case {
    let mut rows = rows.to_vec();
    rows.sort_unstable_by_key(|r| r.0);
    let (keys, distances): (Vec<u64>, Vec<f32>) = rows.into_iter().unzip();
    Case { weights: vec![1.0; keys.len()], count: keys.len(), keys, distances, ..empty() }
}

// Readings of one cell, (10,10,10), into a table with this many places: the answer to the last, and the first row.
fn fused(side: &Side, settings: [f32; 4], places: usize, readings: &[(f32, f32)]) -> (u32, u64, f32, f32) {
    let mut c = Case { settings, keys: vec![0; places], distances: vec![0.0; places], weights: vec![0.0; places], ..empty() };
    let mut answer = 0;
    for &(distance, confidence) in readings {
        c.key = at(10, 10, 10);
        c.reals[0] = distance;
        c.reals[1] = confidence;
        let o = calls::update_from_depth(side, &c);
        answer = o.answer.unwrap();
        c.count = o.numbers[0].1 as usize;
        c.keys = o.lists[0].1.clone();
        c.distances = o.lists[1].1.iter().map(|&b| f32::from_bits(b as u32)).collect();
        c.weights = o.lists[2].1.iter().map(|&b| f32::from_bits(b as u32)).collect();
    }
    (answer, c.count as u64, c.distances[0], c.weights[0])
}

// Readings (key, distance, confidence) as one batch into an empty table with this many places: the answer, the rows, then what was
// added, changed and far, and the reading that is named.
fn batched(side: &Side, places: usize, readings: &[(u64, f32, f32)]) -> (u32, [u64; 5]) {
    let o = calls::batch_update(
        side,
        &Case {
            keys: vec![0; places],
            distances: vec![0.0; places],
            weights: vec![0.0; places],
            batch_keys: readings.iter().map(|r| r.0).collect(),
            batch_distances: readings.iter().map(|r| r.1).collect(),
            batch_confidences: readings.iter().map(|r| r.2).collect(),
            ..empty()
        },
    );
    (o.answer.unwrap(), [0, 1, 2, 3, 4].map(|i| o.numbers[i].1))
}

fn edges(side: &Side, c: &Case) -> u64 {
    let o = calls::get_zero_crossing_edges(side, &Case { rooms: vec![64; 2], ..c.clone() });
    assert!(o.answer == Some(DONE));
    o.numbers[0].1
}

fn meshed(side: &Side, c: &Case, triangles: usize) -> Outcome {
    let mut rooms = vec![64; 9];
    rooms.extend([triangles; 3]);
    calls::extract_mesh_from_tsdf(side, &Case { rooms, ..c.clone() })
}

// The tetrahedron of (10,10,10), (12,10,10), (11,11,11) and (11,11,9), which rises by keys in the order (11,11,9), (10,10,10), (11,11,11), (12,10,10),
// with these distances in that order.
fn tetrahedron(distances: [f32; 4]) -> Case {
    let keys = [at(11, 11, 9), at(10, 10, 10), at(11, 11, 11), at(12, 10, 10)];
    rows(&[0, 1, 2, 3].map(|i| (keys[i], distances[i])))
}

// With places for so many triangles.
fn room_for(c: &Case, triangles: usize) -> Case {
    let mut rooms = vec![64; 8];
    rooms.extend([triangles; 3]);
    Case { rooms, ..c.clone() }
}

fn closed(side: &Side, c: &Case, triangles: usize) -> Outcome {
    calls::extract_closed_mesh(side, &room_for(c, triangles))
}

fn turned(side: &Side, c: &Case, triangles: usize) -> Outcome {
    calls::extract_turned_mesh(side, &room_for(c, triangles))
}

// Edges and triangles; none of either where the call is refused.
fn closed_counts(side: &Side, c: &Case) -> [u64; 2] {
    let o = closed(side, c, 64);
    [o.numbers[0].1, o.numbers[1].1]
}

// The vertex numbers of a triangle.
fn triangle(o: &Outcome, i: usize) -> [u64; 3] {
    [8, 9, 10].map(|l: usize| o.lists[l].1[i])
}

// One triangle, (1,2,3), (-0,0,smallest subnormal), (100000000,-100000000,0.5), and its file, written out.
const SUBNORMAL: f32 = f32::from_bits(1);
const CORNERS: [[f32; 3]; 3] = [[1.0, 2.0, 3.0], [-0.0, 0.0, SUBNORMAL], [1e8, -1e8, 0.5]];
const TRIANGLE: [u8; 54] = [
    1, 0, 0, 0, // the count
    0, 0, 0, 0, 0, 0, 0, 0, 0, 0, 0, 0, // the normal
    0, 0, 0x80, 0x3f, 0, 0, 0, 0x40, 0, 0, 0x40, 0x40, //
    0, 0, 0, 0x80, 0, 0, 0, 0, 1, 0, 0, 0, //
    0x20, 0xbc, 0xbe, 0x4c, 0x20, 0xbc, 0xbe, 0xcc, 0, 0, 0, 0x3f, //
    0, 0, // the attribute
];

fn triangle_file() -> Vec<u8> {
    [&[0; 80][..], &TRIANGLE[..]].concat()
}

// The three corners as vertices, and these triangles of them.
fn written(side: &Side, triangles: &[[u32; 3]], room: usize) -> (u32, usize, Vec<u8>) {
    let lists = [0, 1, 2].map(|axis: usize| CORNERS.map(|v| v[axis]));
    let numbers = [0, 1, 2].map(|corner: usize| triangles.iter().map(|t| t[corner]).collect::<Vec<_>>());
    let p = Places { lists: lists.each_ref().map(|l| &l[..]), count: 3 };
    let t = Triangles { lists: numbers.each_ref().map(|l| &l[..]), count: triangles.len() };
    let (mut file, mut length) = (vec![7; room], 7);
    let answer = (side.export_mesh_stl)(p, t, &mut file, &mut length);
    (answer, length, file)
}

// The answer and the vertices by their bits; every place is told.
fn read(side: &Side, file: &[u8], room: usize) -> (u32, usize, Vec<[u32; 3]>) {
    let ([mut px, mut py, mut pz], mut vertices) = ([0; 3].map(|_| vec![7.0; room]), 7);
    let answer = (side.import_mesh_stl)(file, [&mut px, &mut py, &mut pz], &mut vertices);
    (answer, vertices, (0..room).map(|i| [px[i], py[i], pz[i]].map(f32::to_bits)).collect())
}

// With these bytes from a place on.
fn changed(mut file: Vec<u8>, at: usize, bytes: &[u8]) -> Vec<u8> {
    file[at..at + bytes.len()].copy_from_slice(bytes);
    file
}

fn snap(side: &Side, at: [i32; 3]) -> [i32; 3] {
    let o = calls::snap_to_nearest_bcc(side, &Case { coords: at, ..Case::default() });
    [0, 1, 2].map(|i: usize| o.numbers[i].1 as u32 as i32)
}

// A march of one row 0, threshold 0.5: rows, takings, and how many rows read each of these.
fn marched(side: &Side, key: u64, maximum: f32, read: [u64; 2]) -> (u64, u64, usize, usize) {
    let mut c = rows(&[(key, 0.0)]);
    c.settings[3] = maximum;
    c.reals[0] = 0.5;
    c.rooms = vec![64; 4];
    let o = calls::compute_from_tsdf(side, &c);
    let count = |bits: u64| o.lists[1].1.iter().filter(|&&b| b == bits).count();
    (o.numbers[0].1, o.numbers[1].1, count(read[0]), count(read[1]))
}

fn surrounded() -> Case {
    let centre = at(10, 10, 10);
    let mut all = vec![(centre, -0.5)];
    all.extend(neighbours(centre).into_iter().map(|k| (k, 0.5)));
    rows(&all)
}

pub const SAMPLES: &[Sample] = &[
    Sample {
        what: "0.5 then -0.25: distance 0.125, weight 2",
        calls: &["akf_update_from_depth"],
        holds: |s| fused(s, [1.0, 100.0, 1.0, 2.0], 2, &[(0.5, 1.0), (-0.25, 1.0)]) == (CHANGED, 1, 0.125, 2.0),
    },
    Sample {
        what: "maximum weight 1, 0.5 twice: distance 1.0, weight 1",
        calls: &["akf_update_from_depth"],
        holds: |s| fused(s, [1.0, 1.0, 1.0, 2.0], 2, &[(0.5, 1.0), (0.5, 1.0)]) == (CHANGED, 1, 1.0, 1.0),
    },
    Sample {
        what: "reading 1.0 is stored; the next float above is Far, even with a full table",
        calls: &["akf_update_from_depth"],
        holds: |s| {
            let above = f32::from_bits(0x3f80_0001);
            let full = Case { key: at(12, 12, 12), reals: [above, 1.0, 0.0, 0.0, 0.0], ..rows(&[(at(10, 10, 10), 0.5)]) };
            fused(s, [1.0, 100.0, 1.0, 2.0], 1, &[(1.0, 1.0)]) == (NEW, 1, 1.0, 1.0)
                && fused(s, [1.0, 100.0, 1.0, 2.0], 1, &[(above, 1.0)]) == (FAR, 0, 0.0, 0.0)
                && calls::update_from_depth(s, &full).answer == Some(FAR)
        },
    },
    Sample {
        what: "confidence 0, reading 0.25, new key: row (0.25, 0); no edge meanwhile",
        calls: &["akf_update_from_depth", "akf_get_zero_crossing_edges"],
        holds: |s| {
            let mut c = rows(&[(at(10, 10, 10), 0.25), (at(11, 11, 11), -0.25)]);
            c.weights[0] = 0.0;
            fused(s, [1.0, 100.0, 1.0, 2.0], 2, &[(0.25, 0.0)]) == (NEW, 1, 0.25, 0.0) && edges(s, &c) == 0
        },
    },
    Sample {
        what: "snap (5,6,7) gives (5,7,7); (4,5,6) gives (4,4,6); (-3,0,0) gives (-4,0,0)",
        calls: &["akf_snap_to_nearest_bcc"],
        holds: |s| snap(s, [5, 6, 7]) == [5, 7, 7] && snap(s, [4, 5, 6]) == [4, 4, 6] && snap(s, [-3, 0, 0]) == [-4, 0, 0],
    },
    Sample {
        what: "(10,10,10) at 0.25 and (11,11,11) at -0.25: one edge, vertex (10.5, 10.5, 10.5)",
        calls: &["akf_get_zero_crossing_edges", "akf_extract_mesh_from_tsdf"],
        holds: |s| {
            let c = rows(&[(at(10, 10, 10), 0.25), (at(11, 11, 11), -0.25)]);
            let m = meshed(s, &c, 64);
            edges(s, &c) == 1 && m.numbers[0].1 == 1 && (2..5).all(|l| m.lists[l].1[0] == 0x4128_0000)
        },
    },
    Sample {
        what: "the same at 1e-30 and -1e-30: no edge, the product is -0",
        calls: &["akf_get_zero_crossing_edges"],
        holds: |s| edges(s, &rows(&[(at(10, 10, 10), 1e-30), (at(11, 11, 11), -1e-30)])) == 0,
    },
    Sample {
        what: "root of 0.75 has bits 3F5DB3D7",
        calls: &["akf_root"],
        holds: |s| calls::root(s, &Case { reals: [0.75, 0.0, 0.0, 0.0, 0.0], ..Case::default() }).numbers[0].1 == 0x3f5d_b3d7,
    },
    Sample {
        what: "one seed 0 at (10,10,10), threshold 0.5, maximum 2: 15 rows, eight at the root of 3, six at 2, 14 takings; with 1.9 the six read 1.9",
        calls: &["akf_compute_from_tsdf"],
        holds: |s| {
            marched(s, at(10, 10, 10), 2.0, [ROOT_OF_3, 0x4000_0000]) == (15, 14, 8, 6)
                && marched(s, at(10, 10, 10), 1.9, [ROOT_OF_3, 1.9f32.to_bits() as u64]) == (15, 14, 8, 6)
        },
    },
    Sample {
        what: "the seed at (0,0,0), maximum 2: 5 rows, four at the root of 3, 4 takings",
        calls: &["akf_compute_from_tsdf"],
        holds: |s| marched(s, at(0, 0, 0), 2.0, [ROOT_OF_3, 0x4000_0000]) == (5, 4, 4, 0),
    },
    Sample {
        what: "a centre with all 14 neighbours of the other sign: 14 edges, 364 triangles; room 363 refuses with 6",
        calls: &["akf_extract_mesh_from_tsdf"],
        holds: |s| {
            let c = surrounded();
            let (m, refused) = (meshed(s, &c, 364), meshed(s, &c, 363));
            m.answer == Some(DONE) && m.numbers[0].1 == 14 && m.numbers[1].1 == 364 && refused.answer == Some(6)
        },
    },
    Sample {
        what: "maximum weight 1e-38, truncation 10, reading 10 twice: the second refuses with 7",
        calls: &["akf_update_from_depth"],
        holds: |s| fused(s, [10.0, 1e-38, 1.0, 2.0], 2, &[(10.0, 1.0), (10.0, 1.0)]) == (7, 1, 10.0, 1e-38),
    },
    Sample {
        what: "empty table: no edges, empty mesh, empty march, no box",
        calls: &["akf_get_zero_crossing_edges", "akf_extract_mesh_from_tsdf", "akf_compute_from_tsdf", "akf_bounding_box"],
        holds: |s| {
            let m = meshed(s, &empty(), 4);
            let march = calls::compute_from_tsdf(s, &Case { rooms: vec![4; 4], ..empty() });
            edges(s, &empty()) == 0
                && m.answer == Some(DONE)
                && m.numbers.iter().chain(&march.numbers).all(|n| n.1 == 0)
                && march.answer == Some(DONE)
                && calls::bounding_box(s, &empty()).answer == Some(ABSENT)
        },
    },
    Sample {
        what: "a tetrahedron with one corner inside, or one outside: 3 edges, a triangle of vertices 0, 1, 2",
        calls: &["akf_extract_closed_mesh"],
        holds: |s| {
            [[-0.5, 0.5, 0.5, 0.5], [0.5, 0.5, -0.5, 0.5], [-0.5, 0.5, -0.5, -0.5]].into_iter().all(|d| {
                let c = tetrahedron(d);
                closed_counts(s, &c) == [3, 1] && triangle(&closed(s, &c, 1), 0) == [0, 1, 2]
            })
        },
    },
    Sample {
        what: "two corners inside: 4 edges, triangles (1, 0, 3) and (1, 3, 2); room for one refuses with 6",
        calls: &["akf_extract_closed_mesh"],
        holds: |s| {
            let c = tetrahedron([-0.5, -0.5, 0.5, 0.5]);
            let m = closed(s, &c, 2);
            closed_counts(s, &c) == [4, 2] && triangle(&m, 0) == [1, 0, 3] && triangle(&m, 1) == [1, 3, 2] && closed(s, &c, 1).answer == Some(6)
        },
    },
    Sample {
        what: "zeros of both signs are outside; a crossing by 1e-30 counts, its vertex in the middle",
        calls: &["akf_extract_closed_mesh"],
        holds: |s| {
            let tiny = closed(s, &tetrahedron([1e-30, -1e-30, 1e-30, 1e-30]), 1);
            closed_counts(s, &tetrahedron([0.0, -0.0, 0.0, 0.5])) == [0, 0]
                && closed_counts(s, &tetrahedron([-0.0, -0.5, 0.0, -0.0])) == [3, 1]
                && tiny.numbers[0].1 == 3
                // between (10,10,10) and (11,11,11), the first neighbour: second in the list, after (11,11,9) and (10,10,10)
                && (2..5).all(|l| tiny.lists[l].1[1] == 0x4128_0000)
        },
    },
    Sample {
        what: "a corner of weight 0, and one that is missing, leave no tetrahedron and no vertex",
        calls: &["akf_extract_closed_mesh"],
        holds: |s| {
            let mut light = tetrahedron([-0.5, 0.5, 0.5, 0.5]);
            light.weights[3] = 0.0;
            let mut fewer = tetrahedron([-0.5, 0.5, 0.5, 0.5]);
            fewer.count = 3;
            closed_counts(s, &light) == [0, 0] && closed_counts(s, &fewer) == [0, 0]
        },
    },
    Sample {
        what: "a centre with all 14 neighbours on the other side: 14 edges, 24 triangles; room 23 refuses with 6",
        calls: &["akf_extract_closed_mesh"],
        holds: |s| {
            let refused = closed(s, &surrounded(), 23);
            closed_counts(s, &surrounded()) == [14, 24] && refused.answer == Some(6) && refused.numbers.iter().all(|n| n.1 == 0)
        },
    },
    Sample {
        what: "turned, that triangle is (0, 2, 1) where it looked inwards, and (0, 1, 2) where inside and outside are exchanged",
        calls: &["akf_extract_turned_mesh"],
        holds: |s| {
            [[-0.5, 0.5, 0.5, 0.5], [0.5, 0.5, -0.5, 0.5], [-0.5, 0.5, -0.5, -0.5]].into_iter().all(|d| {
                let other = d.map(|x: f32| -x);
                triangle(&turned(s, &tetrahedron(d), 1), 0) == [0, 2, 1] && triangle(&turned(s, &tetrahedron(other), 1), 0) == [0, 1, 2]
            })
        },
    },
    Sample {
        what: "turned, two corners inside: triangles (1, 3, 0) and (1, 2, 3); the other two inside: (1, 3, 2) and (1, 0, 3); room for one refuses with 6",
        calls: &["akf_extract_turned_mesh"],
        holds: |s| {
            let (c, other) = (tetrahedron([-0.5, -0.5, 0.5, 0.5]), tetrahedron([0.5, 0.5, -0.5, -0.5]));
            let (m, o) = (turned(s, &c, 2), turned(s, &other, 2));
            [triangle(&m, 0), triangle(&m, 1)] == [[1, 3, 0], [1, 2, 3]]
                && [triangle(&o, 0), triangle(&o, 1)] == [[1, 3, 2], [1, 0, 3]]
                && turned(s, &c, 1).answer == Some(6)
        },
    },
    Sample {
        what: "turned, by whole numbers: flat triangles, all corners at one place, turn as if they were not",
        calls: &["akf_extract_turned_mesh"],
        holds: |s| {
            // three edges run from (11,11,9), whose distance is 0: by the floats all three vertices stand there
            let flat = turned(s, &tetrahedron([0.0, -0.5, -0.5, -0.5]), 1);
            let small = turned(s, &tetrahedron([-1e-30, 0.0, -0.0, 0.0]), 1);
            (2..5).all(|l| flat.lists[l].1[0] == flat.lists[l].1[1] && flat.lists[l].1[1] == flat.lists[l].1[2])
                && triangle(&flat, 0) == [0, 1, 2]
                && triangle(&small, 0) == [0, 2, 1]
        },
    },
    Sample {
        what: "turned, a centre with all 14 neighbours on the other side: each of 36 sides is run through once each way; room 23 refuses with 6",
        calls: &["akf_extract_turned_mesh"],
        holds: |s| {
            let (m, refused) = (turned(s, &surrounded(), 24), turned(s, &surrounded(), 23));
            let runs: BTreeSet<[u64; 2]> = (0..24).map(|i| triangle(&m, i)).flat_map(|[a, b, c]| [[a, b], [b, c], [c, a]]).collect();
            m.numbers[1].1 == 24 && runs.len() == 72 && runs.iter().all(|&[u, v]| runs.contains(&[v, u])) && refused.answer == Some(6)
        },
    },
    Sample {
        what: "a triangle is 134 bytes: 80 zeros, 1, 12 zeros, nine floats, two zeros; zeros follow; room 133 refuses with 6",
        calls: &["akf_export_mesh_stl"],
        holds: |s| {
            written(s, &[[0, 1, 2]], 137) == (DONE, 134, [triangle_file(), vec![0; 3]].concat())
                && written(s, &[[0, 1, 2]], 133) == (6, 0, vec![0; 133])
                && written(s, &[], 84) == (DONE, 84, vec![0; 84])
        },
    },
    Sample {
        what: "a triangle of one vertex three times is kept; one that names vertex 3 of 3 refuses with 10, without room too",
        calls: &["akf_export_mesh_stl", "akf_import_mesh_stl"],
        holds: |s| {
            let (answer, _, file) = written(s, &[[1, 1, 1]], 134);
            answer == DONE
                && read(s, &file, 3) == (DONE, 3, vec![CORNERS[1].map(f32::to_bits); 3])
                && written(s, &[[0, 1, 3]], 0) == (10, 0, Vec::new())
        },
    },
    Sample {
        what: "read, its corners come back by bits, -0 and a subnormal too, zeros after them; room 2 refuses with 6",
        calls: &["akf_import_mesh_stl"],
        holds: |s| {
            let corners = CORNERS.map(|v| v.map(f32::to_bits));
            read(s, &triangle_file(), 4) == (DONE, 3, [&corners[..], &[[0; 3]]].concat())
                && read(s, &triangle_file(), 2) == (6, 0, vec![[0; 3]; 2])
                && read(s, &[0; 84], 0) == (DONE, 0, Vec::new())
        },
    },
    Sample {
        what: "83 bytes, 133, 135, and 84 with a count of 1, of 2147483648 or of 4294967295: 11",
        calls: &["akf_import_mesh_stl"],
        holds: |s| {
            let count = |n: u32| changed(vec![0; 84], 80, &n.to_le_bytes());
            let cut = |n: usize| [triangle_file(), vec![0]].concat()[..n].to_vec();
            let bad = [vec![0; 83], cut(133), cut(135), count(1), count(1 << 31), count(u32::MAX)];
            bad.iter().all(|file| read(s, file, 3) == (11, 0, vec![[0; 3]; 3]))
        },
    },
    Sample {
        what: "a position of NaN, of infinity or of 100,000,008: 10, without room too; NaN normals, attribute 65535, any header: taken",
        calls: &["akf_import_mesh_stl"],
        holds: |s| {
            let with = |at: usize, x: f32| changed(triangle_file(), at, &x.to_le_bytes());
            let ignored = changed(changed([&[0xff; 80][..], &TRIANGLE[..]].concat(), 132, &[0xff; 2]), 84, &[0xff; 12]);
            [f32::NAN, f32::INFINITY, 100_000_008.0].iter().all(|&x| {
                (96..132).step_by(4).all(|at| read(s, &with(at, x), 0) == (10, 0, Vec::new()))
                    && (84..96).step_by(4).all(|at| read(s, &with(at, x), 3).0 == DONE)
            }) && read(s, &ignored, 3) == read(s, &triangle_file(), 3)
        },
    },
    Sample {
        what: "No. 2: confidence 0 is New, the same once more Changed though its bits stay, and so is a row of weight 0 that a reading gives weight",
        calls: &["akf_update_from_depth"],
        holds: |s| {
            let one = |readings: &[(f32, f32)]| fused(s, [1.0, 100.0, 1.0, 2.0], 2, readings);
            one(&[(0.25, 0.0)]) == (NEW, 1, 0.25, 0.0)
                && one(&[(0.25, 0.0), (0.25, 0.0)]) == (CHANGED, 1, 0.25, 0.0)
                && one(&[(0.25, 0.0), (0.5, 1.0)]) == (CHANGED, 1, 0.5, 1.0)
        },
    },
    Sample {
        what: "No. 2: a key twice in a batch is one New and one Changed, beside one that is far; six times over, by own rows, one New and eleven Changed",
        calls: &["akf_batch_update"],
        holds: |s| {
            let three = [(at(10, 10, 10), 0.5, 1.0), (at(10, 10, 10), -0.25, 1.0), (at(11, 11, 11), 2.0, 1.0)];
            batched(s, 2, &three) == (DONE, [1, 1, 1, 1, 0]) && batched(s, 2, &three.repeat(6)) == (DONE, [1, 1, 11, 6, 0])
        },
    },
    Sample {
        what: "No. 2: a refused batch has counted the readings before it, few or many: 4, 5 and, in a full table, 6; refused by its tests, none",
        calls: &["akf_batch_update"],
        holds: |s| {
            let three = [(at(10, 10, 10), 0.5, 1.0), (at(10, 10, 10), -0.25, 1.0), (at(11, 11, 11), 2.0, 1.0)];
            let with = |n: usize, last: (u64, f32, f32)| [three.repeat(n), vec![last], three.to_vec()].concat();
            let refused = |answer: u32, last: (u64, f32, f32)| {
                batched(s, 1, &with(1, last)) == (answer, [1, 1, 1, 1, 3]) && batched(s, 1, &with(6, last)) == (answer, [1, 1, 11, 6, 18])
            };
            refused(4, (key_of(0, 1, 0, 0), 0.5, 1.0))
                && refused(5, (at(10, 10, 10), 0.5, 2.0))
                && refused(6, (at(11, 11, 11), 0.5, 1.0))
                && batched(s, 65_537, &three) == (2, [0; 5])
        },
    },
];
