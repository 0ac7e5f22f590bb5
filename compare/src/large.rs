// Large fields, where the plain reading's searches from the front would take hours: the C face beside the Rust alone,
// on a last of about 60,000 rows. Its readings come ascending, shuffled, and in passes that come back to every cell.
// The Rust has no closed mesh and no files: there the plain reading is waited for, on a last of 16,384 rows and on
// files at their limits.
use crate::beside;
use crate::calls::{self, Side, PLAIN};
use crate::case::{Case, Outcome};
use crate::face::{FACE, LANDED};
use crate::last;
use crate::plain::{mesh, stl, FILE_LIMIT, LISTS_LIMIT};
use crate::table::{judge, Judged};
use crate::winding::Windings;

type Large = (&'static str, &'static str, fn() -> Case, fn(&Side, &Case) -> Outcome, fn(&Case) -> Option<Outcome>);

fn field() -> Case {
    of_rows(last::rows(1.0, 4.6))
}

fn of_rows((keys, distances): (Vec<u64>, Vec<f32>)) -> Case {
    let weights = vec![1.0; keys.len()];
    let settings = [1.0, 100.0, last::SIZE, 23.5 * last::SIZE];
    let mut c = Case { settings, count: keys.len(), keys, distances, weights, ..Case::default() };
    c.reals[0] = last::SIZE;
    c.key = c.keys[c.count / 3];
    c
}

// An empty table with a place for each row, and the field's rows as readings in some order.
fn readings(order: impl Fn(usize) -> Vec<usize>) -> Case {
    let f = field();
    let order = order(f.count);
    Case {
        settings: f.settings,
        keys: vec![0; f.count],
        distances: vec![0.0; f.count],
        weights: vec![0.0; f.count],
        batch_keys: order.iter().map(|&i| f.keys[i]).collect(),
        batch_distances: order.iter().map(|&i| f.distances[i]).collect(),
        batch_confidences: order.iter().map(|&i| (i % 4) as f32 * 0.25 + 0.25).collect(),
        ..Case::default()
    }
}

// Every fifth reading beyond the truncation.
fn some_far(mut c: Case) -> Case {
    c.batch_distances.iter_mut().step_by(5).for_each(|d| *d = 2.0);
    c
}

fn rooms(mut c: Case, rooms: &[usize]) -> Case {
    c.rooms = rooms.to_vec();
    c
}

const LARGE: &[Large] = &[
    ("akf_batch_update", "ascending", || readings(|n| (0..n).collect()), calls::batch_update, beside::batch_update),
    ("akf_batch_update", "descending", || readings(|n| (0..n).rev().collect()), calls::batch_update, beside::batch_update),
    ("akf_batch_update", "shuffled", || readings(last::shuffled), calls::batch_update, beside::batch_update),
    ("akf_batch_update", "shuffled, every fifth reading far", || some_far(readings(last::shuffled)), calls::batch_update, beside::batch_update),
    ("akf_batch_update", "four passes over a quarter", || readings(|n| (0..n).map(|i| i * 7_919 % (n / 4) * 4).collect()), calls::batch_update, beside::batch_update),
    ("akf_get_zero_crossing_edges", "", || rooms(field(), &[60_000; 2]), calls::get_zero_crossing_edges, beside::get_zero_crossing_edges),
    ("akf_extract_mesh_from_tsdf", "", || rooms(field(), &[60_000, 60_000, 50_000, 50_000, 50_000, 50_000, 50_000, 50_000, 120_000, 200_000, 200_000, 200_000]), calls::extract_mesh_from_tsdf, beside::extract_mesh_from_tsdf),
    ("akf_compute_from_tsdf", "to 300,000 rows", || rooms(field(), &[400_000; 4]), calls::compute_from_tsdf, beside::compute_from_tsdf),
    ("akf_get_surface_voxels", "", || rooms(field(), &[30_000]), calls::get_surface_voxels, beside::get_surface_voxels),
    ("akf_tsdf_stats", "", field, calls::tsdf_stats, beside::tsdf_stats),
    ("akf_tsdf_get_distance", "", field, calls::tsdf_get_distance, beside::tsdf_get_distance),
    ("akf_get_gradient", "", field, calls::get_gradient, beside::get_gradient),
    ("akf_esdf_stats", "", field, calls::esdf_stats, beside::esdf_stats),
    ("akf_get_voxels_within_distance", "", || rooms(field(), &[70_000; 2]), calls::get_voxels_within_distance, beside::get_voxels_within_distance),
];

// How many differ, of the calls that are asked for and that the face has.
pub fn run(asked_for: &dyn Fn(&str) -> bool) -> usize {
    let asked = |call: &str| LANDED.contains(&call) && asked_for(call);
    let mut differ = 0;
    for (name, how, make, ask, rust) in LARGE.iter().filter(|l| asked(l.0)) {
        let case = make();
        let told = rust(&case).expect("the field is on the domain");
        let said = match judge(&told, &ask(&FACE, &case), false) {
            Judged::Differs(what) => {
                differ += 1;
                format!("differs: {}", what.replace("document 01", "the Rust"))
            }
            _ => "same".to_string(),
        };
        println!("{name:31} a last of 60,797 rows{}{how}: {said}", if how.is_empty() { "" } else { ", " });
    }
    differ += CLOSED.iter().filter(|c| asked(c.0)).map(closed_mesh).sum::<usize>();
    if asked("akf_extract_turned_mesh") {
        differ += directions();
    }
    differ + FILES.iter().filter(|f| asked(f.0)).map(file).sum::<usize>()
}

type Closed = (&'static str, &'static str, fn(&Side, &Case) -> Outcome);

const CLOSED: &[Closed] = &[
    ("akf_extract_closed_mesh", "closed", calls::extract_closed_mesh),
    ("akf_extract_turned_mesh", "turned", calls::extract_turned_mesh),
];

fn closed_case() -> Case {
    rooms(of_rows(last::rows_nearest(16_384)), &[12_000, 12_000, 12_000, 12_000, 12_000, 12_000, 12_000, 12_000, 23_000, 23_000, 23_000])
}

// A mesh that closes beside the plain reading, which takes some seconds.
fn closed_mesh((_, which, ask): &Closed) -> usize {
    let case = closed_case();
    let plain = ask(&PLAIN, &case);
    let said = match judge(&plain, &ask(&FACE, &case), false) {
        Judged::Differs(what) => format!("differs: {what}"),
        _ => "same".to_string(),
    };
    println!("the {which} mesh of a last of 16,384 rows, {} vertices and {} triangles: {said}", plain.numbers[0].1, plain.numbers[1].1);
    (said != "same") as usize
}

// What the face hands back as the turned mesh of that last, judged by itself.
fn directions() -> usize {
    let mut windings = Windings::default();
    windings.add(&FACE, &closed_case());
    println!("its directions: {}", windings.directions.told());
    windings.directions.failures()
}

type File = (&'static str, &'static str, fn() -> Case, fn(&Side, &Case) -> Outcome, u32);

// As many vertices as triangles, each triangle with three of them, and a room for its file.
fn many(n: usize, room: usize) -> Case {
    let mut c = Case { vertex_count: n, triangle_count: n, rooms: vec![room], ..Case::default() };
    for axis in 0..3 {
        c.vertices[axis] = (0..n).map(|i| i as f32 * 0.125 - axis as f32 * 50_000.0).collect();
        c.triangles[axis] = (0..n).map(|i| ((i * 7_919 + axis) % n) as u32).collect();
    }
    c
}

fn with_vertex(mut c: Case, value: f32) -> Case {
    *c.vertices[2].last_mut().unwrap() = value;
    c
}

fn with_number(mut c: Case, number: u32) -> Case {
    *c.triangles[2].last_mut().unwrap() = number;
    c
}

// The file of so many triangles, and places for its vertices.
fn many_read(n: usize, places: usize) -> Case {
    let c = many(n, 0);
    let file = stl::file_of(&mesh::corners(c.places(), c.triangles()).expect("in range"));
    Case { file, rooms: vec![places; 3], ..Case::default() }
}

// With other bytes at the file's end.
fn ending(mut c: Case, cut: usize, bytes: &[u8]) -> Case {
    c.file.truncate(c.file.len() - cut);
    c.file.extend(bytes);
    c
}

// The last part of the last vertex lies before two bytes of attribute.
const INFINITE: [u8; 6] = [0, 0, 0x80, 0x7f, 0, 0];

const FILES: &[File] = &[
    ("akf_export_mesh_stl", "1,048,576 triangles, 52,428,884 bytes", || many(LISTS_LIMIT, FILE_LIMIT), calls::export_mesh_stl, 0),
    ("akf_export_mesh_stl", "a byte fewer", || many(LISTS_LIMIT, FILE_LIMIT - 1), calls::export_mesh_stl, 6),
    ("akf_export_mesh_stl", "a byte more", || many(LISTS_LIMIT, FILE_LIMIT + 1), calls::export_mesh_stl, 2),
    ("akf_export_mesh_stl", "1,048,577 triangles", || many(LISTS_LIMIT + 1, FILE_LIMIT), calls::export_mesh_stl, 2),
    ("akf_export_mesh_stl", "the last vertex NaN, a byte fewer", || with_vertex(many(LISTS_LIMIT, FILE_LIMIT - 1), f32::NAN), calls::export_mesh_stl, 10),
    ("akf_export_mesh_stl", "the last number too large", || with_number(many(LISTS_LIMIT, FILE_LIMIT), LISTS_LIMIT as u32), calls::export_mesh_stl, 10),
    ("akf_import_mesh_stl", "349,525 triangles, 1,048,576 places", || many_read(349_525, LISTS_LIMIT), calls::import_mesh_stl, 0),
    ("akf_import_mesh_stl", "1,048,575 places", || many_read(349_525, LISTS_LIMIT - 1), calls::import_mesh_stl, 0),
    ("akf_import_mesh_stl", "1,048,574 places", || many_read(349_525, LISTS_LIMIT - 2), calls::import_mesh_stl, 6),
    ("akf_import_mesh_stl", "1,048,577 places", || many_read(349_525, LISTS_LIMIT + 1), calls::import_mesh_stl, 2),
    ("akf_import_mesh_stl", "349,526 triangles, 1,048,576 places", || many_read(349_526, LISTS_LIMIT), calls::import_mesh_stl, 6),
    ("akf_import_mesh_stl", "the last vertex infinite", || ending(many_read(349_526, LISTS_LIMIT), 6, &INFINITE), calls::import_mesh_stl, 10),
    ("akf_import_mesh_stl", "the same, with room", || ending(many_read(349_525, LISTS_LIMIT), 6, &INFINITE), calls::import_mesh_stl, 10),
    ("akf_import_mesh_stl", "a byte more than the count says", || ending(many_read(349_525, LISTS_LIMIT), 0, &[0]), calls::import_mesh_stl, 11),
    ("akf_import_mesh_stl", "1,048,576 triangles, 52,428,884 bytes", || many_read(LISTS_LIMIT, LISTS_LIMIT), calls::import_mesh_stl, 6),
    ("akf_import_mesh_stl", "52,428,885 bytes", || ending(many_read(LISTS_LIMIT, LISTS_LIMIT), 0, &[0]), calls::import_mesh_stl, 2),
];

// A file at its limits, with the answer that it is meant to show.
fn file((name, how, make, ask, answer): &File) -> usize {
    let case = make();
    let plain = ask(&PLAIN, &case);
    let said = match judge(&plain, &ask(&FACE, &case), false) {
        Judged::Differs(what) => format!("differs: {what}"),
        _ if plain.answer != Some(*answer) => format!("differs: both answer {:?}, and {answer} is meant", plain.answer),
        _ => "same".to_string(),
    };
    println!("{name}, {how}, answer {answer}: {said}");
    (said != "same") as usize
}
