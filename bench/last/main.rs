// bench_last [quick] [marches] [stl] [ROWS]: synthetic lasts of 16,384, 32,768 and 65,536 rows, the most that a table holds: the
// Rust with its own hash tables and the C face in one process on the same input. Prints the best of five runs of each,
// their ratio, and how each grows when the rows double. The closed mesh, which the Rust does not have, stands beside
// the mesh of the same run, face against face, and the turned one beside the closed; and both of odd fields beside those
// of the last. Files of STL stand beside a plain writer and reader. The march goes to about five times the rows, and to about sixteen times, the most that a
// marched list holds; `quick` leaves it out. ROWS leaves larger lasts out, `marches` everything but odd marches, `stl` everything but the files.
mod marches;
mod stl;

use compare::calls::ClosedMesh;
use compare::face::{FACE, LANDED};
use compare::last::{rows_nearest, shuffled, SIZE};
use compare::plain::keys::key_of;
use compare::rng::Rng;
use compare::shape::{ClosedLists, Lists, Settings, Table, TableMut};
use std::hint::black_box;

#[cfg(rust)]
use compare::hashed::{
    layers::{mesh::extract_mesh_from_tsdf, ESDFLayer, TSDFLayer},
    Index64,
};

// Rows, and how many cells far the march goes for about five and sixteen times as many.
const SIZES: [(usize, [f32; 2]); 3] = [(16_384, [19.6, 41.8]), (32_768, [21.4, 48.8]), (65_536, [22.3, 56.3])];
const LONGEST: usize = 1_048_576;

struct Field {
    settings: Settings,
    far: [f32; 2],
    threshold: f32,
    keys: Vec<u64>,
    distances: Vec<f32>,
    order: Vec<usize>,
}

fn last_settings() -> Settings {
    Settings { truncation: 1.0, max_weight: 100.0, voxel_size: SIZE, max_distance: 0.0 }
}

fn field(rows: usize, cells: [f32; 2]) -> Field {
    let (keys, distances) = rows_nearest(rows);
    Field { settings: last_settings(), far: cells.map(|c| c * SIZE), threshold: SIZE, order: shuffled(keys.len()), keys, distances }
}

// Milliseconds of this thread's own time, so that other work on the machine does not count.
fn now() -> f64 {
    #[repr(C)]
    struct Time {
        seconds: i64,
        nanoseconds: i64,
    }
    extern "C" {
        fn clock_gettime(clock: i32, time: *mut Time) -> i32;
    }
    const THREAD: i32 = 3;
    let mut t = Time { seconds: 0, nanoseconds: 0 };
    assert_eq!(unsafe { clock_gettime(THREAD, &mut t) }, 0);
    t.seconds as f64 * 1e3 + t.nanoseconds as f64 * 1e-6
}

// The best of five; fewer where a run takes seconds.
fn best(mut run: impl FnMut()) -> f64 {
    let mut least = f64::MAX;
    let begun = now();
    for _ in 0..5 {
        let start = now();
        run();
        least = least.min(now() - start);
        if now() - begun > 15_000.0 {
            break;
        }
    }
    least
}

// One piece of work by one side: milliseconds, and how many it gave (rows, edges, triangles).
#[derive(Clone, Copy, Default)]
struct Done {
    ms: Option<f64>,
    gave: usize,
}

fn done(ms: f64, gave: usize) -> Done {
    Done { ms: Some(ms), gave }
}

const WORK: [(&str, &str); 9] = [
    ("batch, keys ascending", "rows"),
    ("batch, shuffled", "rows"),
    ("edges", "edges"),
    ("mesh", "triangles"),
    ("march", "rows"),
    ("march, farther", "rows"),
    ("root, a million", ""),
    ("closed mesh", "triangles"),
    ("turned mesh", "triangles"),
];
const MESH: usize = 3;
const MARCH: usize = 4;
const ROOT: usize = 6;
const CLOSED: usize = 7;
const TURNED: usize = 8;

// What each work took.
type Took = [Done; WORK.len()];

fn roots() -> Vec<f32> {
    let mut r = Rng::new(1, "roots");
    (0..1_000_000).map(|_| f32::from_bits(0x3e80_0000 + r.below(0x0af4_2400) as u32)).collect()
}

#[cfg(rust)]
fn rust(f: &Field) -> Took {
    let readings: Vec<(Index64, f32, f32)> = (0..f.keys.len()).map(|i| (Index64::from_value(f.keys[i]).unwrap(), f.distances[i], 1.0)).collect();
    let shuffled: Vec<(Index64, f32, f32)> = f.order.iter().map(|&i| readings[i]).collect();
    let made = |readings: &[(Index64, f32, f32)]| {
        let mut l = TSDFLayer::with_params(f.settings.truncation, f.settings.max_weight, f.settings.voxel_size);
        l.batch_update(readings).unwrap();
        l
    };
    let mut t = Took::default();
    t[0] = done(best(|| drop(black_box(made(&readings)))), readings.len());
    t[1] = done(best(|| drop(black_box(made(&shuffled)))), readings.len());
    let l = made(&readings);
    let mut gave = 0;
    t[2] = done(best(|| gave = black_box(l.get_zero_crossing_edges()).len()), gave);
    t[MESH] = done(best(|| gave = black_box(extract_mesh_from_tsdf(&l).unwrap()).triangles.len()), gave);
    for (i, &far) in f.far.iter().enumerate().filter(|_| !quick()) {
        let march = || {
            let mut e = ESDFLayer::new(f.settings.voxel_size, far);
            e.compute_from_tsdf(&l, f.threshold).unwrap();
            gave = black_box(e).voxels.len();
        };
        t[MARCH + i] = done(best(march), gave);
    }
    let xs = roots();
    let root = || {
        black_box(xs.iter().fold(0u32, |all, &x| all ^ black_box(x).sqrt().to_bits()));
    };
    t[ROOT] = done(best(root), 0);
    t
}

#[cfg(not(rust))]
fn rust(_: &Field) -> Took {
    Default::default()
}

fn landed(name: &str) -> bool {
    LANDED.contains(&name)
}

// `quick` leaves the march out, which takes minutes.
fn quick() -> bool {
    std::env::args().any(|a| a == "quick")
}

// The most rows that are measured.
fn most() -> usize {
    std::env::args().find_map(|a| a.parse().ok()).unwrap_or(usize::MAX)
}

fn face_batch(f: &Field, order: impl Iterator<Item = usize>) -> Done {
    let (keys, distances): (Vec<u64>, Vec<f32>) = order.map(|i| (f.keys[i], f.distances[i])).unzip();
    let ones = vec![1.0; keys.len()];
    let n = keys.len();
    let ms = best(|| {
        let (mut k, mut d, mut w, mut count) = (vec![0; n], vec![0.0; n], vec![0.0; n], 0);
        let (mut added, mut changed, mut far, mut at) = (0, 0, 0, 0);
        let t = TableMut { keys: &mut k, distances: &mut d, weights: &mut w, count: &mut count };
        let answer = (FACE.batch_update)(f.settings, t, &keys, &distances, &ones, &mut added, &mut changed, &mut far, &mut at);
        assert!(answer == 0 && count == n && [added, changed, far] == [n, 0, 0], "batch: answer {answer} at {at}");
        assert!(k == f.keys && d == f.distances, "the batch gave another table");
    });
    done(ms, n)
}

fn face_edges(f: &Field, rows: Table) -> Done {
    let (mut first, mut second, mut edges) = (vec![0; LONGEST], vec![0; LONGEST], 0);
    let ms = best(|| {
        let answer = (FACE.get_zero_crossing_edges)(f.settings, rows, &mut first, &mut second, &mut edges);
        assert!(answer == 0, "edges: answer {answer}");
    });
    done(ms, edges)
}

fn face_mesh(f: &Field, rows: Table) -> Done {
    let (mut first, mut second) = (vec![0; LONGEST], vec![0; LONGEST]);
    let mut v: Vec<Vec<f32>> = (0..6).map(|_| vec![0.0; LONGEST]).collect();
    let mut groups = vec![0; LONGEST];
    let mut corners: Vec<Vec<u32>> = (0..3).map(|_| vec![0; LONGEST]).collect();
    let (mut edges, mut triangles) = (0, 0);
    let ms = best(|| {
        let [px, py, pz, nx, ny, nz] = &mut v[..] else { unreachable!() };
        let [t0, t1, t2] = &mut corners[..] else { unreachable!() };
        let lists = Lists {
            edges: [&mut first, &mut second],
            places: [px, py, pz],
            normals: [nx, ny, nz],
            groups: &mut groups,
            triangles: [t0, t1, t2],
        };
        let answer = (FACE.extract_mesh_from_tsdf)(f.settings, rows, lists, &mut edges, &mut triangles);
        assert!(answer == 0, "mesh: answer {answer}");
    });
    done(ms, triangles)
}

// Lists for a closed mesh, each as long as any may be.
struct Lent {
    edges: [Vec<u64>; 2],
    parts: [Vec<f32>; 6],
    corners: [Vec<u32>; 3],
}

fn lent() -> Lent {
    Lent { edges: [0; 2].map(|_| vec![0; LONGEST]), parts: [0; 6].map(|_| vec![0.0; LONGEST]), corners: [0; 3].map(|_| vec![0; LONGEST]) }
}

// The closed mesh, turned or not, in these lists, of which those for triangles have `room` places: milliseconds, the answer, edges and triangles.
fn closed_in(call: ClosedMesh, lent: &mut Lent, settings: Settings, rows: Table, room: usize) -> (f64, u32, usize, usize) {
    let (mut answer, mut edges, mut triangles) = (0, 0, 0);
    let ms = best(|| {
        let [first, second] = &mut lent.edges;
        let [px, py, pz, nx, ny, nz] = &mut lent.parts;
        let [t0, t1, t2] = &mut lent.corners;
        let corners = [&mut t0[..room], &mut t1[..room], &mut t2[..room]];
        let lists = ClosedLists { edges: [first, second], places: [px, py, pz], normals: [nx, ny, nz], triangles: corners };
        answer = call(settings, rows, lists, &mut edges, &mut triangles);
    });
    (ms, answer, edges, triangles)
}

fn face_closed_mesh(call: ClosedMesh, f: &Field, rows: Table) -> Done {
    let (ms, answer, _, triangles) = closed_in(call, &mut lent(), f.settings, rows, LONGEST);
    assert!(answer == 0, "closed mesh: answer {answer}");
    done(ms, triangles)
}

fn face_march(f: &Field, rows: Table, far: f32) -> Done {
    let (mut keys, mut distances) = (vec![0; LONGEST], vec![0.0; LONGEST]);
    let (mut estimates, mut waiting) = (vec![0.0; LONGEST], vec![0; LONGEST]);
    let (mut marched, mut takings) = (0, 0);
    let settings = Settings { max_distance: far, ..f.settings };
    let ms = best(|| {
        let answer = (FACE.compute_from_tsdf)(
            settings,
            rows,
            f.threshold,
            &mut keys,
            &mut distances,
            &mut estimates,
            &mut waiting,
            &mut marched,
            &mut takings,
        );
        assert!(answer == 0, "march: answer {answer}");
    });
    done(ms, marched)
}

fn face_root() -> Done {
    let xs = roots();
    let ms = best(|| {
        let mut all = 0u32;
        for &x in &xs {
            let mut root = 0.0;
            (FACE.root)(black_box(x), &mut root);
            all ^= root.to_bits();
        }
        black_box(all);
    });
    done(ms, 0)
}

fn face(f: &Field) -> Took {
    let mut t = Took::default();
    let ones = vec![1.0; f.keys.len()];
    let rows = Table { keys: &f.keys, distances: &f.distances, weights: &ones, count: f.keys.len() };
    if landed("akf_batch_update") {
        t[0] = face_batch(f, 0..f.keys.len());
        t[1] = face_batch(f, f.order.iter().copied());
    }
    if landed("akf_get_zero_crossing_edges") {
        t[2] = face_edges(f, rows);
    }
    if landed("akf_extract_mesh_from_tsdf") {
        t[MESH] = face_mesh(f, rows);
    }
    if landed("akf_extract_closed_mesh") {
        t[CLOSED] = face_closed_mesh(FACE.extract_closed_mesh, f, rows);
    }
    if landed("akf_extract_turned_mesh") {
        t[TURNED] = face_closed_mesh(FACE.extract_turned_mesh, f, rows);
    }
    if landed("akf_compute_from_tsdf") && !quick() {
        for (i, &far) in f.far.iter().enumerate() {
            t[MARCH + i] = face_march(f, rows, far);
        }
    }
    if landed("akf_root") {
        t[ROOT] = face_root();
    }
    t
}

fn shown(x: Option<f64>) -> String {
    x.map_or("-".to_string(), |x| if x < 100.0 { format!("{x:.2}") } else { format!("{x:.0}") })
}

fn over(a: Option<f64>, b: Option<f64>) -> String {
    shown(a.zip(b).map(|(a, b)| a / b))
}

// The closed mesh beside today's, and the turned one beside the closed, all by the face, in this run.
fn beside_the_mesh(measured: &[(usize, Took, Took)]) {
    if measured.iter().all(|m| m.2[CLOSED].ms.is_none()) {
        println!("the face has no closed mesh yet");
        return;
    }
    println!("| rows | mesh, ms | gives | closed mesh, ms | gives | closed / mesh | turned mesh, ms | turned / closed |");
    println!("|---|---|---|---|---|---|---|---|");
    for (rows, _, face) in measured {
        let (mesh, closed, turned) = (face[MESH], face[CLOSED], face[TURNED]);
        let [m, c, t] = [mesh, closed, turned].map(|d| shown(d.ms));
        let ratios = [over(closed.ms, mesh.ms), over(turned.ms, closed.ms)];
        println!("| {rows} | {m} | {} triangles | {c} | {} triangles | {} | {t} | {} |", mesh.gave, closed.gave, ratios[0], ratios[1]);
    }
}

// A block of cells of which so many in a hundred are stored, under so many heads; so many in a hundred have weight 0, and so many of the rest are inside.
struct Block {
    name: &'static str,
    stored: usize,
    heads: usize,
    weightless: usize,
    inside: usize,
}

const fn block(name: &'static str, stored: usize, heads: usize, weightless: usize, inside: usize) -> Block {
    Block { name, stored, heads, weightless, inside }
}

const BLOCKS: [Block; 8] = [
    block("all cells, half of them inside", 100, 1, 0, 50),
    block("80 in 100 cells, half of them inside", 80, 1, 0, 50),
    block("60 in 100", 60, 1, 0, 50),
    block("40 in 100", 40, 1, 0, 50),
    block("20 in 100", 20, 1, 0, 50),
    block("all cells, half of them of weight 0", 100, 1, 50, 50),
    block("all cells, 5 in 100 inside", 100, 1, 0, 5),
    block("all cells, under 64 heads, half inside", 100, 64, 0, 50),
];

// Exactly 65,536 rows of such a block: key, distance, weight.
fn rows_of(b: &Block) -> Vec<(u64, f32, f32)> {
    let mut r = Rng::new(1, b.name);
    let mut rows = Vec::new();
    for x in 0u16.. {
        for y in 0..60 {
            for z in 0..60 {
                if (x + y) % 2 == 0 && (y + z) % 2 == 0 && r.below(100) < b.stored {
                    let head = 0x8000 + r.below(b.heads) as u16;
                    let weight = if r.below(100) < b.weightless { 0.0 } else { 1.0 };
                    let distance = if r.below(100) < b.inside { -0.01 } else { 0.01 };
                    rows.push((key_of(head, 1000 + x, 1000 + y, 1000 + z), distance, weight));
                }
            }
        }
        if rows.len() >= 65_536 {
            break;
        }
    }
    rows.truncate(65_536);
    rows.sort_unstable_by_key(|row| row.0);
    rows
}

// One call on an odd field.
struct Odd {
    edges: usize,
    triangles: usize,
    ms: f64,
    // once more, with a place too few for its triangles
    refused: f64,
}

fn odd(call: ClosedMesh, lists: &mut Lent, name: &str, table: Table) -> Odd {
    let (ms, answer, edges, triangles) = closed_in(call, lists, last_settings(), table, LONGEST);
    assert!(answer == 0 && triangles > 0, "{name}: answer {answer}");
    let (refused, why, ..) = closed_in(call, lists, last_settings(), table, triangles - 1);
    assert!(why == 6, "{name}: answer {why}");
    Odd { edges, triangles, ms, refused }
}

// The closed mesh of odd fields, and the same turned.
fn odd_fields() {
    println!("| mesh of 65,536 rows | vertices | triangles | closed, ms | ns a row, vertex or triangle | refused with 6, ms | turned, ms | turned / closed | refused with 6, ms |");
    println!("|---|---|---|---|---|---|---|---|---|");
    let mut lists = lent();
    let mut tell = |name: &str, rows: &[(u64, f32, f32)]| {
        let (keys, distances, weights): (Vec<u64>, Vec<f32>, Vec<f32>) = (rows.iter().map(|r| r.0).collect(), rows.iter().map(|r| r.1).collect(), rows.iter().map(|r| r.2).collect());
        let table = Table { keys: &keys, distances: &distances, weights: &weights, count: keys.len() };
        let Odd { edges, triangles, ms, refused } = odd(FACE.extract_closed_mesh, &mut lists, name, table);
        let each = ms * 1e6 / (keys.len() + edges + triangles) as f64;
        let turned = landed("akf_extract_turned_mesh").then(|| odd(FACE.extract_turned_mesh, &mut lists, name, table));
        let beside = turned.map_or("- | - | -".to_string(), |t| format!("{:.1} | {:.2} | {:.1}", t.ms, t.ms / ms, t.refused));
        println!("| {name} | {edges} | {triangles} | {ms:.1} | {each:.0} | {refused:.1} | {beside} |");
    };
    let (keys, distances) = rows_nearest(65_536);
    tell("the last", &keys.into_iter().zip(distances).map(|(k, d)| (k, d, 1.0)).collect::<Vec<_>>());
    BLOCKS.iter().for_each(|b| tell(b.name, &rows_of(b)));
}

// Files of STL, where the face has them.
fn files() {
    if ["akf_export_mesh_stl", "akf_import_mesh_stl"].iter().all(|call| landed(call)) {
        stl::tell();
    } else {
        println!("the face has no files of STL yet");
    }
}

fn main() {
    if std::env::args().any(|a| a == "stl") {
        return files();
    }
    if std::env::args().any(|a| a == "marches") {
        return marches::tell();
    }
    if !cfg!(rust) {
        println!("The Rust isn't at ../shared/docs/src beside this repository: only the C face is measured.");
    }
    let measured: Vec<(usize, Took, Took)> = SIZES
        .iter()
        .filter(|size| size.0 <= most())
        .map(|&(rows, cells)| {
            let f = field(rows, cells);
            (rows, rust(&f), face(&f))
        })
        .collect();
    println!("milliseconds of the thread's own time, the best of five runs; growth is over the line above, of half as many rows");
    println!("| work | rows | gives | the Rust, ms | the face, ms | face / Rust | the Rust grows by | the face grows by |");
    println!("|---|---|---|---|---|---|---|---|");
    for (i, (work, unit)) in WORK.iter().enumerate() {
        for (n, (rows, rust, face)) in measured.iter().enumerate() {
            // a million roots are a million whatever the rows
            if i == ROOT && n > 0 || rust[i].ms.is_none() && face[i].ms.is_none() {
                continue;
            }
            let grows = |of: fn(&(usize, Took, Took)) -> &Took| {
                if n == 0 { "-".to_string() } else { over(of(&measured[n])[i].ms, of(&measured[n - 1])[i].ms) }
            };
            let gives = if i == ROOT { "-".to_string() } else { format!("{} {unit}", if face[i].ms.is_some() { face[i].gave } else { rust[i].gave }) };
            let rows = if i == ROOT { "-".to_string() } else { rows.to_string() };
            let (r, f) = (rust[i].ms, face[i].ms);
            println!("| {work} | {rows} | {gives} | {} | {} | {} | {} | {} |", shown(r), shown(f), over(f, r), grows(|m| &m.1), grows(|m| &m.2));
        }
    }
    println!();
    beside_the_mesh(&measured);
    if landed("akf_extract_closed_mesh") {
        println!();
        odd_fields();
    }
    println!();
    files();
    if landed("akf_compute_from_tsdf") && !quick() {
        println!();
        marches::tell();
    }
}
