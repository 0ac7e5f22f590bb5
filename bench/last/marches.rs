// Odd marches beside an ordinary one of the same run, as nanoseconds a row of the result, or of the rows that were stored
// when the march was refused: what a workshop meets that types a maximum distance too large, lends short lists or lists
// that are nearly full, scans under many heads, has seeds apart, or stands at key 0.
use super::{best, last_settings, LONGEST};
use compare::face::FACE;
use compare::last::{rows_nearest, SIZE};
use compare::plain::keys::key_of;
use compare::shape::{Settings, Table};

// A march: its table's keys and distances, how far it goes, the places of its lists, and the answer that it is to have.
struct March {
    name: &'static str,
    keys: Vec<u64>,
    distances: Vec<f32>,
    far: f32,
    places: usize,
    waiting: usize,
    answer: u32,
}

const DONE: u32 = 0;
const NO_PLACE: u32 = 6;
const NO_WAITING_PLACE: u32 = 8;
const NO_LIMIT: f32 = 1_000_000.0;

// A march whose rows and waiting cells all have a place.
fn done(name: &'static str, (keys, distances): (Vec<u64>, Vec<f32>), cells: f32, places: usize) -> March {
    March { name, keys, distances, far: cells * SIZE, places, waiting: LONGEST, answer: DONE }
}

// A march of the last that is refused, so far or without a limit on its way.
fn refused(name: &'static str, far: f32, places: usize, waiting: usize, answer: u32) -> March {
    let (keys, distances) = rows_nearest(16_384);
    March { name, keys, distances, far, places, waiting, answer }
}

// Seeds at keys, all at distance 0.
fn seeds(mut keys: Vec<u64>) -> (Vec<u64>, Vec<f32>) {
    keys.sort_unstable();
    let zeros = vec![0.0; keys.len()];
    (keys, zeros)
}

// One cell under so many heads.
fn heads(n: u16) -> (Vec<u64>, Vec<f32>) {
    seeds((0..n).map(|head| key_of(head, 1000, 1000, 1000)).collect())
}

// So many seeds in a cube, eight cells from each to the next.
fn apart(n: usize) -> (Vec<u64>, Vec<f32>) {
    let side = (1..).find(|s| s * s * s >= n).unwrap();
    seeds((0..n).map(|i| [i % side, i / side % side, i / side / side].map(|v| 1000 + 8 * v as u16)).map(|[x, y, z]| key_of(0x8000, x, y, z)).collect())
}

fn marches() -> Vec<March> {
    vec![
        done("an ordinary one", rows_nearest(16_384), 41.8, LONGEST),
        refused("refused for room at 200,000 places", NO_LIMIT, 200_000, LONGEST, NO_PLACE),
        refused("refused for room at 1,048,576 places", NO_LIMIT, LONGEST, LONGEST, NO_PLACE),
        refused("the ordinary one, refused for room at 200,000 places", 41.8 * SIZE, 200_000, LONGEST, NO_PLACE),
        refused("twice as far as 1,048,576 places have room", 150.0 * SIZE, LONGEST, LONGEST, NO_PLACE),
        refused("refused for room at 1,048,576 places, with as good as no waiting place to spare", NO_LIMIT, LONGEST, 56_200, NO_PLACE),
        refused("refused for waiting room at 8 places", NO_LIMIT, LONGEST, 8, NO_WAITING_PLACE),
        refused("refused for waiting room at 50,000 places", NO_LIMIT, LONGEST, 50_000, NO_WAITING_PLACE),
        done("one cell under 1,024 heads", heads(1_024), 10.0, LONGEST),
        done("one cell under 4,096 heads", heads(4_096), 6.5, LONGEST),
        done("16,384 seeds apart", apart(16_384), 1.8, LONGEST),
        done("65,536 seeds apart", apart(65_536), 1.8, LONGEST),
        done("around the cell (0, 0, 0) under head 0", seeds(vec![0]), 110.0, LONGEST),
        done("lists filled to 99.8 %", rows_nearest(65_536), 56.3, LONGEST),
    ]
}

// Lists for marches with so many places at most.
struct Lent {
    keys: Vec<u64>,
    distances: Vec<f32>,
    estimates: Vec<f32>,
    cells: Vec<u64>,
}

// The answer and the rows of a march that has so many places for them.
fn run(m: &March, places: usize, lent: &mut Lent) -> (u32, usize) {
    let ones = vec![1.0; m.keys.len()];
    let table = Table { keys: &m.keys, distances: &m.distances, weights: &ones, count: m.keys.len() };
    let settings = Settings { max_distance: m.far, ..last_settings() };
    let (mut rows, mut takings) = (0, 0);
    let (keys, distances) = (&mut lent.keys[..places], &mut lent.distances[..places]);
    let answer = (FACE.compute_from_tsdf)(settings, table, SIZE, keys, distances, &mut lent.estimates, &mut lent.cells, &mut rows, &mut takings);
    (answer, rows)
}

// The rows that are stored when a march has no place for a waiting cell: the fewest places for rows with which it says so.
fn rows_before(m: &March, lent: &mut Lent) -> usize {
    let (mut few, mut enough) = (0, m.places);
    while few + 1 < enough {
        let middle = few + (enough - few) / 2;
        match run(m, middle, lent).0 {
            NO_WAITING_PLACE => enough = middle,
            _ => few = middle,
        }
    }
    enough
}

// Milliseconds, and the rows of the result or those that were stored.
fn measured(m: &March) -> (f64, usize) {
    let (keys, distances) = (vec![0; m.places], vec![0.0; m.places]);
    let (estimates, cells) = (vec![0.0; m.waiting], vec![0; m.waiting]);
    let mut lent = Lent { keys, distances, estimates, cells };
    let mut rows = 0;
    let ms = best(|| {
        let (answer, stored) = run(m, m.places, &mut lent);
        assert!(answer == m.answer, "{}: answer {answer}", m.name);
        rows = stored;
    });
    match m.answer {
        NO_PLACE => (ms, m.places),
        NO_WAITING_PLACE => (ms, rows_before(m, &mut lent)),
        _ => (ms, rows),
    }
}

pub fn tell() {
    println!("| march | rows | ms | ns each | beside the ordinary one |");
    println!("|---|---|---|---|---|");
    let mut ordinary = None;
    for m in marches() {
        let (ms, each) = measured(&m);
        let ns = ms * 1e6 / each as f64;
        let beside = ns / *ordinary.get_or_insert(ns);
        // next to no rows: the time is that of clearing the lists
        let told = if each < 100 { "- | -".to_string() } else { format!("{ns:.0} | {beside:.2}") };
        println!("| {} | {each} | {ms:.1} | {told} |", m.name);
    }
}
