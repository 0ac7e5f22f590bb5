// Vectors: the Rust's answers to a fixed small sample of cases, as lines of text that a program without a heap can read.
// Every answer is the Rust's own, on document 01's domain; compare/VECTORS.md has the format.
use crate::beside::{self, updated};
use crate::case::{Case, Outcome};
use crate::make;
use crate::ordered::layers::tsdf::TSDFLayer;
use crate::plain::table::Row;
use crate::plain::{CHANGED, DONE, FAR, NEW};
use crate::rng::Rng;
use crate::table::{judge, Judged, COMPARED};
use std::fmt::Write;
use std::path::Path;

// One line: a letter, then hexadecimal words.
fn line(text: &mut String, letter: char, words: &[u64]) {
    text.push(letter);
    for w in words {
        write!(text, " {w:x}").unwrap();
    }
    text.push('\n');
}

fn bits(l: &[f32]) -> Vec<u64> {
    l.iter().map(|x| x.to_bits() as u64).collect()
}

fn whole(l: &[i32]) -> Vec<u64> {
    l.iter().map(|&x| x as u32 as u64).collect()
}

fn numbers(o: &Outcome) -> Vec<u64> {
    o.numbers.iter().map(|n| n.1).collect()
}

// Settings and rows.
fn table(text: &mut String, c: &Case) {
    line(text, 'S', &bits(&c.settings));
    for i in 0..c.count {
        let w = c.weights.get(i).map_or(0, |w| w.to_bits() as u64);
        line(text, 'R', &[c.keys[i], c.distances[i].to_bits() as u64, w]);
    }
}

// Cases of a call that the Rust answers, and whose answer document 01 does not state otherwise.
fn cases(call: &str, seed: u64, wanted: usize, keep: impl Fn(&Case, &Outcome) -> bool, cut: impl Fn(&mut Case)) -> Vec<(Case, Outcome)> {
    let c = COMPARED.iter().find(|c| c.name == call).expect("a call");
    let rust = c.rust.expect("a call of the Rust's");
    let mut r = Rng::new(seed, call);
    let mut all = Vec::new();
    while all.len() < wanted {
        let mut case = (c.make)(&mut r);
        cut(&mut case);
        let Some(o) = rust(&case) else { continue };
        let same = matches!(judge(&(c.ask)(&crate::calls::PLAIN, &case), &o, true), Judged::Same);
        if same && keep(&case, &o) {
            all.push((case, o));
        }
    }
    all
}

fn any(_: &Case, _: &Outcome) -> bool {
    true
}

fn uncut(_: &mut Case) {}

// At most this many rows, and every list long enough.
fn few(rows: usize) -> impl Fn(&mut Case) {
    move |c| {
        c.count = c.count.min(rows);
        c.rooms.iter_mut().for_each(|n| *n = 512);
    }
}

fn done(o: &Outcome) -> bool {
    o.answer == Some(DONE)
}

fn keys(seed: u64) -> String {
    let mut t = String::new();
    for (c, o) in cases("akf_index64_new", seed, 150, any, uncut) {
        let mut words = vec![c.head as u64];
        words.extend(whole(&c.coords));
        words.extend(numbers(&o));
        line(&mut t, 'N', &words);
    }
    for (c, o) in cases("akf_decode_coords", seed, 150, any, uncut) {
        line(&mut t, 'D', &[vec![c.key], numbers(&o)].concat());
    }
    t
}

fn neighbors(seed: u64) -> String {
    let mut t = String::new();
    for (c, o) in cases("akf_neighbors_index64", seed, 130, |_, o| done(o), |c| c.rooms = vec![14]) {
        let n = o.numbers[0].1 as usize;
        line(&mut t, 'A', &[vec![c.key, n as u64], o.lists[0].1[..n].to_vec()].concat());
    }
    t
}

fn bcc_utils(seed: u64) -> String {
    let mut t = String::new();
    for (c, o) in cases("akf_snap_to_nearest_bcc", seed, 150, any, uncut) {
        line(&mut t, 'G', &[whole(&c.coords), numbers(&o)].concat());
    }
    for (c, o) in cases("akf_physical_to_bcc_voxel", seed, 150, any, uncut) {
        let asked = [c.reals[0], c.reals[1], c.reals[2], c.settings[2]];
        line(&mut t, 'Y', &[bits(&asked), numbers(&o)].concat());
    }
    t
}

// Sequences of readings into one table, each with the row that it leaves; then the questions.
fn tsdf(seed: u64) -> String {
    let mut t = String::new();
    let mut r = Rng::new(seed, "tsdf vectors");
    let mut sequences = 0;
    while sequences < 40 {
        let mut c = make::table(&mut r);
        c.count = c.count.min(6);
        if !make::rust_table(&c) {
            continue;
        }
        sequences += 1;
        table(&mut t, &c);
        let mut l: TSDFLayer = beside::layer(&c);
        for _ in 0..8 {
            let ray = r.one_in(2);
            // most on few keys, so that weights add up
            let mut next = c.clone();
            next.key = if c.count > 0 && !r.one_in(6) { c.keys[r.below(c.count.min(2))] } else { make::for_key(&mut r).key };
            if ray {
                make::ray(&mut r, &mut next);
            } else {
                make::direct(&mut r, &mut next);
            }
            if !make::rust_key(next.key) {
                continue;
            }
            let before: Vec<Row> = beside::rows_of(&l);
            let [a, b, z, depth, conf] = next.reals;
            let answer = if ray {
                updated(&mut l, 64, next.key, |l, k| l.update_from_depth_ray(k, (a, b, z), depth, conf).unwrap())
            } else {
                updated(&mut l, 64, next.key, |l, k| l.update_from_depth(k, a, b).unwrap())
            };
            // a refusal, or an answer that the Rust does not tell, is no vector; the table stands as it was
            let Some(answer) = answer.filter(|a| [NEW, CHANGED, FAR].contains(a)) else {
                beside::restore(&mut l, &before);
                continue;
            };
            // the stored answers are document 01's: a row that is stored, new or changed, is 0
            let answer = if answer == FAR { FAR } else { DONE };
            let row = beside::rows_of(&l).into_iter().find(|w| w.key == next.key);
            let left = row.map_or([0, 0], |w| [w.distance.to_bits() as u64, w.weight.to_bits() as u64]);
            let asked = if ray { bits(&next.reals) } else { bits(&[a, b]) };
            line(&mut t, if ray { 'J' } else { 'F' }, &[vec![next.key], asked, vec![answer as u64], left.to_vec()].concat());
        }
        let mut end = Case { settings: c.settings, ..Case::default() };
        for w in beside::rows_of(&l) {
            end.keys.push(w.key);
            end.distances.push(w.distance);
            end.weights.push(w.weight);
        }
        end.count = end.keys.len();
        let stats = COMPARED.iter().find(|c| c.name == "akf_tsdf_stats").unwrap();
        let (rust, plain) = (beside::tsdf_stats(&end).unwrap(), (stats.ask)(&crate::calls::PLAIN, &end));
        if matches!(judge(&plain, &rust, true), Judged::Same) {
            line(&mut t, 'T', &numbers(&rust));
        }
        let thresholds = [c.settings[2], c.settings[0], 0.5];
        for threshold in thresholds {
            end.reals[0] = threshold;
            end.rooms = vec![64];
            let o = beside::get_surface_voxels(&end).unwrap();
            let n = o.numbers[0].1 as usize;
            line(&mut t, 'U', &[threshold.to_bits() as u64, n as u64]);
            for k in &o.lists[0].1[..n] {
                line(&mut t, 'u', &[*k]);
            }
        }
    }
    t
}

fn edges(seed: u64) -> String {
    let mut t = String::new();
    for (c, o) in cases("akf_get_zero_crossing_edges", seed, 50, |_, o| done(o) && o.numbers[0].1 > 0, few(8)) {
        table(&mut t, &c);
        let n = o.numbers[0].1 as usize;
        line(&mut t, 'E', &[n as u64]);
        for i in 0..n {
            line(&mut t, 'e', &[o.lists[0].1[i], o.lists[1].1[i]]);
        }
    }
    t
}

fn esdf(seed: u64) -> String {
    let mut t = String::new();
    for (c, o) in cases("akf_compute_from_tsdf", seed, 40, |_, o| done(o) && o.numbers[0].1 > 1 && o.numbers[0].1 <= 24, few(3)) {
        table(&mut t, &c);
        line(&mut t, 'M', &[vec![c.reals[0].to_bits() as u64], numbers(&o)].concat());
        for i in 0..o.numbers[0].1 as usize {
            line(&mut t, 'm', &[o.lists[0].1[i], o.lists[1].1[i]]);
        }
    }
    let (found, absent) = (cases("akf_get_gradient", seed, 50, |_, o| done(o), few(8)), cases("akf_get_gradient", seed, 10, |_, o| !done(o), few(8)));
    for (c, o) in found.into_iter().chain(absent) {
        table(&mut t, &c);
        line(&mut t, 'B', &[vec![c.key, o.answer.unwrap() as u64], numbers(&o)].concat());
        if matches!(judge(&(crate::calls::esdf_stats)(&crate::calls::PLAIN, &c), &beside::esdf_stats(&c).unwrap(), true), Judged::Same) {
            line(&mut t, 'X', &numbers(&beside::esdf_stats(&c).unwrap()));
        }
    }
    t
}

fn mesh(seed: u64) -> String {
    let mut t = String::new();
    let small = |_: &Case, o: &Outcome| done(o) && (1..=12).contains(&o.numbers[0].1) && o.numbers[1].1 <= 16;
    let with_triangles = |c: &Case, o: &Outcome| small(c, o) && o.numbers[1].1 > 0;
    let call = "akf_extract_mesh_from_tsdf";
    for (c, o) in cases(call, seed, 15, small, few(7)).into_iter().chain(cases(call, seed + 1, 30, with_triangles, few(8))) {
        table(&mut t, &c);
        let (edges, triangles) = (o.numbers[0].1 as usize, o.numbers[1].1 as usize);
        line(&mut t, 'H', &numbers(&o));
        for i in 0..edges {
            line(&mut t, 'V', &o.lists[2..8].iter().map(|l| l.1[i]).collect::<Vec<_>>());
        }
        for i in 0..triangles {
            line(&mut t, 'K', &o.lists[9..12].iter().map(|l| l.1[i]).collect::<Vec<_>>());
        }
        let mut shape = Case { vertex_count: edges, triangle_count: triangles, ..Case::default() };
        for axis in 0..3 {
            shape.vertices[axis] = o.lists[2 + axis].1[..edges].iter().map(|&b| f32::from_bits(b as u32)).collect();
            shape.triangles[axis] = o.lists[9 + axis].1[..triangles].iter().map(|&n| n as u32).collect();
        }
        line(&mut t, 'O', &numbers(&beside::surface_area(&shape).unwrap()));
        line(&mut t, 'W', &numbers(&beside::bounding_box(&shape).unwrap()));
    }
    t
}

// The Rust calls its library's root.
fn root(seed: u64) -> String {
    let mut t = String::new();
    let mut r = Rng::new(seed, "akf_root");
    let mut n = 0;
    while n < 300 {
        let x = make::for_root(&mut r).reals[0];
        if x >= 0.0 {
            line(&mut t, 'Q', &bits(&[x, x.sqrt()]));
            n += 1;
        }
    }
    t
}

// The programs that replay them, and what each is handed.
const PROGRAMS: [(&str, &[fn(u64) -> String]); 4] = [
    ("key_vectors", &[keys, neighbors, root, bcc_utils]),
    ("field_vectors", &[tsdf, edges]),
    ("march_vectors", &[esdf]),
    ("mesh_vectors", &[mesh]),
];
const SEED: u64 = 1;
// what a program reads
const LONGEST: usize = 65_536;

// The words of each kind of line that are answers.
const ANSWERS: [(char, std::ops::Range<usize>); 22] = [
    ('N', 4..5),
    ('D', 1..4),
    ('A', 1..16),
    ('Q', 1..2),
    ('G', 3..6),
    ('Y', 4..7),
    ('F', 3..6),
    ('J', 6..9),
    ('T', 0..5),
    ('U', 1..2),
    ('u', 0..1),
    ('E', 0..1),
    ('e', 0..2),
    ('M', 1..3),
    ('m', 0..2),
    ('B', 1..5),
    ('X', 0..5),
    ('H', 0..2),
    ('V', 0..6),
    ('K', 0..3),
    ('O', 0..1),
    ('W', 0..6),
];

// A line with the lowest bit of one word changed.
fn with_changed(line: &str, word: usize) -> String {
    let mut words: Vec<String> = line.split(' ').map(str::to_string).collect();
    words[word + 1] = format!("{:x}", u64::from_str_radix(&words[word + 1], 16).unwrap() ^ 1);
    words.join(" ")
}

// Each answer of each kind once more, in the shortest place where one stands, changed by a bit: a replay must not give it again.
fn changed(lines: &str) -> String {
    let mut text = String::new();
    let all: Vec<&str> = lines.lines().collect();
    for (letter, words) in ANSWERS {
        // from the settings before it, where it has any
        let from = |end: usize| if "NDAQGY".contains(letter) { end } else { (0..end).rev().find(|&i| all[i].starts_with('S')).unwrap() };
        // an Absent gradient has no numbers
        let places = (0..all.len()).filter(|&i| all[i].starts_with(letter) && !(letter == 'B' && all[i].contains(" 65 ")));
        let Some((begin, end)) = places.map(|i| (from(i), i)).min_by_key(|&(a, b)| all[a..=b].iter().map(|l| l.len()).sum::<usize>()) else { continue };
        for word in words.take_while(|w| w + 1 < all[end].split(' ').count()) {
            for line in &all[begin..end] {
                text += &format!("{line}\n");
            }
            text += &format!("!\n{}\n", with_changed(all[end], word));
        }
    }
    text
}

// A program's standard input, and what it prints where every answer comes out again and every changed one does not.
fn files(parts: &[fn(u64) -> String]) -> [(&'static str, String); 2] {
    let mut lines: String = parts.iter().map(|make| make(SEED)).collect();
    lines += &changed(&lines);
    assert!(lines.len() <= LONGEST, "{} bytes are more than a program reads", lines.len());
    let changed = lines.lines().filter(|l| *l == "!").count();
    let asked = lines.lines().filter(|l| !l.starts_with(['S', 'R', '!'])).count() - changed;
    [("stdin", lines), ("stdout", format!("answers of the Rust {asked}, given again {asked}; changed by a bit {changed}, seen {changed}\n"))]
}

pub fn write(crates: &Path) -> std::io::Result<()> {
    for (program, parts) in PROGRAMS {
        std::fs::create_dir_all(crates.join(program))?;
        for (name, text) in files(parts) {
            println!("{program}/{name}: {} lines, {} bytes", text.lines().count(), text.len());
            std::fs::write(crates.join(program).join(name), text)?;
        }
    }
    Ok(())
}

// How many of the stored files are not what the Rust gives today.
pub fn check(crates: &Path) -> usize {
    let mut differ = 0;
    for (program, parts) in PROGRAMS {
        for (name, text) in files(parts) {
            if std::fs::read_to_string(crates.join(program).join(name)).unwrap_or_default() != text {
                println!("  crates/{program}/{name} is not what compare/run vectors writes");
                differ += 1;
            }
        }
    }
    println!("vectors: {} programs, {differ} files differ", PROGRAMS.len());
    differ
}
