// What the cases of each call hold: how many have a cell at the ends of the lattice on one, two and three axes, odd floats, weights 0, which
// heads and how many, key 0, a lent list of fewer than nine places.
use crate::case::Case;
use crate::make::rust_key;
use crate::plain::keys::{coords_of, head_of};
use crate::plain::stl::{length_ok, vertices_in};
use crate::rng::Rng;
use crate::table::{Compared, COMPARED};
use std::collections::BTreeSet;

const COLUMNS: [&str; 18] = [
    "cases", "at 0: 1", "2", "3 axes", "at end: 1", "2", "3 axes", "+0", "-0", "subnormal", "+1e-30", "-1e-30", "weight 0", "8000-BFFF", "20 rows", "heads",
    "key 0", "short",
];

fn cells(c: &Case) -> Vec<[u16; 3]> {
    let rows = &c.keys[..c.count.min(c.keys.len())];
    let mut all: Vec<[u16; 3]> = rows.iter().chain(&c.batch_keys).chain(c.edges.iter().flatten()).chain([&c.key]).map(|&k| coords_of(k)).collect();
    if c.key == 0 {
        // a call that takes no key, or coordinates in its place
        all.pop();
        all.extend((c.coords != [0; 3]).then(|| c.coords.map(|v| v as u16)));
    }
    all
}

// The floats that a call reads, settings and weights apart; single arguments that are +0 may be ones that it does not have.
fn floats(c: &Case) -> Vec<f32> {
    let rows = &c.distances[..c.count.min(c.distances.len())];
    let vertices = c.vertices.iter().flat_map(|l| &l[..c.vertex_count.min(l.len())]);
    let single = c.reals.iter().filter(|x| x.to_bits() != 0);
    let mut all: Vec<f32> = rows.iter().chain(single).chain(&c.batch_distances).chain(&c.batch_confidences).chain(vertices).copied().collect();
    if length_ok(&c.file) {
        all.extend(vertices_in(&c.file).iter().flatten());
    }
    all
}

fn held(c: &Case) -> [bool; 18] {
    let (cells, floats) = (cells(c), floats(c));
    let any = |is: &dyn Fn(f32) -> bool| floats.iter().any(|&x| is(x));
    // the lattice ends at 0 or 1, and at 65,534 or 65,535, by parity
    let at = |axes: usize, end: fn(u16) -> bool| cells.iter().any(|p| p.iter().filter(|&&v| end(v)).count() == axes);
    let (low, high) = (|v: u16| v < 2, |v: u16| v > 65_533);
    let rows = &c.keys[..c.count.min(c.keys.len())];
    let keys: Vec<u64> = rows.iter().chain([&c.key]).copied().collect();
    [
        true,
        at(1, low),
        at(2, low),
        at(3, low),
        at(1, high),
        at(2, high),
        at(3, high),
        any(&|x| x.to_bits() == 0),
        any(&|x| x.to_bits() == 0x8000_0000),
        any(&|x| x.is_subnormal()),
        any(&|x| x == 1e-30),
        any(&|x| x == -1e-30),
        c.weights.iter().take(c.count).any(|&w| w == 0.0),
        keys.iter().all(|&k| rust_key(k)) || (0x8000..=0xbfff).contains(&c.head),
        rows.len() >= 20,
        rows.iter().map(|&k| head_of(k)).collect::<BTreeSet<_>>().len() > 1,
        rows.contains(&0),
        c.rooms.iter().any(|&n| n < 9),
    ]
}

fn line(c: &Compared, seed: u64, cases: usize) {
    let mut r = Rng::new(seed, c.name);
    let mut counts = [0; 18];
    for _ in 0..cases {
        for (n, h) in counts.iter_mut().zip(held(&(c.make)(&mut r))) {
            *n += h as usize;
        }
    }
    let shown: Vec<String> = counts.iter().map(|n| format!("{n:>10}")).collect();
    println!("{:31}{}", c.name, shown.join(""));
}

// The exponents of the roots' arguments, and how many different arguments there are.
fn roots(seed: u64, cases: usize) {
    let c = COMPARED.iter().find(|c| c.name == "akf_root").expect("a call");
    let mut r = Rng::new(seed, c.name);
    let mut asked: Vec<u32> = (0..cases * c.times).map(|_| (c.make)(&mut r).reals[0].to_bits()).collect();
    asked.sort_unstable();
    asked.dedup();
    let mut exponents: Vec<u32> = asked.iter().filter(|&&b| b < 0x7f80_0000).map(|b| b >> 23).collect();
    exponents.dedup();
    println!("akf_root: {} different arguments, {} of the 255 finite exponents", asked.len(), exponents.len());
}

pub fn print(seed: u64, cases: usize) {
    println!("seed {seed}; how many cases of each call hold what");
    println!("{:31}{}", "call", COLUMNS.map(|s| format!("{s:>10}")).concat());
    COMPARED.iter().for_each(|c| line(c, seed, cases));
    roots(seed, cases);
}
