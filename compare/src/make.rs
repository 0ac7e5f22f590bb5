// Cases: dense clumps in the middle and at the borders, odd floats, rooms around what is needed, and damage of every kind.
use crate::case::Case;
use crate::plain::keys::{coords_of, head_of, key_of, neighbours, on_lattice};
use crate::plain::table::{edges, near_surface, rows_ok, rows_of, settings_ok, lengths_ok};
use crate::plain::{closed, march, mesh, stl, FILE_LIMIT, LISTS_LIMIT, ROWS_LIMIT};
use crate::rng::Rng;

// Floats

const SUBNORMALS: [u32; 4] = [1, 2, 0x0000_0fff, 0x007f_ffff];

pub fn small_float(r: &mut Rng) -> f32 {
    let v = match r.below(8) {
        0 => 0.0,
        1 => f32::from_bits(r.pick(&SUBNORMALS)),
        2 => 1e-30,
        3 => 1e-38,
        4 => f32::from_bits(0x3586_37bd - 1 + r.below(3) as u32),
        5 => r.pick(&[0.25, 0.5, 0.75, 1.0, 2.0]),
        6 => r.unit() * 1e-6,
        _ => r.unit(),
    };
    if r.one_in(2) {
        -v
    } else {
        v
    }
}

// Any bits at all: NaNs, infinities, every exponent.
pub fn any_float(r: &mut Rng) -> f32 {
    f32::from_bits(r.next() as u32)
}

pub fn odd_float(r: &mut Rng) -> f32 {
    match r.below(6) {
        0 => r.pick(&[f32::NAN, -f32::NAN, f32::INFINITY, f32::NEG_INFINITY, f32::from_bits(0x7f80_0001)]),
        1 => r.pick(&[0.0, -0.0, f32::from_bits(1), -f32::from_bits(1), f32::MAX, f32::MIN]),
        2 => r.pick(&[1.0, 1.000_000_1, -1.0, 1_000.0, 1_000.000_06, 1_000_000.0, 1_000_000.06, -1_000_000.06, 1e8, 1.000_000_1e8]),
        3 => r.unit(),
        _ => any_float(r),
    }
}

// Settings

// Accepted settings: most ordinary, some at the ends of their ranges.
fn settings(r: &mut Rng) -> [f32; 4] {
    let truncation = match r.below(8) {
        0 => 1_000.0,
        1 => r.unit() * 1_000.0 + 1e-3,
        2 => f32::from_bits(r.pick(&SUBNORMALS)),
        3 => 0.1,
        4 => 10.0,
        _ => 1.0,
    };
    let max_weight = match r.below(8) {
        0 => 1_000_000.0,
        1 => 1e-38,
        2 => f32::from_bits(1),
        3 => 1.0,
        4 => r.unit() * 4.0 + 0.1,
        _ => 100.0,
    };
    let voxel_size = match r.below(8) {
        0 => 0.02,
        1 => 0.001,
        2 => 1_000.0,
        3 => r.unit() + 1e-3,
        4 => f32::from_bits(r.pick(&SUBNORMALS)),
        _ => 1.0,
    };
    let max_distance = match r.below(8) {
        0 => 0.0,
        1 => 1_000_000.0,
        2 => r.unit() * 3.0,
        3 => voxel_size * 1.9,
        _ => voxel_size * r.pick(&[2.0, 3.0, 1.0, 4.0]),
    };
    [truncation, max_weight, voxel_size, if max_distance <= 1_000_000.0 { max_distance } else { 2.0 }]
}

// Keys

// Heads 8000 to BFFF are the Rust's; one clump in six has another.
fn head(r: &mut Rng) -> u16 {
    match r.below(12) {
        0 => r.next() as u16,
        1 => r.pick(&[0, 1, 0x7fff, 0xc000, 0xffff]),
        2 => r.pick(&[0x8000, 0xbfff]),
        _ => 0x8000 + r.below(0x4000) as u16,
    }
}

// A box of coordinates, on 0 to 3 axes at an end.
fn corner(r: &mut Rng, extent: &[i64; 3]) -> [i64; 3] {
    let bordering = r.pick(&[0, 0, 1, 2, 3]);
    let first = r.below(3);
    let mut at = [0; 3];
    for n in 0..3 {
        let axis = (first + n) % 3;
        at[axis] = if n < bordering {
            r.pick(&[0, 65_535 - extent[axis]])
        } else if r.one_in(2) {
            10
        } else {
            r.below(65_536 - extent[axis] as usize) as i64
        };
    }
    at
}

// Lattice keys of a box, ascending, each kept by chance; sometimes under two heads.
pub fn clump(r: &mut Rng) -> Vec<u64> {
    // one in two thousand is large
    let extent = if r.one_in(2_000) { [14, 16, 18] } else { [r.pick(&[1, 2, 3, 4, 4, 6]), r.pick(&[1, 2, 3, 4]), r.pick(&[2, 3, 4])] };
    let at = corner(r, &extent);
    let dense = r.pick(&[1, 3, 6, 10, 10]);
    let base = head(r);
    let other = if r.one_in(6) { base ^ r.pick(&[1, 0x10, 0x1000]) } else { base };
    let mut keys = Vec::new();
    for x in at[0]..=at[0] + extent[0] {
        for y in at[1]..=at[1] + extent[1] {
            for z in at[2]..=at[2] + extent[2] {
                if (x - y) % 2 == 0 && (y - z) % 2 == 0 && r.below(10) < dense {
                    let head = if r.one_in(4) { other } else { base };
                    keys.push(key_of(head, x as u16, y as u16, z as u16));
                }
            }
        }
    }
    keys.sort_unstable();
    keys
}

fn off_lattice(r: &mut Rng, key: u64) -> u64 {
    key ^ r.pick(&[1, 2, 4])
}

// A key to ask for: stored, beside the clump, elsewhere.
fn asked_key(r: &mut Rng, keys: &[u64]) -> u64 {
    if keys.is_empty() || r.one_in(12) {
        let c = r.next();
        return key_of(head(r), (c as u16 & !1) | (c >> 60 & 1) as u16, ((c >> 16) as u16 & !1) | (c >> 60 & 1) as u16, ((c >> 32) as u16 & !1) | (c >> 60 & 1) as u16);
    }
    let key = r.pick(keys);
    match r.below(4) {
        0 => {
            let around = neighbours(key);
            r.pick(&around)
        }
        1 if r.one_in(4) => key ^ 0x0001_0000_0000_0000,
        _ => key,
    }
}

// Tables

fn distances(r: &mut Rng, keys: &[u64], c: &Case) -> Vec<f32> {
    let style = r.below(6);
    let span = if r.one_in(3) { c.settings[2] } else { c.settings[0] };
    let middle = keys.get(keys.len() / 2).map_or([0; 3], |&k| coords_of(k)).map(|v| v as f32);
    let values = [0.25f32, -0.25, 0.5, -0.5, 1.0, -1.0, 0.0, -0.0];
    keys.iter()
        .map(|&k| {
            let d = match style {
                0 => (r.unit() * 2.0 - 1.0) * span,
                1 => r.pick(&values),
                2 => small_float(r),
                3 => {
                    let at = coords_of(k).map(|v| v as f32);
                    let square = (0..3).map(|i| (at[i] - middle[i]) * (at[i] - middle[i])).sum::<f32>();
                    (square.sqrt() - 1.5) * c.settings[2]
                }
                4 => r.pick(&[1_000_000.0, -1_000_000.0, 1e-30, -1e-30, 0.5, -0.5, 999_999.94, 0.0, -0.0]),
                _ => {
                    if r.one_in(3) {
                        small_float(r)
                    } else {
                        (r.unit() * 2.0 - 1.0) * c.settings[0]
                    }
                }
            };
            d.clamp(-1_000_000.0, 1_000_000.0)
        })
        .collect()
}

fn weights(r: &mut Rng, n: usize, limit: f32) -> Vec<f32> {
    let style = r.below(5);
    (0..n)
        .map(|_| {
            let w = match style {
                0 => 1.0,
                1 => r.unit() * limit,
                2 => r.pick(&[0.0, -0.0, 1.0, limit, limit, f32::from_bits(1)]),
                3 => limit,
                _ => r.pick(&[0.0, 1.0, 2.0, 0.5, 1.0, 3.0]),
            };
            if w > limit {
                limit
            } else {
                w
            }
        })
        .collect()
}

// Places past the count hold anything.
fn tail(r: &mut Rng, c: &mut Case, more: usize) {
    for _ in 0..more {
        c.keys.push(r.next());
        c.distances.push(any_float(r));
        c.weights.push(any_float(r));
    }
}

// An accepted table over these keys, with some places to spare.
fn table_at(r: &mut Rng, settings: [f32; 4], keys: Vec<u64>) -> Case {
    let mut c = Case { settings, keys, ..Case::default() };
    c.distances = distances(r, &c.keys.clone(), &c);
    c.weights = weights(r, c.keys.len(), c.settings[1]);
    c.count = c.keys.len();
    let more = r.pick(&[0, 1, 2, 5, 20]);
    tail(r, &mut c, more);
    c.key = asked_key(r, &c.keys[..c.count].to_vec());
    c.reals[0] = threshold(r, &c);
    c
}

// An accepted table.
pub fn table(r: &mut Rng) -> Case {
    let settings = settings(r);
    let keys = if r.one_in(40) { Vec::new() } else { clump(r) };
    table_at(r, settings, keys)
}

fn threshold(r: &mut Rng, c: &Case) -> f32 {
    match r.below(6) {
        0 => small_float(r),
        1 => c.settings[0],
        2 if c.count > 0 => {
            // at a stored size, and the floats around it
            let d = c.distances[r.below(c.count)].abs();
            f32::from_bits((d.to_bits() + r.below(3) as u32).saturating_sub(1))
        }
        3 => 0.5,
        4 => 1e9,
        _ => r.unit() * 2.0 * c.settings[2],
    }
}

// Damage: anything that a test of document 01 is about

fn spoil_list<T: Clone + Default>(r: &mut Rng, list: &mut Vec<T>) {
    if r.one_in(2) || list.is_empty() {
        list.push(T::default());
    } else {
        list.pop();
    }
}

fn spoil_row(r: &mut Rng, c: &mut Case) {
    let lens = [c.keys.len(), c.distances.len(), if c.weights.is_empty() { usize::MAX } else { c.weights.len() }];
    let n = c.count.min(*lens.iter().min().unwrap());
    if n == 0 {
        return;
    }
    let i = r.below(n);
    match r.below(7) {
        0 => c.keys[i] = off_lattice(r, c.keys[i]),
        1 => c.keys[i] = c.keys[r.below(n)],
        2 => {
            let j = r.below(n);
            c.keys.swap(i, j);
        }
        3 => c.distances[i] = odd_float(r),
        4 => c.distances[i] = r.pick(&[1_000_000.06, -1_000_000.06, f32::NAN, f32::INFINITY]),
        5 if i < c.weights.len() => c.weights[i] = odd_float(r),
        6 if i < c.weights.len() => c.weights[i] = f32::from_bits((c.settings[1].to_bits() & 0x7fff_ffff).saturating_add(1)),
        _ => {}
    }
}

fn spoil_count(r: &mut Rng, count: &mut usize, len: usize) {
    *count = match r.below(4) {
        0 => len + 1,
        1 => usize::MAX,
        2 => len,
        _ => r.below(len + 1),
    }
}

fn spoil_limit(r: &mut Rng, c: &mut Case) {
    let n = ROWS_LIMIT + r.below(2);
    c.keys.resize(n, 0);
    c.distances.resize(n, 0.0);
    c.weights.resize(n, 0.0);
}

fn spoil_table(r: &mut Rng, c: &mut Case) {
    match r.below(8) {
        0 | 1 => c.settings[r.below(4)] = odd_float(r),
        2 => match r.below(3) {
            0 => spoil_list(r, &mut c.keys),
            1 => spoil_list(r, &mut c.distances),
            _ => spoil_list(r, &mut c.weights),
        },
        3 => spoil_count(r, &mut c.count, c.keys.len()),
        4 if r.one_in(400) => spoil_limit(r, c),
        4 => c.settings[r.below(4)] = r.pick(&[0.0, -0.0, 1_000.0, 1_000.000_06, 1_000_000.0, 1_000_000.06, f32::from_bits(1)]),
        _ => spoil_row(r, c),
    }
}

fn spoil_argument(r: &mut Rng, c: &mut Case) {
    if r.one_in(2) {
        c.key = if r.one_in(2) { off_lattice(r, c.key) } else { r.next() };
    } else {
        let i = r.below(5);
        c.reals[i] = odd_float(r);
    }
}

fn spoil_rooms(r: &mut Rng, c: &mut Case) {
    if c.rooms.is_empty() {
        return;
    }
    let i = r.below(c.rooms.len());
    if r.one_in(800) {
        // at the limit, and past it
        let n = LISTS_LIMIT + r.below(2);
        if r.one_in(2) {
            c.rooms.fill(n);
        } else {
            c.rooms[i] = n;
        }
    } else {
        c.rooms[i] = r.pick(&[0, c.rooms[i] + 1, c.rooms[i].saturating_sub(1), 3]);
    }
}

// None in seven of ten cases, one in two, two in one.
fn damaged(r: &mut Rng, c: &mut Case, kinds: &[fn(&mut Rng, &mut Case)]) {
    let times = r.pick(&[0, 0, 0, 0, 0, 0, 0, 1, 1, 2]);
    for _ in 0..times {
        let kind = r.pick(kinds);
        kind(r, c);
    }
}

// A room around what is needed.
fn room(r: &mut Rng, needed: usize) -> usize {
    match r.below(8) {
        0 => needed.saturating_sub(1),
        1 => r.below(needed + 1),
        2 | 3 => needed,
        4 => needed + 1,
        _ => needed + r.below(30),
    }
}

// A case for each call

fn lattice_coords(r: &mut Rng) -> [i32; 3] {
    let odd = r.below(2) as i32;
    [0; 3].map(|_| {
        let v = match r.below(4) {
            0 => r.below(4) as i32,
            1 => 65_535 - r.below(4) as i32,
            _ => r.next() as u16 as i32,
        };
        v & !1 | odd
    })
}

pub fn for_new(r: &mut Rng) -> Case {
    let mut c = Case { head: head(r), coords: lattice_coords(r), ..Case::default() };
    damaged(r, &mut c, &[|r, c| c.coords[r.below(3)] ^= 1, |r, c| c.head = r.next() as u16]);
    c
}

pub fn for_key(r: &mut Rng) -> Case {
    let [x, y, z] = lattice_coords(r).map(|v| v as u16);
    let mut c = Case { key: key_of(head(r), x, y, z), ..Case::default() };
    damaged(r, &mut c, &[|r, c| c.key = off_lattice(r, c.key), |r, c| c.key = r.next()]);
    c
}

pub fn for_neighbors(r: &mut Rng) -> Case {
    let mut c = for_key(r);
    c.rooms = vec![room(r, neighbours(c.key).len())];
    damaged(r, &mut c, &[spoil_rooms]);
    c
}

pub fn for_root(r: &mut Rng) -> Case {
    let mut c = Case::default();
    c.reals[0] = match r.below(8) {
        0 => odd_float(r),
        1 => small_float(r),
        2 => {
            // squares, and the floats beside them
            let v = r.below(1 << 24) as f32;
            f32::from_bits((v * v).to_bits().wrapping_add(r.below(3) as u32).wrapping_sub(1))
        }
        3 => f32::from_bits(r.below(256) as u32 * 0x0080_0000 + r.pick(&[0, 1, 2, 0x7f_fffe, 0x7f_ffff])),
        _ => f32::from_bits(r.next() as u32 & 0x7fff_ffff),
    };
    c
}

fn whole(r: &mut Rng) -> i32 {
    match r.below(6) {
        0 => r.below(8) as i32 - 4,
        1 => i32::MAX - r.below(4) as i32,
        2 => i32::MIN + r.below(4) as i32,
        3 => r.below(2000) as i32 - 1000,
        _ => r.next() as i32,
    }
}

pub fn for_snap(r: &mut Rng) -> Case {
    Case { coords: [whole(r), whole(r), whole(r)], ..Case::default() }
}

pub fn for_physical(r: &mut Rng) -> Case {
    let mut c = Case { settings: settings(r), ..Case::default() };
    for i in 0..3 {
        c.reals[i] = match r.below(8) {
            0 => small_float(r),
            // halves, where rounding turns
            1 => (r.below(41) as f32 - 20.0) * 0.5 * c.settings[2],
            2 => f32::from_bits(((r.below(41) as f32 - 20.0) * 0.5 * c.settings[2]).to_bits().wrapping_add(r.below(3) as u32).wrapping_sub(1)),
            3 => r.pick(&[2_147_483_648.0, -2_147_483_648.0, 2_147_483_520.0, -2_147_483_904.0, 8_388_607.5, 16_777_215.0]) * c.settings[2],
            4 => any_float(r),
            _ => (r.unit() * 2.0 - 1.0) * 1e4 * c.settings[2],
        };
        if !c.reals[i].is_finite() && !r.one_in(8) {
            c.reals[i] = 1.5;
        }
    }
    damaged(r, &mut c, &[|r, c| c.settings[2] = odd_float(r), |r, c| c.reals[r.below(3)] = odd_float(r)]);
    c
}

fn confidence(r: &mut Rng) -> f32 {
    match r.below(8) {
        0 => r.pick(&[0.0, -0.0, f32::from_bits(1), 1e-30]),
        1 | 2 => r.unit(),
        _ => 1.0,
    }
}

// Readings within the truncation, at it, past it.
fn reading(r: &mut Rng, c: &Case) -> f32 {
    let t = c.settings[0];
    match r.below(10) {
        0 => t,
        1 => -t,
        2 => f32::from_bits(t.to_bits() + 1),
        3 => small_float(r),
        4 => t * 0.5,
        _ => (r.unit() * 2.0 - 1.0) * t,
    }
}

// A direct reading.
pub fn direct(r: &mut Rng, c: &mut Case) {
    c.reals[0] = reading(r, c);
    c.reals[1] = confidence(r);
}

pub fn for_fuse(r: &mut Rng) -> Case {
    let mut c = table(r);
    direct(r, &mut c);
    damaged(r, &mut c, &[spoil_table, spoil_argument, spoil_table]);
    c
}

// A ray to the asked key.
pub fn ray(r: &mut Rng, c: &mut Case) {
    let size = c.settings[2];
    let place = coords_of(c.key).map(|v| v as f32 * size);
    let mut square = 0.0f32;
    for i in 0..3 {
        c.reals[i] = match r.below(4) {
            0 => place[i],
            1 if r.one_in(8) => r.pick(&[3e38, -3e38, 1e20, 1e19]),
            _ => place[i] + (r.unit() * 2.0 - 1.0) * c.settings[0].max(size) * 2.0,
        };
        square += (place[i] - c.reals[i]) * (place[i] - c.reals[i]);
    }
    c.reals[3] = if r.one_in(8) { small_float(r) } else { square.sqrt() + reading(r, c) };
    if !c.reals[3].is_finite() {
        c.reals[3] = 3e38;
    }
    c.reals[4] = confidence(r);
}

pub fn for_ray(r: &mut Rng) -> Case {
    let mut c = table(r);
    ray(r, &mut c);
    damaged(r, &mut c, &[spoil_table, spoil_argument, spoil_table]);
    c
}

// Most readings on a few keys, so that weights fill up; some long.
pub fn for_batch(r: &mut Rng) -> Case {
    let mut c = table(r);
    if r.one_in(3) {
        c.count = 0;
    }
    let stored = c.keys[..c.count].to_vec();
    let mut pool: Vec<u64> = (0..r.pick(&[1, 2, 5, 20])).map(|_| asked_key(r, &stored)).collect();
    if stored.is_empty() {
        pool.extend(clump(r));
    }
    // one in a hundred comes back to its keys a thousand times and more
    let n = if r.one_in(100) { 1_000 + r.below(2_000) } else { r.pick(&[0, 1, 3, 10, 40, 120]) };
    for _ in 0..n {
        c.batch_keys.push(r.pick(&pool));
        c.batch_distances.push(reading(r, &c));
        c.batch_confidences.push(confidence(r));
    }
    let more = r.pick(&[0, 1, 4, 30, 30]);
    tail(r, &mut c, more);
    damaged(r, &mut c, &[spoil_table, spoil_batch, spoil_batch]);
    c
}

fn spoil_batch(r: &mut Rng, c: &mut Case) {
    let n = c.batch_keys.len();
    match r.below(6) {
        0 if r.one_in(3) => spoil_list(r, &mut c.batch_keys),
        1 if r.one_in(3) => spoil_list(r, &mut c.batch_distances),
        2 if r.one_in(200) => {
            let m = ROWS_LIMIT + 1;
            c.batch_keys.resize(m, 0);
            c.batch_distances.resize(m, 0.0);
            c.batch_confidences.resize(m, 0.0);
        }
        3 if n > 0 => c.batch_keys[r.below(n)] ^= 1,
        4 if c.batch_distances.len() > 0 => {
            let i = r.below(c.batch_distances.len());
            c.batch_distances[i] = odd_float(r);
        }
        _ if c.batch_confidences.len() > 0 => {
            let i = r.below(c.batch_confidences.len());
            c.batch_confidences[i] = odd_float(r);
        }
        _ => {}
    }
}

pub fn for_question(r: &mut Rng) -> Case {
    let mut c = table(r);
    damaged(r, &mut c, &[spoil_table, spoil_argument]);
    c
}

pub fn for_stats(r: &mut Rng) -> Case {
    let mut c = table(r);
    if r.one_in(4) {
        for d in &mut c.distances[..c.count] {
            *d = r.pick(&[0.0, -0.0]);
        }
    }
    damaged(r, &mut c, &[spoil_table]);
    c
}

pub fn accepted(c: &Case) -> bool {
    settings_ok(c.settings()) && lengths_ok(c.table()) && rows_ok(c.settings(), c.table())
}

pub fn for_surface(r: &mut Rng) -> Case {
    let mut c = table(r);
    let needed = rows_of(c.table()).iter().filter(|w| near_surface(w, c.reals[0])).count();
    c.rooms = vec![room(r, needed)];
    damaged(r, &mut c, &[spoil_table, spoil_rooms, |r, c| c.reals[0] = odd_float(r)]);
    c
}

pub fn for_edges(r: &mut Rng) -> Case {
    let mut c = table(r);
    let n = room(r, edges(&rows_of(c.table())).len());
    c.rooms = vec![n; 2];
    damaged(r, &mut c, &[spoil_table, spoil_rooms]);
    c
}

// One cell or two under up to eight heads: keys that differ in their high bits alone.
fn under_many_heads(r: &mut Rng) -> Vec<u64> {
    let at = corner(r, &[2, 2, 2]);
    let (base, apart) = (head(r), r.pick(&[1, 1, 0x10, 0x800]));
    let heads = (0..1 + r.below(8) as u16).map(|i| base.wrapping_add(apart * i));
    let odd = (at[0] & 1) as u16;
    let [x, y, z] = at.map(|v| v as u16 & !1 | odd);
    let mut keys: Vec<u64> = heads.flat_map(|head| [key_of(head, x, y, z), key_of(head, x ^ 1, y ^ 1, z ^ 1)]).filter(|_| !r.one_in(3)).collect();
    keys.sort_unstable();
    keys
}

// Cells about (0, 0, 0) under head 0, whose key is 0, that cell among them.
fn about_key_0(r: &mut Rng) -> Vec<u64> {
    let near = neighbours(0).into_iter().filter(|_| r.one_in(3));
    let mut keys: Vec<u64> = [0].into_iter().chain(near).collect();
    keys.sort_unstable();
    keys
}

// A table to march over: in one of six under several heads, in one of six about key 0.
fn marchable(r: &mut Rng) -> Case {
    match r.below(6) {
        0 => {
            let (settings, keys) = (settings(r), under_many_heads(r));
            table_at(r, settings, keys)
        }
        1 => {
            let (settings, keys) = (settings(r), about_key_0(r));
            table_at(r, settings, keys)
        }
        _ => table(r),
    }
}

// A march's rooms are kept small, so that one that would fill the lattice is refused soon.
pub fn for_march(r: &mut Rng) -> Case {
    let mut c = marchable(r);
    if c.count > 12 && r.one_in(2) {
        // a few rows give most of the ways to tie
        c.count = 1 + r.below(12);
    }
    if c.count > 0 && r.one_in(4) {
        // a maximum distance that an estimate meets, or misses by one float
        let step = f32::from_bits(0x3fdd_b3d7) * c.settings[2];
        let near = c.distances[r.below(c.count)].abs() + step;
        let at = if r.one_in(3) { near } else { near + step };
        let at = f32::from_bits((at.to_bits() + r.below(3) as u32).saturating_sub(1));
        if at <= 1_000_000.0 {
            c.settings[3] = at;
        }
    }
    let (rows, waiting, _) = march::rooms(c.settings(), &rows_of(c.table()), c.reals[0], 300 + 3 * c.count, 700 + 3 * c.count);
    let (a, b) = (room(r, rows), room(r, waiting));
    // one of the two is enough in most cases; lists of a few places, and of any number too small, the fourth and the fifth
    c.rooms = match r.below(7) {
        0 => vec![a, a, waiting, waiting],
        1 => vec![rows + 3, rows + 3, b, b],
        2 => vec![a, a, b, b],
        3 => {
            let (few, fewer) = (r.below(9), r.below(20));
            vec![few, few, fewer, fewer]
        }
        4 => {
            let some = r.below(rows + 1);
            vec![some, some, waiting + 40, waiting + 40]
        }
        _ => vec![rows, rows, waiting + 2, waiting + 2],
    };
    damaged(r, &mut c, &[spoil_table, spoil_rooms, |r, c| c.reals[0] = odd_float(r)]);
    // lists at their limit only for a march that ends soon
    if c.rooms.iter().any(|&n| n > 1_000) && accepted(&c) && !march::rooms(c.settings(), &rows_of(c.table()), c.reals[0], 300, 700).2 {
        c.rooms = vec![300, 300, 700, 700];
    }
    c
}

pub fn for_mesh(r: &mut Rng) -> Case {
    let mut c = table(r);
    let m = mesh::mesh(c.settings(), &rows_of(c.table()));
    let (e, g, t) = (m.edges.len(), m.groups.len(), m.triangles.len());
    let mut rooms = [e + r.below(3), e + r.below(3), g + r.below(3), t + r.below(3)];
    if r.one_in(3) {
        let i = r.below(4);
        rooms[i] = room(r, [e, e, g, t][i]);
    }
    c.rooms = vec![rooms[0]; 2];
    c.rooms.extend([rooms[1]; 6]);
    c.rooms.push(rooms[2]);
    c.rooms.extend([rooms[3]; 3]);
    damaged(r, &mut c, &[spoil_table, spoil_rooms]);
    c
}

// Bodies: fields that lie closed in their table, but for what a border, a hole or a weight of 0 takes away

type Body = fn(&mut Rng) -> Box<dyn Fn([f32; 3]) -> f32>;

fn length_to(at: [f32; 3], middle: [f32; 3]) -> f32 {
    (0..3).map(|i| (at[i] - middle[i]) * (at[i] - middle[i])).sum::<f32>().sqrt()
}

// How many cells a place lies outside a ball, about the origin; a radius of 1 crosses the edges of a single cell.
fn ball(r: &mut Rng) -> Box<dyn Fn([f32; 3]) -> f32> {
    let middle = [0; 3].map(|_| r.pick(&[0.0, 0.5, 1.0, 0.3]));
    let radius = r.pick(&[1.0, 1.5, 2.0, 2.5]);
    Box::new(move |at| length_to(at, middle) - radius)
}

// Heel and toe.
fn small_last(r: &mut Rng) -> Box<dyn Fn([f32; 3]) -> f32> {
    let (heel, toe, length) = (r.pick(&[1.5, 2.0]), r.pick(&[1.0, 1.4]), r.pick(&[2.0, 3.0]));
    Box::new(move |at| {
        let x = at[0].clamp(0.0, length);
        length_to(at, [x, 0.0, 0.0]) - (heel + (toe - heel) * x / length)
    })
}

// Two balls, apart or touching.
fn two_balls(r: &mut Rng) -> Box<dyn Fn([f32; 3]) -> f32> {
    let far = r.pick(&[2.0, 2.5, 3.0]);
    Box::new(move |at| (length_to(at, [0.0; 3]) - 1.2).min(length_to(at, [far, 1.0, 0.0]) - 1.2))
}

// Where a body's own origin stands: inside the box of coordinates, or so near to its border on one to three axes that a part falls off.
fn stand(r: &mut Rng) -> [i64; 3] {
    let bordering = r.pick(&[0, 0, 1, 2, 3]);
    let first = r.below(3);
    let mut at = [0; 3];
    for n in 0..3 {
        let axis = (first + n) % 3;
        at[axis] = if n < bordering { r.pick(&[0, 1, 3, 65_532, 65_534, 65_535]) } else { r.pick(&[100, 1_023, 32_768]) };
    }
    at
}

// The lattice cells within some cells of a body's surface that lie in the box of coordinates, with their distances in cells.
fn band(body: &dyn Fn([f32; 3]) -> f32, at: [i64; 3], within: f32) -> Vec<([u16; 3], f32)> {
    let mut all = Vec::new();
    for x in -6..=9i64 {
        for y in -6..=6i64 {
            for z in -6..=6i64 {
                let cell = [at[0] + x, at[1] + y, at[2] + z];
                let lattice = (cell[0] - cell[1]) % 2 == 0 && (cell[1] - cell[2]) % 2 == 0;
                let d = body([x as f32, y as f32, z as f32]);
                if lattice && d.abs() <= within && cell.iter().all(|c| (0..=65_535).contains(c)) {
                    all.push((cell.map(|c| c as u16), d));
                }
            }
        }
    }
    all
}

// The rows of a body: under one head, or some cells under another or under both.
fn under_heads(r: &mut Rng, cells: &[([u16; 3], f32)]) -> Vec<(u64, f32)> {
    let base = head(r);
    let other = base ^ r.pick(&[1, 0x10, 0x1000]);
    let several = r.one_in(6);
    let mut rows = Vec::new();
    for &([x, y, z], d) in cells {
        let (mine, theirs) = if several { r.pick(&[(true, true), (true, false), (false, true)]) } else { (true, false) };
        if mine {
            rows.push((key_of(base, x, y, z), d));
        }
        if theirs {
            rows.push((key_of(other, x, y, z), -d));
        }
    }
    rows.sort_unstable_by_key(|row| row.0);
    rows
}

// Takes rows away here and there, or none.
fn with_holes(r: &mut Rng, rows: &mut Vec<(u64, f32)>) {
    if r.one_in(3) {
        let seldom = r.pick(&[60, 15, 4]);
        rows.retain(|_| !r.one_in(seldom));
    }
}

// Puts zeros of both signs, and values about 1e-6 and far below it, in the place of distances here and there, or none.
fn with_zeros(r: &mut Rng, rows: &mut [(u64, f32)]) {
    if r.one_in(3) {
        let seldom = r.pick(&[20, 4, 2]);
        for row in rows {
            if r.one_in(seldom) {
                row.1 = if r.one_in(4) { small_float(r) } else { r.pick(&[0.0, -0.0, 1e-30, -1e-30]) };
            }
        }
    }
}

// Weights above 0, or here and there a 0 of either sign.
fn body_weights(r: &mut Rng, n: usize, limit: f32) -> Vec<f32> {
    let seldom = r.pick(&[0, 0, 40, 8]);
    (0..n).map(|_| if seldom > 0 && r.one_in(seldom) { r.pick(&[0.0, -0.0]) } else { r.pick(&[limit, limit.min(1.0)]) }).collect()
}

fn body_table(r: &mut Rng) -> Case {
    let mut c = Case { settings: settings(r), ..Case::default() };
    let make: Body = r.pick(&[ball as Body, ball, small_last, two_balls]);
    let body = make(r);
    // 2.2 cells are enough to close; with fewer there are holes
    let cells = band(&*body, stand(r), r.pick(&[2.2, 2.2, 2.5, 1.5]));
    let mut rows = under_heads(r, &cells);
    with_holes(r, &mut rows);
    let size = c.settings[2];
    rows.iter_mut().for_each(|row| row.1 *= size);
    with_zeros(r, &mut rows);
    (c.keys, c.distances) = rows.into_iter().unzip();
    c.weights = body_weights(r, c.keys.len(), c.settings[1]);
    c.count = c.keys.len();
    c.key = asked_key(r, &c.keys);
    let more = r.pick(&[0, 1, 5]);
    tail(r, &mut c, more);
    c
}

// Every cell of a box stored, with any sides.
fn full_table(r: &mut Rng) -> Case {
    let mut c = Case { settings: settings(r), ..Case::default() };
    let extent = [r.pick(&[2, 3, 4, 5]), r.pick(&[2, 3, 4]), r.pick(&[2, 3, 4])];
    let at = corner(r, &extent);
    let mut cells = Vec::new();
    for x in at[0]..=at[0] + extent[0] {
        for y in at[1]..=at[1] + extent[1] {
            for z in at[2]..=at[2] + extent[2] {
                if (x - y) % 2 == 0 && (y - z) % 2 == 0 {
                    cells.push(([x as u16, y as u16, z as u16], 0.0));
                }
            }
        }
    }
    let rows = under_heads(r, &cells);
    c.keys = rows.into_iter().map(|row| row.0).collect();
    c.distances = distances(r, &c.keys.clone(), &c);
    c.weights = body_weights(r, c.keys.len(), c.settings[1]);
    c.count = c.keys.len();
    c.key = asked_key(r, &c.keys);
    c
}

// For both calls of the mesh that closes. Rooms for edges, vertices and triangles: enough, or for one of the three around what is needed, most often exactly enough or one too few.
pub fn for_closed_mesh(r: &mut Rng) -> Case {
    let make = r.pick(&[table as fn(&mut Rng) -> Case, full_table, body_table, body_table]);
    let mut c = make(r);
    let m = closed::closed(c.settings(), &rows_of(c.table()));
    let needed = [m.edges.len(), m.edges.len(), m.triangles.len()];
    let mut rooms = needed.map(|n| n + r.below(3));
    if r.one_in(3) {
        let i = r.below(3);
        rooms[i] = if r.one_in(2) { needed[i].saturating_sub(r.below(2)) } else { room(r, needed[i]) };
    }
    c.rooms = vec![rooms[0]; 2];
    c.rooms.extend([rooms[1]; 6]);
    c.rooms.extend([rooms[2]; 3]);
    damaged(r, &mut c, &[spoil_table, spoil_rooms]);
    c
}

// Marched tables: what a march gives, or any accepted keys and distances.
pub fn marched(r: &mut Rng) -> Case {
    let mut c = table(r);
    if r.one_in(3) {
        let (keys, distances) = march::rows(c.settings(), &rows_of(c.table()), c.reals[0], 120, 400);
        if !keys.is_empty() {
            c.count = keys.len();
            c.keys = keys;
            c.distances = distances;
            let more = r.below(3);
            tail(r, &mut c, more);
            c.key = asked_key(r, &c.keys[..c.count].to_vec());
            c.reals[0] = threshold(r, &c);
        }
    }
    c.weights = Vec::new();
    c.settings = [0.0; 4];
    c
}

fn spoil_marched(r: &mut Rng, c: &mut Case) {
    match r.below(6) {
        0 => spoil_list(r, &mut c.keys),
        1 => spoil_list(r, &mut c.distances),
        2 => spoil_count(r, &mut c.count, c.keys.len()),
        3 if r.one_in(400) => {
            let n = LISTS_LIMIT + r.below(2);
            c.keys.resize(n, 0);
            c.distances.resize(n, 0.0);
        }
        _ => spoil_row(r, c),
    }
}

pub fn for_marched_question(r: &mut Rng) -> Case {
    let mut c = marched(r);
    damaged(r, &mut c, &[spoil_marched, spoil_argument]);
    c
}

pub fn for_marched_stats(r: &mut Rng) -> Case {
    let mut c = marched(r);
    if r.one_in(4) {
        for d in &mut c.distances[..c.count] {
            *d = r.pick(&[0.0, -0.0]);
        }
    }
    damaged(r, &mut c, &[spoil_marched]);
    c
}

pub fn for_within(r: &mut Rng) -> Case {
    let mut c = marched(r);
    let n = c.distances[..c.count].iter().filter(|d| d.abs() <= c.reals[0]).count();
    c.rooms = vec![room(r, n); 2];
    damaged(r, &mut c, &[spoil_marched, spoil_rooms, |r, c| c.reals[0] = odd_float(r)]);
    c
}

// Vertices and triangles: those of a mesh, or any.
pub fn shape(r: &mut Rng) -> Case {
    let mut c = Case::default();
    if r.one_in(2) {
        let t = table(r);
        let m = mesh::mesh(t.settings(), &rows_of(t.table()));
        for axis in 0..3 {
            c.vertices[axis] = m.vertices.iter().map(|v| v.place[axis]).collect();
            c.triangles[axis] = m.triangles.iter().take(300).map(|t| t[axis]).collect();
        }
    } else {
        let n = r.pick(&[0, 1, 2, 3, 8, 20]);
        let style = r.below(4);
        for axis in 0..3 {
            for _ in 0..n {
                let v = match style {
                    0 => small_float(r),
                    1 => r.pick(&[0.0, -0.0, 1.0, -1.0]),
                    2 => (r.unit() * 2.0 - 1.0) * 1e8,
                    _ => r.pick(&[1e8, -1e8, 0.0, 99_999_992.0, 0.5]),
                };
                c.vertices[axis].push(v);
            }
            let m = if n == 0 { 0 } else { r.pick(&[0, 1, 5, 30]) };
            let m = if axis == 0 { m } else { c.triangles[0].len() };
            c.triangles[axis] = (0..m).map(|_| r.below(n) as u32).collect();
        }
    }
    c.vertex_count = c.vertices[0].len();
    c.triangle_count = c.triangles[0].len();
    for axis in 0..3 {
        for _ in 0..r.pick(&[0, 0, 2]).min(if axis == 0 { 2 } else { 0 }) {
            for axis in 0..3 {
                c.vertices[axis].push(any_float(r));
                c.triangles[axis].push(r.next() as u32);
            }
        }
    }
    c
}

fn spoil_shape(r: &mut Rng, c: &mut Case) {
    let i = r.below(3);
    match r.below(8) {
        0 => spoil_list(r, &mut c.vertices[i]),
        1 => spoil_list(r, &mut c.triangles[i]),
        2 => spoil_count(r, &mut c.vertex_count, c.vertices[0].len()),
        3 => spoil_count(r, &mut c.triangle_count, c.triangles[0].len()),
        4 if r.one_in(200) => {
            let n = LISTS_LIMIT + r.below(2);
            if r.one_in(2) {
                c.vertices.iter_mut().for_each(|l| l.resize(n, 0.0));
            } else {
                c.triangles.iter_mut().for_each(|l| l.resize(n, 0));
            }
        }
        5 if !c.triangles[i].is_empty() => {
            let k = r.below(c.triangles[i].len());
            c.triangles[i][k] = r.pick(&[c.vertex_count as u32, u32::MAX, 0, c.vertex_count.wrapping_add(1) as u32]);
        }
        _ if !c.vertices[i].is_empty() => {
            let k = r.below(c.vertices[i].len());
            c.vertices[i][k] = odd_float(r);
        }
        _ => {}
    }
}

pub fn for_shape(r: &mut Rng) -> Case {
    let mut c = shape(r);
    damaged(r, &mut c, &[spoil_shape]);
    c
}

pub fn for_normals(r: &mut Rng) -> Case {
    let mut c = shape(r);
    if r.one_in(2) {
        for axis in 0..3 {
            for v in &mut c.vertices[axis] {
                *v = if r.one_in(40) { any_float(r) } else { r.pick(&[0.0, -0.0]) };
            }
        }
    }
    damaged(r, &mut c, &[spoil_shape]);
    c
}

// Files of document 02's No. 1

fn spoil_file_room(r: &mut Rng, c: &mut Case) {
    let n = c.rooms[0];
    c.rooms[0] = if r.one_in(300) {
        // at the limit, and past it
        FILE_LIMIT + r.below(2)
    } else {
        r.pick(&[0, 1, 80, 83, 84, n + 1, n.saturating_sub(1), n.saturating_sub(50), n + 50])
    };
}

pub fn for_export(r: &mut Rng) -> Case {
    let mut c = shape(r);
    c.rooms = vec![room(r, 84 + 50 * c.triangle_count)];
    if r.one_in(6) {
        spoil_shape(r, &mut c);
    }
    damaged(r, &mut c, &[spoil_shape, spoil_file_room]);
    c
}

// The file of a mesh.
pub fn stl_file(r: &mut Rng) -> Vec<u8> {
    let c = shape(r);
    stl::file_of(&mesh::corners(c.places(), c.triangles()).expect("a mesh that is not damaged"))
}

// Header, normals and attributes, which are not looked at, may hold anything.
fn fill_ignored(r: &mut Rng, file: &mut [u8]) {
    if r.one_in(2) {
        file[..80].iter_mut().for_each(|b| *b = r.next() as u8);
        // some programs take a file that begins so for text
        file[..5].copy_from_slice(r.pick(&[b"solid", b"STL: "]));
    }
    if r.one_in(2) {
        for triangle in file[84..].chunks_exact_mut(50) {
            triangle[..12].chunks_exact_mut(4).for_each(|part| part.copy_from_slice(&odd_float(r).to_le_bytes()));
            triangle[48..].copy_from_slice(&r.pick(&[0u16, 1, 0x8000, 65_535]).to_le_bytes());
        }
    }
}

// Cut short or lengthened.
fn spoil_length(r: &mut Rng, c: &mut Case) {
    let n = c.file.len();
    let less = r.below(n + 1);
    let to = r.pick(&[n + 1, n.saturating_sub(1), n + 50, n.saturating_sub(50), 0, 80, 83, 84, 134, less, less]);
    c.file.resize_with(to, || r.next() as u8);
}

// Another count: one off, one whose length is the file's where sums wrap at 32 bits, bytes the other way round, any.
fn spoil_stl_count(r: &mut Rng, c: &mut Case) {
    if let Some(field) = c.file.get_mut(80..84) {
        let n = u32::from_le_bytes([field[0], field[1], field[2], field[3]]);
        let any = r.next() as u32;
        let count = r.pick(&[n.wrapping_add(1), n.wrapping_sub(1), n ^ 1 << 31, u32::MAX, n.swap_bytes(), 0, n.wrapping_mul(3), any]);
        field.copy_from_slice(&count.to_le_bytes());
    }
}

// One part of a triangle: a position's or a normal's, most often one at the ends of the range.
fn spoil_part(r: &mut Rng, c: &mut Case) {
    let triangles = c.file.len().saturating_sub(84) / 50;
    if triangles > 0 {
        let at = 84 + 50 * r.below(triangles) + 4 * r.below(12);
        let ends = [f32::NAN, f32::INFINITY, f32::NEG_INFINITY, 100_000_008.0, -100_000_008.0, 1e8, -1e8, -0.0, f32::from_bits(1)];
        let part = if r.one_in(3) { odd_float(r) } else { r.pick(&ends) };
        c.file[at..at + 4].copy_from_slice(&part.to_le_bytes());
    }
}

// Two triangles in each other's place.
fn swap_triangles(r: &mut Rng, c: &mut Case) {
    let triangles = c.file.len().saturating_sub(84) / 50;
    if triangles > 0 {
        let (a, b) = (84 + 50 * r.below(triangles), 84 + 50 * r.below(triangles));
        (0..50).for_each(|i| c.file.swap(a + i, b + i));
    }
}

// A file at the limit, and past it, most often with the count that fits it.
fn spoil_file_limit(r: &mut Rng, c: &mut Case) {
    c.file.resize(FILE_LIMIT + r.below(2), 0);
    if !r.one_in(4) {
        c.file[80..84].copy_from_slice(&(LISTS_LIMIT as u32).to_le_bytes());
    }
}

fn spoil_file(r: &mut Rng, c: &mut Case) {
    match r.below(8) {
        0 | 1 => spoil_length(r, c),
        2 | 3 => spoil_stl_count(r, c),
        4 => swap_triangles(r, c),
        5 if r.one_in(80) => spoil_file_limit(r, c),
        5 if !c.file.is_empty() => {
            let i = r.below(c.file.len());
            c.file[i] = r.next() as u8;
        }
        _ => spoil_part(r, c),
    }
}

pub fn for_import(r: &mut Rng) -> Case {
    let mut c = Case { file: stl_file(r), ..Case::default() };
    let vertices = (c.file.len() - 84) / 50 * 3;
    fill_ignored(r, &mut c.file);
    c.rooms = vec![room(r, vertices); 3];
    if r.one_in(3) {
        spoil_part(r, &mut c);
    }
    damaged(r, &mut c, &[spoil_file, spoil_file, spoil_rooms]);
    c
}

// Groups: those of an edge list, or damaged edges with any numbers.
pub fn for_groups(r: &mut Rng) -> Case {
    let t = table(r);
    let m = mesh::mesh(t.settings(), &rows_of(t.table()));
    let mut c = Case { groups: m.groups, edge_count: m.edges.len(), ..Case::default() };
    c.edges = [m.edges.iter().map(|e| e.0).collect(), m.edges.iter().map(|e| e.1).collect()];
    c.key = if r.one_in(8) || c.edges[0].is_empty() {
        t.key
    } else {
        let side = r.below(2);
        let list = c.edges[side].clone();
        r.pick(&list)
    };
    for _ in 0..r.pick(&[0, 0, 1, 3]) {
        c.edges[0].push(r.next());
        c.edges[1].push(r.next());
        c.groups.push(r.next() as u32);
    }
    if r.one_in(8) && !c.edges[1].is_empty() && c.edge_count > 0 {
        // the last groups, and a list that ends in or before one
        c.key = c.edges[1][c.edge_count - 1];
        let n = (2 * c.edge_count).saturating_sub(r.below(8));
        c.groups.truncate(n);
    }
    damaged(r, &mut c, &[spoil_groups]);
    c
}

fn spoil_groups(r: &mut Rng, c: &mut Case) {
    let i = r.below(2);
    match r.below(8) {
        0 => spoil_list(r, &mut c.edges[i]),
        1 => spoil_count(r, &mut c.edge_count, c.edges[0].len()),
        2 => {
            let n = r.below(c.groups.len() + 1);
            c.groups.truncate(n);
        }
        3 => c.key = off_lattice(r, c.key),
        4 if r.one_in(200) => {
            let n = LISTS_LIMIT + r.below(2);
            match r.below(2) {
                0 => c.groups.resize(n, 0),
                _ => c.edges.iter_mut().for_each(|l| l.resize(n, 0)),
            }
        }
        5 if !c.edges[i].is_empty() => {
            let k = r.below(c.edges[i].len());
            c.edges[i][k] = r.pick(&[c.key, 0, u64::MAX, c.key.wrapping_add(1)]);
        }
        6 if !c.edges[0].is_empty() && c.edges[0].len() == c.edges[1].len() => {
            let k = r.below(c.edges[0].len());
            c.edges[0].swap(0, k);
        }
        _ => {
            c.groups.pop();
        }
    }
}

// Document 01's domain beside the Rust: accepted, every key on the lattice under a head from 8000 to BFFF.
pub fn rust_key(key: u64) -> bool {
    on_lattice(key) && (0x8000..=0xbfff).contains(&head_of(key))
}

pub fn rust_table(c: &Case) -> bool {
    accepted(c) && c.keys[..c.count].iter().all(|&k| rust_key(k))
}
