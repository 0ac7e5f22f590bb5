// One case: everything that a call may be handed. Each call reads the parts that it has.
use crate::shape::{Marched, Places, Settings, Table, Triangles};

#[derive(Clone, Default)]
pub struct Case {
    pub settings: [f32; 4],
    // the table, or the marched table (without weights)
    pub keys: Vec<u64>,
    pub distances: Vec<f32>,
    pub weights: Vec<f32>,
    pub count: usize,
    // single arguments
    pub head: u16,
    pub coords: [i32; 3],
    pub key: u64,
    pub reals: [f32; 5],
    // readings
    pub batch_keys: Vec<u64>,
    pub batch_distances: Vec<f32>,
    pub batch_confidences: Vec<f32>,
    // lengths of the lent lists that are written, in the header's order
    pub rooms: Vec<usize>,
    // vertices (places or normals), triangles, edges and groups
    pub vertices: [Vec<f32>; 3],
    pub vertex_count: usize,
    pub triangles: [Vec<u32>; 3],
    pub triangle_count: usize,
    pub edges: [Vec<u64>; 2],
    pub edge_count: usize,
    pub groups: Vec<u32>,
    // a file that is read
    pub file: Vec<u8>,
}

impl Case {
    pub fn settings(&self) -> Settings {
        let [truncation, max_weight, voxel_size, max_distance] = self.settings;
        Settings { truncation, max_weight, voxel_size, max_distance }
    }

    pub fn table(&self) -> Table<'_> {
        Table { keys: &self.keys, distances: &self.distances, weights: &self.weights, count: self.count }
    }

    pub fn marched(&self) -> Marched<'_> {
        Marched { keys: &self.keys, distances: &self.distances, count: self.count }
    }

    pub fn places(&self) -> Places<'_> {
        Places { lists: [0, 1, 2].map(|i: usize| &self.vertices[i][..]), count: self.vertex_count }
    }

    pub fn triangles(&self) -> Triangles<'_> {
        Triangles { lists: [0, 1, 2].map(|i: usize| &self.triangles[i][..]), count: self.triangle_count }
    }
}

// What a call left: its answer (None where this side does not tell), the numbers handed back, and every lent list, as bits.
#[derive(Clone, PartialEq, Debug, Default)]
pub struct Outcome {
    pub answer: Option<u32>,
    pub numbers: Vec<(&'static str, u64)>,
    pub lists: Vec<(&'static str, Vec<u64>)>,
}

impl Outcome {
    pub fn answer(n: u32) -> Outcome {
        Outcome { answer: Some(n), ..Outcome::default() }
    }

    pub fn number(mut self, name: &'static str, n: impl Bits) -> Outcome {
        self.numbers.push((name, n.bits()));
        self
    }

    pub fn list<T: Bits>(mut self, name: &'static str, l: &[T]) -> Outcome {
        self.lists.push((name, l.iter().map(|v| v.bits()).collect()));
        self
    }

    // A file, eight bytes to a place, the first byte highest: it may be long.
    pub fn bytes(mut self, name: &'static str, file: &[u8]) -> Outcome {
        let word = |part: &[u8]| part.iter().fold(0, |word, &b| word << 8 | b as u64);
        self.lists.push((name, file.chunks(8).map(word).collect()));
        self
    }
}

// Values are compared by their bits, and lists that a call writes begin full of rubbish.
pub trait Bits: Copy {
    fn bits(self) -> u64;
    fn rubbish(place: usize) -> Self;
}

impl Bits for u64 {
    fn bits(self) -> u64 {
        self
    }
    fn rubbish(place: usize) -> u64 {
        0xdead_beef_0000_0001 + place as u64
    }
}

impl Bits for usize {
    fn bits(self) -> u64 {
        self as u64
    }
    fn rubbish(place: usize) -> usize {
        0xdead_0001 + place
    }
}

impl Bits for u32 {
    fn bits(self) -> u64 {
        self as u64
    }
    fn rubbish(place: usize) -> u32 {
        0xdead_0001u32.wrapping_add(place as u32)
    }
}

impl Bits for u16 {
    fn bits(self) -> u64 {
        self as u64
    }
    fn rubbish(place: usize) -> u16 {
        0xbee1u16.wrapping_add(place as u16)
    }
}

impl Bits for u8 {
    fn bits(self) -> u64 {
        self as u64
    }
    fn rubbish(place: usize) -> u8 {
        place as u8 | 1
    }
}

impl Bits for i32 {
    fn bits(self) -> u64 {
        self as u32 as u64
    }
    fn rubbish(place: usize) -> i32 {
        -77_777 - place as i32
    }
}

impl Bits for f32 {
    fn bits(self) -> u64 {
        self.to_bits() as u64
    }
    fn rubbish(place: usize) -> f32 {
        f32::from_bits(0x7fc0_0001u32.wrapping_add(place as u32 & 0xffff))
    }
}

pub fn rubbish<T: Bits>(n: usize) -> Vec<T> {
    (0..n).map(T::rubbish).collect()
}
