// Document 02's No. 1, there and back: what a side writes as a file and reads again must be the mesh's corners, taken
// here from its lists without a file, bit for bit; and that written once more must be the same file.
use crate::calls::Side;
use crate::case::{rubbish, Case};
use crate::make;
use crate::plain::DONE;
use crate::rng::Rng;
use crate::shape::{Places, Triangles};

// Of each triangle in turn three vertices, by their bits.
fn corners(c: &Case) -> Vec<[u32; 3]> {
    let numbers = (0..c.triangle_count).flat_map(|i| [0, 1, 2].map(|corner: usize| c.triangles[corner][i] as usize));
    numbers.map(|v| [0, 1, 2].map(|axis: usize| c.vertices[axis][v].to_bits())).collect()
}

// The file, in exactly the room that it needs.
fn written(side: &Side, p: Places, t: Triangles) -> Option<Vec<u8>> {
    let (mut file, mut length) = (rubbish(84 + 50 * t.count), 0);
    let answer = (side.export_mesh_stl)(p, t, &mut file, &mut length);
    (answer == DONE && length == file.len()).then_some(file)
}

// Its vertices in three lists that have exactly their places.
fn read(side: &Side, file: &[u8]) -> Option<[Vec<f32>; 3]> {
    let n = (file.len() - 84) / 50 * 3;
    let ([mut px, mut py, mut pz], mut vertices) = ([0; 3].map(|_| rubbish(n)), 0);
    let answer = (side.import_mesh_stl)(file, [&mut px, &mut py, &mut pz], &mut vertices);
    (answer == DONE && vertices == n).then_some([px, py, pz])
}

// The same three vertices a triangle, as a mesh.
fn written_again(side: &Side, places: &[Vec<f32>; 3]) -> Option<Vec<u8>> {
    let count = places[0].len() / 3;
    let numbers = [0, 1, 2].map(|corner| (0..count as u32).map(|i| 3 * i + corner).collect::<Vec<_>>());
    let p = Places { lists: places.each_ref().map(|l| &l[..]), count: places[0].len() };
    written(side, p, Triangles { lists: numbers.each_ref().map(|l| &l[..]), count })
}

pub fn comes_back(side: &Side, c: &Case) -> bool {
    let Some(file) = written(side, c.places(), c.triangles()) else { return false };
    let Some(places) = read(side, &file) else { return false };
    let back: Vec<[u32; 3]> = (0..places[0].len()).map(|v| places.each_ref().map(|l| l[v].to_bits())).collect();
    back == corners(c) && written_again(side, &places).is_some_and(|again| again == file)
}

// What went there and back, and how many meshes were lost on the way.
#[derive(Default)]
pub struct Trips {
    pub meshes: usize,
    pub lost: usize,
    triangles: usize,
    degenerate: usize,
    minus_zeros: usize,
    subnormals: usize,
}

impl Trips {
    fn add(&mut self, side: &Side, c: &Case) {
        self.meshes += 1;
        self.lost += !comes_back(side, c) as usize;
        for t in corners(c).chunks(3) {
            self.triangles += 1;
            self.degenerate += (t[0] == t[1] || t[1] == t[2] || t[0] == t[2]) as usize;
            self.minus_zeros += t.iter().flatten().filter(|&&b| b == 0x8000_0000).count();
            self.subnormals += t.iter().flatten().filter(|&&b| f32::from_bits(b).is_subnormal()).count();
        }
    }

    pub fn told(&self) -> String {
        format!(
            "{} meshes, {} triangles, of which {} with two equal corners; {} times -0, {} subnormals: {} lost",
            self.meshes, self.triangles, self.degenerate, self.minus_zeros, self.subnormals, self.lost
        )
    }
}

pub fn run(side: &Side, seed: u64, meshes: usize) -> Trips {
    let mut r = Rng::new(seed, "there and back");
    let mut trips = Trips::default();
    (0..meshes).for_each(|_| trips.add(side, &make::shape(&mut r)));
    trips
}
