// What is handed to a call: the C face's groups of arguments, slices in the place of pointers and lengths.

#[derive(Clone, Copy)]
pub struct Settings {
    pub truncation: f32,
    pub max_weight: f32,
    pub voxel_size: f32,
    pub max_distance: f32,
}

#[derive(Clone, Copy)]
pub struct Table<'a> {
    pub keys: &'a [u64],
    pub distances: &'a [f32],
    pub weights: &'a [f32],
    pub count: usize,
}

// A table that may take a row.
pub struct TableMut<'a> {
    pub keys: &'a mut [u64],
    pub distances: &'a mut [f32],
    pub weights: &'a mut [f32],
    pub count: &'a mut usize,
}

impl TableMut<'_> {
    pub fn seen(&self) -> Table<'_> {
        Table { keys: self.keys, distances: self.distances, weights: self.weights, count: *self.count }
    }
}

#[derive(Clone, Copy)]
pub struct Marched<'a> {
    pub keys: &'a [u64],
    pub distances: &'a [f32],
    pub count: usize,
}

// The twelve lists of a mesh, lent.
pub struct Lists<'a> {
    pub edges: [&'a mut [u64]; 2],
    pub places: [&'a mut [f32]; 3],
    pub normals: [&'a mut [f32]; 3],
    pub groups: &'a mut [u32],
    pub triangles: [&'a mut [u32]; 3],
}

// The eleven lists of a closed mesh, lent.
pub struct ClosedLists<'a> {
    pub edges: [&'a mut [u64]; 2],
    pub places: [&'a mut [f32]; 3],
    pub normals: [&'a mut [f32]; 3],
    pub triangles: [&'a mut [u32]; 3],
}

// Three lists of vertices' places or normals.
#[derive(Clone, Copy)]
pub struct Places<'a> {
    pub lists: [&'a [f32]; 3],
    pub count: usize,
}

#[derive(Clone, Copy)]
pub struct Triangles<'a> {
    pub lists: [&'a [u32]; 3],
    pub count: usize,
}
