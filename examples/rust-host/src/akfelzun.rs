//! A safe wrapper over the C face: it owns the lists that the calls are lent, and turns answers into an enum.

/// The calls that this wrapper uses, as include/akfelzun.h declares them.
mod face {
    extern "C" {
        pub fn akf_index64_new(head: u16, x: u16, y: u16, z: u16, key: *mut u64) -> u32;
        pub fn akf_root(x: f32, root: *mut f32) -> u32;
        pub fn akf_update_from_depth(
            truncation: f32,
            max_weight: f32,
            voxel_size: f32,
            max_distance: f32,
            keys: *mut u64,
            keys_len: usize,
            distances: *mut f32,
            distances_len: usize,
            weights: *mut f32,
            weights_len: usize,
            count: *mut usize,
            key: u64,
            distance: f32,
            confidence: f32,
        ) -> u32;
        pub fn akf_batch_update(
            truncation: f32,
            max_weight: f32,
            voxel_size: f32,
            max_distance: f32,
            keys: *mut u64,
            keys_len: usize,
            distances: *mut f32,
            distances_len: usize,
            weights: *mut f32,
            weights_len: usize,
            count: *mut usize,
            batch_keys: *const u64,
            batch_keys_len: usize,
            batch_distances: *const f32,
            batch_distances_len: usize,
            batch_confidences: *const f32,
            batch_confidences_len: usize,
            added: *mut usize,
            changed: *mut usize,
            far: *mut usize,
            at: *mut usize,
        ) -> u32;
        pub fn akf_extract_mesh_from_tsdf(
            truncation: f32,
            max_weight: f32,
            voxel_size: f32,
            max_distance: f32,
            keys: *const u64,
            keys_len: usize,
            distances: *const f32,
            distances_len: usize,
            weights: *const f32,
            weights_len: usize,
            count: usize,
            first: *mut u64,
            first_len: usize,
            second: *mut u64,
            second_len: usize,
            px: *mut f32,
            px_len: usize,
            py: *mut f32,
            py_len: usize,
            pz: *mut f32,
            pz_len: usize,
            nx: *mut f32,
            nx_len: usize,
            ny: *mut f32,
            ny_len: usize,
            nz: *mut f32,
            nz_len: usize,
            groups: *mut u32,
            groups_len: usize,
            t0: *mut u32,
            t0_len: usize,
            t1: *mut u32,
            t1_len: usize,
            t2: *mut u32,
            t2_len: usize,
            edges: *mut usize,
            triangles: *mut usize,
        ) -> u32;
        pub fn akf_surface_area(
            px: *const f32,
            px_len: usize,
            py: *const f32,
            py_len: usize,
            pz: *const f32,
            pz_len: usize,
            vertices: usize,
            t0: *const u32,
            t0_len: usize,
            t1: *const u32,
            t1_len: usize,
            t2: *const u32,
            t2_len: usize,
            triangles: usize,
            area: *mut f32,
        ) -> u32;
        pub fn akf_bounding_box(
            px: *const f32,
            px_len: usize,
            py: *const f32,
            py_len: usize,
            pz: *const f32,
            pz_len: usize,
            vertices: usize,
            min_x: *mut f32,
            min_y: *mut f32,
            min_z: *mut f32,
            max_x: *mut f32,
            max_y: *mut f32,
            max_z: *mut f32,
        ) -> u32;
        pub fn akf_export_mesh_stl(
            px: *const f32,
            px_len: usize,
            py: *const f32,
            py_len: usize,
            pz: *const f32,
            pz_len: usize,
            vertices: usize,
            t0: *const u32,
            t0_len: usize,
            t1: *const u32,
            t1_len: usize,
            t2: *const u32,
            t2_len: usize,
            triangles: usize,
            file: *mut u8,
            file_len: usize,
            written: *mut usize,
        ) -> u32;
        pub fn akf_import_mesh_stl(
            file: *const u8,
            file_len: usize,
            px: *mut f32,
            px_len: usize,
            py: *mut f32,
            py_len: usize,
            pz: *mut f32,
            pz_len: usize,
            vertices: *mut usize,
        ) -> u32;
    }

    /// Calls that are declared with the same parameters.
    macro_rules! closing_calls {
        ($($call:ident),*) => {
            extern "C" {
                $(
                    pub fn $call(
                        truncation: f32,
                        max_weight: f32,
                        voxel_size: f32,
                        max_distance: f32,
                        keys: *const u64,
                        keys_len: usize,
                        distances: *const f32,
                        distances_len: usize,
                        weights: *const f32,
                        weights_len: usize,
                        count: usize,
                        first: *mut u64,
                        first_len: usize,
                        second: *mut u64,
                        second_len: usize,
                        px: *mut f32,
                        px_len: usize,
                        py: *mut f32,
                        py_len: usize,
                        pz: *mut f32,
                        pz_len: usize,
                        nx: *mut f32,
                        nx_len: usize,
                        ny: *mut f32,
                        ny_len: usize,
                        nz: *mut f32,
                        nz_len: usize,
                        t0: *mut u32,
                        t0_len: usize,
                        t1: *mut u32,
                        t1_len: usize,
                        t2: *mut u32,
                        t2_len: usize,
                        edges: *mut usize,
                        triangles: *mut usize,
                    ) -> u32;
                )*
            }
        };
    }
    closing_calls!(akf_extract_closed_mesh, akf_extract_turned_mesh);
}

/// Why a call is refused, with the numbers of documents 01 and 02.
#[derive(Debug, Clone, Copy, PartialEq, Eq)]
pub enum Refusal {
    Setting = 1,
    Lengths = 2,
    BadRow = 3,
    OffLattice = 4,
    BadReading = 5,
    NoPlace = 6,
    TooLarge = 7,
    NoWaitingPlace = 8,
    OutOfRange = 9,
    BadVertex = 10,
    BadStlLength = 11,
}

const REFUSALS: [Refusal; 11] = [
    Refusal::Setting,
    Refusal::Lengths,
    Refusal::BadRow,
    Refusal::OffLattice,
    Refusal::BadReading,
    Refusal::NoPlace,
    Refusal::TooLarge,
    Refusal::NoWaitingPlace,
    Refusal::OutOfRange,
    Refusal::BadVertex,
    Refusal::BadStlLength,
];

/// The most places that a list of positions may have.
const MOST_PLACES: usize = 1_048_576;

/// What a call answers.
#[derive(Debug, Clone, Copy, PartialEq)]
pub enum Answer<T> {
    Done(T),
    Absent,
    Refused(Refusal),
}

/// What a reading did: its cell is new, was stored before, or it lies beyond the truncation.
#[derive(Debug, Clone, Copy, PartialEq, Eq)]
pub enum Fused {
    New,
    Changed,
    Far,
    Refused(Refusal),
}

impl<T> Answer<T> {
    pub fn refusal(&self) -> Option<Refusal> {
        match self {
            Answer::Refused(why) => Some(*why),
            _ => None,
        }
    }
}

fn refusal(number: u32) -> Refusal {
    REFUSALS[number as usize - 1]
}

fn answer<T>(number: u32, value: T) -> Answer<T> {
    match number {
        0 => Answer::Done(value),
        101 => Answer::Absent,
        n => Answer::Refused(refusal(n)),
    }
}

pub fn key(head: u16, x: u16, y: u16, z: u16) -> Answer<u64> {
    let mut key = 0;
    // SAFETY: the pointer is to a local.
    let number = unsafe { face::akf_index64_new(head, x, y, z, &mut key) };
    answer(number, key)
}

pub fn root(x: f32) -> Answer<f32> {
    let mut root = 0.0;
    // SAFETY: the pointer is to a local.
    let number = unsafe { face::akf_root(x, &mut root) };
    answer(number, root)
}

#[derive(Debug, Clone, Copy)]
pub struct Settings {
    pub truncation: f32,
    pub max_weight: f32,
    pub voxel_size: f32,
    pub max_distance: f32,
}

/// A table that owns its three lists.
pub struct Table {
    settings: Settings,
    keys: Vec<u64>,
    distances: Vec<f32>,
    weights: Vec<f32>,
    count: usize,
}

/// The counter that an operator watches: how many readings were new, changed a stored cell, and were far.
#[derive(Debug, Clone, Copy, PartialEq, Eq, Default)]
pub struct Counts {
    pub added: usize,
    pub changed: usize,
    pub far: usize,
}

impl std::fmt::Display for Counts {
    fn fmt(&self, f: &mut std::fmt::Formatter) -> std::fmt::Result {
        write!(
            f,
            "new {}, changed {}, far {}",
            self.added, self.changed, self.far
        )
    }
}

/// A refused batch: why, which reading, and the counts of those before it.
#[derive(Debug, Clone, Copy, PartialEq, Eq)]
pub struct Stopped {
    pub why: Refusal,
    pub at: usize,
    pub counts: Counts,
}

/// Room for a mesh's parts.
pub struct Room {
    pub edges: usize,
    pub groups: usize,
    pub triangles: usize,
}

/// A mesh: vertices in three lists and their normals, triangles in three lists of vertex numbers.
pub struct Mesh {
    pub positions: [Vec<f32>; 3],
    pub normals: [Vec<f32>; 3],
    pub triangles: [Vec<u32>; 3],
}

/// A call that meshes a table, in lists of its own; between normals and triangles it is lent the rest.
macro_rules! meshed {
    ($call:ident, $table:expr, $room:expr $(, $rest:expr)*) => {{
        let (table, s, room) = ($table, $table.settings, $room);
        let lengths = || vec![0.0f32; room.edges];
        let numbers = || vec![0u32; room.triangles];
        let (mut first, mut second) = (vec![0u64; room.edges], vec![0u64; room.edges]);
        let [mut px, mut py, mut pz] = [lengths(), lengths(), lengths()];
        let [mut nx, mut ny, mut nz] = [lengths(), lengths(), lengths()];
        let [mut t0, mut t1, mut t2] = [numbers(), numbers(), numbers()];
        let (mut edges, mut triangles) = (0, 0);
        // SAFETY: each pointer is a list's own, with its length; no two lists overlap.
        let number = unsafe {
            face::$call(
                s.truncation,
                s.max_weight,
                s.voxel_size,
                s.max_distance,
                table.keys.as_ptr(),
                table.keys.len(),
                table.distances.as_ptr(),
                table.distances.len(),
                table.weights.as_ptr(),
                table.weights.len(),
                table.count,
                first.as_mut_ptr(),
                first.len(),
                second.as_mut_ptr(),
                second.len(),
                px.as_mut_ptr(),
                px.len(),
                py.as_mut_ptr(),
                py.len(),
                pz.as_mut_ptr(),
                pz.len(),
                nx.as_mut_ptr(),
                nx.len(),
                ny.as_mut_ptr(),
                ny.len(),
                nz.as_mut_ptr(),
                nz.len(),
                $($rest,)*
                t0.as_mut_ptr(),
                t0.len(),
                t1.as_mut_ptr(),
                t1.len(),
                t2.as_mut_ptr(),
                t2.len(),
                &mut edges,
                &mut triangles,
            )
        };
        let cut = |mut list: Vec<f32>| {
            list.truncate(edges);
            list
        };
        let cut_numbers = |mut list: Vec<u32>| {
            list.truncate(triangles);
            list
        };
        let mesh = Mesh {
            positions: [cut(px), cut(py), cut(pz)],
            normals: [cut(nx), cut(ny), cut(nz)],
            triangles: [cut_numbers(t0), cut_numbers(t1), cut_numbers(t2)],
        };
        answer(number, mesh)
    }};
}

impl Table {
    pub fn new(settings: Settings, places: usize) -> Table {
        Table {
            settings,
            keys: vec![0; places],
            distances: vec![0.0; places],
            weights: vec![0.0; places],
            count: 0,
        }
    }

    pub fn rows(&self) -> usize {
        self.count
    }

    pub fn update_from_depth(&mut self, key: u64, distance: f32, confidence: f32) -> Fused {
        let s = self.settings;
        // SAFETY: each pointer is a list's own, with its length; no two lists overlap.
        let number = unsafe {
            face::akf_update_from_depth(
                s.truncation,
                s.max_weight,
                s.voxel_size,
                s.max_distance,
                self.keys.as_mut_ptr(),
                self.keys.len(),
                self.distances.as_mut_ptr(),
                self.distances.len(),
                self.weights.as_mut_ptr(),
                self.weights.len(),
                &mut self.count,
                key,
                distance,
                confidence,
            )
        };
        match number {
            100 => Fused::Far,
            102 => Fused::New,
            103 => Fused::Changed,
            n => Fused::Refused(refusal(n)),
        }
    }

    /// Each reading in turn; the earlier ones stand where one is refused.
    pub fn batch_update(
        &mut self,
        keys: &[u64],
        distances: &[f32],
        confidences: &[f32],
    ) -> Result<Counts, Stopped> {
        let s = self.settings;
        let (mut counts, mut at) = (Counts::default(), 0);
        // SAFETY: each pointer is a list's own, with its length; no two lists overlap.
        let number = unsafe {
            face::akf_batch_update(
                s.truncation,
                s.max_weight,
                s.voxel_size,
                s.max_distance,
                self.keys.as_mut_ptr(),
                self.keys.len(),
                self.distances.as_mut_ptr(),
                self.distances.len(),
                self.weights.as_mut_ptr(),
                self.weights.len(),
                &mut self.count,
                keys.as_ptr(),
                keys.len(),
                distances.as_ptr(),
                distances.len(),
                confidences.as_ptr(),
                confidences.len(),
                &mut counts.added,
                &mut counts.changed,
                &mut counts.far,
                &mut at,
            )
        };
        match number {
            0 => Ok(counts),
            n => Err(Stopped {
                why: refusal(n),
                at,
                counts,
            }),
        }
    }

    pub fn mesh(&self, room: Room) -> Answer<Mesh> {
        let mut groups = vec![0u32; room.groups];
        let (list, length) = (groups.as_mut_ptr(), groups.len());
        meshed!(akf_extract_mesh_from_tsdf, self, room, list, length)
    }

    /// The mesh that closes; the room for groups is not used.
    pub fn closed_mesh(&self, room: Room) -> Answer<Mesh> {
        meshed!(akf_extract_closed_mesh, self, room)
    }

    /// The same with each triangle turned outwards; the room for groups is not used.
    pub fn turned_mesh(&self, room: Room) -> Answer<Mesh> {
        meshed!(akf_extract_turned_mesh, self, room)
    }
}

/// A call on a mesh that is read: its lists of vertices and triangles with their counts, then the rest.
macro_rules! on_mesh {
    ($call:ident, $mesh:expr, $($rest:expr),*) => {{
        let ([px, py, pz], [t0, t1, t2]) = (&$mesh.positions, &$mesh.triangles);
        // SAFETY: each pointer is a list's own, with its length, or to a local; no two lists overlap.
        unsafe {
            face::$call(
                px.as_ptr(),
                px.len(),
                py.as_ptr(),
                py.len(),
                pz.as_ptr(),
                pz.len(),
                px.len(),
                t0.as_ptr(),
                t0.len(),
                t1.as_ptr(),
                t1.len(),
                t2.as_ptr(),
                t2.len(),
                t0.len(),
                $($rest),*
            )
        }
    }};
}

impl Mesh {
    pub fn area(&self) -> Answer<f32> {
        let mut area = 0.0;
        let number = on_mesh!(akf_surface_area, self, &mut area);
        answer(number, area)
    }

    /// The lowest and the highest corner.
    pub fn bounding_box(&self) -> Answer<([f32; 3], [f32; 3])> {
        let [px, py, pz] = &self.positions;
        let [mut x, mut y, mut z, mut u, mut v, mut w] = [0.0; 6];
        // SAFETY: each pointer is a list's own, with its length, or to a local.
        let number = unsafe {
            face::akf_bounding_box(
                px.as_ptr(),
                px.len(),
                py.as_ptr(),
                py.len(),
                pz.as_ptr(),
                pz.len(),
                px.len(),
                &mut x,
                &mut y,
                &mut z,
                &mut u,
                &mut v,
                &mut w,
            )
        };
        answer(number, ([x, y, z], [u, v, w]))
    }

    /// The mesh as a file of binary STL.
    pub fn stl(&self) -> Answer<Vec<u8>> {
        let (mut file, mut written) = (vec![0; 84 + 50 * self.triangles[0].len()], 0);
        let (bytes, length) = (file.as_mut_ptr(), file.len());
        let number = on_mesh!(akf_export_mesh_stl, self, bytes, length, &mut written);
        file.truncate(written);
        answer(number, file)
    }
}

/// The vertices of a file of binary STL, three for each triangle.
pub fn read_stl(file: &[u8]) -> Answer<[Vec<f32>; 3]> {
    let places = || vec![0.0f32; (file.len() / 50 * 3).min(MOST_PLACES)];
    let [mut px, mut py, mut pz] = [places(), places(), places()];
    let mut vertices = 0;
    // SAFETY: each pointer is a list's own, with its length; no two lists overlap.
    let number = unsafe {
        face::akf_import_mesh_stl(
            file.as_ptr(),
            file.len(),
            px.as_mut_ptr(),
            px.len(),
            py.as_mut_ptr(),
            py.len(),
            pz.as_mut_ptr(),
            pz.len(),
            &mut vertices,
        )
    };
    let cut = |mut list: Vec<f32>| {
        list.truncate(vertices);
        list
    };
    answer(number, [cut(px), cut(py), cut(pz)])
}
