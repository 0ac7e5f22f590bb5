// The calls of the C face: their shape, how a case is handed to one, and what is read from it afterwards.
// The plain reading and the C face have the same shape, so that one way of asking serves both.
use crate::case::{rubbish, Bits, Case, Outcome};
use crate::plain;
use crate::shape::{ClosedLists, Lists, Marched, Places, Settings, Table, TableMut, Triangles};

// Both calls of the mesh that closes.
pub type ClosedMesh = fn(Settings, Table, ClosedLists, &mut usize, &mut usize) -> u32;

// One side: a function for each declaration of the header, slices in the place of pointers and lengths.
pub struct Side {
    pub index64_new: fn(u16, u16, u16, u16, &mut u64) -> u32,
    pub decode_coords: fn(u64, &mut u16, &mut u16, &mut u16) -> u32,
    pub neighbors_index64: fn(u64, &mut [u64], &mut usize) -> u32,
    pub root: fn(f32, &mut f32) -> u32,
    pub snap_to_nearest_bcc: fn(i32, i32, i32, &mut i32, &mut i32, &mut i32) -> u32,
    pub physical_to_bcc_voxel: fn(f32, f32, f32, f32, &mut i32, &mut i32, &mut i32) -> u32,
    pub is_valid_bcc: fn(i32, i32, i32) -> u32,
    pub update_from_depth: fn(Settings, TableMut, u64, f32, f32) -> u32,
    pub update_from_depth_ray: fn(Settings, TableMut, u64, [f32; 3], f32, f32) -> u32,
    pub batch_update: fn(Settings, TableMut, &[u64], &[f32], &[f32], &mut usize, &mut usize, &mut usize, &mut usize) -> u32,
    pub tsdf_get_distance: fn(Settings, Table, u64, &mut f32) -> u32,
    pub tsdf_get_weight: fn(Settings, Table, u64, &mut f32) -> u32,
    pub is_surface_voxel: fn(Settings, Table, u64, f32, &mut u32) -> u32,
    pub tsdf_stats: fn(Settings, Table, &mut usize, &mut usize, &mut f32, &mut f32, &mut f32) -> u32,
    pub get_surface_voxels: fn(Settings, Table, f32, &mut [u64], &mut usize) -> u32,
    pub get_zero_crossing_edges: fn(Settings, Table, &mut [u64], &mut [u64], &mut usize) -> u32,
    #[allow(clippy::type_complexity)]
    pub compute_from_tsdf: fn(Settings, Table, f32, &mut [u64], &mut [f32], &mut [f32], &mut [u64], &mut usize, &mut usize) -> u32,
    pub esdf_get_distance: fn(Marched, u64, &mut f32) -> u32,
    pub is_free_space: fn(Marched, u64, f32, &mut u32) -> u32,
    pub get_gradient: fn(Marched, u64, &mut f32, &mut f32, &mut f32) -> u32,
    pub get_voxels_within_distance: fn(Marched, f32, &mut [u64], &mut [f32], &mut usize) -> u32,
    pub esdf_stats: fn(Marched, &mut usize, &mut usize, &mut usize, &mut f32, &mut f32) -> u32,
    pub extract_mesh_from_tsdf: fn(Settings, Table, Lists, &mut usize, &mut usize) -> u32,
    pub extract_closed_mesh: ClosedMesh,
    pub extract_turned_mesh: ClosedMesh,
    pub cell_edges: fn(&[u32], &[u64], &[u64], usize, u64, &mut usize, &mut usize),
    pub surface_area: fn(Places, Triangles, &mut f32) -> u32,
    pub bounding_box: fn(Places, &mut [[f32; 3]; 2]) -> u32,
    pub mesh_stats: fn(Places, &mut u32) -> u32,
    pub export_mesh_stl: fn(Places, Triangles, &mut [u8], &mut usize) -> u32,
    pub import_mesh_stl: fn(&[u8], [&mut [f32]; 3], &mut usize) -> u32,
}

// A reading of document 01 as a side.
#[macro_export]
macro_rules! reading {
    ($name:ident, $of:ident) => {
        pub const $name: crate::calls::Side = crate::calls::Side {
            index64_new: $of::keys::index64_new,
            decode_coords: $of::keys::decode_coords,
            neighbors_index64: $of::keys::neighbors_index64,
            root: $of::root::root,
            snap_to_nearest_bcc: $of::snap::snap_to_nearest_bcc,
            physical_to_bcc_voxel: $of::snap::physical_to_bcc_voxel,
            is_valid_bcc: $of::snap::is_valid_bcc,
            update_from_depth: $of::fuse::update_from_depth,
            update_from_depth_ray: $of::fuse::update_from_depth_ray,
            batch_update: $of::fuse::batch_update,
            tsdf_get_distance: $of::table::tsdf_get_distance,
            tsdf_get_weight: $of::table::tsdf_get_weight,
            is_surface_voxel: $of::table::is_surface_voxel,
            tsdf_stats: $of::table::tsdf_stats,
            get_surface_voxels: $of::table::get_surface_voxels,
            get_zero_crossing_edges: $of::table::get_zero_crossing_edges,
            compute_from_tsdf: $of::march::compute_from_tsdf,
            esdf_get_distance: $of::marched::esdf_get_distance,
            is_free_space: $of::marched::is_free_space,
            get_gradient: $of::marched::get_gradient,
            get_voxels_within_distance: $of::marched::get_voxels_within_distance,
            esdf_stats: $of::marched::esdf_stats,
            extract_mesh_from_tsdf: $of::mesh::extract_mesh_from_tsdf,
            extract_closed_mesh: $of::closed::extract_closed_mesh,
            extract_turned_mesh: $of::turned::extract_turned_mesh,
            cell_edges: $of::mesh::cell_edges,
            surface_area: $of::mesh::surface_area,
            bounding_box: $of::mesh::bounding_box,
            mesh_stats: $of::mesh::mesh_stats,
            export_mesh_stl: $of::stl::export_mesh_stl,
            import_mesh_stl: $of::stl::import_mesh_stl,
        };
    };
}

reading!(PLAIN, plain);

fn dirty<T: Bits>() -> T {
    T::rubbish(0)
}

// How each call is asked

pub fn index64_new(side: &Side, c: &Case) -> Outcome {
    let mut key = dirty();
    let [x, y, z] = c.coords.map(|v| v as u16);
    let a = (side.index64_new)(c.head, x, y, z, &mut key);
    Outcome::answer(a).number("key", key)
}

pub fn decode_coords(side: &Side, c: &Case) -> Outcome {
    let (mut x, mut y, mut z) = (dirty(), dirty(), dirty());
    let a = (side.decode_coords)(c.key, &mut x, &mut y, &mut z);
    Outcome::answer(a).number("x", x).number("y", y).number("z", z)
}

pub fn neighbors_index64(side: &Side, c: &Case) -> Outcome {
    let (mut out, mut listed) = (rubbish(c.rooms[0]), dirty());
    let a = (side.neighbors_index64)(c.key, &mut out, &mut listed);
    Outcome::answer(a).number("listed", listed).list("out", &out)
}

pub fn root(side: &Side, c: &Case) -> Outcome {
    let mut root = dirty();
    let a = (side.root)(c.reals[0], &mut root);
    Outcome::answer(a).number("root", root)
}

pub fn snap_to_nearest_bcc(side: &Side, c: &Case) -> Outcome {
    let (mut x, mut y, mut z) = (dirty(), dirty(), dirty());
    let a = (side.snap_to_nearest_bcc)(c.coords[0], c.coords[1], c.coords[2], &mut x, &mut y, &mut z);
    Outcome::answer(a).number("sx", x).number("sy", y).number("sz", z)
}

pub fn physical_to_bcc_voxel(side: &Side, c: &Case) -> Outcome {
    let (mut x, mut y, mut z) = (dirty(), dirty(), dirty());
    let a = (side.physical_to_bcc_voxel)(c.reals[0], c.reals[1], c.reals[2], c.settings[2], &mut x, &mut y, &mut z);
    Outcome::answer(a).number("sx", x).number("sy", y).number("sz", z)
}

pub fn is_valid_bcc(side: &Side, c: &Case) -> Outcome {
    Outcome::answer((side.is_valid_bcc)(c.coords[0], c.coords[1], c.coords[2]))
}

// A copy of the case's table, lent to be written; then what is left of it.
fn fused(c: &Case, call: impl FnOnce(TableMut) -> u32) -> Outcome {
    let (mut keys, mut distances, mut weights, mut count) = (c.keys.clone(), c.distances.clone(), c.weights.clone(), c.count);
    let a = call(TableMut { keys: &mut keys, distances: &mut distances, weights: &mut weights, count: &mut count });
    Outcome::answer(a).number("count", count).list("keys", &keys).list("distances", &distances).list("weights", &weights)
}

pub fn update_from_depth(side: &Side, c: &Case) -> Outcome {
    fused(c, |t| (side.update_from_depth)(c.settings(), t, c.key, c.reals[0], c.reals[1]))
}

pub fn update_from_depth_ray(side: &Side, c: &Case) -> Outcome {
    let [x, y, z, depth, confidence] = c.reals;
    fused(c, |t| (side.update_from_depth_ray)(c.settings(), t, c.key, [x, y, z], depth, confidence))
}

pub fn batch_update(side: &Side, c: &Case) -> Outcome {
    let (mut added, mut changed, mut far, mut at) = (dirty(), dirty(), dirty(), dirty());
    let made = fused(c, |t| {
        (side.batch_update)(
            c.settings(),
            t,
            &c.batch_keys,
            &c.batch_distances,
            &c.batch_confidences,
            &mut added,
            &mut changed,
            &mut far,
            &mut at,
        )
    });
    made.number("added", added).number("changed", changed).number("far", far).number("at", at)
}

pub fn tsdf_get_distance(side: &Side, c: &Case) -> Outcome {
    let mut d = dirty();
    let a = (side.tsdf_get_distance)(c.settings(), c.table(), c.key, &mut d);
    Outcome::answer(a).number("distance", d)
}

pub fn tsdf_get_weight(side: &Side, c: &Case) -> Outcome {
    let mut w = dirty();
    let a = (side.tsdf_get_weight)(c.settings(), c.table(), c.key, &mut w);
    Outcome::answer(a).number("weight", w)
}

pub fn is_surface_voxel(side: &Side, c: &Case) -> Outcome {
    let mut yes = dirty();
    let a = (side.is_surface_voxel)(c.settings(), c.table(), c.key, c.reals[0], &mut yes);
    Outcome::answer(a).number("yes", yes)
}

pub fn tsdf_stats(side: &Side, c: &Case) -> Outcome {
    let (mut voxels, mut surface, mut smallest, mut largest, mut average) = (dirty(), dirty(), dirty(), dirty(), dirty());
    let a = (side.tsdf_stats)(c.settings(), c.table(), &mut voxels, &mut surface, &mut smallest, &mut largest, &mut average);
    Outcome::answer(a)
        .number("voxel_count", voxels)
        .number("surface_voxel_count", surface)
        .number("smallest", smallest)
        .number("largest", largest)
        .number("average_weight", average)
}

pub fn get_surface_voxels(side: &Side, c: &Case) -> Outcome {
    let (mut out, mut listed) = (rubbish(c.rooms[0]), dirty());
    let a = (side.get_surface_voxels)(c.settings(), c.table(), c.reals[0], &mut out, &mut listed);
    Outcome::answer(a).number("listed", listed).list("out", &out)
}

pub fn get_zero_crossing_edges(side: &Side, c: &Case) -> Outcome {
    let (mut first, mut second, mut listed) = (rubbish(c.rooms[0]), rubbish(c.rooms[1]), dirty());
    let a = (side.get_zero_crossing_edges)(c.settings(), c.table(), &mut first, &mut second, &mut listed);
    Outcome::answer(a).number("listed", listed).list("first", &first).list("second", &second)
}

pub fn compute_from_tsdf(side: &Side, c: &Case) -> Outcome {
    let (mut keys, mut distances) = (rubbish(c.rooms[0]), rubbish(c.rooms[1]));
    let (mut estimates, mut waiting) = (rubbish(c.rooms[2]), rubbish(c.rooms[3]));
    let (mut rows, mut takings) = (dirty(), dirty());
    let a = (side.compute_from_tsdf)(
        c.settings(),
        c.table(),
        c.reals[0],
        &mut keys,
        &mut distances,
        &mut estimates,
        &mut waiting,
        &mut rows,
        &mut takings,
    );
    Outcome::answer(a)
        .number("rows", rows)
        .number("takings", takings)
        .list("marched_keys", &keys)
        .list("marched_distances", &distances)
        .list("waiting_estimates", &estimates)
        .list("waiting_keys", &waiting)
}

pub fn esdf_get_distance(side: &Side, c: &Case) -> Outcome {
    let mut d = dirty();
    let a = (side.esdf_get_distance)(c.marched(), c.key, &mut d);
    Outcome::answer(a).number("distance", d)
}

pub fn is_free_space(side: &Side, c: &Case) -> Outcome {
    let mut yes = dirty();
    let a = (side.is_free_space)(c.marched(), c.key, c.reals[0], &mut yes);
    Outcome::answer(a).number("yes", yes)
}

pub fn get_gradient(side: &Side, c: &Case) -> Outcome {
    let (mut x, mut y, mut z) = (dirty(), dirty(), dirty());
    let a = (side.get_gradient)(c.marched(), c.key, &mut x, &mut y, &mut z);
    Outcome::answer(a).number("gx", x).number("gy", y).number("gz", z)
}

pub fn get_voxels_within_distance(side: &Side, c: &Case) -> Outcome {
    let (mut keys, mut distances, mut listed) = (rubbish(c.rooms[0]), rubbish(c.rooms[1]), dirty());
    let a = (side.get_voxels_within_distance)(c.marched(), c.reals[0], &mut keys, &mut distances, &mut listed);
    Outcome::answer(a).number("listed", listed).list("out_keys", &keys).list("out_distances", &distances)
}

pub fn esdf_stats(side: &Side, c: &Case) -> Outcome {
    let (mut voxels, mut obstacles, mut free, mut smallest, mut largest) = (dirty(), dirty(), dirty(), dirty(), dirty());
    let a = (side.esdf_stats)(c.marched(), &mut voxels, &mut obstacles, &mut free, &mut smallest, &mut largest);
    Outcome::answer(a)
        .number("voxel_count", voxels)
        .number("obstacle_voxel_count", obstacles)
        .number("free_voxel_count", free)
        .number("smallest", smallest)
        .number("largest", largest)
}

pub fn extract_mesh_from_tsdf(side: &Side, c: &Case) -> Outcome {
    let r = &c.rooms;
    let (mut first, mut second) = (rubbish(r[0]), rubbish(r[1]));
    let (mut px, mut py, mut pz) = (rubbish(r[2]), rubbish(r[3]), rubbish(r[4]));
    let (mut nx, mut ny, mut nz) = (rubbish(r[5]), rubbish(r[6]), rubbish(r[7]));
    let mut groups = rubbish(r[8]);
    let (mut t0, mut t1, mut t2) = (rubbish(r[9]), rubbish(r[10]), rubbish(r[11]));
    let (mut edges, mut triangles) = (dirty(), dirty());
    let lists = Lists {
        edges: [&mut first, &mut second],
        places: [&mut px, &mut py, &mut pz],
        normals: [&mut nx, &mut ny, &mut nz],
        groups: &mut groups,
        triangles: [&mut t0, &mut t1, &mut t2],
    };
    let a = (side.extract_mesh_from_tsdf)(c.settings(), c.table(), lists, &mut edges, &mut triangles);
    Outcome::answer(a)
        .number("edges", edges)
        .number("triangles", triangles)
        .list("first", &first)
        .list("second", &second)
        .list("px", &px)
        .list("py", &py)
        .list("pz", &pz)
        .list("nx", &nx)
        .list("ny", &ny)
        .list("nz", &nz)
        .list("groups", &groups)
        .list("t0", &t0)
        .list("t1", &t1)
        .list("t2", &t2)
}

fn closed_mesh(call: ClosedMesh, c: &Case) -> Outcome {
    let r = &c.rooms;
    let (mut first, mut second) = (rubbish(r[0]), rubbish(r[1]));
    let (mut px, mut py, mut pz) = (rubbish(r[2]), rubbish(r[3]), rubbish(r[4]));
    let (mut nx, mut ny, mut nz) = (rubbish(r[5]), rubbish(r[6]), rubbish(r[7]));
    let (mut t0, mut t1, mut t2) = (rubbish(r[8]), rubbish(r[9]), rubbish(r[10]));
    let (mut edges, mut triangles) = (dirty(), dirty());
    let lists = ClosedLists {
        edges: [&mut first, &mut second],
        places: [&mut px, &mut py, &mut pz],
        normals: [&mut nx, &mut ny, &mut nz],
        triangles: [&mut t0, &mut t1, &mut t2],
    };
    let a = call(c.settings(), c.table(), lists, &mut edges, &mut triangles);
    Outcome::answer(a)
        .number("edges", edges)
        .number("triangles", triangles)
        .list("first", &first)
        .list("second", &second)
        .list("px", &px)
        .list("py", &py)
        .list("pz", &pz)
        .list("nx", &nx)
        .list("ny", &ny)
        .list("nz", &nz)
        .list("t0", &t0)
        .list("t1", &t1)
        .list("t2", &t2)
}

pub fn extract_closed_mesh(side: &Side, c: &Case) -> Outcome {
    closed_mesh(side.extract_closed_mesh, c)
}

pub fn extract_turned_mesh(side: &Side, c: &Case) -> Outcome {
    closed_mesh(side.extract_turned_mesh, c)
}

pub fn cell_edges(side: &Side, c: &Case) -> Outcome {
    let (mut start, mut length) = (dirty(), dirty());
    (side.cell_edges)(&c.groups, &c.edges[0], &c.edges[1], c.edge_count, c.key, &mut start, &mut length);
    Outcome::default().number("start", start).number("length", length)
}

pub fn surface_area(side: &Side, c: &Case) -> Outcome {
    let mut area = dirty();
    let a = (side.surface_area)(c.places(), c.triangles(), &mut area);
    Outcome::answer(a).number("area", area)
}

pub fn bounding_box(side: &Side, c: &Case) -> Outcome {
    let mut ends = [[dirty(); 3]; 2];
    let a = (side.bounding_box)(c.places(), &mut ends);
    Outcome::answer(a)
        .number("min_x", ends[0][0])
        .number("min_y", ends[0][1])
        .number("min_z", ends[0][2])
        .number("max_x", ends[1][0])
        .number("max_y", ends[1][1])
        .number("max_z", ends[1][2])
}

pub fn mesh_stats(side: &Side, c: &Case) -> Outcome {
    let mut has = dirty();
    let a = (side.mesh_stats)(c.places(), &mut has);
    Outcome::answer(a).number("has_normals", has)
}

pub fn export_mesh_stl(side: &Side, c: &Case) -> Outcome {
    let (mut file, mut written) = (rubbish(c.rooms[0]), dirty());
    let a = (side.export_mesh_stl)(c.places(), c.triangles(), &mut file, &mut written);
    Outcome::answer(a).number("written", written).bytes("file, by eight bytes", &file)
}

pub fn import_mesh_stl(side: &Side, c: &Case) -> Outcome {
    let [mut px, mut py, mut pz] = [0, 1, 2].map(|i: usize| rubbish(c.rooms[i]));
    let mut vertices = dirty();
    let a = (side.import_mesh_stl)(&c.file, [&mut px, &mut py, &mut pz], &mut vertices);
    Outcome::answer(a).number("vertices", vertices).list("px", &px).list("py", &py).list("pz", &pz)
}
