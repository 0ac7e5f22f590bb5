// The C face, include/akfelzun.h: its declarations, and functions of the plain reading's shape over them. An empty list is
// handed over as a null pointer, which the header allows.
use crate::calls::Side;
use crate::shape::{ClosedLists, Lists, Marched, Places, Settings, Table, TableMut, Triangles};
use std::ptr::{null, null_mut};

include!(concat!(env!("OUT_DIR"), "/landed.rs"));
#[allow(clashing_extern_declarations)]
extern "C" {
    fn akf_index64_new(head: u16, x: u16, y: u16, z: u16, key: *mut u64) -> u32;
    fn akf_decode_coords(key: u64, x: *mut u16, y: *mut u16, z: *mut u16) -> u32;
    fn akf_neighbors_index64(key: u64, out: *mut u64, out_len: usize, listed: *mut usize) -> u32;
    fn akf_root(x: f32, root: *mut f32) -> u32;
    fn akf_snap_to_nearest_bcc(x: i32, y: i32, z: i32, sx: *mut i32, sy: *mut i32, sz: *mut i32) -> u32;
    fn akf_physical_to_bcc_voxel(x: f32, y: f32, z: f32, voxel_size: f32, sx: *mut i32, sy: *mut i32, sz: *mut i32) -> u32;
    fn akf_is_valid_bcc(x: i32, y: i32, z: i32) -> u32;
    fn akf_update_from_depth(
        truncation: f32,
        max_weight: f32,
        voxel_size: f32,
        max_distance: f32,
        keys: *mut u64,
        keys_len: usize,
        distances: *mut f32,
        distances_len: usize,
        weights: *mut f32,
        weights_len: usize,
        count: *mut usize,
        key: u64,
        distance: f32,
        confidence: f32,
    ) -> u32;
    fn akf_update_from_depth_ray(
        truncation: f32,
        max_weight: f32,
        voxel_size: f32,
        max_distance: f32,
        keys: *mut u64,
        keys_len: usize,
        distances: *mut f32,
        distances_len: usize,
        weights: *mut f32,
        weights_len: usize,
        count: *mut usize,
        key: u64,
        sensor_x: f32,
        sensor_y: f32,
        sensor_z: f32,
        depth: f32,
        confidence: f32,
    ) -> u32;
    fn akf_batch_update(
        truncation: f32,
        max_weight: f32,
        voxel_size: f32,
        max_distance: f32,
        keys: *mut u64,
        keys_len: usize,
        distances: *mut f32,
        distances_len: usize,
        weights: *mut f32,
        weights_len: usize,
        count: *mut usize,
        batch_keys: *const u64,
        batch_keys_len: usize,
        batch_distances: *const f32,
        batch_distances_len: usize,
        batch_confidences: *const f32,
        batch_confidences_len: usize,
        added: *mut usize,
        changed: *mut usize,
        far: *mut usize,
        at: *mut usize,
    ) -> u32;
    fn akf_tsdf_get_distance(
        truncation: f32,
        max_weight: f32,
        voxel_size: f32,
        max_distance: f32,
        keys: *const u64,
        keys_len: usize,
        distances: *const f32,
        distances_len: usize,
        weights: *const f32,
        weights_len: usize,
        count: usize,
        key: u64,
        distance: *mut f32,
    ) -> u32;
    fn akf_tsdf_get_weight(
        truncation: f32,
        max_weight: f32,
        voxel_size: f32,
        max_distance: f32,
        keys: *const u64,
        keys_len: usize,
        distances: *const f32,
        distances_len: usize,
        weights: *const f32,
        weights_len: usize,
        count: usize,
        key: u64,
        weight: *mut f32,
    ) -> u32;
    fn akf_is_surface_voxel(
        truncation: f32,
        max_weight: f32,
        voxel_size: f32,
        max_distance: f32,
        keys: *const u64,
        keys_len: usize,
        distances: *const f32,
        distances_len: usize,
        weights: *const f32,
        weights_len: usize,
        count: usize,
        key: u64,
        threshold: f32,
        yes: *mut u32,
    ) -> u32;
    fn akf_tsdf_stats(
        truncation: f32,
        max_weight: f32,
        voxel_size: f32,
        max_distance: f32,
        keys: *const u64,
        keys_len: usize,
        distances: *const f32,
        distances_len: usize,
        weights: *const f32,
        weights_len: usize,
        count: usize,
        voxel_count: *mut usize,
        surface_voxel_count: *mut usize,
        smallest: *mut f32,
        largest: *mut f32,
        average_weight: *mut f32,
    ) -> u32;
    fn akf_get_surface_voxels(
        truncation: f32,
        max_weight: f32,
        voxel_size: f32,
        max_distance: f32,
        keys: *const u64,
        keys_len: usize,
        distances: *const f32,
        distances_len: usize,
        weights: *const f32,
        weights_len: usize,
        count: usize,
        threshold: f32,
        out: *mut u64,
        out_len: usize,
        listed: *mut usize,
    ) -> u32;
    fn akf_get_zero_crossing_edges(
        truncation: f32,
        max_weight: f32,
        voxel_size: f32,
        max_distance: f32,
        keys: *const u64,
        keys_len: usize,
        distances: *const f32,
        distances_len: usize,
        weights: *const f32,
        weights_len: usize,
        count: usize,
        first: *mut u64,
        first_len: usize,
        second: *mut u64,
        second_len: usize,
        listed: *mut usize,
    ) -> u32;
    fn akf_compute_from_tsdf(
        truncation: f32,
        max_weight: f32,
        voxel_size: f32,
        max_distance: f32,
        keys: *const u64,
        keys_len: usize,
        distances: *const f32,
        distances_len: usize,
        weights: *const f32,
        weights_len: usize,
        count: usize,
        threshold: f32,
        marched_keys: *mut u64,
        marched_keys_len: usize,
        marched_distances: *mut f32,
        marched_distances_len: usize,
        waiting_estimates: *mut f32,
        waiting_estimates_len: usize,
        waiting_keys: *mut u64,
        waiting_keys_len: usize,
        rows: *mut usize,
        takings: *mut usize,
    ) -> u32;
    fn akf_esdf_get_distance(
        keys: *const u64,
        keys_len: usize,
        distances: *const f32,
        distances_len: usize,
        count: usize,
        key: u64,
        distance: *mut f32,
    ) -> u32;
    fn akf_is_free_space(
        keys: *const u64,
        keys_len: usize,
        distances: *const f32,
        distances_len: usize,
        count: usize,
        key: u64,
        threshold: f32,
        yes: *mut u32,
    ) -> u32;
    fn akf_get_gradient(
        keys: *const u64,
        keys_len: usize,
        distances: *const f32,
        distances_len: usize,
        count: usize,
        key: u64,
        gx: *mut f32,
        gy: *mut f32,
        gz: *mut f32,
    ) -> u32;
    fn akf_get_voxels_within_distance(
        keys: *const u64,
        keys_len: usize,
        distances: *const f32,
        distances_len: usize,
        count: usize,
        threshold: f32,
        out_keys: *mut u64,
        out_keys_len: usize,
        out_distances: *mut f32,
        out_distances_len: usize,
        listed: *mut usize,
    ) -> u32;
    fn akf_esdf_stats(
        keys: *const u64,
        keys_len: usize,
        distances: *const f32,
        distances_len: usize,
        count: usize,
        voxel_count: *mut usize,
        obstacle_voxel_count: *mut usize,
        free_voxel_count: *mut usize,
        smallest: *mut f32,
        largest: *mut f32,
    ) -> u32;
    fn akf_extract_mesh_from_tsdf(
        truncation: f32,
        max_weight: f32,
        voxel_size: f32,
        max_distance: f32,
        keys: *const u64,
        keys_len: usize,
        distances: *const f32,
        distances_len: usize,
        weights: *const f32,
        weights_len: usize,
        count: usize,
        first: *mut u64,
        first_len: usize,
        second: *mut u64,
        second_len: usize,
        px: *mut f32,
        px_len: usize,
        py: *mut f32,
        py_len: usize,
        pz: *mut f32,
        pz_len: usize,
        nx: *mut f32,
        nx_len: usize,
        ny: *mut f32,
        ny_len: usize,
        nz: *mut f32,
        nz_len: usize,
        groups: *mut u32,
        groups_len: usize,
        t0: *mut u32,
        t0_len: usize,
        t1: *mut u32,
        t1_len: usize,
        t2: *mut u32,
        t2_len: usize,
        edges: *mut usize,
        triangles: *mut usize,
    ) -> u32;
    fn akf_cell_edges(
        groups: *const u32,
        groups_len: usize,
        first: *const u64,
        first_len: usize,
        second: *const u64,
        second_len: usize,
        edges: usize,
        cell: u64,
        start: *mut usize,
        length: *mut usize,
    );
    fn akf_surface_area(
        px: *const f32,
        px_len: usize,
        py: *const f32,
        py_len: usize,
        pz: *const f32,
        pz_len: usize,
        vertices: usize,
        t0: *const u32,
        t0_len: usize,
        t1: *const u32,
        t1_len: usize,
        t2: *const u32,
        t2_len: usize,
        triangles: usize,
        area: *mut f32,
    ) -> u32;
    fn akf_bounding_box(
        px: *const f32,
        px_len: usize,
        py: *const f32,
        py_len: usize,
        pz: *const f32,
        pz_len: usize,
        vertices: usize,
        min_x: *mut f32,
        min_y: *mut f32,
        min_z: *mut f32,
        max_x: *mut f32,
        max_y: *mut f32,
        max_z: *mut f32,
    ) -> u32;
    fn akf_mesh_stats(
        nx: *const f32,
        nx_len: usize,
        ny: *const f32,
        ny_len: usize,
        nz: *const f32,
        nz_len: usize,
        vertices: usize,
        has_normals: *mut u32,
    ) -> u32;
    fn akf_export_mesh_stl(
        px: *const f32,
        px_len: usize,
        py: *const f32,
        py_len: usize,
        pz: *const f32,
        pz_len: usize,
        vertices: usize,
        t0: *const u32,
        t0_len: usize,
        t1: *const u32,
        t1_len: usize,
        t2: *const u32,
        t2_len: usize,
        triangles: usize,
        file: *mut u8,
        file_len: usize,
        written: *mut usize,
    ) -> u32;
    fn akf_import_mesh_stl(
        file: *const u8,
        file_len: usize,
        px: *mut f32,
        px_len: usize,
        py: *mut f32,
        py_len: usize,
        pz: *mut f32,
        pz_len: usize,
        vertices: *mut usize,
    ) -> u32;
}

// Both calls of the mesh that closes take the same.
macro_rules! closing {
    ($(fn $call:ident;)*) => {
        #[allow(clashing_extern_declarations)]
        extern "C" {
            $(fn $call(
                truncation: f32,
                max_weight: f32,
                voxel_size: f32,
                max_distance: f32,
                keys: *const u64,
                keys_len: usize,
                distances: *const f32,
                distances_len: usize,
                weights: *const f32,
                weights_len: usize,
                count: usize,
                first: *mut u64,
                first_len: usize,
                second: *mut u64,
                second_len: usize,
                px: *mut f32,
                px_len: usize,
                py: *mut f32,
                py_len: usize,
                pz: *mut f32,
                pz_len: usize,
                nx: *mut f32,
                nx_len: usize,
                ny: *mut f32,
                ny_len: usize,
                nz: *mut f32,
                nz_len: usize,
                t0: *mut u32,
                t0_len: usize,
                t1: *mut u32,
                t1_len: usize,
                t2: *mut u32,
                t2_len: usize,
                edges: *mut usize,
                triangles: *mut usize,
            ) -> u32;)*
        }
    };
}

closing! {
    fn akf_extract_closed_mesh;
    fn akf_extract_turned_mesh;
}

fn read<T>(l: &[T]) -> *const T {
    if l.is_empty() {
        null()
    } else {
        l.as_ptr()
    }
}

fn written<T>(l: &mut [T]) -> *mut T {
    if l.is_empty() {
        null_mut()
    } else {
        l.as_mut_ptr()
    }
}

// A call on a table that is read: the settings and the table first, then the rest.
macro_rules! on_table {
    ($call:ident, $s:expr, $t:expr, $($rest:expr),*) => {
        unsafe {
            $call(
                $s.truncation, $s.max_weight, $s.voxel_size, $s.max_distance,
                read($t.keys), $t.keys.len(), read($t.distances), $t.distances.len(), read($t.weights), $t.weights.len(), $t.count,
                $($rest),*
            )
        }
    };
}

// A call on a table that is read, into the lists of a mesh that closes.
macro_rules! in_closed_lists {
    ($call:ident, $s:expr, $t:expr, $l:expr, $($counts:expr),*) => {{
        let ([first, second], [px, py, pz], [nx, ny, nz], [t0, t1, t2]) = ($l.edges, $l.places, $l.normals, $l.triangles);
        on_table!(
            $call, $s, $t,
            written(first), first.len(), written(second), second.len(),
            written(px), px.len(), written(py), py.len(), written(pz), pz.len(),
            written(nx), nx.len(), written(ny), ny.len(), written(nz), nz.len(),
            written(t0), t0.len(), written(t1), t1.len(), written(t2), t2.len(),
            $($counts),*
        )
    }};
}

// A call on a table that is written.
macro_rules! fusing {
    ($call:ident, $s:expr, $t:expr, $($rest:expr),*) => {
        unsafe {
            $call(
                $s.truncation, $s.max_weight, $s.voxel_size, $s.max_distance,
                written($t.keys), $t.keys.len(), written($t.distances), $t.distances.len(), written($t.weights), $t.weights.len(), $t.count,
                $($rest),*
            )
        }
    };
}

// A call on vertices and triangles that are read.
macro_rules! on_shape {
    ($call:ident, $p:expr, $t:expr, $($rest:expr),*) => {{
        let ([px, py, pz], [t0, t1, t2]) = ($p.lists, $t.lists);
        unsafe {
            $call(
                read(px), px.len(), read(py), py.len(), read(pz), pz.len(), $p.count,
                read(t0), t0.len(), read(t1), t1.len(), read(t2), t2.len(), $t.count,
                $($rest),*
            )
        }
    }};
}

// A call on a marched table.
macro_rules! on_marched {
    ($call:ident, $m:expr, $($rest:expr),*) => {
        unsafe { $call(read($m.keys), $m.keys.len(), read($m.distances), $m.distances.len(), $m.count, $($rest),*) }
    };
}

fn index64_new(head: u16, x: u16, y: u16, z: u16, key: &mut u64) -> u32 {
    unsafe { akf_index64_new(head, x, y, z, key) }
}

fn decode_coords(key: u64, x: &mut u16, y: &mut u16, z: &mut u16) -> u32 {
    unsafe { akf_decode_coords(key, x, y, z) }
}

fn neighbors_index64(key: u64, out: &mut [u64], listed: &mut usize) -> u32 {
    unsafe { akf_neighbors_index64(key, written(out), out.len(), listed) }
}

fn root(x: f32, root: &mut f32) -> u32 {
    unsafe { akf_root(x, root) }
}

fn snap_to_nearest_bcc(x: i32, y: i32, z: i32, sx: &mut i32, sy: &mut i32, sz: &mut i32) -> u32 {
    unsafe { akf_snap_to_nearest_bcc(x, y, z, sx, sy, sz) }
}

fn physical_to_bcc_voxel(x: f32, y: f32, z: f32, size: f32, sx: &mut i32, sy: &mut i32, sz: &mut i32) -> u32 {
    unsafe { akf_physical_to_bcc_voxel(x, y, z, size, sx, sy, sz) }
}

fn is_valid_bcc(x: i32, y: i32, z: i32) -> u32 {
    unsafe { akf_is_valid_bcc(x, y, z) }
}

fn update_from_depth(s: Settings, t: TableMut, key: u64, distance: f32, confidence: f32) -> u32 {
    fusing!(akf_update_from_depth, s, t, key, distance, confidence)
}

fn update_from_depth_ray(s: Settings, t: TableMut, key: u64, sensor: [f32; 3], depth: f32, confidence: f32) -> u32 {
    fusing!(akf_update_from_depth_ray, s, t, key, sensor[0], sensor[1], sensor[2], depth, confidence)
}

#[allow(clippy::too_many_arguments)]
fn batch_update(
    s: Settings,
    t: TableMut,
    keys: &[u64],
    distances: &[f32],
    confidences: &[f32],
    added: &mut usize,
    changed: &mut usize,
    far: &mut usize,
    at: &mut usize,
) -> u32 {
    fusing!(akf_batch_update, s, t, read(keys), keys.len(), read(distances), distances.len(), read(confidences), confidences.len(), added, changed, far, at)
}

fn tsdf_get_distance(s: Settings, t: Table, key: u64, distance: &mut f32) -> u32 {
    on_table!(akf_tsdf_get_distance, s, t, key, distance)
}

fn tsdf_get_weight(s: Settings, t: Table, key: u64, weight: &mut f32) -> u32 {
    on_table!(akf_tsdf_get_weight, s, t, key, weight)
}

fn is_surface_voxel(s: Settings, t: Table, key: u64, threshold: f32, yes: &mut u32) -> u32 {
    on_table!(akf_is_surface_voxel, s, t, key, threshold, yes)
}

fn tsdf_stats(s: Settings, t: Table, voxels: &mut usize, surface: &mut usize, smallest: &mut f32, largest: &mut f32, average: &mut f32) -> u32 {
    on_table!(akf_tsdf_stats, s, t, voxels, surface, smallest, largest, average)
}

fn get_surface_voxels(s: Settings, t: Table, threshold: f32, out: &mut [u64], listed: &mut usize) -> u32 {
    on_table!(akf_get_surface_voxels, s, t, threshold, written(out), out.len(), listed)
}

fn get_zero_crossing_edges(s: Settings, t: Table, first: &mut [u64], second: &mut [u64], listed: &mut usize) -> u32 {
    on_table!(akf_get_zero_crossing_edges, s, t, written(first), first.len(), written(second), second.len(), listed)
}

#[allow(clippy::too_many_arguments)]
fn compute_from_tsdf(
    s: Settings,
    t: Table,
    threshold: f32,
    keys: &mut [u64],
    distances: &mut [f32],
    waiting_estimates: &mut [f32],
    waiting_keys: &mut [u64],
    rows: &mut usize,
    takings: &mut usize,
) -> u32 {
    on_table!(
        akf_compute_from_tsdf,
        s,
        t,
        threshold,
        written(keys),
        keys.len(),
        written(distances),
        distances.len(),
        written(waiting_estimates),
        waiting_estimates.len(),
        written(waiting_keys),
        waiting_keys.len(),
        rows,
        takings
    )
}

fn esdf_get_distance(m: Marched, key: u64, distance: &mut f32) -> u32 {
    on_marched!(akf_esdf_get_distance, m, key, distance)
}

fn is_free_space(m: Marched, key: u64, threshold: f32, yes: &mut u32) -> u32 {
    on_marched!(akf_is_free_space, m, key, threshold, yes)
}

fn get_gradient(m: Marched, key: u64, gx: &mut f32, gy: &mut f32, gz: &mut f32) -> u32 {
    on_marched!(akf_get_gradient, m, key, gx, gy, gz)
}

fn get_voxels_within_distance(m: Marched, threshold: f32, keys: &mut [u64], distances: &mut [f32], listed: &mut usize) -> u32 {
    on_marched!(akf_get_voxels_within_distance, m, threshold, written(keys), keys.len(), written(distances), distances.len(), listed)
}

fn esdf_stats(m: Marched, voxels: &mut usize, obstacles: &mut usize, free: &mut usize, smallest: &mut f32, largest: &mut f32) -> u32 {
    on_marched!(akf_esdf_stats, m, voxels, obstacles, free, smallest, largest)
}

fn extract_mesh_from_tsdf(s: Settings, t: Table, l: Lists, edges: &mut usize, triangles: &mut usize) -> u32 {
    let [first, second] = l.edges;
    let [px, py, pz] = l.places;
    let [nx, ny, nz] = l.normals;
    let [t0, t1, t2] = l.triangles;
    on_table!(
        akf_extract_mesh_from_tsdf,
        s,
        t,
        written(first),
        first.len(),
        written(second),
        second.len(),
        written(px),
        px.len(),
        written(py),
        py.len(),
        written(pz),
        pz.len(),
        written(nx),
        nx.len(),
        written(ny),
        ny.len(),
        written(nz),
        nz.len(),
        written(l.groups),
        l.groups.len(),
        written(t0),
        t0.len(),
        written(t1),
        t1.len(),
        written(t2),
        t2.len(),
        edges,
        triangles
    )
}

fn extract_closed_mesh(s: Settings, t: Table, l: ClosedLists, edges: &mut usize, triangles: &mut usize) -> u32 {
    in_closed_lists!(akf_extract_closed_mesh, s, t, l, edges, triangles)
}

fn extract_turned_mesh(s: Settings, t: Table, l: ClosedLists, edges: &mut usize, triangles: &mut usize) -> u32 {
    in_closed_lists!(akf_extract_turned_mesh, s, t, l, edges, triangles)
}

fn cell_edges(groups: &[u32], first: &[u64], second: &[u64], edges: usize, cell: u64, start: &mut usize, length: &mut usize) {
    unsafe { akf_cell_edges(read(groups), groups.len(), read(first), first.len(), read(second), second.len(), edges, cell, start, length) }
}

fn surface_area(p: Places, t: Triangles, area: &mut f32) -> u32 {
    on_shape!(akf_surface_area, p, t, area)
}

fn bounding_box(p: Places, ends: &mut [[f32; 3]; 2]) -> u32 {
    let [px, py, pz] = p.lists;
    let [[a, b, c], [d, e, f]] = ends;
    unsafe { akf_bounding_box(read(px), px.len(), read(py), py.len(), read(pz), pz.len(), p.count, a, b, c, d, e, f) }
}

fn mesh_stats(normals: Places, has_normals: &mut u32) -> u32 {
    let [nx, ny, nz] = normals.lists;
    unsafe { akf_mesh_stats(read(nx), nx.len(), read(ny), ny.len(), read(nz), nz.len(), normals.count, has_normals) }
}

fn export_mesh_stl(p: Places, t: Triangles, file: &mut [u8], bytes: &mut usize) -> u32 {
    on_shape!(akf_export_mesh_stl, p, t, written(file), file.len(), bytes)
}

fn import_mesh_stl(file: &[u8], places: [&mut [f32]; 3], vertices: &mut usize) -> u32 {
    let [px, py, pz] = places;
    unsafe {
        akf_import_mesh_stl(read(file), file.len(), written(px), px.len(), written(py), py.len(), written(pz), pz.len(), vertices)
    }
}

pub const FACE: Side = Side {
    index64_new,
    decode_coords,
    neighbors_index64,
    root,
    snap_to_nearest_bcc,
    physical_to_bcc_voxel,
    is_valid_bcc,
    update_from_depth,
    update_from_depth_ray,
    batch_update,
    tsdf_get_distance,
    tsdf_get_weight,
    is_surface_voxel,
    tsdf_stats,
    get_surface_voxels,
    get_zero_crossing_edges,
    compute_from_tsdf,
    esdf_get_distance,
    is_free_space,
    get_gradient,
    get_voxels_within_distance,
    esdf_stats,
    extract_mesh_from_tsdf,
    extract_closed_mesh,
    extract_turned_mesh,
    cell_edges,
    surface_area,
    bounding_box,
    mesh_stats,
    export_mesh_stl,
    import_mesh_stl,
};
