// Document 02, No. 1: binary STL, written and read.
use super::mesh::{corners, in_range, shape_ok};
use super::*;
use crate::shape::{Places, Triangles};

// 80 header bytes, a little-endian count of triangles, then 50 bytes each: normal, three vertices, attribute. Header,
// normal and attribute are zero.
pub fn file_of(triangles: &[[[f32; 3]; 3]]) -> Vec<u8> {
    let mut file = vec![0; 80];
    file.extend((triangles.len() as u32).to_le_bytes());
    for vertices in triangles {
        file.extend([0; 12]);
        for part in vertices.iter().flatten() {
            file.extend(part.to_le_bytes());
        }
        file.extend([0; 2]);
    }
    file
}

fn written_into(p: Places, t: Triangles, room: usize) -> Done<Vec<u8>> {
    need(shape_ok(p, t) && room <= FILE_LIMIT, 2)?;
    let file = file_of(&corners(p, t)?);
    need(file.len() <= room, 6)?;
    Ok(file)
}

pub fn export_mesh_stl(p: Places, t: Triangles, file: &mut [u8], written: &mut usize) -> u32 {
    let made = written_into(p, t, file.len());
    let none = Vec::new();
    let bytes = made.as_ref().unwrap_or(&none);
    *written = bytes.len();
    fill(file, bytes);
    number(&made)
}

fn four(file: &[u8], at: usize) -> [u8; 4] {
    [file[at], file[at + 1], file[at + 2], file[at + 3]]
}

// How many triangles a file has, by its count.
fn count(file: &[u8]) -> usize {
    u32::from_le_bytes(four(file, 80)) as usize
}

// At least 84 bytes, and 84 + 50n for its count n.
pub fn length_ok(file: &[u8]) -> bool {
    file.len() >= 84 && file.len() == 84 + 50 * count(file)
}

// Three vertices for each triangle, in the file's order; normals and attributes are ignored.
pub fn vertices_in(file: &[u8]) -> Vec<[f32; 3]> {
    let mut all = Vec::new();
    for triangle in 0..count(file) {
        for corner in 0..3 {
            let at = 84 + 50 * triangle + 12 + 12 * corner;
            all.push([0, 4, 8].map(|part| f32::from_le_bytes(four(file, at + part))));
        }
    }
    all
}

fn read_into(file: &[u8], rooms: [usize; 3]) -> Done<Vec<[f32; 3]>> {
    need(file.len() <= FILE_LIMIT && one_set(&rooms, LISTS_LIMIT), 2)?;
    need(length_ok(file), 11)?;
    let vertices = vertices_in(file);
    in_range(&vertices)?;
    need(vertices.len() <= rooms[0], 6)?;
    Ok(vertices)
}

pub fn import_mesh_stl(file: &[u8], places: [&mut [f32]; 3], vertices: &mut usize) -> u32 {
    let made = read_into(file, [places[0].len(), places[1].len(), places[2].len()]);
    let none = Vec::new();
    let all = made.as_ref().unwrap_or(&none);
    *vertices = all.len();
    for (axis, list) in places.into_iter().enumerate() {
        fill(list, &all.iter().map(|v| v[axis]).collect::<Vec<_>>());
    }
    number(&made)
}
