//! The mended text, without hooks, as calls for C: bench/run times it. A cage is made beforehand and its mesh read afterwards, so that neither is part of the time.
mod cage;
mod captured;
mod core;
mod shapes;
mod turns;

use crate::cage::Cage;
use crate::core::geometry::point::Point3f;
use std::slice;

/// # Safety
/// `indices` has n numbers, `coords` has m.
#[no_mangle]
pub unsafe extern "C" fn oracle_cage(levels: u32, indices: *const u32, n: usize, coords: *const f32, m: usize) -> *mut Cage {
    let (indices, coords) = (slice::from_raw_parts(indices, n), slice::from_raw_parts(coords, m));
    Box::into_raw(Box::new(Cage {
        levels: levels as usize,
        indices: indices.iter().map(|v| *v as isize).collect(),
        points: coords.chunks_exact(3).map(|p| Point3f { x: p[0], y: p[1], z: p[2] }).collect(),
    }))
}

/// # Safety
/// The cage comes from `oracle_cage` and was not freed.
#[no_mangle]
pub unsafe extern "C" fn oracle_free(cage: *mut Cage) {
    drop(Box::from_raw(cage));
}

/// # Safety
/// The cage comes from `oracle_cage` and was not freed.
#[no_mangle]
pub unsafe extern "C" fn oracle_subdivide(cage: *const Cage) {
    (*cage).subdivide(shapes::timed::loop_subdivide);
}

/// The mesh of the last call: its numbers of vertices and faces, points, normals and corners.
///
/// # Safety
/// There is room for 2 counts, and for the mesh.
#[no_mangle]
pub unsafe extern "C" fn oracle_mesh(counts: *mut u32, points: *mut f32, normals: *mut f32, corners: *mut u32) {
    let mesh = captured::take(false);
    put(counts, [mesh.points.len() as u32, (mesh.indices.len() / 3) as u32]);
    put(points, mesh.points.iter().flat_map(|p| [p.x, p.y, p.z]));
    put(normals, mesh.normals.iter().flat_map(|n| [n.x, n.y, n.z]));
    put(corners, mesh.indices.iter().map(|v| *v as u32));
}

unsafe fn put<T>(to: *mut T, list: impl IntoIterator<Item = T>) {
    for (i, x) in list.into_iter().enumerate() {
        to.add(i).write(x);
    }
}
