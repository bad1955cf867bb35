//! What the Rust showed on the way: the mesh before the limit step, and the arguments of `create_trianglemesh`.
use crate::core::geometry::normal::Normal3f;
use crate::core::geometry::point::Point3f;
use std::cell::RefCell;

#[derive(Default)]
pub struct Mesh {
    pub indices: Vec<usize>,
    pub points: Vec<Point3f>,
    pub normals: Vec<Normal3f>,
}

thread_local! {
    static BEFORE: RefCell<Mesh> = RefCell::default();
    static END: RefCell<Mesh> = RefCell::default();
}

pub fn before_limit(indices: Vec<usize>, points: Vec<Point3f>) {
    BEFORE.with(|m| *m.borrow_mut() = Mesh { indices, points, normals: Vec::new() });
}

pub fn at_the_end(indices: Vec<usize>, points: Vec<Point3f>, normals: Vec<Normal3f>) {
    END.with(|m| *m.borrow_mut() = Mesh { indices, points, normals });
}

pub fn take(before: bool) -> Mesh {
    if before { BEFORE.take() } else { END.take() }
}
