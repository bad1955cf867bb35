//! A cage as loopsubdiv.rs takes it.
use crate::core::geometry::point::Point3f;
use crate::core::shape::Shapes;
use crate::core::transform::Transform;
use std::sync::Arc;

pub type Form = fn(Arc<Transform>, Arc<Transform>, bool, usize, &[isize], &[Point3f]) -> Vec<Arc<Shapes>>;

pub struct Cage {
    pub levels: usize,
    pub indices: Vec<isize>,
    pub points: Vec<Point3f>,
}

impl Cage {
    /// The mesh is then with `captured`.
    pub fn subdivide(&self, form: Form) {
        let still = Arc::new(Transform);
        form(still.clone(), still, false, self.levels, &self.indices, &self.points);
    }
}
