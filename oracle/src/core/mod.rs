pub mod geometry;
pub mod paramset;
pub mod pbrt;
pub mod shape;
pub mod transform;
