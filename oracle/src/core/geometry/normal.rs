use super::vector::Vector3f;
use crate::core::pbrt::Float;

#[derive(Clone, Copy, Debug, Default, PartialEq)]
pub struct Normal3f {
    pub x: Float,
    pub y: Float,
    pub z: Float,
}

impl From<Vector3f> for Normal3f {
    fn from(v: Vector3f) -> Normal3f {
        Normal3f { x: v.x, y: v.y, z: v.z }
    }
}
