use super::point::Point3f;
use crate::core::pbrt::Float;

triple!(Vector3f);

impl Vector3f {
    /// Products and the difference are f64, then narrowed to f32.
    pub fn cross(&self, b: &Vector3f) -> Vector3f {
        let (ax, ay, az) = (self.x as f64, self.y as f64, self.z as f64);
        let (bx, by, bz) = (b.x as f64, b.y as f64, b.z as f64);
        Vector3f {
            x: (ay * bz - az * by) as Float,
            y: (az * bx - ax * bz) as Float,
            z: (ax * by - ay * bx) as Float,
        }
    }
}

impl std::ops::Neg for Vector3f {
    type Output = Vector3f;

    fn neg(self) -> Vector3f {
        Vector3f { x: -self.x, y: -self.y, z: -self.z }
    }
}

impl From<Point3f> for Vector3f {
    fn from(p: Point3f) -> Vector3f {
        Vector3f { x: p.x, y: p.y, z: p.z }
    }
}
