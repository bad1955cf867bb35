use super::vector::Vector3f;
use crate::core::pbrt::Float;

triple!(Point3f);
componentwise!(Add, add, Point3f, Point3f, Point3f, +);
componentwise!(Sub, sub, Point3f, Point3f, Vector3f, -);
