//! Parameter lookup is not carried over; this is here so that `create_loop_dubdiv` compiles.
use crate::core::geometry::point::Point3f;

pub struct ParamSet;

impl ParamSet {
    pub fn find_one_int(&self, _name: &str, default: isize) -> isize {
        default
    }

    pub fn find_one_string(&self, _name: &str, default: String) -> String {
        default
    }

    pub fn find_int(&self, _name: &str, _n: &mut usize) -> Option<Vec<isize>> {
        None
    }

    pub fn find_point3f(&self, _name: &str, _n: &mut usize) -> Option<Vec<Point3f>> {
        None
    }
}
