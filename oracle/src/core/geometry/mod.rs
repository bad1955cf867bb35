//! Points and vectors: componentwise, in the written order, one rounding each.

macro_rules! componentwise {
    ($trait:ident, $method:ident, $left:ident, $right:ident, $out:ident, $op:tt) => {
        impl std::ops::$trait<$right> for $left {
            type Output = $out;

            fn $method(self, b: $right) -> $out {
                $out { x: self.x $op b.x, y: self.y $op b.y, z: self.z $op b.z }
            }
        }
    };
}

macro_rules! triple {
    ($name:ident) => {
        #[derive(Clone, Copy, Debug, Default, PartialEq)]
        pub struct $name {
            pub x: Float,
            pub y: Float,
            pub z: Float,
        }

        impl std::ops::AddAssign for $name {
            fn add_assign(&mut self, b: $name) {
                *self = $name { x: self.x + b.x, y: self.y + b.y, z: self.z + b.z };
            }
        }

        impl std::ops::Mul<Float> for $name {
            type Output = $name;

            fn mul(self, w: Float) -> $name {
                $name { x: self.x * w, y: self.y * w, z: self.z * w }
            }
        }
    };
}

pub mod normal;
pub mod point;
pub mod vector;
