pub type Float = f32;
pub const PI: Float = 3.14159265358979323846;
