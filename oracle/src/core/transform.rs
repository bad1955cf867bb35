pub struct Transform;
