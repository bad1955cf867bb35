pub struct Shapes;
