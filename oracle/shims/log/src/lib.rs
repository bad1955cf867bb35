#[macro_export]
macro_rules! error {
    ($($words:tt)*) => { eprintln!($($words)*) };
}
