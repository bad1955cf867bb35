//! The text of loopsubdiv.rs in its forms, as oracle/make wrote them below build/.
pub mod triangle;

macro_rules! text {
    ($name:ident, $file:literal) => {
        #[allow(dead_code, non_snake_case, unused, clippy::all)]
        pub mod $name {
            include!(concat!(env!("CARGO_MANIFEST_DIR"), "/build/", $file));
        }
    };
}

text!(unmended, "unmended.rs");
text!(mended, "mended.rs");
text!(tabled, "tabled.rs");
text!(timed, "timed.rs");
