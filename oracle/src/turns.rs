//! Sine and cosine of k/m of a half turn, k from 0 to 2m, from the table that oracle/make worked out in fractions.
include!(concat!(env!("CARGO_MANIFEST_DIR"), "/build/table.rs"));

fn entry(table: &[&[i32]; ROWS], k: usize, m: usize) -> f32 {
    table[m][k] as f32 / 16777216.0
}

pub fn cos(k: usize, m: usize) -> f32 {
    entry(&COS, if k > m { 2 * m - k } else { k }, m)
}

pub fn sin(k: usize, m: usize) -> f32 {
    if k > m { -entry(&SIN, 2 * m - k, m) } else { entry(&SIN, k, m) }
}
