//! Runs the text of loopsubdiv.rs on cages from standard input. oracle/README.md has the format.
mod cage;
mod captured;
mod core;
mod shapes;
mod turns;

use crate::cage::{Cage, Form};
use crate::core::geometry::point::Point3f;
use std::io::{BufWriter, Read, Write};
use std::panic;

fn fail(why: &str) -> ! {
    eprintln!("oracle: {why}");
    std::process::exit(2)
}

fn number(word: Option<&str>) -> usize {
    word.and_then(|w| w.parse().ok()).unwrap_or_else(|| fail("a decimal number is missing"))
}

fn float(word: Option<&str>) -> f32 {
    let bits = word.and_then(|w| u32::from_str_radix(w, 16).ok());
    f32::from_bits(bits.unwrap_or_else(|| fail("the bits of a coordinate are missing")))
}

fn next_cage<'a>(words: &mut impl Iterator<Item = &'a str>) -> Option<Cage> {
    if words.next()? != "cage" {
        fail("a cage begins with the word 'cage'");
    }
    let levels = number(words.next());
    let listed = number(words.next());
    let vertices = number(words.next());
    let indices = (0..listed).map(|_| number(words.next()) as isize).collect();
    let points = (0..vertices)
        .map(|_| Point3f { x: float(words.next()), y: float(words.next()), z: float(words.next()) })
        .collect();
    Some(Cage { levels, indices, points })
}

fn form(mode: &str) -> Form {
    match mode {
        "unmended" => shapes::unmended::loop_subdivide,
        "mended" => shapes::mended::loop_subdivide,
        "tabled" => shapes::tabled::loop_subdivide,
        _ => fail("the mode is unmended, mended or tabled"),
    }
}

fn print(out: &mut impl Write, mesh: &captured::Mesh) -> std::io::Result<()> {
    write!(out, "mesh {} {}\nf", mesh.indices.len() / 3, mesh.points.len())?;
    for i in &mesh.indices {
        write!(out, " {i}")?;
    }
    write!(out, "\np")?;
    for p in &mesh.points {
        write!(out, " {:08X} {:08X} {:08X}", p.x.to_bits(), p.y.to_bits(), p.z.to_bits())?;
    }
    write!(out, "\nn")?;
    for n in &mesh.normals {
        write!(out, " {:08X} {:08X} {:08X}", n.x.to_bits(), n.y.to_bits(), n.z.to_bits())?;
    }
    writeln!(out)
}

fn main() -> std::io::Result<()> {
    let args: Vec<String> = std::env::args().skip(1).collect();
    let before = args.iter().any(|a| a == "before-limit");
    let form = form(args.first().unwrap_or_else(|| fail("usage: oracle unmended|mended|tabled [before-limit] < cages")));
    let mut text = String::new();
    std::io::stdin().read_to_string(&mut text)?;
    let mut words = text.split_ascii_whitespace();
    let mut out = BufWriter::new(std::io::stdout().lock());
    panic::set_hook(Box::new(|_| {}));
    while let Some(cage) = next_cage(&mut words) {
        match panic::catch_unwind(|| cage.subdivide(form)) {
            Ok(()) => print(&mut out, &captured::take(before))?,
            Err(_) => writeln!(out, "panic")?,
        }
    }
    out.flush()
}
