//! Every sheet of examples/ through every call, as its stored texts have it; and each refusal in words, as bin/refusals has it.
use plates::*;
use std::error::Error;
use std::fmt;
use std::fs;
use std::path::{Path, PathBuf};

fn root() -> PathBuf {
    Path::new(env!("CARGO_MANIFEST_DIR")).join("../..")
}

fn sheets() -> Vec<PathBuf> {
    let mut found: Vec<_> = fs::read_dir(root().join("examples")).unwrap().map(|e| e.unwrap().path()).filter(|p| p.extension().map_or(false, |e| e == "sheet")).collect();
    found.sort();
    assert!(!found.is_empty());
    found
}

fn stored(sheet: &Path, ending: &str) -> String {
    fs::read_to_string(sheet.with_extension(ending)).unwrap()
}

/// Levels, corners and coordinates of a sheet: vertices, faces, then 0, V, 12V, F, levels.
fn lists(sheet: &[u8]) -> (u32, Vec<u32>, Vec<i32>) {
    let words: Vec<u32> = sheet.chunks_exact(4).map(|b| u32::from_le_bytes([b[0], b[1], b[2], b[3]])).collect();
    let (rest, trailer) = words.split_at(words.len() - 5);
    let (coords, corners) = rest.split_at(3 * trailer[1] as usize);
    (trailer[4], corners.to_vec(), coords.iter().map(|&w| w as i32).collect())
}

fn lines<T: fmt::Display>(letter: char, threes: &[[T; 3]]) -> String {
    threes.iter().map(|[a, b, c]| format!("{letter} {a} {b} {c}\n")).collect()
}

fn listing(mesh: &Mesh) -> String {
    format!("mesh {} {} {}\n{}{}", mesh.positions.len(), mesh.faces.len(), mesh.rim_sides, lines('v', &mesh.positions), lines('f', &mesh.faces))
}

#[test]
fn cut_as_sheets_and_as_lists() {
    for path in sheets() {
        let sheet = fs::read(&path).unwrap();
        let (levels, corners, coords) = lists(&sheet);
        let mesh = subdivide_sheet(&sheet).unwrap();
        assert_eq!(listing(&mesh), stored(&path, "txt"), "{path:?}");
        assert_eq!(loop_subdivide_whole(levels, &corners, &coords, &[]).unwrap(), mesh, "{path:?}");
        assert_eq!(loop_subdivide_plain(levels, &corners, &coords, &[]).unwrap(), mesh, "{path:?}");
        assert_eq!(write_sheet(levels, &corners, &coords).unwrap(), sheet, "{path:?}");
    }
}

#[test]
fn cut_in_floats() {
    for path in sheets() {
        let (levels, corners, coords) = lists(&fs::read(&path).unwrap());
        let whole = loop_subdivide_whole(levels, &corners, &coords, &[]).unwrap();
        let floats: Vec<f32> = coords.iter().map(|&c| c as f32).collect();
        let mesh = loop_subdivide(levels, &corners, &floats).unwrap();
        assert_eq!((&mesh.faces, mesh.rim_sides, mesh.normals.len()), (&whole.faces, whole.rim_sides, whole.positions.len()), "{path:?}");
        assert!(mesh.positions.iter().chain(&mesh.normals).flatten().all(|x| x.is_finite()), "{path:?}");
    }
}

#[test]
fn cut_in_one_call() {
    let bytes: Vec<Vec<u8>> = sheets().iter().map(|path| fs::read(path).unwrap()).collect();
    let mut batch: Vec<&[u8]> = bytes.iter().map(|sheet| &sheet[..]).collect();
    batch.insert(1, b"");
    let answers = subdivide_sheets(&batch).unwrap();
    assert_eq!(answers.len(), batch.len());
    for (sheet, answer) in batch.iter().zip(answers) {
        assert_eq!(answer, subdivide_sheet(sheet));
    }
}

#[test]
fn rims() {
    for path in sheets() {
        let (levels, corners, coords) = lists(&fs::read(&path).unwrap());
        let loops = outline(levels, &corners, &coords).unwrap();
        let points: usize = loops.iter().map(Vec::len).sum();
        let text: String = loops.iter().map(|l| format!("loop {}\n{}", l.len(), lines('v', l))).collect();
        assert_eq!(format!("outlines {} {points}\n{text}", loops.len()), stored(&path, "outline"), "{path:?}");
    }
}

#[test]
fn obj_text() {
    for path in sheets() {
        let mesh = subdivide_sheet(&fs::read(&path).unwrap()).unwrap();
        let (coords, corners) = (mesh.positions.concat(), mesh.faces.concat());
        let text = write_obj(&coords, &corners).unwrap();
        assert_eq!(String::from_utf8(text.clone()).unwrap(), stored(&path, "obj"), "{path:?}");
        assert_eq!(read_obj(&text).unwrap(), (coords, corners), "{path:?}");
    }
}

#[test]
fn claims() {
    for path in sheets() {
        let (levels, corners, coords) = lists(&fs::read(&path).unwrap());
        let mesh = loop_subdivide_whole(levels, &corners, &coords, &[]).unwrap();
        let claim = (mesh.faces.concat(), mesh.positions.concat());
        let wanted = if levels <= 1 { Ok(Verdict::Yes) } else { Err(Refusal { number: 21, place: 0 }) };
        assert_eq!(accept(levels, 1, (&corners, &coords), (&claim.0, &claim.1)), wanted, "{path:?}");
        if levels <= 1 {
            assert_eq!(accept(levels, 1, (&corners, &coords), (&claim.0[3..], &claim.1)), Ok(Verdict::CountsDiffer), "{path:?}");
        }
    }
}

#[test]
fn refusals_in_words() {
    let table = fs::read_to_string(root().join("bin/refusals")).unwrap();
    assert_eq!(table.lines().count(), REFUSALS.len());
    for line in table.lines() {
        let cells: Vec<&str> = line.split('\t').collect();
        let no: Box<dyn Error> = Refusal { number: cells[0].parse().unwrap(), place: 7 }.into();
        assert_eq!(no.to_string(), format!("refused {} at 7: {}; the place is {}; {}", cells[0], cells[1], cells[2], cells[3]));
    }
    assert_eq!(Refusal { number: 11, place: 0 }.meaning(), "not a number of the handbook");
}
