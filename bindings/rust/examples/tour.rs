//! Each call once or twice on a triangle: what it answers, and what it refuses. tests/gate-rust holds what it prints.
use plates::*;

fn main() {
    let triangle = [0, 0, 0, 8, 0, 0, 0, 8, 0];
    match loop_subdivide_whole(1, &[0, 1, 2], &triangle, &[]) {
        Ok(mesh) => {
            println!("mesh {} {} {}", mesh.positions.len(), mesh.faces.len(), mesh.rim_sides);
            mesh.positions.iter().for_each(|p| println!("v {} {} {}", p[0], p[1], p[2]));
            mesh.faces.iter().for_each(|f| println!("f {} {} {}", f[0], f[1], f[2]));
        }
        Err(r) => println!("refused {} at {}", r.number, r.place),
    }
    let one = vec![0, 1, 2];
    for (levels, indices, coords, sharp) in [
        (8, one.clone(), &triangle[..], vec![]),
        (0, vec![0, 1, 2, 0, 2, 1], &triangle[..], vec![]),
        (0, vec![0, 1, 3], &triangle[..], vec![]),
        (0, one, &triangle[..], vec![0]),
        (0, vec![], &[], vec![]),
    ] {
        match loop_subdivide_whole(levels, &indices, coords, &sharp) {
            Ok(mesh) => println!("mesh {} {} {}", mesh.positions.len(), mesh.faces.len(), mesh.rim_sides),
            Err(r) => println!("refused {} at {}", r.number, r.place),
        }
    }
    for (levels, indices) in [(1, vec![0, 1, 2]), (0, vec![0, 1, 3])] {
        match write_sheet(levels, &indices, &triangle) {
            Ok(sheet) => println!("sheet {}", sheet.iter().map(|b| format!("{b:02x}")).collect::<String>()),
            Err(r) => println!("refused {} at {}", r.number, r.place),
        }
    }
    for levels in [1, 8] {
        match outline(levels, &[0, 1, 2], &triangle) {
            Ok(loops) => println!("loops {loops:?}"),
            Err(r) => println!("refused {} at {}", r.number, r.place),
        }
    }
    let sheet = write_sheet(1, &[0, 1, 2], &triangle).expect("T has a sheet");
    for batch in [vec![&sheet[..], &sheet[1..], &sheet[..]], vec![&sheet[..]; 65]] {
        match subdivide_sheets(&batch) {
            Ok(answers) => answers.iter().for_each(|a| match a {
                Ok(mesh) => println!("mesh {} {} {}, the last vertex at {:?}", mesh.positions.len(), mesh.faces.len(), mesh.rim_sides, mesh.positions[5]),
                Err(r) => println!("refused {} at {}", r.number, r.place),
            }),
            Err(r) => println!("refused {} at {}", r.number, r.place),
        }
    }
    for (corners, broken) in [([0, 1, 2], false), ([0, 1, 3], false), ([0, 1, 2], true)] {
        match write_obj(&triangle, &corners).and_then(|text| read_obj(&text[..text.len() - broken as usize])) {
            Ok((coords, corners)) => println!("OBJ text of {} coordinates and {} corners, read as it was: {}", coords.len(), corners.len(), coords == triangle && corners == [0, 1, 2]),
            Err(r) => println!("refused {} at {}", r.number, r.place),
        }
    }
    let folded = [0, 1, 2, 0, 2, 3];
    let alike = [(2, vec![]), (2, vec![2]), (0, vec![4])].iter().all(|(levels, sharp)| {
        let points = [0, 0, 0, 8, 0, 0, 8, 8, 0, 0, 8, 4];
        loop_subdivide_plain(*levels, &folded, &points, sharp) == loop_subdivide_whole(*levels, &folded, &points, sharp)
    });
    println!("the plain engine answers as the linked one: {alike}");
    match loop_subdivide(0, &[0, 1, 2], &[0.0, 0.0, 0.0, 8.0, 0.0, 0.0, 0.0, 8.0, 0.0]) {
        Ok(mesh) => println!("in f32 vertex 0 at {:?}, its normal {:?}", mesh.positions[0], mesh.normals[0]),
        Err(r) => println!("refused {} at {}", r.number, r.place),
    }
    println!("the sheet is cut as its lists: {}", subdivide_sheet(&sheet) == loop_subdivide_whole(1, &[0, 1, 2], &triangle, &[]));
    println!("19 bytes of it: {:?}", subdivide_sheet(&sheet[..19]));
    let cut = [1, 1, 0, 5, 1, 0, 1, 5, 0];
    for (tolerance, corners) in [(1, [1, 2, 0]), (0, [1, 2, 0]), (1, [1, 0, 2]), (1_001, [0, 1, 2])] {
        println!("a claim of T at {tolerance}: {:?}", accept(0, tolerance, (&[0, 1, 2], &triangle), (&corners, &cut)));
    }
}
