//! Loop subdivision to the limit surface: a safe way into the static library of crate `plates`, with the standard library and nothing else.
//!
//! A cage is a number of levels, a list of corners, three to a face, and a list of coordinates, three to a vertex. Every list of numbers gets an answer, a mesh or a [`Refusal`]; nothing has to be checked
//! beforehand. The calls keep nothing between them and may be made from any number of threads. A call on lists takes less than 112 KB of its thread's stack, one on sheets, on a rim or on a claim less than
//! 208 KB; a thread that the standard library makes has 2 MB.
//!
//! ```
//! let plate = plates::loop_subdivide_whole(1, &[0, 1, 2], &[0, 0, 0, 8, 0, 0, 0, 8, 0], &[])?;
//! assert_eq!((plate.positions.len(), plate.faces.len(), plate.rim_sides), (6, 4, 6));
//! assert_eq!(plate.positions[0], [1, 1, 0]);
//! # Ok::<(), plates::Refusal>(())
//! ```
//!
//! build.rs links libplates.a from the folder that the environment's PLATES_LIB names, else from where bin/install or bin/library puts it. tests/gate-declarations holds the declarations below to
//! crates/plates/src/lib.rt. That a pointer and its length belong together is said at each `unsafe`, and nothing proves it.
#![deny(missing_docs)]

use std::error::Error;
use std::fmt;

// made by docs/make-texts
/// PLATES_VERSION of the plates.h that these calls are of.
pub const VERSION: u32 = 13;

/// The number of each refusal, what it means, what the place is, and what to do.
pub const REFUSALS: &[(u32, &str, &str, &str)] = &[
    (1, "too many levels", "always 0", "ask for 7 or fewer"),
    (2, "a list is cut off", "0 for the corners, 1 for the coordinates", "give three corners to a face and three coordinates to a vertex"),
    (3, "the control cage is too large", "0 for its faces, 1 for its vertices", "use a coarser cage and one more level"),
    (4, "a coordinate is out of range", "the coordinate, three to a vertex", "look for a wrong unit"),
    (5, "a corner names no vertex", "the corner, three to a face", "number the vertices from 0"),
    (6, "a face with equal corners", "the face", "leave it out"),
    (7, "a side is used twice in the same direction", "the side, three to a face", "turn the face over, or take one away where three meet at an edge"),
    (8, "a face on top of another", "the later face", "leave one of the two out, or give the plate thickness"),
    (9, "a vertex on no face", "the vertex", "take it out"),
    (10, "two fans meet in one point", "the vertex", "give each fan a vertex of its own"),
    (12, "too many rays", "the vertex", "split the hub in two"),
    (13, "the last level is too large", "always 0", "take a level less"),
    (14, "a lent buffer is short", "the buffer: 0 positions, 1 normals, 2 indices, 3 work words, 4 work coordinates", "with `platecut` take a level less or use the library; from C lend more"),
    (15, "not a sheet", "always 0", "see that something comes in, and write the sheet again"),
    (16, "the input is too long", "always 0", "use a coarser cage, or the library"),
    (17, "no room for the sheet", "always 0", "lend the writer 98,324 bytes"),
    (18, "a listed side cannot be sharp", "its index in the list of sharp sides", "take it out of the list, or name the side that you mean"),
    (19, "the batch does not add up", "always 0", "cut at most 64 sheets at once; from C look at the lengths, and lend five answer entries a sheet"),
    (20, "no room for the loops", "always 0", "lend the list 34,133 entries"),
    (21, "a claim is not judged at that tolerance or level", "always 0", "give a tolerance from 0 to 1,000, and a cage at level 0 or 1"),
    (22, "no room for the text", "always 0", "lend 1,900,544 bytes, which is room for every text"),
    (23, "not of the form", "the first byte that cannot stand, or the length", "look at that byte; export in the plain form, whole micrometres, or let `bin/sheet` read it"),
    (24, "no room for the lists", "always 0", "lend 98,304 entries to each list, which is room for every text"),
    (25, "no text for these lists", "always 0", "give three numbers to a vertex and a face, corners from 0 that name a vertex, at most 32,768 of each"),
];
// made thus far

/// Why a cage, a sheet, a batch, a claim or a text was refused. docs/HANDBOOK.md has a section on each number.
///
/// ```
/// let no = plates::loop_subdivide_whole(1, &[0, 1, 3], &[0, 0, 0, 8, 0, 0, 0, 8, 0], &[]).unwrap_err();
/// assert_eq!((no.number, no.place, no.remedy()), (5, 2, "number the vertices from 0"));
/// assert_eq!(no.to_string(), "refused 5 at 2: a corner names no vertex; the place is the corner, three to a face; number the vertices from 0");
/// let _: Box<dyn std::error::Error> = no.into();
/// ```
#[derive(Clone, Copy, Debug, PartialEq, Eq)]
pub struct Refusal {
    /// Which refusal it is.
    pub number: u32,
    /// Where, as [`Refusal::place_is`] counts it.
    pub place: u32,
}

impl Refusal {
    fn row(&self) -> (u32, &'static str, &'static str, &'static str) {
        let unknown = "not a number of the handbook";
        *REFUSALS.iter().find(|row| row.0 == self.number).unwrap_or(&(0, unknown, unknown, unknown))
    }

    /// What it means.
    pub fn meaning(&self) -> &'static str {
        self.row().1
    }

    /// What the place is.
    pub fn place_is(&self) -> &'static str {
        self.row().2
    }

    /// What to do.
    pub fn remedy(&self) -> &'static str {
        self.row().3
    }
}

impl fmt::Display for Refusal {
    fn fmt(&self, f: &mut fmt::Formatter<'_>) -> fmt::Result {
        write!(f, "refused {} at {}: {}; the place is {}; {}", self.number, self.place, self.meaning(), self.place_is(), self.remedy())
    }
}

impl Error for Refusal {}

/// A plate in whole micrometres.
#[derive(Clone, Debug, PartialEq, Eq)]
pub struct Mesh {
    /// Its vertices.
    pub positions: Vec<[i32; 3]>,
    /// Three numbers of vertices to a face.
    pub faces: Vec<[u32; 3]>,
    /// How many sides are on the rim.
    pub rim_sides: u32,
}

/// A plate in f32, with normals.
#[derive(Clone, Debug, PartialEq)]
pub struct FloatMesh {
    /// Its vertices.
    pub positions: Vec<[f32; 3]>,
    /// One to a vertex, not made unit.
    pub normals: Vec<[f32; 3]>,
    /// Three numbers of vertices to a face.
    pub faces: Vec<[u32; 3]>,
    /// How many sides are on the rim.
    pub rim_sides: u32,
}

/// Whether a plate made elsewhere passes, or what is wrong first.
#[derive(Clone, Copy, Debug, PartialEq, Eq)]
pub enum Verdict {
    /// It passes.
    Yes,
    /// It has not as many vertices and faces as the plate.
    CountsDiffer,
    /// This face is not the plate's in that position, or goes round the other way.
    FaceDiffers(u32),
    /// A coordinate is too far from the exact limit.
    TooFar {
        /// Which, counted 3 vertex + axis.
        coordinate: u32,
        /// The least tolerance at which it passes.
        needs: u32,
    },
}

extern "C" {
    fn plates_loop_subdivide_whole(
        levels: u32,
        indices: *const u32, indices_len: usize,
        coords: *const i32, coords_len: usize,
        sharp: *const u32, sharp_len: usize,
        positions: *mut i32, positions_len: usize,
        out: *mut u32, out_len: usize,
        words: *mut u32, words_len: usize,
        work: *mut i32, work_len: usize,
        told: *mut [u32; 5],
    );
    fn plates_loop_subdivide_plain(
        levels: u32,
        indices: *const u32, indices_len: usize,
        coords: *const i32, coords_len: usize,
        sharp: *const u32, sharp_len: usize,
        positions: *mut i32, positions_len: usize,
        out: *mut u32, out_len: usize,
        words: *mut u32, words_len: usize,
        work: *mut i32, work_len: usize,
        told: *mut [u32; 5],
    );
    fn plates_loop_subdivide(
        levels: u32,
        indices: *const u32, indices_len: usize,
        coords: *const f32, coords_len: usize,
        positions: *mut f32, positions_len: usize,
        normals: *mut f32, normals_len: usize,
        out: *mut u32, out_len: usize,
        words: *mut u32, words_len: usize,
        work: *mut f32, work_len: usize,
        told: *mut [u32; 5],
    );
    fn plates_subdivide_sheet(
        bytes: *const u8, bytes_len: usize,
        positions: *mut i32, positions_len: usize,
        out: *mut u32, out_len: usize,
        words: *mut u32, words_len: usize,
        work: *mut i32, work_len: usize,
        told: *mut [u32; 5],
    );
    fn plates_write_sheet(
        levels: u32,
        indices: *const u32, indices_len: usize,
        coords: *const i32, coords_len: usize,
        bytes: *mut u8, bytes_len: usize,
        told: *mut [u32; 3],
    );
    fn plates_subdivide_sheets(
        bytes: *const u8, bytes_len: usize,
        lengths: *const u32, lengths_len: usize,
        positions: *mut i32, positions_len: usize,
        out: *mut u32, out_len: usize,
        words: *mut u32, words_len: usize,
        work: *mut i32, work_len: usize,
        answers: *mut u32, answers_len: usize,
    ) -> u32;
    fn plates_rim_loops(
        levels: u32,
        indices: *const u32, indices_len: usize,
        coords: *const i32, coords_len: usize,
        positions: *mut i32, positions_len: usize,
        out: *mut u32, out_len: usize,
        words: *mut u32, words_len: usize,
        work: *mut i32, work_len: usize,
        list: *mut u32, list_len: usize,
        told: *mut [u32; 4],
    );
    fn plates_accept(
        levels: u32, tolerance: u32,
        indices: *const u32, indices_len: usize,
        coords: *const i32, coords_len: usize,
        theirs: *const u32, theirs_len: usize,
        claimed: *const i32, claimed_len: usize,
        positions: *mut i32, positions_len: usize,
        out: *mut u32, out_len: usize,
        words: *mut u32, words_len: usize,
        work: *mut i32, work_len: usize,
        told: *mut [u32; 6],
    );
    fn plates_write_obj(
        coords: *const i32, coords_len: usize,
        corners: *const u32, corners_len: usize,
        text: *mut u8, text_len: usize,
        told: *mut [u32; 3],
    );
    fn plates_read_obj(
        text: *const u8, text_len: usize,
        coords: *mut i32, coords_len: usize,
        corners: *mut u32, corners_len: usize,
        told: *mut [u32; 4],
    );
}

/// No level has more faces or vertices than this, so room for as many is room for every answer.
const MOST: usize = 32_768;

/// The longest sheet: 4,096 vertices, 4,096 faces and the trailer.
const MOST_BYTES: usize = 12 * 4_096 + 12 * 4_096 + 20;

/// A loop has three sides at least, and begins at a vertex of the cage.
const MOST_LOOPS: usize = 4_096 / 3;

/// The longest OBJ text: 38 bytes to a `v` line, 20 to an `f` line.
const MOST_TEXT: usize = 58 * MOST;

fn threes<T: Copy>(list: &[T]) -> Vec<[T; 3]> {
    list.chunks_exact(3).map(|c| [c[0], c[1], c[2]]).collect()
}

fn mesh(told: [u32; 5], positions: &[i32], out: &[u32]) -> Result<Mesh, Refusal> {
    let [number, place, vertices, faces, rim_sides] = told;
    if number != 0 {
        return Err(Refusal { number, place });
    }
    Ok(Mesh { positions: threes(&positions[..3 * vertices as usize]), faces: threes(&out[..3 * faces as usize]), rim_sides })
}

/// Of either engine: levels, corners, coordinates, sharp sides, positions, faces, work words, work coordinates, each but the first with its length; and the five numbers.
type WholeCall = unsafe extern "C" fn(
    u32,
    *const u32, usize,
    *const i32, usize,
    *const u32, usize,
    *mut i32, usize,
    *mut u32, usize,
    *mut u32, usize,
    *mut i32, usize,
    *mut [u32; 5],
);

fn subdivide(call: WholeCall, levels: u32, indices: &[u32], coords: &[i32], sharp: &[u32]) -> Result<Mesh, Refusal> {
    let mut positions = vec![0i32; 3 * MOST];
    let mut out = vec![0u32; 3 * MOST];
    let mut words = vec![0u32; 24 * MOST];
    let mut work = vec![0i32; 6 * MOST];
    let mut told = [0u32; 5];
    // SAFETY: each pointer goes with the length of the slice it comes from, and the call keeps to these lengths (its promise has no `requires`).
    unsafe {
        call(
            levels,
            indices.as_ptr(), indices.len(),
            coords.as_ptr(), coords.len(),
            sharp.as_ptr(), sharp.len(),
            positions.as_mut_ptr(), positions.len(),
            out.as_mut_ptr(), out.len(),
            words.as_mut_ptr(), words.len(),
            work.as_mut_ptr(), work.len(),
            &mut told,
        );
    }
    mesh(told, &positions, &out)
}

/// Whole micrometres, with the edges of the sides in `sharp` (3 face + side) sharp.
///
/// ```
/// let (indices, coords) = ([0, 1, 2, 0, 2, 3], [0, 0, 0, 8, 0, 0, 8, 8, 0, 0, 8, 4]);
/// let soft = plates::loop_subdivide_whole(2, &indices, &coords, &[])?;
/// let sharp = plates::loop_subdivide_whole(2, &indices, &coords, &[2])?;
/// assert_eq!(soft.faces, sharp.faces);
/// assert_ne!(soft.positions, sharp.positions);
/// # Ok::<(), plates::Refusal>(())
/// ```
pub fn loop_subdivide_whole(levels: u32, indices: &[u32], coords: &[i32], sharp: &[u32]) -> Result<Mesh, Refusal> {
    subdivide(plates_loop_subdivide_whole, levels, indices, coords, sharp)
}

/// The same answers by the plain engine, which keeps no links between faces. Its time grows with the square of the faces: it is for comparing.
pub fn loop_subdivide_plain(levels: u32, indices: &[u32], coords: &[i32], sharp: &[u32]) -> Result<Mesh, Refusal> {
    subdivide(plates_loop_subdivide_plain, levels, indices, coords, sharp)
}

/// The f32 engine, with normals.
pub fn loop_subdivide(levels: u32, indices: &[u32], coords: &[f32]) -> Result<FloatMesh, Refusal> {
    let mut positions = vec![0f32; 3 * MOST];
    let mut normals = vec![0f32; 3 * MOST];
    let mut out = vec![0u32; 3 * MOST];
    let mut words = vec![0u32; 24 * MOST];
    let mut work = vec![0f32; 6 * MOST];
    let mut told = [0u32; 5];
    // SAFETY: as above.
    unsafe {
        plates_loop_subdivide(
            levels,
            indices.as_ptr(), indices.len(),
            coords.as_ptr(), coords.len(),
            positions.as_mut_ptr(), positions.len(),
            normals.as_mut_ptr(), normals.len(),
            out.as_mut_ptr(), out.len(),
            words.as_mut_ptr(), words.len(),
            work.as_mut_ptr(), work.len(),
            &mut told,
        );
    }
    let [number, place, vertices, faces, rim_sides] = told;
    if number != 0 {
        return Err(Refusal { number, place });
    }
    let of_each = 3 * vertices as usize;
    Ok(FloatMesh { positions: threes(&positions[..of_each]), normals: threes(&normals[..of_each]), faces: threes(&out[..3 * faces as usize]), rim_sides })
}

/// The whole engine on a sheet, of any bytes.
pub fn subdivide_sheet(sheet: &[u8]) -> Result<Mesh, Refusal> {
    let mut positions = vec![0i32; 3 * MOST];
    let mut out = vec![0u32; 3 * MOST];
    let mut words = vec![0u32; 24 * MOST];
    let mut work = vec![0i32; 6 * MOST];
    let mut told = [0u32; 5];
    // SAFETY: as above.
    unsafe {
        plates_subdivide_sheet(
            sheet.as_ptr(), sheet.len(),
            positions.as_mut_ptr(), positions.len(),
            out.as_mut_ptr(), out.len(),
            words.as_mut_ptr(), words.len(),
            work.as_mut_ptr(), work.len(),
            &mut told,
        );
    }
    mesh(told, &positions, &out)
}

/// Whether a claim, corners and coordinates of any value, passes as the plate of a cage at level 0 or 1, with a tolerance of 0 to 1,000 micrometres.
pub fn accept(levels: u32, tolerance: u32, cage: (&[u32], &[i32]), claim: (&[u32], &[i32])) -> Result<Verdict, Refusal> {
    let mut positions = vec![0i32; 3 * MOST];
    let mut out = vec![0u32; 3 * MOST];
    let mut words = vec![0u32; 24 * MOST];
    let mut work = vec![0i32; 6 * MOST];
    let mut told = [0u32; 6];
    // SAFETY: as above.
    unsafe {
        plates_accept(
            levels, tolerance,
            cage.0.as_ptr(), cage.0.len(),
            cage.1.as_ptr(), cage.1.len(),
            claim.0.as_ptr(), claim.0.len(),
            claim.1.as_ptr(), claim.1.len(),
            positions.as_mut_ptr(), positions.len(),
            out.as_mut_ptr(), out.len(),
            words.as_mut_ptr(), words.len(),
            work.as_mut_ptr(), work.len(),
            &mut told,
        );
    }
    match told {
        [0, _, 1, ..] => Ok(Verdict::Yes),
        [0, _, _, 1, ..] => Ok(Verdict::CountsDiffer),
        [0, _, _, 2, face, _] => Ok(Verdict::FaceDiffers(face)),
        [0, _, _, _, coordinate, needs] => Ok(Verdict::TooFar { coordinate, needs }),
        [number, place, ..] => Err(Refusal { number, place }),
    }
}

/// The sheet of a cage, or why there is none. Every list of numbers gets one or the other.
pub fn write_sheet(levels: u32, indices: &[u32], coords: &[i32]) -> Result<Vec<u8>, Refusal> {
    let mut bytes = vec![0u8; MOST_BYTES];
    let mut told = [0u32; 3];
    // SAFETY: as above.
    unsafe {
        plates_write_sheet(
            levels,
            indices.as_ptr(), indices.len(),
            coords.as_ptr(), coords.len(),
            bytes.as_mut_ptr(), bytes.len(),
            &mut told,
        );
    }
    let [number, place, length] = told;
    if number != 0 {
        return Err(Refusal { number, place });
    }
    bytes.truncate(length as usize);
    Ok(bytes)
}

/// A font's sheets in one call: 19 for all of them, or a mesh or a refusal for each. There is room for the largest mesh in all; a sheet that no longer fits is refused 14.
pub fn subdivide_sheets(sheets: &[&[u8]]) -> Result<Vec<Result<Mesh, Refusal>>, Refusal> {
    let lengths: Vec<u32> = sheets.iter().map(|s| u32::try_from(s.len()).unwrap_or(u32::MAX)).collect();
    let bytes = sheets.concat();
    let mut positions = vec![0i32; 3 * MOST];
    let mut out = vec![0u32; 3 * MOST];
    let mut words = vec![0u32; 24 * MOST];
    let mut work = vec![0i32; 6 * MOST];
    let mut answers = vec![0u32; 5 * sheets.len()];
    // SAFETY: as above.
    let number = unsafe {
        plates_subdivide_sheets(
            bytes.as_ptr(), bytes.len(),
            lengths.as_ptr(), lengths.len(),
            positions.as_mut_ptr(), positions.len(),
            out.as_mut_ptr(), out.len(),
            words.as_mut_ptr(), words.len(),
            work.as_mut_ptr(), work.len(),
            answers.as_mut_ptr(), answers.len(),
        )
    };
    if number != 0 {
        return Err(Refusal { number, place: 0 });
    }
    let (mut p, mut q) = (0, 0);
    Ok(answers
        .chunks_exact(5)
        .map(|a| {
            if a[0] != 0 {
                return Err(Refusal { number: a[0], place: a[1] });
            }
            let (from, start) = (p, q);
            p += 3 * a[2] as usize;
            q += 3 * a[3] as usize;
            Ok(Mesh { positions: threes(&positions[from..p]), faces: threes(&out[start..q]), rim_sides: a[4] })
        })
        .collect())
}

/// The rim of a plate as loops of points, in the faces' direction, for a tool that follows it. A closed plate has none.
///
/// ```
/// let loops = plates::outline(0, &[0, 1, 2], &[0, 0, 0, 8, 0, 0, 0, 8, 0])?;
/// assert_eq!(loops, [[[1, 1, 0], [5, 1, 0], [1, 5, 0]]]);
/// # Ok::<(), plates::Refusal>(())
/// ```
pub fn outline(levels: u32, indices: &[u32], coords: &[i32]) -> Result<Vec<Vec<[i32; 3]>>, Refusal> {
    let mut positions = vec![0i32; 3 * MOST];
    let mut out = vec![0u32; 3 * MOST];
    let mut words = vec![0u32; 24 * MOST];
    let mut work = vec![0i32; 6 * MOST];
    let mut list = vec![0u32; MOST + MOST_LOOPS];
    let mut told = [0u32; 4];
    // SAFETY: as above.
    unsafe {
        plates_rim_loops(
            levels,
            indices.as_ptr(), indices.len(),
            coords.as_ptr(), coords.len(),
            positions.as_mut_ptr(), positions.len(),
            out.as_mut_ptr(), out.len(),
            words.as_mut_ptr(), words.len(),
            work.as_mut_ptr(), work.len(),
            list.as_mut_ptr(), list.len(),
            &mut told,
        );
    }
    let [number, place, loops, _] = told;
    if number != 0 {
        return Err(Refusal { number, place });
    }
    let points = threes(&positions);
    let mut entries = list.into_iter();
    Ok((0..loops).map(|_| {
        let length = entries.next().map_or(0, |n| n as usize);
        entries.by_ref().take(length).map(|v| points[v as usize]).collect()
    }).collect())
}

/// The OBJ text of lists, corners counted from 0; or 25.
///
/// ```
/// let text = plates::write_obj(&[0, 0, 0, 8, 0, 0, 0, 8, 0], &[0, 1, 2])?;
/// assert_eq!(text, b"v 0 0 0\nv 8 0 0\nv 0 8 0\nf 1 2 3\n");
/// assert_eq!(plates::read_obj(&text)?, (vec![0, 0, 0, 8, 0, 0, 0, 8, 0], vec![0, 1, 2]));
/// # Ok::<(), plates::Refusal>(())
/// ```
pub fn write_obj(coords: &[i32], corners: &[u32]) -> Result<Vec<u8>, Refusal> {
    let mut text = vec![0u8; MOST_TEXT];
    let mut told = [0u32; 3];
    // SAFETY: as above.
    unsafe {
        plates_write_obj(
            coords.as_ptr(), coords.len(),
            corners.as_ptr(), corners.len(),
            text.as_mut_ptr(), text.len(),
            &mut told,
        );
    }
    let [number, place, length] = told;
    if number != 0 {
        return Err(Refusal { number, place });
    }
    text.truncate(length as usize);
    Ok(text)
}

/// Coordinates and corners of an OBJ text of exactly that form; or 23, whose place is the byte where it breaks.
pub fn read_obj(text: &[u8]) -> Result<(Vec<i32>, Vec<u32>), Refusal> {
    let mut coords = vec![0i32; 3 * MOST];
    let mut corners = vec![0u32; 3 * MOST];
    let mut told = [0u32; 4];
    // SAFETY: as above.
    unsafe {
        plates_read_obj(
            text.as_ptr(), text.len(),
            coords.as_mut_ptr(), coords.len(),
            corners.as_mut_ptr(), corners.len(),
            &mut told,
        );
    }
    let [number, place, vertices, faces] = told;
    if number != 0 {
        return Err(Refusal { number, place });
    }
    coords.truncate(3 * vertices as usize);
    corners.truncate(3 * faces as usize);
    Ok((coords, corners))
}
