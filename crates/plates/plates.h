/* Loop subdivision to the limit surface. No call allocates, keeps anything between calls, or reads or writes past the lengths that it is given.

   A cage is `levels` (0 to 7), `indices`, three corner numbers to a face, and `coords`, three coordinates to a vertex. Lengths count entries, not bytes, and may be
   anything: a cage or a buffer that will not do is refused. The buffers that are written (positions, normals, out, words, work, list, told) must not overlap each other, the
   cage or `sharp`. A pointer may be NULL where its length is 0, as an empty vector's is; `told` may not.

   With F faces and V vertices at the last level, positions and normals need 3V entries, out 3F, words 16F+8V, work 6V. After success each has its result in front,
   the needed part of words and work is zero, and entries past the needed length are unchanged. A refusal writes nothing but `told`. One level makes 4F faces and V+E
   vertices, E being the edges; the lengths PLATES_ROOM_.. do for every cage that is accepted.

   told[0] is 0 and told[2], told[3], told[4] are the vertices, faces and rim sides of the last level; or told[0] is a refusal's number, told[1] its place
   (docs/HANDBOOK.md), and the rest is 0.

   Any number of threads may call at once, each with buffers of its own; a cage may be shared. A call on lists takes less than PLATES_STACK bytes of its
   thread's stack, a call on sheets, the one for rim loops and that on a claim less than PLATES_STACK_SHEET; the calls on OBJ text take little. */
#ifndef PLATES_H
#define PLATES_H

#include <stddef.h>
#include <stdint.h>

#ifdef __cplusplus
extern "C" {
#endif

/* Counts up when something in this file changes, or what a call answers. */
#define PLATES_VERSION 13

/* The stack that a call may take, in bytes: give a thread as much, and what its own functions take besides. Where a system gives a thread 128 KB, the calls on lists run in it;
   a call on sheets holds the sheet's lists too, the one for rim loops tables of the cage, that on a claim the cage's words. */
#define PLATES_STACK 114688       /* 112 KB */
#define PLATES_STACK_SHEET 212992 /* 208 KB */

/* The most faces and vertices of a control cage, and of a level. */
#define PLATES_MOST_IN_CAGE 4096
#define PLATES_MOST 32768

/* Room that always does, in entries: for 32,768 faces and vertices. */
#define PLATES_ROOM_POSITIONS (3 * PLATES_MOST) /* 98,304; as many normals */
#define PLATES_ROOM_OUT (3 * PLATES_MOST)       /* 98,304 */
#define PLATES_ROOM_WORDS (24 * PLATES_MOST)    /* 786,432, as 16F+8V */
#define PLATES_ROOM_WORK (6 * PLATES_MOST)      /* 196,608 */
#define PLATES_ROOM_LIST (PLATES_MOST + PLATES_MOST_IN_CAGE / 3) /* 34,133: every vertex on the rim, and as many loops as a cage can have, of three sides each */
#define PLATES_ROOM_TEXT (58 * PLATES_MOST)     /* 1,900,544 bytes of OBJ text: 38 of a `v` line, 20 of an `f` line */

/* What told[0] says: docs/HANDBOOK.md has a section on each. (16 is the programs' alone: the input is too long. 11 is not used.) PLATES_EACH_REFUSAL(USE) is USE(name, meaning, place, remedy) of
   each but PLATES_DONE, the last three as strings: what it means, what the place is, what to do. */
/* made by docs/make-texts */
enum plates_refusal {
    PLATES_DONE = 0,
    PLATES_TOO_MANY_LEVELS = 1,
    PLATES_LIST_CUT_OFF = 2,
    PLATES_CAGE_TOO_LARGE = 3,
    PLATES_COORDINATE_OUT_OF_RANGE = 4,
    PLATES_CORNER_NAMES_NO_VERTEX = 5,
    PLATES_EQUAL_CORNERS = 6,
    PLATES_SIDE_USED_TWICE = 7,
    PLATES_FACE_ON_ANOTHER = 8,
    PLATES_VERTEX_ON_NO_FACE = 9,
    PLATES_TWO_FANS = 10,
    PLATES_TOO_MANY_RAYS = 12,
    PLATES_LAST_LEVEL_TOO_LARGE = 13,
    PLATES_BUFFER_SHORT = 14,
    PLATES_NOT_A_SHEET = 15,
    PLATES_NO_ROOM_FOR_SHEET = 17,
    PLATES_SIDE_CANNOT_BE_SHARP = 18,
    PLATES_BAD_BATCH = 19,
    PLATES_NO_ROOM_FOR_LOOPS = 20,
    PLATES_CLAIM_NOT_JUDGED = 21,
    PLATES_NO_ROOM_FOR_TEXT = 22,
    PLATES_NOT_OF_THE_FORM = 23,
    PLATES_NO_ROOM_FOR_LISTS = 24,
    PLATES_NO_TEXT = 25
};
#define PLATES_EACH_REFUSAL(USE) \
    USE(PLATES_TOO_MANY_LEVELS, "too many levels", "always 0", "ask for 7 or fewer") \
    USE(PLATES_LIST_CUT_OFF, "a list is cut off", "0 for the corners, 1 for the coordinates", "give three corners to a face and three coordinates to a vertex") \
    USE(PLATES_CAGE_TOO_LARGE, "the control cage is too large", "0 for its faces, 1 for its vertices", "use a coarser cage and one more level") \
    USE(PLATES_COORDINATE_OUT_OF_RANGE, "a coordinate is out of range", "the coordinate, three to a vertex", "look for a wrong unit") \
    USE(PLATES_CORNER_NAMES_NO_VERTEX, "a corner names no vertex", "the corner, three to a face", "number the vertices from 0") \
    USE(PLATES_EQUAL_CORNERS, "a face with equal corners", "the face", "leave it out") \
    USE(PLATES_SIDE_USED_TWICE, "a side is used twice in the same direction", "the side, three to a face", "turn the face over, or take one away where three meet at an edge") \
    USE(PLATES_FACE_ON_ANOTHER, "a face on top of another", "the later face", "leave one of the two out, or give the plate thickness") \
    USE(PLATES_VERTEX_ON_NO_FACE, "a vertex on no face", "the vertex", "take it out") \
    USE(PLATES_TWO_FANS, "two fans meet in one point", "the vertex", "give each fan a vertex of its own") \
    USE(PLATES_TOO_MANY_RAYS, "too many rays", "the vertex", "split the hub in two") \
    USE(PLATES_LAST_LEVEL_TOO_LARGE, "the last level is too large", "always 0", "take a level less") \
    USE(PLATES_BUFFER_SHORT, "a lent buffer is short", "the buffer: 0 positions, 1 normals, 2 indices, 3 work words, 4 work coordinates", "with `platecut` take a level less or use the library; from C lend more") \
    USE(PLATES_NOT_A_SHEET, "not a sheet", "always 0", "see that something comes in, and write the sheet again") \
    USE(PLATES_NO_ROOM_FOR_SHEET, "no room for the sheet", "always 0", "lend the writer 98,324 bytes") \
    USE(PLATES_SIDE_CANNOT_BE_SHARP, "a listed side cannot be sharp", "its index in the list of sharp sides", "take it out of the list, or name the side that you mean") \
    USE(PLATES_BAD_BATCH, "the batch does not add up", "always 0", "cut at most 64 sheets at once; from C look at the lengths, and lend five answer entries a sheet") \
    USE(PLATES_NO_ROOM_FOR_LOOPS, "no room for the loops", "always 0", "lend the list 34,133 entries") \
    USE(PLATES_CLAIM_NOT_JUDGED, "a claim is not judged at that tolerance or level", "always 0", "give a tolerance from 0 to 1,000, and a cage at level 0 or 1") \
    USE(PLATES_NO_ROOM_FOR_TEXT, "no room for the text", "always 0", "lend 1,900,544 bytes, which is room for every text") \
    USE(PLATES_NOT_OF_THE_FORM, "not of the form", "the first byte that cannot stand, or the length", "look at that byte; export in the plain form, whole micrometres, or let `bin/sheet` read it") \
    USE(PLATES_NO_ROOM_FOR_LISTS, "no room for the lists", "always 0", "lend 98,304 entries to each list, which is room for every text") \
    USE(PLATES_NO_TEXT, "no text for these lists", "always 0", "give three numbers to a vertex and a face, corners from 0 that name a vertex, at most 32,768 of each")
/* made thus far */

/* Whole micrometres, -1,000,000,000 to 1,000,000,000. `sharp` lists sides whose edges stay sharp (docs/RULES.md): side 3 f + k of face f runs from its corner k to the next.
   An edge may be named from either of its faces or from both, in any order and as often as one likes; an edge on the rim may not. At sharp_length 0 no edge is sharp. */
void plates_loop_subdivide_whole(uint32_t levels,
                                 const uint32_t *indices, size_t indices_length,
                                 const int32_t *coords, size_t coords_length,
                                 const uint32_t *sharp, size_t sharp_length,
                                 int32_t *positions, size_t positions_length,
                                 uint32_t *out, size_t out_length,
                                 uint32_t *words, size_t words_length,
                                 int32_t *work, size_t work_length,
                                 uint32_t told[5]);

/* The same call by the plain engine, which keeps no links between faces: it finds the other face of an edge, the fan of a vertex and the number of an edge by looking through the
   face list, each time anew. Lent the same, it tells the same five numbers and leaves the same in every buffer, as is proved. For comparing: its time grows with the square of the
   last level's faces (docs/BENCH.md). */
void plates_loop_subdivide_plain(uint32_t levels,
                                 const uint32_t *indices, size_t indices_length,
                                 const int32_t *coords, size_t coords_length,
                                 const uint32_t *sharp, size_t sharp_length,
                                 int32_t *positions, size_t positions_length,
                                 uint32_t *out, size_t out_length,
                                 uint32_t *words, size_t words_length,
                                 int32_t *work, size_t work_length,
                                 uint32_t told[5]);

/* f32, finite and of size at most 2^40; with normals, which are not made unit. They point to the side from which the faces turn clockwise: a face (0,0,0), (1,0,0),
   (0,1,0) has them along -z. Negate them for the other habit. */
void plates_loop_subdivide(uint32_t levels,
                           const uint32_t *indices, size_t indices_length,
                           const float *coords, size_t coords_length,
                           float *positions, size_t positions_length,
                           float *normals, size_t normals_length,
                           uint32_t *out, size_t out_length,
                           uint32_t *words, size_t words_length,
                           float *work, size_t work_length,
                           uint32_t told[5]);

/* The whole call on a sheet: `bytes` has the vertex block, the face block and the trailer of five numbers, little endian (docs/RULES.md). */
void plates_subdivide_sheet(const uint8_t *bytes, size_t bytes_length,
                            int32_t *positions, size_t positions_length,
                            uint32_t *out, size_t out_length,
                            uint32_t *words, size_t words_length,
                            int32_t *work, size_t work_length,
                            uint32_t told[5]);

/* A sheet from bare lists, in whole micrometres, into the front of `bytes`: 12V+12F+20 bytes, never over 98,324. told[0] is 0 and told[2] the sheet's length; or told[0]
   is a refusal's number, 1 to 12 as of a cage or 17 where `bytes` is too short, told[1] its place and told[2] 0, and no byte is written. Bytes past the length are
   unchanged. 13 and 14 are not asked: they are the cut's. `bytes` and told must not overlap each other or the lists. */
void plates_write_sheet(uint32_t levels,
                        const uint32_t *indices, size_t indices_length,
                        const int32_t *coords, size_t coords_length,
                        uint8_t *bytes, size_t bytes_length,
                        uint32_t told[3]);

/* Up to 64 sheets laid end to end in `bytes`, each as long as `lengths` says, in bytes. Returns PLATES_BAD_BATCH, and writes nothing, if there are more than 64, if the lengths
   do not add up to bytes_length, or if answers has fewer than five entries for each sheet. Else it returns 0, and entries 5k to 5k+4 of answers are what told would be of sheet k
   by itself with the room still free: outputs stand one after the other in positions and out, a refused sheet takes no room, and words and work serve each sheet in turn. Indices
   count from 0 in each sheet. Entries of answers past the last sheet's are unchanged. */
uint32_t plates_subdivide_sheets(const uint8_t *bytes, size_t bytes_length,
                                 const uint32_t *lengths, size_t lengths_length,
                                 int32_t *positions, size_t positions_length,
                                 uint32_t *out, size_t out_length,
                                 uint32_t *words, size_t words_length,
                                 int32_t *work, size_t work_length,
                                 uint32_t *answers, size_t answers_length);

/* The whole call with no sharp edge, and the rim of the last level as loops of vertex numbers in the front of `list`: each loop's length, then its vertices along the rim in the
   faces' direction, from the lowest on; the loops in order of that vertex. told[0] is 0 and told[2], told[3] are the loops and the vertices listed, which take told[2] + told[3]
   entries; entries past them are unchanged. Or told[0] is a refusal's number as of the whole call, or 20 where `list` is too short, told[1] its place, the rest 0, and nothing
   else is written. A closed mesh has no loops and needs no list. After L levels the rim has 2^L times the rim sides of the cage, in as many loops as the cage's. */
void plates_rim_loops(uint32_t levels,
                      const uint32_t *indices, size_t indices_length,
                      const int32_t *coords, size_t coords_length,
                      int32_t *positions, size_t positions_length,
                      uint32_t *out, size_t out_length,
                      uint32_t *words, size_t words_length,
                      int32_t *work, size_t work_length,
                      uint32_t *list, size_t list_length,
                      uint32_t told[4]);

/* A mesh as OBJ text, at the front of `text`: a line `v x y z` for each three coordinates, in whole micrometres, then a line `f a b c` for each three corners. Corners count from 0 in the
   list and from 1 in the text. told[0] is 0 and told[2] the text's length; or told[0] is 25, where no text of this form gives these lists (a list that is no multiple of 3, over
   PLATES_MOST lines of a kind, a coordinate out of range, a corner that names no vertex), or 22 where `text` is too short, told[1] and told[2] are 0, and no byte is written. Bytes past the
   length are unchanged. Faces are not checked further. `text` and told must not overlap each other or the lists. */
void plates_write_obj(const int32_t *coords, size_t coords_length,
                      const uint32_t *corners, size_t corners_length,
                      uint8_t *text, size_t text_length,
                      uint32_t told[3]);

/* OBJ text as a mesh, if it is exactly of the form that plates_write_obj writes. told[0] is 0, told[2] the vertices and told[3] the faces; or told[0] is 23 and told[1] the first byte where
   no such text can go on, or the length where it stops early, or told[0] is 24 where a list is too short, the rest of told is 0, and no list is written. Entries past three for each vertex and
   face are unchanged. The lists and told must not overlap each other or the text. */
void plates_read_obj(const uint8_t *text, size_t text_length,
                     int32_t *coords, size_t coords_length,
                     uint32_t *corners, size_t corners_length,
                     uint32_t told[4]);

/* What told[3] of plates_accept says is wrong. */
enum plates_fault {
    PLATES_NOTHING_WRONG = 0,
    PLATES_COUNTS_DIFFER = 1,
    PLATES_FACE_DIFFERS = 2,
    PLATES_COORDINATE_TOO_FAR = 3
};

/* Does a result that was made elsewhere pass? `theirs` has its corners, three to a face, `claimed` its coordinates in whole micrometres, three to a vertex; any numbers will do.
   It passes exactly when it has as many as the plate at `levels` (0 or 1) has, each of its faces is ours in the same position, begun at whichever corner, and each coordinate
   is at most `tolerance` (0 to 1,000) from the exact limit value, which need not be whole. The lent buffers are left as the whole call leaves them, so the plate that it is held to
   stands in positions and out, on a yes and on a no.

   told[0] is 0, and told[2] is 1 for a yes. For a no told[2] is 0, told[3] says what is wrong first (enum plates_fault), told[4] is the face or the coordinate (3 vertex + axis), and
   told[5] the least tolerance at which that coordinate passes. Or told[0] is a refusal's number, told[1] its place, and the rest is 0: those of the whole call, and
   PLATES_CLAIM_NOT_JUDGED, right after 1, where the tolerance is over 1,000 or the level over 1. A refusal comes before any look at the claim. */
void plates_accept(uint32_t levels, uint32_t tolerance,
                   const uint32_t *indices, size_t indices_length,
                   const int32_t *coords, size_t coords_length,
                   const uint32_t *theirs, size_t theirs_length,
                   const int32_t *claimed, size_t claimed_length,
                   int32_t *positions, size_t positions_length,
                   uint32_t *out, size_t out_length,
                   uint32_t *words, size_t words_length,
                   int32_t *work, size_t work_length,
                   uint32_t told[6]);

#ifdef __cplusplus
}
#endif

#endif
