/* Cuts a cage through plates.h, and prints how many vertices, faces and rim sides came out, or what the refusal means.

       bin/library
       gcc -I crates/plates -o plate examples/c/plate.c target/staticlib/libplates.a

   The gate builds it so, runs it, and holds what it prints to plate.txt beside it. The library is for x86-64. */
#include <stdio.h>
#include "plates.h"

static const char *meaning(uint32_t refusal) {
    switch (refusal) {
#define CASE(name, meaning, place, remedy) case name: return meaning;
    PLATES_EACH_REFUSAL(CASE)
#undef CASE
    default: return "no refusal";
    }
}

/* Room for every answer, lent to one call after another. */
static int32_t positions[PLATES_ROOM_POSITIONS], work[PLATES_ROOM_WORK];
static uint32_t out[PLATES_ROOM_OUT], words[PLATES_ROOM_WORDS];

static void cut(const char *what, uint32_t levels, const uint32_t *indices, size_t corners, const int32_t *coords, size_t numbers) {
    uint32_t told[5];
    plates_loop_subdivide_whole(levels, indices, corners, coords, numbers, NULL, 0, positions, PLATES_ROOM_POSITIONS, out, PLATES_ROOM_OUT, words, PLATES_ROOM_WORDS,
                                work, PLATES_ROOM_WORK, told);
    if (told[0] != PLATES_DONE)
        printf("%s, levels %u: refused %u at %u, %s\n", what, levels, told[0], told[1], meaning(told[0]));
    else
        printf("%s, levels %u: %u vertices, %u faces, %u rim sides; vertex 0 at %d %d %d\n", what, levels, told[2], told[3], told[4], positions[0], positions[1],
               positions[2]);
}

/* A tent on a square of 20 mm, 9 mm high: vertex 0 is its top. In micrometres. */
static const uint32_t tent[] = {0, 1, 2, 0, 2, 3, 0, 3, 4, 0, 4, 1};
static const int32_t tent_points[] = {10000, 10000, 9000, 0, 0, 0, 20000, 0, 0, 20000, 20000, 0, 0, 20000, 0};

/* Two faces that touch in vertex 0 alone. */
static const uint32_t bow[] = {0, 1, 2, 0, 3, 4};

int main(void) {
    for (uint32_t levels = 0; levels <= 8; levels++)
        cut("a tent", levels, tent, sizeof tent / sizeof *tent, tent_points, sizeof tent_points / sizeof *tent_points);
    cut("a bow", 0, bow, sizeof bow / sizeof *bow, tent_points, sizeof tent_points / sizeof *tent_points);
    return 0;
}
