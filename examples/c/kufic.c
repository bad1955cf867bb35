/* A letter of square Kufic, a lam, cut with straight strokes and true corners: every edge where two faces meet at an angle is listed as sharp. Prints the plate as platecut
   lists one.

       bin/library
       gcc -I crates/plates -o kufic examples/c/kufic.c target/staticlib/libplates.a

   The gate builds it so, runs it, and holds what it prints to kufic.txt beside it. The library is for x86-64. */
#include <stdio.h>
#include "plates.h"

enum { ROWS = 4, COLUMNS = 3, STROKE = 8000, DEPTH = 5000, LEVELS = 1 }; /* micrometres: strokes 8 mm wide, 5 mm deep */
enum { POINTS = (ROWS + 1) * (COLUMNS + 1), MOST_FACES = 12 * ROWS * COLUMNS };

static const char *const letter[ROWS] = {"..#",
                                         "..#",
                                         "#.#",
                                         "###"};

static uint32_t indices[3 * MOST_FACES], sharp[3 * MOST_FACES], corners, sharps, vertices, number[2][POINTS];
static int32_t coords[6 * POINTS];
static int32_t positions[PLATES_ROOM_POSITIONS], work[PLATES_ROOM_WORK];
static uint32_t out[PLATES_ROOM_OUT], words[PLATES_ROOM_WORDS];

static int filled(int row, int column) { return row >= 0 && row < ROWS && column >= 0 && column < COLUMNS && letter[row][column] == '#'; }

/* The vertex at a point between squares, on the face of the letter (top 1) or at its back; made where it is first asked for. */
static uint32_t vertex(int top, int row, int column) {
    uint32_t *n = &number[top][row * (COLUMNS + 1) + column];
    if (*n == 0) {
        int32_t *p = coords + 3 * vertices;
        p[0] = column * STROKE;
        p[1] = (ROWS - row) * STROKE;
        p[2] = top * DEPTH;
        *n = ++vertices;
    }
    return *n - 1;
}

static void face(uint32_t a, uint32_t b, uint32_t c) {
    indices[corners++] = a;
    indices[corners++] = b;
    indices[corners++] = c;
}

static void square(uint32_t a, uint32_t b, uint32_t c, uint32_t d) {
    face(a, b, c);
    face(a, c, d);
}

/* Face, back, and a wall towards every side where no square follows. */
static void block(int row, int column) {
    static const int down[4] = {1, 1, 0, 0}, right[4] = {0, 1, 1, 0}, next_down[4] = {1, 0, -1, 0}, next_right[4] = {0, 1, 0, -1};
    uint32_t front[4], back[4];
    for (int k = 0; k < 4; k++) {
        front[k] = vertex(1, row + down[k], column + right[k]);
        back[k] = vertex(0, row + down[k], column + right[k]);
    }
    square(front[0], front[1], front[2], front[3]);
    square(back[3], back[2], back[1], back[0]);
    for (int k = 0; k < 4; k++)
        if (!filled(row + next_down[k], column + next_right[k]))
            square(front[(k + 1) % 4], front[k], back[k], back[(k + 1) % 4]);
}

static void normal(uint32_t f, int64_t n[3]) {
    const int32_t *p = coords + 3 * indices[3 * f], *q = coords + 3 * indices[3 * f + 1], *r = coords + 3 * indices[3 * f + 2];
    for (int i = 0; i < 3; i++) {
        int j = (i + 1) % 3, k = (i + 2) % 3;
        n[i] = (int64_t)(q[j] - p[j]) * (r[k] - p[k]) - (int64_t)(q[k] - p[k]) * (r[j] - p[j]);
    }
}

static int at_an_angle(uint32_t f, uint32_t g) {
    int64_t m[3], n[3];
    normal(f, m);
    normal(g, n);
    return m[0] * n[1] != m[1] * n[0] || m[1] * n[2] != m[2] * n[1] || m[2] * n[0] != m[0] * n[2];
}

static uint32_t end_of(uint32_t side) { return indices[side % 3 == 2 ? side - 2 : side + 1]; }

/* Both sides of an edge are listed; one would do. */
static void list_sharp_sides(void) {
    for (uint32_t s = 0; s < corners; s++)
        for (uint32_t t = 0; t < corners; t++)
            if (indices[t] == end_of(s) && end_of(t) == indices[s] && at_an_angle(s / 3, t / 3))
                sharp[sharps++] = s;
}

int main(void) {
    uint32_t told[5];
    for (int row = 0; row < ROWS; row++)
        for (int column = 0; column < COLUMNS; column++)
            if (filled(row, column))
                block(row, column);
    list_sharp_sides();
    plates_loop_subdivide_whole(LEVELS, indices, corners, coords, 3 * vertices, sharp, sharps, positions, PLATES_ROOM_POSITIONS, out, PLATES_ROOM_OUT, words,
                                PLATES_ROOM_WORDS, work, PLATES_ROOM_WORK, told);
    if (told[0] != PLATES_DONE) {
        printf("refused %u at %u\n", told[0], told[1]);
        return 1;
    }
    printf("mesh %u %u %u\n", told[2], told[3], told[4]);
    for (uint32_t v = 0; v < told[2]; v++)
        printf("v %d %d %d\n", positions[3 * v], positions[3 * v + 1], positions[3 * v + 2]);
    for (uint32_t f = 0; f < told[3]; f++)
        printf("f %u %u %u\n", out[3 * f], out[3 * f + 1], out[3 * f + 2]);
    return 0;
}
