/* Runs cages through plates.h: reads them from standard input, each as kind (0 whole, 1 f32, 2 a sheet), levels, how many indices, coordinates and sharp sides, the lengths
   of the lent positions, normals, out, words and work, then indices, coordinates and sharp sides, all 32-bit words. Only a whole cage has sharp sides. A sheet has how many
   bytes in place of how many indices, 0 coordinates, and its bytes filled up to a word. Writes for each the five numbers told; what was harmed, 0 if nothing; and after
   success the needed part of positions, normals and out.

   Harmed: bit i, buffer i holds something else than it must, where that does not depend on the cage: before and past the lent length, past the needed length, all of it
   after a refusal, and zeros in the needed part of words and work. Bit 5, the cage itself. */
#include <stdint.h>
#include <stdio.h>
#include <stdlib.h>
#include <string.h>
#include "../crates/plates/plates.h"

enum { WHOLE, SINGLE, SHEET };
enum { POSITIONS, NORMALS, OUT, WORDS, WORK, BUFFERS, MARGIN = 16 };
enum { KIND, LEVELS, INDICES, COORDS, SHARP, LENT, HEAD = LENT + BUFFERS };

/* never 0, not the same at two neighbouring places, and as an f32 a NaN at every fourth, of either sign, quiet or not */
static uint32_t mark(uint32_t buffer, size_t i) { return (0x5EED0000u ^ buffer << 20 ^ (uint32_t)i * 0x9E3779B2u) | 1 | (i % 4 == 3 ? 0x7F800000u : 0); }

static void get(void *to, size_t n) {
    if (fread(to, 4, n, stdin) != n) {
        fprintf(stderr, "a cage ends early\n");
        exit(2);
    }
}

static void put(const void *from, size_t n) {
    if (fwrite(from, 4, n, stdout) != n)
        exit(2);
}

static uint32_t *room(size_t n) {
    uint32_t *p = malloc(4 * (n + 2 * MARGIN));
    if (!p)
        exit(2);
    return p;
}

static size_t least(size_t a, size_t b) { return a < b ? a : b; }

static void call(const uint32_t *head, uint32_t *cage, uint32_t *const *at, uint32_t *told) {
    const uint32_t *lent = head + LENT, *sharp = cage + head[INDICES] + head[COORDS];
    int32_t *positions = (int32_t *)at[POSITIONS], *work = (int32_t *)at[WORK];
    if (head[KIND] == WHOLE)
        plates_loop_subdivide_whole(head[LEVELS], cage, head[INDICES], (int32_t *)(cage + head[INDICES]), head[COORDS], sharp, head[SHARP], positions, lent[POSITIONS], at[OUT],
                                    lent[OUT], at[WORDS], lent[WORDS], work, lent[WORK], told);
    else if (head[KIND] == SINGLE)
        plates_loop_subdivide(head[LEVELS], cage, head[INDICES], (float *)(cage + head[INDICES]), head[COORDS], (float *)at[POSITIONS], lent[POSITIONS], (float *)at[NORMALS], lent[NORMALS], at[OUT],
                              lent[OUT], at[WORDS], lent[WORDS], (float *)at[WORK], lent[WORK], told);
    else
        plates_subdivide_sheet((uint8_t *)cage, head[INDICES], positions, lent[POSITIONS], at[OUT], lent[OUT], at[WORDS], lent[WORDS], work, lent[WORK], told);
}

int main(void) {
    uint32_t head[HEAD];
    while (fread(head, 4, HEAD, stdin) == HEAD) {
        size_t total = head[KIND] == SHEET ? (head[INDICES] + (size_t)3) / 4 : (size_t)head[INDICES] + head[COORDS] + head[SHARP];
        const uint32_t *lent = head + LENT;
        uint32_t *cage = room(total), *copy = room(total), *all[BUFFERS], *at[BUFFERS], told[5];
        get(cage, total);
        memcpy(copy, cage, 4 * total);
        for (uint32_t b = 0; b < BUFFERS; b++) {
            all[b] = room(lent[b]);
            at[b] = all[b] + MARGIN;
            for (size_t i = 0; i < (size_t)lent[b] + 2 * MARGIN; i++)
                all[b][i] = mark(b, i);
        }
        call(head, cage, at, told);
        size_t v = told[0] ? 0 : told[2], f = told[0] ? 0 : told[3];
        size_t needed[BUFFERS] = {3 * v, head[KIND] == SINGLE ? 3 * v : 0, 3 * f, 16 * f + 8 * v, 6 * v};
        uint32_t harmed = (uint32_t)(memcmp(cage, copy, 4 * total) != 0) << BUFFERS;
        for (uint32_t b = 0; b < BUFFERS; b++) {
            size_t first = least(needed[b], lent[b]);
            for (size_t i = 0; i < (size_t)lent[b] + 2 * MARGIN; i++) {
                int inside = i >= MARGIN && i < MARGIN + first;
                if (!inside ? all[b][i] != mark(b, i) : b >= WORDS && all[b][i] != 0)
                    harmed |= 1u << b;
            }
        }
        put(told, 5);
        put(&harmed, 1);
        put(at[POSITIONS], least(needed[POSITIONS], lent[POSITIONS]));
        put(at[NORMALS], least(needed[NORMALS], lent[NORMALS]));
        put(at[OUT], least(needed[OUT], lent[OUT]));
        for (uint32_t b = 0; b < BUFFERS; b++)
            free(all[b]);
        free(cage);
        free(copy);
    }
    return 0;
}
