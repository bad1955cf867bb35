/* Runs cages through plates_rim_loops and, beside it, plates_loop_subdivide_whole: reads them from standard input, each as levels, how many indices and coordinates, the lengths
   of the lent positions, out, words, work and list, then indices and coordinates, all 32-bit words. Writes for each the five numbers of the whole call, the four of rim_loops and
   what was harmed, 0 if nothing; after success of the whole call the faces that it wrote, after success of rim_loops the used front of the list.

   Harmed: bit 0, a buffer or its margins differ from what the whole call leaves (after 20, from what they were); bit 1, the list outside its used front; bit 2, the cage.

   `rims whole N` and `rims loops N` read one cage and run it N times through the one call or the other, and write nothing: to count what each costs. */
#include <stdint.h>
#include <stdio.h>
#include <stdlib.h>
#include <string.h>
#include "../crates/plates/plates.h"

enum { POSITIONS, OUT, WORDS, WORK, LIST, BUFFERS, MARGIN = 16 };

struct cage {
    uint32_t levels, indices, coords, lent[BUFFERS];
};

static uint32_t mark(uint32_t b, size_t i) { return (0x5EED0000u ^ b << 20 ^ (uint32_t)i * 0x9E3779B2u) | 1; }

static uint32_t *room(size_t n) {
    uint32_t *p = malloc(4 * n + 4);
    if (!p)
        exit(2);
    return p;
}

static void put(const void *from, size_t n) {
    if (fwrite(from, 4, n, stdout) != n)
        exit(2);
}

static uint32_t *numbers(const struct cage *h) {
    size_t total = (size_t)h->indices + h->coords;
    uint32_t *p = room(total);
    if (fread(p, 4, total, stdin) != total) {
        fprintf(stderr, "a cage ends early\n");
        exit(2);
    }
    return p;
}

static size_t all_of(const struct cage *h, uint32_t b) { return (size_t)h->lent[b] + 2 * MARGIN; }

static void marked(const struct cage *h, uint32_t **all) {
    for (uint32_t b = 0; b < BUFFERS; b++) {
        all[b] = room(all_of(h, b));
        for (size_t i = 0; i < all_of(h, b); i++)
            all[b][i] = mark(b, i);
    }
}

static void whole(const struct cage *h, const uint32_t *cage, uint32_t **all, uint32_t *five) {
    plates_loop_subdivide_whole(h->levels, cage, h->indices, (const int32_t *)(cage + h->indices), h->coords, NULL, 0, (int32_t *)(all[POSITIONS] + MARGIN), h->lent[POSITIONS],
                                all[OUT] + MARGIN, h->lent[OUT], all[WORDS] + MARGIN, h->lent[WORDS], (int32_t *)(all[WORK] + MARGIN), h->lent[WORK], five);
}

static void loops(const struct cage *h, const uint32_t *cage, uint32_t **all, uint32_t *four) {
    plates_rim_loops(h->levels, cage, h->indices, (const int32_t *)(cage + h->indices), h->coords, (int32_t *)(all[POSITIONS] + MARGIN), h->lent[POSITIONS], all[OUT] + MARGIN,
                     h->lent[OUT], all[WORDS] + MARGIN, h->lent[WORDS], (int32_t *)(all[WORK] + MARGIN), h->lent[WORK], all[LIST] + MARGIN, h->lent[LIST], four);
}

static int again(const char *how, int times) {
    struct cage h;
    uint32_t *all[BUFFERS], told[5];
    if (fread(&h, sizeof h, 1, stdin) != 1)
        return 2;
    uint32_t *cage = numbers(&h);
    marked(&h, all);
    for (int n = 0; n < times; n++)
        (how[0] == 'w' ? whole : loops)(&h, cage, all, told);
    return told[0] != 0;
}

int main(int words, char **word) {
    struct cage h;
    if (words == 3)
        return again(word[1], atoi(word[2]));
    while (fread(&h, sizeof h, 1, stdin) == 1) {
        size_t total = (size_t)h.indices + h.coords;
        uint32_t *cage = numbers(&h), *copy = room(total), *plain[BUFFERS], *traced[BUFFERS], five[5], four[4], harmed = 0;
        memcpy(copy, cage, 4 * total);
        marked(&h, plain);
        marked(&h, traced);
        loops(&h, cage, traced, four);
        if (four[0] != 20)
            whole(&h, cage, plain, five);
        for (uint32_t b = POSITIONS; b < LIST; b++)
            if (memcmp(plain[b], traced[b], 4 * all_of(&h, b)))
                harmed |= 1;
        if (four[0] == 20)
            whole(&h, cage, plain, five);
        size_t used = four[0] ? 0 : (size_t)four[2] + four[3];
        for (size_t i = 0; i < all_of(&h, LIST); i++)
            if ((i < MARGIN || i >= MARGIN + used) && traced[LIST][i] != mark(LIST, i))
                harmed |= 2;
        if (memcmp(cage, copy, 4 * total))
            harmed |= 4;
        put(five, 5);
        put(four, 4);
        put(&harmed, 1);
        if (!five[0])
            put(plain[OUT] + MARGIN, 3 * (size_t)five[3]);
        put(traced[LIST] + MARGIN, used < h.lent[LIST] ? used : h.lent[LIST]);
        for (uint32_t b = 0; b < BUFFERS; b++)
            free(plain[b]), free(traced[b]);
        free(cage);
        free(copy);
    }
    return 0;
}
