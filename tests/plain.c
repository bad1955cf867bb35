/* Runs cages through both whole calls of plates.h, the linked one and the plain one: reads them from standard input, each as levels, how many indices, coordinates and sharp sides,
   the lengths of the lent positions, out, words and work, then indices, coordinates and sharp sides, all 32-bit words. Both are lent buffers of those lengths, filled alike before.
   Writes for each the five numbers that the linked call told, those that the plain one told, and what differs, 0 if nothing: bit i, some byte of buffer i, or of the margins before
   and behind it; bit 4, the cage was changed. */
#include <stdint.h>
#include <stdio.h>
#include <stdlib.h>
#include <string.h>
#include "../crates/plates/plates.h"

enum { POSITIONS, OUT, WORDS, WORK, BUFFERS, MARGIN = 16 };
enum { LEVELS, INDICES, COORDS, SHARP, LENT, HEAD = LENT + BUFFERS };

typedef void engine(uint32_t, const uint32_t *, size_t, const int32_t *, size_t, const uint32_t *, size_t, int32_t *, size_t, uint32_t *, size_t, uint32_t *, size_t, int32_t *, size_t, uint32_t *);

/* never 0, and not the same at two neighbouring places */
static uint32_t mark(uint32_t buffer, size_t i) { return (0x5EED0000u ^ buffer << 20 ^ (uint32_t)i * 0x9E3779B2u) | 1; }

static void get(void *to, size_t n) {
    if (fread(to, 4, n, stdin) != n) {
        fprintf(stderr, "a cage ends early\n");
        exit(2);
    }
}

static void put(const void *from, size_t n) {
    if (fwrite(from, 4, n, stdout) != n)
        exit(2);
}

static uint32_t *room(size_t n) {
    uint32_t *p = malloc(4 * n + 4);
    if (!p)
        exit(2);
    return p;
}

static size_t with_margins(const uint32_t *head, uint32_t b) { return head[LENT + b] + (size_t)2 * MARGIN; }

static void run(engine *call, const uint32_t *head, const uint32_t *cage, uint32_t *const *all, uint32_t *told) {
    const int32_t *coords = (const int32_t *)(cage + head[INDICES]);
    const uint32_t *sharp = cage + head[INDICES] + head[COORDS], *lent = head + LENT;
    for (uint32_t b = 0; b < BUFFERS; b++)
        for (size_t i = 0; i < with_margins(head, b); i++)
            all[b][i] = mark(b, i);
    for (uint32_t i = 0; i < 5; i++)
        told[i] = mark(BUFFERS, i);
    call(head[LEVELS], cage, head[INDICES], coords, head[COORDS], sharp, head[SHARP], (int32_t *)all[POSITIONS] + MARGIN, lent[POSITIONS], all[OUT] + MARGIN, lent[OUT], all[WORDS] + MARGIN,
         lent[WORDS], (int32_t *)all[WORK] + MARGIN, lent[WORK], told);
}

int main(void) {
    uint32_t head[HEAD];
    while (fread(head, 4, HEAD, stdin) == HEAD) {
        size_t total = (size_t)head[INDICES] + head[COORDS] + head[SHARP];
        uint32_t *cage = room(total), *copy = room(total), *linked[BUFFERS], *plain[BUFFERS], told[5], also[5], differs = 0;
        get(cage, total);
        memcpy(copy, cage, 4 * total);
        for (uint32_t b = 0; b < BUFFERS; b++) {
            linked[b] = room(with_margins(head, b));
            plain[b] = room(with_margins(head, b));
        }
        run(plates_loop_subdivide_whole, head, cage, linked, told);
        run(plates_loop_subdivide_plain, head, cage, plain, also);
        for (uint32_t b = 0; b < BUFFERS; b++) {
            differs |= (uint32_t)(memcmp(linked[b], plain[b], 4 * with_margins(head, b)) != 0) << b;
            free(linked[b]);
            free(plain[b]);
        }
        differs |= (uint32_t)(memcmp(cage, copy, 4 * total) != 0) << BUFFERS;
        put(told, 5);
        put(also, 5);
        put(&differs, 1);
        free(cage);
        free(copy);
    }
    return 0;
}
