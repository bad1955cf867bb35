/* Runs claims through plates_accept: reads them from standard input, each as levels, tolerance, how many indices, coordinates, claimed corners and claimed coordinates, the lengths
   of the lent positions, out, words and work, then the four lists, all 32-bit words. Writes for each the six numbers told, and what was harmed, 0 if nothing: bit i, buffer i is
   not, margins and all, as the whole call leaves it, or after a refusal as it was; bit 4, a list. */
#include <stdint.h>
#include <stdio.h>
#include <stdlib.h>
#include <string.h>
#include "../crates/plates/plates.h"

enum { POSITIONS, OUT, WORDS, WORK, BUFFERS, MARGIN = 16 };
enum { LEVELS, TOLERANCE, INDICES, COORDS, THEIRS, CLAIMED, LENT, HEAD = LENT + BUFFERS };

static uint32_t *room(size_t n) {
    uint32_t *p = malloc(4 * n + 1);
    if (!p)
        exit(2);
    return p;
}

static uint32_t *marked(uint32_t buffer, size_t n) {
    uint32_t *p = room(n + 2 * MARGIN);
    for (size_t i = 0; i < n + 2 * MARGIN; i++)
        p[i] = (0x5EED0000u ^ buffer << 20 ^ (uint32_t)i * 0x9E3779B2u) | 1;
    return p;
}

int main(void) {
    uint32_t head[HEAD];
    while (fread(head, 4, HEAD, stdin) == HEAD) {
        const uint32_t *lent = head + LENT;
        size_t total = (size_t)head[INDICES] + head[COORDS] + head[THEIRS] + head[CLAIMED];
        uint32_t *lists = room(total), *copy = room(total), *left[BUFFERS], *wanted[BUFFERS], told[7], five[5];
        if (fread(lists, 4, total, stdin) != total) {
            fprintf(stderr, "a claim ends early\n");
            return 2;
        }
        memcpy(copy, lists, 4 * total);
        for (uint32_t b = 0; b < BUFFERS; b++) {
            left[b] = marked(b, lent[b]);
            wanted[b] = marked(b, lent[b]);
        }
        const uint32_t *theirs = lists + head[INDICES] + head[COORDS];
        const int32_t *coords = (int32_t *)(lists + head[INDICES]), *claimed = (int32_t *)(theirs + head[THEIRS]);
        plates_accept(head[LEVELS], head[TOLERANCE], lists, head[INDICES], coords, head[COORDS], theirs, head[THEIRS], claimed, head[CLAIMED],
                      (int32_t *)(left[POSITIONS] + MARGIN), lent[POSITIONS], left[OUT] + MARGIN, lent[OUT], left[WORDS] + MARGIN, lent[WORDS],
                      (int32_t *)(left[WORK] + MARGIN), lent[WORK], told);
        if (!told[0])
            plates_loop_subdivide_whole(head[LEVELS], lists, head[INDICES], coords, head[COORDS], NULL, 0, (int32_t *)(wanted[POSITIONS] + MARGIN), lent[POSITIONS],
                                        wanted[OUT] + MARGIN, lent[OUT], wanted[WORDS] + MARGIN, lent[WORDS], (int32_t *)(wanted[WORK] + MARGIN), lent[WORK], five);
        told[6] = (uint32_t)(memcmp(lists, copy, 4 * total) != 0) << BUFFERS;
        for (uint32_t b = 0; b < BUFFERS; b++) {
            told[6] |= (uint32_t)(memcmp(left[b], wanted[b], 4 * ((size_t)lent[b] + 2 * MARGIN)) != 0) << b;
            free(left[b]);
            free(wanted[b]);
        }
        if (fwrite(told, 4, 7, stdout) != 7)
            return 2;
        free(lists);
        free(copy);
    }
    return 0;
}
