/* Runs batches through plates_subdivide_sheets: reads them from standard input, each as how many lengths, how many bytes, the lengths of the lent positions, out, words, work
   and answers, then the lengths, all 32-bit words, then the bytes, filled up to a word. Writes for each the number returned; what was harmed, 0 if nothing; and all five
   buffers as they stand afterwards. Entry i of buffer b holds mark(b, i) beforehand.

   Harmed: bit 0, an entry before or past what was lent; bit 1, the lengths or the bytes; bit 2, plates_subdivide_sheet on each sheet by itself, with the room still free, told
   or left something else.

   `alphabet batch N` and `alphabet single N` read one batch and run it N times, all at once or sheet by sheet, and write nothing: to count what each costs. */
#include <stdint.h>
#include <stdio.h>
#include <stdlib.h>
#include <string.h>
#include "../crates/plates/plates.h"

enum { POSITIONS, OUT, WORDS, WORK, ANSWERS, BUFFERS, MARGIN = 16 };

struct batch {
    uint32_t sheets, bytes, lent[BUFFERS];
};

static uint32_t mark(uint32_t b, size_t i) { return (0x5EED0000u ^ b << 20 ^ (uint32_t)i * 0x9E3779B2u) | 1; }

static void *room(size_t n) {
    void *p = malloc(n ? n : 1);
    if (!p)
        exit(2);
    return p;
}

static void put(const void *from, size_t n) {
    if (fwrite(from, 4, n, stdout) != n)
        exit(2);
}

static void marked(const struct batch *h, uint32_t **all) {
    for (uint32_t b = 0; b < BUFFERS; b++) {
        all[b] = room(4 * ((size_t)h->lent[b] + 2 * MARGIN));
        for (size_t i = 0; i < (size_t)h->lent[b] + 2 * MARGIN; i++)
            all[b][i] = mark(b, i);
    }
}

static uint32_t at_once(const struct batch *h, const uint32_t *lengths, const uint8_t *bytes, uint32_t **all) {
    uint32_t *at[BUFFERS];
    for (int b = 0; b < BUFFERS; b++)
        at[b] = all[b] + MARGIN;
    return plates_subdivide_sheets(bytes, h->bytes, lengths, h->sheets, (int32_t *)at[POSITIONS], h->lent[POSITIONS], at[OUT], h->lent[OUT], at[WORDS], h->lent[WORDS],
                                   (int32_t *)at[WORK], h->lent[WORK], at[ANSWERS], h->lent[ANSWERS]);
}

static void by_itself(const struct batch *h, const uint32_t *lengths, const uint8_t *bytes, uint32_t **all) {
    size_t p = 0, q = 0;
    for (uint32_t k = 0; k < h->sheets; bytes += lengths[k++]) {
        uint32_t *told = all[ANSWERS] + MARGIN + 5 * (size_t)k;
        plates_subdivide_sheet(bytes, lengths[k], (int32_t *)all[POSITIONS] + MARGIN + p, h->lent[POSITIONS] - p, all[OUT] + MARGIN + q, h->lent[OUT] - q, all[WORDS] + MARGIN,
                               h->lent[WORDS], (int32_t *)all[WORK] + MARGIN, h->lent[WORK], told);
        p += 3 * (size_t)told[2];
        q += 3 * (size_t)told[3];
    }
}

static uint32_t harmed_past(const struct batch *h, uint32_t **all) {
    for (uint32_t b = 0; b < BUFFERS; b++)
        for (size_t i = 0; i < MARGIN; i++) {
            size_t past = MARGIN + (size_t)h->lent[b] + i;
            if (all[b][i] != mark(b, i) || all[b][past] != mark(b, past))
                return 1;
        }
    return 0;
}

static uint32_t unlike(const struct batch *h, uint32_t **all, uint32_t **other) {
    for (int b = 0; b < BUFFERS; b++)
        if (memcmp(all[b], other[b], 4 * ((size_t)h->lent[b] + 2 * MARGIN)) != 0)
            return 4;
    return 0;
}

static void release(uint32_t **all) {
    for (int b = 0; b < BUFFERS; b++)
        free(all[b]);
}

int main(int argc, char **argv) {
    struct batch h;
    long times = argc == 3 ? atol(argv[2]) : 0;
    while (fread(&h, 4, 2 + BUFFERS, stdin) == 2 + BUFFERS) {
        size_t words = h.sheets + ((size_t)h.bytes + 3) / 4;
        uint32_t *given = room(4 * words), *copy = room(4 * words), *all[BUFFERS], *other[BUFFERS], number, harmed;
        const uint8_t *bytes = (const uint8_t *)(given + h.sheets);
        if (fread(given, 4, words, stdin) != words) {
            fprintf(stderr, "a batch ends early\n");
            return 2;
        }
        memcpy(copy, given, 4 * words);
        marked(&h, all);
        if (times) {
            for (long n = 0; n < times; n++)
                if (argv[1][0] == 'b')
                    at_once(&h, given, bytes, all);
                else
                    by_itself(&h, given, bytes, all);
        } else {
            number = at_once(&h, given, bytes, all);
            harmed = harmed_past(&h, all) | (memcmp(given, copy, 4 * words) != 0 ? 2 : 0);
            marked(&h, other);
            if (number == 0)
                by_itself(&h, given, bytes, other);
            harmed |= unlike(&h, all, other);
            release(other);
            put(&number, 1);
            put(&harmed, 1);
            for (int b = 0; b < BUFFERS; b++)
                put(all[b] + MARGIN, h.lent[b]);
        }
        release(all);
        free(given);
        free(copy);
    }
    return 0;
}
