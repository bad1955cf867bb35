/* The OBJ calls on many texts and lists. Reads cases: 0, the text's length, the lengths lent for coordinates and corners, the text; or 1, how many coordinates and corners, the bytes
   lent, the lists; words of 32 bits, and a text is filled up to whole words. Writes for each what is told, four words; 1 if what was given was harmed or a margin was written to, else 0; and
   what was lent as it stands afterwards. Each word that is lent holds MARK + its index beforehand, each byte index % 251.

   With the words `read N` or `plain N` it reads the first case N times, or goes N times over its bytes in a plain loop: what that costs is for callgrind and the clock, in nanoseconds of the
   fastest time, to say. */
#define _POSIX_C_SOURCE 199309L
#include <stdint.h>
#include <stdio.h>
#include <stdlib.h>
#include <string.h>
#include <time.h>
#include "../crates/plates/plates.h"

enum { MARGIN = 16, MARK = 0x5EED };

static void *room(size_t n) {
    void *p = malloc(n ? n : 1);
    if (!p)
        exit(2);
    return p;
}

static void take(void *to, size_t size, size_t n) {
    if (fread(to, size, n, stdin) != n)
        exit(2);
}

static void put(const void *from, size_t size, size_t n) {
    if (fwrite(from, size, n, stdout) != n)
        exit(2);
}

static uint32_t *words(size_t n) {
    uint32_t *p = room(4 * (n + 2 * MARGIN));
    for (size_t i = 0; i < n + 2 * MARGIN; i++)
        p[i] = (uint32_t)(MARK + i);
    return p;
}

static uint32_t marked(const uint32_t *p, size_t n) {
    uint32_t harmed = 0;
    for (size_t i = 0; i < MARGIN; i++)
        harmed |= p[i] != MARK + i || p[n + MARGIN + i] != MARK + n + MARGIN + i;
    return harmed;
}

static void reading(const uint32_t *head) {
    size_t n = head[1], filled = (n + 3) / 4 * 4;
    uint8_t *text = room(filled), *copy = room(filled);
    uint32_t *coords = words(head[2]), *corners = words(head[3]), told[4], harmed;
    take(text, 1, filled);
    memcpy(copy, text, filled);
    plates_read_obj(text, n, (int32_t *)coords + MARGIN, head[2], corners + MARGIN, head[3], told);
    harmed = memcmp(text, copy, filled) != 0 || marked(coords, head[2]) || marked(corners, head[3]);
    put(told, 4, 4);
    put(&harmed, 4, 1);
    put(coords + MARGIN, 4, head[2]);
    put(corners + MARGIN, 4, head[3]);
    free(text), free(copy), free(coords), free(corners);
}

static void writing(const uint32_t *head) {
    size_t n = head[3], all = n + 2 * MARGIN, total = (size_t)head[1] + head[2];
    uint32_t *lists = room(4 * total), *copy = room(4 * total), told[4] = {0}, harmed;
    uint8_t *text = room(all);
    take(lists, 4, total);
    memcpy(copy, lists, 4 * total);
    for (size_t i = 0; i < all; i++)
        text[i] = (uint8_t)(i % 251);
    plates_write_obj((int32_t *)lists, head[1], lists + head[1], head[2], text + MARGIN, n, told);
    harmed = memcmp(lists, copy, 4 * total) != 0;
    put(told, 4, 4);
    put(&harmed, 4, 1);
    put(text, 1, all);
    free(lists), free(copy), free(text);
}

/* counts digits and adds up numbers: what no reader can do without */
static uint64_t plain(const uint8_t *text, size_t n) {
    uint64_t value = 0, digits = 0, sum = 0;
    for (size_t i = 0; i < n; i++) {
        uint8_t c = text[i];
        if (c >= '0' && c <= '9')
            value = 10 * value + (c - '0'), digits++;
        else
            sum += value, value = 0;
    }
    return sum + digits;
}

static int costs(const char *how, int times) {
    uint32_t head[4], told[4];
    take(head, 4, 4);
    size_t n = head[1];
    uint8_t *text = room(n);
    int32_t *coords = room(4 * (size_t)head[2]);
    uint32_t *corners = room(4 * (size_t)head[3]);
    volatile uint64_t sum = 0;
    long best = -1;
    take(text, 1, n);
    memset(coords, 0, 4 * (size_t)head[2]), memset(corners, 0, 4 * (size_t)head[3]);
    for (int k = 0; k < times; k++) {
        struct timespec from, to;
        clock_gettime(CLOCK_MONOTONIC, &from);
        if (!strcmp(how, "plain"))
            sum += plain(text, n);
        else
            plates_read_obj(text, n, coords, head[2], corners, head[3], told);
        clock_gettime(CLOCK_MONOTONIC, &to);
        long took = (to.tv_sec - from.tv_sec) * 1000000000L + (to.tv_nsec - from.tv_nsec);
        if (best < 0 || took < best)
            best = took;
    }
    printf("%ld\n", best);
    return 0;
}

int main(int words_given, char **word) {
    uint32_t head[4];
    if (words_given == 3)
        return costs(word[1], atoi(word[2]));
    while (fread(head, 4, 4, stdin) == 4)
        if (head[0])
            writing(head);
        else
            reading(head);
    return 0;
}
