/* Runs lists through plates_write_sheet: reads them from standard input, each as levels, how many indices and coordinates, how many bytes are lent, then indices and
   coordinates, all 32-bit words. Writes for each the three numbers told; 1 if the lists were harmed, else 0; and all the bytes as they stand afterwards, with a margin
   before and after those that were lent. Byte i of all holds i * 37 % 251 + 1 beforehand. */
#include <stdint.h>
#include <stdio.h>
#include <stdlib.h>
#include <string.h>
#include "../crates/plates/plates.h"

enum { MARGIN = 32 };

static void *room(size_t n) {
    void *p = malloc(n ? n : 1);
    if (!p)
        exit(2);
    return p;
}

static void put(const void *from, size_t size, size_t n) {
    if (fwrite(from, size, n, stdout) != n)
        exit(2);
}

int main(void) {
    uint32_t head[4];
    while (fread(head, 4, 4, stdin) == 4) {
        size_t total = (size_t)head[1] + head[2], all = head[3] + (size_t)(2 * MARGIN);
        uint32_t *lists = room(4 * total), *copy = room(4 * total), told[3], harmed;
        uint8_t *bytes = room(all);
        if (fread(lists, 4, total, stdin) != total) {
            fprintf(stderr, "the lists end early\n");
            return 2;
        }
        memcpy(copy, lists, 4 * total);
        for (size_t i = 0; i < all; i++)
            bytes[i] = (uint8_t)(i * 37 % 251 + 1);
        plates_write_sheet(head[0], lists, head[1], (int32_t *)(lists + head[1]), head[2], bytes + MARGIN, head[3], told);
        harmed = memcmp(lists, copy, 4 * total) != 0;
        put(told, 4, 3);
        put(&harmed, 4, 1);
        put(bytes, 1, all);
        free(lists);
        free(copy);
        free(bytes);
    }
    return 0;
}
