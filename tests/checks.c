/* Judges cages by the crate cage: reads them from standard input, each as kind (0 whole, 1 f32), levels, how many indices, how many coordinates, and those
   numbers, all 32-bit words; writes the five numbers of each answer. With a count, judges each cage so often and prints the nanoseconds of the fastest. */
#include <stdint.h>
#include <stdio.h>
#include <stdlib.h>
#include <time.h>

void cage_judge_whole(uint32_t levels, const uint32_t *indices, size_t n, const int32_t *coords, size_t m, uint32_t *answer);
void cage_judge_single(uint32_t levels, const uint32_t *indices, size_t n, const float *coords, size_t m, uint32_t *answer);

static void words(void *to, size_t n) {
    if (fread(to, 4, n, stdin) != n) {
        fprintf(stderr, "a cage ends early\n");
        exit(2);
    }
}

static void judge(const uint32_t *head, const uint32_t *indices, const void *coords, uint32_t *answer) {
    if (head[0] == 0)
        cage_judge_whole(head[1], indices, head[2], coords, head[3], answer);
    else
        cage_judge_single(head[1], indices, head[2], coords, head[3], answer);
}

static uint64_t nanoseconds(void) {
    struct timespec t;
    clock_gettime(CLOCK_MONOTONIC, &t);
    return (uint64_t)t.tv_sec * 1000000000u + (uint64_t)t.tv_nsec;
}

int main(int argc, char **argv) {
    int rounds = argc > 1 ? atoi(argv[1]) : 0;
    uint32_t head[4], answer[5];
    while (fread(head, 4, 4, stdin) == 4) {
        uint32_t *indices = malloc(4 * (size_t)head[2] + 4);
        uint32_t *coords = malloc(4 * (size_t)head[3] + 4);
        if (!indices || !coords)
            return 2;
        words(indices, head[2]);
        words(coords, head[3]);
        uint64_t best = UINT64_MAX;
        for (int i = 0; i < rounds; i++) {
            uint64_t began = nanoseconds();
            judge(head, indices, coords, answer);
            uint64_t took = nanoseconds() - began;
            best = took < best ? took : best;
        }
        if (rounds == 0) {
            judge(head, indices, coords, answer);
            fwrite(answer, 4, 5, stdout);
        } else {
            printf("%llu\n", (unsigned long long)best);
        }
        free(indices);
        free(coords);
    }
    return 0;
}
